/* What the kernel sealed.c and its process sealed_process.c agree on. */

/* Calls of the process: the number in a7, the argument in a0, and there the answer. */
enum { MODULE_ID = 1, NEXT_KEY = 2, PRINT_BYTE = 3, EXIT = 4 };

/* The answer of NEXT_KEY where no key waits. */
#define NO_KEY (~0ul)
