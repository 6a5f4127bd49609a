/* What the kernel paging.c and its process process.c agree on. */

enum { PAGE_BYTES = 4096 };

/* Calls of the process: the number in a7, the argument in a0. */
enum { PRINT_BYTE = 1, EXIT = 2 };

/* Virtual pages of the process. paging.ld links its code and its data for these addresses. */
enum { CODE_PAGE = 0x10, DATA_PAGE = 0x20, HEAP_PAGE = 0x30, STACK_PAGE = 0x7f };
enum { HEAP_PAGES = 4 };
