/* What the kernel process.c and the process's side of it, user.c, agree on. */

#ifndef PROCESS_H
#define PROCESS_H

/* Where process.ld links the process, and the pages that it may have, of which the last are its
   stack. */
#define PROCESS_BASE 0x40000000ul
enum { PROCESS_PAGES = 512 };

/* Calls of the process: the number in a7, the argument in a0. */
enum { PRINT_BYTE = 1, EXIT = 8 };

#endif
