/* A program of the folder above in mode S behind Sv39 tables, where each page of RAM has a leaf of
   4 KiB that leads to itself. It is linked so that this stands before its main. */

#include "tables.h"

int __real_main(void);

int __wrap_main(void)
{
    map_ram();
    translate();
    return __real_main();
}
