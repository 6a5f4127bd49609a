/* A module that counts, and whose count outlives it: it keeps the count by its identity, in the
   first of its words. Nobody else stores there or reads it, and each call finds what the last one
   left, also in a later run of a machine with the same store. */

#include "secure.h"

enum { COUNT = 0 };

/* Gives the count, one more than before, or why it wasn't stored. */
unsigned long count_up(void)
{
    unsigned long count = stored_word(COUNT) + 1;
    long refusal = store_word(COUNT, count);
    return refusal < 0 ? (unsigned long)refusal : count;
}
