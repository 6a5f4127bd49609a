/* The module that launch.c launches: an entry that does nothing, and a secret. */

#include "secure.h"

/* So that the secret is in the page of data, and not among the constants. */
char secret[] = "the moon is made of cheese\n";

void module_entry(void)
{
    return_to_caller(0, 0);
}
