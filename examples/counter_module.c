/* A module that counts. Its counter is in a page of its own, so nobody changes it but these
   functions, which counter_entries_module.S makes its entries. */

unsigned long counter;

/* Gives the count, one more than before. */
unsigned long count_up(void)
{
    return ++counter;
}

unsigned long read_count(void)
{
    return counter;
}
