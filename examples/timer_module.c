/* A module that works for a while. It knows nothing of the timer that stops it. */

static volatile unsigned long sum;

/* Gives 1 + 2 + .. + most. */
unsigned long add_up(unsigned long most)
{
    sum = 0;
    for (unsigned long number = 1; number <= most; number++)
        sum += number;
    return sum;
}
