/* Sieves the numbers below a limit, a byte for each odd one, and prints how many primes there are
   below powers of two, how many twins, and the longest gap. The sieve takes 74 pages. */

#include "console.h"

enum { LIMIT = 600000, ODD = LIMIT / 2 };

/* The byte of n is that at n / 2. */
static unsigned char is_composite[ODD];

static void strike_multiples(int prime)
{
    for (int multiple = 3 * prime; multiple < LIMIT; multiple += 2 * prime)
        is_composite[multiple / 2] = 1;
}

static void sieve(void)
{
    for (int number = 3; number < 775; number += 2)
        if (!is_composite[number / 2])
            strike_multiples(number);
}

static void print_gap(int gap, int from)
{
    print_named("longest gap", (uint64_t)gap);
    print_named("behind", (uint64_t)from);
}

int main(void)
{
    uint64_t count = 1, twins = 0;  /* 2 is a prime */
    int last = 2, longest = 0, from = 0, power = 4;
    sieve();
    for (int number = 3; number < LIMIT; number += 2) {
        if (number > power) {
            print_named("primes below a power of two", count);
            power <<= 1;
        }
        if (is_composite[number / 2])
            continue;
        count++;
        twins += number - last == 2;
        if (number - last > longest) {
            longest = number - last;
            from = last;
        }
        last = number;
    }
    print_named("primes", count);
    print_named("twins", twins);
    print_gap(longest, from);
    return 0;
}
