/* Factorials and powers as numbers of many digits: their products by 32 bits at a time, and their
   decimal digits by division. */

#include "console.h"

enum { LIMBS = 128 };
enum { DECIMALS = 9, BILLION = 1000000000 };
enum { LARGEST_FACTORIAL = 350, EXPONENT = 1279 };

/* A number below 2^(32 * LIMBS), its lowest 32 bits first; the limb at count - 1 isn't 0. */
struct number {
    int count;
    uint32_t limbs[LIMBS];
};

static struct number factorial, power, scratch;

static void set(struct number *number, uint32_t value)
{
    number->count = value ? 1 : 0;
    number->limbs[0] = value;
}

static void multiply(struct number *number, uint32_t factor)
{
    uint64_t carry = 0;
    for (int at = 0; at < number->count; at++) {
        carry += (uint64_t)factor * number->limbs[at];
        number->limbs[at] = (uint32_t)carry;
        carry >>= 32;
    }
    if (carry)
        number->limbs[number->count++] = (uint32_t)carry;
}

/* Leaves the quotient, and gives the remainder. */
static uint32_t divide(struct number *number, uint32_t divisor)
{
    uint64_t rest = 0;
    for (int at = number->count - 1; at >= 0; at--) {
        rest = rest << 32 | number->limbs[at];
        number->limbs[at] = (uint32_t)(rest / divisor);
        rest %= divisor;
    }
    while (number->count && number->limbs[number->count - 1] == 0)
        number->count--;
    return (uint32_t)rest;
}

static void print_padded(uint32_t group)
{
    for (uint32_t unit = BILLION / 10; unit; unit /= 10)
        putchar('0' + (int)(group / unit % 10));
}

/* In decimal, by groups of nine digits, of which the lowest comes out first. */
static void print_decimal(const struct number *number)
{
    static uint32_t groups[32 * LIMBS / (3 * DECIMALS) + 1];
    int count = 0;
    scratch = *number;
    do
        groups[count++] = divide(&scratch, BILLION);
    while (scratch.count);
    print_number(groups[--count]);
    while (count > 0)
        print_padded(groups[--count]);
    print_text("\n");
}

int main(void)
{
    set(&factorial, 1);
    for (uint32_t n = 2; n <= LARGEST_FACTORIAL; n++) {
        multiply(&factorial, n);
        if (n == 20 || n == LARGEST_FACTORIAL) {
            print_number(n);
            print_text("! = ");
            print_decimal(&factorial);
        }
    }
    set(&power, 1);
    for (int n = 0; n < EXPONENT; n++)
        multiply(&power, 2);
    print_text("2^");
    print_number(EXPONENT);
    print_text(" = ");
    print_decimal(&power);
    return 0;
}
