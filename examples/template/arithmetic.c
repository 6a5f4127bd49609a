/* What GCC calls for products, quotients and remainders, for which RV64I has no instruction. With
   these no libgcc is needed, so any GCC for RISC-V links a guest. */

typedef unsigned long u64;
typedef long s64;

u64 __muldi3(u64 left, u64 right)
{
    u64 product = 0;
    for (; right; right >>= 1, left <<= 1)
        if (right & 1)
            product += left;
    return product;
}

/* By shifts and subtractions. A division by 0 ends too. */
static u64 divide(u64 number, u64 divisor, u64 *rest)
{
    u64 quotient = 0, bit = 1;
    while (divisor < number && !((divisor | bit) >> 63)) {
        divisor <<= 1;
        bit <<= 1;
    }
    for (; bit; bit >>= 1, divisor >>= 1) {
        if (number >= divisor) {
            number -= divisor;
            quotient |= bit;
        }
    }
    *rest = number;
    return quotient;
}

u64 __udivdi3(u64 number, u64 divisor)
{
    u64 rest;
    return divide(number, divisor, &rest);
}

u64 __umoddi3(u64 number, u64 divisor)
{
    u64 rest;
    divide(number, divisor, &rest);
    return rest;
}

static u64 size_of(s64 number)
{
    return number < 0 ? -(u64)number : (u64)number;
}

s64 __divdi3(s64 number, s64 divisor)
{
    u64 quotient = __udivdi3(size_of(number), size_of(divisor));
    return (s64)((number < 0) != (divisor < 0) ? -quotient : quotient);
}

s64 __moddi3(s64 number, s64 divisor)
{
    u64 rest = __umoddi3(size_of(number), size_of(divisor));
    return (s64)(number < 0 ? -rest : rest);
}
