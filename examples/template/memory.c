/* The four functions of memory that GCC may call of its own accord. */

typedef unsigned long size;

void *memcpy(void *to, const void *from, size count)
{
    unsigned char *target = to;
    const unsigned char *source = from;
    while (count--)
        *target++ = *source++;
    return to;
}

void *memmove(void *to, const void *from, size count)
{
    unsigned char *target = to;
    const unsigned char *source = from;
    if (target <= source)
        return memcpy(to, from, count);
    while (count--)
        target[count] = source[count];
    return to;
}

void *memset(void *to, int byte, size count)
{
    unsigned char *target = to;
    while (count--)
        *target++ = (unsigned char)byte;
    return to;
}

int memcmp(const void *left, const void *right, size count)
{
    const unsigned char *one = left, *other = right;
    for (; count--; one++, other++)
        if (*one != *other)
            return *one - *other;
    return 0;
}
