/* The module of secret.c. It makes a secret when it runs, so no byte of it is in the image. But all
   that it is made of is in there, and whoever has the image can do the same sums: a secret that is
   to be kept comes from elsewhere. */

enum { WORDS = 64 };

unsigned long secret[WORDS];

static unsigned long next_word(unsigned long word)
{
    word ^= word << 13;
    word ^= word >> 7;
    return word ^ word << 17;
}

/* While it runs the last word is in a register. */
unsigned long make_secret(void)
{
    unsigned long word = 0x0123456789abcdef;
    for (int i = 0; i < WORDS; i++) {
        word = next_word(word);
        secret[i] = word;
    }
    return 0;
}

/* What this module tells to everybody: 16 bits, the same for very many secrets. */
unsigned long fingerprint(void)
{
    unsigned long sum = 0;
    for (int i = 0; i < WORDS; i++)
        sum += secret[i];
    return sum >> 48;
}
