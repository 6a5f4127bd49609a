/* Makes a text of a few letters, and counts where words stand in it, three ways: letter by letter,
   by Knuth, Morris and Pratt's table, and by Horspool's skips. It prints whether they agree. */

#include "console.h"

enum { LENGTH = 40000, LETTERS = 4, LONGEST = 16, WORDS = 4 };

static char text[LENGTH + 1];
static const char *const words[WORDS] = { "abca", "dabbad", "aaaaa", "cabdacba" };

static void make_text(void)
{
    uint32_t state = 1;
    for (int at = 0; at < LENGTH; at++) {
        state ^= state << 13;
        state ^= state >> 17;
        state ^= state << 5;
        text[at] = (char)('a' + (state >> 9 & (LETTERS - 1)));
    }
}

static int length_of(const char *word)
{
    int length = 0;
    while (word[length])
        length++;
    return length;
}

static uint64_t count_plainly(const char *word, int length)
{
    uint64_t count = 0;
    for (int at = 0; at + length <= LENGTH; at++) {
        int equal = 0;
        while (equal < length && text[at + equal] == word[equal])
            equal++;
        count += equal == length;
    }
    return count;
}

/* For each front of the word, how long its longest proper front is that is also its end. */
static void make_borders(const char *word, int length, int *borders)
{
    borders[0] = 0;
    for (int at = 1, border = 0; at < length; at++) {
        while (border && word[at] != word[border])
            border = borders[border - 1];
        border += word[at] == word[border];
        borders[at] = border;
    }
}

static uint64_t count_by_borders(const char *word, int length)
{
    int borders[LONGEST];
    uint64_t count = 0;
    make_borders(word, length, borders);
    for (int at = 0, equal = 0; at < LENGTH; at++) {
        while (equal && (equal == length || text[at] != word[equal]))
            equal = borders[equal - 1];
        equal += text[at] == word[equal];
        count += equal == length;
    }
    return count;
}

static uint64_t count_by_skips(const char *word, int length)
{
    int skips[256];
    uint64_t count = 0;
    for (int letter = 0; letter < 256; letter++)
        skips[letter] = length;
    for (int at = 0; at + 1 < length; at++)
        skips[(unsigned char)word[at]] = length - 1 - at;
    for (int at = 0; at + length <= LENGTH; at += skips[(unsigned char)text[at + length - 1]]) {
        int left = length;
        while (left && text[at + left - 1] == word[left - 1])
            left--;
        count += left == 0;
    }
    return count;
}

int main(void)
{
    make_text();
    for (int at = 0; at < WORDS; at++) {
        int length = length_of(words[at]);
        uint64_t plain = count_plainly(words[at], length);
        uint64_t by_borders = count_by_borders(words[at], length);
        uint64_t by_skips = count_by_skips(words[at], length);
        print_text(plain == by_borders && plain == by_skips ? "agree " : "differ ");
        print_named(words[at], plain);
    }
    return 0;
}
