/* Compresses a generated text in two steps, by LZ77 and by a canonical Huffman code, decompresses
   it again, and prints the sizes, the checksums, and whether the text came back. */

#include "console.h"

enum { TEXT = 12000, ROOM = 2 * TEXT };

static unsigned char text[ROOM], pairs[ROOM], packed[ROOM], pairs_again[ROOM], text_again[ROOM];

/* ---- the text ---- */

static const char *const words[32] = {
    "the", "a", "machine", "module", "page", "table", "kernel", "hart",
    "reads", "writes", "calls", "stops", "one", "two", "no", "every",
    "and", "or", "where", "then", "byte", "word", "trap", "event",
    "first", "last", "again", "before", "behind", "is", "has", "begins",
};

static uint32_t next_number(uint32_t *state)
{
    *state ^= *state << 13;
    *state ^= *state >> 17;
    *state ^= *state << 5;
    return *state;
}

static void write_text(void)
{
    uint32_t state = 2463534242;
    int at = 0;
    while (at < TEXT) {
        uint32_t number = next_number(&state) >> 8;
        for (const char *letter = words[number & 31]; *letter && at < TEXT; letter++)
            text[at++] = (unsigned char)*letter;
        if (at < TEXT)
            text[at++] = (number >> 5 & 7) ? ' ' : '\n';
    }
}

/* ---- LZ77: a byte below PAIR says how many bytes stand behind it as they are, less one; another
   one says how many bytes are copied, and two bytes behind it from how far back ---- */

enum { PAIR = 128, SHORTEST = 4, LONGEST = SHORTEST + 127, MOST_PLAIN = 128 };
enum { HASHES = 1024, NOWHERE = -1 };

static int hash_of(const unsigned char *bytes)
{
    return (bytes[0] ^ bytes[1] << 2 ^ bytes[2] << 4 ^ bytes[3] << 6) & (HASHES - 1);
}

static int match_length(const unsigned char *bytes, int from, int at, int count)
{
    int length = 0;
    while (length < LONGEST && at + length < count && bytes[from + length] == bytes[at + length])
        length++;
    return length;
}

/* Writes bytes as they are, and gives the new end of what is written. */
static int put_plain(unsigned char *to, int end, const unsigned char *bytes, int count)
{
    while (count > 0) {
        int some = count < MOST_PLAIN ? count : MOST_PLAIN;
        to[end++] = (unsigned char)(some - 1);
        for (int at = 0; at < some; at++)
            to[end++] = *bytes++;
        count -= some;
    }
    return end;
}

static int put_pair(unsigned char *to, int end, int length, int distance)
{
    to[end++] = (unsigned char)(PAIR + length - SHORTEST);
    to[end++] = (unsigned char)distance;
    to[end++] = (unsigned char)(distance >> 8);
    return end;
}

static int find_pairs(unsigned char *to, const unsigned char *bytes, int count)
{
    static int last_at[HASHES];
    int end = 0, plain = 0, at = 0;
    for (int hash = 0; hash < HASHES; hash++)
        last_at[hash] = NOWHERE;
    while (at + SHORTEST <= count) {
        int *last = &last_at[hash_of(bytes + at)];
        int length = *last == NOWHERE ? 0 : match_length(bytes, *last, at, count);
        int from = *last;
        *last = at;
        if (length < SHORTEST) {
            at++;
            continue;
        }
        end = put_plain(to, end, bytes + plain, at - plain);
        end = put_pair(to, end, length, at - from);
        at += length;
        plain = at;
    }
    return put_plain(to, end, bytes + plain, count - plain);
}

static int resolve_pairs(unsigned char *to, const unsigned char *bytes, int count)
{
    int end = 0, at = 0;
    while (at < count) {
        int head = bytes[at++];
        if (head < PAIR) {
            for (int left = head + 1; left > 0; left--)
                to[end++] = bytes[at++];
            continue;
        }
        int distance = bytes[at] | bytes[at + 1] << 8;
        at += 2;
        for (int left = head - PAIR + SHORTEST; left > 0; left--, end++)
            to[end] = to[end - distance];
    }
    return end;
}

/* ---- Huffman: the lengths of the 256 codes, a byte each, and then the codes, bit by bit ---- */

enum { SYMBOLS = 256, NODES = 2 * SYMBOLS, LONGEST_CODE = 32 };

struct tree {
    uint32_t weights[NODES];  /* 0 where there is no such node, or it has a parent */
    int parents[NODES];
    int count;
};

static int lightest(const struct tree *tree)
{
    int found = NOWHERE;
    for (int node = 0; node < tree->count; node++)
        if (tree->weights[node] && (found == NOWHERE || tree->weights[node] < tree->weights[found]))
            found = node;
    return found;
}

static uint32_t take_lightest(struct tree *tree, int parent)
{
    int node = lightest(tree);
    uint32_t weight = tree->weights[node];
    tree->weights[node] = 0;
    tree->parents[node] = parent;
    return weight;
}

/* Joins the two lightest nodes until one is left: the root, whose parent is itself. */
static void grow(struct tree *tree, const unsigned char *bytes, int count)
{
    uint32_t total = (uint32_t)count;
    tree->count = SYMBOLS;
    for (int at = 0; at < count; at++)
        tree->weights[bytes[at]]++;
    while (tree->weights[lightest(tree)] < total) {
        int parent = tree->count;
        tree->weights[parent] = take_lightest(tree, parent);
        tree->weights[parent] += take_lightest(tree, parent);
        tree->count++;
    }
    tree->parents[tree->count - 1] = tree->count - 1;
}

/* The length of the code of each byte that there is, and 0 for the others. */
static void measure_codes(unsigned char *lengths, const struct tree *tree,
                          const unsigned char *bytes, int count)
{
    for (int symbol = 0; symbol < SYMBOLS; symbol++)
        lengths[symbol] = 0;
    for (int at = 0; at < count; at++) {
        int length = 0;
        if (lengths[bytes[at]])
            continue;
        for (int node = bytes[at]; tree->parents[node] != node; node = tree->parents[node])
            length++;
        lengths[bytes[at]] = (unsigned char)length;
    }
}

/* A code's canonical order: shorter ones first, and of one length by their symbols. */
struct codes {
    uint32_t first[LONGEST_CODE + 1];  /* the first code of each length */
    int counts[LONGEST_CODE + 1];      /* how many there are */
    uint32_t of[SYMBOLS];
};

static void number_codes(struct codes *codes, const unsigned char *lengths)
{
    uint32_t next = 0;
    for (int length = 1; length <= LONGEST_CODE; length++) {
        next <<= 1;
        codes->first[length] = next;
        codes->counts[length] = 0;
        for (int symbol = 0; symbol < SYMBOLS; symbol++) {
            if (lengths[symbol] != length)
                continue;
            codes->counts[length]++;
            codes->of[symbol] = next++;
        }
    }
}

struct bits {
    unsigned char *bytes;
    int count;
};

static void put_bit(struct bits *bits, uint32_t bit)
{
    unsigned char mask = (unsigned char)(0x80 >> (bits->count & 7));
    if (bit)
        bits->bytes[bits->count >> 3] |= mask;
    bits->count++;
}

static uint32_t take_bit(struct bits *bits)
{
    uint32_t bit = bits->bytes[bits->count >> 3] >> (7 - (bits->count & 7)) & 1;
    bits->count++;
    return bit;
}

/* Gives the number of bytes; what is written to must be zero. */
static int pack(unsigned char *to, const unsigned char *bytes, int count)
{
    static struct tree tree;
    static struct codes codes;
    struct bits bits = { to + SYMBOLS, 0 };
    grow(&tree, bytes, count);
    measure_codes(to, &tree, bytes, count);
    number_codes(&codes, to);
    for (int at = 0; at < count; at++)
        for (int left = to[bytes[at]]; left > 0; left--)
            put_bit(&bits, codes.of[bytes[at]] >> (left - 1) & 1);
    return SYMBOLS + (bits.count + 7) / 8;
}

/* The symbol with this code, which is one of its length. */
static int symbol_of(const struct codes *codes, const unsigned char *lengths,
                     int length, uint32_t code)
{
    int symbol = 0;
    while (lengths[symbol] != length || codes->of[symbol] != code)
        symbol++;
    return symbol;
}

static void unpack(unsigned char *to, unsigned char *from, int count)
{
    static struct codes codes;
    struct bits bits = { from + SYMBOLS, 0 };
    number_codes(&codes, from);
    for (int at = 0; at < count; at++) {
        int length = 0;
        uint32_t code = 0;
        do {
            code = code << 1 | take_bit(&bits);
            length++;
        } while (code - codes.first[length] >= (uint32_t)codes.counts[length]);
        to[at] = (unsigned char)symbol_of(&codes, from, length, code);
    }
}

/* ---- what is printed ---- */

/* Adler-32. */
static uint32_t checksum(const unsigned char *bytes, int count)
{
    enum { MODULUS = 65521 };
    uint32_t low = 1, high = 0;
    for (int at = 0; at < count; at++) {
        low += bytes[at];
        if (low >= MODULUS)
            low -= MODULUS;
        high += low;
        if (high >= MODULUS)
            high -= MODULUS;
    }
    return high << 16 | low;
}

static void print_bytes(const char *name, const unsigned char *bytes, int count)
{
    print_text(name);
    print_text(": ");
    print_number((uint64_t)count);
    print_text(" bytes, Adler-32 ");
    print_digits(checksum(bytes, count), 8);
    print_text("\n");
}

static int are_same(const unsigned char *one, const unsigned char *other, int count)
{
    for (int at = 0; at < count; at++)
        if (one[at] != other[at])
            return 0;
    return 1;
}

int main(void)
{
    write_text();
    int pair_count = find_pairs(pairs, text, TEXT);
    int packed_count = pack(packed, pairs, pair_count);
    unpack(pairs_again, packed, pair_count);
    int count = resolve_pairs(text_again, pairs_again, pair_count);
    print_bytes("the text", text, TEXT);
    print_bytes("by LZ77", pairs, pair_count);
    print_bytes("and by Huffman", packed, packed_count);
    print_bytes("decompressed", text_again, count);
    print_named("the same", (uint64_t)(count == TEXT && are_same(text, text_again, count)));
    return 0;
}
