/* Multiplies square matrices of numbers modulo a prime: powers of one by squaring, and the same
   product by rows and by blocks, and prints whether they agree, and checksums. */

#include "console.h"

enum { SIDE = 16, BLOCK = 4, PRIME = 65521, POWERS = 3 };

struct matrix {
    uint32_t at[SIDE][SIDE];
};

static struct matrix base, by_rows, by_blocks, power;

static void fill(struct matrix *matrix, uint32_t state)
{
    for (int row = 0; row < SIDE; row++) {
        for (int column = 0; column < SIDE; column++) {
            state = (state << 5) + state + 12345;
            matrix->at[row][column] = (state >> 7) & 0x3fff;
        }
    }
}

/* A number of 32 bits modulo the prime, which is 2^16 - 15. */
static uint32_t reduced(uint32_t number)
{
    while (number >> 16) {
        uint32_t high = number >> 16;
        number = (number & 0xffff) + (high << 4) - high;
    }
    return number >= PRIME ? number - PRIME : number;
}

/* The product of numbers below the prime, by shifts and sums. */
static uint32_t times(uint32_t left, uint32_t right)
{
    uint32_t product = 0;
    for (; right; right >>= 1) {
        if (right & 1)
            product = reduced(product + left);
        left = reduced(left << 1);
    }
    return product;
}

static void multiply_rows(struct matrix *to, const struct matrix *left, const struct matrix *right)
{
    for (int row = 0; row < SIDE; row++) {
        for (int column = 0; column < SIDE; column++) {
            uint32_t sum = 0;
            for (int step = 0; step < SIDE; step++)
                sum = reduced(sum + times(left->at[row][step], right->at[step][column]));
            to->at[row][column] = sum;
        }
    }
}

static void add_block(struct matrix *to, const struct matrix *left, const struct matrix *right,
                      int first_row, int first_column, int first_step)
{
    for (int row = first_row; row < first_row + BLOCK; row++) {
        for (int step = first_step; step < first_step + BLOCK; step++) {
            for (int column = first_column; column < first_column + BLOCK; column++)
                to->at[row][column] = reduced(to->at[row][column]
                    + times(left->at[row][step], right->at[step][column]));
        }
    }
}

static void multiply_blocks(struct matrix *to, const struct matrix *left,
                            const struct matrix *right)
{
    *to = (struct matrix){ 0 };
    for (int row = 0; row < SIDE; row += BLOCK)
        for (int column = 0; column < SIDE; column += BLOCK)
            for (int step = 0; step < SIDE; step += BLOCK)
                add_block(to, left, right, row, column, step);
}

static int are_equal(const struct matrix *left, const struct matrix *right)
{
    for (int row = 0; row < SIDE; row++)
        for (int column = 0; column < SIDE; column++)
            if (left->at[row][column] != right->at[row][column])
                return 0;
    return 1;
}

static uint32_t checksum(const struct matrix *matrix)
{
    uint32_t sum = 0;
    for (int row = 0; row < SIDE; row++)
        for (int column = 0; column < SIDE; column++)
            sum = (sum << 3 | sum >> 29) ^ matrix->at[row][column];
    return sum;
}

int main(void)
{
    fill(&base, 1);
    power = base;
    for (int round = 1; round <= POWERS; round++) {
        multiply_rows(&by_rows, &power, &base);
        multiply_blocks(&by_blocks, &power, &base);
        print_text(are_equal(&by_rows, &by_blocks) ? "agree " : "differ ");
        print_named("power", (uint64_t)round + 1);
        print_digits(checksum(&by_rows), 8);
        print_text("\n");
        power = by_rows;
    }
    return 0;
}
