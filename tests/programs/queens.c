/* Counts the ways to put queens on boards of 1 to 9 squares a side so that none threatens another,
   by trying row after row, and prints the first way on each board that has one. */

#include "console.h"

enum { LARGEST = 9 };

struct search {
    int size;
    uint64_t ways;
    int columns[LARGEST];  /* the queen's column in each row so far */
    int first[LARGEST];    /* those of the first way */
};

static void count_way(struct search *search)
{
    if (search->ways++ == 0)
        for (int row = 0; row < search->size; row++)
            search->first[row] = search->columns[row];
}

/* Tries the columns of a row that no queen threatens, neither in the column nor on a diagonal that
   leads left or right. What is threatened on a diagonal moves by a column from row to row. */
static void search_row(struct search *search, int row,
                       uint32_t columns, uint32_t left, uint32_t right)
{
    if (row == search->size) {
        count_way(search);
        return;
    }
    uint32_t threatened = columns | left | right;
    for (int column = 0; column < search->size; column++) {
        uint32_t square = (uint32_t)1 << column;
        if (threatened & square)
            continue;
        search->columns[row] = column;
        search_row(search, row + 1, columns | square, (left | square) << 1, (right | square) >> 1);
    }
}

int main(void)
{
    for (int size = 1; size <= LARGEST; size++) {
        struct search search = { .size = size };
        search_row(&search, 0, 0, 0, 0);
        print_number((uint64_t)size);
        print_text(" queens: ");
        print_number(search.ways);
        for (int row = 0; search.ways && row < size; row++) {
            print_text(row ? " " : " ways, first ");
            print_number((uint64_t)search.first[row]);
        }
        print_text("\n");
    }
    return 0;
}
