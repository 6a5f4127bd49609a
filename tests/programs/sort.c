/* Sorts the same numbers three ways (heap sort, quicksort, merge sort), and prints whether they
   agree, some of the numbers, and a checksum over their order. */

#include "console.h"

enum { COUNT = 3000 };

static uint64_t by_heap[COUNT], by_parts[COUNT], by_merging[COUNT], spare[COUNT];

/* Marsaglia's xorshift: the next number of a sequence without a zero. */
static uint64_t next_number(uint64_t *state)
{
    *state ^= *state << 13;
    *state ^= *state >> 7;
    *state ^= *state << 17;
    return *state;
}

static void swap(uint64_t *one, uint64_t *other)
{
    uint64_t kept = *one;
    *one = *other;
    *other = kept;
}

/* Lets the number at root sink until none below it is larger. */
static void sink(uint64_t *numbers, int root, int count)
{
    for (;;) {
        int child = 2 * root + 1;
        if (child >= count)
            return;
        if (child + 1 < count && numbers[child + 1] > numbers[child])
            child++;
        if (numbers[root] >= numbers[child])
            return;
        swap(&numbers[root], &numbers[child]);
        root = child;
    }
}

static void heap_sort(uint64_t *numbers, int count)
{
    for (int root = count / 2 - 1; root >= 0; root--)
        sink(numbers, root, count);
    for (int end = count - 1; end > 0; end--) {
        swap(&numbers[0], &numbers[end]);
        sink(numbers, 0, end);
    }
}

/* Hoare's partition: no number up to the returned place is larger than one behind it. */
static int partition(uint64_t *numbers, int count)
{
    uint64_t pivot = numbers[(count - 1) / 2];
    int low = -1, high = count;
    for (;;) {
        do
            low++;
        while (numbers[low] < pivot);
        do
            high--;
        while (numbers[high] > pivot);
        if (low >= high)
            return high;
        swap(&numbers[low], &numbers[high]);
    }
}

/* Calls itself for the smaller part alone, so the stack stays small. */
static void quicksort(uint64_t *numbers, int count)
{
    while (count > 1) {
        int front = partition(numbers, count) + 1;
        if (front < count - front) {
            quicksort(numbers, front);
            numbers += front;
            count -= front;
        } else {
            quicksort(numbers + front, count - front);
            count = front;
        }
    }
}

/* Merges numbers[start .. middle] and numbers[middle .. end], both in order, into the spare. */
static void merge(const uint64_t *numbers, int start, int middle, int end)
{
    int left = start, right = middle;
    for (int at = start; at < end; at++) {
        int takes_left = right == end || (left < middle && numbers[left] <= numbers[right]);
        spare[at] = takes_left ? numbers[left++] : numbers[right++];
    }
}

static int smaller(int one, int other)
{
    return one < other ? one : other;
}

static void merge_sort(uint64_t *numbers, int count)
{
    for (int width = 1; width < count; width *= 2) {
        for (int start = 0; start < count; start += 2 * width)
            merge(numbers, start, smaller(start + width, count), smaller(start + 2 * width, count));
        for (int at = 0; at < count; at++)
            numbers[at] = spare[at];
    }
}

static int are_in_order(const uint64_t *numbers, int count)
{
    for (int at = 1; at < count; at++)
        if (numbers[at - 1] > numbers[at])
            return 0;
    return 1;
}

static int are_same(const uint64_t *numbers, const uint64_t *others, int count)
{
    for (int at = 0; at < count; at++)
        if (numbers[at] != others[at])
            return 0;
    return 1;
}

/* Turned and added, so that the order counts. */
static uint64_t checksum(const uint64_t *numbers, int count)
{
    uint64_t sum = 0;
    for (int at = 0; at < count; at++)
        sum = (sum << 7 | sum >> 57) + numbers[at];
    return sum;
}

int main(void)
{
    uint64_t state = 88172645463325252;
    for (int at = 0; at < COUNT; at++)
        by_heap[at] = by_parts[at] = by_merging[at] = next_number(&state);
    heap_sort(by_heap, COUNT);
    quicksort(by_parts, COUNT);
    merge_sort(by_merging, COUNT);
    print_named("in order", (uint64_t)are_in_order(by_heap, COUNT));
    print_named("heap sort as quicksort", (uint64_t)are_same(by_heap, by_parts, COUNT));
    print_named("heap sort as merge sort", (uint64_t)are_same(by_heap, by_merging, COUNT));
    print_named("least", by_heap[0]);
    print_named("middle", by_heap[COUNT / 2]);
    print_named("greatest", by_heap[COUNT - 1]);
    print_text("checksum ");
    print_digits(checksum(by_heap, COUNT), 16);
    print_text("\n");
    return 0;
}
