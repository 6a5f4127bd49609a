/* The machine has no MUL (it is of the extension M), and this guest executes it all the same: each
   time it takes an illegal-instruction trap, and its handler multiplies by shifts and additions and
   returns behind the instruction. It prints `10! = 3628800` and shuts down. */

#include "template/guest.h"

enum { ILLEGAL_INSTRUCTION = 2 };
enum { MUL = 0x02000033, MUL_MASK = 0xfe00707f };

/* In decimal, below 10^10: each digit counts how often its power of ten can be taken away. */
static void print_number(u64 number)
{
    static const u64 powers[] = { 1000000000, 100000000, 10000000, 1000000, 100000, 10000, 1000, 100, 10, 1 };
    int begun = 0;
    for (const u64 *power = powers; power < powers + 10; power++) {
        char digit = '0';
        while (number >= *power) {
            number -= *power;
            digit++;
        }
        begun |= digit != '0' || *power == 1;
        if (begun)
            print_byte((unsigned char)digit);
    }
}

static u64 product(u64 left, u64 right)
{
    u64 sum = 0;
    for (; right; right >>= 1, left <<= 1)
        if (right & 1)
            sum += left;
    return sum;
}

/* Carries out a MUL that trapped. Any other trap ends the run. */
void handle_trap(struct frame *frame)
{
    u64 pc = READ_CSR(sepc);
    if (READ_CSR(scause) != ILLEGAL_INSTRUCTION || (*(u32 *)pc & MUL_MASK) != MUL) {
        print_text("unexpected trap\n");
        shut_down();
    }
    u32 word = *(u32 *)pc;
    u32 rd = word >> 7 & 31;
    if (rd != 0)
        frame->x[rd] = product(frame->x[word >> 15 & 31], frame->x[word >> 20 & 31]);
    WRITE_CSR(sepc, pc + 4);
}

/* MUL, spelled by its fields, since the assembler refuses its name without the extension M. */
static u64 multiply(u64 left, u64 right)
{
    u64 result;
    asm volatile(".insn r 0x33, 0, 1, %0, %1, %2" : "=r"(result) : "r"(left), "r"(right));
    return result;
}

void run(void)
{
    u64 factorial = 1;
    for (u64 n = 2; n <= 10; n++)
        factorial = multiply(factorial, n);
    print_text("10! = ");
    print_number(factorial);
    print_text("\n");
}
