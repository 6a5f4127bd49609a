"""What QEMU's user mode computes for the operands of rv_exec's tests: a program that executes each
row's instruction and writes what it left in x10."""
import os
import struct
import subprocess
import tempfile

from assembler import BRANCHES, CROSS, IMMEDIATES, SHIFTS, WIDTHS
from tables import values

QEMU = 'qemu-riscv64'

PROGRAM = '''
        .globl  _start
        .option norelax
_start: la      x20, results
%s
        li      x17, 64                 # write
        li      x10, 1
        la      x11, results
        li      x12, %d
        ecall
        li      x17, 93                 # exit
        li      x10, 0
        ecall
        .bss
        .balign 8
scratch: .zero  8
results: .zero  %d
'''

TWO_REGISTERS = 'li x5, %#x\nli x6, %#x\n%s x10, x5, x6'
IMMEDIATE = 'li x5, %#x\n%s x10, x5, %d'
BRANCH = 'li x5, %#x\nli x6, %#x\nli x10, 1\n%s x5, x6, 1f\nli x10, 0\n1:'
LOAD = 'la x6, scratch\nli x5, %#x\nsd x5, 0(x6)\nl%s%s x10, 0(x6)'

ROWS = {
    'REGISTERS': lambda op, left, right: TWO_REGISTERS % (left, right, op.lower()),
    'WORDS': lambda op, left, right: TWO_REGISTERS % (left, right, op.lower() + 'w'),
    'IMMEDIATES': lambda op, left, imm: IMMEDIATE % (left, IMMEDIATES[op], imm),
    'SHIFTS': lambda op, left, amount: IMMEDIATE % (left, SHIFTS[op] + 'i', amount),
    'WORD_SHIFTS': lambda op, left, amount: IMMEDIATE % (left, SHIFTS[op] + 'iw', amount),
    'BRANCHES': lambda test, left, right: BRANCH % (left, right, BRANCHES[test]),
    'LOADS': lambda width, signed, raw: LOAD % (raw, WIDTHS[width], '' if signed else 'u'),
}


def computed(sources):
    """What each piece of assembly leaves in x10."""
    size = 8 * len(sources)
    stored = '\n'.join('%s\nsd x10, 0(x20)\naddi x20, x20, 8' % source for source in sources)
    with tempfile.TemporaryDirectory() as folder:
        def run(*words):
            return subprocess.run(words, cwd=folder, check=True, stdout=subprocess.PIPE).stdout
        with open(os.path.join(folder, 'a.s'), 'w', encoding='utf-8') as file:
            file.write(PROGRAM % (stored, size, size))
        run(CROSS + 'as', '-march=rv64i', '-o', 'a.o', 'a.s')
        run(CROSS + 'ld', '-o', 'a.elf', 'a.o')
        return struct.unpack('<%dQ' % len(sources), run(QEMU, './a.elf'))


def check_operands(path, report):
    """Computes each row of the tables, and compares."""
    tables = values(path)
    rows = [(name, row) for name in ROWS for row in tables[name]]
    sources = [ROWS[name](*row[:-1]) for name, row in rows]
    for (name, row), value in zip(rows, computed(sources)):
        report('%s: %s' % (name, ', '.join(map(str, row[:-1]))), '%#x' % row[-1], '%#x' % value)
