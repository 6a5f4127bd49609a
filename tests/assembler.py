"""Words that the GNU assembler makes of the fields of instructions."""
import os
import struct
import subprocess
import tempfile

from tables import values

CROSS = 'riscv64-unknown-elf-'
RAM = 0x80000000

BRANCHES = {'Eq': 'beq', 'Ne': 'bne', 'Lt': 'blt', 'Ge': 'bge', 'Ltu': 'bltu', 'Geu': 'bgeu'}
WIDTHS = {'B1': 'b', 'B2': 'h', 'B4': 'w', 'B8': 'd'}
SHIFTS = {'Left': 'sll', 'Right': 'srl', 'RightSigned': 'sra'}
IMMEDIATES = {
    'Add': 'addi', 'Slt': 'slti', 'Sltu': 'sltiu', 'Xor': 'xori', 'Or': 'ori', 'And': 'andi',
}
CSRS = {'Write': 'csrrw', 'Set': 'csrrs', 'Clear': 'csrrc'}
ENVIRONMENT = {'Ecall': 'ecall', 'Ebreak': 'ebreak', 'Sret': 'sret', 'Wfi': 'wfi'}

# funct7, funct3, and the fields in rd, rs1 and rs2
SECURE = {
    'Launch': (0, 0, 'rd', 'at', None), 'Call': (0, 1, 'rd', 'id', 'entry'),
    'Ret': (0, 2, None, None, None), 'Evict': (0, 3, 'rd', 'id', None),
    'Ident': (0, 4, 'rd', 'id', 'word'), 'Caller': (0, 5, 'rd', None, None),
    'Offerer': (0, 6, 'rd', 'at', None), 'Sget': (0, 7, 'rd', 'index', None),
    'Sset': (1, 0, 'rd', 'index', 'value'),
}


def assembled(source):
    """The bytes of a source in assembly, from the beginning of RAM on."""
    with tempfile.TemporaryDirectory() as folder:
        def run(tool, *words):
            subprocess.run([CROSS + tool] + list(words), cwd=folder, check=True)
        with open(os.path.join(folder, 'a.s'), 'w', encoding='utf-8') as file:
            file.write('.globl _start\n.option norelax\n_start:\n%s\n' % source)
        run('as', '-march=rv64i_zicsr', '-o', 'a.o', 'a.s')
        run('ld', '-Ttext=%#x' % RAM, '-o', 'a.elf', 'a.o')
        run('objcopy', '-O', 'binary', 'a.elf', 'a.bin')
        with open(os.path.join(folder, 'a.bin'), 'rb') as file:
            return file.read()


def words_of(data):
    return list(struct.unpack('<%dI' % (len(data) // 4), data))


# ---- the tables of rv_insn's tests, each row without its word, as an instruction in assembly

def csr_row(op, number, source, rd):
    kind, operand = source
    shape = '%s x%d, %#x, x%d' if kind == 'Register' else '%si x%d, %#x, %d'
    return shape % (CSRS[op], rd, number, operand)


def environment_row(insn):
    if isinstance(insn, str):
        return ENVIRONMENT[insn]
    return 'sfence.vma x%(rs1)d, x%(rs2)d' % insn[1]


def secure_row(insn):
    name, fields = (insn, {}) if isinstance(insn, str) else insn
    funct7, funct3, *places = SECURE[name]
    registers = ', '.join('x%d' % (fields[place] if place else 0) for place in places)
    return '.insn r 0x0b, %d, %d, %s' % (funct3, funct7, registers)


def fence_row(high, rs1, rd):
    return '.insn i 0x0f, 0, x%d, x%d, %d' % (rd, rs1, high - 4096 if high >= 2048 else high)


ROWS = {
    'LUI': lambda rd, imm: 'lui x%d, %#x' % (rd, imm >> 12 & 0xfffff),
    'AUIPC': lambda rd, imm: 'auipc x%d, %#x' % (rd, imm >> 12 & 0xfffff),
    'JAL': lambda rd, offset: 'jal x%d, . + %d' % (rd, offset),
    'JALR': lambda rd, base, offset: 'jalr x%d, %d(x%d)' % (rd, offset, base),
    'BRANCHES': lambda test, left, right, offset: '%s x%d, x%d, . + %d' % (
        BRANCHES[test], left, right, offset),
    'LOADS': lambda width, signed, rd, base, offset: 'l%s%s x%d, %d(x%d)' % (
        WIDTHS[width], '' if signed else 'u', rd, offset, base),
    'STORES': lambda width, base, value, offset: 's%s x%d, %d(x%d)' % (
        WIDTHS[width], value, offset, base),
    'IMMEDIATES': lambda op, rd, left, imm: '%s x%d, x%d, %d' % (IMMEDIATES[op], rd, left, imm),
    'SHIFTS': lambda op, rd, left, amount: '%si x%d, x%d, %d' % (SHIFTS[op], rd, left, amount),
    'REGISTERS': lambda op, rd, left, right: '%s x%d, x%d, x%d' % (op.lower(), rd, left, right),
    'ADDIW': lambda rd, left, imm: 'addiw x%d, x%d, %d' % (rd, left, imm),
    'WORD_SHIFTS': lambda op, rd, left, amount: '%siw x%d, x%d, %d' % (
        SHIFTS[op], rd, left, amount),
    'WORD_REGISTERS': lambda op, rd, left, right: '%sw x%d, x%d, x%d' % (
        op.lower(), rd, left, right),
    'FENCE': fence_row,
    'CSR': csr_row,
    'ENVIRONMENT': environment_row,
    'SECURE': secure_row,
}


def check_words(path, report):
    """Assembles each row of the tables, and compares."""
    tables = values(path)
    for name, row in ROWS.items():
        sources = [row(*fields) for _, *fields in tables[name]]
        got = words_of(assembled('\n'.join(sources)))
        for source, word, (wanted, *_) in zip(sources, got, tables[name]):
            report('%s: %s' % (name, source), '%#010x' % wanted, '%#010x' % word)

