"""The image and the script that are made of a number, and the summary of their run."""

from . import running, scripts
from .state import Machine
from .values import MASK, PAGE, RAM, RAM_PPN

PAGES, EVENTS = 64, 10**6
MODULES, CALLS, COMMANDS, ROUNDS = 8, 64, 64, 100
SEGMENTS, CODE = 8, 16
ECALL, SRET, RET = 0x00000073, 0x10200073, 0x0000200B
SSTATUS, SIE, STVEC, SSCRATCH, TIME = 0x100, 0x104, 0x105, 0x140, 0xC01
WORDS = ("out", "deny", "stop", "trap", "launch", "call", "ret", "resume", "evict", "sset",
         "refuse", "start", "key", "nokey", "poke", "nopoke", "peek", "nopeek")


class Draws:
    def __init__(self, number):
        self.state = number

    def below(self, bound):
        self.state = self.state * 6364136223846793005 + 1442695040888963407 & MASK
        return (self.state >> 33) % bound


# ---- instructions

def with_immediate(opcode, function, rd, rs1, immediate):
    return (immediate & 0xFFF) << 20 | rs1 << 15 | function << 12 | rd << 7 | opcode


def with_registers(opcode, function, rd, rs1, rs2):
    return rs2 << 20 | rs1 << 15 | function << 12 | rd << 7 | opcode


def addi(rd, rs1, immediate):
    return with_immediate(0x13, 0, rd, rs1, immediate)


def ld(rd, offset, rs1):
    return with_immediate(0x03, 3, rd, rs1, offset)


def sd(rs2, offset, rs1):
    return (offset >> 5 & 127) << 25 | rs2 << 20 | rs1 << 15 | 3 << 12 | (offset & 31) << 7 | 0x23


def auipc(rd, pages):
    return pages << 12 | rd << 7 | 0x17


def csr(function, rd, number, operand):
    return number << 20 | operand << 15 | function << 12 | rd << 7 | 0x73


def branch_back(rs1, offset):
    """bne rs1, x0 to a place before it."""
    bits = offset & 0x1FFF
    return ((bits >> 12) << 31 | (bits >> 5 & 63) << 25 | rs1 << 15 | 1 << 12
            | (bits >> 1 & 15) << 8 | (bits >> 11 & 1) << 7 | 0x63)


# ---- the image

def operation(draws):
    sort = draws.below(4)
    if sort < 2:
        return with_registers(0x33, (0, 4)[sort], 6, 6, 10)
    if sort == 2:
        return with_immediate(0x13, 1, 6, 6, 1 + draws.below(63))
    return addi(6, 6, draws.below(2048))


def module(draws):
    """A module's code."""
    operations = [operation(draws) for _ in range(16)]
    return [auipc(5, 1), ld(6, 0, 5)] + operations + [sd(6, 0, 5), addi(10, 6, 0), RET]


def segment(index):
    """A module's text, without the zeros at its end."""
    page = RAM_PPN + CODE + 2 * index
    declared = b"".join((page + i).to_bytes(8, "little") + bytes((1, rights)) + bytes(6)
                        for i, rights in ((0, 5), (1, 3)))
    return (b"BNSG" + bytes((1, 1, 1, 2)) + bytes(8) + (PAGE * page).to_bytes(8, "little")
            + bytes(56) + declared)


def kernel(draws):
    code = [auipc(5, 1), csr(1, 0, STVEC, 5), auipc(5, 2), addi(5, 5, -8), csr(1, 0, SSCRATCH, 5),
            addi(5, 0, 32), csr(1, 0, SIE, 5), csr(2, 10, TIME, 0), addi(10, 10, 500),
            addi(17, 0, 0), ECALL, csr(6, 0, SSTATUS, 2)]
    for i in range(MODULES):
        code += [auipc(5, SEGMENTS + i), addi(5, 5, -4 * len(code)),
                 with_registers(0x0B, 0, 18 + i, 5, 0)]
    code += [addi(8, 0, ROUNDS)]
    start = len(code)
    for _ in range(CALLS):
        i, argument = draws.below(MODULES), draws.below(256)
        code += [auipc(6, CODE + 2 * i), addi(6, 6, -4 * len(code)), addi(10, 0, argument),
                 with_registers(0x0B, 1, 7, 18 + i, 6), addi(17, 0, 1), ECALL]
    code += [addi(8, 8, -1)]
    return code + [branch_back(8, 4 * (start - len(code))), addi(17, 0, 8), ECALL]


def handler():
    return [csr(1, 5, SSCRATCH, 5), sd(10, 0, 5), sd(17, 8, 5), csr(2, 10, TIME, 0),
            addi(10, 10, 500), addi(17, 0, 0), ECALL, ld(10, 0, 5), ld(17, 8, 5),
            csr(1, 5, SSCRATCH, 5), SRET]


def make_image(draws):
    image = bytearray(32 * PAGE)

    def put(page, octets):
        image[PAGE * page:PAGE * page + len(octets)] = octets

    def put_code(page, code):
        put(page, b"".join(word.to_bytes(4, "little") for word in code))

    for i in range(MODULES):
        put_code(CODE + 2 * i, module(draws))
        put(SEGMENTS + i, segment(i))
    put_code(0, kernel(draws))
    put_code(1, handler())
    return bytes(image)


# ---- the script and the run

def command(draws):
    sort = draws.below(3)
    if sort == 0:
        return "key %02x" % draws.below(256)
    if sort == 1:
        page, offset = 16 + draws.below(48), draws.below(4096)
        return "poke %d %d %02x" % (page, offset, draws.below(256))
    page = draws.below(64)
    return "peek %d %d" % (page, draws.below(4096))


def make(number):
    """The image and the script."""
    draws = Draws(number)
    image, lines = make_image(draws), []
    for _ in range(COMMANDS):
        lines.append("go %d" % (100 + draws.below(2000)))
        lines.append(command(draws))
    return image, "".join(line + "\n" for line in lines).encode()


def summary(number):
    """Whether the run shuts down, and the summary."""
    image, script = make(number)
    machine = Machine(image + bytes(PAGE * PAGES - len(image)), RAM)
    running.run(machine, scripts.events(scripts.read(script, 1), 1), EVENTS)
    said = [line.split(" ")[0] for line in machine.lines]
    ending, digest = machine.lines[-1].split(" ")[2:]
    lines = ["gen %d" % number, "events %d" % machine.clock]
    lines += ["%s %d" % (word, said.count(word)) for word in WORDS]
    lines.append("end %s %s" % (ending, digest))
    return machine.is_off, "".join(line + "\n" for line in lines)
