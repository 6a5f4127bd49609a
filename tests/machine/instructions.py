"""What each instruction does. A word that is no instruction is a trap, as is one out of place."""

from . import csrs, hypervisor, memory, modules, records
from .values import (
    BREAKPOINT, ILLEGAL, MASK, SUPERVISOR, USER, USER_CALL, Refused, Trap, signed)


# ---- fields

def immediate_s(word):
    return signed(word >> 25 << 5 | word >> 7 & 31, 12)


def immediate_b(word):
    return signed(word >> 31 << 12 | (word >> 7 & 1) << 11 | (word >> 25 & 63) << 5
                  | (word >> 8 & 15) << 1, 13)


def immediate_j(word):
    return signed(word >> 31 << 20 | (word >> 12 & 255) << 12 | (word >> 20 & 1) << 11
                  | (word >> 21 & 1023) << 1, 21)


class Fields:
    def __init__(self, word):
        self.word, self.opcode = word, word & 127
        self.rd, self.function, self.rs1 = word >> 7 & 31, word >> 12 & 7, word >> 15 & 31
        self.rs2, self.funct7 = word >> 20 & 31, word >> 25
        self.immediate, self.upper = signed(word >> 20, 12), signed(word & 0xFFFFF000, 32)


# ---- numbers

def arithmetic(fields, left, right, is_immediate, bits):
    """The operation of this funct3 on numbers of 64 or 32 bits."""
    shift = right & bits - 1
    other = fields.word >> 30 & 1
    if fields.function == 0:
        return left - right if other and not is_immediate else left + right
    if fields.function == 1:
        return left << shift
    if fields.function == 2:
        return int(signed(left) < signed(right))
    if fields.function == 3:
        return int(left < right & MASK)
    if fields.function == 5:
        return signed(left, bits) >> shift if other else (left & (1 << bits) - 1) >> shift
    return {4: left ^ right, 6: left | right, 7: left & right}[fields.function]


def is_immediate_operation(fields):
    if fields.opcode == 0x13:
        high, shifts = fields.word >> 26, {1: (0,), 5: (0, 16)}
        return high in shifts.get(fields.function, (high,))
    return fields.function == 0 or fields.funct7 in {1: (0,), 5: (0, 32)}.get(fields.function, ())


def is_register_operation(fields):
    known = range(8) if fields.opcode == 0x33 else (0, 1, 5)
    other = fields.funct7 == 32 and fields.function in (0, 5)
    return fields.function in known and (fields.funct7 == 0 or other)


def compute(hart, fields):
    is_immediate = fields.opcode in (0x13, 0x1B)
    if not (is_immediate_operation if is_immediate else is_register_operation)(fields):
        raise Trap(ILLEGAL)
    bits = 64 if fields.opcode in (0x13, 0x33) else 32
    right = fields.immediate if is_immediate else hart.x[fields.rs2]
    value = arithmetic(fields, hart.x[fields.rs1], right, is_immediate, bits)
    hart.set(fields.rd, signed(value, bits))


def put_upper(machine, hart, fields):
    hart.set(fields.rd, fields.upper + (hart.pc if fields.opcode == 0x17 else 0))


# ---- jumps, each of which gives the next pc

def jump(hart, target, rd=0):
    target &= MASK
    if target % 4:
        raise Trap(0, target)
    hart.set(rd, hart.pc + 4)
    return target


def branch(hart, fields):
    if fields.function in (2, 3):
        raise Trap(ILLEGAL)
    left, right = hart.x[fields.rs1], hart.x[fields.rs2]
    taken = {0: left == right, 4: signed(left) < signed(right), 6: left < right}[
        fields.function & 6]
    if taken == bool(fields.function & 1):
        return hart.pc + 4
    return jump(hart, hart.pc + immediate_b(fields.word))


# ---- loads and stores

def load(machine, hart, fields):
    if fields.function == 7:
        raise Trap(ILLEGAL)
    size = 1 << (fields.function & 3)
    value = memory.load(machine, hart, hart.x[fields.rs1] + fields.immediate & MASK, size)
    hart.set(fields.rd, value if fields.function & 4 else signed(value, 8 * size))


def store(machine, hart, fields):
    if fields.function > 3:
        raise Trap(ILLEGAL)
    va = hart.x[fields.rs1] + immediate_s(fields.word) & MASK
    memory.store(machine, hart, va, 1 << fields.function, hart.x[fields.rs2])


# ---- the system's instructions; in a module each is illegal

def system(machine, hart, fields):
    """Gives the next pc."""
    word = fields.word
    if hart.module != 0:
        raise Trap(ILLEGAL)
    if word == 0x00000073:
        if hart.mode == USER:
            raise Trap(USER_CALL)
        hypervisor.ask(machine, hart)
    elif word == 0x00100073:
        raise Trap(BREAKPOINT)
    elif fields.function in (1, 2, 3, 5, 6, 7):
        csrs.operate(machine, hart, word)
    elif hart.mode == USER:
        raise Trap(ILLEGAL)
    elif word == 0x10200073:
        csrs.return_from_trap(hart)
        return hart.pc
    elif word != 0x10500073 and word & 0xFE007FFF != 0x12000073:
        raise Trap(ILLEGAL)
    return hart.pc + 4


# ---- the secure instructions

SECURE = ("launch", "call", "ret", "evict", "ident", "caller", "offerer", "sget", "sset")
UNUSED = {"launch": 0x01F00000, "ret": 0x01FF8F80, "evict": 0x01F00000, "caller": 0x01FF8000,
          "offerer": 0x01F00000, "sget": 0x01F00000}


def secure_name(fields):
    """The secure instruction of this word, or None."""
    index = fields.function + 8 * fields.funct7
    name = SECURE[index] if index < len(SECURE) else None
    return name if name is not None and not fields.word & UNUSED.get(name, 0) else None


def is_legal(hart, name):
    if name in ("launch", "evict"):
        return hart.module == 0 and hart.mode == SUPERVISOR
    return name in ("call", "ident") or hart.module != 0


def request(machine, hart, name, rd, left, right):
    """Carries out a secure instruction; gives rd's new number and the next pc."""
    row, following = machine.row(hart.module), hart.pc + 4
    if name == "launch":
        return modules.launch(machine, hart, left), following
    if name == "call":
        modules.call(machine, hart, rd, left, right)
        return None, hart.pc
    if name == "ret":
        modules.ret(machine, hart)
        return None, hart.pc
    if name == "evict":
        modules.evict(machine, hart, left)
        return 0, following
    if name == "ident":
        return modules.identity_word(machine, left, right), following
    if name == "caller":
        return row.caller, following
    if name == "offerer":
        return modules.offerer(machine, hart, left), following
    if name == "sget":
        return records.get(machine.records, row.identity, left), following
    records.put(machine.records, row.identity, left, right)
    machine.say("sset", hart.number, row.number, left)
    return 0, following


def secure(machine, hart, fields):
    name = secure_name(fields)
    if name is None or not is_legal(hart, name):
        raise Trap(ILLEGAL)
    try:
        value, following = request(
            machine, hart, name, fields.rd, hart.x[fields.rs1], hart.x[fields.rs2])
    except Refused as refused:
        machine.say("refuse", hart.number, name, refused.code)
        value, following = refused.code, hart.pc + 4
    if value is not None:
        hart.set(fields.rd, value)
    return following


# ---- all of them

def execute(machine, hart, word):
    fields = Fields(word)
    following = hart.pc + 4
    if fields.opcode in (0x37, 0x17):
        put_upper(machine, hart, fields)
    elif fields.opcode == 0x6F:
        following = jump(hart, hart.pc + immediate_j(word), fields.rd)
    elif fields.opcode == 0x67 and fields.function == 0:
        following = jump(hart, hart.x[fields.rs1] + fields.immediate & ~1, fields.rd)
    elif fields.opcode == 0x63:
        following = branch(hart, fields)
    elif fields.opcode == 0x03:
        load(machine, hart, fields)
    elif fields.opcode == 0x23:
        store(machine, hart, fields)
    elif fields.opcode in (0x13, 0x1B, 0x33, 0x3B):
        compute(hart, fields)
    elif fields.opcode == 0x73:
        following = system(machine, hart, fields)
    elif fields.opcode == 0x0B:
        following = secure(machine, hart, fields)
    elif fields.opcode != 0x0F or fields.function:
        raise Trap(ILLEGAL)
    hart.pc = following & MASK
