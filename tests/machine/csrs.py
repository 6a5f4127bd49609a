"""The CSRs of a hart, traps and interrupts."""

from .values import ILLEGAL, MASK, SUPERVISOR, USER, Trap

SSTATUS, SIE, STVEC, SSCRATCH, SEPC, SCAUSE, STVAL, SIP, SATP = (
    0x100, 0x104, 0x105, 0x140, 0x141, 0x142, 0x143, 0x144, 0x180)
CYCLE, TIME, INSTRET = 0xC00, 0xC01, 0xC02
# of sstatus SIE, SPIE, SPP, SUM and MXR can be written, and UXL is 2
STATUS_SIE, STATUS_SPIE, STATUS_SPP = 1 << 1, 1 << 5, 1 << 8
STATUS_SUM, STATUS_MXR = 1 << 18, 1 << 19
SSTATUS_BITS = STATUS_SIE | STATUS_SPIE | STATUS_SPP | STATUS_SUM | STATUS_MXR
UXL = 2 << 32
SOFTWARE, TIMER, EXTERNAL = 1, 5, 9
INTERRUPTS = 1 << SOFTWARE | 1 << TIMER | 1 << EXTERNAL


def reset():
    return dict.fromkeys(
        (SSTATUS, SIE, STVEC, SSCRATCH, SEPC, SCAUSE, STVAL, SIP, SATP), 0)


def wires(machine, hart):
    """The bits of sip that show the timer's and the external interrupt."""
    timer = machine.clock >= hart.timer
    external = hart.number == 0 and machine.keys != []
    return timer << TIMER | external << EXTERNAL


def read(machine, hart, number):
    if hart.mode == USER:
        raise Trap(ILLEGAL)
    if number in (CYCLE, TIME):
        return machine.clock & MASK
    if number == INSTRET:
        return hart.retired & MASK
    if number not in hart.csr:
        raise Trap(ILLEGAL)
    shown = {SSTATUS: UXL, SIP: wires(machine, hart)}
    return hart.csr[number] | shown.get(number, 0)


def write(hart, number, value):
    if hart.mode == USER or number not in hart.csr:
        raise Trap(ILLEGAL)
    if number == SATP and value >> 60 not in (0, 8):
        return
    writable = {SSTATUS: SSTATUS_BITS, SIE: INTERRUPTS, SIP: 1 << SOFTWARE,
                STVEC: ~2, SEPC: ~3}
    hart.csr[number] = value & writable.get(number, MASK) & MASK


def operate(machine, hart, word):
    """A whole CSR instruction."""
    number, function = word >> 20, word >> 12 & 7
    rd, field = word >> 7 & 31, word >> 15 & 31
    operand = field if function & 4 else hart.x[field]
    action = function & 3
    # with rd x0 a write doesn't read; with the field 0 a set or clear doesn't write
    reads, writes = action != 1 or rd != 0, action == 1 or field != 0
    old = read(machine, hart, number) if reads else 0
    if writes:
        new = {1: operand, 2: old | operand, 3: old & ~operand}[action]
        write(hart, number, new & MASK)
    hart.set(rd, old)


def pending(machine, hart):
    """The interrupt that is pending and enabled, by its code, or None."""
    if hart.mode == SUPERVISOR and not hart.csr[SSTATUS] & STATUS_SIE:
        return None
    ready = (hart.csr[SIP] | wires(machine, hart)) & hart.csr[SIE]
    return next((code for code in (EXTERNAL, SOFTWARE, TIMER) if ready >> code & 1), None)


def enter_trap(hart, cause, value):
    csr, interrupt = hart.csr, cause >> 63
    csr[SCAUSE], csr[STVAL], csr[SEPC] = cause, value & MASK, hart.pc
    status = csr[SSTATUS] & ~(STATUS_SPP | STATUS_SPIE | STATUS_SIE)
    status |= STATUS_SPP if hart.mode == SUPERVISOR else 0
    status |= STATUS_SPIE if csr[SSTATUS] & STATUS_SIE else 0
    csr[SSTATUS], hart.mode = status, SUPERVISOR
    vector = 4 * (cause & MASK >> 1) if interrupt and csr[STVEC] & 1 else 0
    hart.pc = (csr[STVEC] & ~3) + vector & MASK


def return_from_trap(hart):
    status = hart.csr[SSTATUS]
    hart.mode = SUPERVISOR if status & STATUS_SPP else USER
    enabled = STATUS_SIE if status & STATUS_SPIE else 0
    hart.csr[SSTATUS] = status & ~(STATUS_SPP | STATUS_SIE) | enabled | STATUS_SPIE
    hart.pc = hart.csr[SEPC]
