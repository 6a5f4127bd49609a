"""Calls to the hypervisor, which an ECALL of the untrusted world's mode S makes."""

from .csrs import SIP, SOFTWARE
from .values import A0, A1, A6, A7, MASK

SET_TIMER, PUTCHAR, GETCHAR, SHUTDOWN = 0, 1, 2, 8
HART_STATE, IPI = 0x48534D, 0x735049
NOT_SUPPORTED, INVALID, BAD_ADDRESS, STARTED = -2, -3, -5, -6


def set_timer(machine, hart):
    hart.timer, hart.x[A0] = hart.x[A0], 0


def putchar(machine, hart):
    machine.say("out", hart.number, "%02x" % (hart.x[A0] & 255))
    hart.x[A0] = 0


def getchar(machine, hart):
    hart.x[A0] = machine.keys.pop(0) if machine.keys else MASK


def shutdown(machine, hart):
    machine.is_off = True


def hart_start(machine, hart):
    target, pc, opaque = hart.x[10], hart.x[11], hart.x[12]
    if target >= len(machine.harts):
        return INVALID
    if pc % 4:
        return BAD_ADDRESS
    if machine.harts[target].is_started:
        return STARTED
    machine.say("start", hart.number, target, "%016x" % pc)
    machine.harts[target].start(pc, opaque)
    return 0


def send_ipi(machine, hart):
    mask, base = hart.x[10], hart.x[11]
    count = len(machine.harts)
    targets = (range(count) if base == MASK else
               [base + i for i in range(64) if mask >> i & 1])
    if any(target >= count for target in targets):
        return INVALID
    for target in targets:
        machine.harts[target].csr[SIP] |= 1 << SOFTWARE
    return 0


def ask(machine, hart):
    plain = {SET_TIMER: set_timer, PUTCHAR: putchar, GETCHAR: getchar, SHUTDOWN: shutdown}
    coded = {HART_STATE: hart_start, IPI: send_ipi}
    number = hart.x[A7]
    if number in plain:
        plain[number](machine, hart)
        return
    is_there = number in coded and hart.x[A6] == 0
    answer = coded[number](machine, hart) if is_there else NOT_SUPPORTED
    hart.x[A0], hart.x[A1] = answer & MASK, 0
