"""Turns, events, and the trace of a run."""

from . import csrs, instructions, memory, modules
from .values import FETCH, MASK, STORE, LOAD, Trap

WAITING_KEYS = 256


def kind_of(cause):
    """What kind of access an access fault is of."""
    return {1: FETCH, 5: LOAD, 7: STORE}[cause]


def trap(machine, hart, cause, value, denied=None):
    """Takes a trap; a module is stopped first, and then only the page of an address is told."""
    pc = hart.pc
    if denied is not None:
        memory.say_denied(machine, hart, kind_of(cause), value)
    if hart.module != 0:
        modules.stop(machine, hart)
        value &= ~0xFFF
    machine.say("trap", hart.number, "%016x" % cause, "%016x" % pc)
    csrs.enter_trap(hart, cause, value)


def execute(machine, hart):
    """One instruction, or one resumption."""
    try:
        word = memory.load(machine, hart, hart.pc, 4, FETCH)
    except Trap as fault:
        row = None if fault.denied is None else modules.resumable(machine, hart, fault.denied)
        if row is None:
            raise
        modules.resume(machine, hart, row)
        return
    instructions.execute(machine, hart, word)
    hart.retired += 1


def turn(machine, number):
    hart = machine.harts[number]
    if hart.is_started:
        code = csrs.pending(machine, hart)
        try:
            if code is not None:
                raise Trap(1 << 63 | code)
            execute(machine, hart)
        except Trap as taken:
            trap(machine, hart, taken.cause, taken.value & MASK, taken.denied)
    machine.clock += 1


def key(machine, octet):
    if len(machine.keys) < WAITING_KEYS:
        machine.keys.append(octet)
        machine.say("key", "%02x" % octet)
    else:
        machine.say("nokey", "%02x" % octet)
    machine.clock += 1


def poke(machine, page, offset, octet):
    memory.poke(machine, page, offset, octet)
    machine.clock += 1


def peek(machine, page, offset):
    memory.peek(machine, page, offset)
    machine.clock += 1


EVENTS = {"turn": turn, "key": key, "poke": poke, "peek": peek}


def rounds(harts):
    """Turns of all harts, round and round."""
    while True:
        for hart in range(harts):
            yield "turn", hart


def run(machine, events, limit, blind=None):
    """Makes at most so many events; `blind` is a module and the number of an event."""
    while machine.clock < limit and not machine.is_off:
        if blind is not None and blind[1] == machine.clock:
            modules.blank(machine, blind[0])
        name, *fields = next(events)
        EVENTS[name](machine, *fields)
    machine.say("end", "shutdown" if machine.is_off else "limit", memory.public_digest(machine))
