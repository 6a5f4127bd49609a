"""Walks of the guest's tables, the rule of admission, loads, stores, and what devices reach."""

import hashlib

from .csrs import SATP, SSTATUS, STATUS_MXR, STATUS_SUM
from .state import ACCEPT
from .values import (
    ACCESS_FAULT, FETCH, KINDS, LOAD, MISALIGNED, PAGE, PAGE_FAULT, RAM_PPN, STORE, USER, Trap,
    number, signed)

V, R, W, X, U, A, D = 1, 2, 4, 8, 16, 64, 128


class NoLeaf(Exception):
    """A walk finds no leaf: it meets a faulty entry, or a table that can't be read."""

    def __init__(self, is_refused):
        super().__init__(is_refused)
        self.is_refused = is_refused


# ---- pages

def page_of(machine, ppn):
    """The number of the guest page at this physical page, or None outside RAM."""
    page = ppn - RAM_PPN
    return page if 0 <= page < machine.pages else None


def contents(machine, page):
    return machine.ram[PAGE * page:PAGE * (page + 1)]


def zero(machine, page):
    machine.ram[PAGE * page:PAGE * (page + 1)] = bytes(PAGE)


def is_owned(machine, page):
    return any(made.page == page for row in machine.rows for made in row.declarations)


def is_free(machine, page):
    """It is in RAM and nobody's."""
    return page is not None and not is_owned(machine, page)


def public_digest(machine):
    """SHA-256 of the pages that no module declares."""
    digest = hashlib.sha256()
    for page in range(machine.pages):
        if not is_owned(machine, page):
            digest.update(contents(machine, page))
    return digest.hexdigest()


# ---- walks

def table_entry(machine, ppn, index):
    page = page_of(machine, ppn)
    if not is_free(machine, page):
        raise NoLeaf(is_refused=True)
    return number(contents(machine, page)[8 * index:8 * index + 8])


def is_faulty(entry):
    return not entry & V or entry & (R | W) == W or entry >> 54 != 0


def find_leaf(machine, satp, va):
    """The physical page number where the tables lead, and the leaf's flags; None in Bare."""
    if satp >> 60 == 0:
        return va // PAGE, None
    if signed(va, 39) != signed(va):
        raise NoLeaf(is_refused=False)
    table, level = satp & (1 << 44) - 1, 2
    while True:
        entry = table_entry(machine, table, va >> 12 + 9 * level & 511)
        if is_faulty(entry):
            raise NoLeaf(is_refused=False)
        if entry & (R | X):
            break
        if entry & (U | A | D) or level == 0:
            raise NoLeaf(is_refused=False)
        table, level = entry >> 10, level - 1
    low = (1 << 9 * level) - 1
    if entry >> 10 & low:
        raise NoLeaf(is_refused=False)
    return entry >> 10 | va // PAGE & low, entry & 255


def permits(hart, flags, kind):
    status = hart.csr[SSTATUS]
    readable = flags & R or (status & STATUS_MXR and flags & X)
    allowed = {FETCH: flags & X, LOAD: readable, STORE: flags & W}[kind]
    if hart.mode == USER:
        reachable = flags & U
    else:
        reachable = not flags & U or (kind != FETCH and status & STATUS_SUM)
    return bool(allowed and reachable and flags & A and (kind != STORE or flags & D))


# ---- accesses

def admits(machine, module, virtual, page, kind):
    """The rule of admission."""
    row = machine.row(module) if module else None
    declared = row.declared(virtual) if row else None
    if declared is None:
        return not is_owned(machine, page) and (kind != FETCH or module == 0)
    right = {LOAD: 1, STORE: 2, FETCH: 4}[kind]
    is_live = declared.sort != ACCEPT or machine.row(declared.source) is not None
    return declared.page == page and declared.rights & right != 0 and is_live


def place(machine, hart, va, size, kind):
    """Where in RAM an access comes, or a trap."""
    if kind != FETCH and va % size:
        raise Trap(MISALIGNED[kind], va)
    try:
        ppn, flags = find_leaf(machine, hart.csr[SATP], va)
    except NoLeaf as fault:
        raise Trap((ACCESS_FAULT if fault.is_refused else PAGE_FAULT)[kind], va)
    if flags is not None and not permits(hart, flags, kind):
        raise Trap(PAGE_FAULT[kind], va)
    page = page_of(machine, ppn)
    if page is None:
        raise Trap(ACCESS_FAULT[kind], va)
    if not admits(machine, hart.module, va // PAGE, page, kind):
        raise Trap(ACCESS_FAULT[kind], va, denied=page)
    return PAGE * page + va % PAGE


def load(machine, hart, va, size, kind=LOAD):
    at = place(machine, hart, va, size, kind)
    return number(machine.ram[at:at + size])


def store(machine, hart, va, size, value):
    at = place(machine, hart, va, size, STORE)
    machine.ram[at:at + size] = (value & (1 << 8 * size) - 1).to_bytes(size, "little")


def say_denied(machine, hart, kind, va):
    machine.say("deny", hart.number, hart.module, KINDS[kind], "%013x" % (va // PAGE))


# ---- devices

def poke(machine, page, offset, octet):
    if page >= machine.pages or is_owned(machine, page):
        machine.say("nopoke", page, offset)
        return
    machine.ram[PAGE * page + offset] = octet
    machine.say("poke", page, offset, "%02x" % octet)


def peek(machine, page, offset):
    if page >= machine.pages or is_owned(machine, page):
        machine.say("nopeek", page, offset)
        return
    machine.say("peek", page, offset, "%02x" % machine.ram[PAGE * page + offset])
