"""Launch, call, return, stop, resumption, eviction, and what modules ask of identities."""

import hashlib

from . import memory, segments
from .csrs import SATP
from .state import (
    ACCEPT, IDLE, OFFER, PRIVATE, RUNNING, STOPPED, WAITING, Declaration, Frame, Row)
from .values import A0, A1, PAGE, Refused

LIVE = 15
IDS = 65536
# codes of refusals
ADDRESS, UNMAPPED, NO_PAGE, OWNED, ALIAS, NOT_OFFERED, DUPLICATE, TABLE_FULL, IDS_SPENT = range(
    -1, -10, -1)
SEGMENT = -16
NO_MODULE, NOT_ENTRY, MODE_DIFFERS, BUSY = range(-1, -5, -1)
EVICT_BUSY = -2


# ---- launch

def page_at(machine, hart, va):
    """The page where the untrusted world's tables lead, permissions aside, or None."""
    try:
        ppn, _ = memory.find_leaf(machine, hart.csr[SATP], va)
    except memory.NoLeaf:
        return None
    return memory.page_of(machine, ppn)


def read_text(machine, hart, at):
    if at % 8 or at % PAGE > PAGE - segments.LENGTH:
        raise Refused(ADDRESS)
    page = page_at(machine, hart, at)
    if not memory.is_free(machine, page):
        raise Refused(UNMAPPED)
    return bytes(memory.contents(machine, page)[at % PAGE:at % PAGE + segments.LENGTH])


def read_segment(text):
    try:
        return segments.read(text)
    except segments.BadSegment as fault:
        raise Refused(SEGMENT - fault.test)


def find_pages(machine, hart, segment):
    """The guest pages of the declarations, in order."""
    pages = [page_at(machine, hart, made.virtual * PAGE) for made in segment.pages]
    if None in pages:
        raise Refused(NO_PAGE)
    if any(made.sort != ACCEPT and memory.is_owned(machine, page)
           for made, page in zip(segment.pages, pages)):
        raise Refused(OWNED)
    if len(set(pages)) < len(pages):
        raise Refused(ALIAS)
    return pages


def measure(machine, text, segment, pages):
    digest = hashlib.sha256(text)
    for made, page in zip(segment.pages, pages):
        if made.sort != ACCEPT:
            digest.update(memory.contents(machine, page))
    return digest.digest()


def offers(row, page, identity, rights):
    """The row offers this page to this identity with these rights."""
    return any(
        made.sort == OFFER and made.page == page and rights & ~made.rights == 0
        and any(made.mask >> i & 1 and partner == identity
                for i, partner in enumerate(row.partners))
        for made in row.declarations)


def source_of(machine, page, identity, rights):
    for row in machine.rows:
        if offers(row, page, identity, rights):
            return row.number
    raise Refused(NOT_OFFERED)


def judge(machine, hart, at):
    """The new row, or a refusal by the first test that fails."""
    text = read_text(machine, hart, at)
    segment = read_segment(text)
    pages = find_pages(machine, hart, segment)
    identity = measure(machine, text, segment, pages)
    declarations = [
        Declaration(made.virtual, page, made.sort, made.rights, made.mask,
                    source_of(machine, page, identity, made.rights)
                    if made.sort == ACCEPT else 0)
        for made, page in zip(segment.pages, pages)]
    if any(row.identity == identity for row in machine.rows):
        raise Refused(DUPLICATE)
    if len(machine.rows) >= LIVE:
        raise Refused(TABLE_FULL)
    if machine.next_id >= IDS:
        raise Refused(IDS_SPENT)
    return Row(identity, segment, declarations)


def launch(machine, hart, at):
    """Gives the id of the new module."""
    row = judge(machine, hart, at)
    row.number, machine.next_id = machine.next_id, machine.next_id + 1
    machine.rows.append(row)
    machine.say("launch", hart.number, row.number, row.identity.hex())
    return row.number


# ---- call and return

def call(machine, hart, rd, number, entry):
    row = machine.row(number)
    if row is None:
        raise Refused(NO_MODULE)
    if entry not in row.entries:
        raise Refused(NOT_ENTRY)
    if hart.mode != row.mode:
        raise Refused(MODE_DIFFERS)
    if row.state != IDLE:
        raise Refused(BUSY)
    machine.say("call", hart.number, hart.module, number, "%016x" % entry)
    arguments = hart.x[10:18]
    hart.set(rd, 0)
    hart.pc = hart.pc + 4 & (1 << 64) - 1
    caller = machine.row(hart.module)
    if caller is None:
        row.back = hart.frame()
    else:
        caller.saved, caller.state, caller.callee = hart.frame(), WAITING, number
    row.caller, row.state = hart.module, RUNNING
    hart.module, hart.pc = number, entry
    hart.x = [0] * 10 + arguments + [0] * 14


def ret(machine, hart):
    row = machine.row(hart.module)
    caller = machine.row(row.caller)
    if caller is None:
        frame, row.back = row.back, Frame()
    else:
        frame, caller.saved = caller.saved, Frame()
        caller.state, caller.callee = RUNNING, 0
    machine.say("ret", hart.number, row.number, row.caller, "%016x" % frame.pc)
    results = hart.x[A0], hart.x[A1]
    hart.take(frame)
    hart.x[A0], hart.x[A1] = results
    hart.module = row.caller
    row.state, row.caller = IDLE, 0


# ---- stop and resumption

def stop(machine, hart):
    row = machine.row(hart.module)
    machine.say("stop", hart.number, row.number, "%016x" % hart.pc)
    row.saved, row.state = hart.frame(), STOPPED
    hart.x, hart.module = [0] * 32, 0


def resumable(machine, hart, page):
    """The stopped row that the hart's fetch from this page would resume, or None."""
    if hart.module != 0:
        return None
    for row in machine.rows:
        made = row.declared(hart.pc // PAGE)
        if (row.state == STOPPED and made is not None and made.page == page
                and made.sort == PRIVATE and made.rights & 4
                and (row.saved.pc, row.saved.mode) == (hart.pc, hart.mode)):
            return row
    return None


def resume(machine, hart, row):
    machine.say("resume", hart.number, row.number, "%016x" % hart.pc)
    hart.take(row.saved)
    row.saved, row.state = Frame(), RUNNING
    hart.module = row.number


# ---- eviction

def evict(machine, hart, number):
    row = machine.row(number)
    if row is None:
        raise Refused(NO_MODULE)
    if row.state in (RUNNING, WAITING):
        raise Refused(EVICT_BUSY)
    removed = [row]
    while removed[-1].caller:
        removed.append(machine.row(removed[-1].caller))
    machine.rows = [kept for kept in machine.rows if kept not in removed]
    for gone in removed:
        for page in gone.own_pages():
            memory.zero(machine, page)
    machine.say("evict", hart.number, number, len(removed))


# ---- what a program asks of modules

def identity_word(machine, number, index):
    row = machine.row(number)
    if row is None or index > 3:
        return 0
    return int.from_bytes(row.identity[8 * index:8 * index + 8], "little")


def offerer(machine, hart, va):
    made = machine.row(hart.module).declared(va // PAGE)
    if made is None or made.sort != ACCEPT or machine.row(made.source) is None:
        return 0
    return made.source


# ---- blanking

def blank(machine, number):
    """Zeros a module's private pages and saved registers, where it lives and runs nowhere."""
    row = machine.row(number)
    if row is None or any(hart.module == number for hart in machine.harts):
        return
    for made in row.declarations:
        if made.sort == PRIVATE:
            memory.zero(machine, made.page)
    row.saved.registers = [0] * 32
