"""Harts, rows of live modules, and the machine that has them."""

from . import csrs
from .values import MASK, PAGE, RAM, SUPERVISOR, USER

IDLE, RUNNING, WAITING, STOPPED = "idle", "running", "waiting", "stopped"
PRIVATE, OFFER, ACCEPT = 1, 2, 3


class Frame:
    """A program's registers, pc and mode."""

    def __init__(self, registers=(0,) * 32, pc=0, mode=USER):
        self.registers, self.pc, self.mode = list(registers), pc, mode


class Hart:
    def __init__(self, number):
        self.number = number
        self.x, self.pc, self.mode = [0] * 32, 0, USER
        self.csr = csrs.reset()
        self.module = 0
        self.is_started = False
        self.timer = MASK
        self.retired = 0

    def set(self, register, value):
        if register:
            self.x[register] = value & MASK

    def start(self, pc, opaque):
        self.__init__(self.number)
        self.is_started, self.mode, self.pc = True, SUPERVISOR, pc
        self.x[10], self.x[11] = self.number, opaque

    def frame(self):
        return Frame(self.x, self.pc, self.mode)

    def take(self, frame):
        self.x, self.pc, self.mode = list(frame.registers), frame.pc, frame.mode


class Declaration:
    """A declared page: where it is, and whose Offer page it is where it is an Accept page."""

    def __init__(self, virtual, page, sort, rights, mask, source=0):
        self.virtual, self.page, self.sort = virtual, page, sort
        self.rights, self.mask, self.source = rights, mask, source


class Row:
    """A live module."""

    def __init__(self, identity, segment, declarations):
        self.identity, self.declarations = identity, declarations
        self.mode, self.entries, self.partners = segment.mode, segment.entries, segment.partners
        self.number = 0
        self.state, self.callee = IDLE, 0
        self.saved, self.caller, self.back = Frame(), 0, Frame()

    def declared(self, virtual):
        return next((made for made in self.declarations if made.virtual == virtual), None)

    def own_pages(self):
        """The pages that it declares Private or Offer, in order."""
        return [made.page for made in self.declarations if made.sort != ACCEPT]


class Machine:
    """Its `lines` are the trace so far."""

    def __init__(self, ram, entry=RAM, harts=1, records=None):
        self.ram = bytearray(ram)
        self.pages = len(ram) // PAGE
        self.harts = [Hart(number) for number in range(harts)]
        self.harts[0].is_started, self.harts[0].pc = True, entry
        self.harts[0].mode = SUPERVISOR
        self.rows = []
        self.records = records if records is not None else {}
        self.clock, self.next_id, self.keys, self.is_off = 0, 1, [], False
        self.lines = []

    def row(self, number):
        return next((row for row in self.rows if row.number == number), None)

    def say(self, text, *fields):
        """A line of the trace: its word, the event's number, and the fields."""
        self.lines.append(" ".join([text, str(self.clock)] + [str(field) for field in fields]))
