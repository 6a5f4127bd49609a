"""A plain interpreter of the machine, written from the manuals and apart from the emulator, as the
checks of this folder use it: a raw image."""

from machine import instructions, memory, running, scripts, state
from machine.values import FETCH, MASK, PAGE, RAM, signed

__all__ = ["FETCH", "MASK", "RAM", "Machine", "signed"]


class Machine:
    """So many harts and pages of RAM, with the image at its beginning."""

    def __init__(self, image, pages, harts=1):
        ram = bytes(image) + bytes(PAGE * pages - len(image))
        self.state = state.Machine(ram, harts=harts)
        self.hart = self.state.harts[0]

    def execute(self, word):
        instructions.execute(self.state, self.hart, word)

    def load(self, va, size, kind):
        return memory.load(self.state, self.hart, va, size, kind)

    def run(self, limit=100_000, blind=None, script=""):
        """The lines of a run of at most so many events. `blind` is a module and the number of the
        event before which it is zeroed."""
        harts = len(self.state.harts)
        events = scripts.events(scripts.read(script.encode(), harts), harts)
        running.run(self.state, events, limit, blind)
        return self.state.lines
