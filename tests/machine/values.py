"""Constants of the machine, and what an instruction may end in."""

MASK = (1 << 64) - 1
PAGE = 4096
RAM = 0x80000000
RAM_PPN = RAM // PAGE
USER, SUPERVISOR = 0, 1
FETCH, LOAD, STORE = range(3)
KINDS = ("fetch", "load", "store")
MISALIGNED = (0, 4, 6)
ACCESS_FAULT = (1, 5, 7)
PAGE_FAULT = (12, 13, 15)
ILLEGAL, BREAKPOINT, USER_CALL = 2, 3, 8
A0, A1, A6, A7 = 10, 11, 16, 17


class Trap(Exception):
    """The instruction traps; `denied` is the guest page where the rule of admission failed."""

    def __init__(self, cause, value=0, denied=None):
        super().__init__(cause, value)
        self.cause, self.value, self.denied = cause, value, denied


class Refused(Exception):
    """A module's request is refused with this code."""

    def __init__(self, code):
        super().__init__(code)
        self.code = code


def signed(value, bits=64):
    value &= (1 << bits) - 1
    return value - (1 << bits) if value >> bits - 1 else value


def number(octets):
    return int.from_bytes(octets, "little")
