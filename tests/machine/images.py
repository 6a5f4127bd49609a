"""Image files, raw and ELF64."""

from .values import PAGE, RAM, number

FILE = 33_554_432


class BadImage(Exception):
    """The file is refused, by a sort and a place."""

    def __init__(self, sort, at):
        super().__init__(sort, at)
        self.sort, self.at = sort, at


def check_elf(file):
    tests = (("class", 4, 1, 2), ("order", 5, 1, 1), ("kind", 16, 2, 2), ("machine", 18, 2, 243),
             ("headers", 54, 2, 56))
    if len(file) < 64:
        raise BadImage("short", len(file))
    for sort, at, size, value in tests:
        if number(file[at:at + size]) != value:
            raise BadImage(sort, at)


def segments(file, size):
    """Each program header that counts: where it goes in RAM, and its bytes."""
    start, count = number(file[32:40]), number(file[56:58])
    if start + 56 * count > len(file):
        raise BadImage("headers", 32)
    found = []
    for at in range(start, start + 56 * count, 56):
        offset, place, in_file, in_memory = (
            number(file[at + i:at + i + 8]) for i in (8, 24, 32, 40))
        if number(file[at:at + 4]) != 1 or in_file == in_memory == 0:
            continue
        if in_file > in_memory:
            raise BadImage("sizes", at + 32)
        if offset + in_file > len(file):
            raise BadImage("bytes", at + 8)
        if place < RAM or place + in_memory > RAM + size:
            raise BadImage("range", at + 24)
        octets = file[offset:offset + in_file] + bytes(in_memory - in_file)
        found.append((place - RAM, octets))
    if not found:
        raise BadImage("none", 56)
    return found


def load(file, pages):
    """All of RAM, and the entry."""
    size = PAGE * pages
    if len(file) > FILE:
        raise BadImage("long", FILE)
    if not file:
        raise BadImage("empty", 0)
    if file[:4] != b"\x7fELF":
        if len(file) > size:
            raise BadImage("long", size)
        return file + bytes(size - len(file)), RAM
    check_elf(file)
    ram = bytearray(size)
    for at, octets in segments(file, size):
        ram[at:at + len(octets)] = octets
    entry = number(file[24:32])
    if entry % 4 or not RAM <= entry < RAM + size:
        raise BadImage("entry", 24)
    return bytes(ram), entry
