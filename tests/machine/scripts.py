"""Scripts: the events that a text orders, or its first bad line."""

import re

FILE = 1_048_576
MOST = 1_000_000_000
# the fields of each command: numbers below a bound, or bytes
COMMANDS = {b"turn": ("hart", "count"), b"go": ("count",), b"key": ("byte",),
            b"poke": ("page", "offset", "byte"), b"peek": ("page", "offset")}


class BadScript(Exception):
    """The text is refused, by a sort and a line."""

    def __init__(self, sort, line):
        super().__init__(sort, line)
        self.sort, self.line = sort, line


def read_field(kind, text):
    spelling = rb"[0-9a-f]{2}" if kind == "byte" else rb"0|[1-9][0-9]{0,9}"
    if not re.fullmatch(spelling, text):
        raise ValueError
    return int(text, 16 if kind == "byte" else 10)


def is_in_range(kind, value, harts):
    low, high = {"hart": (0, harts - 1), "count": (1, MOST), "byte": (0, 255),
                 "page": (0, (1 << 32) - 1), "offset": (0, 4095)}[kind]
    return low <= value <= high


def read_line(text, line, harts):
    word, *fields = text.split(b" ")
    if word not in COMMANDS:
        raise BadScript("word", line)
    kinds = COMMANDS[word]
    if len(fields) != len(kinds):
        raise BadScript("fields", line)
    try:
        values = [read_field(kind, field) for kind, field in zip(kinds, fields)]
    except ValueError:
        raise BadScript("number", line)
    if not all(is_in_range(kind, value, harts) for kind, value in zip(kinds, values)):
        raise BadScript("range", line)
    return [word.decode()] + values


def read(text, harts):
    """The commands of a text."""
    if len(text) > FILE:
        raise BadScript("long", 0)
    return [read_line(line, at, harts) for at, line in enumerate(text.split(b"\n"), 1)
            if line and not line.startswith(b"#")]


def events(commands, harts):
    """The events of the commands, and then turns of all harts, round and round."""
    for name, *values in commands:
        if name == "turn":
            for _ in range(values[1]):
                yield "turn", values[0]
        elif name == "go":
            for turn in range(values[0]):
                yield "turn", turn % harts
        else:
            yield tuple([name] + values)
    while True:
        for hart in range(harts):
            yield "turn", hart
