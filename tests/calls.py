"""The calls of the program in the tables of tests, held against the interpreter's."""
import pathlib
import re
import tempfile

from machine import outside

TEXT = r'"((?:[^"\\]|\\[\s\S])*)"'
# the statuses of calls in tables, by their names
CODES = {"Ended": 0, "Words": 2, "Limit": 3, "NoFile": 4, "Image": 5, "Script": 6}
NO_SCRIPT = "run a.img --ram 16 --script s"


def plain(text):
    """The text that a literal spells."""
    joined = re.sub(r"\\\n\s*", "", text)
    return re.sub(r"\\(.)", lambda found: {"n": "\n", "r": "\r", "t": "\t"}.get(found[1], found[1]), joined)


def array(module, name):
    return re.search(rf"const {name}: .*?= \[\n(.*?)\n\];", module, re.S).group(1)


def calls(module):
    """The calls of a module's tables: words, script, status and text."""
    found = re.findall(rf"words: {TEXT},\s*script: {TEXT},\s*status: Status::(\w+),\s*text:\s*{TEXT},", module)
    return [(plain(words), plain(script), status, plain(text)) for words, script, status, text in found]


def refused_scripts(module):
    """The scripts that are refused, as calls."""
    pairs = re.findall(rf"\({TEXT}, {TEXT}\)", array(module, "REFUSED"))
    return [(NO_SCRIPT, plain(script), "Script", plain(text)) for script, text in pairs]


def refused_words(module):
    return [(plain(words), "", "Words", "words\n") for words in re.findall(TEXT, array(module, "REFUSED"))]


def answer(words, files):
    """The code and the text of a call over these files."""
    with tempfile.TemporaryDirectory() as folder:
        for name, content in files.items():
            (pathlib.Path(folder) / name).write_bytes(content)
        return outside.call(words.split(" "), folder)


def differing(found, image):
    """Of these calls those that the interpreter answers otherwise, with its answer."""
    for words, script, status, text in found:
        made = answer(words, {"a.img": image, "e": b"", "s": script.encode()})
        if made != (CODES[status], text):
            yield words, script, made


def differing_files(module, values, code):
    """Of the ELF files of a module those that the interpreter answers otherwise, with its answer."""
    def file(place, number):
        headers = list(values["HEADERS"])
        headers[place] = number
        return b"".join(field.to_bytes(8, "little") for field in headers) + code

    def is_other(place, number, ram, wanted):
        made = answer(f"run a.elf --ram {ram}", {"a.elf": file(place, number)})
        return [] if made == wanted else [((place, number), made)]

    for place, number, text in re.findall(rf"\((\d+), (\w+), {TEXT}\)", array(module, "REFUSED")):
        yield from is_other(int(place), int(number, 0), 16, (CODES["Image"], plain(text)))
    whole = "\n".join(values["LINES"]) + "\n"
    for place, number in values["ACCEPTED"]:
        yield from is_other(place, number, 16, (CODES["Ended"], whole))
    large = "\n".join(values["LARGE_LINES"]) + "\n"
    yield from is_other(3, values["HEADERS"][3], 1024, (CODES["Ended"], large))
