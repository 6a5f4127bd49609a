"""The words of a command line, the files and areas of a folder, and the whole report."""

import hashlib
import pathlib
import re

from . import generator, images, records, running, scripts
from .state import Machine
from .values import MASK

# statuses
ENDED, WORDS, LIMIT, NO_FILE, IMAGE, SCRIPT, STORE, CHIP_FAULT = 0, 2, 3, 4, 5, 6, 7, 11
STATUSES = {"missing": NO_FILE, "image": IMAGE, "script": SCRIPT, "store": STORE,
            "words": WORDS, "chip": CHIP_FAULT}
# the bounds of those that are numbers; `--move` is no option as long as pages have fixed frames
OPTIONS = {"--ram": (16, 4096), "--harts": (1, 4), "--steps": (0, 10**9), "--script": None,
           "--blind": None, "--store": None}
AREA = 65536


class Fault(Exception):
    """The run isn't made, and this line is written."""


# ---- words

def read_number(text, low, high):
    if not re.fullmatch("0|[1-9][0-9]{0,20}", text) or not low <= int(text) <= high:
        raise Fault("words")
    return int(text)


def read_value(name, text):
    if not text:
        raise Fault("words")
    if name == "--script":
        return text
    if name == "--blind":
        module, _, event = text.partition("@")
        return read_number(module, 1, 65535), read_number(event, 0, 10**9)
    return read_number(text, *OPTIONS[name])


def take_value(words):
    """The next word, as the value of an option before it."""
    if not words or words[0].startswith("-") and words[0] != "-":
        raise Fault("words")
    return words.pop(0)


def read_option(word, words, options, known):
    name, equals, value = word.partition("=")
    if name not in known or name in options or (name == "--store" and equals):
        raise Fault("words")
    if name == "--store":
        options[name] = True
    else:
        options[name] = read_value(name, value if equals else take_value(words))


def read_words(words, known=OPTIONS):
    """The plain word and the options by their names; the first word is left out."""
    words, plain, options = list(words), [], {}
    while words:
        word = words.pop(0)
        if word == "--":
            plain, words = plain + words, []
        elif word.startswith("-") and word != "-":
            read_option(word, words, options, known)
        else:
            plain.append(word)
    if "" in plain or len(plain) != 1:
        raise Fault("words")
    return plain[0], options


# ---- files

def read_file(folder, name, kind):
    try:
        return (folder / name).read_bytes()
    except FileNotFoundError:
        raise Fault("missing " + kind)


class Vault:
    """Two areas and a register, as files of a folder."""

    def __init__(self, folder):
        self.paths = [folder / name for name in ("bastion.a", "bastion.b", "bastion.reg")]
        texts = [path.read_bytes() if path.exists() else b"" for path in self.paths]
        if self.paths[2].exists() and len(texts[2]) != 32:
            raise Fault("chip read")
        self.areas, self.register = [text[:AREA] for text in texts[:2]], texts[2] or bytes(32)
        self.current = 1

    def open(self):
        """The records."""
        if self.register == bytes(32):
            return {}
        digests = [hashlib.sha256(area).digest() for area in self.areas]
        if self.register not in digests:
            raise Fault("store mismatch " + " ".join(
                digest.hex() for digest in [self.register] + digests))
        self.current = digests.index(self.register)
        try:
            return records.from_image(self.areas[self.current])
        except records.Malformed as fault:
            raise Fault("store malformed %d" % fault.at)

    def commit(self, kept):
        text, other = records.image(kept), 1 - self.current
        self.paths[other].write_bytes(text)
        self.paths[2].write_bytes(hashlib.sha256(text).digest())


# ---- runs

def prepare(words, folder):
    """The machine, its commands, the options, and the vault where there is one."""
    name, options = read_words(words)
    harts = options.get("--harts", 1)
    file = read_file(folder, name, "image")
    try:
        ram, entry = images.load(file, options.get("--ram", 1024))
    except images.BadImage as fault:
        raise Fault("image %s %d" % (fault.sort, fault.at))
    commands = []
    if "--script" in options:
        text = read_file(folder, options["--script"], "script")
        try:
            commands = scripts.read(text, harts)
        except scripts.BadScript as fault:
            raise Fault("script %s %d" % (fault.sort, fault.line))
    vault = Vault(folder) if "--store" in options else None
    kept = vault.open() if vault else {}
    return Machine(ram, entry, harts, kept), commands, options, vault


def generate(words):
    plain, _ = read_words(words, {})
    is_off, text = generator.summary(read_number(plain, 0, MASK))
    return ENDED if is_off else LIMIT, text


def call(words, folder="."):
    """The status and the text of a call with these words in this folder, whose store it keeps."""
    try:
        if any("\udc80" <= letter <= "\udcff" for word in words for letter in word):
            # a byte that is no UTF-8
            raise Fault("words")
        if words[:1] == ["gen"]:
            return generate(words[1:])
        if words[:1] == ["run"]:
            return run(words[1:], pathlib.Path(folder))
        raise Fault("words")
    except Fault as fault:
        line = str(fault)
        return STATUSES[line.split()[0]], line + "\n"


def run(words, folder):
    machine, commands, options, vault = prepare(words, folder)
    events = scripts.events(commands, len(machine.harts))
    running.run(machine, events, options.get("--steps", 10**6), options.get("--blind"))
    if vault:
        vault.commit(machine.records)
    return ENDED if machine.is_off else LIMIT, "\n".join(machine.lines) + "\n"
