"""The identities of bn_launch's tests: the texts and pages of their modules, made here from the
format's fields, and their SHA-256 by hashlib."""
import hashlib

from tables import values

PRIVATE, ACCEPT = 1, 3


def text_of(entry, pages):
    """A segment text of mode S, with one entry and pages of a virtual page, a sort and rights."""
    text = bytearray(1232)
    text[:8] = b'BNSG' + bytes([1, 1, 1, len(pages)])
    text[16:24] = entry.to_bytes(8, 'little')
    for place, (vpn, sort, rights) in enumerate(pages):
        at = 80 + 16 * place
        text[at:at + 10] = vpn.to_bytes(8, 'little') + bytes([sort, rights])
    return bytes(text)


def page_with(at, content):
    """A page of zeros but for this content."""
    page = bytearray(4096)
    page[at:at + len(content)] = content
    return bytes(page)


CODE = page_with(0, bytes([0x0b, 0x20, 0, 0]))
DATA = page_with(4088, bytes(range(1, 9)))

# an accepted page is another module's, and isn't measured
MEASURED = {
    'MODULE': text_of(0x80010000, [(0x80010, PRIVATE, 5), (0x80011, PRIVATE, 3)]) + CODE + DATA,
    'ACCEPTING': text_of(0x80010000, [(0x80010, PRIVATE, 5), (0x80014, ACCEPT, 1)]) + CODE,
}


def check_identities(path, report):
    """Computes each identity, and compares."""
    constants = values(path)
    for name, measured in MEASURED.items():
        report('%s: %d bytes' % (name, len(measured)), bytes(constants[name]).hex(),
               hashlib.sha256(measured).hexdigest())
