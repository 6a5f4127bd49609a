"""The words that modules keep by their identities, and their stored image."""

from .values import MASK, Refused, number

IDENTITIES, WORDS = 64, 32
BAD_INDEX, FULL = -1, -2
MAGIC = b"BNSTORE1"


class Malformed(Exception):
    """A text is no stored image, by this place."""

    def __init__(self, at):
        super().__init__(at)
        self.at = at


def get(records, identity, index):
    if index >= WORDS or identity not in records:
        return 0
    return records[identity][index]


def put(records, identity, index, value):
    if index >= WORDS:
        raise Refused(BAD_INDEX)
    if identity not in records and len(records) >= IDENTITIES:
        raise Refused(FULL)
    records.setdefault(identity, [0] * WORDS)[index] = value & MASK


def image(records):
    text = MAGIC + len(records).to_bytes(8, "little")
    for identity in sorted(records):
        text += identity + b"".join(word.to_bytes(8, "little") for word in records[identity])
    return text


def from_image(text):
    size = 32 + 8 * WORDS
    if len(text) < 16:
        raise Malformed(len(text))
    for at in range(8):
        if text[at] != MAGIC[at]:
            raise Malformed(at)
    count = number(text[8:16])
    if count > IDENTITIES:
        raise Malformed(8)
    if len(text) != 16 + size * count:
        raise Malformed(min(len(text), 16 + size * count))
    records, last = {}, None
    for at in range(16, len(text), size):
        identity = bytes(text[at:at + 32])
        if last is not None and identity <= last:
            raise Malformed(at)
        words = text[at + 32:at + size]
        records[identity] = [number(words[8 * i:8 * i + 8]) for i in range(WORDS)]
        last = identity
    return records
