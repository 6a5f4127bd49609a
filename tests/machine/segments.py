"""Segment texts: what they say, or the first test that they fail."""

from .state import ACCEPT, OFFER, PRIVATE
from .values import PAGE, number

LENGTH = 1232
ENTRIES, PAGES, PARTNERS = 8, 64, 4


class BadSegment(Exception):
    """The text fails this test first."""

    def __init__(self, test):
        super().__init__(test)
        self.test = test


class SegmentPage:
    def __init__(self, field):
        self.virtual = number(field[0:8])
        self.sort, self.rights, self.mask = field[8], field[9], field[10]
        self.padding = field[11:16]


class Segment:
    """The fields of a text, as many as it says, and what must be zeros."""

    def __init__(self, text):
        self.magic, self.version, self.mode = text[0:4], text[4], text[5]
        counts = text[6], text[7], text[8]
        self.entry_count, self.page_count, self.partner_count = counts
        entries = [number(text[16 + 8 * i:24 + 8 * i]) for i in range(ENTRIES)]
        pages = [SegmentPage(text[80 + 16 * i:96 + 16 * i]) for i in range(PAGES)]
        partners = [text[1104 + 32 * i:1136 + 32 * i] for i in range(PARTNERS)]
        self.entries, self.pages = entries[:counts[0]], pages[:counts[1]]
        self.partners = partners[:counts[2]]
        self.padding = [text[9:16], text[16 + 8 * counts[0]:80], text[80 + 16 * counts[1]:1104],
                        text[1104 + 32 * counts[2]:]]
        self.padding += [page.padding for page in self.pages]


def is_ascending(pages):
    virtual = [page.virtual for page in pages]
    return all(a < b for a, b in zip(virtual, virtual[1:])) and virtual[-1] < 1 << 52


def has_rights(page):
    return page.rights in ((1, 3, 4, 5, 7) if page.sort == PRIVATE else (1, 3))


def is_entry(entry, pages):
    return entry % 4 == 0 and any(
        page.virtual == entry // PAGE and page.sort == PRIVATE and page.rights & 4
        for page in pages)


def has_mask(page, partners):
    if page.sort == OFFER:
        return page.mask != 0 and page.mask >> partners == 0
    return page.mask == 0


def tests(segment):
    """The tests in their order, each made only where those before it pass."""
    yield segment.magic == b"BNSG"
    yield segment.version == 1
    yield segment.mode <= 1
    yield 1 <= segment.entry_count <= ENTRIES
    yield 1 <= segment.page_count <= PAGES
    yield is_ascending(segment.pages)
    yield all(page.sort in (PRIVATE, OFFER, ACCEPT) for page in segment.pages)
    yield all(has_rights(page) for page in segment.pages)
    yield all(is_entry(entry, segment.pages) for entry in segment.entries)
    yield segment.partner_count <= PARTNERS and all(
        has_mask(page, segment.partner_count) for page in segment.pages)
    yield not any(any(part) for part in segment.padding)


def read(text):
    segment = Segment(bytes(text))
    for test, is_passed in enumerate(tests(segment)):
        if not is_passed:
            raise BadSegment(test)
    return segment
