#!/usr/bin/env python3
"""Makes the card images that the tests read.

It shares no code with the library: the checksum and the format are those of card.py, which was written apart from it, so an
image that the library reads as described below was made by a second hand. Run it from the repository's root; the images it
writes are stored. What the image of each heap must be read as was worked out by hand from the format and stands in the table
below. The judge of card.py has to agree with all of the table, or nothing is written.
"""

import os
import random

from card import BLANK, PAYLOAD, body, commit_record, header, home, image, judge, line, low, page_record, row

HEAPS_FOLDER = "tests/images/heaps"


def text(words):
    return words.encode().ljust(PAYLOAD, b".")


def flip(data, byte, bit):
    changed = bytearray(data)
    changed[byte] ^= 1 << bit
    return bytes(changed)


def scratched():
    """16 sectors: 2-4 and 7 blank, 5 and 9-11 torn, each in another way."""
    blank = {2, 3, 4, 7}
    rows = [row(s, BLANK if s in blank else text(f"sector {s}")) for s in range(16)]
    rows[5] = flip(rows[5], 17, 3)  # a bit of the payload
    rows[9] = flip(rows[9], 63, 7)  # the last bit of the checksum
    rows[10] = row(3, text("a row of sector 3"))  # sound, but in the wrong place
    rows[11] = bytes(64)  # wiped
    return b"".join(rows)


def largest():
    """1,024 sectors, all readable but the last; 0 and 1022 are blank."""
    rows = [row(s, BLANK if s in (0, 1022) else text(f"sector {s}")) for s in range(1024)]
    rows[1023] = flip(rows[1023], 0, 0)
    return b"".join(rows)


class Card:
    """A card that is made in steps, each of which gives the card back, so that they can be written in a row.

    Checksums are made at the end, so every sector is readable but those that were torn or laid down as raw rows.
    """

    def __init__(self, count, epoch=3):
        self.payloads = [BLANK] * count
        self.epoch = epoch
        self.position = 0  # of the next log record
        self.torn = set()
        self.raw = {}

    def put(self, sector, payload):
        assert len(payload) == PAYLOAD
        self.payloads[sector] = payload
        return self

    def home(self, sector, words):
        return self.put(sector, home(sector, words))

    def root(self, words):
        """The root page of a card with a log of 9."""
        return self.home(11, body(6, (), words))

    def write(self, page, words, **other):
        """The next log record is a page record, as it should be but for what is named."""
        record = page_record(other.get("position", self.position), other.get("epoch", self.epoch), page, words)
        return self.put(2 + self.position, record).skip()

    def commit(self, n, number, **other):
        """The next log record is a commit record, as it should be but for what is named."""
        record = commit_record(other.get("position", self.position), other.get("epoch", self.epoch), n, number)
        return self.put(2 + self.position, record).skip()

    def commits(self, count, number):
        """So many of no page records, from that number on."""
        for following in range(count):
            self.commit(0, number + following)
        return self

    def skip(self):
        self.position += 1
        return self

    def set(self, sector, byte, data):
        old = self.payloads[sector]
        return self.put(sector, old[:byte] + data + old[byte + len(data):])

    def bit(self, sector, byte, bit):
        """Flips a bit, counted from a byte on."""
        return self.put(sector, flip(self.payloads[sector], byte + bit // 8, bit % 8))

    def tear(self, *sectors):
        self.torn.update(sectors)
        return self

    def lay(self, sector, whole_row):
        self.raw[sector] = whole_row
        return self

    def resize(self, count):
        self.payloads = (self.payloads + [BLANK] * count)[:count]
        return self

    def image(self):
        # the payload of a torn sector stays, for a reader that does not look at the checksum
        torn = {sector: flip(row(sector, self.payloads[sector]), 63, 7) for sector in self.torn}
        return image(self.payloads, {**self.raw, **torn})


def n(value):
    return "n", value


def r(value):
    return "r", value


def ref(sector, slot):
    return "r", 16 * sector + slot


FREE = body(0)


def things(count):
    """A page of so many objects of one word, each number 1: the count of objects tells which body was read."""
    return body(1, range(count), {slot: n(1) for slot in range(count)})


def empty(length=9, count=16, epoch=3, number=5):
    """A card of free pages. The older header tells of one transaction less, so it shows which of the two was read."""
    card = Card(count, epoch)
    card.put(epoch % 2, header(length, epoch, count, number))
    card.put((epoch - 1) % 2, header(length, epoch - 1, count, number - 1))
    card.home(length + 2, body(6))
    for sector in range(length + 3, count):
        card.home(sector, FREE)
    return card


# The words of the next card's root page, and what its page 12 is without its reference.
SMALL_ROOT = {0: ref(12, 0)}
TWELVE = body(4, [0], {0: n(7)})


def small(epoch=3, number=5):
    """A log of 9, the root page 11 and data pages 12 to 15. 3 objects, 2 of them reachable; pages 14 and 15 are free.

    The root refers to 12/0, that to 13/0; 13/1 refers to 12/0, and nothing to 13/1.
    """
    card = empty(9, 16, epoch, number).root(SMALL_ROOT)
    card.home(12, body(4, [0], {0: n(7), 1: ref(13, 0)}))
    return card.home(13, body(2, [0, 1], {0: n(1), 2: n(3), 3: ref(12, 0)}))


def classes():
    """A page of each class, all slots used. 21 objects, all reachable but 12/9; 3 free pages."""
    card = empty(9, 20, 3, 7).root({0: ref(12, 0), 1: ref(13, 0), 2: ref(14, 0), 3: ref(15, 0), 9: ref(16, 0)})
    ones = {0: ref(13, 1), 1: ref(13, 2), 2: ref(13, 3), 3: ref(13, 4), 4: n(4), 8: n(0xFFFFFFFF), 9: ref(13, 0)}
    card.home(12, body(1, range(10), ones))
    card.home(13, body(2, range(5), {0: n(1), 9: ref(16, 0)}))
    card.home(14, body(3, range(3), {0: ref(14, 1), 2: ref(14, 2), 3: n(1), 8: n(0x80000000)}))
    card.home(15, body(4, range(2), {4: ref(15, 1), 9: ref(12, 0)}))
    return card.home(16, body(5, [0], {**{slot: ref(12, slot) for slot in range(9)}, 9: n(99)}))


def garbage(first):
    """AA hex in every byte but the first: a record by that one at most, and of a later epoch than most."""
    return bytes([first]) + b"\xAA" * 59


def later(first, epoch=4):
    """A first byte, an epoch that is later than small()'s if nothing is said, and zeros."""
    return (bytes([first]) + bytes(3) + low(epoch)).ljust(PAYLOAD, b"\0")


# Where the two words of a body's head begin in a sector's payload.
MARKS, KINDS = 12, 16


def heap(transactions, free, objects, reachable):
    return "heap", transactions, free, objects, reachable


def none(refusal, sector=None, word=None):
    return "none", refusal, sector, word


SMALL = heap(5, 2, 3, 2)  # what small() is, and stays where nothing of its log counts
OLDER = heap(4, 2, 3, 2)  # the same by its older header


def tens(sectors, slots):
    """Four pages of ten objects, each of which refers to the next in the order given; the root refers to the first."""
    places = [(sector, slot) for sector in sectors for slot in slots]
    words = {sector: {} for sector in sectors}
    for (sector, slot), following in zip(places, places[1:]):
        words[sector][slot] = ref(*following)
    card = empty().root({0: ref(*places[0])})
    for sector in sectors:
        card.home(sector, body(1, range(10), words[sector]))
    return card


def full():
    """The largest card: 1,024 sectors, 63 committed records in a log of 64, and all slots of all data pages used.

    The data pages are 67 to 1023, of class 1, 2, 3, 4, 5, 1 and so on. Of the 957 pages 955 are 191 rounds of 21 objects,
    and the last two have 10 and 5: 4,026 objects. The first 26 of them that chance draws are referred to by none but each
    other; every other one gets a word of the root or of one drawn before it, so 4,000 are reachable. What words are left are
    numbers, or refer to objects drawn before, so that there is no shorter way to the last ones. The log has 7 transactions
    of 8 page records. What they superseded was free or torn.
    """
    chance = random.Random(1024)
    size = {1: 1, 2: 2, 3: 3, 4: 5, 5: 10}
    codes = {sector: 1 + (sector - 67) % 5 for sector in range(67, 1024)}
    slots = {sector: range(10 // size[code]) for sector, code in codes.items()}
    objects = [(sector, slot) for sector in slots for slot in slots[sector]]
    chance.shuffle(objects)
    apart, reachable = objects[:26], objects[26:]

    def places(sector, slot):
        return [(sector, index) for index in range(slot * size[codes[sector]], (slot + 1) * size[codes[sector]])]

    words = {sector: {} for sector in range(66, 1024)}
    open_places = [(66, index) for index in range(10)]
    for found in reachable:
        # most of them hang on the one before, so that some are many steps away
        sector, index = open_places.pop(-1 if chance.random() < 0.95 else chance.randrange(len(open_places)))
        words[sector][index] = ref(*found)
        open_places += places(*found)
    drawn = {found: at for at, found in enumerate(reachable)}
    for sector, index in open_places:
        if sector == 66:
            words[sector][index] = ref(*reachable[0])
        elif chance.random() < 0.2:
            words[sector][index] = n(chance.getrandbits(32))
        else:
            words[sector][index] = ref(*reachable[chance.randint(0, drawn[sector, index // size[codes[sector]]])])
    for found in apart:
        for sector, index in places(*found):
            words[sector][index] = ref(*chance.choice(objects))
    bodies = {sector: body(codes[sector], slots[sector], words[sector]) for sector in codes}
    bodies[66] = body(6, (), words[66])

    card = empty(64, 1024, 41, 500)
    for sector, there in bodies.items():
        card.home(sector, there)
    often = chance.sample(range(67, 1024), 30)
    transactions = [chance.sample(often, 8) for _ in range(6)] + [[66] + chance.sample(often, 7)]
    last = {page: number for number, pages in enumerate(transactions) for page in pages}
    for number, pages in enumerate(transactions):
        for page in pages:
            before = body(6) if page == 66 else FREE
            card.home(page, before).write(page, bodies[page] if last[page] == number else before)
        card.commit(8, 501 + number)
    card.write(67, FREE, epoch=40)  # of the log before
    return card.tear(*sorted(last)[:9:2])


# Each image: its name, what it must be read as, and the card; and in a few words why.
HEAPS = [
    # Whole cards.
    ("blank", none(14), Card(13)),  # a blank sector is no header
    ("wiped", none(14), empty().lay(0, bytes(64)).lay(1, bytes(64))),  # a row of zeros is torn
    ("no-rows", none(14), Card(0)),  # no sector to look at
    ("one-row", none(14), Card(1).put(0, header(9, 2, 1, 5))),  # a header on a device of one sector
    ("twelve-rows", none(14), empty(8, 12)),  # all as it should be, but 12 sectors are too few
    ("least", heap(5, 1, 0, 0), empty(9, 13)),  # page 12 is the only data page
    ("fresh", heap(0, 4, 0, 0), empty(number=1).put(0, BLANK).put(1, header(9, 1, 16, 0))),  # one header, epoch 1, nothing done
    ("longest-log", heap(5, 1, 0, 0), empty(64, 68)),  # pages 66 and 67
    ("small", SMALL, small()),
    ("classes", heap(7, 3, 21, 20), classes()),  # 10 + 5 + 3 + 2 + 1 objects

    # Headers. In small() the newer one is in sector 1 and has epoch 3.
    ("newer-in-0", SMALL, small(epoch=4)),  # epoch 4 before 3
    ("newer-in-1-by-far", SMALL, small().put(1, header(9, 0x80000003, 16, 5))),  # as numbers without a sign
    ("newer-in-0-by-far", OLDER, small().put(0, header(9, 0xFFFFFFFE, 16, 4))),
    ("epochs-at-half", SMALL, small(epoch=0x80000000)),  # 80000000 hex in sector 0 before 7FFFFFFF in sector 1
    ("epochs-at-end", SMALL, small(epoch=0xFFFFFFFF)),
    ("newer-torn", OLDER, small().tear(1)),
    ("newer-torn-in-0", OLDER, small(epoch=4).tear(0)),
    ("older-torn", SMALL, small().tear(0)),
    ("older-blank", SMALL, small().put(0, BLANK)),
    ("newer-blank", OLDER, small().put(1, BLANK)),
    ("headers-torn", none(14), small().tear(0, 1)),
    ("headers-invalid", none(14), small().set(0, 0, b"\x05").set(1, 1, b"\x02")),  # byte 0 of one, the edition of the other
    ("headers-change-places", none(14), small().put(0, header(9, 3, 16, 5)).put(1, header(9, 2, 16, 4))),  # both parities are wrong
    ("header-in-2", none(14), small().tear(0, 1).put(2, header(9, 2, 16, 4))),  # only 0 and 1 are looked at
    ("header-in-row-of-0", OLDER, small().lay(1, row(0, header(9, 3, 16, 5)))),  # a row that was made for sector 0 is torn in 1
    ("newer-byte-0-is-3", OLDER, small().set(1, 0, b"\x03")),
    ("newer-byte-0-is-0", OLDER, small().set(1, 0, b"\x00")),
    ("newer-byte-0-is-20", OLDER, small().set(1, 0, b"\x14")),  # the low bits alone are right
    ("newer-edition-0", OLDER, small().set(1, 1, b"\x00")),
    ("newer-edition-2", OLDER, small().set(1, 1, b"\x02")),
    ("newer-length-8", OLDER, small().set(1, 2, low(8, 2))),
    ("newer-length-0", OLDER, small().set(1, 2, low(0, 2))),
    ("newer-length-12", none(16, 14), small().set(1, 2, low(12, 2))),  # valid, N = L + 4: page 14 is the root's, but free
    ("newer-length-13", OLDER, small().set(1, 2, low(13, 2))),  # N = L + 3
    ("newer-length-265", OLDER, small().set(1, 2, low(265, 2))),  # 9 in its low byte
    ("newer-length-65", heap(4, 2, 0, 0), empty(64, 69).set(1, 2, low(65, 2))),  # N = L + 4, but above 64
    ("older-length-12", SMALL, small().set(0, 2, low(12, 2))),  # the older one's length does not matter
    ("length-8", none(14), empty(8, 13)),  # a whole card with a log of 8
    ("length-65", none(14), empty(65, 69)),  # and of 65
    ("no-data-page", none(14), empty(10, 13)),  # N = L + 3
    ("newer-count-15", OLDER, small().set(1, 8, low(15))),
    ("newer-count-17", OLDER, small().set(1, 8, low(17))),
    ("newer-count-65552", OLDER, small().set(1, 8, low(65552))),  # 16 in its low half
    ("one-row-more", none(14), small().resize(17)),  # the headers say 16
    ("one-row-less", none(14), small().resize(15)),
    ("newer-parity", OLDER, small().set(1, 4, low(4))),  # an even epoch in sector 1
    ("older-parity", SMALL, small().set(0, 4, low(5))),  # an odd one in sector 0, and the greater
    ("epoch-0", none(14), small().set(0, 4, low(0)).tear(1)),  # even, but not at least 1
    ("newer-byte-16", OLDER, small().set(1, 16, b"\x01")),  # the first byte that is not named
    ("newer-byte-59", OLDER, small().set(1, 59, b"\x80")),  # the last one
    ("newer-byte-40", OLDER, small(epoch=4).set(0, 40, b"\x04")),  # and in sector 0
    ("count-at-end", heap(0xFFFFFFFF, 2, 3, 2), small(number=0xFFFFFFFF)),  # a transaction count may be any number

    # The log. The first commit is to be numbered 6.
    ("commit", heap(6, 1, 4, 2), small().write(14, things(1)).commit(1, 6)),
    ("commit-of-two", heap(6, 0, 6, 2), small().write(14, things(1)).write(15, things(2)).commit(2, 6)),
    ("commit-of-none", heap(6, 2, 3, 2), small().commit(0, 6)),
    ("commits-of-none", heap(14, 2, 3, 2), small().commits(9, 6)),  # all 9 sectors
    ("commits-of-none-64", heap(69, 1, 0, 0), empty(64, 68).commits(64, 6)),
    ("commits", heap(8, 0, 8, 2), small().write(14, things(1)).commit(1, 6).commit(0, 7)
        .write(15, things(9)).write(15, things(4)).commit(2, 8)),  # 3 objects, 1 in page 14 and 4 in page 15
    ("last-record-wins", heap(6, 1, 5, 2), small().write(15, things(5)).write(15, things(2)).commit(2, 6)),
    ("n-counts-records", SMALL, small().write(15, things(5)).write(15, things(2)).commit(1, 6)),  # two records, if one page
    ("last-commit-wins", heap(7, 1, 5, 2), small().write(14, things(5)).commit(1, 6).write(14, things(2)).commit(1, 7)),
    ("commit-frees", heap(6, 3, 1, 1), small().write(12, TWELVE).write(13, FREE).commit(2, 6)),  # only 12/0 is left
    ("commit-of-root", heap(6, 1, 6, 1), small().write(11, body(6, (), {5: ref(14, 2)})).write(14, things(3)).commit(2, 6)),
    ("commit-of-8", heap(6, 0, 36, 0), empty(9, 20).write(12, things(1)).write(13, things(2)).write(14, things(3))
        .write(15, things(4)).write(16, things(5)).write(17, things(6)).write(18, things(7)).write(19, things(8)).commit(8, 6)),
    ("commit-of-9", heap(5, 3, 0, 0), empty(10, 16).write(13, things(1)).write(14, things(2)).write(15, things(3))
        .write(13, things(4)).write(14, things(5)).write(15, things(6)).write(13, things(7)).write(14, things(8))
        .write(15, things(9)).commit(9, 6)),  # right, but above 8
    ("commit-of-9-as-8", heap(5, 3, 0, 0), empty(10, 16).write(13, things(1)).write(14, things(2)).write(15, things(3))
        .write(13, things(4)).write(14, things(5)).write(15, things(6)).write(13, things(7)).write(14, things(8))
        .write(15, things(9)).commit(8, 6)),  # not above 8, but wrong
    ("tail", heap(6, 1, 4, 2), small().write(14, things(1)).commit(1, 6).write(14, things(5)).write(15, things(2))),  # no commit
    ("tail-only", SMALL, small().write(14, things(1)).write(14, things(2)).write(14, things(3)).write(14, things(4))
        .write(14, things(5)).write(15, things(1)).write(15, things(2)).write(15, things(3)).write(15, things(4))),
    ("log-full", heap(8, 0, 10, 2), small().write(14, things(1)).write(15, things(1)).commit(2, 6).write(14, things(2))
        .write(15, things(2)).commit(2, 7).write(14, things(3)).write(15, things(4)).commit(2, 8)),  # the last commit is in sector 10
    ("log-past-full", heap(11, 0, 6, 2), small().write(11, body(6, (), SMALL_ROOT)).commit(1, 6).write(14, things(1)).commit(1, 7)
        .write(15, things(2)).commit(1, 8).commits(4, 9)),  # 12 is in the root's sector

    # What ends the log. In each of these a reader that goes on finds a commit that would be good.
    ("torn-record", heap(6, 1, 4, 2), small().write(14, things(1)).commit(1, 6).write(15, things(2)).commit(1, 7).tear(4)),
    ("torn-record-left-out", heap(6, 1, 4, 2), small().write(14, things(1)).commit(1, 6).write(15, things(2)).commit(0, 7).tear(4)),
    ("torn-record-first", SMALL, small().write(14, things(1)).commit(1, 6).tear(2)),
    ("torn-record-first-left-out", SMALL, small().write(14, things(1)).commit(0, 6).tear(2)),
    ("torn-record-of-two", SMALL, small().write(14, things(1)).write(15, things(2)).commit(1, 6).tear(3)),
    ("torn-commit", SMALL, small().write(14, things(1)).commit(1, 6).commit(0, 7).tear(3)),
    ("torn-commit-again", SMALL, small().write(14, things(1)).commit(1, 6).commit(1, 6).tear(3)),
    ("torn-commit-later", heap(6, 1, 4, 2), small().write(14, things(1)).commit(1, 6).commit(0, 7).commit(0, 7).tear(4)),
    ("blank-in-log", heap(6, 1, 4, 2), small().write(14, things(1)).commit(1, 6).skip().commit(0, 7)),
    ("blank-first-in-log", SMALL, small().skip().write(14, things(1)).commit(1, 6)),
    ("record-made-for-3", SMALL, small().lay(2, row(3, commit_record(0, 3, 0, 6)))),  # in sector 2: torn
    ("stale-record", heap(6, 1, 4, 2), small().write(14, things(1)).commit(1, 6).write(15, things(2), epoch=2).commit(1, 7)),
    ("stale-record-left-out", heap(6, 1, 4, 2), small().write(14, things(1)).commit(1, 6).write(15, things(2), epoch=2).commit(0, 7)),
    ("stale-commit", heap(6, 1, 4, 2), small().write(14, things(1)).commit(1, 6).commit(0, 7, epoch=1).commit(0, 8)),
    ("stale-commit-left-out", heap(6, 1, 4, 2), small().write(14, things(1)).commit(1, 6).commit(0, 7, epoch=2).commit(0, 7)),
    ("stale-first", SMALL, small().commit(0, 6, epoch=2)),  # of the older header's epoch
    ("stale-of-0", SMALL, small().commit(0, 6, epoch=0)),
    ("stale-by-65536", SMALL, small(epoch=65539).commit(0, 6, epoch=3)),  # the low halves are the same
    ("stale-log", SMALL, small().write(14, things(1), epoch=2).commit(1, 6, epoch=2).write(15, things(1), epoch=2)
        .commit(1, 7, epoch=2)),  # all of it of the epoch before
    ("position-before", heap(6, 1, 4, 2), small().write(14, things(1)).commit(1, 6).commit(0, 7, position=1)),
    ("position-after", heap(6, 1, 4, 2), small().write(14, things(1)).commit(1, 6).commit(0, 7, position=3).commit(0, 8)),
    ("position-as-sector", heap(6, 1, 4, 2), small().write(14, things(1)).commit(1, 6).commit(0, 7, position=4).commit(0, 8)),
    ("position-by-256", heap(6, 1, 4, 2), small().write(14, things(1)).commit(1, 6).commit(0, 7, position=258)),
    ("position-first", SMALL, small().commit(0, 6, position=1)),
    ("position-of-record", heap(6, 1, 4, 2), small().write(14, things(1)).commit(1, 6).write(15, things(2), position=0).commit(1, 7)),
    ("position-of-record-left-out", SMALL, small().write(15, things(2), position=1).commit(0, 6)),
    ("n-too-great", SMALL, small().write(14, things(1)).commit(2, 6)),
    ("n-too-small", SMALL, small().write(14, things(1)).write(15, things(2)).commit(1, 6)),
    ("n-0-after-one", SMALL, small().write(14, things(1)).commit(0, 6)),
    ("n-1-after-none", SMALL, small().commit(1, 6)),
    ("n-of-whole-log", heap(6, 1, 4, 2), small().write(14, things(1)).commit(1, 6).write(15, things(2)).commit(2, 7)),
    ("n-of-commits-too", heap(6, 1, 4, 2), small().write(14, things(1)).commit(1, 6).write(15, things(2)).commit(3, 7)),
    ("n-257", SMALL, small().write(14, things(1)).commit(257, 6)),  # 1 in its low byte
    ("n-65537", SMALL, small().write(14, things(1)).commit(65537, 6)),  # and in its low half
    ("n-wrong-then-right", SMALL, small().write(14, things(1)).commit(2, 6).commit(1, 6)),
    ("n-wrong-then-none", SMALL, small().write(14, things(1)).commit(2, 6).commit(0, 6)),
    ("number-repeated", SMALL, small().write(14, things(1)).commit(1, 5)),  # the header's own
    ("number-skipped", SMALL, small().write(14, things(1)).commit(1, 7)),
    ("number-0", SMALL, small().write(14, things(1)).commit(1, 0)),
    ("number-1", SMALL, small().write(14, things(1)).commit(1, 1)),  # not counted from the log's start
    ("number-repeated-later", heap(6, 1, 4, 2), small().write(14, things(1)).commit(1, 6).write(14, things(2)).commit(1, 6)),
    ("number-skipped-later", heap(6, 1, 4, 2), small().write(14, things(1)).commit(1, 6).write(14, things(2)).commit(1, 8)),
    ("number-262", SMALL, small().write(14, things(1)).commit(1, 262)),  # 6 in its low byte
    ("number-65542", SMALL, small().write(14, things(1)).commit(1, 65542)),  # and in its low half
    ("number-wrong-then-right", SMALL, small().commit(0, 7).commit(0, 6)),
    ("number-wrong-then-next", SMALL, small().commit(0, 7).commit(0, 8)),
    ("number-at-end", heap(0xFFFFFFFF, 1, 4, 2), small(number=0xFFFFFFFE).write(14, things(1)).commit(1, 0xFFFFFFFF)
        .write(14, things(2)).commit(1, 0)),  # the last number there is, and none after it
    ("number-past-end", heap(0xFFFFFFFF, 2, 3, 2), small(number=0xFFFFFFFF).write(14, things(1)).commit(1, 0)),
    ("number-at-half", heap(0x80000000, 1, 4, 2), small(number=0x7FFFFFFF).write(14, things(1)).commit(1, 0x80000000)),
    ("page-below", SMALL, small().write(10, things(1)).commit(1, 6)),  # the log's last sector is no home
    ("page-below-left-out", SMALL, small().write(10, things(1)).commit(0, 6)),
    ("page-0", SMALL, small().write(0, things(1)).commit(1, 6)),
    ("page-past", SMALL, small().write(16, things(1)).commit(1, 6)),  # N is 16
    ("page-past-left-out", SMALL, small().write(16, things(1)).commit(0, 6)),
    ("page-65550", SMALL, small().write(65550, things(1)).commit(1, 6)),  # 14 in its low half
    ("page-record-byte-1", SMALL, small().write(14, things(1)).commit(1, 6).set(2, 1, b"\x01")),
    ("page-record-byte-1-left-out", SMALL, small().write(14, things(1)).commit(0, 6).set(2, 1, b"\x80")),
    ("commit-byte-1", SMALL, small().write(14, things(1)).commit(1, 6).commit(0, 7).set(3, 1, b"\x01")),
    ("commit-byte-16", SMALL, small().write(14, things(1)).commit(1, 6).commit(0, 7).set(3, 16, b"\x01")),
    ("commit-byte-37", SMALL, small().write(14, things(1)).commit(1, 6).commit(0, 7).set(3, 37, b"\x10")),
    ("commit-byte-59", SMALL, small().write(14, things(1)).commit(1, 6).commit(0, 7).set(3, 59, b"\x80")),
    ("record-byte-0-is-0", SMALL, small().write(14, things(1)).commit(1, 6).set(2, 0, b"\x00")),
    ("record-byte-0-is-3", SMALL, small().write(14, things(1)).commit(1, 6).set(2, 0, b"\x03")),
    ("record-byte-0-is-2", SMALL, small().write(14, FREE).commit(1, 6).set(2, 0, b"\x02")),
    ("commit-byte-0-is-0", SMALL, small().commit(0, 6).set(2, 0, b"\x00")),
    ("commit-byte-0-is-1", SMALL, small().commit(0, 6).set(2, 0, b"\x01")),
    ("commit-byte-0-is-3", SMALL, small().commit(0, 6).commit(0, 6).set(2, 0, b"\x03")),
    ("commit-byte-0-is-18", SMALL, small().commit(0, 6).set(2, 0, b"\x12")),
    ("home-in-log", SMALL, small().home(2, things(1)).skip().commit(0, 6)),
    ("header-in-log", SMALL, small().put(2, header(9, 3, 16, 5)).skip().commit(0, 6)),

    # Records of a later epoch than 3.
    ("later-record", none(15, 2), small().write(14, things(1), epoch=4).commit(1, 6, epoch=4)),
    ("later-commit", none(15, 2), small().commit(0, 6, epoch=5)),
    ("later-after-commit", none(15, 4), small().write(14, things(1)).commit(1, 6).commit(0, 7, epoch=4)),
    ("later-past-log-1", none(15, 10), small().put(10, page_record(8, 4, 14, things(1)))),  # after blanks, in the log's last sector
    ("later-past-log-2", none(15, 10), small().put(10, commit_record(8, 4, 0, 6))),
    ("later-garbage-1", none(15, 6), small().put(6, garbage(1))),  # no record by anything but its first byte
    ("later-garbage-2", none(15, 6), small().put(6, garbage(2))),
    ("later-first-garbage-1", none(15, 2), small().put(2, garbage(1))),
    ("later-first-garbage-2", none(15, 2), small().put(2, garbage(2))),
    ("later-65539", none(15, 6), small().put(6, later(1, 65539))),  # the same low half
    ("later-80000000", none(15, 6), small().put(6, later(2, 0x80000000))),  # not below 0
    ("later-in-65", none(15, 65), empty(64, 68).put(65, later(1))),  # the last sector of the longest log
    ("later-of-two", none(15, 5), small().put(5, later(2)).put(8, later(1))),
    ("later-of-two-epochs", none(15, 5), small().put(5, later(1, 4)).put(8, later(1, 6))),
    ("later-than-read-header", none(15, 2), small().write(14, things(1)).commit(1, 6).tear(1)),  # the older header's epoch is 2
    ("later-torn", SMALL, small().put(6, later(1)).tear(6)),
    ("later-torn-first", none(15, 8), small().put(6, later(1)).put(8, later(1)).tear(6)),
    ("later-byte-0-is-0", SMALL, small().put(6, garbage(0))),
    ("later-byte-0-is-3", SMALL, small().put(6, garbage(3))),
    ("later-byte-0-is-4", SMALL, small().put(6, garbage(4))),
    ("later-byte-0-is-17", SMALL, small().put(6, garbage(0x11))),
    ("later-byte-0-is-130", SMALL, small().put(6, garbage(0x82))),
    ("same-epoch-past-log", SMALL, small().put(6, later(1, 3)).put(8, later(2, 3))),
    ("same-epoch-garbage", SMALL, small(epoch=0xAAAAAAAA).put(6, garbage(1)).put(8, garbage(2))),
    ("earlier-by-half", SMALL, small(epoch=0x80000001).put(6, later(1, 3))),
    ("later-in-0", SMALL, small().put(0, later(1, 8))),  # no log sector
    ("later-in-1", OLDER, small().put(1, later(2, 9))),
    ("later-in-root", none(16, 11), small().put(11, later(1))),  # nor this: only a home that is wrong
    ("later-in-covered-root", heap(6, 2, 3, 2), small().write(11, body(6, (), SMALL_ROOT)).commit(1, 6).put(11, later(1))),
    ("later-and-torn-home", none(15, 10), small().put(10, later(1)).tear(11)),
    ("later-and-unlawful", none(15, 10), small().put(10, later(1)).home(11, body(7))),
    ("later-and-dangling", none(15, 10), small().put(10, later(1)).root({0: ref(14, 0)})),
    ("later-and-no-header", none(14), small().put(10, later(1)).tear(0, 1)),

    # Torn homes, and homes with a wrong head.
    ("home-torn", none(3, 13), small().tear(13)),
    ("home-torn-root", none(3, 11), small().tear(11)),
    ("home-torn-last", none(3, 15), small().tear(15)),
    ("home-torn-of-two", none(3, 12), small().tear(14, 12)),
    ("home-wiped", none(3, 13), small().lay(13, bytes(64))),  # a row of zeros is torn, not blank
    ("home-made-for-12", none(3, 13), small().lay(13, row(12, home(13, FREE)))),  # the checksum is another sector's
    ("home-torn-covered", heap(6, 2, 2, 2), small().tear(13).write(13, body(2, [0])).commit(1, 6)),
    ("home-torn-covered-root", heap(6, 2, 3, 2), small().tear(11).write(11, body(6, (), SMALL_ROOT)).commit(1, 6)),
    ("home-torn-covered-before", heap(7, 2, 2, 2), small().tear(13).write(13, body(2, [0])).commit(1, 6).commit(0, 7)),
    ("home-torn-no-commit", none(3, 13), small().tear(13).write(13, body(2, [0]))),
    ("home-torn-bad-commit", none(3, 13), small().tear(13).write(13, body(2, [0])).commit(1, 7)),
    ("home-torn-torn-commit", none(3, 13), small().tear(13, 3).write(13, body(2, [0])).commit(1, 6)),
    ("home-torn-stale-cover", none(3, 13), small().tear(13).write(13, body(2, [0]), epoch=2).commit(1, 5, epoch=2)),
    ("home-torn-other-covered", none(3, 13), small().tear(13, 14).write(14, FREE).commit(1, 6)),
    ("home-torn-then-unlawful", none(3, 12), small().tear(12).home(13, body(7))),
    ("home-unlawful-then-torn", none(16, 12), small().tear(13).home(12, body(7))),
    ("home-torn-then-wrong-head", none(3, 12), small().tear(12).put(13, BLANK)),
    ("home-wrong-head-then-torn", none(16, 12), small().tear(13).put(12, BLANK)),
    ("home-blank", none(16, 14), small().put(14, BLANK)),  # a free page's home is not blank
    ("home-byte-0-is-1", none(16, 14), small().set(14, 0, b"\x01")),
    ("home-byte-0-is-7", none(16, 14), small().set(14, 0, b"\x07")),
    ("home-byte-1", none(16, 14), small().set(14, 1, b"\x01")),
    ("home-byte-2", none(16, 14), small().set(14, 2, b"\x01")),
    ("home-byte-3", none(16, 14), small().set(14, 3, b"\x80")),
    ("home-sector-0", none(16, 14), small().set(14, 4, low(0))),
    ("home-sector-15", none(16, 14), small().set(14, 4, low(15))),
    ("home-sector-65550", none(16, 14), small().set(14, 4, low(65550))),  # 14 in its low half
    ("home-byte-8", none(16, 14), small().set(14, 8, b"\x01")),
    ("home-byte-9", none(16, 14), small().set(14, 9, b"\x01")),
    ("home-byte-10", none(16, 14), small().set(14, 10, b"\x01")),
    ("home-byte-11", none(16, 14), small().set(14, 11, b"\x80")),
    ("home-root-head", none(16, 11), small().set(11, 8, low(11))),
    ("homes-change-places", none(16, 12), small().put(12, home(13, FREE)).put(13, home(12, FREE))),
    ("home-byte-0-covered", heap(6, 1, 4, 2), small().set(14, 0, b"\x01").write(14, things(1)).commit(1, 6)),
    ("home-byte-1-covered", heap(6, 1, 4, 2), small().set(14, 1, b"\x01").write(14, things(1)).commit(1, 6)),
    ("home-sector-covered", heap(6, 1, 4, 2), small().set(14, 4, low(15)).write(14, things(1)).commit(1, 6)),
    ("home-byte-8-covered", heap(6, 1, 4, 2), small().set(14, 8, low(1)).write(14, things(1)).commit(1, 6)),
    ("home-blank-covered", heap(6, 1, 4, 2), small().put(14, BLANK).write(14, things(1)).commit(1, 6)),
    ("home-garbage-covered", heap(6, 1, 4, 2), small().put(14, garbage(0xAA)).write(14, things(1)).commit(1, 6)),
    ("home-blank-no-commit", none(16, 14), small().put(14, BLANK).write(14, things(1))),

    # Bodies that are unlawful, in page 14 if nothing else is said. First the class code, and what stands where.
    ("code-7", none(16, 14), small().home(14, body(7))),
    ("code-7-used", none(16, 14), small().home(14, body(7, [0], {0: n(1)}))),
    ("code-7-root", none(16, 11), small().home(11, body(7))),
    ("code-6", none(16, 14), small().home(14, body(6))),  # the root page's code in a data page
    ("code-6-first", none(16, 12), small().home(12, body(6, (), SMALL_ROOT))),
    ("root-code-0", none(16, 11), small().home(11, FREE)),
    ("root-code-1", none(16, 11), small().home(11, body(1, [0], SMALL_ROOT))),
    ("root-code-2", none(16, 11), small().home(11, body(2, [0], SMALL_ROOT))),
    ("root-code-3", none(16, 11), small().home(11, body(3, [0], SMALL_ROOT))),
    ("root-code-4", none(16, 11), small().home(11, body(4, [0], SMALL_ROOT))),
    ("root-code-5", none(16, 11), small().home(11, body(5, [0], SMALL_ROOT))),
    ("root-slot-0", none(16, 11), small().home(11, body(6, [0], SMALL_ROOT))),
    ("root-slot-9", none(16, 11), small().home(11, body(6, [9], SMALL_ROOT))),
    ("root-number", none(16, 11), small().root({0: n(1)})),
    ("root-number-last", none(16, 11), small().root({0: ref(12, 0), 9: n(0x80000000)})),
    ("root-number-handle", none(16, 11), small().root({0: n(192)})),  # 12/0 by its value, but no reference
    ("root-full", heap(5, 2, 3, 3), small().root({0: ref(13, 1), 1: ref(12, 0), 2: ref(12, 0), 3: ref(13, 0), 4: ref(13, 1),
        5: ref(13, 1), 6: ref(13, 1), 7: ref(13, 1), 8: ref(13, 1), 9: ref(12, 0)})),  # lawful

    # The bits of the head that are nobody's, and kinds.
    ("marks-bit-13", none(16, 12), small().bit(12, MARKS, 13)),
    ("marks-bit-20", none(16, 12), small().bit(12, MARKS, 20)),
    ("marks-bit-31", none(16, 12), small().bit(12, MARKS, 31)),
    ("marks-bit-13-free", none(16, 14), small().bit(14, MARKS, 13)),
    ("marks-bit-13-root", none(16, 11), small().bit(11, MARKS, 13)),
    ("marks-bit-31-root", none(16, 11), small().bit(11, MARKS, 31)),
    ("kinds-bit-20", none(16, 12), small().bit(12, KINDS, 20)),
    ("kinds-bit-31", none(16, 12), small().bit(12, KINDS, 31)),
    ("kinds-bit-20-free", none(16, 14), small().bit(14, KINDS, 20)),
    ("kinds-bit-20-root", none(16, 11), small().bit(11, KINDS, 20)),
    ("kinds-bit-31-root", none(16, 11), small().bit(11, KINDS, 31)),
    ("kind-2", none(16, 12), small().bit(12, KINDS, 1)),  # word 0, a number
    ("kind-3", none(16, 12), small().bit(12, KINDS, 3)),  # word 1, a reference
    ("kind-2-last", none(16, 14), small().home(14, body(5, [0])).bit(14, KINDS, 19)),
    ("kind-3-last", none(16, 14), small().home(14, body(5, [0], {9: ref(12, 0)})).bit(14, KINDS, 19)),
    ("kind-2-root", none(16, 11), small().bit(11, KINDS, 19)),  # with value 0
    ("kind-3-root", none(16, 11), small().bit(11, KINDS, 1)),

    # Slots.
    ("class-2-slot-5", none(16, 14), small().home(14, body(2, [0, 5]))),
    ("class-2-slot-9", none(16, 14), small().home(14, body(2, [0, 9]))),
    ("class-3-slot-3", none(16, 14), small().home(14, body(3, [0, 3]))),
    ("class-3-slot-9", none(16, 14), small().home(14, body(3, [0, 9]))),
    ("class-4-slot-2", none(16, 14), small().home(14, body(4, [0, 2]))),
    ("class-4-slot-9", none(16, 14), small().home(14, body(4, [0, 9]))),
    ("class-5-slot-1", none(16, 14), small().home(14, body(5, [0, 1]))),
    ("class-5-slot-9", none(16, 14), small().home(14, body(5, [0, 9]))),
    ("class-2-only-slot-5", none(16, 14), small().home(14, body(2, [5]))),
    ("class-3-only-slot-3", none(16, 14), small().home(14, body(3, [3]))),
    ("class-4-only-slot-2", none(16, 14), small().home(14, body(4, [2]))),
    ("class-5-only-slot-1", none(16, 14), small().home(14, body(5, [1]))),
    ("class-3-slot-3-word-9", none(16, 14), small().home(14, body(3, [0, 3], {9: n(5)}))),  # the word left over is no slot
    ("class-1-unused", none(16, 14), small().home(14, body(1))),
    ("class-2-unused", none(16, 14), small().home(14, body(2))),
    ("class-3-unused", none(16, 14), small().home(14, body(3))),
    ("class-4-unused", none(16, 14), small().home(14, body(4))),
    ("class-5-unused", none(16, 14), small().home(14, body(5))),
    ("class-5-unused-word", none(16, 14), small().home(14, body(5, (), {0: n(5)}))),
    ("last-slots", heap(5, 0, 7, 2), small().home(14, body(1, [9])).home(15, body(3, [0, 1, 2]))),  # lawful; all words 0
    ("last-slots-of-2-and-4", heap(5, 0, 5, 2), small().home(14, body(2, [4])).home(15, body(4, [1]))),
    ("last-slots-of-3-and-5", heap(5, 0, 5, 2), small().home(14, body(3, [2])).home(15, body(5, [0]))),

    # Words outside used slots.
    ("class-1-outside", none(16, 14), small().home(14, body(1, [0], {1: n(5)}))),
    ("class-1-outside-last", none(16, 14), small().home(14, body(1, [0, 8], {9: n(5)}))),
    ("class-1-outside-none", none(16, 14), small().home(14, body(1, [0], {1: r(0)}))),  # a reference to nothing
    ("class-1-outside-ref", none(16, 14), small().home(14, body(1, [1], {0: ref(12, 0)}))),  # to an object
    ("class-2-outside-1", none(16, 14), small().home(14, body(2, [1], {1: n(5)}))),
    ("class-2-outside-4", none(16, 14), small().home(14, body(2, [1], {4: n(5)}))),
    ("class-2-outside-none", none(16, 14), small().home(14, body(2, [1], {4: r(0)}))),
    ("class-2-outside-ref", none(16, 14), small().home(14, body(2, [1, 3], {5: ref(12, 0)}))),
    ("class-3-outside-3", none(16, 14), small().home(14, body(3, [0, 2], {3: n(5)}))),
    ("class-3-outside-5", none(16, 14), small().home(14, body(3, [0, 2], {5: n(5)}))),
    ("class-3-outside-none", none(16, 14), small().home(14, body(3, [0, 2], {5: r(0)}))),
    ("class-3-word-9", none(16, 14), small().home(14, body(3, [0, 1, 2], {9: n(5)}))),  # in no slot at all
    ("class-3-word-9-none", none(16, 14), small().home(14, body(3, [0, 1, 2], {9: r(0)}))),
    ("class-3-word-9-ref", none(16, 14), small().home(14, body(3, [0, 1, 2], {9: ref(12, 0)}))),
    ("class-4-outside-5", none(16, 14), small().home(14, body(4, [0], {5: n(5)}))),
    ("class-4-outside-4", none(16, 14), small().home(14, body(4, [1], {4: n(0x80000000)}))),
    ("class-4-outside-none", none(16, 14), small().home(14, body(4, [0], {9: r(0)}))),
    ("class-4-outside-ref", none(16, 14), small().home(14, body(4, [0], {5: ref(12, 0)}))),
    ("inside-all", heap(5, 0, 5, 2), small().home(14, body(2, [1], {2: n(5), 3: ref(12, 0)}))
        .home(15, body(4, [1], {5: ref(12, 0), 9: n(5)}))),  # lawful: the first and the last word of a slot

    # Free pages that are not all zero.
    ("free-word", none(16, 14), small().home(14, body(0, (), {0: n(1)}))),
    ("free-word-last", none(16, 14), small().home(14, body(0, (), {9: n(0x80000000)}))),
    ("free-none", none(16, 14), small().home(14, body(0, (), {0: r(0)}))),
    ("free-ref", none(16, 14), small().home(14, body(0, (), {9: ref(12, 0)}))),
    ("free-kind-2", none(16, 14), small().bit(14, KINDS, 1)),
    ("free-slot-0", none(16, 14), small().home(14, body(0, [0]))),
    ("free-slot-9", none(16, 14), small().home(14, body(0, [9]))),

    # Unlawful bodies in the log.
    ("log-unlawful", none(16, 14), small().write(14, body(7)).commit(1, 6)),  # the page's sector, not the record's
    ("log-unlawful-root", none(16, 11), small().write(11, body(6, [1], SMALL_ROOT)).commit(1, 6)),
    ("log-unlawful-free", none(16, 14), small().write(14, body(0, (), {3: n(1)})).commit(1, 6)),
    ("log-unlawful-torn-home", none(16, 14), small().tear(14).write(14, body(7)).commit(1, 6)),
    ("log-unlawful-last", none(16, 14), small().write(14, things(1)).write(14, body(1)).commit(2, 6)),
    ("log-unlawful-again", none(16, 14), small().write(14, things(1)).commit(1, 6).write(14, body(1)).commit(1, 7)),
    ("log-unlawful-superseded", heap(7, 1, 4, 2), small().write(14, body(7)).commit(1, 6).write(14, things(1)).commit(1, 7)),
    ("log-unlawful-in-between", heap(6, 1, 4, 2), small().write(14, body(7)).write(14, things(1)).commit(2, 6)),
    ("log-unlawful-no-commit", SMALL, small().write(14, body(7))),
    ("log-unlawful-other-first", none(3, 12), small().tear(12).write(14, body(7)).commit(1, 6)),
    ("log-covers-unlawful", heap(6, 1, 4, 2), small().home(14, body(7)).write(14, things(1)).commit(1, 6)),
    ("unlawful-of-two", none(16, 13), small().home(15, body(7)).home(13, body(7))),
    ("unlawful-last", none(16, 15), small().home(15, body(7))),

    # References without an object.
    ("dangling-free", none(17, 11, 0), small().root({0: ref(14, 0)})),  # page 14 is free
    ("dangling-unused", none(17, 11, 0), small().root({0: ref(13, 2)})),
    ("dangling-no-slot", none(17, 11, 0), small().root({0: ref(12, 2)})),  # class 4 has slots 0 and 1
    ("dangling-slot-9", none(17, 11, 0), small().root({0: ref(12, 9)})),
    ("dangling-slot-15", none(17, 11, 0), small().root({0: ref(12, 15)})),
    ("dangling-slot-10", none(17, 11, 0), small().home(14, things(10)).root({0: ref(14, 10)})),  # bit 10 is set, by the class code
    ("dangling-slot-11", none(17, 11, 0), small().root({0: ref(13, 11)})),  # likewise
    ("dangling-slot-12", none(17, 11, 0), small().root({0: ref(12, 12)})),
    ("dangling-root", none(17, 11, 0), small().root({0: ref(11, 0)})),
    ("dangling-root-slot-11", none(17, 11, 0), small().root({0: ref(11, 11)})),
    ("dangling-root-from-data", none(17, 12, 1), small().home(12, body(4, [0], {1: ref(11, 0)}))),
    ("dangling-past", none(17, 11, 0), small().root({0: ref(16, 0)})),
    ("dangling-far", none(17, 11, 0), small().root({0: ref(1023, 9)})),
    ("dangling-ones", none(17, 11, 0), small().root({0: r(0xFFFFFFFF)})),
    ("dangling-0", none(17, 11, 3), small().root({0: ref(12, 0), 3: r(0)})),  # of kind reference, so not number 0
    ("dangling-0-from-data", none(17, 12, 4), small().home(12, body(4, [0], {4: r(0)}))),
    ("dangling-by-65536", none(17, 11, 0), small().root({0: r(192 + 65536)})),  # 12/0 is 192
    ("dangling-by-16384", none(17, 11, 0), small().root({0: r(192 + 16384)})),  # 1,024 sectors on
    ("dangling-by-80000000", none(17, 11, 0), small().root({0: r(192 + 0x80000000)})),
    ("dangling-header", none(17, 11, 0), small().root({0: ref(1, 0)})),
    ("dangling-log", none(17, 11, 0), small().root({0: ref(5, 3)})),
    ("dangling-log-record", none(17, 11, 0), small().write(14, things(1)).commit(1, 6).root({0: ref(2, 0)})),  # where a body stands
    ("dangling-sector", none(17, 11, 0), small().root({0: r(12)})),  # a sector's number is no handle
    ("dangling-unreachable", none(17, 13, 3), small().home(13, body(2, [0, 1], {3: ref(15, 0)}))),  # in 13/1
    ("dangling-last", none(17, 15, 9), small().home(15, body(5, [0], {9: ref(14, 0)}))),
    ("dangling-low-sector", none(17, 12, 4), small().home(12, body(4, [0], {4: ref(14, 0)}))
        .home(13, body(2, [0], {0: ref(14, 0)}))),
    ("dangling-low-root", none(17, 11, 8), small().root({0: ref(12, 0), 8: ref(14, 0)}).home(12, body(4, [0], {1: ref(14, 0)}))),
    ("dangling-low-word", none(17, 11, 3), small().root({0: ref(12, 0), 3: ref(15, 0), 7: ref(14, 0)})),
    ("dangling-last-word", none(17, 11, 9), small().root({0: ref(12, 0), 9: ref(15, 0)})),
    ("dangling-then-unlawful", none(16, 15), small().root({0: ref(14, 0)}).home(15, body(7))),
    ("dangling-then-torn", none(3, 15), small().root({0: ref(14, 0)}).tear(15)),
    ("dangling-then-wrong-head", none(16, 15), small().root({0: ref(14, 0)}).put(15, BLANK)),
    ("dangling-to-unlawful", none(16, 14), small().root({0: ref(14, 0)}).home(14, body(7, [0]))),
    ("dangling-but-for-log", heap(6, 1, 4, 1), small().root({0: ref(14, 0)}).write(14, things(1)).commit(1, 6)),  # 14/0 is in the log
    ("dangling-by-log", none(17, 12, 1), small().write(13, body(2, [1])).commit(1, 6)),  # 13/0 is only in the home
    ("dangling-no-commit", none(17, 11, 0), small().root({0: ref(14, 0)}).write(14, things(1))),
    ("dangling-in-log", none(17, 12, 2), small().write(12, body(4, [0], {2: ref(14, 0)})).commit(1, 6)),
    ("dangling-in-log-root", none(17, 11, 8), small().write(11, body(6, (), {0: ref(12, 0), 8: ref(14, 0)})).commit(1, 6)),
    ("dangling-superseded", heap(7, 2, 3, 1), small().write(12, body(4, [0], {2: ref(14, 0)})).commit(1, 6)
        .write(12, TWELVE).commit(1, 7)),
    ("dangling-covered", heap(6, 2, 3, 1), small().home(12, body(4, [0], {2: ref(14, 0)})).write(12, TWELVE).commit(1, 6)),
    ("dangling-in-tail", SMALL, small().write(12, body(4, [0], {2: ref(14, 0)}))),
    ("dangling-to-superseded", none(17, 11, 0), small().root({0: ref(14, 4)}).write(14, things(5)).commit(1, 6)
        .write(14, things(4)).commit(1, 7)),
    ("ref-to-last", heap(5, 1, 13, 1), small().root({0: ref(15, 9)}).home(15, things(10))),  # lawful: the last slot of all

    # Counts.
    ("nothing-reachable", heap(5, 2, 3, 0), small().root({})),  # only unreachable ones
    ("two-roots", heap(5, 2, 3, 2), small().root({0: ref(12, 0), 9: ref(12, 0)})),
    ("root-last-word", heap(5, 2, 3, 2), small().root({9: ref(12, 0)})),
    ("number-as-handle", heap(5, 2, 3, 1), small().home(12, body(4, [0], {1: n(208)}))),  # 13/0 by its value, but no reference
    ("other-slot", heap(5, 1, 4, 2), small().home(14, things(1))
        .home(13, body(2, [0, 1], {2: ref(14, 0), 3: ref(14, 0)}))),  # 13/0 is reached, and only 13/1 refers to 14/0
    ("other-slot-before", heap(5, 1, 4, 1), small().root({0: ref(13, 1)}).home(14, things(1))
        .home(13, body(2, [0, 1], {0: ref(14, 0), 1: ref(14, 0)}))),  # the other way round
    ("self", heap(5, 3, 1, 1), empty().root({0: ref(12, 0)}).home(12, body(1, [0], {0: ref(12, 0)}))),
    ("self-unreachable", heap(5, 3, 1, 0), empty().home(12, body(1, [0], {0: ref(12, 0)}))),
    ("cycle", heap(5, 2, 2, 2), empty().root({0: ref(12, 0)}).home(12, body(1, [0], {0: ref(13, 0)}))
        .home(13, body(1, [0], {0: ref(12, 0)}))),
    ("cycle-unreachable", heap(5, 1, 3, 1), empty().root({0: ref(14, 0)}).home(12, body(1, [0], {0: ref(13, 0)}))
        .home(13, body(1, [0], {0: ref(12, 0)})).home(14, things(1))),
    ("cycle-to-reached", heap(5, 1, 3, 1), empty().root({0: ref(14, 0)}).home(12, body(2, [0], {0: ref(13, 0), 1: ref(14, 0)}))
        .home(13, body(1, [0], {0: ref(12, 0)})).home(14, things(1))),  # the cycle refers to what is reached, not the other way
    ("chain-up", heap(5, 0, 6, 5), empty(9, 18).root({0: ref(12, 0)}).home(12, body(5, [0], {9: ref(13, 1)}))
        .home(13, body(4, [1], {5: ref(14, 2)})).home(14, body(3, [2], {8: ref(15, 4)})).home(15, body(2, [4], {8: ref(16, 9)}))
        .home(16, body(1, [9], {9: n(1)})).home(17, things(1))),  # five steps, each a page on
    ("chain-down", heap(5, 0, 6, 5), empty(9, 18).root({0: ref(17, 0)}).home(17, body(5, [0], {0: ref(16, 1)}))
        .home(16, body(4, [1], {9: ref(15, 2)})).home(15, body(3, [2], {6: ref(14, 4)})).home(14, body(2, [4], {9: ref(13, 9)}))
        .home(13, body(1, [9], {9: n(1)})).home(12, things(1))),  # and each a page back
    ("chain-in-page", heap(5, 3, 10, 9), empty().root({0: ref(12, 3)}).home(12, body(1, range(10), {3: ref(12, 7), 7: ref(12, 0),
        0: ref(12, 9), 9: ref(12, 1), 1: ref(12, 8), 8: ref(12, 2), 2: ref(12, 6), 6: ref(12, 4), 5: ref(12, 3)}))),  # all but 12/5
    ("shared", heap(5, 2, 4, 4), empty().root({0: ref(12, 0), 1: ref(12, 1)}).home(12, body(2, [0, 1, 2], {0: ref(13, 0),
        1: ref(12, 2), 2: ref(12, 2), 3: ref(13, 0), 4: ref(13, 0)})).home(13, things(1))),  # 13/0 by three ways, 12/2 by two
    ("tree", heap(5, 0, 13, 11), empty().root({4: ref(12, 0)}).home(12, body(5, [0], {0: ref(13, 0), 1: ref(13, 1), 2: ref(13, 2)}))
        .home(13, body(3, [0, 1, 2], {0: ref(14, 0), 1: ref(14, 1), 2: ref(14, 2), 3: ref(14, 3), 4: ref(14, 4), 7: ref(14, 5),
        8: ref(14, 6)})).home(14, things(8)).home(15, body(5, [0], {0: ref(15, 0), 1: ref(14, 7)}))),  # all but 15/0 and 14/7
    ("tens", heap(5, 0, 40, 4), empty().root({0: ref(12, 0), 1: ref(13, 3), 2: ref(14, 6), 3: ref(15, 9)})
        .home(12, things(10)).home(13, things(10)).home(14, things(10)).home(15, things(10))),  # as many objects as fit
    ("tens-up", heap(5, 0, 40, 40), tens(range(12, 16), range(10))),  # each refers to the next
    ("tens-down", heap(5, 0, 40, 40), tens(range(15, 11, -1), range(9, -1, -1))),
    ("full", heap(507, 0, 4026, 4000), full()),
]


def main():
    images = {
        "crates/inspect/data/card.img": scratched(),
        "tests/images/blank.img": b"".join(row(s, BLANK) for s in range(16)),
        "tests/images/sound.img": b"".join(row(s, text(f"berth {s}")) for s in range(13)),
        "tests/images/wiped.img": bytes(16 * 64),
        "tests/images/largest.img": largest(),
    }
    expected = ""
    for name, outcome, card in HEAPS:
        made, path = card.image(), f"{HEAPS_FOLDER}/{name}.img"
        judged = judge(made)
        assert judged == outcome, f"{name}: {outcome} in the table, but the judge has {judged}"
        assert path not in images, f"{name} stands twice in the table"
        same = [other for other in images if images[other] == made]
        assert not same, f"{name} is the same as {same}"
        images[path] = made
        expected += line(name, outcome)
    # a sector more than a card may have; not stored, as the program takes no image that long
    assert judge(empty(9, 1025).image()) == none(14)

    os.makedirs(HEAPS_FOLDER, exist_ok=True)
    for path, made in images.items():
        with open(path, "wb") as file:
            file.write(made)
    with open(f"{HEAPS_FOLDER}/expected", "w") as file:
        file.write(expected)
    strays = set(os.listdir(HEAPS_FOLDER)) - {"expected"} - {f"{name}.img" for name, _, _ in HEAPS}
    assert not strays, f"not in the table: {sorted(strays)}"


main()
