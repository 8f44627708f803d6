#!/usr/bin/env python3
"""Makes card images by chance: tools/random_cards.py SEED COUNT FOLDER

Writes so many images into the folder, and a file 'expected' with what the judge of card.py has for each. The same seed always
gives the same images. A card starts as one that a device may have been left with: a heap, a log of transactions that keep it
whole, homes that are behind the log or torn, and what an older log left. Most cards are then damaged in a few places, mostly
by little and with the checksums mended, so that it is the format's rules that tell and not the checksum.
"""

import collections
import os
import random
import sys

from card import BLANK, PAYLOAD, body, commit_record, header, home, image, judge, line, low, page_record, row

SIZE = {1: 1, 2: 2, 3: 3, 4: 5, 5: 10}
OUTCOMES = ("heap", 14, 15, 3, 16, 17)

# Where the fields of headers, records, homes and the heads of bodies begin, and how many bytes they have; and the last byte.
FIELDS = [(0, 1), (1, 1), (2, 2), (4, 4), (8, 4), (12, 4), (16, 4), (59, 1)]


class Heap:
    """Pages that refer to each other, and changes of them after which every reference still has its object."""

    def __init__(self, chance, root, count):
        self.chance, self.root = chance, root
        self.pages = {sector: (0, set(), {}) for sector in range(root, count)}
        self.pages[root] = 6, set(), {}

    def body(self, sector):
        return body(*self.pages[sector])

    def handles(self):
        return [16 * sector + slot for sector, (_, used, _) in self.pages.items() for slot in sorted(used)]

    def fill(self, sector, indices):
        """Gives some of the words of a page new values."""
        words, handles = self.pages[sector][2], self.handles()
        for index in indices:
            if handles and self.chance.random() < 0.6:
                words[index] = "r", self.chance.choice(handles)
            elif sector == self.root:
                words.pop(index, None)
            else:
                words[index] = "n", self.chance.choice((0, 1, 16 * sector, self.chance.getrandbits(32)))

    def change(self):
        """Changes one page, and says which."""
        chance, sectors = self.chance, list(self.pages)
        sector = chance.choice(sectors[:4] if chance.random() < 0.6 else sectors)  # so that the root and some others change often
        code, used, words = self.pages[sector]
        if code == 6:
            self.fill(sector, chance.sample(range(10), 3))
            return sector
        if code == 0:
            code = chance.randint(1, 5)
            used, words = set(), {}
        slot = chance.randrange(10 // SIZE[code])
        own = range(slot * SIZE[code], (slot + 1) * SIZE[code])
        if slot not in used or chance.random() < 0.6:
            self.pages[sector] = code, used | {slot}, dict(words)
            self.fill(sector, [index for index in own if chance.random() < 0.7])
        elif ("r", 16 * sector + slot) not in [word for page in self.pages.values() for word in page[2].values()]:
            words = {index: word for index, word in words.items() if index not in own}
            self.pages[sector] = (code, used - {slot}, words) if len(used) > 1 else (0, set(), {})
        return sector


class Card:
    """A device's payloads, and the raw rows that stand in place of some."""

    def __init__(self, chance):
        self.chance = chance
        self.length = chance.choice((9, 9, chance.randint(9, 16), chance.randint(9, 64)))
        most = chance.choice((1, 4, 12, 116))
        self.count = min(120, self.length + 4 + chance.randrange(most))
        self.root = self.length + 2
        self.epoch = chance.choice((1, 2, 7, 8, 0x7FFFFFFF, 0x80000000, 0xFFFFFFFE, 0xFFFFFFFF, chance.randint(1, 1 << 30)))
        self.number = chance.choice((0, 5, 0xFFFF, 0x7FFFFFFF, 0xFFFFFFFD, 0xFFFFFFFF, chance.getrandbits(32)))
        self.payloads = [BLANK] * self.count
        self.raw = {}
        self.make_headers()
        self.make_pages_and_log()

    def make_headers(self):
        chance = self.chance
        self.payloads[self.epoch % 2] = header(self.length, self.epoch, self.count, self.number)
        before = self.epoch - chance.choice((1, 1, 1, 3))
        if before >= 1 and chance.random() < 0.7:
            self.payloads[before % 2] = header(self.length, before, self.count, max(0, self.number - chance.randrange(9)))

    def make_pages_and_log(self):
        chance, heap = self.chance, Heap(self.chance, self.root, self.count)
        for _ in range(chance.choice((0, 2, self.count // 2, self.count))):
            heap.change()
        homes = {sector: heap.body(sector) for sector in heap.pages}
        position, number, on = 0, self.number, chance.choice((0.4, 0.95, 1))
        while chance.random() < on and number < 0xFFFFFFFF:
            changed = [heap.change() for _ in range(chance.choice((0, 1, 1, 2, 3, 8)))]
            if position + len(changed) >= self.length:
                break  # no room for these changes and a commit
            number += 1
            for at, page in enumerate(changed):
                # of two records for one page the last counts
                words = heap.body(page) if page not in changed[at + 1:] else homes[page]
                self.payloads[2 + position] = page_record(position, self.epoch, page, words)
                position += 1
            self.payloads[2 + position] = commit_record(position, self.epoch, len(changed), number)
            position += 1
            for page in changed:
                if chance.random() < 0.3:
                    homes[page] = heap.body(page)
                elif chance.random() < 0.2:
                    self.raw[page] = torn_row(chance, page, home(page, heap.body(page)))
        self.leave_tail(position, heap)
        for sector, words in homes.items():
            self.payloads[sector] = home(sector, words)

    def leave_tail(self, position, heap):
        """After the last commit: page records without one, then what a log of an earlier epoch left, or nothing."""
        chance = self.chance
        while position < self.length and chance.random() < 0.4:
            page = chance.choice(list(heap.pages))
            self.payloads[2 + position] = page_record(position, self.epoch, page, heap.body(page))
            position += 1
        if self.epoch > 1 and chance.random() < 0.5:
            for following in range(position, chance.randint(position, self.length)):
                page = chance.choice(list(heap.pages))
                if chance.random() < 0.7:
                    record = page_record(following, self.epoch - 1, page, heap.body(page))
                else:
                    record = commit_record(following, self.epoch - 1, chance.randrange(9), self.number)
                self.payloads[2 + following] = record

    def image(self):
        return image(self.payloads, {sector: made for sector, made in self.raw.items() if sector < len(self.payloads)})

    def sectors(self, parts="hlp"):
        """The sectors of the headers, of the log's records and of the pages, of those that are asked for."""
        records = [sector for sector in range(2, self.root) if self.payloads[sector] != BLANK]
        of = {"h": range(2), "l": records, "p": range(self.root, self.count)}
        return [sector for part in parts for sector in of[part]]

    def pick(self, parts="hlp"):
        """One of such sectors by chance, each part as likely as the next; any sector if there is none."""
        return self.chance.choice(self.sectors(self.chance.choice(parts)) or range(self.count))

    def bodies(self):
        """The sectors of page records and homes, or one that is neither if there are none."""
        return [sector for sector in self.sectors("lp") if self.payloads[sector][0] in (1, 3)] or [self.pick()]

    def set(self, sector, byte, data):
        old = self.payloads[sector]
        self.payloads[sector] = old[:byte] + data + old[byte + len(data):]
        assert len(self.payloads[sector]) == PAYLOAD

    def get(self, sector, byte, size):
        return int.from_bytes(self.payloads[sector][byte:byte + size], "little")


def torn_row(chance, sector, payload):
    """A row that cannot be read, in one of the ways that a row may come to be so."""
    whole = row(sector, payload)
    at = chance.randrange(64)
    flipped = whole[:at] + bytes([whole[at] ^ 1 << chance.randrange(8)]) + whole[at + 1:]
    half = whole[:at] + bytes([whole[at] ^ 0xFF]) + chance.randbytes(63 - at)  # the new row up to somewhere, then anything
    return chance.choice((flipped, half, bytes(64), row(sector + 1, payload)))


def near(chance, value, size):
    """Another value of so many bytes, mostly one that a wrong comparison would take for the right one."""
    bit = value ^ 1 << chance.randrange(8 * size)
    return chance.choice((value + 1, value + 1, value - 1, value - 1, value + 2, value - 2, bit, bit, 0, -1)) % 256 ** size


# What damages a card.


def flip_a_bit(card):
    sector, byte = card.pick(), card.chance.randrange(PAYLOAD)
    card.set(sector, byte, bytes([card.payloads[sector][byte] ^ 1 << card.chance.randrange(8)]))


def tear_rows(card):
    for _ in range(card.chance.choice((1, 1, 2))):
        sector = card.pick("hlppp")
        card.raw[sector] = torn_row(card.chance, sector, card.payloads[sector])


def change_places(card):
    part = card.chance.choice("hlp")
    one, other = card.pick(part), card.pick(part if card.chance.random() < 0.7 else "hlp")
    card.payloads[one], card.payloads[other] = card.payloads[other], card.payloads[one]


def more_or_fewer_rows(card):
    count = card.chance.choice((card.count - 1, card.count + 1, card.chance.randrange(card.count)))
    card.payloads = (card.payloads + [BLANK])[:count]


def change_a_field(card, parts):
    sector = card.pick(parts)
    byte, size = card.chance.choice(FIELDS)
    card.set(sector, byte, low(near(card.chance, card.get(sector, byte, size), size), size))


def change_a_header(card):
    """One of the headers or both, so that now and then none is left."""
    for _ in range(card.chance.choice((1, 2, 3))):
        change_a_field(card, "h")


def change_a_record(card):
    change_a_field(card, "l")


def change_a_home(card):
    change_a_field(card, "p")


def change_a_word(card):
    """Makes a word of a body something else, mostly a reference that nearly has an object."""
    bodies = card.bodies()
    words = [(sector, index) for sector in bodies for index in range(10) if card.get(sector, 16, 4) >> 2 * index & 1]
    if not words or card.chance.random() < 0.2:
        words = [(sector, index) for sector in bodies for index in range(10)]
    sector, index = card.chance.choice(words)
    value = card.get(sector, 20 + 4 * index, 4)
    others = (value + 1, value - 1, value + 16, value - 16, value + 65536, 0, 16 * card.root, 16 * card.count)
    card.set(sector, 20 + 4 * index, low(card.chance.choice(others) % (1 << 32)))
    if card.chance.random() < 0.2:
        card.set(sector, 16, low(card.get(sector, 16, 4) ^ 1 << 2 * index))


def change_a_head(card):
    """Flips bits in the head of a body: the mark of a slot, the class code, a kind, or what is nobody's."""
    sector = card.chance.choice(card.bodies())
    for _ in range(card.chance.choice((1, 1, 2))):
        byte = 12 + card.chance.randrange(8)
        card.set(sector, byte, bytes([card.payloads[sector][byte] ^ 1 << card.chance.randrange(8)]))


def copy_records(card):
    """Copies a run of the log to another place in it, with the positions mended mostly, and sometimes of another epoch."""
    chance = card.chance
    start, to = chance.randrange(card.length), chance.randrange(card.length)
    run = card.payloads[2 + start:2 + min(card.length, start + chance.choice((1, 1, 2, card.length)))]
    mended, later = chance.random() < 0.8, chance.choice((0, 0, 0, -1, 1))
    for position, payload in zip(range(to, card.length), run):
        card.payloads[2 + position] = payload
        if mended and payload != BLANK:
            card.set(2 + position, 2, low(position, 2))
            card.set(2 + position, 4, low((card.get(2 + position, 4, 4) + later) % (1 << 32)))


def push_in(card):
    """Pushes a sector into the log that should end it; what follows would be good if it were not there."""
    chance, position = card.chance, card.chance.choice(card.sectors("l") or [2]) - 2
    for following in range(card.length - 1, position, -1):
        card.payloads[2 + following] = card.payloads[1 + following]
        if card.payloads[2 + following] != BLANK:
            card.set(2 + following, 2, low(following, 2))
    page = home(card.root, body(6))[12:]
    pushed = chance.choice((
        BLANK,
        page_record(position, card.epoch - 1, card.root, page),
        page_record(position + 1, card.epoch, card.root, page),
        page_record(position, card.epoch, card.root - 1, page),
        commit_record(position, card.epoch, chance.randrange(11), chance.choice((card.number, min(card.number + 2, 0xFFFFFFFF)))),
    ))
    card.payloads[2 + position] = pushed
    if pushed == BLANK and chance.random() < 0.5:
        card.raw[2 + position] = torn_row(chance, 2 + position, commit_record(position, card.epoch, 0, card.number))


def begin_with_many(card):
    """Begins the log with a transaction of about as many page records as there may be, or of one more."""
    n = card.chance.choice((7, 8, 8, 9, 9, 10, 16))
    if n < card.length and card.number < 0xFFFFFFFF:
        for position in range(n):
            page = card.chance.randrange(card.root, card.count)
            card.payloads[2 + position] = page_record(position, card.epoch, page, card.payloads[page][12:])
        card.payloads[2 + n] = commit_record(n, card.epoch, n, card.number + 1)


def leave_a_later_record(card):
    """The log goes on in a later epoch, so its header is missing; or it only looks so."""
    first = card.chance.choice((1, 2, 1, 2, 3, 0))
    epoch = card.chance.choice((card.epoch, card.epoch + 1, card.epoch + 1, card.epoch + 1, -1)) % (1 << 32)
    payload = bytes([first]) + card.chance.randbytes(3) + low(epoch) + card.chance.randbytes(52)
    card.payloads[card.chance.randrange(2, card.root)] = payload


DAMAGES = {
    flip_a_bit: 3, tear_rows: 4, change_places: 2, change_a_header: 4, change_a_record: 4, change_a_home: 2, change_a_head: 3,
    change_a_word: 16, copy_records: 4, push_in: 3, begin_with_many: 1, leave_a_later_record: 4,
}


def random_card(chance):
    card = Card(chance)
    for damage in chance.choices(list(DAMAGES), list(DAMAGES.values()), k=chance.choice((0, 1, 1, 1, 1, 2, 3))):
        damage(card)
    if chance.random() < 0.05:
        more_or_fewer_rows(card)
    return card.image()


def main():
    if len(sys.argv) != 4:
        sys.exit("usage: random_cards.py SEED COUNT FOLDER")
    seed, count, folder = sys.argv[1], int(sys.argv[2]), sys.argv[3]
    os.makedirs(folder, exist_ok=True)
    tally = collections.Counter()
    with open(f"{folder}/expected", "w") as expected:
        for index in range(count):
            made = random_card(random.Random(f"{seed} {index}"))
            outcome = judge(made)
            tally[outcome[0] if outcome[0] == "heap" else outcome[1]] += 1
            name = f"card-{index:05}"
            with open(f"{folder}/{name}.img", "wb") as file:
                file.write(made)
            expected.write(line(name, outcome))
    print(f"{count} cards:", ", ".join(f"{outcome} {tally[outcome]}" for outcome in OUTCOMES), file=sys.stderr)
    if count >= 2000:  # of fewer the tally says little
        assert all(20 * tally[outcome] >= count for outcome in OUTCOMES), "some outcome is in fewer than 5 of 100 cards"


main()
