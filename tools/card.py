"""The format of a card, written a second time: an encoder, and a judge that says what an image holds.

Nothing here is the library's. The encoder puts sectors together byte by byte and the judge takes them apart word by word; they
share the checksum, which two published examples pin, and no other code. So a slip in one does not hide in the other.
"""

import struct

PAYLOAD = 60
ROW = 64
BLANK = bytes(PAYLOAD)
POLYNOMIAL = 0x82F63B78


def eight_steps(register):
    for _ in range(8):
        out = register & 1
        register >>= 1
        if out:
            register ^= POLYNOMIAL
    return register


# What a byte does to the register does not hang on the bytes above it, so the bit-by-bit steps are done once for each byte.
STEPS = [eight_steps(byte) for byte in range(256)]


def crc32c(data):
    register = 0xFFFFFFFF
    for byte in data:
        register = (register >> 8) ^ STEPS[(register ^ byte) & 0xFF]
    return register ^ 0xFFFFFFFF


assert crc32c(b"123456789") == 0xE3069283
assert crc32c(bytes(32)) == 0x8A9136AA


# The encoder. It lays out what it is told to, lawful or not.


def low(value, size=4):
    return value.to_bytes(size, "little")


def row(sector, payload):
    assert len(payload) == PAYLOAD
    return payload + low(crc32c(payload + low(sector)))


def image(payloads, raw={}):
    """A device's rows, each with the checksum that it should have but those of the sectors that raw has rows for."""
    return b"".join(raw[sector] if sector in raw else row(sector, payload) for sector, payload in enumerate(payloads))


def header(length, epoch, count, number):
    return (b"\x04\x01" + low(length, 2) + low(epoch) + low(count) + low(number)).ljust(PAYLOAD, b"\0")


def page_record(position, epoch, page, body):
    return b"\x01\0" + low(position, 2) + low(epoch) + low(page) + body


def commit_record(position, epoch, n, number):
    return (b"\x02\0" + low(position, 2) + low(epoch) + low(n) + low(number)).ljust(PAYLOAD, b"\0")


def home(sector, body):
    return b"\x03\0\0\0" + low(sector) + bytes(4) + body


def body(code, used=(), words={}):
    """A page's body. The words are ('n', value) or ('r', value) by their index; those that are not named are number 0."""
    marks = sum(1 << slot for slot in set(used))
    kinds = sum(1 << 2 * index for index, (kind, _) in words.items() if kind == "r")
    data = [words.get(index, ("n", 0))[1] for index in range(10)]
    return low(code << 10 | marks) + low(kinds) + b"".join(low(value) for value in data)


# The judge.

SLOT_WORDS = {1: 1, 2: 2, 3: 3, 4: 5, 5: 10}
SLOTS = {1: 10, 2: 5, 3: 3, 4: 2, 5: 1}


def sectors_of(image):
    """Each sector as its 15 words, or as None if it is torn."""
    assert len(image) % ROW == 0
    found = []
    for sector in range(len(image) // ROW):
        *words, check = struct.unpack_from("<16I", image, ROW * sector)
        whole = struct.pack("<16I", *words, sector)
        found.append(tuple(words) if crc32c(whole) == check else None)
    return found


def chosen_header(sectors):
    """The length of the log, the epoch and the transaction count by the header that counts, or None."""
    best = None
    for sector in (0, 1):
        words = sectors[sector] if sector < len(sectors) else None
        if words is None:
            continue
        length, epoch, count, number = words[0] >> 16, words[1], words[2], words[3]
        valid = (
            words[0] & 0xFFFF == 0x0104
            and not any(words[4:])
            and 9 <= length <= 64
            and length + 4 <= count <= 1024
            and count == len(sectors)
            and epoch >= 1
            and epoch % 2 == sector
        )
        if valid and (best is None or epoch > best[1]):
            best = length, epoch, number
    return best


def read_log(sectors, length, epoch, number):
    """The body that the log has for each page, by the last good commit, and the transaction count."""
    committed, waiting, n = {}, {}, 0
    for position in range(length):
        words = sectors[2 + position]
        # byte 1 is zero and bytes 2 and 3 are the position
        if words is None or words[0] >> 8 != position << 8 or words[1] != epoch:
            break
        kind = words[0] & 0xFF
        if kind == 1 and length + 2 <= words[2] < len(sectors):
            waiting[words[2]] = words[3:]
            n += 1
        elif kind == 2 and words[2] <= 8 and not any(words[4:]) and words[2] == n and words[3] == number + 1:
            committed.update(waiting)
            number = words[3]
            waiting, n = {}, 0
        else:
            break
    return committed, number


def used_slots(words):
    return [slot for slot in range(10) if words[0] >> slot & 1]


def kinds_of(words):
    return [words[1] >> 2 * index & 3 for index in range(10)]


def lawful(words, root):
    """Whether a body may stand in the root page's sector, if root is true, or else in a data page's."""
    code, used, kinds, data = words[0] >> 10 & 7, used_slots(words), kinds_of(words), words[2:]
    if words[0] >> 13 or words[1] >> 20 or 2 in kinds or 3 in kinds:
        return False
    numbers = [value for kind, value in zip(kinds, data) if kind == 0]
    if root:
        return code == 6 and not used and not any(numbers)
    if code == 0:
        return not any(words)
    if code not in SLOTS or not used or used[-1] >= SLOTS[code]:
        return False
    # every index // size is a slot's number, or past the last slot in what a page of class 3 has over
    outside = [index for index in range(10) if index // SLOT_WORDS[code] not in used]
    return all(kinds[index] == 0 and data[index] == 0 for index in outside)


def references(words):
    """The data words that are references, by their index."""
    return {index: words[2 + index] for index, kind in enumerate(kinds_of(words)) if kind == 1}


def judge(image):
    """What an image holds: ('heap', transactions, free, objects, reachable) or ('none', refusal, sector, word)."""
    sectors = sectors_of(image)
    head = chosen_header(sectors)
    if head is None:
        return "none", 14, None, None
    length, epoch, number = head
    root = length + 2

    for sector in range(2, root):
        words = sectors[sector]
        if words is not None and words[0] & 0xFF in (1, 2) and words[1] > epoch:
            return "none", 15, sector, None

    committed, number = read_log(sectors, length, epoch, number)
    bodies = {}
    for sector in range(root, len(sectors)):
        if sector in committed:
            bodies[sector] = committed[sector]
        elif sectors[sector] is None:
            return "none", 3, sector, None
        elif sectors[sector][:3] != (3, sector, 0):
            return "none", 16, sector, None
        else:
            bodies[sector] = sectors[sector][3:]
        if not lawful(bodies[sector], sector == root):
            return "none", 16, sector, None

    out = {}  # what each object refers to
    for sector, words in bodies.items():
        for slot in used_slots(words):
            size = SLOT_WORDS[words[0] >> 10]
            out[16 * sector + slot] = [value for index, value in references(words).items() if index // size == slot]
    for sector, words in bodies.items():
        for index, value in references(words).items():
            if value not in out:
                return "none", 17, sector, index

    reached, ahead = set(), list(references(bodies[root]).values())
    while ahead:
        handle = ahead.pop()
        if handle not in reached:
            reached.add(handle)
            ahead += out[handle]
    free = sum(1 for words in bodies.values() if words[0] == 0)
    return "heap", number, free, len(out), len(reached)


def line(name, outcome):
    """An outcome as the tests expect it, under the image's name."""
    if outcome[0] == "heap":
        return "{}: heap: {} transactions, {} free pages, {} objects, {} reachable\n".format(name, *outcome[1:])
    _, refusal, sector, word = outcome
    told = f"{name}: no heap: refusal {refusal}"
    told += "" if sector is None else f", sector {sector}"
    told += "" if word is None else f", word {word}"
    return told + "\n"
