"""Writes vectors/parts.txt: long short messages, W5 of document 02.

    python3 independent/parts.py > vectors/parts.txt

Every answer is stated by rule, with independent/rules.py and the rules of parts below. None comes from the second
implementation.
"""

import itertools
from typing import NamedTuple

from pages import changed, flat, letters, septets_of, signs, spelled
from rules import (ALPHABET, CR, EXTENSION, SMS_CODINGS, accepted, bits_of, octets_of, reading, refused, text_held, ucs2,
                   units)

HEADER = """\
# Long short messages, W5 of document 02: written by independent/parts.py. The answer of every line is stated there by
# rule; none comes from the second implementation.
# A pair of refusals is an input that deserves both, and gets the earlier.
"""

A, EURO, HAN, SPACE, ESCAPE = 0x41, 0x20AC, 0x4E2D, 0x20, 0x1B
SEVEN_CODING, UCS2_CODING = 0x00, 0x08
REFERENCE = 0xC7
HUGE = (256, 257, 258, 65536, 65537, 2147483648, 4294967041, 4294967295)


# ---------------------------------------------------------------------------------------------------------------------
# The rules of parts in another form: a part of 7-bit text is one string of bits, header, filling and text; the text of a
# whole message is one string of bits or of hexadecimal digits, and is cut there.

ALONE_BITS, PART_BITS = 1120, 1071          # 160 septets, and 153
ALONE_DIGITS, PART_DIGITS = 280, 268        # 70 units, and 67
MOST_PARTS = 255


def element(identifier, data):
    return [identifier, len(data)] + data


def concat(total, number, reference=REFERENCE):
    """The element that says which part this is."""
    return element(0x00, [reference, total, number])


def unknown(length, identifier=0x70):
    """An element of this many octets in all, which says nothing here. Its data would be wrong elements."""
    return element(identifier, [0x00] * (length - 2))


def header(*elements):
    body = flat(elements)
    return [len(body)] + body


def front_bits(front, fill="0"):
    """The bits of a header, lowest of each octet first, filled up to whole septets."""
    bits = "".join("{:08b}".format(octet)[::-1] for octet in front)
    while len(bits) % 7:
        bits += fill
    return bits


class Part(NamedTuple):
    count: int
    octets: list


def seven_part(front, septets, fill="0", spare="0"):
    bits = front_bits(front, fill) + bits_of(septets)
    count = len(bits) // 7
    while len(bits) % 8:
        bits += spare
    return Part(count, octets_of(bits))


def wide_part(front, text, more=()):
    """A part of UCS2. More octets may make it odd."""
    octets = front + ucs2(text) + list(more)
    return Part(len(octets), octets)


def whole(septets):
    """The text of septets."""
    return spelled("".join(map(chr, septets)))


def pieces_of(digits, alone, size):
    """A string of bits or digits cut into parts: one, if it fits alone."""
    if len(digits) <= alone:
        return [digits]
    return [digits[at:at + size] for at in range(0, len(digits), size)]


class Long(NamedTuple):
    """A text, as a case gives it, and the contents of its parts."""
    words: str
    coding: int
    text: list
    times: int
    pieces: list
    reference: int = REFERENCE

    def given(self):
        return {"reading": reading(self.words), "reference": self.reference, "text": self.text, "times": self.times}

    def mark(self):
        return 0 if len(self.pieces) == 1 else 1

    def part(self, number):
        front = header(concat(len(self.pieces), number, self.reference)) if self.mark() else []
        piece = self.pieces[number - 1]
        if "ucs2" in self.words.split("+"):
            octets = front + list(bytes.fromhex(piece))
            return Part(len(octets), octets)
        bits = front_bits(front) + piece
        return Part(len(bits) // 7, octets_of(bits))

    def parts(self):
        return [self.part(number) for number in range(1, len(self.pieces) + 1)]

    def fits(self):
        return len(self.pieces) <= MOST_PARTS


def seven(text, times=1, words="plain", coding=SEVEN_CODING, reference=REFERENCE):
    return Long(words, coding, text, times, pieces_of(bits_of(septets_of(text)) * times, ALONE_BITS, PART_BITS), reference)


def wide(text, times=1, words="ucs2", coding=UCS2_CODING, reference=REFERENCE):
    digits = "".join("%04X" % unit for unit in text) * times
    return Long(words, coding, text, times, pieces_of(digits, ALONE_DIGITS, PART_DIGITS), reference)


def repeated(n, elements):
    """A text of n units as a shorter one and how often it is taken."""
    length = max(length for length in range(1, 154) if n % length == 0)
    return elements(length), n // length


# ---------------------------------------------------------------------------------------------------------------------
# Cases of each call

def counted(label, message):
    inputs = {key: value for key, value in message.given().items() if key != "reference"}
    if message.fits():
        accepted("parts-count-" + label, "count-parts", inputs, parts=len(message.pieces))
    else:
        refused("parts-count-" + label, "count-parts", inputs, 5)


def one_written(label, message, number, room=None):
    """Writes one part with this room, or exactly what it takes."""
    label = "parts-one-%s-%d" % (label, number)
    inputs = {**message.given(), "number": number, "room": 140 if room is None else room}
    if not message.fits():
        refused(label, "write-part", inputs, 5)
    elif not 1 <= number <= len(message.pieces):
        refused(label, "write-part", inputs, 10)
    else:
        part = message.part(number)
        if room is None:
            inputs["room"] = len(part.octets)
        if inputs["room"] < len(part.octets):
            refused(label, "write-part", inputs, 7)
        else:
            accepted(label, "write-part", inputs, mark=message.mark(), count=part.count, coding=message.coding,
                     parts=len(message.pieces), out=part.octets)


def written(label, message, room=None, listed=None):
    """Writes all parts with these rooms, or exactly what they take."""
    if not message.fits():
        refused("parts-write-" + label, "write-parts", {**message.given(), "room": 4096, "list": 4096}, 5)
        return
    parts = message.parts()
    out = flat(part.octets for part in parts)
    sizes = flat([part.count, len(part.octets)] for part in parts)
    inputs = {**message.given(), "room": min(len(out), 4096) if room is None else room,
              "list": len(sizes) if listed is None else listed}
    if inputs["room"] < len(out) or inputs["list"] < len(sizes):
        refused("parts-write-" + label, "write-parts", inputs, 7)
    else:
        accepted("parts-write-" + label, "write-parts", inputs, mark=message.mark(), coding=message.coding,
                 parts=len(parts), out=out, sizes=sizes)


def read(label, coding, part, text, numbers=(), room=None, mark=1):
    inputs = {"coding": coding, "count": part.count, "mark": mark, "octets": part.octets,
              "room": len(text) if room is None else room}
    if inputs["room"] < len(text):
        refused("parts-read-" + label, "read-part", inputs, 7)
    else:
        accepted("parts-read-" + label, "read-part", inputs, reading=reading(SMS_CODINGS[coding]), numbers=list(numbers),
                 out=text)


def not_read(label, coding, part, number=12, room=200, mark=1):
    refused("parts-read-" + label, "read-part",
            {"coding": coding, "count": part.count, "mark": mark, "octets": part.octets, "room": room}, number)


def joining(coding, parts, room):
    return {"coding": coding, "counts": [part.count for part in parts], "octets": flat(part.octets for part in parts),
            "room": room}


def joined(label, coding, parts, text, room=None, reference=REFERENCE):
    """Joins parts that are each part of a message, once, in any order."""
    parts = list(parts)
    inputs = joining(coding, parts, len(text) if room is None else room)
    if inputs["room"] < len(text):
        refused("parts-join-" + label, "join-parts", inputs, 7)
    else:
        accepted("parts-join-" + label, "join-parts", inputs, reading=reading(SMS_CODINGS[coding]), reference=reference,
                 parts=len(parts), out=text)


def not_joined(label, coding, parts, number=10, room=4096):
    refused("parts-join-" + label, "join-parts", joining(coding, parts, room), number)


# ---------------------------------------------------------------------------------------------------------------------
# Sizes

def counts():
    print("\n# 7-bit: both sides of what fits alone, and of a number of parts. 255 parts are the most.")
    around = [n for parts in (1, 2, 3, 10, 100, 128, 254, 255) for n in range(153 * parts - 1, 153 * parts + 2)]
    for n in (0, 1, 2, *around, 159, 160, 161, 162, 39100, 39168, 40000, 40960):
        counted("%d" % n, seven(*(repeated(n, letters) if n else ([], 1))))
    print("\n# UCS2.")
    around = [n for parts in (1, 2, 3, 10, 100, 128, 254, 255) for n in range(67 * parts - 1, 67 * parts + 2)]
    for n in (0, 1, 2, *around, 69, 70, 71, 72, 17100, 17152, 20000, 40960):
        counted("ucs2-%d" % n, wide(*(repeated(n, signs) if n else ([], 1))))
    print("\n# Septets count, and not units: euro signs, two septets each, alone and beside a letter.")
    for n in (1, 76, 77, 79, 80, 81, 152, 153, 154, 229, 230, 19507, 19508, 20480, 40960):
        counted("euro-%d" % n, seven([EURO], n))
    for n in (53, 54, 102, 103, 13005, 13006):
        counted("euro-letter-%d" % n, seven([EURO, A], n))
    print("\n# A text is what it is taken to, however it is given: the same 306 letters, and the empty text.")
    for length in (1, 9, 306):
        counted("given-%d" % length, seven([A] * length, 306 // length))
    for times in (2, 256, 40960, 40961):
        counted("empty-%d" % times, seven([], times))
        counted("ucs2-empty-%d" % times, wide([], times))
    print("\n# Texts that nearly fill a line, and large numbers of times.")
    for length, times in ((3900, 1), (3900, 10), (3901, 10), (4000, 10), (2, 20480), (3, 13653), (1, 40959)):
        counted("long-%d-%d" % (length, times), seven(letters(length), times))
    for length, times in ((3417, 5), (3418, 5), (4000, 4), (4000, 5)):
        counted("ucs2-long-%d-%d" % (length, times), wide(signs(length), times))


WHOLE = units(ALPHABET.replace("\x1b", "")) + units(EXTENSION.values())


def seven_texts():
    """Names and texts: lone ones, and long ones whose septets end at each place of an octet."""
    for n in (0, 1, 7, 8, 159, 160, 161, 162, *range(305, 315), 459, 460):
        yield "%d" % n, letters(n)
    for n in (80, 81, 153, 154):
        yield "euro-%d" % n, [EURO] * n
    for n in (158, 159):
        yield "last-euro-%d" % n, letters(n) + [EURO]
    for n in (151, 152, 153, 305):
        yield "cut-euro-%d" % n, letters(n) + [EURO] + letters(10)
    yield "cut-euro-305-alone", letters(305) + [EURO]
    for name, text in (("cr-160", [CR] * 160), ("cr-161", [CR] * 161), ("cr-307", [CR] * 307),
                       ("letters-160-cr", letters(160) + [CR]), ("letters-152-cr-30", letters(152) + [CR] * 30),
                       ("zero-161", [0x40] * 161), ("ones-306", [0xE0] * 306), ("alphabet", WHOLE),
                       ("alphabet-2", WHOLE + WHOLE[::-1]), ("extension", units(EXTENSION.values()) * 10)):
        yield name, text


def wide_texts():
    for n in (0, 1, 2, 69, 70, 71, 72, 133, 134, 135, 200, 201, 202):
        yield "ucs2-%d" % n, signs(n)
    for name, text in (("ucs2-cr-70", [CR] * 70), ("ucs2-cr-71", [CR] * 71), ("ucs2-70-cr", signs(70) + [CR]),
                       ("ucs2-surrogates", signs(66) + [0xD83D, 0xDE00] + signs(10)),
                       ("ucs2-escape", [0x1B] * 67 + [0x65] * 4), ("ucs2-zero", [0] * 71),
                       ("ucs2-FFFF", [0xFFFF] * 135), ("ucs2-letters", letters(160)),
                       ("ucs2-halves", [0x0041, 0x4100] * 40)):
        yield name, text


def there_and_back(label, message, text):
    """All parts written, and joined again; a lone one read."""
    written(label, message)
    if message.mark():
        joined(label, message.coding, message.parts(), text)
        if "cut" in label or "surrogates" in label:
            one_written(label, message, len(message.pieces))
            read("%s-last" % label, message.coding, message.part(len(message.pieces)),
                 last_text(message), [REFERENCE, len(message.pieces), len(message.pieces)])
    else:
        read(label, message.coding, message.part(1), text, mark=0)


def last_text(message):
    """The text of the last part by itself, which may begin inside an escape."""
    piece = message.pieces[-1]
    if "ucs2" in message.words:
        return [int(piece[at:at + 4], 16) for at in range(0, len(piece), 4)]
    return whole([int(piece[at:at + 7][::-1], 2) for at in range(0, len(piece), 7)])


def sizes():
    print("\n# 7-bit texts there and back. A text that fits alone has no header; every part but the last is full.")
    for name, text in seven_texts():
        there_and_back(name, seven(text), text)
    print("\n# The same in UCS2.")
    for name, text in wide_texts():
        there_and_back(name, wide(text), text)
    print("\n# As many parts as a room of 4,096 takes: 29 full ones, and 36 octets more.")
    for n in (4284, 4436, 4437, 4438, 4470, 4471, 4472, 4590):
        written("many-%d" % n, seven(*repeated(n, letters)))
    for n in (1943, 1957, 1958, 1959, 2010):
        written("many-ucs2-%d" % n, wide(*repeated(n, signs)))
    for n in (31 * 153, 39015, 39016, 40960):
        written("many-%d" % n, seven(*repeated(n, letters)))
    for n in (17085, 17086):
        written("many-ucs2-%d" % n, wide(*repeated(n, signs)))


def numbers():
    print("\n# Each part of a message, and numbers that it lacks.")
    few = (0, 1, 2, 3, 255, 256)
    for name, message, tried in (("empty", seven([]), few), ("lone", seven(letters(160)), few),
                                 ("two", seven(letters(161)), (*few, 254, *HUGE)), ("three", seven(letters(400)), (*few, 4)),
                                 ("ucs2-empty", wide([]), few), ("ucs2-lone", wide(signs(70)), few),
                                 ("ucs2-two", wide(signs(71)), few), ("ucs2-three", wide(signs(180)), (*few, 4)),
                                 ("ten", seven(letters(1530)), (0, 1, 9, 10, 11))):
        for number in dict.fromkeys(tried):
            one_written("number-" + name, message, number)
    print("\n# Parts of the longest messages, whose texts are as long as 255 parts hold, or one more.")
    for name, message in (("255", seven(letters(85), 459)), ("255-short", seven(letters(26), 1500)),
                          ("254-euro", seven([EURO], 19431)), ("256", seven(letters(8), 4877)),
                          ("ucs2-255", wide(signs(85), 201)), ("ucs2-254", wide(signs(26), 654)),
                          ("ucs2-256", wide(signs(2), 8543))):
        for number in (0, 1, 128, 254, 255, 256, 257) if message.fits() else (0, 1, 256):
            one_written("long-" + name, message, number)


def references():
    print("\n# References.")
    for reference in (0x00, 0x1B, 0x80, 0xFF):
        for name, message in (("", seven(letters(161), reference=reference)),
                              ("ucs2-", wide(signs(71), reference=reference))):
            for number in (1, 2):
                one_written("%sreference-%02X" % (name, reference), message, number)
            short = [seven_part, wide_part][name != ""]
            parts = [short(header(concat(2, number, reference)), [A + number]) for number in (1, 2)]
            read("%sreference-%02X" % (name, reference), message.coding, parts[1], [A + 2], [reference, 2, 2])
            joined("%sreference-%02X" % (name, reference), message.coding, parts, [A + 1, A + 2], reference=reference)
    print("\n# A lone text has no place for one.")
    for reference in (0x00, 0xFF):
        written("reference-lone-%02X" % reference, seven(letters(9), reference=reference))
        one_written("reference-lone-%02X" % reference, wide(signs(3), reference=reference), 1)


# ---------------------------------------------------------------------------------------------------------------------
# Data codings

def codings():
    print("\n# Every reading that a short message's octet has: the smallest octet is written.")
    for words in sorted(set(SMS_CODINGS)):
        held = text_held(words)
        coding = SMS_CODINGS.index(words)
        label = "reading-" + words.replace("+", "-")
        if words != "reserved" and held in ("7bit", "ucs2"):
            message = (wide if held == "ucs2" else seven)([A, 0xA3], 81, words, coding)
            one_written(label, message, 2)
        else:
            number = 8 if words == "reserved" else held
            given = {"reading": reading(words), "text": [A], "times": 161}
            refused("parts-one-%s-1" % label, "write-part", {**given, "reference": 1, "number": 1, "room": 140}, number)
    print("\n# Readings that no such octet has.")
    for words in ("german", "czech", "hebrew", "class0+german", "wap", "i1", "user1", "ucs2+user2", "prefix", "ucs2+prefix",
                  "prefix+letter1:65+letter2:6E", "letter1:65", "ucs2+letter2:6E", "class1+header", "ucs2+class1+header",
                  "header", "class0+reserved", "ucs2+reserved", "ucs2+discard+active+mail", "class1+store+active+fax",
                  "deletion+store+inactive+other"):
        label = "parts-count-reading-" + words.replace("+", "-").replace(":", "-")
        refused(label, "count-parts", {"reading": reading(words), "text": [A], "times": 161}, 8)
    print("\n# The last octet of every reading, on a part that fits both 7-bit text and UCS2: three septets, or two units.")
    last = {words: octet for octet, words in enumerate(SMS_CODINGS)}
    part = seven_part(header(unknown(2)), [A, 0x1B, 0x65])
    assert part.count == len(part.octets) == 7
    page = [256 * part.octets[3] + part.octets[4], 256 * part.octets[5] + part.octets[6]]
    for coding in sorted({0x00, 0x0C, 0x7F, 0x80, 0xBF, *last.values()}):
        held = text_held(SMS_CODINGS[coding])
        if held in ("7bit", "ucs2"):
            read("dcs-%02X" % coding, coding, part, [A, EURO] if held == "7bit" else page)
        else:
            not_read("dcs-%02X" % coding, coding, part, held)
    print("\n# Some of each kind on joined parts.")
    for coding in (0x03, 0x07, 0x0B, 0x0C, 0x13, 0x17, 0x1A, 0x1F, 0x23, 0x2B, 0x43, 0x4B, 0x5B, 0x63, 0x7F, 0x80, 0xBF,
                   0xC3, 0xCB, 0xD0, 0xDF, 0xE0, 0xE4, 0xEB, 0xF3, 0xF7, 0xFF):
        held = text_held(SMS_CODINGS[coding])
        if held == "ucs2":
            joined("dcs-%02X" % coding, coding, [wide_part(header(concat(2, at)), [HAN + at]) for at in (2, 1)],
                   [HAN + 1, HAN + 2])
        else:
            parts = [seven_part(header(concat(2, at)), [A + at]) for at in (2, 1)]
            if held == "7bit":
                joined("dcs-%02X" % coding, coding, parts, [A + 1, A + 2])
            else:
                not_joined("dcs-%02X" % coding, coding, parts, held)


# ---------------------------------------------------------------------------------------------------------------------
# Rooms

def rooms():
    print("\n# Rooms: exact, one short, none, larger; for all parts, also a part short.")
    for name, message, text in (("empty", seven([]), []), ("lone", seven(letters(160)), letters(160)),
                                ("two", seven(letters(161)), letters(161)), ("three", seven([EURO] * 154), [EURO] * 154),
                                ("ucs2-lone", wide(signs(70)), signs(70)), ("ucs2-two", wide(signs(71)), signs(71))):
        parts = message.parts()
        needed, listed, last = sum(len(part.octets) for part in parts), 2 * len(parts), parts[-1]
        for room in sorted({0, max(0, needed - 140), max(0, needed - 1), needed, 4096}):
            written("room-%s-%d" % (name, room), message, room)
        for room in sorted({0, listed - 2, listed - 1, listed + 1, 4096}):
            written("list-%s-%d" % (name, room), message, None, room)
        if needed:
            written("room-and-list-%s" % name, message, needed - 1, listed - 1)
        for room in sorted({0, max(0, len(last.octets) - 1), len(last.octets) + 1}):
            one_written("room-%s-%d" % (name, room), message, len(parts), room)
        for room in sorted({0, max(0, len(text) - 1), len(text) + 1}):
            if message.mark():
                joined("room-%s-%d" % (name, room), message.coding, parts, text, room)
                own = last_text(message)
                read("room-%s-%d" % (name, room), message.coding, last, own, [REFERENCE, len(parts), len(parts)],
                     max(0, room - len(text) + len(own)))
            else:
                read("room-%s-%d" % (name, room), message.coding, last, text, room=room, mark=0)
    print("\n# The room for one part is that part's own: the last one is short.")
    for number, room in ((1, 139), (1, 140), (2, 13), (2, 14), (2, 140)):
        one_written("room-short-%d" % room, seven(letters(161)), number, room)
    print("\n# A room is held against the text: the header does not count, and an escape and its code count once.")
    for room in (1, 2, 3):
        read("room-behind-%d" % room, SEVEN_CODING, seven_part(header(concat(1, 1)), [0x1B, 0x65, 0x1B, 0x1B, A]),
             [EURO, SPACE, A], [REFERENCE, 1, 1], room)
    halves = [seven_part(header(concat(2, 1)), [A, 0x1B]), seven_part(header(concat(2, 2)), [0x65])]
    for room in (1, 2, 3):
        joined("room-cut-euro-%d" % room, SEVEN_CODING, halves, [A, EURO], room)
    print("\n# A message of more parts than the list has room for, and of more octets than a room can have.")
    for n, listed in ((39015, 509), (39015, 510), (39015, 4096), (4471, 59), (4471, 60), (4471, 61)):
        written("list-many-%d-%d" % (n, listed), seven(*repeated(n, letters)), 4096, listed)


# ---------------------------------------------------------------------------------------------------------------------
# Headers

def header_of_length(length, number=1):
    """A header of this many octets in all with the concatenation element, if there is a place for it, and its numbers. An
    unknown element in front of it or behind it takes the rest."""
    rest = length - 6
    if rest == 0:
        return header(concat(2, number)), [REFERENCE, 2, number]
    if rest >= 2:
        elements = [concat(2, number), unknown(rest)]
        return header(*(elements if length % 2 else elements[::-1])), [REFERENCE, 2, number]
    return (header(unknown(length - 1)) if length > 1 else [0]), []


def header_lengths():
    print("\n# Headers of many lengths, of every remainder modulo 7, and 7-bit text behind them. Fill bits are ignored, and")
    print("# so are spare bits. A header of 2 octets has no place for an element.")
    text = letters(3)
    lengths = (1, *range(3, 15), *range(134, 141))
    for length in lengths:
        front, numbers = header_of_length(length)
        room = (1120 - len(front_bits(front))) // 7
        for fill, spare in ("00", "11"):
            read("length-%d-%s" % (length, fill), SEVEN_CODING, seven_part(front, text[:room], fill, spare), text[:room],
                 numbers)
    print("\n# A header that ends in the last septet leaves the empty text. One septet less is 12, though its octets fit.")
    for length in lengths:
        front, numbers = header_of_length(length)
        septets = len(front_bits(front)) // 7
        read("ends-%d" % length, SEVEN_CODING, seven_part(front, []), [], numbers)
        octets = octets_of("0" * (7 * (septets - 1)))
        not_read("ends-early-%d" % length, SEVEN_CODING, Part(septets - 1, (front + [0])[:len(octets)]))
    print("\n# UCS2 behind headers of these lengths: even behind the header, and odd.")
    for length in lengths:
        front, numbers = header_of_length(length)
        if length <= 138:
            read("ucs2-length-%d" % length, UCS2_CODING, wide_part(front, [HAN]), [HAN], numbers)
        if length <= 139:
            not_read("ucs2-odd-%d" % length, UCS2_CODING, wide_part(front, [], [0x4E]), 4)
        read("ucs2-ends-%d" % length, UCS2_CODING, wide_part(front, []), [], numbers)
    print("\n# Full parts behind headers of other lengths.")
    for length in (1, 3, 5, 6, 7, 8, 9, 13, 14, 15, 20, 21, 70, 133, 134):
        front, numbers = header_of_length(length)
        septets = letters((1120 - len(front_bits(front))) // 7)
        read("full-%d" % length, SEVEN_CODING, seven_part(front, septets), septets, numbers)
        text = signs((140 - length) // 2)
        read("ucs2-full-%d" % length, UCS2_CODING, wide_part(front, text), text, numbers)


def header_against_octets():
    print("\n# Small length octets against few octets, with elements of two octets: 12 where the header is longer than the")
    print("# octets, or ends inside an element.")
    for m in range(9):
        for length in (*range(5), 6, 255):
            octets = ([length] + [0x70, 0x00] * 5)[:m]
            label = "against-%d-%d" % (length, m)
            if length + 1 > m or length % 2:
                not_read("ucs2-" + label, UCS2_CODING, Part(m, octets))
            elif (m - length - 1) % 2:
                not_read("ucs2-" + label, UCS2_CODING, Part(m, octets), 4)
            else:
                read("ucs2-" + label, UCS2_CODING, Part(m, octets), [256 * high + low for high, low in
                                                                      zip(octets[length + 1::2], octets[length + 2::2])])
    print("\n# The same in septets, with zeros behind the header.")
    for count in range(11):
        m = len(octets_of("0" * (7 * count)))
        for length in (0, 1, 2, 5, 6, 8, 255):
            octets = ([length] + [0x70, 0x00] * 5)[:min(m, length + 1)]
            octets += [0] * (m - len(octets))
            text = count - -(-8 * (length + 1) // 7)
            label = "against-%d-%d" % (length, count)
            if text < 0 or length % 2:
                not_read(label, SEVEN_CODING, Part(count, octets))
            else:
                read(label, SEVEN_CODING, Part(count, octets), [0x40] * text)
    print("\n# A full part with one element and many length octets: 139 is the last that fits, and leaves nothing.")
    for length in (0, 1, 2, 5, 133, 134, 137, 138, 139, 140, 141, 160, 255):
        octets = ([length, 0x70, (length - 2) % 256] + [0] * 200)[:140]
        if length == 1 or length > 139:
            not_read("whole-%d" % length, SEVEN_CODING, Part(160, octets))
            not_read("ucs2-whole-%d" % length, UCS2_CODING, Part(140, octets))
        elif length:
            read("whole-%d" % length, SEVEN_CODING, Part(160, octets), [0x40] * (160 - -(-8 * (length + 1) // 7)))
            if length % 2:
                read("ucs2-whole-%d" % length, UCS2_CODING, Part(140, octets), [0] * ((139 - length) // 2))
            else:
                not_read("ucs2-whole-%d" % length, UCS2_CODING, Part(140, octets), 4)


def bodies(size, octets):
    """Every body of this size that is whole elements with these octets as identifiers, lengths and data, with its
    numbers. Element 00 has the length 3."""
    if size == 0:
        yield (), ()
    for length in octets:
        if size < 2 + length:
            continue
        for identifier in octets:
            if identifier == 0 and length != 3:
                continue
            for data in itertools.product(octets, repeat=length):
                for rest, numbers in bodies(size - 2 - length, octets):
                    yield (identifier, length, *data, *rest), numbers or (data if identifier == 0 else ())


def small_headers():
    print("\n# Every header of up to three octets 00, 01, 03 behind its length, and those of four that begin with 01.")
    for size in range(5):
        right = dict(bodies(size, (0, 1, 3)))
        for body in itertools.product((0, 1, 3), repeat=size):
            if size == 4 and body[0] != 1:
                continue
            label = "body-" + ("".join("%02X" % octet for octet in body) or "none")
            part = seven_part([size, *body], [A])
            if body in right:
                read(label, SEVEN_CODING, part, [A], right[body])
            else:
                not_read(label, SEVEN_CODING, part)


# Small lengths, those whose low bits are the right one, and those that make a sum leave eight bits or a sign.
LENGTH_OCTETS = (*range(12), 19, 35, 67, 127, 128, 131, 195, 243, *range(248, 256))


def elements():
    print("\n# Identifiers with three octets of data: only 00 has numbers.")
    for identifier in (*range(12), 0x10, 0x20, 0x22, 0x24, 0x25, 0x40, 0x6F, 0x70, 0x7F, 0x80, 0xA0, 0xC0, 0xDF, 0xE0, 0xFE,
                       0xFF):
        numbers = [7, 2, 1]
        read("identifier-%02X" % identifier, SEVEN_CODING, seven_part(header(element(identifier, numbers)), [A]), [A],
             [] if identifier else numbers)
    print("\n# Element 00 with other length octets in a header of five octets behind the first: only 3 is right.")
    for length in LENGTH_OCTETS:
        part = seven_part([5, 0x00, length, 7, 2, 1], letters(9))
        if length == 3:
            read("length-octet-00-%d" % length, SEVEN_CODING, part, letters(9), [7, 2, 1])
        else:
            not_read("length-octet-00-%d" % length, SEVEN_CODING, part)
    print("\n# Element 00 of every small length that its header has a place for, and of some large ones.")
    for length in (*range(9), 19, 127, 137):
        front = header(element(0x00, [1] * length))
        for name, coding, part in (("", SEVEN_CODING, seven_part(front, [])), ("ucs2-", UCS2_CODING, wide_part(front, []))):
            if length == 3:
                read("%ssize-00-%d" % (name, length), coding, part, [], [1, 1, 1])
            else:
                not_read("%ssize-00-%d" % (name, length), coding, part)
    print("\n# An unknown element with many length octets, before octets 01. What it leaves is elements of three octets: 12")
    print("# where that does not come out even, and where the element runs past the header, by one octet or by more.")
    for length in LENGTH_OCTETS:
        part = seven_part([10, 0x70, length] + [0x01] * 8, letters(9))
        if length in (2, 5, 8):
            read("length-octet-70-%d" % length, SEVEN_CODING, part, letters(9))
        else:
            not_read("length-octet-70-%d" % length, SEVEN_CODING, part)
    print("\n# The last element one octet too long, exact, and one too short, behind others. The octets behind the header,")
    print("# which it would reach, are text.")
    for name, first in (("00", concat(2, 1)), ("70", unknown(4)), ("08", element(0x08, [1, 2, 3, 4]))):
        numbers = [REFERENCE, 2, 1] if name == "00" else []
        for length in (3, 4, 5, 255):
            front = header(first, [0x71, length, 9, 9, 9, 9])
            for kind, coding, part, text in (("", SEVEN_CODING, seven_part(front, letters(20)), letters(20)),
                                             ("ucs2-", UCS2_CODING, wide_part(front, signs(20)), signs(20))):
                label = "%slast-%s-%d" % (kind, name, length)
                if length == 4:
                    read(label, coding, part, text, numbers)
                else:
                    not_read(label, coding, part)
    print("\n# An identifier alone at the end of the header.")
    for name, front in (("00", [1, 0x00]), ("70", [1, 0x70]), ("03", [1, 0x03]), ("concat-00", [6, *concat(2, 1), 0x00]),
                        ("concat-70", [6, *concat(2, 1), 0x70]), ("empty-70", [3, 0x71, 0x00, 0x70]),
                        ("two-concat-00", [11, *concat(2, 1), *concat(2, 1), 0x00])):
        for kind, coding, part in (("", SEVEN_CODING, seven_part(front, letters(9))),
                                   ("ucs2-", UCS2_CODING, wide_part(front, signs(9)))):
            not_read("%slone-%s" % (kind, name), coding, part)
    print("\n# No octets, and the count that goes with them.")
    for coding in (0x00, 0x01, 0x08, 0x10, 0x80, 0xE0):
        for room in (0, 9):
            not_read("none-%02X-%d" % (coding, room), coding, Part(0, []), room=room)
    print("\n# A header without elements.")
    for n in (0, 1, 2, 6, 7, 8, 9, 158):
        read("no-elements-%d" % n, SEVEN_CODING, seven_part([0], letters(n)), letters(n))
    for n in (0, 1, 2, 69):
        read("ucs2-no-elements-%d" % n, UCS2_CODING, wide_part([0], signs(n)), signs(n))


def known_elements():
    """Names, elements and numbers, None where the header is wrong."""
    sixteen = element(0x08, [1, 2, 3, 4])
    yield "16-bit", [sixteen], []
    yield "16-bit-of-3", [element(0x08, [9, 2, 1])], []
    yield "16-bit-of-0", [element(0x08, [])], []
    yield "16-bit-before", [sixteen, concat(2, 1)], [REFERENCE, 2, 1]
    yield "16-bit-behind", [concat(2, 1), sixteen], [REFERENCE, 2, 1]
    for identifier in (0x01, 0x24, 0x25, 0x80, 0xFF):
        yield "%02X-before" % identifier, [element(identifier, [1]), concat(2, 1)], [REFERENCE, 2, 1]
        yield "%02X-behind" % identifier, [concat(2, 1), element(identifier, [1])], [REFERENCE, 2, 1]
    for n in (1, 20):
        yield "empty-%d-before" % n, [element(0x70, [])] * n + [concat(2, 1)], [REFERENCE, 2, 1]
        yield "empty-%d-behind" % n, [concat(2, 1)] + [element(0x70, [])] * n, [REFERENCE, 2, 1]
    first, last, third = concat(2, 1, 0x11), concat(3, 2, 0x22), concat(9, 9, 0x33)
    yield "twice", [first, last], [0x22, 3, 2]
    yield "twice-turned", [last, first], [0x11, 2, 1]
    yield "twice-same", [first, first], [0x11, 2, 1]
    yield "three-times", [first, last, third], [0x33, 9, 9]
    yield "three-times-turned", [third, first, last], [0x22, 3, 2]
    yield "many-times", [first] * 20 + [last], [0x22, 3, 2]
    yield "twice-between", [first, unknown(4), last], [0x22, 3, 2]
    yield "twice-before", [unknown(3), first, last], [0x22, 3, 2]
    yield "twice-behind", [first, last, unknown(3)], [0x22, 3, 2]
    yield "twice-16-bit-behind", [first, last, sixteen], [0x22, 3, 2]
    yield "twice-to-zero", [first, element(0x00, [0, 0, 0])], [0, 0, 0]
    yield "inside-unknown", [element(0x70, concat(2, 1))], []
    yield "inside-behind", [first, element(0x70, last)], [0x11, 2, 1]
    for length in (0, 2, 4, 6):
        wrong = element(0x00, [0x70, 0x01, 0x02, 0x03, 0x04, 0x05][:length])
        yield "wrong-%d-then-right" % length, [wrong, first], None
        yield "right-then-wrong-%d" % length, [first, wrong], None
        yield "wrong-%d-between" % length, [first, wrong, last], None
        yield "wrong-%d-then-unknown" % length, [wrong, unknown(4)], None
        yield "unknown-then-wrong-%d" % length, [unknown(4), wrong], None


def known_headers():
    print("\n# Element 00 beside unknown ones, 08 among them; of a repeated one the last counts, and each has the length 3.")
    for name, given, numbers in known_elements():
        for kind, coding, part, text in (("", SEVEN_CODING, seven_part(header(*given), letters(3)), letters(3)),
                                         ("ucs2-", UCS2_CODING, wide_part(header(*given), signs(3)), signs(3))):
            if kind and ("before" in name or "behind" in name):     # their places are the same in both
                continue
            if numbers is None:
                not_read(kind + "element-" + name, coding, part)
            else:
                read(kind + "element-" + name, coding, part, text, numbers)
    print("\n# Numbers are read as they stand.")
    for reference, total, number in ((0, 0, 0), (1, 0, 0), (1, 0, 1), (1, 1, 0), (1, 1, 2), (1, 2, 0), (1, 2, 3),
                                     (1, 2, 255), (255, 255, 255), (255, 0, 255), (0, 255, 1), (0, 1, 255), (5, 0, 3),
                                     (0, 3, 5)):
        for kind, coding, short in (("", SEVEN_CODING, seven_part), ("ucs2-", UCS2_CODING, wide_part)):
            read("%snumbers-%d-%d-%d" % (kind, reference, total, number), coding,
                 short(header(concat(total, number, reference)), [A]), [A], [reference, total, number])


def texts_behind():
    print("\n# Escapes behind a header, and at the end of a part, which is read alone here. An escape that the header ends")
    print("# in is none.")
    for name, septets in (("euro", [0x1B, 0x65]), ("last", [A, 0x1B]), ("only", [0x1B]), ("two", [0x1B, 0x1B]),
                          ("three", [0x1B] * 3), ("two-and-code", [0x1B, 0x1B, 0x65]), ("gap", [0x1B, A]),
                          ("cr", [0x1B, CR]), ("code-first", [0x65, A]), ("crs", [CR, A, CR, CR]), ("zeros", [0, A, 0, 0])):
        for length in (6, 8):
            front, numbers = header_of_length(length)
            read("escape-%s-%d" % (name, length), SEVEN_CODING, seven_part(front, septets, "1", "1"), whole(septets),
                 numbers)
    for numbers in ([0x1B, 0x1B, 0x1B], [0x36, 0x6C, 0xD8]):
        front = header(element(0x00, numbers))
        read("escape-header-%02X" % numbers[0], SEVEN_CODING, seven_part(front, [0x65]), [0x65], numbers)
    front = header(unknown(2), element(0x71, [0x6C]))      # the septet in front of the text is 1B
    assert front_bits(front)[-7:] == "1101100" and len(front) == 6
    read("escape-header-ends", SEVEN_CODING, seven_part(front, [0x65], "0"), [0x65])


# ---------------------------------------------------------------------------------------------------------------------
# Counts and octets

def part_counts():
    print("\n# The count and the octets of a 7-bit part: 160 septets are the most, and the octets are exactly theirs.")
    front, numbers = header(concat(2, 1)), [REFERENCE, 2, 1]
    read("count-160", SEVEN_CODING, seven_part(front, letters(153)), letters(153), numbers)
    for n in (154, 155, 161, 170):
        not_read("count-%d" % (n + 7), SEVEN_CODING, seven_part(front, letters(n)), 4)
    octets = seven_part(front, letters(25), "1", "1").octets
    for count in (0, 1, 7, 8, 28, *range(30, 35), 160, 161, 613566757, 613566789, 1227133545, 2147483680, 4294967295):
        label = "count-for-28-%d" % count
        if len(octets_of("0" * (7 * min(count, 200)))) == 28:
            read(label, SEVEN_CODING, Part(count, octets), letters(count - 7), numbers)
        else:
            not_read(label, SEVEN_CODING, Part(count, octets), 4)
    print("\n# Seven octets are seven septets or eight; so for any multiple.")
    for m in (7, 14, 70, 140):
        octets = seven_part(front, letters(8 * m // 7 - 7)).octets
        assert len(octets) == m
        for less in (0, 1):
            read("count-multiple-%d-%d" % (m, less), SEVEN_CODING, Part(8 * m // 7 - less, octets),
                 letters(8 * m // 7 - 7 - less), numbers)
        not_read("count-multiple-%d-2" % m, SEVEN_CODING, Part(8 * m // 7 - 2, octets), 4)
        not_read("count-multiple-%d-more" % m, SEVEN_CODING, Part(8 * m // 7 + 1, octets), 4)
    print("\n# The count and the octets of a UCS2 part: 140 at most, and equal. Evenness is judged behind the header.")
    for length in (5, 6):
        front, numbers = header_of_length(length)
        for m in (*range(length, length + 5), 138, 139, 140, 141, 142, 143):
            text = signs((m - length) // 2)
            odd = (m - length) % 2
            label = "ucs2-count-%d-%d" % (length, m)
            part = wide_part(front, text, [0x4E] * odd)
            if m > 140 or odd:
                not_read(label, UCS2_CODING, part, 4)
            else:
                read(label, UCS2_CODING, part, text, numbers)
    front = header(concat(2, 1))
    octets = wide_part(front, signs(4)).octets
    for count in (0, 1, 4, 7, 8, 12, 13, 15, 16, 28, 140, 141, 270, 65550, 4294967295):
        not_read("ucs2-count-for-14-%d" % count, UCS2_CODING, Part(count, octets), 4)
    print("\n# Octets that are missing, or too many.")
    for coding, part in ((SEVEN_CODING, seven_part(front, letters(20))), (UCS2_CODING, wide_part(front, signs(20)))):
        for more in (-2, -1, 1, 2):
            octets = (part.octets + [0, 0])[:len(part.octets) + more]
            not_read("octets-%02X-%d" % (coding, more), coding, Part(part.count, octets), 4)


# ---------------------------------------------------------------------------------------------------------------------
# Without the mark

def unmarked():
    print("\n# Without the mark the octets are a short message of the base, whatever they look like.")
    front = header(concat(2, 1))
    for name, part in (("header", seven_part(front, letters(9))), ("UDHL-255", seven_part([255], letters(9))),
                       ("wrong", seven_part([5, 0, 2, 7, 2, 1], letters(9))), ("zero", seven_part([0], letters(9))),
                       ("spare", seven_part([], letters(9), "0", "1"))):
        bits = "".join("{:08b}".format(octet)[::-1] for octet in part.octets)
        septets = [int(bits[at:at + 7][::-1], 2) for at in range(0, 7 * part.count, 7)]
        read("unmarked-" + name, SEVEN_CODING, part, whole(septets), mark=0)
    for name, part in (("header", wide_part(front, signs(9))), ("UDHL-255", wide_part([255, 1], signs(9))),
                       ("wrong", wide_part([5, 0, 2, 7, 2, 1], signs(9)))):
        pairs = [256 * high + low for high, low in zip(part.octets[::2], part.octets[1::2])]
        read("unmarked-ucs2-" + name, UCS2_CODING, part, pairs, mark=0)
    read("unmarked-none", SEVEN_CODING, Part(0, []), [], mark=0)
    read("unmarked-ucs2-none", UCS2_CODING, Part(0, []), [], mark=0)
    read("unmarked-reserved", 0x80, seven_part([], letters(3)), letters(3), mark=0)
    read("unmarked-class", 0xF1, seven_part([], [0x1B, 0x65, 0x1B]), [EURO, SPACE], mark=0)
    print("\n# Its lengths: evenness is judged from the first octet on.")
    for n in (160, 161):
        part = seven_part([], letters(n))
        if n == 160:
            read("unmarked-%d" % n, SEVEN_CODING, part, letters(n), mark=0)
        else:
            not_read("unmarked-%d" % n, SEVEN_CODING, part, 4, mark=0)
    for length in (5, 6, 7):
        for m in (11, 12, 13, 140, 141, 142):
            octets = ([length - 1] + [0x4E] * 200)[:m]
            label = "unmarked-ucs2-%d-%d" % (length, m)
            if m % 2 or m > 140:
                not_read(label, UCS2_CODING, Part(m, octets), 4, mark=0)
            else:
                read(label, UCS2_CODING, Part(m, octets), [256 * (length - 1) + 0x4E] + [0x4E4E] * (m // 2 - 1), mark=0)
    for count, m in ((1, 0), (0, 1), (8, 8), (9, 7), (4294967295, 7), (613566757, 4)):
        not_read("unmarked-count-%d-%d" % (count, m), SEVEN_CODING, Part(count, [0] * m), 4, mark=0)


def twins():
    print("\n# A lone text that packs to a part's very octets, with the same count: the mark tells them apart.")
    for name, reference, long in (("letters", 0xC7, letters(306)), ("euro", 0x20, [A] + [EURO] * 153),
                                  ("zero", 0x00, [0x40] * 306), ("alphabet", 0x84, WHOLE[:100] * 3)):
        message = seven(long, reference=reference)
        part = message.part(1)
        bits = "".join("{:08b}".format(octet)[::-1] for octet in part.octets)
        septets = [int(bits[at:at + 7][::-1], 2) for at in range(0, 1120, 7)]
        lone = whole(septets)
        assert septets_of(lone) == septets and part.count == 160
        twin = seven(lone)
        assert twin.part(1) == part and not twin.mark()
        one_written("twin-%s-lone" % name, twin, 1)
        one_written("twin-%s-part" % name, message, 1)
        read("twin-%s-lone" % name, SEVEN_CODING, part, lone, mark=0)
        read("twin-%s-part" % name, SEVEN_CODING, part, whole(septets[7:]), [reference, len(message.pieces), 1])
    for name, reference in (("signs", 0xC7), ("zero", 0x00)):
        message = wide(signs(134), reference=reference)
        part = message.part(1)
        lone = [256 * high + low for high, low in zip(part.octets[::2], part.octets[1::2])]
        twin = wide(lone)
        assert twin.part(1) == part and not twin.mark()
        one_written("twin-ucs2-%s-lone" % name, twin, 1)
        one_written("twin-ucs2-%s-part" % name, message, 1)
        read("twin-ucs2-%s-lone" % name, UCS2_CODING, part, lone, mark=0)
        read("twin-ucs2-%s-part" % name, UCS2_CODING, part, signs(67), [reference, 2, 1])


# ---------------------------------------------------------------------------------------------------------------------
# Joining

def orders():
    print("\n# Parts in any order: two, three and ten.")
    for name, message, text in (("two", seven(letters(200)), letters(200)), ("ucs2-two", wide(signs(100)), signs(100)),
                                ("three", seven(letters(330)), letters(330)),
                                ("ucs2-three", wide(signs(150)), signs(150))):
        for order in itertools.permutations(range(1, len(message.pieces) + 1)):
            joined("order-%s-%s" % (name, "".join(map(str, order))), message.coding, map(message.part, order), text)
    for name, message, text in (("ten", seven(letters(1400)), letters(1400)), ("ucs2-ten", wide(signs(650)), signs(650))):
        for label, order in (("back", range(10, 0, -1)), ("rotated", (4, 5, 6, 7, 8, 9, 10, 1, 2, 3)),
                             ("odd-first", (1, 3, 5, 7, 9, 2, 4, 6, 8, 10))):
            joined("order-%s-%s" % (name, label), message.coding, map(message.part, order), text)


def short_parts(coding, total, given, reference=REFERENCE):
    """Parts of one letter or sign each, of these numbers."""
    short = wide_part if coding == UCS2_CODING else seven_part
    return [short(header(concat(total, number, reference)), [0x41 + number % 26]) for number in given]


def short_text(numbers):
    return [0x41 + number % 26 for number in numbers]


def many_parts():
    print("\n# Up to 255 parts, each of one letter.")
    for coding in (SEVEN_CODING, UCS2_CODING):
        for total in (1, 128, 254, 255):
            joined("many-%02X-%d" % (coding, total), coding, short_parts(coding, total, range(1, total + 1)),
                   short_text(range(1, total + 1)))
        joined("many-%02X-255-back" % coding, coding, short_parts(coding, 255, range(255, 0, -1)),
               short_text(range(1, 256)))
        joined("many-%02X-255-mixed" % coding, coding, short_parts(coding, 255, [97 * at % 256 for at in range(1, 256)]),
               short_text(range(1, 256)))
        for name, given in (("less-first", range(2, 256)), ("less-last", range(1, 255)), ("zero-for-last", range(255)),
                            ("256", [*range(1, 256), 255]), ("257", [*range(1, 256), 0, 1]),
                            ("256-back", [255, *range(255, 0, -1)]), ("300", [1] * 300)):
            not_joined("many-%02X-%s" % (coding, name), coding, short_parts(coding, 255, given))


def wrong_parts():
    print("\n# Parts that are missing, repeated, numbered 0 or above the total; total 0.")

    def to(last):
        return list(range(1, last + 1))

    for kind, total, given in (
            ("missing", 2, [1]), ("missing", 2, [2]), ("missing", 3, [1, 2]), ("missing", 3, [1, 3]),
            ("missing", 3, [2, 3]), ("missing", 3, [1]), ("missing", 3, [2]), ("missing", 3, [3]), ("missing", 255, [1]),
            ("missing", 255, [255]), ("missing", 10, to(9)), ("missing", 10, list(range(2, 11))),
            ("repeated", 1, [1, 1]), ("repeated", 1, [1, 1, 1]), ("repeated", 2, [1, 1]), ("repeated", 2, [2, 2]),
            ("repeated", 2, [1, 1, 2]), ("repeated", 2, [1, 2, 1]), ("repeated", 2, [1, 2, 2]), ("repeated", 2, [2, 1, 2]),
            ("repeated", 2, [1, 2, 1, 2]), ("repeated", 3, [1, 1, 3]), ("repeated", 3, [1, 2, 2]),
            ("repeated", 3, [3, 2, 2]), ("repeated", 3, [1, 2, 3, 3]), ("repeated", 3, [1, 1, 1]),
            ("repeated", 3, [2, 2, 2]),
            ("zero", 1, [0]), ("zero", 1, [0, 1]), ("zero", 1, [1, 0]), ("zero", 2, [0, 1]), ("zero", 2, [0, 2]),
            ("zero", 2, [1, 0]), ("zero", 2, [0, 1, 2]), ("zero", 2, [1, 2, 0]), ("zero", 3, [0, 1, 2]),
            ("zero", 3, [0, 3, 3]), ("above", 3, [1, 1, 4]),
            ("above", 1, [2]), ("above", 1, [255]), ("above", 1, [1, 2]), ("above", 1, [2, 1]), ("above", 2, [1, 3]),
            ("above", 2, [2, 3]), ("above", 2, [3, 1]), ("above", 2, [1, 2, 3]), ("above", 2, [3, 2, 1]),
            ("above", 3, [1, 2, 4]), ("above", 3, [1, 2, 255]), ("above", 3, [2, 3, 4]), ("above", 254, [255]),
            ("total-0", 0, [0]), ("total-0", 0, [1]), ("total-0", 0, [255]), ("total-0", 0, [1, 2]), ("total-0", 0, [0, 1]),
            ("total-0", 0, [0, 0])):
        if len(given) <= 4:
            name = "-".join(map(str, given))
        else:
            name = "%d-parts-%d-to-%d" % (len(given), given[0], given[-1])
        for coding in (SEVEN_CODING, UCS2_CODING) if len(given) == 1 else (SEVEN_CODING,):
            not_joined("%s-%02X-%s-of-%d" % (kind, coding, name, total), coding, short_parts(coding, total, given))


def differing_parts():
    print("\n# References that differ in one bit, in the first or in the last of two and of three parts.")
    for bit in range(8):
        for coding in (SEVEN_CODING, UCS2_CODING) if bit in (0, 7) else (SEVEN_CODING,):
            other = REFERENCE ^ 1 << bit
            first, second = short_parts(coding, 2, [1, 2])
            not_joined("reference-%02X-second-bit-%d" % (coding, bit), coding, [first, *short_parts(coding, 2, [2], other)])
            not_joined("reference-%02X-first-bit-%d" % (coding, bit), coding, [*short_parts(coding, 2, [1], other), second])
    for at in (1, 2, 3):
        parts = short_parts(SEVEN_CODING, 3, [1, 2, 3])
        not_joined("reference-three-%d" % at, SEVEN_CODING,
                   changed(parts, at - 1, short_parts(SEVEN_CODING, 3, [at], REFERENCE + 1)[0]))
    print("\n# Two messages' parts together, each whole or not.")
    for name, mine, others in (("whole", [1, 2], [1, 2]), ("half", [1], [2]), ("other-half", [2], [1]),
                               ("more", [1, 2], [1])):
        not_joined("messages-" + name, SEVEN_CODING,
                   short_parts(SEVEN_CODING, 2, mine) + short_parts(SEVEN_CODING, 2, others, 0x01))
    print("\n# Totals that differ.")
    for total in (0, 1, 3, 255):
        for coding in (SEVEN_CODING, UCS2_CODING):
            first, second = short_parts(coding, 2, [1, 2])
            not_joined("total-%02X-2-%d" % (coding, total), coding, [first, *short_parts(coding, total, [2])])
            not_joined("total-%02X-%d-2" % (coding, total), coding, [*short_parts(coding, total, [1]), second])
            not_joined("total-%02X-back-%d" % (coding, total), coding, [*short_parts(coding, total, [2]), first])
    for total in (2, 4):
        first, second, third = short_parts(SEVEN_CODING, 3, [1, 2, 3])
        not_joined("total-three-last-%d" % total, SEVEN_CODING, [first, second, *short_parts(SEVEN_CODING, total, [3])])
        not_joined("total-three-middle-%d" % total, SEVEN_CODING, [first, *short_parts(SEVEN_CODING, total, [2]), third])
    print("\n# Parts whose reference, total and number are changed over.")
    for name, order in (("total-number", (0, 2, 1)), ("reference-total", (1, 0, 2)), ("reference-number", (2, 1, 0))):
        parts = [seven_part(header(element(0x00, [[9, 3, number][at] for at in order])), [A]) for number in (1, 2, 3)]
        not_joined("changed-" + name, SEVEN_CODING, parts)
    print("\n# Parts without the element: no elements, unknown ones, the 16-bit one.")
    for coding, short in ((SEVEN_CODING, seven_part), (UCS2_CODING, wide_part)):
        for name, front in (("none", [0]), ("70", header(unknown(5))), ("16-bit", header(element(0x08, [0, 1, 1, 1]))),
                            ("16-bit-of-3", header(element(0x08, [1, 1, 1]))),
                            ("inside", header(element(0x70, concat(1, 1))))):
            lone = short(front, [A])
            label = "lacks-%02X-%s" % (coding, name)
            not_joined(label, coding, [lone])
            not_joined(label + "-first", coding, [lone, *short_parts(coding, 2, [2])])
            not_joined(label + "-last", coding, [*short_parts(coding, 1, [1]), lone])
            not_joined(label + "-middle", coding, changed(short_parts(coding, 3, [1, 2, 3]), 1, lone))
    print("\n# No part at all is a part missing. With octets their length is wrong.")
    for coding in (SEVEN_CODING, UCS2_CODING, 0x10, 0x80):
        for room in (0, 1, 4096):
            not_joined("no-part-%02X-%d" % (coding, room), coding, [], 10, room)
        for m in (1, 2, 140):
            refused("parts-join-no-part-octets-%02X-%d" % (coding, m), "join-parts",
                    {"coding": coding, "counts": [], "octets": [0] * m, "room": 160}, 4)


def joined_headers():
    print("\n# Headers of differing lengths: each part's text begins behind its own. Other elements need not agree.")
    for length in (6, 8, 9, 10, 11, 12, 13, 14, 20, 33):
        first, second = header_of_length(length, 1)[0], header_of_length(29 - length % 7, 2)[0]
        for coding, short in ((SEVEN_CODING, seven_part), (UCS2_CODING, wide_part)):
            joined("lengths-%02X-%d" % (coding, length), coding, [short(second, letters(5)), short(first, letters(4))],
                   letters(4) + letters(5))
    print("\n# Fill bits and spare bits set, in each part.")
    for length in (6, 8, 9, 10, 11, 12, 13, 14):
        for n in (1, 4):
            parts = [seven_part(header_of_length(length, number)[0], letters(n + number), "1", "1") for number in (1, 2)]
            joined("bits-%d-%d" % (length, n), SEVEN_CODING, parts, letters(n + 1) + letters(n + 2))
    print("\n# A repeated element in each part: the last says which part it is.")
    for coding, short in ((SEVEN_CODING, seven_part), (UCS2_CODING, wide_part)):
        parts = [short(header(concat(2, 3 - number), unknown(3), concat(2, number)), [A + number]) for number in (1, 2)]
        joined("twice-%02X" % coding, coding, parts, [A + 1, A + 2])
        joined("twice-back-%02X" % coding, coding, parts[::-1], [A + 1, A + 2])
        parts = [short(header(concat(9, 9, 0x99), concat(2, number)), [A + number]) for number in (1, 2)]
        joined("twice-other-%02X" % coding, coding, parts, [A + 1, A + 2])
        parts = [short(header(concat(2, number), concat(2, 1)), [A + number]) for number in (1, 2)]
        not_joined("twice-same-%02X" % coding, coding, parts)
        parts = [short(header(concat(2, number), element(0x08, [0, 0, 9, 9])), [A + number]) for number in (1, 2)]
        joined("twice-16-bit-%02X" % coding, coding, parts, [A + 1, A + 2])


def joined_contents():
    def with_septets(name, *contents):
        parts = [seven_part(header(concat(len(contents), number)), content) for number, content in enumerate(contents, 1)]
        text = whole(flat(contents))
        joined("escape-" + name, SEVEN_CODING, parts, text)
        if len(parts) > 1 and not name.startswith(("code", "other")):
            joined("escape-back-" + name, SEVEN_CODING, parts[::-1], text)

    print("\n# Escapes: one ends a part and its code begins the next; two stand apart; one ends the last part.")
    for name, *contents in (
            ("cut", [A, 0x1B], [0x65, A]), ("cut-only", [0x1B], [0x65]), ("cut-gap", [A, 0x1B], [A]),
            ("cut-cr", [0x1B], [CR]), ("cut-double", [0x1B], [0x1B]), ("cut-double-code", [0x1B], [0x1B, 0x65]),
            ("double-cut-code", [0x1B, 0x1B], [0x65]), ("double-double", [0x1B, 0x1B], [0x1B, 0x1B]),
            ("triple-cut", [0x1B, 0x1B, 0x1B], [0x65]), ("triple-apart", [0x1B], [0x1B], [0x1B]),
            ("four-apart", [0x1B], [0x1B], [0x1B], [0x65]), ("five-apart", [0x1B], [0x1B], [0x1B], [0x1B], [0x65]),
            ("end", [A], [0x1B]), ("end-double", [A], [0x1B, 0x1B]), ("end-only", [0x1B]), ("end-cut", [A, 0x1B], []),
            ("over-empty", [0x1B], [], [0x65]), ("over-two-empty", [0x1B], [], [], [0x28]),
            ("over-empty-double", [0x1B], [], [0x1B]), ("both", [0x65, 0x1B], [0x3C, 0x1B], [0x3E])):
        with_septets(name, *contents)
    for code in EXTENSION:
        with_septets("code-%02X" % code, [A, 0x1B], [code])
    for code in (0x00, 0x0D, 0x24, 0x40, 0x5B, 0x7F):
        with_septets("other-%02X" % code, [0x1B], [code, code])
    print("\n# In full parts, as a writer cuts them.")
    for name, septets in (("full-cut", letters(152) + [0x1B, 0x65]), ("full-double", letters(152) + [0x1B, 0x1B]),
                          ("full-end", letters(305) + [0x1B])):
        parts = [septets[:153], septets[153:]]
        with_septets(name, *parts)
    print("\n# Parts that are not full, and empty ones: no refusal is named for them.")
    for coding, short, text in ((SEVEN_CODING, seven_part, letters), (UCS2_CODING, wide_part, signs)):
        for name, lengths in (("empty", (0,)), ("two-empty", (0, 0)), ("three-empty", (0, 0, 0)), ("first", (0, 5)),
                              ("last", (5, 0)), ("middle", (3, 0, 4)), ("falling", (5, 4, 3, 2, 1)),
                              ("rising", (1, 2, 3, 4, 5)), ("one-full", (67, 1, 67)), ("single", (9,))):
            parts = [short(header(concat(len(lengths), number)), text(length)) for number, length in enumerate(lengths, 1)]
            joined("filled-%02X-%s" % (coding, name), coding, parts[::-1], flat(map(text, lengths)))
    print("\n# Closing CRs and zeros stay, at the end of a part and at the end of the text.")
    for name, first, last in (("cr", [A, CR], [A, CR, CR]), ("zeros", [A, 0], [0, 0]), ("all-cr", [CR] * 8, [CR] * 8)):
        with_septets("kept-" + name, first, last)
    parts = [wide_part(header(concat(2, 1)), [HAN, CR]), wide_part(header(concat(2, 2)), [CR, CR])]
    joined("kept-ucs2", UCS2_CODING, parts, [HAN, CR, CR, CR])
    print("\n# A surrogate pair apart, and units that no part may split.")
    parts = [wide_part(header(concat(2, 1)), [0xD83D]), wide_part(header(concat(2, 2)), [0xDE00])]
    joined("surrogates", UCS2_CODING, parts, [0xD83D, 0xDE00])
    parts = [wide_part(header(concat(2, 1)), [HAN], [0x4E]), wide_part(header(concat(2, 2)), [HAN], [0x2D])]
    not_joined("split-unit", UCS2_CODING, parts, 4)


def joined_counts():
    print("\n# Counts and octets: each count within its limit, and all octets as long as the counts ask together.")
    full = seven_part(header(concat(2, 1)), letters(153))
    last = seven_part(header(concat(2, 2)), letters(9))
    joined("count-160", SEVEN_CODING, [last, full], letters(153) + letters(9))
    for n in (154, 155, 248):
        over = seven_part(header(concat(2, 1)), letters(n))
        not_joined("count-%d-first" % over.count, SEVEN_CODING, [over, last], 4)
        not_joined("count-%d-last" % over.count, SEVEN_CODING, [last, over], 4)
    for length in (6, 8, 13):
        second = header_of_length(length, 2)[0]
        one = wide_part(header(concat(2, 1)), [HAN])
        for m in (138, 139, 140, 141, 142, 200, 255):
            part = wide_part(second, signs((m - length) // 2), [0x4E] * ((m - length) % 2))
            label = "count-ucs2-%d-%d" % (length, m)
            if m > 140 or (m - length) % 2:
                not_joined(label, UCS2_CODING, [one, part], 4)
            else:
                joined(label, UCS2_CODING, [one, part], [HAN] + signs((m - length) // 2))
    for coding in (SEVEN_CODING, UCS2_CODING):
        parts = short_parts(coding, 3, [1, 2, 3])
        inputs = joining(coding, parts, 160)
        for more in (-8, -2, -1, 1, 2, 8):
            refused("parts-join-octets-%02X-%d" % (coding, more), "join-parts",
                    {**inputs, "octets": (inputs["octets"] + [0] * 8)[:len(inputs["octets"]) + more]}, 4)
        for name, given in (("less", inputs["counts"][:2]), ("more", inputs["counts"] + [8]), ("zero", [0, 0, 0]),
                            ("one-more", changed(inputs["counts"], 2, 9)), ("first-more", changed(inputs["counts"], 0, 9)),
                            ("one-less", changed(inputs["counts"], 1, 6))):
            refused("parts-join-counts-%02X-%s" % (coding, name), "join-parts", {**inputs, "counts": given}, 4)
    print("\n# Lengths are rounded up part by part: seven parts of 12 septets take 77 octets, and 84 septets would take 74.")
    for n, given in ((1, (1, 2)), (2, (1, 2)), (3, (1, 2, 3)), (2, (1, 2, 3, 4, 5)), (5, (1, 2, 3, 4, 5, 6, 7))):
        parts = [seven_part(header(concat(len(given), number)), letters(n)) for number in given]
        octets, total = sum(len(part.octets) for part in parts), sum(part.count for part in parts)
        joined("rounded-%d-%d" % (n, len(given)), SEVEN_CODING, parts, letters(n) * len(given))
        together = len(octets_of("0" * (7 * total)))
        if together != octets:
            refused("parts-join-rounded-%d-%d-together" % (n, len(given)), "join-parts",
                    {**joining(SEVEN_CODING, parts, 160), "octets": flat(part.octets for part in parts)[:together]}, 4)
    print("\n# Seven octets are seven septets or eight: the count says which.")
    for first, last in ((7, 8), (8, 7), (8, 8), (7, 7)):
        parts = [seven_part(header(concat(2, number)), [A + number]) for number in (1, 2)]
        given = [part._replace(count=count) for part, count in zip(parts, (first, last))]
        joined("count-seven-%d-%d" % (first, last), SEVEN_CODING, given, [A + 1] * (first == 8) + [A + 2] * (last == 8))
    print("\n# Counts in another order than the parts, of the same sum: the second header is looked for inside a part.")
    for coding, short, text in ((SEVEN_CODING, seven_part, [0x7F] * 20), (UCS2_CODING, wide_part, [0xFFFF] * 20)):
        parts = [short(header(concat(2, 1)), text), short(header(concat(2, 2)), text[:4])]
        inputs = joining(coding, parts, 160)
        refused("parts-join-counts-%02X-turned" % coding, "join-parts", {**inputs, "counts": inputs["counts"][::-1]}, 12)


def joined_damage():
    print("\n# A header that is wrong in one part, the first, the middle or the last of three, or the only one.")
    for name, front in (("too-long", [255, 0, 3, 1, 3, 1]), ("longer-by-one", [8, 0x00, 3, REFERENCE, 3, 1]),
                        ("past-by-one", [5, 0x00, 4, REFERENCE, 3, 1]), ("length-2", [4, 0x00, 2, REFERENCE, 3]),
                        ("length-4", [6, 0x00, 4, REFERENCE, 3, 1, 1]), ("unknown-past", [5, 0x70, 4, 1, 3, 1]),
                        ("alone", [6, *concat(3, 1), 0x00]), ("wrong-then-right", header([0x00, 0], concat(3, 1))),
                        ("right-then-wrong", header(concat(3, 1), [0x00, 1, 1]))):
        for coding, short in ((SEVEN_CODING, seven_part), (UCS2_CODING, wide_part)):
            wrong = short(front, [0x7F])
            if name == "longer-by-one":         # 9 octets of header, and one less in the part
                wrong = Part(len(front) + 2, front + [0x70, 0]) if coding == UCS2_CODING else Part(9, front + [0x70, 0])
            for at in (1, 2, 3) if coding == SEVEN_CODING else (3,):
                parts = changed(short_parts(coding, 3, [1, 2, 3]), at - 1, wrong)
                not_joined("damaged-%02X-%s-%d" % (coding, name, at), coding, parts, 12)
            not_joined("damaged-%02X-%s" % (coding, name), coding, [wrong], 12)
    print("\n# A part without octets has no header.")
    for coding in (SEVEN_CODING, UCS2_CODING):
        not_joined("hollow-%02X" % coding, coding, [Part(0, [])], 12)
        for at in (1, 2):
            parts = changed(short_parts(coding, 2, [1, 2]), at - 1, Part(0, []))
            not_joined("hollow-%02X-%d" % (coding, at), coding, parts, 12)
        not_joined("hollow-%02X-more" % coding, coding, short_parts(coding, 2, [1, 2]) + [Part(0, [])], 12)
        not_joined("hollow-%02X-only" % coding, coding, [Part(0, [])] * 3, 12)
    print("\n# UCS2 that is odd behind a header, in any of three parts; two odd parts are even together.")
    for at in (1, 2, 3):
        odd = wide_part(header(concat(3, at)), [HAN], [0x4E])
        not_joined("odd-%d" % at, UCS2_CODING, changed(short_parts(UCS2_CODING, 3, [1, 2, 3]), at - 1, odd), 4)
        odd = wide_part(header_of_length(9, at)[0], [], [0x4E])
        not_joined("odd-long-%d" % at, UCS2_CODING, changed(short_parts(UCS2_CODING, 3, [1, 2, 3]), at - 1, odd), 4)
    not_joined("odd-both", UCS2_CODING, [wide_part(header(concat(2, at)), [], [0x4E]) for at in (1, 2)], 4)
    print("\n# Odd octets in all are no matter: headers of 6 and of 9 octets.")
    parts = [wide_part(header(concat(2, 1)), [HAN]), wide_part(header(concat(2, 2), unknown(3)), [HAN])]
    joined("odd-headers", UCS2_CODING, parts, [HAN, HAN])


# ---------------------------------------------------------------------------------------------------------------------
# Refusals and their pairs

PAIRS = {}


def refusal_label(call, numbers):
    """parts-pair-CALL-EARLIER-LATER or parts-alone-CALL-NUMBER, and a number for each further one."""
    name = "parts-%s-%s-%s" % ("pair" if len(numbers) == 2 else "alone", call, "-".join(map(str, numbers)))
    PAIRS[name] = PAIRS.get(name, 0) + 1
    return name if PAIRS[name] == 1 else "%s-%d" % (name, PAIRS[name])


def reading_refusals():
    def pair(earlier, later, coding, part, room=200, mark=1):
        refused(refusal_label("read" if mark else "unmarked", [earlier, later]), "read-part",
                {"coding": coding, "count": part.count, "mark": mark, "octets": part.octets, "room": room}, earlier)

    front = header(concat(2, 1))
    good, wide_good = seven_part(front, letters(9)), wide_part(front, signs(9))
    long, wide_long = seven_part(front, letters(154)), wide_part(front, signs(68))
    wrong_fronts = ([5, 0x00, 2, 7, 2, 1], [255, 0x00, 3, 7, 2, 1], [5, 0x70, 9, 7, 2, 1], [6, *concat(2, 1), 0x00])
    print("\n# Pairs of reading a part: 1, 2, 4 (octets and count), 12, 4 (odd behind the header), 7.")
    for number, seven_codes, wide_codes in ((1, (0x20, 0x70), (0x28, 0x78)), (2, (0x04, 0xF4), ())):
        for coding in seven_codes:
            pair(number, 4, coding, good._replace(count=19))
            pair(number, 4, coding, long)
            for wrong in wrong_fronts[:2]:
                pair(number, 12, coding, seven_part(wrong, letters(9)))
            pair(number, 12, coding, Part(0, []))
            pair(number, 7, coding, good, 0)
        for coding in wide_codes:
            pair(number, 4, coding, wide_long)
            pair(number, 4, coding, wide_part(front, signs(3), [0x4E]))
            pair(number, 12, coding, wide_part(wrong_fronts[0], signs(9)))
            pair(number, 7, coding, wide_good, 0)
    for coding in (0x24, 0x37, 0x65):
        pair(1, 2, coding, good)
    for wrong in wrong_fronts:
        part, wide_wrong = seven_part(wrong, letters(9)), wide_part(wrong, signs(3))
        pair(4, 12, SEVEN_CODING, seven_part(wrong, letters(154)))
        pair(4, 12, SEVEN_CODING, part._replace(octets=part.octets[:-1]))
        pair(4, 12, UCS2_CODING, wide_part(wrong, signs(68)))
        pair(4, 12, UCS2_CODING, wide_wrong._replace(count=wide_wrong.count + 1))
        pair(12, 7, SEVEN_CODING, seven_part(wrong, letters(9)), 0)
        pair(12, 7, UCS2_CODING, wide_part(wrong, signs(9)), 0)
    for count in (1, 2, 4294967295):
        pair(4, 12, SEVEN_CODING, Part(count, []))
        pair(4, 12, UCS2_CODING, Part(count, []))
    for part in (good._replace(count=19), long, Part(16, good.octets + [0])):
        pair(4, 7, SEVEN_CODING, part, 0)
    for part in (wide_good._replace(count=25), wide_long, wide_part(front, [], [0x4E]), wide_part(front, signs(9), [0x4E])):
        pair(4, 7, UCS2_CODING, part, 0)
    for wrong in (wrong_fronts[0], wrong_fronts[2], wrong_fronts[3], [4, 0x00, 2, 7, 2], [1, 0x00]):
        for n in (0, 3):
            pair(12, 4, UCS2_CODING, wide_part(wrong, signs(n), [0x4E]))
    for wrong in (header(element(0x00, [1, 1])), header(element(0x00, [1] * 4)), [1, 0x70]):
        pair(12, 7, SEVEN_CODING, seven_part(wrong, [A]), 0)
    print("\n# Pairs without the mark: 1, 2, 4, 7. There is no 12.")
    for number, codes in ((1, (0x20, 0x3B, 0x68)), (2, (0x04, 0xF7))):
        for coding in codes:
            pair(number, 4, coding, Part(9, [0] * 7), mark=0)
            pair(number, 7, coding, Part(8, [0] * 7), 0, mark=0)
    pair(1, 2, 0x24, good, mark=0)
    for coding, part in ((SEVEN_CODING, Part(9, [0] * 7)), (SEVEN_CODING, long), (UCS2_CODING, Part(7, [0] * 7)),
                         (UCS2_CODING, Part(142, [0] * 142))):
        pair(4, 7, coding, part, 0, mark=0)
    for wrong in wrong_fronts:
        pair(7, 12, SEVEN_CODING, seven_part(wrong, letters(9)), 0, mark=0)


def writing_refusals():
    over, wide_over = ([A] * 8, 4877), ([HAN] * 2, 8543)      # 39,016 septets, and 17,086 units
    alone = (
        (8, "german", ([A], 1), 0), (8, "reserved", ([A], 161), 0), (8, "ucs2+discard+active+fax", ([A], 71), 0),
        (8, "letter1:65", ([A], 1), 0), (8, "class0+header", ([A], 1), 0),
        (1, "compressed", ([A], 1), 0), (1, "ucs2+compressed", ([A], 71), 0), (1, "compressed+class1", ([], 1), 0),
        (1, "compressed+class0+deletion", ([A], 161), 0), (1, "ucs2+compressed+class3", ([], 9), 0),
        (1, "ucs2+compressed+deletion", (signs(67), 3), 0),
        (2, "8bit", ([A], 1), 0), (2, "8bit+class2", ([A], 161), 0), (2, "8bit+deletion", ([], 1), 0),
        (2, "8bit+class0", (letters(153), 2), 0), (2, "8bit+class3+deletion", ([], 9), 0),
        (6, "class1", ([A, HAN, HAN], 1), 1), (6, "deletion", ([EURO, EURO, 0x60], 9), 2),
        (6, "plain", (letters(160) + [0x1B], 1), 160), (6, "plain", (letters(153) + [0xA0], 2), 153),
        (6, "plain", ([EURO] * 80 + [HAN], 3), 80), (6, "class3", ([0xFFFF], 1), 0),
        (6, "store+active+fax", ([A] * 152 + [EURO, 0xE7], 2), 153), (6, "plain", (letters(3899) + [HAN], 1), 3899),
        (5, "class2", ([EURO], 19508), 0), (5, "plain", ([A], 40960), 0), (5, "ucs2+class0", ([CR], 17086), 0),
        (5, "ucs2", (signs(10), 4096), 0), (5, "discard+inactive+mail", over, 0),
        (5, "ucs2+store+active+other", wide_over, 0))
    pairs = (
        (8, 1, "compressed+german", ([A], 1), 0), (8, 1, "compressed+reserved", ([A], 161), 0),
        (8, 1, "ucs2+compressed+letter2:6E", ([A], 1), 0),
        (8, 2, "wap", ([A], 1), 0), (8, 2, "i1", ([A], 1), 0), (8, 2, "8bit+german", ([A], 161), 0),
        (8, 2, "8bit+class0+header", ([A], 1), 0),
        (8, 6, "user1", ([HAN], 1), 0), (8, 6, "reserved", ([A, HAN], 161), 0), (8, 6, "prefix", ([HAN], 161), 0),
        (8, 5, "german", over, 0), (8, 5, "ucs2+reserved", wide_over, 0), (8, 5, "letter1:65", over, 0),
        (1, 2, "8bit+compressed", ([A], 1), 0), (1, 2, "8bit+compressed+class0", ([A], 161), 0),
        (1, 6, "compressed", ([HAN], 1), 0), (1, 6, "compressed+deletion", ([A, HAN], 161), 0),
        (1, 5, "compressed", over, 0), (1, 5, "ucs2+compressed", wide_over, 0),
        (2, 6, "8bit", ([HAN], 1), 0), (2, 6, "8bit+class3", ([A, HAN], 161), 0), (2, 5, "8bit", over, 0),
        (6, 5, "plain", ([A] * 7 + [HAN], 4878), 7), (6, 5, "class0", ([HAN], 40960), 0),
        (6, 5, "plain", ([EURO, HAN], 20000), 1), (6, 5, "plain", ([EURO] * 3900 + [HAN], 10), 3900))
    names = {"count": "count-parts", "one": "write-part", "write": "write-parts"}

    def each(call, numbers, words, text, position, **more):
        inputs = {"reading": reading(words), "text": text[0], "times": text[1], **more}
        if call != "count":
            inputs["reference"] = REFERENCE
        refused(refusal_label(call, numbers), names[call], inputs, numbers[0], position)

    for call, order, room in (("count", "8, 1, 2, 6, 5", {}), ("one", "8, 1, 2, 6, 5, 10, 7", {"number": 1, "room": 140}),
                              ("write", "8, 1, 2, 6, 5, 7", {"room": 4096, "list": 4096})):
        print("\n# Refusals of %s, alone and in pairs: %s." % (
            {"count": "counting parts", "one": "writing one part", "write": "writing all parts"}[call], order))
        for number, words, text, position in alone[::2] if call == "one" else alone:
            each(call, [number], words, text, position, **room)
        for earlier, later, words, text, position in pairs:
            each(call, [earlier, later], words, text, position, **room)

    last = ((8, "german", ([A], 161), 0), (8, "reserved", ([A], 1), 0), (1, "compressed", ([A], 161), 0),
            (1, "ucs2+compressed", ([A], 1), 0), (2, "8bit", ([A], 1), 0), (2, "8bit+class1", ([A], 161), 0),
            (6, "plain", ([A, A, HAN], 1), 2), (6, "plain", (letters(160) + [HAN], 1), 160), (5, "plain", over, 0),
            (5, "ucs2", wide_over, 0))
    for earlier, words, text, position in last:
        each("write", [earlier, 7], words, text, position, room=0, list=4096)
        each("write", [earlier, 7], words, text, position, room=4096, list=0)
        each("one", [earlier, 7], words, text, position, number=1, room=0)
        for number in (0, 256):
            each("one", [earlier, 10], words, text, position, number=number, room=140)
    for words, text in (("plain", ([A], 161)), ("ucs2", ([A], 71)), ("plain", ([], 1)), ("plain", ([A], 39015))):
        for number in (0, 256):
            each("one", [10, 7], words, text, 0, number=number, room=0)
    each("one", [10, 7], "plain", ([A], 160), 0, number=2, room=139)
    each("one", [10, 7], "plain", ([A], 161), 0, number=3, room=13)


def joining_refusals():
    print("\n# Pairs of joining: 1, 2, 4 (counts and octets), 12, 4 (odd behind a header), 10, 7. Each is judged over all")
    print("# parts before the next, so what one part deserves can stand behind what another does.")

    def pair(earlier, later, coding, parts, room=4096, more=()):
        inputs = joining(coding, parts, room)
        refused(refusal_label("join", [earlier, later]), "join-parts", {**inputs, "octets": inputs["octets"] + list(more)},
                earlier)

    def sets(coding):
        """Parts that deserve each refusal, in some place of theirs."""
        short = wide_part if coding == UCS2_CODING else seven_part
        first, second = short_parts(coding, 2, [1, 2])
        wrong = short([5, 0x00, 2, REFERENCE, 2, 1], [A])
        over = short(header(concat(2, 1)), [A] * (68 if coding == UCS2_CODING else 154))
        none = short([0], [A])
        return first, second, wrong, over, none

    seven_set, wide_set = sets(SEVEN_CODING), sets(UCS2_CODING)
    odd = wide_part(header(concat(2, 1)), [A], [0])
    for number, codes in ((1, ((0x20, seven_set), (0x68, wide_set))), (2, ((0x04, seven_set),))):
        for coding, (first, second, wrong, over, none) in codes:
            pair(number, 4, coding, [first, second], more=[0])
            pair(number, 4, coding, [over, second])
            pair(number, 4, coding, [], more=[0])
            pair(number, 12, coding, [wrong, second])
            pair(number, 12, coding, [first, Part(0, [])])
            pair(number, 10, coding, [first])
            pair(number, 10, coding, [first, first])
            pair(number, 10, coding, [none, second])
            pair(number, 10, coding, [])
            pair(number, 7, coding, [first, second], 0)
    for parts in ([odd, wide_set[1]], [wide_set[1], odd]):
        pair(1, 4, 0x28, parts)
    for coding in (0x24, 0x77):
        pair(1, 2, coding, seven_set[:2])
    for coding, (first, second, wrong, over, none) in ((SEVEN_CODING, seven_set), (UCS2_CODING, wide_set)):
        for parts in ([wrong, second], [first, wrong], [first, Part(0, [])]):
            pair(4, 12, coding, parts, more=[0])
        pair(4, 12, coding, [wrong, over])
        pair(4, 12, coding, [over, wrong])
        pair(4, 12, coding, [Part(0, [])], more=[0])
        for parts in ([first], [first, first], [none, second], [second, none]):
            pair(4, 10, coding, parts, more=[0])
            pair(10, 7, coding, parts, 0)
        pair(4, 10, coding, [over])
        pair(4, 10, coding, [none, over])
        pair(4, 10, coding, [], more=[0])
        pair(4, 7, coding, [first, second], 0, more=[0])
        pair(4, 7, coding, [over, second], 0)
        for parts in ([wrong], [wrong, wrong], [none, wrong], [wrong, none], [first, first, wrong], [second, wrong]):
            pair(12, 10, coding, parts)
        for parts in ([wrong, second], [first, wrong], [Part(0, []), first]):
            pair(12, 7, coding, parts, 0)
        pair(10, 7, coding, [], 0)
        pair(10, 7, coding, short_parts(coding, 2, [1]) + short_parts(coding, 2, [2], 0x01), 1)
    first, second, wrong, over, none = wide_set
    lone = wide_part([0], [], [0x4E])
    for parts in ([odd, wrong], [wrong, odd], [odd, second, wrong], [lone, wrong], [odd, Part(0, [])]):
        pair(12, 4, UCS2_CODING, parts)
    pair(12, 4, UCS2_CODING, [wide_part([5, 0x00, 2, REFERENCE, 2, 1], [], [0x4E])])
    for parts in ([odd], [odd, odd], [none, odd], [odd, none], [lone], [first, first, odd], [lone, second]):
        pair(4, 10, UCS2_CODING, parts)
    for parts in ([odd, second], [second, odd]):
        pair(4, 7, UCS2_CODING, parts, 0)


def main():
    PAIRS.clear()
    print(HEADER, end="")
    counts()
    sizes()
    numbers()
    references()
    codings()
    rooms()
    header_lengths()
    header_against_octets()
    small_headers()
    elements()
    known_headers()
    texts_behind()
    part_counts()
    unmarked()
    twins()
    orders()
    many_parts()
    wrong_parts()
    differing_parts()
    joined_headers()
    joined_contents()
    joined_counts()
    joined_damage()
    reading_refusals()
    writing_refusals()
    joining_refusals()


if __name__ == "__main__":
    main()
