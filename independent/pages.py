"""Writes vectors/pages.txt: broadcasts of several pages, W1 of document 02.

    python3 independent/pages.py > vectors/pages.txt

Every answer is stated by rule, with independent/rules.py and the rules of pages below. None comes from the second
implementation.
"""

import itertools
import re
from typing import NamedTuple

from rules import (ALPHABET, BROADCAST_CODINGS, CR, EARLIER_CODINGS, EXTENSION, accepted, bits_of, octets_of, reading,
                   refused, text_held, units)

HEADER = """\
# Broadcasts of several pages, W1 of document 02: written by independent/pages.py. The answer of every line is stated
# there by rule; none comes from the second implementation.
# A pair of refusals is an input that deserves both, and gets the earlier.
"""

A, EURO, HAN, SPACE, ESCAPE = 0x41, 0x20AC, 0x4E2D, 0x20, 0x1B
HUGE = (17, 32, 255, 256, 257, 65536, 65537, 2147483648, 4294967281, 4294967295)


# ---------------------------------------------------------------------------------------------------------------------
# The rules of pages in another form: a header is a string of bits, the text of a whole message is one string of bits or
# of hexadecimal digits, filled up to whole pages and then cut.

def head(sequence, identifier, coding, total, number):
    """The six octets in front of a page, the highest bit of each first."""
    bits = "{:016b}{:016b}{:08b}{:04b}{:04b}".format(sequence, identifier, coding, number, total)
    return [int(bits[at:at + 8], 2) for at in range(0, 48, 8)]


def seven_pages(septets):
    bits = bits_of(septets)
    while bits == "" or len(bits) % 651:
        bits += "1011000"               # CR, its lowest bit first
    return [octets_of(bits[at:at + 651]) for at in range(0, len(bits), 651)]


def wide_pages(text):
    digits = "".join("%04X" % unit for unit in text)
    while digits == "" or len(digits) % 164:
        digits += "000D"
    return [list(bytes.fromhex(digits[at:at + 164])) for at in range(0, len(digits), 164)]


def spelled(characters):
    """The text of septets, each given as the character of its number: an escape takes the one behind it along."""
    text = []
    for escape, behind, alone in re.findall("(\x1b)(.?)|([^\x1b])", characters, re.DOTALL):
        if not escape:
            text.append(ALPHABET[ord(alone)])
        elif behind in ("", "\x1b"):
            text.append(" ")
        else:
            text.append(EXTENSION.get(ord(behind), ALPHABET[ord(behind)]))
    return units(text)


def shown(septets):
    """The text of joined septets: CRs at the end go, then the rest is spelled."""
    return spelled("".join(map(chr, septets)).rstrip("\r"))


def without_end(text):
    """The units without the 000D at the end."""
    words = re.sub("( 000D)*$", "", "".join(" %04X" % unit for unit in text))
    return [int(word, 16) for word in words.split()]


class Message(NamedTuple):
    """A text, its pages of 82 octets, and what stands in front of each."""
    words: str
    coding: int
    text: list
    pages: list
    sequence: int = 0x1234
    identifier: int = 0xABCD

    def given(self):
        return {"sequence": self.sequence, "identifier": self.identifier, "reading": reading(self.words),
                "text": self.text}

    def block(self, number):
        return head(self.sequence, self.identifier, self.coding, len(self.pages), number) + self.pages[number - 1]

    def blocks(self):
        return [self.block(number) for number in range(1, len(self.pages) + 1)]


CODES = {ord(character): [code] for code, character in enumerate(ALPHABET) if code != ESCAPE}
CODES.update({ord(character): [ESCAPE, code] for code, character in EXTENSION.items()})


def septets_of(text):
    return [code for unit in text for code in CODES[unit]]


def seven(text, **header):
    return Message("plain", 0x0F, text, seven_pages(septets_of(text)), **header)


def wide(text, **header):
    return Message("ucs2", 0x48, text, wide_pages(text), **header)


def letters(n):
    """Small letters. No two pages of them are the same."""
    return [0x61 + at % 26 for at in range(n)]


def signs(n):
    """Units that are all different, and not in the alphabet."""
    return [0x4E00 + at for at in range(n)]


def full(septets):
    return septets + [CR] * (93 - len(septets))


def flat(blocks):
    return [octet for block in blocks for octet in block]


# ---------------------------------------------------------------------------------------------------------------------
# Cases of each call

def counted(label, message):
    """Counts the pages of a message, which is refused 5 if it has more than 15."""
    inputs = {"reading": reading(message.words), "text": message.text}
    if len(message.pages) <= 15:
        accepted("pages-count-" + label, "count-pages", inputs, pages=len(message.pages))
    else:
        refused("pages-count-" + label, "count-pages", inputs, 5)


def built(label, message, number):
    inputs = {**message.given(), "number": number}
    label = "pages-build-%s-%d" % (label, number)
    if len(message.pages) > 15:
        refused(label, "build-page", inputs, 5)
    elif 1 <= number <= len(message.pages):
        accepted(label, "build-page", inputs, pages=len(message.pages), block=message.block(number))
    else:
        refused(label, "build-page", inputs, 10)


def written(label, message, room=None):
    """Writes all pages with this room, or exactly what they take."""
    needed = 88 * len(message.pages)
    inputs = {**message.given(), "room": needed if room is None else room}
    if len(message.pages) > 15:
        refused("pages-write-" + label, "write-pages", inputs, 5)
    elif inputs["room"] >= needed:
        accepted("pages-write-" + label, "write-pages", inputs, pages=len(message.pages), out=flat(message.blocks()))
    else:
        refused("pages-write-" + label, "write-pages", inputs, 7)


def joined(label, message, blocks, text, room=None):
    """Joins blocks that are a message's in any order, or that differ from them where that is not looked at."""
    inputs = {"octets": flat(blocks), "room": len(text) if room is None else room}
    if inputs["room"] >= len(text):
        accepted("pages-join-" + label, "join-pages", inputs, reading=reading(message.words), sequence=message.sequence,
                 identifier=message.identifier, pages=len(message.pages), out=text)
    else:
        refused("pages-join-" + label, "join-pages", inputs, 7)


def not_joined(label, octets, number=10, room=1500):
    refused("pages-join-" + label, "join-pages", {"octets": octets, "room": room}, number)


def joined_septets(label, pages, text=None, **header):
    """Joins pages of 93 septets each. The text is what stands here, or else what the rule shows."""
    message = Message("plain", 0x0F, [], [octets_of(bits_of(page)) for page in pages], **header)
    joined(label, message, message.blocks(), shown(sum(pages, [])) if text is None else text)


# ---------------------------------------------------------------------------------------------------------------------
# Headers

def headers():
    print("\n# The header of a block: the octets in turn, each bit alone, each total and number.")

    def read(label, block):
        bits = "".join("{:08b}".format(octet) for octet in block[:6])
        fields = [int(bits[start:end], 2) for start, end in ((0, 16), (16, 32), (32, 40), (44, 48), (40, 44))]
        accepted("pages-header-" + label, "read-header", {"block": block},
                 **dict(zip(("sequence", "identifier", "coding", "total", "number"), fields)))

    for octet in (0x00, 0x55, 0xA5, 0xAA, 0xFF):
        read("all-%02X" % octet, [octet] * 88)
    read("rising", list(range(1, 89)))
    read("falling", list(range(255, 255 - 88, -1)))
    read("text-only", [0] * 6 + [0xFF] * 82)
    read("header-only", [0xFF] * 6 + [0] * 82)
    for at in (6, 7, 86, 87):
        read("octet-%d" % (at + 1), [0] * at + [0xFF] + [0] * (87 - at))
    for place in range(48):
        bits = "0" * place + "1" + "0" * 47
        block = [int(bits[at:at + 8], 2) for at in range(0, 48, 8)]
        read("octet-%d-bit-%d" % (place // 8 + 1, 7 - place % 8), block + [0xA5] * 82)
    for number, total in [(1, total) for total in range(16)] + [(number, 15) for number in range(16) if number != 1]:
        read("page-%d-of-%d" % (number, total), head(0x0102, 0x0304, 0x0F, total, number) + [CR] * 82)
    for number, message in enumerate((seven([]), seven(letters(94)), wide(signs(42))), 1):
        for block in message.blocks():
            read("message-%d-page-%d" % (number, block[5] // 16), block)


# ---------------------------------------------------------------------------------------------------------------------
# Sizes

def stitched():
    """15 full pages, each but the last with an escape at its end."""
    text = letters(92)
    for number in range(14):
        text.append(ord(list(EXTENSION.values())[number % 10]))
        text += letters(91 + (number == 13))
    return text


def seven_texts():
    """Names and texts at the limits, beside the plain letters."""
    for n in (1, 46, 47, 93, 94, 697, 698):
        yield "euro-%d" % n, [EURO] * n
    for pages in (1, 2, 15):
        for n in (93 * pages - 2, 93 * pages - 1, 93 * pages):
            yield "last-euro-%d" % n, letters(n) + [EURO]
        yield "first-euro-%d" % (93 * pages - 1), [EURO] + letters(93 * pages - 1)
    yield "euro-and-letter", [EURO] * 697 + [A]
    yield "letter-and-euro", [A] + [EURO] * 697
    yield "stitched", stitched()
    yield "stitched-and-letter", stitched() + [A]
    for n in (1, 92, 93, 94, 95, 186, 187, 1394, 1395, 1396):
        yield "cr-%d" % n, [CR] * n
    for name, text in (("letters-92-cr-1", letters(92) + [CR]), ("letters-92-cr-2", letters(92) + [CR] * 2),
                       ("letters-93-cr-1", letters(93) + [CR]), ("letters-93-cr-93", letters(93) + [CR] * 93),
                       ("letters-93-cr-94", letters(93) + [CR] * 94), ("letters-90-cr-10", letters(90) + [CR] * 10),
                       ("cr-93-letter", [CR] * 93 + [A]), ("cr-186-letter", [CR] * 186 + [A]),
                       ("letters-92-cr-1-letter", letters(92) + [CR, A]),
                       ("letters-90-cr-6-letter", letters(90) + [CR] * 6 + [A]),
                       ("letters-185-cr-1-letters", letters(185) + [CR] + letters(10)),
                       ("letters-1394-cr-1", letters(1394) + [CR]), ("letters-1395-cr-1", letters(1395) + [CR]),
                       ("euro-46-cr-1", [EURO] * 46 + [CR]), ("euro-46-cr-1-euro", [EURO] * 46 + [CR, EURO])):
        yield name, text
    whole = units(ALPHABET.replace("\x1b", "")) + units(EXTENSION.values())
    yield "alphabet", whole
    yield "alphabet-turned", whole[50:] + whole[:50]
    yield "alphabet-9", whole * 9


def wide_texts():
    for n in (1, 40, 41, 42, 82, 83, 614, 615, 616):
        yield "ucs2-cr-%d" % n, [CR] * n
    for name, text in (("ucs2-40-cr-1", signs(40) + [CR]), ("ucs2-41-cr-1", signs(41) + [CR]),
                       ("ucs2-40-cr-1-sign", signs(40) + [CR, HAN]), ("ucs2-cr-41-sign", [CR] * 41 + [HAN]),
                       ("ucs2-41-cr-41", signs(41) + [CR] * 41), ("ucs2-39-cr-5-sign", signs(39) + [CR] * 5 + [HAN]),
                       ("ucs2-0D00", signs(40) + [0x0D00, 0x0D0D, 0x0D00]), ("ucs2-000D-0D00", [CR] * 41 + [0x0D00]),
                       ("ucs2-surrogates", signs(40) + [0xD83D, 0xDE00, 0xDE00, 0xD83D]),
                       ("ucs2-escape", [0x1B] * 41 + [0x65]), ("ucs2-zero", [0] * 42), ("ucs2-FFFF", [0xFFFF] * 83)):
        yield name, text


def there_and_back(label, message, text):
    """The message counted, all pages written, and joined again."""
    counted(label, message)
    written(label, message)
    if len(message.pages) <= 15:
        joined(label, message, message.blocks(), text)


def sizes():
    print("\n# 7-bit: both sides of a number of pages, in letters.")
    for pages in (0, 1, 2, 3, 7, 8, 14, 15):
        for n in (93 * pages - 1, 93 * pages, 93 * pages + 1):
            if n >= 0:
                counted("%d" % n, seven(letters(n)))
    for n in (1397, 1488, 4000):
        counted("%d" % n, seven(letters(n)))
    print("\n# UCS2: both sides of a number of pages.")
    for pages in (0, 1, 2, 3, 7, 8, 14, 15):
        for n in (41 * pages - 1, 41 * pages, 41 * pages + 1):
            if n >= 0:
                counted("ucs2-%d" % n, wide(signs(n)))
    for n in (617, 656, 4000):
        counted("ucs2-%d" % n, wide(signs(n)))
    print("\n# All calls at the limits, in letters and in UCS2.")
    for n in (0, 1, 92, 93, 94, 185, 186, 187, 279, 1302, 1303, 1394, 1395, 1396):
        message = seven(letters(n))
        written("%d" % n, message)
        built("%d" % n, message, len(message.pages))
        if n <= 1395:
            joined("%d" % n, message, message.blocks(), letters(n))
    for n in (0, 1, 40, 41, 42, 81, 82, 83, 123, 574, 575, 614, 615, 616):
        message = wide(signs(n))
        written("ucs2-%d" % n, message)
        built("ucs2-%d" % n, message, len(message.pages))
        if n <= 615:
            joined("ucs2-%d" % n, message, message.blocks(), signs(n))
    print("\n# Euro signs, two septets each, so that an escape ends a page; CRs; every letter.")
    for name, text in seven_texts():
        there_and_back(name, seven(text), shown(septets_of(text)))
    for name, text, number in (("euro-47", [EURO] * 47, 1), ("euro-47", [EURO] * 47, 2), ("cr-94", [CR] * 94, 2),
                               ("stitched", stitched(), 1), ("stitched", stitched(), 14), ("stitched", stitched(), 15),
                               ("letters-93-cr-1", letters(93) + [CR], 2), ("cr-1396", [CR] * 1396, 1)):
        built(name, seven(text), number)
    print("\n# UCS2 with closing CRs, and with units that only look so; with surrogates, each on a page.")
    for name, text in wide_texts():
        there_and_back(name, wide(text), without_end(text))
    for name, text, number in (("ucs2-cr-42", [CR] * 42, 2), ("ucs2-cr-616", [CR] * 616, 1),
                               ("ucs2-surrogates", signs(40) + [0xD83D, 0xDE00], 1),
                               ("ucs2-surrogates", signs(40) + [0xD83D, 0xDE00], 2)):
        built(name, wide(text), number)


def numbers():
    print("\n# Each page of a message, and numbers that it lacks.")
    every, few = list(range(17)) + list(HUGE), (0, 1, 2, 3, 16)
    for name, message, tried in (("empty", seven([]), few), ("one", seven(letters(93)), every),
                                 ("two", seven(letters(94)), few), ("three", seven(letters(187)), every),
                                 ("ucs2-one", wide(signs(41)), few),
                                 ("ucs2-two", wide(signs(42)), few), ("fifteen", seven(letters(1395)), range(18)),
                                 ("ucs2-fifteen", wide(signs(575)), range(18))):
        for number in tried:
            built("number-" + name, message, number)


def fields():
    print("\n# Sequence numbers and message identifiers.")
    values = (1, 255, 256, 0x8000, 0xFFFF)
    for sequence, identifier in [(0, 0)] + [(value, 0) for value in values] + [(0, value) for value in values] + [
            (0x0102, 0x0304), (0xFEDC, 0xBA98)]:
        label = "field-%d-%d" % (sequence, identifier)
        message = seven([A], sequence=sequence, identifier=identifier)
        built(label, message, 1)
        joined(label, message, message.blocks(), [A])
    message = seven(letters(187), sequence=0xFFFF, identifier=0xFFFF)
    written("field-three-pages", message)
    joined("field-three-pages", message, message.blocks(), letters(187))


# ---------------------------------------------------------------------------------------------------------------------
# Data codings

def codings():
    earlier = EARLIER_CODINGS["broadcast"]
    print("\n# Every reading that a broadcast octet had before W3: the smallest octet is written.")
    for words in sorted(set(earlier)):
        held = text_held(words)
        number = 8 if words == "reserved" else held
        coding = BROADCAST_CODINGS.index(words)
        pages = wide_pages([A, A]) if held == "ucs2" else seven_pages([A, A])
        message = Message(words, coding, [A, A], pages)
        label = "reading-" + words.replace("+", "-")
        if number in ("7bit", "ucs2"):
            built(label, message, 1)
            if coding >= 0x40:
                written(label, message)
        else:
            refused("pages-build-%s-1" % label, "build-page", {**message.given(), "number": 1}, number)
            refused("pages-count-" + label, "count-pages", {"reading": reading(words), "text": [A, A]}, number)
    print("\n# Readings that no broadcast octet has.")
    for words in ("deletion", "ucs2+deletion", "store+active+fax", "ucs2+store+inactive+other", "discard+active+mail",
                  "class0+german", "ucs2+english", "ucs2+user1", "user1+german", "wap+class1", "wap+compressed",
                  "prefix+reserved", "class0+reserved", "ucs2+reserved", "czech+prefix"):
        refused("pages-count-reading-" + words.replace("+", "-"), "count-pages",
                {"reading": reading(words), "text": [A, A]}, 8)
    print("\n# The last octet of every reading, and the first of each run of reserved ones, as they were before W3, on one")
    print("# page that fits both 7-bit text and UCS2.")
    page = seven_pages([A, A])[0]
    page_units = [256 * high + low for high, low in zip(page[::2], page[1::2])]
    first = {octet for octet in range(1, 256) if earlier[octet - 1] != earlier[octet] == "reserved"}
    last = {words: octet for octet, words in enumerate(earlier)}
    for octet in sorted(first | set(last.values())):
        words = BROADCAST_CODINGS[octet]
        held = text_held(words)
        message = Message(words, octet, [], [page])
        if held in ("7bit", "ucs2"):
            joined("dcs-%02X" % octet, message, message.blocks(), [A, A] if held == "7bit" else page_units)
        else:
            not_joined("dcs-%02X" % octet, flat(message.blocks()), held)
    print("\n# Some on two pages.")
    for octet in (0x20, 0x3F, 0x40, 0x5B, 0xF1, 0xFF):
        words = BROADCAST_CODINGS[octet]
        text = signs(42) if "ucs2" in words else letters(94)
        pages = wide_pages(text) if "ucs2" in words else seven_pages(text)
        message = Message(words, octet, text, pages)
        joined("dcs-two-%02X" % octet, message, message.blocks()[::-1], text)


# ---------------------------------------------------------------------------------------------------------------------
# Rooms

def rooms():
    print("\n# Rooms: exact, one short, a page short, none, larger.")
    for name, message, text in (("empty", seven([]), []), ("two", seven(letters(94)), letters(94)),
                                ("three", seven([EURO] * 100), [EURO] * 100), ("ucs2-two", wide(signs(42)), signs(42)),
                                ("fifteen", seven(letters(1395)), letters(1395)),
                                ("ucs2-fifteen", wide(signs(615)), signs(615))):
        needed = 88 * len(message.pages)
        for room in sorted({0, 87, needed - 88, needed - 1, needed, needed + 1, 4096}):
            written("room-%s-%d" % (name, room), message, room)
        needed = len(text)
        for room in sorted({0, max(0, needed - 1), max(0, needed - 41), needed, needed + 1, 4096}):
            joined("room-%s-%d" % (name, room), message, message.blocks(), text, room)
    print("\n# A room is held against the text: dropped CRs do not count, and an escape and its code count once.")
    for name, text in (("cr", letters(92) + [CR] * 94), ("euro", [EURO] * 93), ("all-cr", [CR] * 186),
                       ("inner-cr", letters(90) + [CR] * 20 + [A])):
        message, kept = seven(text), shown(septets_of(text))
        for room in sorted({max(0, len(kept) - 1), len(kept), len(kept) + 1}):
            joined("room-%s-%d" % (name, room), message, message.blocks(), kept, room)
    kept = signs(41)
    message = wide(kept + [CR] * 5)
    for room in (40, 41, 42):
        joined("room-ucs2-cr-%d" % room, message, message.blocks(), kept, room)


# ---------------------------------------------------------------------------------------------------------------------
# Joining: orders, closing CRs, escapes, spare bits

def orders():
    print("\n# Blocks in any order: two, three, and fifteen pages.")
    for name, message, text in (("two", seven(letters(150)), letters(150)), ("ucs2-two", wide(signs(60)), signs(60)),
                                ("three", seven(letters(200)), letters(200)),
                                ("ucs2-three", wide(signs(100)), signs(100))):
        for order in itertools.permutations(range(1, len(message.pages) + 1)):
            joined("order-%s-%s" % (name, "".join(map(str, order))), message, map(message.block, order), text)
    rotated = [5, 6, 7, 8, 9, 10, 11, 12, 13, 14, 15, 1, 2, 3, 4]
    swapped = [15] + list(range(2, 15)) + [1]
    for name, message, text in (("fifteen", seven(letters(1390)), letters(1390)),
                                ("ucs2-fifteen", wide(signs(600)), signs(600))):
        for label, order in [("times-%d" % factor, [factor * at % 16 for at in range(1, 16)]) for factor in (3, 7, 13)] + [
                                 ("back", range(15, 0, -1)), ("rotated", rotated), ("swapped", swapped)]:
            joined("order-%s-%s" % (name, label), message, map(message.block, order), text)


def closings():
    print("\n# Closing CRs are dropped once, over any number of pages. CRs in front of more text stay.")
    for name, pages in (
            ("all-1", [full([])]), ("all-2", [full([])] * 2), ("all-3", [full([])] * 3), ("all-15", [full([])] * 15),
            ("last", [letters(93), full([])]), ("last-two", [letters(93), full([]), full([])]),
            ("over", [full(letters(80)), full([])]), ("over-two", [full(letters(80)), full([]), full([])]),
            ("middle", [letters(93), full([]), full([A])]), ("middle-short", [full(letters(80)), full([]), full([A])]),
            ("first", [full([]), full([A])]), ("first-two", [full([]), full([]), full([A])]),
            ("short", [full([A]), full([A])]), ("short-three", [full([A]), full([A, A]), full([A, A, A])]),
            ("one-cr", [letters(92) + [CR], full([A])]), ("one-cr-last", [letters(92) + [CR], full([])]),
            ("leading-cr", [letters(93), full([CR, A])]), ("both-cr", [letters(92) + [CR], full([CR, A])]),
            ("full-last", [letters(93), letters(92) + [CR]]), ("zero", [letters(93), full([0])]),
            ("zeros", [[0] * 93, [0] * 93]), ("all-but-last", [full([])] * 14 + [letters(93)]),
            ("only-first", [letters(93)] + [full([])] * 14), ("only-eighth", [full([])] * 7 + [[A] * 93] + [full([])] * 7)):
        joined_septets("close-" + name, pages)
    fill = [CR] * 41
    for name, pages in (
            ("all-1", [fill]), ("all-2", [fill] * 2), ("all-15", [fill] * 15), ("last", [signs(41), fill]),
            ("over", [signs(30) + [CR] * 11, fill]), ("middle", [signs(41), fill, [HAN] + [CR] * 40]),
            ("first", [fill, [HAN] + [CR] * 40]), ("short", [[HAN] + [CR] * 40] * 2),
            ("one-cr", [signs(40) + [CR], [HAN] + [CR] * 40]), ("0D00", [signs(41), [0x0D00] * 41]),
            ("0D0D", [signs(41), [0x0D0D] + [CR] * 40]), ("leading-cr", [signs(41), [CR, HAN] + [CR] * 39])):
        message = Message("ucs2", 0x48, [], [wide_pages(page)[0] for page in pages])
        joined("close-ucs2-" + name, message, message.blocks(), without_end(sum(pages, [])))


def escapes():
    print("\n# An escape ends a page, and its code is on the next.")
    front = letters(92)
    for code in sorted(set(EXTENSION) | {0x00, 0x0D, 0x11, 0x1B, 0x20, 0x24, 0x41, 0x5B, 0x61, 0x7F}):
        main = SPACE if code == ESCAPE else ord(ALPHABET[code])
        behind = ord(EXTENSION[code]) if code in EXTENSION else main
        joined_septets("escape-%02X" % code, [front + [ESCAPE], full([code, A])], front + [behind, A])
    print("\n# Escapes around the end of a page and of the text.")
    for name, pages, text in (
            ("end", [letters(93), front + [ESCAPE]], letters(93) + front + [SPACE]),
            ("end-one", [front + [ESCAPE]], front + [SPACE]),
            ("end-doubled", [front[:-1] + [ESCAPE] * 2], front[:-1] + [SPACE]),
            ("end-tripled", [letters(90) + [ESCAPE] * 3], letters(90) + [SPACE] * 2),
            ("filling", [letters(93), full([ESCAPE])], letters(93) + [SPACE]),
            ("filling-one", [full([A, ESCAPE])], [A, SPACE]),
            ("filling-doubled", [letters(93), full([ESCAPE] * 2)], letters(93) + [SPACE]),
            ("filling-code", [letters(93), full([ESCAPE, 0x65])], letters(93) + [EURO]),
            ("filling-page", [front + [ESCAPE], full([])], front + [SPACE]),
            ("filling-pages", [front + [ESCAPE], full([]), full([])], front + [SPACE]),
            ("cr-page", [front + [ESCAPE], full([]), full([A])], front + [CR] * 93 + [A]),
            ("cr-letter", [front + [ESCAPE], full([CR, CR, A])], front + [CR, CR, A]),
            ("doubled", [front + [ESCAPE], full([ESCAPE, 0x65])], front + [SPACE, 0x65]),
            ("tripled", [front + [ESCAPE], full([ESCAPE, ESCAPE, 0x65])], front + [SPACE, EURO]),
            ("doubled-before", [front[:-1] + [ESCAPE] * 2, full([0x65])], front[:-1] + [SPACE, 0x65]),
            ("tripled-before", [letters(90) + [ESCAPE] * 3, full([0x65])], letters(90) + [SPACE, EURO]),
            ("two-ends", [front + [ESCAPE], [0x65] + letters(91) + [ESCAPE], full([0x65])],
             front + [EURO] + letters(91) + [EURO]),
            ("page-of-escapes", [[ESCAPE] * 93, full([0x65])], [SPACE] * 46 + [EURO]),
            ("pages-of-escapes", [[ESCAPE] * 93, [ESCAPE] * 93], [SPACE] * 93),
            ("three-of-escapes", [[ESCAPE] * 93] * 3, [SPACE] * 140),
            ("cr-then-escape", [letters(92) + [CR], full([ESCAPE])], letters(92) + [CR, SPACE]),
            ("short-page", [full([ESCAPE]), full([0x65])], [CR] * 92 + [0x65]),
            ("before-filled-page", [full([A, ESCAPE]), full([])], [A, SPACE])):
        joined_septets("escape-" + name, pages, text)
    print("\n# The same out of order: the page of the code comes first.")
    message = seven(front + [EURO, A])
    joined("escape-back", message, message.blocks()[::-1], front + [EURO, A])
    message = seven(stitched())
    joined("escape-stitched-back", message, message.blocks()[::-1], stitched())
    print("\n# A reserved coding is read as 7-bit text. DF was reserved before W3, and is 2.")
    for octet in (0x1F, 0x80, 0xDF, 0xF8):
        message = Message("reserved", octet, [], seven(front + [EURO, A]).pages)
        if octet == 0xDF:
            not_joined("escape-reserved-DF", flat(message.blocks()), 2, len(front) + 2)
        else:
            joined("escape-reserved-%02X" % octet, message, message.blocks(), front + [EURO, A])


def changed(block, at, octet):
    return block[:at] + [octet] + block[at + 1:]


def spare_bits():
    print("\n# Spare bits of a page's last octet are ignored.")
    message = seven(letters(94))
    first, second = message.blocks()
    for bit in range(3, 8):
        mask = 1 << bit
        joined("spare-first-%d" % bit, message, [changed(first, 87, first[87] | mask), second], letters(94))
        joined("spare-second-%d" % bit, message, [first, changed(second, 87, second[87] | mask)], letters(94))
    for name, (first_mask, second_mask) in (("first-all", (0xF8, 0)), ("second-all", (0, 0xF8)), ("both", (0xF8, 0xF8))):
        blocks = [changed(first, 87, first[87] | first_mask), changed(second, 87, second[87] | second_mask)]
        joined("spare-" + name, message, blocks, letters(94))
        joined("spare-back-" + name, message, blocks[::-1], letters(94))
    message = seven(letters(1395))
    joined("spare-fifteen", message, [changed(block, 87, block[87] | 0xF8) for block in message.blocks()], letters(1395))
    print("\n# UCS2 has no spare bits: the last octet is the last unit's.")
    message = wide(signs(82))
    first, second = message.blocks()
    joined("spare-ucs2", message, [changed(first, 87, 0xF8), changed(second, 87, 0x0D)],
           signs(40) + [0x4EF8] + signs(82)[41:81] + [0x4E0D])
    message = wide(signs(42))
    first, second = message.blocks()
    joined("spare-ucs2-filling", message, [first, changed(second, 87, 0x0C)], signs(42) + [CR] * 39 + [0x000C])


# ---------------------------------------------------------------------------------------------------------------------
# Joining: what is refused

def lengths():
    print("\n# Lengths that are no multiple of 88.")
    sixteen = flat(seven(letters(1395)).blocks()) + seven([A]).block(1) + [0]
    for m in (1, 6, 44, 82, 86, 93, 132, 164):
        not_joined("length-%d" % m, sixteen[:m], 4)
    for pages in range(1, 17):
        not_joined("length-%d" % (88 * pages - 1), sixteen[:88 * pages - 1], 4)
        not_joined("length-%d" % (88 * pages + 1), sixteen[:88 * pages + 1], 4)
    one, two = flat(seven([A]).blocks()), flat(seven(letters(94)).blocks())
    for name, octets in (("one-and-octet", one + [0]), ("octet-and-one", [0] + one), ("one-less-octet", one[:-1]),
                         ("two-and-octet", two + [0]), ("two-less-octet", two[:-1]), ("two-less-first", two[1:]),
                         ("two-less-page", two[:88 + 6]), ("two-and-six", two + two[:6]), ("two-and-82", two + two[:82])):
        not_joined("length-" + name, octets, 4)
    not_joined("length-8000", [0x11] * 8000, 4)
    print("\n# No block is a page missing.")
    for room in (0, 1, 93, 4096):
        not_joined("none-%d" % room, [], 10, room)


def wrong_pages():
    print("\n# Pages that are missing, repeated, numbered 0 or above the total; total 0; more than 15 blocks.")

    def blocks(total, given, coding=0x0F):
        """Blocks of these numbers and this total, with one header and a text for each number."""
        return flat(head(7, 9, coding, total, number) + seven_pages(letters(93)[number:])[0] for number in given)

    def to(last):
        return list(range(1, last + 1))

    for kind, total, given in (
            ("missing", 2, [1]), ("missing", 2, [2]), ("missing", 3, [1, 2]), ("missing", 3, [1, 3]),
            ("missing", 3, [2, 3]), ("missing", 3, [1]), ("missing", 3, [2]), ("missing", 3, [3]), ("missing", 15, [1]),
            ("missing", 15, [15]), ("missing", 15, [15, 1]), ("missing", 15, [8]),
            ("repeated", 1, [1, 1]), ("repeated", 1, [1, 1, 1]), ("repeated", 2, [1, 1]), ("repeated", 2, [2, 2]),
            ("repeated", 2, [1, 1, 2]), ("repeated", 2, [1, 2, 1]), ("repeated", 2, [1, 2, 2]), ("repeated", 2, [2, 1, 2]),
            ("repeated", 2, [1, 2, 1, 2]), ("repeated", 3, [1, 1, 3]), ("repeated", 3, [1, 2, 2]),
            ("repeated", 3, [3, 2, 2]), ("repeated", 3, [1, 2, 3, 3]), ("repeated", 3, [1, 1, 1]),
            ("zero", 1, [0]), ("zero", 1, [0, 1]), ("zero", 1, [1, 0]), ("zero", 2, [0, 1]), ("zero", 2, [0, 2]),
            ("zero", 2, [1, 0]), ("zero", 2, [0, 1, 2]), ("zero", 2, [1, 2, 0]), ("zero", 3, [0, 1, 2]),
            ("zero", 15, list(range(15))), ("zero", 15, list(range(16))),
            ("above", 1, [2]), ("above", 1, [15]), ("above", 1, [1, 2]), ("above", 1, [2, 1]), ("above", 2, [1, 3]),
            ("above", 2, [2, 3]), ("above", 2, [3, 1]), ("above", 2, [1, 2, 3]), ("above", 2, [3, 2, 1]),
            ("above", 3, [1, 2, 4]), ("above", 3, [1, 2, 15]), ("above", 14, to(15)), ("above", 14, to(13) + [15]),
            ("total-0", 0, [0]), ("total-0", 0, [1]), ("total-0", 0, [15]), ("total-0", 0, [1, 2]), ("total-0", 0, [0, 1]),
            ("total-0", 0, to(15)), ("total-0", 0, list(range(16))),
            ("sixteen", 15, to(15) + [1]), ("sixteen", 15, to(15) + [15]),
            ("sixteen", 15, to(15) + [0]), ("sixteen", 15, [8] * 16),
            ("seventeen", 15, to(15) + [1, 2]), ("seventeen", 1, [1] * 17), ("thirty", 15, to(15) * 2),
            ("ninety", 15, to(15) * 6)):
        if len(given) <= 4:
            name = "-".join(map(str, given))
        else:
            name = "%d-blocks-%d-to-%d" % (len(given), given[0], given[-1])
        not_joined("%s-%s-of-%d" % (kind, name, total), blocks(total, given))
    for lacking in (1, 2, 8, 14, 15):
        given = [number for number in to(15) if number != lacking]
        not_joined("missing-only-%d-of-15" % lacking, blocks(15, given))
        not_joined("repeated-for-%d-of-15" % lacking, blocks(15, given + [lacking % 15 + 1]))
    print("\n# The same in UCS2.")
    for kind, total, given in (("missing", 2, [1]), ("missing", 3, [3, 1]), ("repeated", 1, [1, 1]),
                               ("repeated", 2, [1, 2, 2]), ("zero", 1, [0]), ("zero", 2, [0, 1]), ("above", 1, [2]),
                               ("above", 2, [1, 3]), ("total-0", 0, [0]), ("sixteen", 15, to(15) + [15])):
        not_joined("ucs2-%s-%d-of-%d" % (kind, len(given), total), blocks(total, given, 0x48))


def differing_headers():
    print("\n# Headers that differ in one bit, in the first or in a later block.")
    message = seven(letters(94))
    first, second = message.blocks()
    for place in range(40):
        at, bit = place // 8, 7 - place % 8
        if at < 4 and bit in (0, 7):
            not_joined("differ-first-octet-%d-bit-%d" % (at + 1, bit),
                       changed(first, at, first[at] ^ 1 << bit) + second)
        not_joined("differ-second-octet-%d-bit-%d" % (at + 1, bit), first + changed(second, at, second[at] ^ 1 << bit))
    print("\n# Headers that differ in the last of three and of fifteen blocks, or in one in the middle.")
    for name, message in (("three", seven(letters(200))), ("ucs2-fifteen", wide(signs(600)))):
        blocks = message.blocks()
        for at in range(5):
            for where in (1, 2) if len(blocks) == 3 else (14,):
                not_joined("differ-%s-block-%d-octet-%d" % (name, where + 1, at + 1), flat(
                    blocks[:where] + [changed(blocks[where], at, blocks[where][at] ^ 1)] + blocks[where + 1:]))
    print("\n# Headers with the halves of a pair, or the pairs, changed over; with the same sum of octets.")
    message = seven(letters(94), sequence=0x0102, identifier=0x0304)
    first, second = message.blocks()
    for name, octets in (("halves", [2, 1, 3, 4]), ("halves-identifier", [1, 2, 4, 3]), ("pairs", [3, 4, 1, 2]),
                         ("sum", [2, 2, 2, 4]), ("carry", [1, 1, 4, 4])):
        not_joined("differ-" + name, first + octets + second[4:])
        not_joined("differ-back-" + name, octets + second[4:] + first)
    print("\n# Data codings that differ and read the same, and those that read otherwise: the first block decides 1 to 3.")
    for coding, others in ((0x0F, (0x40, 0x41, 0x43, 0xF0, 0x00, 0x48, 0x60, 0x64, 0x44, 0xE0, 0x10, 0x11)),
                           (0x40, (0x0F, 0x41)), (0xF0, (0x0F,)), (0x48, (0x49, 0x4B, 0x0F, 0x11, 0x68)),
                           (0x80, (0x81, 0xFF)), (0x53, (0xF3,))):
        message = Message(BROADCAST_CODINGS[coding], coding, [], seven_pages(letters(94)))
        first, second = message.blocks()
        for octet in others:
            not_joined("differ-coding-%02X-%02X" % (coding, octet), first + changed(second, 4, octet))
    for octet, number in ((0x60, 1), (0x64, 1), (0x44, 2), (0xE0, 2), (0x10, 3), (0x11, 3)):
        message = seven(letters(94))
        first, second = message.blocks()
        not_joined("differ-coding-%02X-0F" % octet, changed(first, 4, octet) + second, number)
    print("\n# Totals that differ.")
    for name, message in (("two", seven(letters(94))), ("ucs2-two", wide(signs(42)))):
        first, second = message.blocks()
        for total in (0, 1, 3, 10):
            not_joined("differ-total-%s-2-%d" % (name, total), first + changed(second, 5, 0x20 + total))
            not_joined("differ-total-%s-%d-2" % (name, total), changed(first, 5, 0x10 + total) + second)
    blocks = seven(letters(200)).blocks()
    for total in (2, 4):
        not_joined("differ-total-three-last-%d" % total, flat(blocks[:2] + [changed(blocks[2], 5, 0x30 + total)]))
        not_joined("differ-total-three-middle-%d" % total, flat([blocks[0], changed(blocks[1], 5, 0x20 + total), blocks[2]]))
        not_joined("differ-total-three-back-%d" % total, flat([changed(blocks[2], 5, 0x30 + total)] + blocks[:2]))
    print("\n# Halves of the page parameter changed over: page 1 of 2 becomes page 2 of 1, which no message has.")
    for name, message in (("two", seven(letters(94))), ("three", seven(letters(187)))):
        not_joined("differ-halves-" + name, flat(changed(block, 5, 16 * (block[5] % 16) + block[5] // 16)
                                                 for block in message.blocks()))
    print("\n# What is equal in all blocks can be anything.")
    for name, sequence, identifier in (("zero", 0, 0), ("ones", 0xFFFF, 0xFFFF), ("same", 0x0F0F, 0x0F0F)):
        message = seven(letters(187), sequence=sequence, identifier=identifier)
        joined("alike-" + name, message, message.blocks(), letters(187))


# ---------------------------------------------------------------------------------------------------------------------
# Refusals and their pairs

PAIRS = {}


def refusal_label(call, numbers):
    """pages-pair-CALL-EARLIER-LATER or pages-alone-CALL-NUMBER, and a number for each further one."""
    name = "pages-%s-%s-%s" % ("pair" if len(numbers) == 2 else "alone", call, "-".join(map(str, numbers)))
    PAIRS[name] = PAIRS.get(name, 0) + 1
    return name if PAIRS[name] == 1 else "%s-%d" % (name, PAIRS[name])


def writing_refusals():
    over, wide_over = [A] * 1396, [A] * 616
    alone = (
        (8, "deletion", [A], 0), (8, "reserved", [A], 0), (8, "ucs2+discard+active+fax", [A], 0),
        (1, "compressed", [A], 0), (1, "ucs2+compressed", [A], 0), (1, "compressed+class1", [], 0),
        (1, "ucs2+compressed+class2", [CR] * 42, 0),
        (2, "8bit+class2", [A], 0), (2, "8bit+user1", [], 0), (2, "wap", [A], 0),
        (3, "prefix", [A], 0), (3, "prefix", [], 0), (3, "prefix", letters(94), 0), (3, "ucs2+prefix", [A], 0),
        (3, "ucs2+prefix", [], 0), (3, "ucs2+prefix", [CR], 0), (3, "ucs2+prefix", [HAN] * 42, 0),
        (6, "german", [A, HAN, HAN], 1), (6, "class1", [EURO, EURO, 0x60], 2), (6, "plain", [EURO] * 47 + [0x1B], 47),
        (6, "plain", letters(185) + [0xA0], 185), (6, "plain", letters(1394) + [HAN], 1394),
        (5, "user1", [EURO] * 698, 0), (5, "ucs2+class0", [CR] * 616, 0), (5, "ucs2", signs(617), 0))
    pairs = (
        (8, 1, "compressed+deletion", [A], 0), (8, 1, "compressed+reserved", [A], 0),
        (8, 2, "wap+class1", [A], 0), (8, 2, "8bit+german", [A], 0),
        (8, 3, "english+prefix", [A], 0), (8, 3, "ucs2+prefix+reserved", [A], 0),
        (8, 6, "deletion", [HAN], 0), (8, 6, "reserved", [A, HAN], 0),
        (8, 5, "deletion", over, 0), (8, 5, "ucs2+reserved", wide_over, 0),
        (1, 2, "8bit+compressed", [A], 0), (1, 2, "8bit+compressed+class0", [A], 0),
        (1, 6, "compressed", [HAN], 0), (1, 5, "compressed", over, 0), (1, 5, "ucs2+compressed", wide_over, 0),
        (2, 6, "8bit", [HAN], 0), (2, 6, "wap", [A, HAN], 0), (2, 5, "8bit", over, 0), (2, 5, "wap", over, 0),
        (3, 6, "prefix", [HAN], 0), (3, 5, "prefix", over, 0), (3, 5, "ucs2+prefix", wide_over, 0),
        (6, 5, "plain", letters(1395) + [HAN], 1395), (6, 5, "plain", [HAN] + over, 0),
        (6, 5, "german", [EURO] * 698 + [HAN], 698))

    def each(call, numbers, words, text, position, **more):
        inputs = {"reading": reading(words), "text": text, **more}
        if call != "count":
            inputs = {"sequence": 0xFFFF, "identifier": 0x8001, **inputs}
        refused(refusal_label(call, numbers), {"count": "count-pages", "build": "build-page", "write": "write-pages"}[call],
                inputs, numbers[0], position)

    for call, order, room in (("count", "8, 1, 2, 3, 6, 5", {}), ("build", "8, 1, 2, 3, 6, 5, 10", {"number": 1}),
                              ("write", "8, 1, 2, 3, 6, 5, 7", {"room": 4096})):
        print("\n# Refusals of %s, alone and in pairs: %s. W3's are in release9.txt." % (
            {"count": "counting pages", "build": "building a page", "write": "writing all pages"}[call], order))
        for number, words, text, position in alone:
            each(call, [number], words, text, position, **room)
        for earlier, later, words, text, position in pairs:
            each(call, [earlier, later], words, text, position, **room)

    last = ((8, "deletion", [A], 0), (8, "reserved", [A], 0), (1, "compressed", [A], 0), (1, "ucs2+compressed", [A], 0),
            (2, "8bit", [A], 0), (2, "wap", [A], 0), (3, "prefix", [A], 0), (3, "ucs2+prefix", [A], 0),
            (6, "plain", [A, A, HAN], 2), (6, "plain", letters(93) + [HAN], 93), (5, "ucs2", [HAN] * 616, 0))
    for earlier, words, text, position in last + ((5, "plain", over, 0),):
        each("write", [earlier, 7], words, text, position, room=0)
    for earlier, words, text, position in last[8:]:
        each("write", [earlier, 7], words, text, position, room=87)
    each("write", [5, 7], "ucs2", [HAN] * 616, 0, room=1320)
    for number in (0, 16, 4294967295):
        for earlier, words, text, position in last:
            each("build", [earlier, 10], words, text, position, number=number)
    each("build", [5, 10], "plain", over, 0, number=0)
    each("build", [5, 10], "plain", over, 0, number=17)


def joining_refusals():
    print("\n# Pairs of joining: 4 (no multiple of 88), 10 (no block), 1, 2, 3 (the first block), 10, 7. W3's are in")
    print("# release9.txt. Where there is no block, no other refusal is deserved.")
    page = seven_pages([A])[0]

    def block(coding, total, number):
        return head(1, 2, coding, total, number) + page

    # Totals and numbers: missing, repeated, repeated, 0, above the total, total 0, sixteen blocks.
    wrong = ((2, [1]), (1, [1, 1]), (2, [1, 2, 2]), (1, [0]), (1, [2]), (0, [0]), (15, list(range(1, 16)) + [15]))

    def pair(earlier, later, octets, room):
        refused(refusal_label("join", [earlier, later]), "join-pages", {"octets": octets, "room": room}, earlier)

    refusing = ((1, (0x60, 0x68)), (2, (0x44, 0xE0)), (3, (0x10, 0x11)))
    for number, codes in refusing:
        for coding in codes:
            one = block(coding, 1, 1)
            for octets in (one + [0], one[:87]):
                pair(4, number, octets, 93)
            pair(number, 7, one, 0)
            for total, given in wrong if coding == codes[0] else wrong[:2]:
                pair(number, 10, flat(block(coding, total, at) for at in given), 1400)
            for other in ((0x0F, 2, 2), (coding, 3, 2)):
                pair(number, 10, block(coding, 2, 1) + block(*other), 100)
    for coding in (0x64, 0x77):
        pair(1, 2, block(coding, 1, 1), 93)
    for coding in (0x0F, 0x48):
        for total, given in wrong:
            octets = flat(block(coding, total, at) for at in given)
            pair(4, 10, octets + [0], 1400)
            pair(10, 7, octets, 0)
        for octets in (block(coding, 1, 1) + [0], block(coding, 1, 1)[:87], [0x41], [0x41] * 89):
            pair(4, 7, octets, 0)
        for at in range(5):
            pair(10, 7, block(coding, 2, 1) + changed(block(coding, 2, 2), at, 0x4A), 0)
        pair(10, 7, block(coding, 2, 1) + block(coding, 3, 2), 0)


def main():
    PAIRS.clear()
    print(HEADER, end="")
    headers()
    sizes()
    numbers()
    fields()
    codings()
    rooms()
    orders()
    closings()
    escapes()
    spare_bits()
    lengths()
    wrong_pages()
    differing_headers()
    writing_refusals()
    joining_refusals()


if __name__ == "__main__":
    main()
