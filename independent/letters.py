"""Writes vectors/letters.txt: language letters in front of the text, W2 of document 02.

    python3 independent/letters.py > vectors/letters.txt

Every answer is stated by rule, with independent/rules.py, the reading of septets in independent/pages.py and the rules
of letters below. None comes from the second implementation.
"""

from typing import NamedTuple

from pages import CODES, changed, flat, head, septets_of, shown, without_end
from rules import (ALPHABET, BROADCAST_CODINGS, CODINGS, CR, EARLIER_CODINGS, EXTENSION, SMS_CODINGS, accepted, bits_of,
                   octets_of, old_page, packed, reading, refused, text_held, ucs2, units)

HEADER = """\
# Language letters in front of the text, W2 of document 02: written by independent/letters.py. The answer of every line
# is stated there by rule; none comes from the second implementation.
# A pair of refusals is an input that deserves both, and gets the earlier. Most letters are "en".
"""

A, EURO, HAN, SPACE, ESCAPE = 0x41, 0x20AC, 0x4E2D, 0x20, 0x1B
CODING = {"7bit": 0x10, "ucs2": 0x11}
SIZE = {"7bit": 90, "ucs2": 40}  # septets, units
RIGHT = range(ord("a"), ord("z") + 1)

# Values around a to z and far from it. 0 is a letter that is absent.
VALUES = (0x60, 0x61, 0x7A, 0x7B, 0x41, 0x5A, 0x00, 0x01, 0x7F, 0x80, 0xE1, 0xFF)


# ---------------------------------------------------------------------------------------------------------------------
# The rules of letters in another form: a page is one string of bits, or of bits and then of units.

class Letters(NamedTuple):
    """Two values in the place of letters. 0 is absent."""
    first: int
    second: int

    def right(self):
        return self.first in RIGHT and self.second in RIGHT

    def words(self, front):
        """The words of a reading, with the letters behind them."""
        said = [front] * (front != "plain")
        said += ["letter1:%02X" % self.first] * (self.first > 0) + ["letter2:%02X" % self.second] * (self.second > 0)
        return "+".join(said) or "plain"


EN = Letters(ord("e"), ord("n"))
ABSENT = Letters(0, 0)
WRONG = (ABSENT, Letters(0x65, 0), Letters(0, 0x6E), Letters(0x45, 0x6E), Letters(0x65, 0x4E), Letters(0xE5, 0x6E))


def marked(kind):
    return "ucs2+prefix" if kind == "ucs2" else "prefix"


def marked_reading(kind, letters):
    return reading(letters.words(marked(kind)))


def seven_page(letters, septets, third=CR):
    return packed("broadcast", [letters.first, letters.second, third] + septets)


def wide_page(letters, text, spare="00"):
    return octets_of(bits_of(letters) + spare) + ucs2(text + [CR] * (40 - len(text)))


def page_of(kind, letters, text):
    return wide_page(letters, text) if kind == "ucs2" else seven_page(letters, septets_of(text))


def kept(kind, text):
    """The text without its closing CRs."""
    return without_end(text) if kind == "ucs2" else shown(septets_of(text))


def size_of(kind, text):
    return len(text) if kind == "ucs2" else len(septets_of(text))


# ---------------------------------------------------------------------------------------------------------------------
# Cases of the whole writer and the whole reader

def written(label, kind, text, letters=EN, room=82):
    """Writes a text of listed units: 11, 5 or 7 if it deserves one of them alone, else its page."""
    inputs = {"service": "broadcast", "reading": marked_reading(kind, letters), "text": text, "room": room}
    if not letters.right():
        refused("letters-write-" + label, "write-message", inputs, 11)
    elif size_of(kind, text) > SIZE[kind]:
        refused("letters-write-" + label, "write-message", inputs, 5)
    elif room < 82:
        refused("letters-write-" + label, "write-message", inputs, 7)
    else:
        accepted("letters-write-" + label, "write-message", inputs, count=0, coding=CODING[kind],
                 out=page_of(kind, letters, text))


def read(label, kind, octets, text, letters=EN, room=None):
    """Reads a page that holds these letters and this text."""
    inputs = {"service": "broadcast", "coding": CODING[kind], "count": 0, "octets": octets,
              "room": len(text) if room is None else room}
    if inputs["room"] < len(text):
        refused("letters-read-" + label, "read-message", inputs, 7)
    else:
        accepted("letters-read-" + label, "read-message", inputs, reading=marked_reading(kind, letters), out=text)


def not_read(label, kind, octets, number=11, count=0, room=93):
    refused("letters-read-" + label, "read-message",
            {"service": "broadcast", "coding": CODING[kind], "count": count, "octets": octets, "room": room}, number)


def there_and_back(label, kind, text, letters=EN):
    """Writes a text, and reads its page if it has one."""
    written(label, kind, text, letters)
    if size_of(kind, text) <= SIZE[kind]:
        read(label, kind, page_of(kind, letters, text), kept(kind, text), letters)


# ---------------------------------------------------------------------------------------------------------------------
# Sizes and rooms

def some_letters(n):
    return [ord("A") + at % 26 for at in range(n)]


def sizes():
    print("\n# 7-bit: both sides of 90 septets, in letters and in euro signs of two septets each.")
    for n in (0, 1, 8, 88, 89, 90, 91, 92, 93, 94, 300):
        there_and_back("7bit-%d" % n, "7bit", some_letters(n))
    for n in (1, 44, 45, 46, 47, 90):
        there_and_back("7bit-euro-%d" % n, "7bit", [EURO] * n)
    for n in (87, 88, 89, 90):
        there_and_back("7bit-last-euro-%d" % n, "7bit", some_letters(n) + [EURO])
        there_and_back("7bit-first-euro-%d" % n, "7bit", [EURO] + some_letters(n))
    print("\n# 7-bit: other extension letters are the last that has room, and have a septet too few.")
    for code in (0x0A, 0x28, 0x40):
        for n in (88, 89):
            there_and_back("7bit-%d-1B-%02X" % (n, code), "7bit", some_letters(n) + [ord(EXTENSION[code])])
    print("\n# UCS2: both sides of 40 units.")
    for n in (0, 1, 2, 20, 38, 39, 40, 41, 42, 90, 256):
        there_and_back("ucs2-%d" % n, "ucs2", [HAN + at for at in range(n)])


def rooms():
    print("\n# Rooms: a page takes 82 octets, whatever it holds. Reading takes as many units as the text has.")
    for kind, size in SIZE.items():
        for n in (0, size):
            text = [A] * n
            for room in (0, 81, 82, 83):
                written("room-%s-%d-%d" % (kind, n, room), kind, text, room=room)
            for room in sorted({0, max(0, n - 1), n, n + 1}):
                read("room-%s-%d-%d" % (kind, n, room), kind, page_of(kind, EN, text), text, room=room)
    print("\n# A room is held against the text: letters and dropped CRs do not count, an escape and its code once.")
    for kind, text in (("7bit", [A, A] + [CR] * 5), ("7bit", [EURO] * 45), ("7bit", [CR, A]), ("ucs2", [HAN, CR, CR]),
                       ("ucs2", [CR, HAN])):
        left = kept(kind, text)
        for room in (len(left) - 1, len(left), len(left) + 1):
            label = "room-%s-%04X-%d-%d" % (kind, text[0], len(text), room)
            read(label, kind, page_of(kind, EN, text), left, room=room)


# ---------------------------------------------------------------------------------------------------------------------
# The letters

def letters_written():
    print("\n# Values of each letter, written: a to z are 61 to 7A. 00 is absent.")
    for kind in CODING:
        for value in VALUES:
            written("%s-first-%02X" % (kind, value), kind, [A], Letters(value, ord("n")))
            written("%s-second-%02X" % (kind, value), kind, [A], Letters(ord("e"), value))
    print("\n# Every letter in both places, written.")
    for kind in CODING:
        for value in RIGHT:
            letters = Letters(value, ord("a") + (7 * value + 3) % 26)
            written("%s-letters-%c%c" % (kind, *letters), kind, [A], letters)


def letters_read():
    print("\n# Every septet in the place of each letter, read.")
    for kind in CODING:
        for place in ("first", "second"):
            for value in range(128):
                letters = Letters(value, ord("z")) if place == "first" else Letters(ord("a"), value)
                label, octets = "%s-%s-%02X" % (kind, place, value), page_of(kind, letters, [A])
                if letters.right():
                    read(label, kind, octets, [A], letters)
                else:
                    not_read(label, kind, octets)
    print("\n# 7-bit: every septet in the place of the CR.")
    for value in range(128):
        octets = seven_page(EN, [A], value)
        if value == CR:
            read("7bit-third-0D", "7bit", octets, [A])
        else:
            not_read("7bit-third-%02X" % value, "7bit", octets)
    print("\n# 7-bit: a CR that stands elsewhere, or is missing on a page that is otherwise right.")
    for name, septets in (("fourth", [*EN, A, CR]), ("first", [CR, *EN]), ("second", [EN.first, CR, EN.second]),
                          ("none", [A] * 93), ("text-only", some_letters(20)), ("small-letters", list(RIGHT) * 3),
                          ("line-feed", [*EN, 0x0A]), ("escaped", [ESCAPE, 0x65, CR]),
                          ("escape-second", [0x65, ESCAPE, CR]), ("escape-cr", [*EN, ESCAPE, CR]), ("empty-page", []),
                          ("one-letter", [0x65])):
        not_read("7bit-page-" + name, "7bit", packed("broadcast", septets))
    for octet in (0x00, 0x0D, 0xFF):
        for kind in CODING:
            not_read("%s-all-%02X" % (kind, octet), kind, [octet] * 82)
    print("\n# UCS2 has no CR behind the letters: CR is the text's first unit there.")
    not_read("ucs2-page-of-7bit-empty", "ucs2", packed("broadcast", []))
    not_read("7bit-page-of-ucs2", "7bit", wide_page(EN, [HAN]))
    page = seven_page(EN, [A])
    read("ucs2-page-of-7bit", "ucs2", page, [256 * high + low for high, low in zip(page[2::2], page[3::2])])
    not_read("ucs2-units-only", "ucs2", ucs2([HAN] * 41))
    not_read("ucs2-filling-only", "ucs2", ucs2([CR] * 41))
    not_read("ucs2-letters-as-octets", "ucs2", list(EN) + ucs2([CR] * 40))
    not_read("ucs2-letters-as-units", "ucs2", ucs2(list(EN) + [CR] * 39))


# ---------------------------------------------------------------------------------------------------------------------
# Closing CRs, escapes, spare bits, lengths

def closings():
    print("\n# Closing CRs are dropped behind the letters and their CR. CRs in front of more text stay.")
    for name, text in (("1", [CR]), ("89", [CR] * 89), ("90", [CR] * 90), ("91", [CR] * 91), ("letter", [A, CR]),
                       ("letter-3", [A, CR, CR, CR]), ("front", [CR, A]), ("front-2", [CR, CR, A]),
                       ("front-89", [CR] * 89 + [A]), ("front-90", [CR] * 90 + [A]), ("all-round", [CR, A, CR, A, CR]),
                       ("letters-89", [A] * 89 + [CR]), ("letters-90", [A] * 90 + [CR]), ("at-cr", [0x40, CR]),
                       ("euro-44", [EURO] * 44 + [CR, CR]), ("line-feed", [0x0A, CR, 0x0A])):
        there_and_back("cr-" + name, "7bit", text)
    for name, text in (("1", [CR]), ("39", [CR] * 39), ("40", [CR] * 40), ("41", [CR] * 41), ("sign", [HAN, CR]),
                       ("sign-3", [HAN, CR, CR, CR]), ("front", [CR, HAN]), ("front-39", [CR] * 39 + [HAN]),
                       ("front-40", [CR] * 40 + [HAN]), ("all-round", [CR, HAN, CR, HAN, CR]),
                       ("signs-39", [HAN] * 39 + [CR]), ("signs-40", [HAN] * 40 + [CR]), ("0D0D", [0x0D0D, CR]),
                       ("000D-0D00", [CR, 0x0D00]), ("0D00-40", [0x0D00] * 40), ("zeros", [0] * 40),
                       ("ones", [0xFFFF] * 40)):
        there_and_back("ucs2-cr-" + name, "ucs2", text)


def escapes():
    print("\n# Escapes behind the letters. CRs are dropped before the alphabet is read, and leave an escape alone.")
    front = some_letters(88)
    for name, septets, text in (
            ("alone", [ESCAPE], [SPACE]), ("behind-letter", [A, ESCAPE], [A, SPACE]),
            ("last", front + [A, ESCAPE], front + [A, SPACE]),
            ("cr", [ESCAPE, CR, CR], [SPACE]), ("cr-letter", [ESCAPE, CR, A], [CR, A]), ("two", [ESCAPE] * 2, [SPACE]),
            ("two-code", [ESCAPE, ESCAPE, 0x65], [SPACE, 0x65]), ("three-code", [ESCAPE] * 3 + [0x65], [SPACE, EURO]),
            ("code", [ESCAPE, 0x65], [EURO]), ("gap", [ESCAPE, A], [A]), ("all", [ESCAPE] * 90, [SPACE] * 45),
            ("89", [ESCAPE] * 89, [SPACE] * 45), ("last-code", front + [ESCAPE, 0x65], front + [EURO]),
            ("last-two", front + [ESCAPE] * 2, front + [SPACE]), ("last-cr", front + [ESCAPE, CR], front + [SPACE]),
            ("inner-cr", [A, CR, ESCAPE, CR], [A, CR, SPACE]), ("line-feed", [ESCAPE, 0x0A], [0x0C])):
        read("escape-" + name, "7bit", seven_page(EN, septets), text)
    for code in [*EXTENSION, 0x00, 0x7F]:
        behind = EXTENSION.get(code, ALPHABET[code])
        read("escape-code-%02X" % code, "7bit", seven_page(EN, [ESCAPE, code, A]), units(behind) + [A])
    print("\n# UCS2 has no escape.")
    there_and_back("ucs2-escape", "ucs2", [ESCAPE, 0x65, ESCAPE])
    there_and_back("ucs2-escape-40", "ucs2", [ESCAPE] * 40)


def spare_bits():
    print("\n# Spare bits: five behind a 7-bit page, two behind the letters of a UCS2 page. Reading ignores them.")
    for n in (0, 90):
        page = seven_page(EN, [A] * n)
        for bit in range(3, 8):
            read("spare-7bit-%d-%d" % (n, bit), "7bit", changed(page, 81, page[81] + 2 ** bit), [A] * n)
        read("spare-7bit-%d-all" % n, "7bit", changed(page, 81, page[81] + 0xF8), [A] * n)
    for letters in (Letters(ord("a"), ord("z")), Letters(ord("z"), ord("a"))):
        for spare in ("10", "01", "11"):
            for n in (0, 40):
                read("spare-ucs2-%c%c-%d-%s" % (*letters, n, spare), "ucs2", wide_page(letters, [HAN] * n, spare),
                     [HAN] * n, letters)
    print("\n# Spare bits make no letter right or wrong: the letter has the seven bits in front of them.")
    for value in (0x00, 0x2E, 0x60, 0x7B):
        for spare in ("10", "01", "11"):
            not_read("spare-ucs2-%02X-%s" % (value, spare), "ucs2", wide_page(Letters(ord("e"), value), [HAN], spare))
    for name, page in (("letters", seven_page(Letters(0x45, 0x4E), [A])), ("third", seven_page(EN, [A], A))):
        not_read("spare-7bit-" + name, "7bit", changed(page, 81, page[81] + 0xF8))
    print("\n# The last octet of a UCS2 page is the last unit's.")
    read("spare-ucs2-last-F8", "ucs2", changed(wide_page(EN, [HAN] * 40), 81, 0xF8), [HAN] * 39 + [0x4EF8])
    read("spare-ucs2-last-0C", "ucs2", changed(wide_page(EN, [HAN]), 81, 0x0C), [HAN] + [CR] * 38 + [0x000C])


def lengths():
    print("\n# A page has 82 octets and the count 0.")
    for kind in CODING:
        octets = page_of(kind, EN, [A] * SIZE[kind])
        for m in (0, 2, 80, 81, 83, 84, 88, 164):
            not_read("length-%s-%d" % (kind, m), kind, (octets * 2)[:m], 4)
        for count in (1, 82, 90, 256, 4294967295):
            not_read("count-%s-%d" % (kind, count), kind, octets, 4, count)


# ---------------------------------------------------------------------------------------------------------------------
# Other codings and services

FORMS = (EN, Letters(ord("e"), 0), Letters(0, ord("n")), Letters(0x41, 0), Letters(0, 0xFF), Letters(1, 0x80))


def other_codings():
    def stray(name, service, words, letters, text):
        refused("letters-stray-%s-%s" % (service, name), "write-message",
                {"service": service, "reading": reading(letters.words(words)), "text": text, "room": 160}, 8)

    print("\n# Letters with every reading of a broadcast before W3 but the prefix mark, and with some of other services: 8.")
    for service, table in EARLIER_CODINGS.items():
        for number, words in enumerate(dict.fromkeys(table)):
            if "prefix" not in words and (service == "broadcast" or number % 7 == 0):
                stray("%d" % number, service, words, FORMS[number % 3], [A])
    for service in ("sms", "broadcast", "ussd", "old"):
        for words in ("plain", "ucs2"):
            for number, letters in enumerate(FORMS[1:4]):
                stray("%s-%d" % (words, number), service, words, letters, [])
    print("\n# The prefix mark with letters, where no octet reads so: 8.")
    for service, fronts in (("sms", ("prefix", "ucs2+prefix")), ("old", ("prefix", "ucs2+prefix")),
                            ("broadcast", ("german+prefix", "8bit+prefix", "ucs2+class1+prefix", "prefix+reserved")),
                            ("ussd", ("compressed+prefix", "wap+prefix", "ucs2+prefix+reserved"))):
        for words in fronts:
            stray(words.replace("+", "-"), service, words, EN, [A])
    print("\n# USSD has no letters: 3, whatever they are.")
    for kind in CODING:
        for number, letters in enumerate((EN,) + WRONG):
            refused("letters-ussd-write-%s-%d" % (kind, number), "write-message",
                    {"service": "ussd", "reading": marked_reading(kind, letters), "text": [A], "room": 160}, 3)
        page = page_of(kind, EN, [A])
        for name, octets in (("page", page), ("wrong", page_of(kind, Letters(0x45, 0x4E), [A])), ("none", []),
                             ("seven", page[:7])):
            refused("letters-ussd-read-%s-%s" % (kind, name), "read-message",
                    {"service": "ussd", "coding": CODING[kind], "count": 0, "octets": octets, "room": 160}, 3)
    print("\n# Under the other services 10 and 11 mean something else, and the letters are text.")
    text = [*EN, CR, A]
    for coding in CODING.values():
        accepted("letters-sms-read-%02X" % coding, "read-message",
                 {"service": "sms", "coding": coding, "count": 4, "octets": packed("sms", text), "room": 4},
                 reading=reading(SMS_CODINGS[coding]), out=text)
    inputs = {"service": "old", "count": 0, "octets": old_page(text), "room": 4}
    accepted("letters-old-read-10", "read-message", {**inputs, "coding": 0x10}, reading=reading("plain"), out=text)
    refused("letters-old-read-11", "read-message", {**inputs, "coding": 0x11}, 2)
    print("\n# A broadcast page of another coding holds them as text too.")
    for coding in (0x00, 0x0F, 0x12, 0x1F, 0x20, 0x40, 0x80, 0xF1):
        accepted("letters-text-%02X" % coding, "read-message",
                 {"service": "broadcast", "coding": coding, "count": 0, "octets": seven_page(EN, [A]), "room": 93},
                 reading=reading(BROADCAST_CODINGS[coding]), out=text)
    page = wide_page(EN, [HAN])
    accepted("letters-text-48", "read-message",
             {"service": "broadcast", "coding": 0x48, "count": 0, "octets": page, "room": 41}, reading=reading("ucs2"),
             out=[256 * page[0] + page[1], HAN])
    print("\n# Packing and unpacking alone know no letters.")
    for n in (0, 1, 89, 90):
        septets = [*EN, CR] + [A] * n
        accepted("letters-pack-%d" % n, "pack", {"service": "broadcast", "septets": septets, "room": 82}, count=0,
                 out=seven_page(EN, [A] * n))
        accepted("letters-unpack-%d" % n, "unpack",
                 {"service": "broadcast", "count": 0, "octets": seven_page(EN, [A] * n), "room": 93},
                 out=septets if n else list(EN))
    refused("letters-pack-91", "pack", {"service": "broadcast", "septets": [*EN, CR] + [A] * 91, "room": 82}, 5)


# ---------------------------------------------------------------------------------------------------------------------
# Data coding alone

def data_coding():
    print("\n# Data coding alone reads no letters, and writes past them.")
    for service in ("broadcast", "ussd"):
        for kind in CODING:
            accepted("letters-read-coding-%s-%s" % (service, kind), "read-coding",
                     {"service": service, "coding": CODING[kind]}, reading=reading(marked(kind)))
    odd = "german+prefix 8bit+prefix compressed+prefix prefix+reserved reserved deletion class1+english"
    for service, fronts in (("broadcast", "prefix ucs2+prefix plain ucs2 german czech compressed wap 8bit+user1 " + odd),
                            ("ussd", "prefix ucs2+prefix plain ucs2 " + odd),
                            ("sms", "prefix plain ucs2 class1 deletion store+active+fax reserved german"),
                            ("old", "prefix plain")):
        for at, front in enumerate(fronts.split()):
            for number, letters in enumerate(FORMS if front == "prefix" else (FORMS[at % 6],)):
                label = "letters-write-coding-%s-%s-%d" % (service, front.replace("+", "-"), number)
                inputs = {"service": service, "reading": reading(letters.words(front))}
                if service != "old" and front != "reserved" and front in CODINGS[service]:
                    accepted(label, "write-coding", inputs, coding=CODINGS[service].index(front))
                else:
                    refused(label, "write-coding", inputs, 8)
    print("\n# What a reading holds does not look at letters.")
    for at, front in enumerate(("plain", "ucs2", "reserved", "german", "ucs2+class0", "prefix", "ucs2+prefix", "8bit",
                                "wap", "compressed", "8bit+prefix", "compressed+prefix", "8bit+compressed", "deletion")):
        for number, letters in enumerate(FORMS if front == "prefix" else (FORMS[at % 6],)):
            label = "letters-holds-%s-%d" % (front.replace("+", "-"), number)
            inputs, held = {"reading": reading(letters.words(front))}, text_held(front)
            if held in CODING:
                accepted(label, "holds-text", inputs, holds=held)
            else:
                refused(label, "holds-text", inputs, held)


# ---------------------------------------------------------------------------------------------------------------------
# Messages of several pages

def several_pages():
    print("\n# The calls of several pages: 3 with the prefix mark, whatever the letters, and 8 for letters without it.")
    over, wide_over = [A] * 1396, [HAN] * 616
    stray = [(8, letters.words(words), text, []) for letters, words, text in (
        (EN, "plain", [A]), (FORMS[1], "ucs2", []), (FORMS[2], "german", [A] * 94), (FORMS[3], "plain", []))]
    stray += [(8, EN.words(words), text, later) for words, text, later in (
        ("compressed", [A], [1]), ("ucs2+compressed+class1", [A], [1]), ("8bit", [A], [2]), ("wap", [], [2]),
        ("english+prefix", [A], [3]), ("plain", [A, HAN], [6]), ("plain", over, [5]), ("ucs2", wide_over, [5]))]
    lettered = [(3, letters.words(marked(kind)), text, []) for kind in CODING for letters, text in (
        (EN, []), (EN, [A] * 94), (WRONG[1], [A]), (WRONG[3], [A]))]
    lettered += [(3, letters.words(marked(kind)), text, [later])
                 for letters in (EN, WRONG[1])
                 for kind, text, later in (("7bit", [HAN], 6), ("7bit", over, 5), ("ucs2", wide_over, 5))]
    for call, more, last, less in (("count-pages", {}, None, None), ("build-page", {"number": 1}, 10, {"number": 0}),
                                   ("write-pages", {"room": 1320}, 7, {"room": 87})):
        front = {} if call == "count-pages" else {"sequence": 1, "identifier": 2}
        for number, words, text, later in stray + lettered:
            inputs = {**front, "reading": reading(words), "text": text}
            refused(refusal_label(call, [number] + later), call, {**inputs, **more}, number)
            if last and not later and len(text) < 2:
                refused(refusal_label(call, [number, last]), call, {**inputs, **less}, number)
    print("\n# Joining: the first block's coding gives 3, whatever the page holds.")

    def block(kind, letters, total=1, number=1):
        return head(1, 2, CODING[kind], total, number) + page_of(kind, letters, [A])

    for kind in CODING:
        for numbers, octets, room in (
                ([3], block(kind, EN), 93), ([3], block(kind, Letters(0x45, 0x4E)), 93),
                ([3], flat(block(kind, EN, 2, number) for number in (1, 2)), 186),
                ([4, 3], block(kind, EN) + [0], 93), ([4, 3], block(kind, EN)[:87], 93),
                ([3, 10], block(kind, EN, 2, 1), 93), ([3, 10], block(kind, EN, 1, 0), 93),
                ([3, 7], block(kind, EN), 0)):
            refused(refusal_label("join-pages", numbers), "join-pages", {"octets": octets, "room": room}, numbers[0])


# ---------------------------------------------------------------------------------------------------------------------
# Pairs of refusals

LABELS = {}


def refusal_label(call, numbers):
    """letters-pair-CALL-EARLIER-LATER or letters-alone-CALL-NUMBER, and a number for each further one."""
    name = "letters-%s-%s-%s" % ("pair" if len(numbers) == 2 else "alone", call, "-".join(map(str, numbers)))
    LABELS[name] = LABELS.get(name, 0) + 1
    return name if LABELS[name] == 1 else "%s-%d" % (name, LABELS[name])


def writing_pairs():
    def pair(earlier, later, service, words, text, room, position=0):
        refused(refusal_label("write", [earlier, later]), "write-message",
                {"service": service, "reading": reading(words), "text": text, "room": room}, earlier, position)

    print("\n# Pairs of the whole writer on a broadcast with the prefix mark: 8, 11, 6, 5, 7.")
    for words, letters in (("german+prefix", ABSENT), ("prefix+reserved", WRONG[1]), ("ucs2+class0+prefix", WRONG[3]),
                           ("ucs2+prefix+reserved", ABSENT), ("plain", WRONG[1]), ("plain", WRONG[3]),
                           ("ucs2", WRONG[2]), ("ucs2", WRONG[4]), ("english", WRONG[5]), ("ucs2+class2", WRONG[3])):
        pair(8, 11, "broadcast", letters.words(words), [A], 82)
    for letters in WRONG:
        words, wide = letters.words("prefix"), letters.words("ucs2+prefix")
        pair(11, 6, "broadcast", words, [HAN], 82)
        pair(11, 6, "broadcast", words, [A] * 89 + [ESCAPE], 82)
        pair(11, 5, "broadcast", words, [A] * 91, 82)
        pair(11, 5, "broadcast", words, [EURO] * 46, 82)
        pair(11, 5, "broadcast", wide, [HAN] * 41, 82)
        pair(11, 7, "broadcast", words, [A], 0)
        pair(11, 7, "broadcast", wide, [], 81)
    words, wide = EN.words("prefix"), EN.words("ucs2+prefix")
    for text, position in (([HAN] + [A] * 90, 0), ([A] * 90 + [HAN], 90), ([EURO] * 45 + [HAN], 45),
                           ([EURO] * 46 + [0], 46), ([A] * 300 + [ESCAPE, HAN], 300), ([0x60] * 91, 0)):
        pair(6, 5, "broadcast", words, text, 82, position)
    for room in (0, 81):
        for text in ([A] * 91, [EURO] * 46, [CR] * 91, [A] * 93):
            pair(5, 7, "broadcast", words, text, room)
        for text in ([HAN] * 41, [CR] * 41, [A] * 90):
            pair(5, 7, "broadcast", wide, text, room)
        for text, position in (([HAN], 0), ([A, EURO, HAN], 2), ([A] * 89 + [HAN], 89)):
            pair(6, 7, "broadcast", words, text, room, position)
    print("\n# An unlisted unit alone: the position is the unit's, counted behind the letters. UCS2 lists every unit.")
    for text, position in (([HAN], 0), ([A, 0x60], 1), ([EURO, EURO, 0xA0], 2), ([A] * 89 + [0], 89),
                           ([EURO] * 44 + [ESCAPE], 44)):
        refused(refusal_label("write", [6]), "write-message",
                {"service": "broadcast", "reading": reading(words), "text": text, "room": 82}, 6, position)

    print("\n# Pairs of letters without the prefix mark: 8 comes first. Those of 3 have the mark, and no octet reads so.")
    for service, long, letters in (("sms", 161, FORMS[1]), ("broadcast", 94, EN), ("broadcast", 94, FORMS[2]),
                                   ("ussd", 183, EN)):
        pair(8, 1, service, letters.words("compressed"), [A], 160)
        pair(8, 2, service, letters.words("8bit"), [A], 160)
        pair(8, 3, service, letters.words("english+prefix"), [A], 160)
        pair(8, 6, service, letters.words("plain"), [A, HAN], 160)
        pair(8, 5, service, letters.words("plain"), [A] * long, 160)
        pair(8, 5, service, letters.words("ucs2"), [A] * 81, 160)
        pair(8, 7, service, letters.words("plain"), [A], 0)
    pair(8, 2, "broadcast", EN.words("wap"), [A], 82)
    pair(8, 3, "sms", EN.words("prefix"), [A], 140)
    pair(8, 3, "old", EN.words("ucs2+prefix"), [A], 140)

    print("\n# Pairs of the whole writer under USSD with the prefix mark: 3, 6, 5, 7, with letters and without.")
    for letters in (ABSENT, EN, Letters(0x45, 0)):
        words, wide = letters.words("prefix"), letters.words("ucs2+prefix")
        pair(3, 6, "ussd", words, [HAN], 160)
        pair(3, 6, "ussd", words, [A] * 90 + [HAN], 160)
        pair(3, 5, "ussd", words, [A] * 183, 160)
        pair(3, 5, "ussd", wide, [HAN] * 81, 160)
        pair(3, 7, "ussd", words, [A], 0)
        pair(3, 7, "ussd", wide, [A], 1)


def reading_pairs():
    def pair(earlier, later, service, coding, octets, count, room):
        refused(refusal_label("read", [earlier, later]), "read-message",
                {"service": service, "coding": coding, "count": count, "octets": octets, "room": room}, earlier)

    print("\n# Pairs of the whole reader on a broadcast with the prefix mark: 4, 11, 7.")
    for kind, coding in CODING.items():
        wrong = [page_of(kind, letters, [A] * 9) for letters in WRONG[3:5]]
        if kind == "7bit":
            wrong.append(seven_page(EN, [A] * 9, A))
        for octets in wrong:
            for m in (81, 83):
                pair(4, 11, "broadcast", coding, (octets + [0])[:m], 0, 93)
            for count in (1, 82):
                pair(4, 11, "broadcast", coding, octets, count, 93)
            pair(11, 7, "broadcast", coding, octets, 0, 0)
            pair(11, 7, "broadcast", coding, octets, 0, 8)
        octets = page_of(kind, EN, [A] * 9)
        for room in (0, 8):
            pair(4, 7, "broadcast", coding, octets[:81], 0, room)
            pair(4, 7, "broadcast", coding, octets + [0], 0, room)
            pair(4, 7, "broadcast", coding, octets, 82, room)
        pair(4, 11, "broadcast", coding, [], 0, 93)
    print("\n# Pairs of the whole reader under USSD with the prefix mark: 3, 4, 7.")
    for kind, coding in CODING.items():
        octets = page_of(kind, EN, [A] * 9)
        pair(3, 4, "ussd", coding, octets * 2, 0, 160)
        pair(3, 4, "ussd", coding, octets[:3], 1, 160)
        pair(3, 4, "ussd", coding, [0x41, 0x21], 2, 160)
        pair(3, 7, "ussd", coding, octets, 0, 0)
        pair(3, 7, "ussd", coding, [0x41, 0x21], 0, 0)


# ---------------------------------------------------------------------------------------------------------------------
# There and back

def round_trips():
    print("\n# Every listed unit behind letters, there and back; units that look like letters and their CR.")
    listed = list(CODES)
    for number, start in enumerate(range(0, len(listed), 80), 1):
        there_and_back("listed-%d" % number, "7bit", listed[start:start + 80], Letters(ord("d"), ord("e")))
    there_and_back("extension", "7bit", units(EXTENSION.values()) * 4)
    for kind in CODING:
        for name, text in (("letters", [*EN]), ("letters-cr", [*EN, CR, A]), ("cr-letters", [CR, *EN, CR, A]),
                           ("at", [0x40] * 40)):
            there_and_back("like-%s-%s" % (kind, name), kind, text)
    print("\n# The same text behind other letters.")
    for kind in CODING:
        for letters in (Letters(ord("d"), ord("e")), Letters(ord("e"), ord("d")), Letters(ord("a"), ord("a")),
                        Letters(ord("z"), ord("z"))):
            there_and_back("trip-%s-%c%c" % (kind, *letters), kind, units("abc"), letters)
    there_and_back("trip-surrogates", "ucs2", [0xD83D, 0xDE00] * 20)
    there_and_back("trip-high", "ucs2", [0x8000 + 0x101 * at for at in range(40)])


def main():
    LABELS.clear()
    print(HEADER, end="")
    sizes()
    rooms()
    letters_written()
    letters_read()
    closings()
    escapes()
    spare_bits()
    lengths()
    other_codings()
    data_coding()
    several_pages()
    writing_pairs()
    reading_pairs()
    round_trips()


if __name__ == "__main__":
    main()
