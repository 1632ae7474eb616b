"""Writes vectors/release9.txt: the data coding table of clause 5 of source document 003, W3 of document 02.

    python3 independent/release9.py > vectors/release9.txt

Every answer is stated by rule, with independent/rules.py, the cutting of pages in independent/pages.py, and clause 5 as
it stands below, group by group. None comes from the second implementation.
"""

from pages import changed, flat, head, septets_of, seven_pages, shown, wide_pages
from rules import (BROADCAST_CODINGS, CR, SMS_CODINGS, accepted, old_page, packed, reading, refused, text_held, ucs2)

HEADER = """\
# The broadcast and USSD data coding of Release 9, W3 of document 02: written by independent/release9.py. The answer of
# every line is stated there by rule; none comes from the second implementation.
# A pair of refusals is an input that deserves both, and gets the earlier.
"""

A, EURO, HAN, ESCAPE = 0x41, 0x20AC, 0x4E2D, 0x1B
BOTH = ("broadcast", "ussd")
SIZE = {"broadcast": 93, "ussd": 182}   # septets
ROOM = {"broadcast": 82, "ussd": 160}   # octets


# ---------------------------------------------------------------------------------------------------------------------
# Clause 5: what bits 3..0 say in each group, 0000 first. 4*plain is four octets that read alike.

GROUPS = (
    ("0000", "german english italian french spanish dutch swedish danish "
             "portuguese finnish norwegian greek turkish hungarian polish plain"),
    ("0001", "prefix ucs2+prefix 14*reserved"),
    ("0010", "czech hebrew arabic russian icelandic 11*reserved"),
    ("0011", "16*reserved"),
    ("0100", "4*plain 4*8bit 4*ucs2 4*reserved"),
    ("0101", "class0 class1 class2 class3 8bit+class0 8bit+class1 8bit+class2 8bit+class3 "
             "ucs2+class0 ucs2+class1 ucs2+class2 ucs2+class3 4*reserved"),
    ("0110", "4*compressed 4*8bit+compressed 4*ucs2+compressed 4*reserved"),
    ("0111", "compressed+class0 compressed+class1 compressed+class2 compressed+class3 "
             "8bit+compressed+class0 8bit+compressed+class1 8bit+compressed+class2 8bit+compressed+class3 "
             "ucs2+compressed+class0 ucs2+compressed+class1 ucs2+compressed+class2 ucs2+compressed+class3 4*reserved"),
    ("1000", "16*reserved"),
    ("1001", "class0+header class1+header class2+header class3+header "
             "8bit+class0+header 8bit+class1+header 8bit+class2+header 8bit+class3+header "
             "ucs2+class0+header ucs2+class1+header ucs2+class2+header ucs2+class3+header 4*reserved"),
    ("1010", "16*reserved"),
    ("1011", "16*reserved"),
    ("1100", "16*reserved"),
    ("1101", "16*i1"),
    ("1110", "16*wap"),
    ("1111", "plain user1 user2 class3 8bit 8bit+user1 8bit+user2 8bit+class3 8*reserved"),
)

# Octets that are written as a smaller one. Every other octet that is not reserved is written as itself.
SMALLER = {octet: smallest for smallest, octets in (
    (0x0F, (0x40, 0x41, 0x42, 0x43, 0xF0)), (0x44, (0x45, 0x46, 0x47, 0xF4)), (0x48, (0x49, 0x4A, 0x4B)), (0x53, (0xF3,)),
    (0x57, (0xF7,)), (0x60, (0x61, 0x62, 0x63)), (0x64, (0x65, 0x66, 0x67)), (0x68, (0x69, 0x6A, 0x6B)),
    (0xD0, range(0xD1, 0xE0)), (0xE0, range(0xE1, 0xF0))) for octet in octets}


def row(said):
    """The words of the sixteen octets of a group."""
    octets = []
    for part in said.split():
        times, star, words = part.partition("*")
        octets += [words] * int(times) if star else [part]
    assert len(octets) == 16, said
    return octets


TABLE = [words for number, (group, said) in enumerate(GROUPS) if group == format(number, "04b") for words in row(said)]
WRITTEN = {words: SMALLER.get(octet, octet) for octet, words in enumerate(TABLE) if words != "reserved"}

assert TABLE == BROADCAST_CODINGS and TABLE.count("reserved") == 133 and len(WRITTEN) == 70
assert all(TABLE.index(words) == octet for words, octet in WRITTEN.items())

# The octets whose reading moved, by what they are.
LANGUAGES = {"hebrew": 0x21, "arabic": 0x22, "russian": 0x23, "icelandic": 0x24}
HEADERS = {TABLE[octet]: octet for octet in range(0x90, 0x9C)}
I1 = range(0xD0, 0xE0)
NEW = list(LANGUAGES) + list(HEADERS) + ["i1"]
BESIDE = (0x1F, 0x20, 0x25, 0x26, 0x28, 0x2F, 0x30, 0x31, 0x8F, 0x9C, 0x9D, 0x9E, 0x9F, 0xA0, 0xB0, 0xC0, 0xCF, 0xE0, 0xEF)

# Readings that no octet has.
NEAR = (
    "header 8bit+header ucs2+header user1+header user2+header 8bit+user1+header ucs2+user2+header german+header "
    "hebrew+header czech+header icelandic+header class0+hebrew+header class1+icelandic+header class2+czech+header "
    "ucs2+class3+russian+header i1+header wap+header i1+class0+header wap+class1+header compressed+header "
    "compressed+class0+header 8bit+compressed+class1+header ucs2+compressed+class3+header prefix+header "
    "ucs2+prefix+header class0+prefix+header ucs2+class1+prefix+header 8bit+class2+prefix+header reserved+header "
    "class0+reserved+header 8bit+class1+reserved+header ucs2+class3+reserved+header class0+deletion+header "
    "class1+store+inactive+other+header discard+active+fax+header ucs2+store+active+mail+header "
    "i1+class0 i1+class3 i1+user1 i1+german i1+hebrew i1+compressed i1+deletion i1+prefix i1+reserved "
    "i1+store+active+voicemail ucs2+hebrew ucs2+icelandic 8bit+arabic wap+russian class0+hebrew class1+arabic "
    "class3+icelandic user1+russian compressed+hebrew compressed+icelandic hebrew+deletion arabic+prefix icelandic+prefix "
    "hebrew+reserved russian+discard+inactive+voicemail "
    "i1+compressed+user2+icelandic+deletion+discard+inactive+other+prefix+reserved+header").split()
assert not set(NEAR) & set(TABLE)


# ---------------------------------------------------------------------------------------------------------------------
# Labels

LABELS = {}


def label_of(*parts):
    """r9-PART-PART, and a number for each further one."""
    name = "-".join(["r9"] + ["%02X" % part if isinstance(part, int) else part.replace("+", "-") for part in parts])
    LABELS[name] = LABELS.get(name, 0) + 1
    return name if LABELS[name] == 1 else "%s-%d" % (name, LABELS[name])


def numbers_of(numbers):
    return "%s-%s" % ("alone" if len(numbers) == 1 else "pair", "-".join(map(str, numbers)))


# ---------------------------------------------------------------------------------------------------------------------
# Data coding alone

def codings_read():
    for group, _ in GROUPS:
        print("\n# Group %s, read." % group)
        for service in BOTH:
            for octet in range(16 * int(group, 2), 16 * int(group, 2) + 16):
                accepted(label_of("read", service, octet), "read-coding", {"service": service, "coding": octet},
                         reading=reading(TABLE[octet]))
    print("\n# Short messages and the old page: nothing moves.")
    for octet in (0x20, 0x21, 0x22, 0x23, 0x24, 0x90, 0x94, 0x9B, 0x9C, 0xD0, 0xD1, 0xD3, 0xD4, 0xD8, 0xDB, 0xDF):
        accepted(label_of("read-sms", octet), "read-coding", {"service": "sms", "coding": octet},
                 reading=reading(SMS_CODINGS[octet]))
    for octet in (0x20, 0x90, 0xD0):
        accepted(label_of("read-old", octet), "read-coding", {"service": "old", "coding": octet}, reading=reading("plain"))
    for octet in (0x21, 0x24, 0x91, 0x98, 0xD1):
        refused(label_of("read-old", octet), "read-coding", {"service": "old", "coding": octet}, 2)


def codings_written():
    print("\n# Every reading of an octet, written back: the smallest octet. Under USSD those that are new or have several.")
    for service in BOTH:
        for words, octet in WRITTEN.items():
            if service == "broadcast" or words in NEW or octet in SMALLER.values():
                accepted(label_of("write", service, words), "write-coding",
                         {"service": service, "reading": reading(words)}, coding=octet)
    print("\n# The reserved mark, and readings that no octet has: 8.")
    for service, near in zip(BOTH, (NEAR, NEAR[::4])):
        for words in ["reserved"] + near:
            refused(label_of("write", service, "8"), "write-coding", {"service": service, "reading": reading(words)}, 8)
    print("\n# The new readings under the other services: 8.")
    for service, words in [("sms", words) for words in NEW] + [("old", words) for words in NEW[::4]]:
        refused(label_of("write", service, "8"), "write-coding", {"service": service, "reading": reading(words)}, 8)
    print("\n# Writing looks past language letters, beside the header mark too.")
    for service in BOTH:
        for words, octet in (("class0+%s+header", 0x90), ("ucs2+class3+%s+header", 0x9B), ("i1+%s", 0xD0), ("hebrew+%s", 0x21)):
            accepted(label_of("write-letters", service, octet), "write-coding",
                     {"service": service, "reading": reading(words % "letter1:65+letter2:4E")}, coding=octet)


def holding():
    print("\n# Which text the new readings hold, and those that no octet has: 1, 2, 3. A label names all that is deserved.")
    for words in NEW + NEAR + ["compressed+prefix+header", "i1+prefix+header", "class0+letter1:65+letter2:6E+header",
                               "russian+letter1:65", "i1+letter2:6E", "prefix+letter1:65+letter2:6E+header"]:
        parts = set(words.split("+"))
        deserved = [number for number, marks in ((1, {"compressed"}), (2, {"8bit", "wap", "i1"}),
                                                 (3, {"prefix", "header"})) if marks & parts]
        held = text_held(words)
        if deserved:
            assert held == deserved[0]
            refused(label_of(numbers_of(deserved), "holds"), "holds-text", {"reading": reading(words)}, held)
        else:
            accepted(label_of("holds", held), "holds-text", {"reading": reading(words)}, holds=held)


# ---------------------------------------------------------------------------------------------------------------------
# The whole reader and writer: text under the new languages

def letters(n):
    return [0x61 + at % 26 for at in range(n)]


def there_and_back(service, language, text):
    """Writes a text, and reads it if it fits. Only a broadcast page closes in CR here."""
    inputs = {"service": service, "reading": reading(language), "text": text, "room": ROOM[service]}
    if len(septets_of(text)) > SIZE[service]:
        refused(label_of("over", service, language), "write-message", inputs, 5)
        return
    octets = packed(service, septets_of(text))
    accepted(label_of("text-write", service, language), "write-message", inputs, count=0, coding=LANGUAGES[language],
             out=octets)
    text = shown(septets_of(text)) if service == "broadcast" else text
    accepted(label_of("text-read", service, language), "read-message",
             {"service": service, "coding": LANGUAGES[language], "count": 0, "octets": octets, "room": len(text)},
             reading=reading(language), out=text)


def texts():
    print("\n# Text under the new languages, there and back, on both sides of the size.")
    for service, most, lengths in (("broadcast", "hebrew", (0, 1)), ("ussd", "icelandic", (0, 7, 8, 181))):
        size = SIZE[service]
        for language in LANGUAGES:
            for n in (*lengths, size, size + 1) if language == most else (size, size + 1):
                there_and_back(service, language, letters(n))
            if language == most:
                for text in ([EURO] * (size // 2), [EURO] * (size // 2 + 1), letters(size - 2) + [EURO],
                             letters(size - 1) + [EURO]):
                    there_and_back(service, language, text)
            there_and_back(service, language, [A, CR, EURO, A] if service == "ussd" else [CR, A, EURO, CR, CR])
    print("\n# Refusals under the new languages, and their pairs: 8, 6, 5, 7 and 4, 7.")
    for service, language, numbers, text, room, position in (
            ("broadcast", "hebrew", [7], [A] * 93, 81, 0), ("ussd", "arabic", [7], [A] * 9, 7, 0),
            ("broadcast", "russian", [6], [EURO, 0x60, HAN], 82, 1), ("ussd", "icelandic", [6], [A, HAN], 160, 1),
            ("broadcast", "arabic", [6, 5], [A] * 93 + [HAN], 82, 93), ("ussd", "hebrew", [6, 7], [HAN], 0, 0),
            ("broadcast", "icelandic", [5, 7], [A] * 94, 0, 0), ("ussd", "russian", [5, 7], [A] * 183, 159, 0),
            ("sms", "hebrew", [8], [A], 140, 0), ("old", "icelandic", [8], [A], 140, 0),
            ("broadcast", "russian+letter1:65+letter2:6E", [8], [A], 82, 0), ("ussd", "arabic+letter2:6E", [8], [A], 82, 0)):
        refused(label_of(numbers_of(numbers), "write"), "write-message",
                {"service": service, "reading": reading(language), "text": text, "room": room}, numbers[0], position)
    nine = packed("ussd", [A] * 9)
    for service, coding, numbers, octets, count, room in (
            ("broadcast", 0x21, [4], [A] * 81, 0, 93), ("broadcast", 0x22, [4], [A] * 83, 0, 93),
            ("broadcast", 0x23, [4], [A] * 82, 1, 93), ("ussd", 0x24, [4], [A] * 161, 0, 200),
            ("ussd", 0x21, [4], nine, 9, 9), ("broadcast", 0x24, [4, 7], [A] * 81, 0, 0),
            ("broadcast", 0x22, [7], packed("broadcast", [A] * 9), 0, 8), ("ussd", 0x23, [7], nine, 0, 8)):
        refused(label_of(numbers_of(numbers), "read"), "read-message",
                {"service": service, "coding": coding, "count": count, "octets": octets, "room": room}, numbers[0])


# ---------------------------------------------------------------------------------------------------------------------
# The whole reader and writer: the other new codings

# A user data header of one element and text behind it. What it says makes no difference.
WITH_HEADER = [0x05, 0x00, 0x03, 0x2A, 0x02, 0x01] + packed("sms", [0] + letters(85))
assert len(WITH_HEADER) == 82


def refused_codings_read():
    print("\n# 90 to 9B are 3, and 94 to 97 are 2 before it. D0 to DF are 2. What the octets hold makes no difference.")
    for service, octets in (("broadcast", WITH_HEADER), ("ussd", packed("ussd", letters(20)))):
        for coding in [*HEADERS.values(), *I1]:
            refused(label_of("text-read", service, coding), "read-message",
                    {"service": service, "coding": coding, "count": 0, "octets": octets, "room": 93},
                    3 if coding in (*range(0x90, 0x94), *range(0x98, 0x9C)) else 2)
    for service, coding, octets, number in (
            ("broadcast", 0x90, packed("broadcast", []), 3), ("broadcast", 0x98, ucs2([HAN] * 41), 3),
            ("broadcast", 0x94, [0] * 82, 2), ("ussd", 0x93, [], 3), ("ussd", 0x9B, ucs2([HAN]), 3), ("ussd", 0xD0, [], 2)):
        refused(label_of("text-read", service, coding), "read-message",
                {"service": service, "coding": coding, "count": 0, "octets": octets, "room": 93}, number)
    print("\n# Octets beside them hold the text as before, 9C to 9F among them, with the reserved mark. E0 and EF are WAP.")
    text = letters(20)
    for service, codings in (("broadcast", BESIDE), ("ussd", (0x20, 0x25, 0x2F, 0x8F, 0x9C, 0x9F, 0xA0, 0xCF, 0xE0))):
        for coding in codings:
            inputs = {"service": service, "coding": coding, "count": 0, "octets": packed(service, text), "room": 20}
            if coding in (0xE0, 0xEF):
                refused(label_of("beside-read", service, coding), "read-message", inputs, 2)
            else:
                accepted(label_of("beside-read", service, coding), "read-message", inputs,
                         reading=reading("czech" if coding == 0x20 else "reserved"), out=text)
    print("\n# The same octets in a short message and on an old page.")
    for coding, words in ((0x90, "reserved"), (0x95, "reserved"), (0x9B, "reserved"), (0xD4, "reserved"),
                          (0xD0, "store+inactive+voicemail"), (0xD9, "store+active+fax")):
        accepted(label_of("text-read-sms", coding), "read-message",
                 {"service": "sms", "coding": coding, "count": 20, "octets": packed("sms", text), "room": 20},
                 reading=reading(words), out=text)
    refused(label_of("text-read-sms", 0x21), "read-message",
            {"service": "sms", "coding": 0x21, "count": 20, "octets": packed("sms", text), "room": 20}, 1)
    for coding in (0x20, 0x90, 0xD0):
        accepted(label_of("text-read-old", coding), "read-message",
                 {"service": "old", "coding": coding, "count": 0, "octets": old_page(text), "room": 20},
                 reading=reading("plain"), out=text)
    for coding in (0x21, 0x91, 0x98, 0xD3):
        refused(label_of("text-read-old", coding), "read-message",
                {"service": "old", "coding": coding, "count": 0, "octets": old_page(text), "room": 20}, 2)


def reading_pairs():
    def pair(earlier, later, service, coding, octets, count=0, room=93):
        refused(label_of(numbers_of([earlier, later]), "read"), "read-message",
                {"service": service, "coding": coding, "count": count, "octets": octets, "room": room}, earlier)

    print("\n# Pairs of the whole reader: 2, 3, 4, 7.")
    page = packed("broadcast", letters(20))
    for number, coding in enumerate(range(0x94, 0x98)):
        pair(2, 3, BOTH[number % 2], coding, page)
    for number, codings in ((3, (0x90, 0x9B)), (2, (0x95, 0xD3))):
        for coding in codings:
            pair(number, 4, "broadcast", coding, page[:81])
            pair(number, 4, "broadcast", coding, page + [0])
            pair(number, 4, "broadcast", coding, page, 82)
            pair(number, 4, "ussd", coding, page * 2)
            pair(number, 4, "ussd", coding, page[:8], 8)
            pair(number, 7, "broadcast", coding, page, 0, 0)
            pair(number, 7, "ussd", coding, page[:8], 0, 0)
    pair(3, 4, "ussd", 0x98, ucs2([HAN] * 3) + [0])
    pair(4, 7, "broadcast", 0x9C, page[:81], 0, 0)
    pair(4, 7, "ussd", 0x9F, page[:8], 1, 0)
    refused(label_of("alone-7-read"), "read-message",
            {"service": "broadcast", "coding": 0x9C, "count": 0, "octets": page, "room": 19}, 7)


def refused_codings_written():
    print("\n# The writer: the header mark is 3, and 2 in 8-bit; I1 is 2. Under the other services they are 8.")
    for service in BOTH:
        for words in list(HEADERS) + ["i1"]:
            refused(label_of("text-write", service, words), "write-message",
                    {"service": service, "reading": reading(words), "text": [A] * (service == "ussd"), "room": 160},
                    2 if words[:2] in ("8b", "i1") else 3)
    for service in ("sms", "old"):
        for words in ("class0+header", "ucs2+class2+header", "8bit+class1+header", "i1"):
            refused(label_of("text-write", service, words), "write-message",
                    {"service": service, "reading": reading(words), "text": [A], "room": 140}, 8)
    print("\n# Readings that no octet has: 8.")
    for number, words in enumerate(NEAR[::4]):
        refused(label_of("near-write", BOTH[number % 2]), "write-message",
                {"service": BOTH[number % 2], "reading": reading(words), "text": [A], "room": 160}, 8)


# Readings that deserve an 8 and a later refusal by themselves.
NEAR_PAIRS = (
    ([8, 1], "compressed+class0+header"), ([8, 1], "i1+compressed"), ([8, 1], "compressed+hebrew"), ([8, 2], "8bit+header"),
    ([8, 2], "i1+header"), ([8, 2], "i1+class0"), ([8, 2], "8bit+arabic"), ([8, 2], "i1+letter1:65"),
    ([8, 2], "8bit+class0+letter2:6E+header"), ([8, 3], "header"), ([8, 3], "ucs2+user2+header"), ([8, 3], "hebrew+header"),
    ([8, 3], "class0+reserved+header"), ([8, 3], "arabic+prefix"), ([8, 3], "prefix+header"),
    ([8, 3], "class0+prefix+header"), ([8, 3], "class0+letter1:65+header"), ([8, 3], "class1+letter2:6E+header"),
    ([8, 3], "ucs2+class3+letter1:65+letter2:6E+header"), ([8, 3], "class0+prefix+letter1:65+letter2:6E+header"),
    ([8, 3], "prefix+letter1:65+letter2:6E+header"), ([8, 3], "class2+letter1:45+letter2:01+header"))


def writing_pairs():
    def pair(numbers, service, words, text, room=160):
        refused(label_of(numbers_of(numbers), "write"), "write-message",
                {"service": service, "reading": reading(words), "text": text, "room": room}, numbers[0])

    print("\n# Pairs of the whole writer: 8, 1, 2, 3, 6, 5, 7. The header mark and letters, or the prefix mark, are 8.")
    for numbers, words in NEAR_PAIRS:
        for service in BOTH if numbers == [8, 3] else ("broadcast",):
            pair(numbers, service, words, [A])
    for service, number, words in (("sms", 3, "class0+header"), ("old", 3, "class3+header"), ("sms", 2, "i1"),
                                   ("old", 2, "8bit+class0+header"), ("broadcast", 11, "prefix+header")):
        pair([8, number], service, words, [A])
    pair([8, 6], "ussd", "header", [HAN])
    pair([8, 5], "broadcast", "user1+header", [A] * 94)
    pair([8, 7], "broadcast", "i1+class0", [A], 0)
    for service in BOTH:
        pair([2, 3], service, "8bit+class0+header", [A])
        pair([2, 3], service, "8bit+class3+header", [A])
        for number, words in ((3, "class0+header"), (2, "8bit+class1+header"), (2, "i1")):
            pair([number, 6], service, words, [A, HAN])
            pair([number, 5], service, words, [EURO] * 92)
            pair([number, 7], service, words, [A] * 9, 0)
        pair([3, 5], service, "ucs2+class2+header", [HAN] * 81)


# ---------------------------------------------------------------------------------------------------------------------
# The calls of several pages

def pages_written():
    print("\n# Several pages under the new languages: counted, built, written and joined.")
    for language, coding, sizes in (("hebrew", 0x21, (0, 94)), ("arabic", 0x22, (94,)), ("russian", 0x23, (93, 94)),
                                    ("icelandic", 0x24, (94, 1395))):
        for n in sizes:
            text, pages = letters(n), seven_pages(letters(n))
            blocks = [head(0x1234, 0xABCD, coding, len(pages), at) + page for at, page in enumerate(pages, 1)]
            given = {"reading": reading(language), "text": text}
            accepted(label_of("count", language), "count-pages", given, pages=len(pages))
            given = {"sequence": 0x1234, "identifier": 0xABCD, **given}
            accepted(label_of("build", language), "build-page", {**given, "number": len(pages)}, pages=len(pages),
                     block=blocks[-1])
            accepted(label_of("write-pages", language), "write-pages", {**given, "room": 88 * len(pages)},
                     pages=len(pages), out=flat(blocks))
            accepted(label_of("join", language), "join-pages", {"octets": flat(blocks[::-1]), "room": n},
                     reading=reading(language), sequence=0x1234, identifier=0xABCD, pages=len(pages), out=text)
    for numbers, language, text, position in (([5], "hebrew", [A] * 1396, 0), ([6], "icelandic", [A, HAN], 1)):
        refused(label_of(numbers_of(numbers), "count"), "count-pages", {"reading": reading(language), "text": text},
                numbers[0], position)


def pages_refused():
    over, wide_over = [A] * 1396, [HAN] * 616
    marked = [([3 if "8bit" not in words else 2], words, [A]) for words in HEADERS] + [([2], "i1", [A])]
    pairs = [(numbers, words, [A]) for numbers, words in NEAR_PAIRS]
    later = [([2, 3], "8bit+class3+header", [A]), ([3, 6], "class1+header", [A, HAN]), ([2, 6], "i1", [A, HAN])]
    texts_over = [([3, 5], "class0+header", over), ([3, 5], "ucs2+class0+header", wide_over), ([2, 5], "i1", over),
                  ([2, 5], "8bit+class2+header", over)]
    for call, more, last, less, cases in (
            ("count-pages", {}, None, None, marked + pairs + later + texts_over),
            ("build-page", {"number": 1}, 10, {"number": 0}, marked[::3] + pairs[::2] + later + texts_over[:1]),
            ("write-pages", {"room": 1320}, 7, {"room": 87}, marked[1::3] + pairs[1::2] + later + texts_over[2:3])):
        print("\n# Refusals of %s with the new codings, alone and in pairs." % call)
        front = {} if call == "count-pages" else {"sequence": 1, "identifier": 2}
        for numbers, words, text in cases:
            refused(label_of(numbers_of(numbers), call), call,
                    {**front, "reading": reading(words), "text": text, **more}, numbers[0])
        if last:
            for number, words in ((3, "class0+header"), (3, "ucs2+class3+header"), (2, "8bit+class1+header"), (2, "i1"),
                                  (8, "header"), (8, "class0+letter1:65+header")):
                refused(label_of(numbers_of([number, last]), call), call,
                        {**front, "reading": reading(words), "text": [A], **less}, number)


def pages_joined():
    def block(coding, total=1, number=1, text=(A, A)):
        return head(1, 2, coding, total, number) + seven_pages(list(text))[0]

    def joined(coding, octets, text, pages=1, room=93):
        accepted(label_of("join", coding), "join-pages", {"octets": octets, "room": room}, reading=reading(TABLE[coding]),
                 sequence=1, identifier=2, pages=pages, out=text)

    def not_joined(numbers, octets, room=186):
        refused(label_of(numbers_of(numbers), "join"), "join-pages", {"octets": octets, "room": room}, numbers[0])

    print("\n# Joining: the first block's coding. Languages hold text, and reserved octets too.")
    for coding in (0x20, 0x21, 0x22, 0x23, 0x24, 0x25, 0x8F, 0x9C, 0x9F, 0xA0, 0xCF):
        joined(coding, block(coding), [A, A])
    for coding in (0x23, 0x9C):
        joined(coding, block(coding, 2, 2) + block(coding, 2, 1, letters(93)), letters(93) + [A, A], 2, 186)
    print("\n# The header mark is 3, and 2 in 8-bit; I1 is 2.")
    for coding in [*HEADERS.values(), 0xD0, 0xD3, 0xDF]:
        not_joined([2 if coding in (0x94, 0x95, 0x96, 0x97, 0xD0, 0xD3, 0xDF) else 3], block(coding))
    not_joined([3], head(1, 2, 0x99, 1, 1) + wide_pages([HAN])[0])
    not_joined([3], head(1, 2, 0x90, 1, 1) + WITH_HEADER)
    print("\n# Pairs of joining: 4 (no multiple of 88), 2, 3, 10, 7.")
    for coding, number in ((0x90, 3), (0x95, 2), (0xD3, 2)):
        not_joined([4, number], block(coding) + [0])
        not_joined([4, number], block(coding)[:87])
        not_joined([number, 10], block(coding, 2, 1))
        not_joined([number, 10], block(coding, 1, 0))
        not_joined([number, 10], block(coding, 2, 1) + block(0x0F, 2, 2))
        not_joined([number, 10], block(coding, 2, 1) + block(coding ^ 1, 2, 2))
        not_joined([number, 7], block(coding), 0)
    not_joined([2, 3], block(0x94))
    for coding in (0x23, 0x9C):
        not_joined([10, 7], block(coding, 2, 1), 0)
        not_joined([7], block(coding), 1)
    print("\n# A later block of another coding is 10, whatever that coding is.")
    for first, second in ((0x0F, 0x90), (0x0F, 0x94), (0x0F, 0xD0), (0x0F, 0x21), (0x21, 0x22), (0x23, 0x0F), (0x24, 0x25),
                          (0x9C, 0x9D), (0x9C, 0x90)):
        not_joined([10], block(first, 2, 1) + block(second, 2, 2))
    print("\n# The header of a block gives the octet as it stands.")
    for coding in (0x23, 0x90, 0xD3):
        accepted(label_of("header", coding), "read-header", {"block": changed(block(coding), 5, 0x21)}, sequence=1,
                 identifier=2, coding=coding, total=1, number=2)


def main():
    LABELS.clear()
    print(HEADER, end="")
    codings_read()
    codings_written()
    holding()
    texts()
    refused_codings_read()
    reading_pairs()
    refused_codings_written()
    writing_pairs()
    pages_written()
    pages_refused()
    pages_joined()


if __name__ == "__main__":
    main()
