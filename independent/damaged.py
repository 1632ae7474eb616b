"""Writes vectors/damaged.txt: what a careless or hostile sender gives, and every code and coding octet there is.

    python3 independent/damaged.py > vectors/damaged.txt

Every answer is stated by rule, with independent/rules.py. None comes from the second implementation.
"""

from rules import (ALPHABET, CODINGS, CR, EARLIER_CODINGS, EXTENSION, PLAIN_CODING, accepted, bits_of, message_held,
                   octets_of, old_page, packed, reading, refused, text_held, ucs2, units)

HEADER = """\
# Damaged and odd input against document 01: written by independent/damaged.py. The answer of every line is stated
# there by rule; none comes from the second implementation.
"""

A, B = 0x41, 0x42
PLAIN = reading("plain")
UCS2 = reading("ucs2")
SPACE = 0x20


# ---------------------------------------------------------------------------------------------------------------------
# Data coding octets

def all_codings():
    print("\n# Every data coding octet under every service, read alone.")
    for service, table in CODINGS.items():
        for octet, words in enumerate(table):
            accepted("dcs-%s-%02X" % (service, octet), "read-coding", {"service": service, "coding": octet},
                     reading=reading(words))
    for octet in range(256):
        label, inputs = "dcs-old-%02X" % octet, {"service": "old", "coding": octet}
        if octet % 16 == 0:
            accepted(label, "read-coding", inputs, reading=PLAIN)
        else:
            refused(label, "read-coding", inputs, 2)

    print("\n# Every data coding octet under every service, with a message that fits both 7-bit text and UCS2.")
    two = [0x41, 0x21]
    page = packed("broadcast", [A, B])
    page_units = [256 * page[at] + page[at + 1] for at in range(0, 82, 2)]
    for service, table in CODINGS.items():
        octets = page if service == "broadcast" else two
        seven, wide = [A, B], page_units if service == "broadcast" else [0x4121]
        for octet, words in enumerate(table):
            label = "dcs-read-%s-%02X" % (service, octet)
            inputs = {"service": service, "coding": octet, "count": 2 if service == "sms" else 0, "octets": octets,
                      "room": 41}
            held = message_held(service, words)  # A and B are no language letters
            if held in ("7bit", "ucs2"):
                accepted(label, "read-message", inputs, reading=reading(words), out=seven if held == "7bit" else wide)
            else:
                refused(label, "read-message", inputs, held)
    for octet in range(256):
        label = "dcs-read-old-%02X" % octet
        inputs = {"service": "old", "coding": octet, "count": 0, "octets": old_page([A, B]), "room": 41}
        if octet % 16 == 0:
            accepted(label, "read-message", inputs, reading=PLAIN, out=[A, B])
        else:
            refused(label, "read-message", inputs, 2)


def first_seen(words):
    return list(dict.fromkeys(words))


def written_codings():
    print("\n# Every reading of every service's octets before W3, written: the smallest octet that reads so, or 8.")
    every = first_seen(words for table in EARLIER_CODINGS.values() for words in table)
    odd = ["wap+class1", "8bit+german", "ucs2+english", "ucs2+czech", "compressed+prefix", "8bit+prefix", "class0+prefix",
           "prefix+reserved", "compressed+reserved", "class1+english", "english+deletion", "german+prefix", "ucs2+user1",
           "compressed+user2", "user1+deletion", "wap+compressed", "wap+prefix", "wap+deletion", "wap+reserved",
           "ucs2+discard+active+voicemail", "ucs2+discard+inactive+other", "8bit+store+active+fax",
           "compressed+store+active+mail", "class0+store+inactive+fax", "deletion+discard+active+fax",
           "store+active+other+reserved", "english+store+active+other",
           "wap+compressed+user2+czech+deletion+discard+inactive+other+prefix+reserved"]
    for service, table in CODINGS.items():
        for number, words in enumerate(every + odd):
            label, inputs = "write-dcs-%s-%d" % (service, number), {"service": service, "reading": reading(words)}
            if words != "reserved" and words in table:
                accepted(label, "write-coding", inputs, coding=table.index(words))
            else:
                refused(label, "write-coding", inputs, 8)
    for number, words in enumerate(["plain", "reserved", "8bit", "ucs2", "wap", "compressed", "english", "deletion",
                                    "prefix", "store+active+fax"]):
        refused("write-dcs-old-%d" % number, "write-coding", {"service": "old", "reading": reading(words)}, 8)

    print("\n# Which text each reading holds.")
    for number, words in enumerate(every + odd):
        held = text_held(words)
        label, inputs = "holds-%d" % number, {"reading": reading(words)}
        if held in ("7bit", "ucs2"):
            accepted(label, "holds-text", inputs, holds=held)
        else:
            refused(label, "holds-text", inputs, held)

    print("\n# One letter under each reading: the writer refuses as the reading says, and else writes the smallest octet.")
    for service, table in CODINGS.items():
        for number, words in enumerate(every):
            label = "write-one-%s-%d" % (service, number)
            inputs = {"service": service, "reading": reading(words), "text": [A], "room": 82}
            held = message_held(service, words)
            if words == "reserved" or words not in table:
                refused(label, "write-message", inputs, 8)
            elif held == "7bit":
                accepted(label, "write-message", inputs, count=1 if service == "sms" else 0, coding=table.index(words),
                         out=packed(service, [A]))
            elif held == "ucs2":
                accepted(label, "write-message", inputs, count=2 if service == "sms" else 0, coding=table.index(words),
                         out=ucs2([A] + [CR] * (40 if service == "broadcast" else 0)))
            else:
                refused(label, "write-message", inputs, held)


# ---------------------------------------------------------------------------------------------------------------------
# Lengths and counts

def wrong_lengths():
    print("\n# Short message: the octets are exactly what the count asks. 7n/8 rounded up, for n septets.")
    for n in (0, 1, 2, 6, 7, 8, 9, 15, 16, 17, 80, 159, 160):
        right = -(-7 * n // 8)
        for m in sorted({0, max(0, right - 1), right, right + 1, right + 7, n, 2 * n}):
            octets = [0] * m
            unpack = {"service": "sms", "count": n, "octets": octets, "room": 200}
            read = {"service": "sms", "coding": 0, "count": n, "octets": octets, "room": 200}
            if m == right:
                accepted("len-unpack-sms-%d-%d" % (n, m), "unpack", unpack, out=[0] * n)
                accepted("len-read-sms-%d-%d" % (n, m), "read-message", read, reading=PLAIN, out=[0x40] * n)
            else:
                refused("len-unpack-sms-%d-%d" % (n, m), "unpack", unpack, 4)
                refused("len-read-sms-%d-%d" % (n, m), "read-message", read, 4)

    print("\n# Short message: counts beyond 160, and counts whose sevenfold is small modulo 2 to the 32nd.")
    for n, m in ((161, 141), (162, 142), (65535, 1), (65536, 0), (65537, 1), (613566756, 0), (613566757, 1),
                 (613566758, 2), (1227133514, 1), (2147483648, 0), (4294967295, 0), (4294967295, 1), (4294967295, 140)):
        octets = [0] * m
        refused("count-unpack-%d-%d" % (n, m), "unpack",
                {"service": "sms", "count": n, "octets": octets, "room": 200}, 4)
        refused("count-read-%d-%d" % (n, m), "read-message",
                {"service": "sms", "coding": 0, "count": n, "octets": octets, "room": 200}, 4)
        refused("count-read-ucs2-%d-%d" % (n, m), "read-message",
                {"service": "sms", "coding": 8, "count": n, "octets": octets, "room": 200}, 4)

    print("\n# Short message, UCS2: the count is the octets, even, and not the units or the septets.")
    for m, count in ((0, 0), (0, 1), (0, 2), (1, 1), (1, 0), (2, 2), (2, 1), (2, 3), (3, 3), (3, 4), (4, 2), (4, 4), (139, 139),
                     (140, 140), (140, 70), (140, 160), (140, 139), (140, 142), (141, 141), (142, 142), (160, 160)):
        octets = ([0x00, 0x41] * 80)[:m]
        label = "ucs2-read-sms-%d-%d" % (m, count)
        inputs = {"service": "sms", "coding": 8, "count": count, "octets": octets, "room": 80}
        if m == count and m % 2 == 0 and m <= 140:
            accepted(label, "read-message", inputs, reading=UCS2, out=[A] * (m // 2))
        else:
            refused(label, "read-message", inputs, 4)

    print("\n# The other services have no count.")
    for service, m in (("broadcast", 82), ("ussd", 7), ("ussd", 0), ("old", 82)):
        for count in (1, 7, 8, 82, 93, 4294967295):
            octets = [0] * m
            refused("count-unpack-%s-%d-%d" % (service, m, count), "unpack",
                    {"service": service, "count": count, "octets": octets, "room": 200}, 4)
            refused("count-read-%s-%d-%d" % (service, m, count), "read-message",
                    {"service": service, "coding": PLAIN_CODING[service], "count": count, "octets": octets,
                     "room": 200}, 4)
            if service != "old":
                refused("count-read-ucs2-%s-%d-%d" % (service, m, count), "read-message",
                        {"service": service, "coding": 0x48, "count": count, "octets": octets, "room": 200}, 4)

    print("\n# USSD, UCS2: odd octets at every length.")
    for m in list(range(0, 20)) + [157, 158, 159, 160]:
        octets = ([0x4E, 0x2D] * 80)[:m]
        inputs = {"service": "ussd", "coding": 0x48, "count": 0, "octets": octets, "room": 80}
        if m % 2:
            refused("odd-ussd-%d" % m, "read-message", inputs, 4)
        else:
            accepted("odd-ussd-%d" % m, "read-message", inputs, reading=UCS2, out=[0x4E2D] * (m // 2))


# ---------------------------------------------------------------------------------------------------------------------
# Spare bits

def spare_fillings(septets):
    """The packed septets with each spare bit set alone, and with all of them set."""
    bits = bits_of(septets)
    spare = -len(bits) % 8
    for place in range(spare):
        yield "%d" % place, octets_of(bits + "0" * place + "1")
    yield "all", octets_of(bits + "1" * spare)


def spare_bits():
    print("\n# Spare bits set: readers ignore them.")
    for n in (1, 2, 3, 4, 5, 6, 7, 9, 15, 23, 153, 159):
        septets = [A] * n
        for place, octets in spare_fillings(septets):
            accepted("spare-unpack-sms-%d-%s" % (n, place), "unpack",
                     {"service": "sms", "count": n, "octets": octets, "room": n}, out=septets)
            accepted("spare-read-sms-%d-%s" % (n, place), "read-message",
                     {"service": "sms", "coding": 0, "count": n, "octets": octets, "room": n}, reading=PLAIN, out=septets)
    for n in (1, 2, 3, 4, 5, 6, 9, 10, 17, 182):
        septets = [A] * n
        for place, octets in spare_fillings(septets):
            accepted("spare-unpack-ussd-%d-%s" % (n, place), "unpack",
                     {"service": "ussd", "count": 0, "octets": octets, "room": n}, out=septets)
            accepted("spare-read-ussd-%d-%s" % (n, place), "read-message",
                     {"service": "ussd", "coding": 0x0F, "count": 0, "octets": octets, "room": n}, reading=PLAIN,
                     out=septets)
    for n in (0, 1, 93):
        for place, octets in spare_fillings([A] * n + [CR] * (93 - n)):
            accepted("spare-unpack-broadcast-%d-%s" % (n, place), "unpack",
                     {"service": "broadcast", "count": 0, "octets": octets, "room": n}, out=[A] * n)
            accepted("spare-read-broadcast-%d-%s" % (n, place), "read-message",
                     {"service": "broadcast", "coding": 0x0F, "count": 0, "octets": octets, "room": n}, reading=PLAIN,
                     out=[A] * n)
        for place, octets in spare_fillings([A] * n + [0] * (93 - n)):
            accepted("spare-unpack-old-%d-%s" % (n, place), "unpack",
                     {"service": "old", "count": 0, "octets": octets, "room": n}, out=[A] * n)
            accepted("spare-read-old-%d-%s" % (n, place), "read-message",
                     {"service": "old", "coding": 0, "count": 0, "octets": octets, "room": n}, reading=PLAIN, out=[A] * n)
    print("\n# Seven octets are eight septets in USSD: what looks like seven zero bits is a letter.")
    for last, text in ((0, [A] * 7 + [0x40]), (CR, [A] * 7), (0x7F, [A] * 7 + [0xE0])):
        accepted("spare-ussd-seven-%02X" % last, "read-message",
                 {"service": "ussd", "coding": 0x0F, "count": 0, "octets": octets_of(bits_of([A] * 7 + [last])), "room": 8},
                 reading=PLAIN, out=text)


# ---------------------------------------------------------------------------------------------------------------------
# The alphabet

def alphabet():
    print("\n# Every code of the main table alone, and behind an escape.")
    for code in range(128):
        main = ord(ALPHABET[code]) if code != 0x1B else SPACE
        accepted("code-%02X" % code, "septets-to-text", {"septets": [code], "room": 2}, out=[main])
        behind = ord(EXTENSION[code]) if code in EXTENSION else main
        accepted("code-1B-%02X" % code, "septets-to-text", {"septets": [0x1B, code], "room": 3}, out=[behind])
    listed = {character: [code] for code, character in enumerate(ALPHABET) if code != 0x1B}
    listed.update({character: [0x1B, code] for code, character in EXTENSION.items()})
    print("\n# Units 0000 to 00FF, 0370 to 03CF and 20A0 to 20AF, and some others: the codes of each, or 6.")
    others = [0x0100, 0x011E, 0x0140, 0x2019, 0x201C, 0x2026, 0x221E, 0x2500, 0x3000, 0x4121, 0x4E2D, 0x8000, 0xA5A5, 0xD800,
              0xDBFF, 0xDC00, 0xDFFF, 0xE000, 0xFB01, 0xFEFF, 0xFF01, 0xFF21, 0xFFFD, 0xFFFE, 0xFFFF]
    for unit in list(range(0x100)) + list(range(0x370, 0x3D0)) + list(range(0x20A0, 0x20B0)) + others:
        label, inputs = "unit-%04X" % unit, {"text": [unit], "room": 3}
        if chr(unit) in listed:
            accepted(label, "text-to-septets", inputs, out=listed[chr(unit)])
        else:
            refused(label, "text-to-septets", inputs, 6)
    whole = units(ALPHABET.replace("\x1b", "")) + units(EXTENSION.values())
    septets = [code for unit in whole for code in listed[chr(unit)]]
    accepted("unit-all", "text-to-septets", {"text": whole, "room": 200}, out=septets)
    accepted("code-all", "septets-to-text", {"septets": septets, "room": 200}, out=whole)
    accepted("unit-all-sms", "write-message", {"service": "sms", "reading": PLAIN, "text": whole, "room": 140},
             count=len(septets), coding=0, out=packed("sms", septets))
    accepted("code-all-sms", "read-message", {"service": "sms", "coding": 0, "count": len(septets),
                                              "octets": packed("sms", septets), "room": 160}, reading=PLAIN, out=whole)
    print("\n# The position of an unlisted unit is its unit's and not its septet's; the first counts.")
    for number, (text, position) in enumerate((([0x20AC, 0x20AC, 0x60], 2), ([0x60, 0x60], 0), ([A] * 159 + [0x60], 159),
                                               ([0x20AC] * 200 + [0, 0], 200), ([0xD83D, 0xDE00], 0),
                                               ([A, 0x001B, 0x0065], 1)), 1):
        refused("unlisted-%d" % number, "text-to-septets", {"text": text, "room": 400}, 6, position)
        for service in ("sms", "broadcast", "ussd"):
            refused("unlisted-%s-%d" % (service, number), "write-message",
                    {"service": service, "reading": PLAIN, "text": text, "room": 200}, 6, position)


def escapes():
    print("\n# Lone, doubled and longer runs of escapes.")
    for number, (septets, text) in enumerate((
            ([0x1B], " "), ([0x1B] * 2, " "), ([0x1B] * 3, "  "), ([0x1B] * 4, "  "), ([0x1B] * 5, "   "),
            ([0x1B, 0x1B, 0x65], " e"), ([0x1B, 0x1B, 0x1B, 0x65], " €"), ([0x1B, 0x65, 0x65], "€e"),
            ([A, 0x1B], "A "), ([0x1B, A, 0x1B], "A "), ([0x1B, CR], "\r"), ([0x1B, 0x0A], "\f"), ([0x1B, 0x00], "@"),
            ([0x1B, 0x1B, 0x1B, 0x1B, 0x65], "  e"), ([0x1B, 0x65, 0x1B, 0x65, 0x1B], "€€ "), ([0x65, 0x1B, 0x65], "e€"),
            ([0x1B, 0x3C, 0x1B, 0x3E], "[]"), ([0x0D, 0x1B], "\r "), ([0x1B, 0x11], "_"), ([0x1B, 0x24], "¤")), 1):
        accepted("escape-%d" % number, "septets-to-text", {"septets": septets, "room": 6}, out=units(text))
        accepted("escape-sms-%d" % number, "read-message",
                 {"service": "sms", "coding": 0, "count": len(septets), "octets": packed("sms", septets), "room": 6},
                 reading=PLAIN, out=units(text))
    print("\n# CR septets are dropped before the alphabet is read: an escape in front of them is left alone.")
    for n in (1, 2, 8, 92, 93):
        septets = [A] * (n - 1) + [0x1B]
        octets = packed("broadcast", septets)
        accepted("escape-broadcast-%d" % n, "read-message",
                 {"service": "broadcast", "coding": 0x0F, "count": 0, "octets": octets, "room": 93}, reading=PLAIN,
                 out=[A] * (n - 1) + [SPACE])
    for n, closing, text in ((8, [0x1B, CR], [SPACE]), (16, [0x1B, CR], [SPACE]), (8, [0x1B, 0x1B, CR], [SPACE]),
                             (8, [0x1B, CR, CR], [CR]), (9, [0x1B, CR], [CR]), (7, [0x1B], [SPACE])):
        septets = [A] * (n - len(closing)) + closing
        accepted("escape-ussd-%d-%s" % (n, "".join("%02X" % septet for septet in closing)), "read-message",
                 {"service": "ussd", "coding": 0x0F, "count": 0,
                  "octets": octets_of(bits_of(septets + [CR] * (n % 8 == 7))), "room": 20},
                 reading=PLAIN, out=[A] * (n - len(closing)) + text)
    print("\n# Old page: 11 and 1B are a space each, and there is no extension.")
    for number, (septets, text) in enumerate((
            ([0x11], " "), ([0x1B], " "), ([0x1B, 0x65], " e"), ([0x1B, 0x1B], "  "), ([0x11, 0x1B, 0x11], "   "),
            ([A, 0x1B, 0x3C], "A <"), ([0, 0, A], "@@A"), ([A, CR], "A\r"), ([A, 0, B], "A@B"), ([0x1B, 0], " ")), 1):
        accepted("old-%d" % number, "read-message",
                 {"service": "old", "coding": 0, "count": 0, "octets": old_page(septets), "room": 9}, reading=PLAIN,
                 out=units(text))
    shown = ["\x20" if code in (0x11, 0x1B) else character for code, character in enumerate(ALPHABET)]
    for first in (0x00, 0x23):
        accepted("old-codes-%02X" % first, "read-message",
                 {"service": "old", "coding": 0x70, "count": 0,
                  "octets": old_page(list(range(first, first + 93))), "room": 93}, reading=PLAIN,
                 out=units(shown[first:first + 93]))


# ---------------------------------------------------------------------------------------------------------------------
# Closing septets and units

def closings():
    print("\n# What is dropped at the end, and what is not.")
    for number, septets in enumerate(([CR], [A, CR], [A, CR, CR, CR], [CR, A], [A, CR, B, CR], [0, CR], [A] * 92 + [CR],
                                      [CR] * 93, [A, 0, 0]), 1):
        kept = list(septets)
        while kept and kept[-1] == CR:
            kept.pop()
        accepted("close-unpack-broadcast-%d" % number, "unpack",
                 {"service": "broadcast", "count": 0, "octets": packed("broadcast", septets), "room": 93}, out=kept)
        accepted("close-unpack-sms-%d" % number, "unpack",
                 {"service": "sms", "count": len(septets), "octets": packed("sms", septets), "room": 93}, out=septets)
        kept = list(septets)
        while kept and kept[-1] == 0:
            kept.pop()
        accepted("close-unpack-old-%d" % number, "unpack",
                 {"service": "old", "count": 0, "octets": old_page(septets), "room": 93}, out=kept)
    for m in list(range(1, 16)) + [21, 28, 77, 154, 155, 159, 160]:
        n = 8 * m // 7
        for closing in (1, 2):
            if closing > n:
                continue
            septets = [A] * (n - closing) + [CR] * closing
            accepted("close-unpack-ussd-%d-%d" % (m, closing), "unpack",
                     {"service": "ussd", "count": 0, "octets": octets_of(bits_of(septets)), "room": 182},
                     out=septets[:-1] if m % 7 == 0 else septets)
    print("\n# UCS2: only a broadcast page is filled up with 000D, and only its closing 000D units are dropped.")
    for number, text in enumerate(([CR], [A, CR], [CR, A], [A, CR, CR], [A, CR, B], [0x0D00], [0x0D0D], [0x000D, 0x0D00],
                                   [CR] * 41, [A] * 40 + [CR], [CR] * 40 + [A]), 1):
        kept = list(text)
        while kept and kept[-1] == CR:
            kept.pop()
        page = ucs2(text + [CR] * (41 - len(text)))
        accepted("close-ucs2-write-broadcast-%d" % number, "write-message",
                 {"service": "broadcast", "reading": UCS2, "text": text, "room": 90}, count=0, coding=0x48, out=page)
        accepted("close-ucs2-read-broadcast-%d" % number, "read-message",
                 {"service": "broadcast", "coding": 0x48, "count": 0, "octets": page, "room": 41}, reading=UCS2, out=kept)
        for service, coding, count in (("sms", 0x08, 2 * len(text)), ("ussd", 0x48, 0)):
            accepted("close-ucs2-write-%s-%d" % (service, number), "write-message",
                     {"service": service, "reading": UCS2, "text": text, "room": 90}, count=count, coding=coding,
                     out=ucs2(text))
            accepted("close-ucs2-read-%s-%d" % (service, number), "read-message",
                     {"service": service, "coding": coding, "count": count, "octets": ucs2(text), "room": 41},
                     reading=UCS2, out=text)


# ---------------------------------------------------------------------------------------------------------------------
# Septets of 128 or more, and octets of one value

def large_septets():
    print("\n# Given septets of 128 or more: refused at the first.")
    for number, (septets, position) in enumerate((([0x80], 0), ([0xFF], 0), ([A, 0x80], 1), ([A, 0xC1, 0x80], 1),
                                                  ([0x1B, 0xE5], 1), ([A] * 8 + [0x8D], 8), ([A] * 92 + [0x9B], 92),
                                                  ([0x7F, 0x7F, 0x80, 0xFF], 2)), 1):
        refused("large-to-text-%d" % number, "septets-to-text", {"septets": septets, "room": 200}, 9, position)
        for service in ("sms", "broadcast", "ussd"):
            refused("large-%s-%d" % (service, number), "pack", {"service": service, "septets": septets, "room": 200}, 9,
                    position)
    for service in ("sms", "broadcast", "ussd"):
        accepted("large-%s-7F" % service, "pack", {"service": service, "septets": [0x7F] * 9, "room": 82},
                 count=9 if service == "sms" else 0, out=packed(service, [0x7F] * 9))
    print("\n# Octets all FF.")
    accepted("ones-sms", "unpack", {"service": "sms", "count": 160, "octets": [0xFF] * 140, "room": 160}, out=[0x7F] * 160)
    accepted("ones-broadcast", "unpack", {"service": "broadcast", "count": 0, "octets": [0xFF] * 82, "room": 93},
             out=[0x7F] * 93)
    accepted("ones-ussd", "unpack", {"service": "ussd", "count": 0, "octets": [0xFF] * 160, "room": 182}, out=[0x7F] * 182)
    accepted("ones-old", "unpack", {"service": "old", "count": 0, "octets": [0xFF] * 82, "room": 93}, out=[0x7F] * 93)


def main():
    print(HEADER, end="")
    all_codings()
    written_codings()
    wrong_lengths()
    spare_bits()
    alphabet()
    escapes()
    closings()
    large_septets()


if __name__ == "__main__":
    main()
