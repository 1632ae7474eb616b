"""Writes vectors/limits.txt: both sides of every size, and the order of refusals.

    python3 independent/limits.py > vectors/limits.txt

Every answer is stated by rule, with independent/rules.py. None comes from the second implementation.
"""

from rules import CR, PLAIN_CODING, SIZE, UCS2_CODING, UNITS, accepted, bits_of, octets_of, packed, reading, refused, ucs2

HEADER = """\
# Limits of document 01, "Services and their sizes" and "Refusal numbers and their order": written by
# independent/limits.py. The answer of every line is stated there by rule; none comes from the second implementation.
# 41 is the letter "A". A pair of refusals is an input that deserves both, and gets the earlier.
"""

A, EURO, HAN = 0x41, 0x20AC, 0x4E2D
PLAIN = reading("plain")
UCS2 = reading("ucs2")


def around(size):
    return sorted({0, 1, size - 1, size, size + 1, size + 2, 256, 300})


def count_of(service, n):
    return n if service == "sms" else 0


# ---------------------------------------------------------------------------------------------------------------------
# Packing alone: every length of every service, and the closing CR of USSD.

def pack_lengths():
    print("\n# Packing alone, every length: n times \"A\".")
    for service, size in SIZE.items():
        for n in list(range(size + 3)) + [256, 300]:
            label = "lim-pack-%s-%d" % (service, n)
            septets = [A] * n
            if n <= size:
                octets = packed(service, septets)
                accepted(label, "pack", {"service": service, "septets": septets, "room": len(octets)},
                         count=count_of(service, n), out=octets)
            else:
                refused(label, "pack", {"service": service, "septets": septets, "room": 400}, 5)
    print("\n# Packing alone, USSD that closes in one CR or two, where a CR is added and where none is.")
    for n in [1, 2, 6, 7, 8, 9, 10, 14, 15, 16, 17, 87, 88, 89, 159, 160, 161, 174, 175, 176, 177, 181, 182]:
        for closing in (1, 2):
            if closing <= n:
                septets = [A] * (n - closing) + [CR] * closing
                accepted("lim-pack-ussd-%d-cr%d" % (n, closing), "pack",
                         {"service": "ussd", "septets": septets, "room": 160}, count=0, out=packed("ussd", septets))


# ---------------------------------------------------------------------------------------------------------------------
# Unpacking alone.

def unpack_lengths():
    print("\n# Unpacking alone, every length.")
    for n in range(161):
        accepted("lim-unpack-sms-%d" % n, "unpack",
                 {"service": "sms", "count": n, "octets": packed("sms", [A] * n), "room": n}, out=[A] * n)
    for n in (161, 162, 168, 182, 300):
        refused("lim-unpack-sms-%d" % n, "unpack",
                {"service": "sms", "count": n, "octets": packed("sms", [A] * n), "room": 400}, 4)
    for m in range(161):
        septets = [A] * (8 * m // 7)
        octets = octets_of(bits_of(septets))
        accepted("lim-unpack-ussd-%d" % m, "unpack",
                 {"service": "ussd", "count": 0, "octets": octets, "room": len(septets)}, out=septets)
    for m in (161, 162, 168, 182, 300):
        refused("lim-unpack-ussd-%d" % m, "unpack", {"service": "ussd", "count": 0, "octets": [0] * m, "room": 400}, 4)
    for service in ("broadcast", "old"):
        for m in (0, 1, 41, 80, 81, 82, 83, 84, 88, 93, 140, 160, 164, 300):
            inputs = {"service": service, "count": 0, "octets": [0] * m, "room": 93}
            label = "lim-unpack-%s-%d" % (service, m)
            if m != 82:
                refused(label, "unpack", inputs, 4)
            elif service == "broadcast":
                accepted(label, "unpack", inputs, out=[0] * 93)
            else:
                accepted(label, "unpack", inputs, out=[])
    for n in range(93, -1, -1):
        accepted("lim-unpack-broadcast-text-%d" % n, "unpack",
                 {"service": "broadcast", "count": 0, "octets": packed("broadcast", [A] * n), "room": n}, out=[A] * n)
        accepted("lim-unpack-old-text-%d" % n, "unpack",
                 {"service": "old", "count": 0, "octets": octets_of(bits_of([A] * n + [0] * (93 - n))), "room": n},
                 out=[A] * n)


# ---------------------------------------------------------------------------------------------------------------------
# Whole messages.

def write_seven(label, service, text, septets, room=None):
    """A 7-bit message, whose septets are given beside the text."""
    inputs = {"service": service, "reading": PLAIN, "text": text}
    if len(septets) <= SIZE[service]:
        octets = packed(service, septets)
        accepted(label, "write-message", {**inputs, "room": len(octets) if room is None else room},
                 count=count_of(service, len(septets)), coding=PLAIN_CODING[service], out=octets)
    else:
        refused(label, "write-message", {**inputs, "room": 400}, 5)


def write_lengths():
    print("\n# Whole writer, 7-bit: letters; euro signs, two septets each; letters and one euro sign.")
    for service, size in SIZE.items():
        for n in around(size):
            write_seven("lim-write-%s-%d" % (service, n), service, [A] * n, [A] * n)
        for n in (1, size // 2 - 1, size // 2, size // 2 + 1, size, 300):
            write_seven("lim-write-%s-euro-%d" % (service, n), service, [EURO] * n, [0x1B, 0x65] * n)
        for n in (size - 3, size - 2, size - 1, size):
            write_seven("lim-write-%s-last-euro-%d" % (service, n), service, [A] * n + [EURO], [A] * n + [0x1B, 0x65])
            write_seven("lim-write-%s-first-euro-%d" % (service, n), service, [EURO] + [A] * n, [0x1B, 0x65] + [A] * n)
    print("\n# Whole writer, USSD: the size is judged before a CR is added.")
    for n in (6, 7, 8, 9, 15, 16, 174, 175, 176, 177, 181, 182):
        for closing in (1, 2):
            write_seven("lim-write-ussd-%d-cr%d" % (n, closing), "ussd", [A] * (n - closing) + [0x000D] * closing,
                        [A] * (n - closing) + [CR] * closing, 160)
    print("\n# Whole writer, UCS2.")
    for service, size in UNITS.items():
        for n in around(size):
            label = "lim-write-%s-ucs2-%d" % (service, n)
            inputs = {"service": service, "reading": UCS2, "text": [HAN] * n}
            if n <= size:
                octets = ucs2([HAN] * n + [0x000D] * (41 - n if service == "broadcast" else 0))
                accepted(label, "write-message", {**inputs, "room": len(octets)}, count=count_of(service, 2 * n),
                         coding=UCS2_CODING[service], out=octets)
            else:
                refused(label, "write-message", {**inputs, "room": 700}, 5)


def read_lengths():
    print("\n# Whole reader, 7-bit.")
    for n in (0, 1, 7, 8, 9, 159, 160):
        accepted("lim-read-sms-%d" % n, "read-message",
                 {"service": "sms", "coding": 0, "count": n, "octets": packed("sms", [A] * n), "room": n},
                 reading=PLAIN, out=[A] * n)
    for n in (161, 162, 168, 300):
        refused("lim-read-sms-%d" % n, "read-message",
                {"service": "sms", "coding": 0, "count": n, "octets": packed("sms", [A] * n), "room": 400}, 4)
    for m in (0, 1, 6, 7, 8, 14, 154, 158, 159, 160):
        n = 8 * m // 7
        accepted("lim-read-ussd-%d" % m, "read-message",
                 {"service": "ussd", "coding": 0x0F, "count": 0, "octets": octets_of(bits_of([A] * n)), "room": n},
                 reading=PLAIN, out=[A] * n)
    for m in (161, 162, 168, 300):
        refused("lim-read-ussd-%d" % m, "read-message",
                {"service": "ussd", "coding": 0x0F, "count": 0, "octets": [A] * m, "room": 400}, 4)
    for n in (0, 1, 92, 93):
        accepted("lim-read-broadcast-%d" % n, "read-message",
                 {"service": "broadcast", "coding": 0x0F, "count": 0, "octets": packed("broadcast", [A] * n), "room": n},
                 reading=PLAIN, out=[A] * n)
        accepted("lim-read-old-%d" % n, "read-message",
                 {"service": "old", "coding": 0, "count": 0, "octets": octets_of(bits_of([A] * n + [0] * (93 - n))),
                  "room": n}, reading=PLAIN, out=[A] * n)
    for service in ("broadcast", "old"):
        for m in (0, 80, 81, 83, 84, 140, 300):
            refused("lim-read-%s-octets-%d" % (service, m), "read-message",
                    {"service": service, "coding": PLAIN_CODING[service], "count": 0, "octets": [0] * m, "room": 400}, 4)
    print("\n# Whole reader, UCS2.")
    for service in UNITS:
        for m in (0, 1, 2, 3, 80, 81, 82, 83, 84, 138, 139, 140, 141, 142, 158, 159, 160, 161, 162, 300):
            label = "lim-read-%s-ucs2-%d" % (service, m)
            octets = ([0x4E, 0x2D] * m)[:m]
            inputs = {"service": service, "coding": UCS2_CODING[service], "count": count_of(service, m),
                      "octets": octets, "room": 200}
            largest = {"sms": 140, "broadcast": 82, "ussd": 160}[service]
            if m % 2 == 0 and (m == 82 if service == "broadcast" else m <= largest):
                accepted(label, "read-message", inputs, reading=UCS2, out=[HAN] * (m // 2))
            else:
                refused(label, "read-message", inputs, 4)


def unlimited():
    print("\n# Text to septets and septets to text have no size but the room.")
    for n in (0, 1, 93, 160, 161, 182, 183, 300, 1000):
        accepted("lim-to-septets-%d" % n, "text-to-septets", {"text": [A] * n, "room": n}, out=[A] * n)
        accepted("lim-to-septets-euro-%d" % n, "text-to-septets", {"text": [EURO] * n, "room": 2 * n},
                 out=[0x1B, 0x65] * n)
        accepted("lim-to-text-%d" % n, "septets-to-text", {"septets": [A] * n, "room": n}, out=[A] * n)
        accepted("lim-to-text-euro-%d" % n, "septets-to-text", {"septets": [0x1B, 0x65] * n, "room": n}, out=[EURO] * n)


# ---------------------------------------------------------------------------------------------------------------------
# Rooms.

def room_case(label, call, inputs, answer):
    """The call with a room that is large, exact, one short, and none."""
    needed = len(answer["out"])
    for room in sorted({0, max(0, needed - 1), needed, needed + 1, needed + 40}):
        given = {**inputs, "room": room}
        if room >= needed:
            accepted("%s-%d" % (label, room), call, given, **answer)
        else:
            refused("%s-%d" % (label, room), call, given, 7)


def rooms():
    print("\n# Rooms: exact, one short, none, larger.")
    for service, size in SIZE.items():
        for n in (0, 1, 7, 8, 9, size):
            septets = [A] * n
            octets = packed(service, septets)
            room_case("room-pack-%s-%d" % (service, n), "pack", {"service": service, "septets": septets},
                      {"count": count_of(service, n), "out": octets})
            room_case("room-write-%s-%d" % (service, n), "write-message",
                      {"service": service, "reading": PLAIN, "text": septets},
                      {"count": count_of(service, n), "coding": PLAIN_CODING[service], "out": octets})
            room_case("room-unpack-%s-%d" % (service, n), "unpack",
                      {"service": service, "count": count_of(service, n), "octets": octets}, {"out": septets})
            room_case("room-read-%s-%d" % (service, n), "read-message",
                      {"service": service, "coding": PLAIN_CODING[service], "count": count_of(service, n),
                       "octets": octets}, {"reading": PLAIN, "out": septets})
        for n in (0, 1, UNITS[service]):
            octets = ucs2([HAN] * n + [0x000D] * (41 - n if service == "broadcast" else 0))
            room_case("room-write-%s-ucs2-%d" % (service, n), "write-message",
                      {"service": service, "reading": UCS2, "text": [HAN] * n},
                      {"count": count_of(service, 2 * n), "coding": UCS2_CODING[service], "out": octets})
            room_case("room-read-%s-ucs2-%d" % (service, n), "read-message",
                      {"service": service, "coding": UCS2_CODING[service], "count": count_of(service, 2 * n),
                       "octets": octets}, {"reading": UCS2, "out": [HAN] * n})
    for n in (0, 1, 93):
        page = octets_of(bits_of([A] * n + [0] * (93 - n)))
        room_case("room-unpack-old-%d" % n, "unpack", {"service": "old", "count": 0, "octets": page}, {"out": [A] * n})
        room_case("room-read-old-%d" % n, "read-message", {"service": "old", "coding": 0, "count": 0, "octets": page},
                  {"reading": PLAIN, "out": [A] * n})
    for n in (0, 1, 2, 160):
        room_case("room-to-septets-%d" % n, "text-to-septets", {"text": [A] * n}, {"out": [A] * n})
        room_case("room-to-septets-euro-%d" % n, "text-to-septets", {"text": [EURO] * n}, {"out": [0x1B, 0x65] * n})
        room_case("room-to-text-%d" % n, "septets-to-text", {"septets": [A] * n}, {"out": [A] * n})
        room_case("room-to-text-euro-%d" % n, "septets-to-text", {"septets": [0x1B, 0x65] * n}, {"out": [EURO] * n})
    print("\n# A room is held against what is written: added septets count, dropped ones do not.")
    eight_octets = [0x41, 0xE1, 0x90, 0x58, 0x34, 0x1E, 0x1B, 0x0D]  # ABCDEFG, CR, and the added CR
    room_case("room-added-cr", "pack", {"service": "ussd", "septets": [0x41, 0x42, 0x43, 0x44, 0x45, 0x46, 0x47, 0x0D]},
              {"count": 0, "out": eight_octets})
    room_case("room-dropped-cr", "unpack", {"service": "ussd", "count": 0, "octets": eight_octets[:7]},
              {"out": [0x41, 0x42, 0x43, 0x44, 0x45, 0x46, 0x47]})


# ---------------------------------------------------------------------------------------------------------------------
# Pairs of refusals.

def pairs():
    bad = [A] * 300 + [HAN]                # deserves 6 at 300, and 5
    print("\n# Pairs of the whole writer: 8, 1, 2, 3, 6, 5, 7; a broadcast has 11 for the prefix mark.")
    for earlier, later, service, words, text, room, position in (
            (8, 1, "ussd", "compressed+deletion", [A], 160, 0),
            (8, 1, "sms", "compressed+reserved", [A], 160, 0),
            (8, 1, "old", "compressed", [A], 160, 0),
            (8, 2, "sms", "wap", [A], 160, 0),
            (8, 2, "old", "8bit", [A], 160, 0),
            (8, 2, "broadcast", "8bit+german", [A], 160, 0),
            (8, 3, "sms", "prefix", [A], 160, 0),
            (8, 3, "sms", "ucs2+prefix", [A], 160, 0),
            (8, 3, "broadcast", "english+prefix", [A], 160, 0),
            (8, 6, "old", "plain", [HAN], 160, 0),
            (8, 6, "sms", "reserved", [HAN], 160, 0),
            (8, 5, "old", "plain", [A] * 300, 160, 0),
            (8, 5, "ussd", "deletion", [A] * 300, 160, 0),
            (8, 5, "sms", "ucs2+discard+active+fax", [A] * 300, 160, 0),
            (8, 7, "old", "plain", [A], 0, 0),
            (8, 7, "sms", "english", [A], 0, 0),
            (8, 7, "broadcast", "class1+deletion", [A], 0, 0),
            (1, 2, "sms", "8bit+compressed", [A], 160, 0),
            (1, 2, "broadcast", "8bit+compressed+class0", [A], 160, 0),
            (1, 6, "sms", "compressed", [HAN], 160, 0),
            (1, 5, "sms", "compressed", [A] * 300, 160, 0),
            (1, 5, "ussd", "ucs2+compressed", [A] * 300, 160, 0),
            (1, 7, "sms", "compressed", [A], 0, 0),
            (2, 6, "sms", "8bit", [HAN], 160, 0),
            (2, 6, "broadcast", "wap", [HAN], 160, 0),
            (2, 5, "sms", "8bit", [A] * 300, 160, 0),
            (2, 5, "ussd", "wap", [A] * 300, 160, 0),
            (2, 7, "sms", "8bit+class2", [A], 0, 0),
            (2, 7, "broadcast", "wap", [A], 0, 0),
            (3, 6, "broadcast", "prefix", [HAN], 160, 0),
            (3, 5, "broadcast", "prefix", [A] * 300, 160, 0),
            (3, 5, "ussd", "ucs2+prefix", [A] * 300, 160, 0),
            (3, 7, "ussd", "prefix", [A], 0, 0),
            (6, 5, "sms", "plain", bad, 400, 300),
            (6, 5, "broadcast", "plain", bad, 400, 300),
            (6, 5, "ussd", "plain", bad, 400, 300),
            (6, 5, "sms", "plain", [HAN] + [A] * 300, 400, 0),
            (6, 7, "sms", "plain", [A, A, HAN], 0, 2),
            (6, 7, "broadcast", "plain", [A, A, HAN], 0, 2),
            (6, 7, "ussd", "plain", [A, A, HAN], 2, 2),
            (5, 7, "sms", "plain", [A] * 161, 0, 0),
            (5, 7, "sms", "plain", [A] * 161, 140, 0),
            (5, 7, "broadcast", "plain", [A] * 94, 81, 0),
            (5, 7, "ussd", "plain", [A] * 183, 160, 0),
            (5, 7, "sms", "ucs2", [HAN] * 71, 140, 0),
            (5, 7, "broadcast", "ucs2", [HAN] * 42, 82, 0),
            (5, 7, "ussd", "ucs2", [HAN] * 81, 0, 0)):
        refused(pair_label("write", earlier, later), "write-message",
                {"service": service, "reading": reading(words), "text": text, "room": room},
                11 if earlier == 3 and service == "broadcast" else earlier, position)

    print("\n# Pairs of the whole reader: 1, 2, 3, 4, 7; a broadcast 1, 2, 4, 11, 7. W3's are in release9.txt.")
    two = [0x41, 0x21]
    for earlier, later, service, coding, count, octets, room in (
            (1, 2, "sms", 0x24, 2, two, 160),
            (1, 2, "ussd", 0x64, 0, two, 160),
            (1, 4, "sms", 0x20, 3, two, 160),
            (1, 4, "broadcast", 0x68, 0, two, 160),
            (1, 7, "sms", 0x28, 2, two, 0),
            (2, 4, "sms", 0x04, 9, two, 160),
            (2, 4, "broadcast", 0xE0, 0, two, 160),
            (2, 4, "ussd", 0x44, 1, two, 160),
            (2, 4, "old", 0x01, 0, two, 160),
            (2, 7, "sms", 0xF4, 2, two, 0),
            (2, 7, "ussd", 0xEF, 0, two, 0),
            (2, 7, "old", 0x0F, 0, [A] * 82, 0),
            (3, 4, "broadcast", 0x10, 0, two, 160),
            (3, 4, "ussd", 0x11, 0, two + [0], 160),
            (3, 7, "ussd", 0x10, 0, two, 0),
            (3, 7, "broadcast", 0x11, 0, [A] * 82, 0),
            (4, 7, "sms", 0x00, 3, two, 0),
            (4, 7, "sms", 0x08, 3, two + [0], 0),
            (4, 7, "broadcast", 0x0F, 0, [A] * 81, 0),
            (4, 7, "broadcast", 0x0F, 82, [A] * 82, 0),
            (4, 7, "ussd", 0x0F, 1, two, 0),
            (4, 7, "ussd", 0x48, 0, two + [0], 0),
            (4, 7, "old", 0x00, 0, [A] * 83, 0)):
        refused(pair_label("read", earlier, later), "read-message",
                {"service": service, "coding": coding, "count": count, "octets": octets, "room": room},
                {4: 4, 7: 11}[later] if earlier == 3 and service == "broadcast" else earlier)

    print("\n# Pairs of packing alone: 8, 9, 5, 7.")
    for earlier, later, service, septets, room, position in (
            (8, 9, "old", [A, 0x80], 82, 0),
            (8, 5, "old", [A] * 94, 82, 0),
            (8, 7, "old", [A], 0, 0),
            (9, 5, "sms", [A] * 160 + [0x80], 200, 160),
            (9, 5, "broadcast", [A] * 300 + [0xFF], 200, 300),
            (9, 5, "ussd", [0x8D] + [A] * 182, 200, 0),
            (9, 7, "sms", [A, A, 0x9B], 0, 2),
            (9, 7, "broadcast", [A, 0x9B], 81, 1),
            (9, 7, "ussd", [A, 0x9B, 0x9B], 0, 1),
            (5, 7, "sms", [A] * 161, 140, 0),
            (5, 7, "broadcast", [A] * 94, 81, 0),
            (5, 7, "ussd", [A] * 183, 0, 0)):
        refused(pair_label("pack", earlier, later), "pack", {"service": service, "septets": septets, "room": room},
                earlier, position)

    print("\n# Pairs of unpacking alone: 4, 7.")
    for service, count, octets in (("sms", 3, two), ("sms", 161, [A] * 141), ("broadcast", 0, [A] * 81),
                                   ("broadcast", 93, [A] * 82), ("ussd", 0, [A] * 161), ("ussd", 2, two),
                                   ("old", 0, [A] * 83)):
        refused(pair_label("unpack", 4, 7), "unpack",
                {"service": service, "count": count, "octets": octets, "room": 0}, 4)

    print("\n# Pairs of text to septets: 6, 7. Of septets to text: 9, 7. Of holding text: 1, 2, 3.")
    refused(pair_label("to-septets", 6, 7), "text-to-septets", {"text": [A, EURO, HAN], "room": 0}, 6, 2)
    refused(pair_label("to-septets", 6, 7), "text-to-septets", {"text": [HAN], "room": 0}, 6, 0)
    refused(pair_label("to-text", 9, 7), "septets-to-text", {"septets": [A, 0x1B, 0x80], "room": 0}, 9, 2)
    refused(pair_label("to-text", 9, 7), "septets-to-text", {"septets": [0xFF], "room": 0}, 9, 0)
    for earlier, later, words in ((1, 2, "8bit+compressed"), (1, 2, "wap+compressed"), (1, 3, "compressed+prefix"),
                                  (2, 3, "8bit+prefix"), (2, 3, "wap+prefix"), (1, 3, "ucs2+compressed+prefix")):
        refused(pair_label("holds", earlier, later), "holds-text", {"reading": reading(words)}, earlier)


PAIRS = {}


def pair_label(call, earlier, later):
    """pair-CALL-EARLIER-LATER, and a number for each further one. A label that names a broadcast's 3 is from before W2."""
    name = "pair-%s-%d-%d" % (call, earlier, later)
    PAIRS[name] = PAIRS.get(name, 0) + 1
    return name if PAIRS[name] == 1 else "%s-%d" % (name, PAIRS[name])


def main():
    PAIRS.clear()
    print(HEADER, end="")
    pack_lengths()
    unpack_lengths()
    write_lengths()
    read_lengths()
    unlimited()
    rooms()
    pairs()


if __name__ == "__main__":
    main()
