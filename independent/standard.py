"""Writes vectors/standard.txt: the worked packings of TS 23.038 Release 9, 6.1.2, with numbers put in.

    python3 independent/standard.py > vectors/standard.txt

The standard draws each packing as a table of bits, octet by octet, bit 7 first; 3f is bit f of character 3, and a is a
character's highest bit. The tables stand below as printed. The octets come from looking the bits up in the table, cell
by cell, and from no rule of packing.
"""

HEADER = """\
# The worked packings of TS 23.038 Release 9, 6.1.2.1.1, 6.1.2.2.1 and 6.1.2.3.1: written by independent/standard.py,
# which holds the standard's tables of bits as printed and looks each octet up in them, bit by bit.
# Each table is filled with 7F at one character and 00 at the others, for each character; then with mixed values.
# Where the crawled text has lost a cell (6.1.2.2.1, octet 82) the standard's words count: the last 5 bits are zero.
"""

ROWS = {
    "one": "0 1a 1b 1c 1d 1e 1f 1g",
    1: "2g 1a 1b 1c 1d 1e 1f 1g",
    2: "3f 3g 2a 2b 2c 2d 2e 2f",
    3: "4e 4f 4g 3a 3b 3c 3d 3e",
    4: "5d 5e 5f 5g 4a 4b 4c 4d",
    5: "6c 6d 6e 6f 6g 5a 5b 5c",
    6: "7b 7c 7d 7e 7f 7g 6a 6b",
    7: "8a 8b 8c 8d 8e 8f 8g 7a",
    8: "10g 9a 9b 9c 9d 9e 9f 9g",
    9: "11f 11g 10a 10b 10c 10d 10e 10f",
    10: "12e 12f 12g 11a 11b 11c 11d 11e",
    11: "13d 13e 13f 13g 12a 12b 12c 12d",
    12: "14c 14d 14e 14f 14g 13a 13b 13c",
    13: "15b 15c 15d 15e 15f 15g 14a 14b",
    14: "16a 16b 16c 16d 16e 16f 16g 15a",
}
TWO_END = "0 0 2a 2b 2c 2d 2e 2f"
THREE_END = "0 0 0 3a 3b 3c 3d 3e"
SIX_END = "0 0 0 0 0 0 6a 6b"
SEVEN_END = "0 0 0 0 0 0 0 7a"
SEVEN_END_USSD = "0 0 0 1 1 0 1 7a"
NINE_END = "0 9a 9b 9c 9d 9e 9f 9g"
FIFTEEN_END_USSD = "0 0 0 1 1 0 1 15a"


def rows(*names):
    return [ROWS.get(name, name) for name in names]


# Clause, service, characters, table.
TABLES = [
    ("6.1.2.1.1", "sms", 1, rows("one")),
    ("6.1.2.1.1", "sms", 2, rows(1, TWO_END)),
    ("6.1.2.1.1", "sms", 3, rows(1, 2, THREE_END)),
    ("6.1.2.1.1", "sms", 7, rows(1, 2, 3, 4, 5, 6, SEVEN_END)),
    ("6.1.2.1.1", "sms", 8, rows(1, 2, 3, 4, 5, 6, 7)),
    ("6.1.2.3.1", "ussd", 1, rows("one")),
    ("6.1.2.3.1", "ussd", 2, rows(1, TWO_END)),
    ("6.1.2.3.1", "ussd", 3, rows(1, 2, THREE_END)),
    ("6.1.2.3.1", "ussd", 6, rows(1, 2, 3, 4, 5, SIX_END)),
    ("6.1.2.3.1", "ussd", 7, rows(1, 2, 3, 4, 5, 6, SEVEN_END_USSD)),
    ("6.1.2.3.1", "ussd", 8, rows(1, 2, 3, 4, 5, 6, 7)),
    ("6.1.2.3.1", "ussd", 9, rows(1, 2, 3, 4, 5, 6, 7, NINE_END)),
    ("6.1.2.3.1", "ussd", 15, rows(1, 2, 3, 4, 5, 6, 7, 8, 9, 10, 11, 12, 13, FIFTEEN_END_USSD)),
    ("6.1.2.3.1", "ussd", 16, rows(1, 2, 3, 4, 5, 6, 7, 8, 9, 10, 11, 12, 13, 14)),
]


def page_table():
    """6.1.2.2.1 prints octets 1 to 8, 81 and 82. Octets 9 to 80 go on as 1 to 7 do, seven octets for 8 characters."""
    table = []
    for octet in range(80):
        step = 8 * (octet // 7)
        table.append(" ".join(str(int(cell[:-1]) + step) + cell[-1] for cell in ROWS[octet % 7 + 1].split()))
    assert table[7] == ROWS[8]
    return table + ["93d 93e 93f 93g 92a 92b 92c 92d", "0 0 0 0 0 93a 93b 93c"]


def looked_up(table, septets):
    """The octets of a table: each cell is 0, 1, or a character's number and the letter of its bit."""
    octets = []
    for row in table:
        octet = 0
        for cell in row.split():
            if cell in "01":
                value = int(cell)
            else:
                value = (septets[int(cell[:-1]) - 1] >> "gfedcba".index(cell[-1])) & 1
            octet = 2 * octet + value
        octets.append(octet)
    return octets


def printed(elements):
    return "".join("%02X" % element for element in elements) or "-"


def both(label, service, septets, octets):
    """The packing and the unpacking."""
    count = len(septets) if service == "sms" else 0
    print("%s-p pack service=%s septets=%s room=%d : refusal=0 position=0 written=%d count=%d out=%s"
          % (label, service, printed(septets), len(octets) + 2, len(octets), count, printed(octets)))
    print("%s-u unpack service=%s count=%d octets=%s room=%d : refusal=0 position=0 written=%d out=%s"
          % (label, service, count, printed(octets), len(septets) + 2, len(septets), printed(septets)))


def fillings(n):
    for place in range(n):
        yield [0x7F if k == place else 0 for k in range(n)]
    yield [0x7F] * n
    yield [0x41 + k % 26 for k in range(n)]
    yield [(29 * k + 0x55) % 128 for k in range(n)]


def main():
    print(HEADER, end="")
    for clause, service, n, table in TABLES:
        print("\n# %s, %s: %d %s in %d %s." % (clause, service, n, "character" if n == 1 else "characters", len(table),
                                               "octet" if len(table) == 1 else "octets"))
        for number, septets in enumerate(fillings(n), 1):
            assert septets[-1] != 0x0D
            both("std-%s-%d-%d" % (service, n, number), service, septets, looked_up(table, septets))

    print("\n# 6.1.2.2.1, broadcast: 93 characters in 82 octets.")
    table = page_table()
    for number, septets in enumerate(fillings(93), 1):
        assert septets[-1] != 0x0D
        if number < 89 and number % 4 != 1:
            continue  # every fourth character is enough, and each of the last five
        both("std-broadcast-93-%d" % number, "broadcast", septets, looked_up(table, septets))

    print("\n# 6.2.1, broadcast: a shorter page is filled up with CR, which is 0D.")
    for n in (0, 1, 7, 8, 41, 92):
        septets = [0x41 + k % 26 for k in range(n)]
        both("std-broadcast-%d" % n, "broadcast", septets, looked_up(table, septets + [0x0D] * (93 - n)))

    print("\n# 6.1.2.3.1, ussd: CR is the last character and ends on an octet boundary: another CR and a padding bit 0.")
    print("# The octets are those of the table of nine characters. Read, they are nine characters, the last two CR.")
    nine = TABLES[11][3]
    for number, front in enumerate(([0] * 7, [0x7F] * 7, [0x41 + k for k in range(7)], [0x0D] * 7), 1):
        octets = looked_up(nine, front + [0x0D, 0x0D])
        print("std-ussd-cr-%d-p pack service=ussd septets=%s room=8 : refusal=0 position=0 written=8 count=0 out=%s"
              % (number, printed(front + [0x0D]), printed(octets)))
        print("std-ussd-cr-%d-u unpack service=ussd count=0 octets=%s room=9 : refusal=0 position=0 written=9 out=%s"
              % (number, printed(octets), printed(front + [0x0D, 0x0D])))

    print("\n# 6.1.2.3.1, ussd: the receiver removes a final CR where the message ends on an octet boundary.")
    eight = TABLES[10][3]
    for number, front in enumerate(([0] * 7, [0x7F] * 7, [0x41 + k for k in range(7)], [0x0D] * 7), 1):
        print("std-ussd-final-%d unpack service=ussd count=0 octets=%s room=8 : refusal=0 position=0 written=7 out=%s"
              % (number, printed(looked_up(eight, front + [0x0D])), printed(front)))

    print("\n# 6.2.1.1: escape and an unlisted code show the main table's character; the second escape is a space.")
    print("std-escape-1 septets-to-text septets=1B41 room=4 : refusal=0 position=0 written=1 out=0041")
    print("std-escape-2 septets-to-text septets=1B1B room=4 : refusal=0 position=0 written=1 out=0020")
    print("std-escape-3 septets-to-text septets=1B65 room=4 : refusal=0 position=0 written=1 out=20AC")


if __name__ == "__main__":
    main()
