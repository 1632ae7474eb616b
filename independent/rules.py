"""The rules of documents 01 and 02 once more, in another form, for the programs that write vectors.

Nothing here calls the second implementation: the alphabet is characters and not numbers, packing is a string of bits,
and a data coding octet is a pattern of eight bits. Of cases.py only the spelling of a case is used.

The broadcast and USSD table is W3's. Files of before W3 choose their lines by the table of that time, so that each line
keeps its place and its inputs, and state their answers by W3's.
"""

from cases import REFUSED, parse_reading, print_case

CR = 0x0D
SIZE = {"sms": 160, "broadcast": 93, "ussd": 182}       # septets
UNITS = {"sms": 70, "broadcast": 41, "ussd": 80}        # UCS2 units
PLAIN_CODING = {"sms": 0x00, "broadcast": 0x0F, "ussd": 0x0F, "old": 0x00}
UCS2_CODING = {"sms": 0x08, "broadcast": 0x48, "ussd": 0x48}

# The main table, code 00 first. The character at 1B is the escape, which is no letter.
ALPHABET = ("@£$¥èéùìòÇ\nØø\rÅåΔ_ΦΓΛΩΠΨΣΘΞ\x1bÆæßÉ !\"#¤%&'()*+,-./0123456789:;<=>?"
            "¡ABCDEFGHIJKLMNOPQRSTUVWXYZÄÖÑÜ§¿abcdefghijklmnopqrstuvwxyzäöñüà")
EXTENSION = {0x0A: "\f", 0x14: "^", 0x28: "{", 0x29: "}", 0x2F: "\\", 0x3C: "[", 0x3D: "~", 0x3E: "]", 0x40: "|",
             0x65: "€"}


# ---------------------------------------------------------------------------------------------------------------------
# Cases

def accepted(label, call, inputs, **answer):
    """Prints a case that the call accepts. What is written is as long as what is stated as out."""
    if "out" in answer:
        answer["written"] = len(answer["out"])
    print(print_case(label, call, inputs, {"refusal": 0, "position": 0, **answer}))


def refused(label, call, inputs, number, position=0, **answer):
    """Prints a case that the call refuses. Only what its answer holds of its own is stated."""
    print(print_case(label, call, inputs, {**REFUSED, "refusal": number, "position": position, **answer}))


def reading(words):
    return parse_reading(words)


def units(characters):
    return [ord(character) for character in characters]


# ---------------------------------------------------------------------------------------------------------------------
# Packing as a string of bits, the first bit of the stream first

def bits_of(septets):
    return "".join(format(septet, "07b")[::-1] for septet in septets)


def octets_of(bits):
    bits += "0" * (-len(bits) % 8)
    return [int(bits[at:at + 8][::-1], 2) for at in range(0, len(bits), 8)]


def packed(service, septets):
    n = len(septets)
    if service == "broadcast":
        return octets_of(bits_of(septets + [CR] * (93 - n)))
    if service == "ussd" and (n % 8 == 7 or n > 0 and n % 8 == 0 and septets[n - 1] == CR):
        return octets_of(bits_of(septets + [CR]))
    return octets_of(bits_of(septets))


def old_page(septets):
    return octets_of(bits_of(septets + [0] * (93 - len(septets))))


def ucs2(text):
    return [octet for unit in text for octet in divmod(unit, 256)]


# ---------------------------------------------------------------------------------------------------------------------
# Data coding octets as patterns of bits. x is either bit.

def matches(pattern, octet):
    return all(p in ("x", b) for p, b in zip(pattern, format(octet, "08b")))


def general_patterns(front, words):
    """Bits 5..0 of the groups 00xx and 01xx behind their two front bits, with the words that the group adds."""
    yield front + "xx11xx", "reserved"
    for squeezed in ("0", "1"):
        for alphabet, bits in (("", "00"), ("8bit", "01"), ("ucs2", "10")):
            first = [alphabet] * (alphabet != "") + ["compressed"] * (squeezed == "1")
            yield front + squeezed + "0" + bits + "xx", "+".join(first + words) or "plain"
            for number, low in enumerate(("00", "01", "10", "11")):
                yield front + squeezed + "1" + bits + low, "+".join(first + ["class%d" % number] + words)


def sms_patterns():
    yield from general_patterns("00", [])
    yield from general_patterns("01", ["deletion"])
    yield "10xxxxxx", "reserved"
    for group, words in (("1100", "discard"), ("1101", "store"), ("1110", "ucs2+store")):
        yield group + "x1xx", "reserved"
        for active, sense in (("0", "inactive"), ("1", "active")):
            for low, kind in (("00", "voicemail"), ("01", "fax"), ("10", "mail"), ("11", "other")):
                yield group + active + "0" + low, words + "+" + sense + "+" + kind
    yield "11111xxx", "reserved"
    for number, low in enumerate(("00", "01", "10", "11")):
        yield "111100" + low, "class%d" % number
        yield "111101" + low, "8bit+class%d" % number


def broadcast_patterns():
    languages = ("german english italian french spanish dutch swedish danish portuguese finnish norwegian greek turkish "
                 "hungarian polish plain").split()
    for number, language in enumerate(languages):
        yield format(number, "08b"), language
    yield "00010000", "prefix"
    yield "00010001", "ucs2+prefix"
    for pattern in ("0001001x", "000101xx", "00011xxx"):
        yield pattern, "reserved"
    for low, language in (("0000", "czech"), ("0001", "hebrew"), ("0010", "arabic"), ("0011", "russian"),
                          ("0100", "icelandic")):
        yield "0010" + low, language
    for pattern in ("00100101", "0010011x", "00101xxx", "0011xxxx"):
        yield pattern, "reserved"
    yield from general_patterns("01", [])
    yield "1000xxxx", "reserved"
    for number, low in enumerate(("00", "01", "10", "11")):
        yield "100100" + low, "class%d+header" % number
        yield "100101" + low, "8bit+class%d+header" % number
        yield "100110" + low, "ucs2+class%d+header" % number
    for pattern in ("100111xx", "101xxxxx", "1100xxxx"):
        yield pattern, "reserved"
    yield "1101xxxx", "i1"
    yield "1110xxxx", "wap"
    yield "11111xxx", "reserved"
    for low, words in (("00", ""), ("01", "user1"), ("10", "user2"), ("11", "class3")):
        yield "111100" + low, words or "plain"
        yield "111101" + low, "+".join(["8bit"] + [words] * (words != ""))


def coding_table(patterns):
    """The words of each of the 256 octets. Exactly one pattern matches each."""
    patterns = list(patterns)
    table = []
    for octet in range(256):
        found = [words for pattern, words in patterns if matches(pattern, octet)]
        assert len(found) == 1, octet
        table.append(found[0])
    return table


SMS_CODINGS = coding_table(sms_patterns())
BROADCAST_CODINGS = coding_table(broadcast_patterns())
CODINGS = {"sms": SMS_CODINGS, "broadcast": BROADCAST_CODINGS, "ussd": BROADCAST_CODINGS}

# Reserved octets, and readings that can be written.
assert SMS_CODINGS.count("reserved") == 128 and len(set(SMS_CODINGS) - {"reserved"}) == 84
assert BROADCAST_CODINGS.count("reserved") == 133 and len(set(BROADCAST_CODINGS) - {"reserved"}) == 70

# Words that came with W3. Before, what reads so now was reserved: by these tables the lines of that time are chosen.
LATER_WORDS = {"hebrew", "arabic", "russian", "icelandic", "header", "i1"}
EARLIER_CODINGS = {service: ["reserved" if LATER_WORDS & set(words.split("+")) else words for words in table]
                   for service, table in CODINGS.items()}
assert EARLIER_CODINGS["sms"] == SMS_CODINGS and EARLIER_CODINGS["ussd"].count("reserved") == 165


def text_held(words):
    """7bit or ucs2, or the number of the refusal."""
    parts = words.split("+")
    if "compressed" in parts:
        return 1
    if {"8bit", "wap", "i1"} & set(parts):
        return 2
    if {"prefix", "header"} & set(parts):
        return 3
    return "ucs2" if "ucs2" in parts else "7bit"


def message_held(service, words):
    """As text_held, of a whole message that has no language letters: on a broadcast the prefix mark gives 11 and not 3."""
    held = text_held(words)
    return 11 if held == 3 and service == "broadcast" and "header" not in words.split("+") else held
