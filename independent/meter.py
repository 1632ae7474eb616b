"""Writes vectors/meter.txt: the room left while a clerk types, W4 of document 02.

    python3 independent/meter.py > vectors/meter.txt

Every answer is stated by rule, with the characters of independent/rules.py. None comes from the second implementation.
The sums at the limits stand below as numbers, and the answers of a run of keys come from its text, counted afresh at
each key.
"""

import rules
from rules import ALPHABET, EXTENSION, accepted, refused, units

HEADER = """\
# The room left, W4 of document 02: written by independent/meter.py. The answer of every line is stated there by rule;
# none comes from the second implementation.
# A label holds the service, the septets used before the key, and the unit. In a run each line's used is the one that
# the line before left.
"""

SIZE = {**rules.SIZE, "old": 93}    # septets
MOST = 65535

TWO = "".join(EXTENSION.values())
ONE = ALPHABET.replace("\x1b", "")
assert len(ONE) == 127 and len(TWO) == 10 and not set(ONE) & set(TWO)

# Units that neither table lists: control units, the escape and the gaps of ASCII; units beside listed ones, and small or
# capital letters whose other form is listed; units whose low or high octet is a listed one, or whose low octet is the
# code of a letter; surrogates, and both ends.
UNLISTED = (
    0x0000, 0x0001, 0x0009, 0x000B, 0x000E, 0x001A, 0x001B, 0x001C, 0x001F, 0x0060, 0x007F, 0x0080, 0x00A0, 0x00A2, 0x00A6,
    0x00C0, 0x00C8, 0x00E7, 0x00E1, 0x00FF, 0x0131, 0x0391, 0x0395, 0x03B1, 0x03C9, 0x20A0, 0x20AB, 0x20AD, 0x0141, 0x0165,
    0x4100, 0x1B65, 0x651B, 0xAC20, 0x4E2D, 0xA5A5, 0xD800, 0xD83D, 0xDC00, 0xDE00, 0xFEFF, 0xFF21, 0xFFFE, 0xFFFF)
assert not set(UNLISTED) & set(units(ONE + TWO))

WORDS = {"new-meter": "new", "room-left": "left", "unit-added": "add", "unit-taken-back": "back", "meter-cleared": "clear"}
KEYS = ("unit-added", "unit-taken-back")


def counted(text):
    """The septets of a text: one a character, and one more for each that stands behind an escape."""
    return len(text) + sum(map(text.count, TWO))


def line(name, call, inputs, after, number=0):
    """Prints a case whose record has `after` septets used behind the key. A key that is refused left it so."""
    service = inputs["service"]
    answer = {"left": SIZE[service] - after, "service": service, "used": after}
    if number:
        assert after == inputs["used"]
        refused("meter-" + name, call, inputs, number, **answer)
    else:
        accepted("meter-" + name, call, inputs, **answer)


def case(part, call, service, used=None, unit=None, after=None, number=0):
    """A single key, labelled by its inputs. The record stays as it is unless `after` is given."""
    inputs = {key: value for key, value in (("service", service), ("used", used), ("unit", unit)) if value is not None}
    spelled = ["%04X" % value if key == "unit" else str(value) for key, value in inputs.items()]
    line("-".join([part, WORDS[call], *spelled]), call, inputs, used if after is None else after, number)


def in_turn(elements):
    """Each element with a service: each service in turn."""
    services = tuple(SIZE)
    return [(services[at % len(services)], element) for at, element in enumerate(elements)]


# ---------------------------------------------------------------------------------------------------------------------
# Records, and keys that nothing refuses

def records():
    print("\n# A new meter.")
    for service in SIZE:
        case("record", "new-meter", service, after=0)
    print("\n# What a record shows: around zero and around the service's size, at the largest sum, and where the number")
    print("# leaves eight and sixteen bits.")
    for service, size in SIZE.items():
        for used in (0, 1, 2, size - 2, size - 1, size, size + 1, size + 2, 255, 256, size + 128, size + 129, size + 255,
                     size + 256, 32767, 32768, size + 32767, size + 32768, size + 32769, 65534, MOST):
            case("record", "room-left", service, used)


def clears():
    print("\n# Cleared: nothing is used, whatever was.")
    for service, size in SIZE.items():
        for used in (0, 1, 2, size - 1, size, size + 1, 256, 32768, 65534, MOST):
            case("record", "meter-cleared", service, used, after=0)


# ---------------------------------------------------------------------------------------------------------------------
# Units

def listed_units():
    print("\n# Every unit of the main table takes one septet.")
    for service, (at, unit) in in_turn(enumerate(units(ONE))):
        case("one", "unit-added", service, 3 * at, unit, 3 * at + 1)
        case("one", "unit-taken-back", service, 3 * at + 1, unit, 3 * at)
    print("\n# Every unit of the extension takes two, under every service: the old page's meter counts no other way.")
    for at, unit in enumerate(units(TWO)):
        for service in SIZE:
            case("two", "unit-added", service, 20 * at, unit, 20 * at + 2)
            case("two", "unit-taken-back", service, 20 * at + 2, unit, 20 * at)


def unlisted_units():
    print("\n# Units that are not in the alphabet: 6, and the record stays.")
    for service, (at, unit) in in_turn(enumerate(UNLISTED)):
        case("unlisted", "unit-added", service, 5 * at, unit, number=6)
        case("unlisted", "unit-taken-back", service, 5 * at + 2, unit, number=6)


# ---------------------------------------------------------------------------------------------------------------------
# Limits. A row is the septets used, and those used behind a unit of one septet and of two. None is refused 5.

ADDED_AT_THE_TOP = ((65532, 65533, 65534), (65533, 65534, 65535), (65534, 65535, None), (65535, None, None))
TAKEN_AT_THE_TOP = ((65535, 65534, 65533), (65534, 65533, 65532))
TAKEN_AT_ZERO = ((0, None, None), (1, 0, None), (2, 1, 0), (3, 2, 1))
ADDED_AT_ZERO = ((0, 1, 2), (1, 2, 3))


def limit_rows(call, rows, ones, twos, part="limit"):
    for service in SIZE:
        for used, *behind in rows:
            for letters, after in zip((ones, twos), behind):
                for unit in units(letters):
                    case(part, call, service, used, unit, after, 5 if after is None else 0)


def limits():
    print("\n# The largest sum: 65,535 is reached, and what would pass it is 5.")
    limit_rows("unit-added", ADDED_AT_THE_TOP, "A@", "€\f")
    limit_rows("unit-taken-back", TAKEN_AT_THE_TOP, "A", "€")
    print("\n# Nothing used: zero is reached, and what would pass it is 5.")
    limit_rows("unit-taken-back", TAKEN_AT_ZERO, "A@", "€|")
    limit_rows("unit-added", ADDED_AT_ZERO, "A", "€")
    print("\n# Each extension letter on both sides of both limits.")
    for service, unit in in_turn(units(TWO)):
        case("each", "unit-added", service, 65533, unit, 65535)
        case("each", "unit-added", service, 65534, unit, number=5)
        case("each", "unit-taken-back", service, 2, unit, 0)
        case("each", "unit-taken-back", service, 1, unit, number=5)
    print("\n# The service's size is no limit: the number goes through zero, and comes back.")
    for service, size in SIZE.items():
        for used in range(size - 2, size + 3):
            for septets, unit in enumerate(units("A€"), 1):
                case("size", "unit-added", service, used, unit, used + septets)
                case("size", "unit-taken-back", service, used, unit, used - septets)


def pairs():
    print("\n# Pairs of refusals: an unlisted unit where one of its septets, or two, would pass a limit. 6 comes first.")
    for service in SIZE:
        for unit in (0x001B, 0x00E7, 0x4E2D, 0xFFFF):
            for call, sums in zip(KEYS, ((65534, MOST), (1, 0))):
                for used in sums:
                    case("pair-6-5", call, service, used, unit, number=6)


# ---------------------------------------------------------------------------------------------------------------------
# Runs of keys

def typed(characters):
    return [("unit-added", character) for character in characters]


def back(characters):
    """Each is taken back, in this order."""
    return [("unit-taken-back", character) for character in characters]


CLEAR = [("meter-cleared", None)]


def refusal_of(call, kept, character):
    """What a key deserves with this text typed before it."""
    if character not in ONE + TWO:
        return 6
    fits = (counted(kept + character) <= MOST if call == "unit-added" else counted(character) <= counted(kept))
    return 0 if fits else 5


def run(name, service, keys, kept=""):
    """A run of keys over a text, which is counted afresh behind each. What is taken back ends the text, or is refused."""
    def step(call, before, after, number=0, **unit):
        nonlocal steps
        steps += 1
        used = {} if call == "new-meter" else {"used": before}
        line("run-%s-%s-%d" % (name, service, steps), call, {"service": service, **used, **unit}, after, number)

    steps = 0
    step("room-left" if kept else "new-meter", counted(kept), counted(kept))
    for call, character in keys:
        before = counted(kept)
        if call == "meter-cleared":
            kept = ""
            step(call, before, 0)
            continue
        number = refusal_of(call, kept, character)
        if not number and call == "unit-added":
            kept += character
        elif not number:
            assert kept.endswith(character)
            kept = kept[:-1]
        step(call, before, counted(kept), number, unit=ord(character))
    step("room-left", counted(kept), counted(kept))


def runs():
    for service, size in SIZE.items():
        print("\n# A run of keys on a new meter (%s): unlisted units, more taken back than was typed, clears." % service)
        run("new", service, back("A") + typed("Né{中€") + back("ê€") + typed("]") + back("]{é中") + typed("\x1b") + back("€N")
            + back("N€") + typed("^A") + CLEAR + back("A^") + CLEAR + typed("~`") + back("~"))
        print("\n# A run of keys through the size (%s)." % service)
        run("size", service, typed("a€中b") + back("b€") + typed("\\c[") + back("ç[") + typed("[d") + back("d[c\\a") + typed("||")
            + CLEAR + typed("€"), "x" * (size - 2))
        print("\n# A run of keys at the largest sum (%s)." % service)
        run("top", service, typed("€AA€中") + back("中A€") + typed("A€€A") + back("€A") + typed("€€") + CLEAR + back("€")
            + typed("€"), "€" * 32767)
    print("\n# All extension letters typed, and taken back.")
    run("extension", "ussd", typed(TWO) + back(TWO[::-1]))
    print("\n# A broadcast page filled key by key with letters of two septets: 93 is odd.")
    run("filled", "broadcast", typed("€" * 47) + back("€") + typed("@\n") + back("\n@€"))
    print("\n# A letter of each width, typed, taken back at once and typed once more, on a page that grows.")
    run("hesitant", "old", [key for letter in "A€{b[]c|\rD" for key in typed(letter) + back(letter) + typed(letter)])


# ---------------------------------------------------------------------------------------------------------------------
# Records that no keys make, up to the largest that a record can hold. They stand last, so that the lines in front keep
# their places.

FAR_BEYOND = (65539, 70000, 131072, 2147483647, 2147483648, 4294967294, 4294967295)
BEYOND = (65536, 65537, 65538, *FAR_BEYOND)

# As the rows of the limits: nothing is added, and taking back goes where it leaves 65,535 or less.
ADDED_BEYOND = [(used, None, None) for used in BEYOND]
TAKEN_BEYOND = [(65536, 65535, 65534), (65537, None, 65535), (65538, None, None),
                *((used, None, None) for used in FAR_BEYOND)]

# An unlisted unit has no septets, so both keys leave a sum above 65,535: each deserves 5 too.
UNLISTED_BEYOND = (0x001B, 0x0060, 0x00E7, 0x4E2D, 0xD800, 0xFFFF, 0x0000)


def beyond():
    print("\n# What a record shows that no keys make, also where the number is zero in 16 bits and where it leaves 32.")
    for service, size in SIZE.items():
        for used in sorted((*BEYOND, size + 65536, size + 2147483648, size + 2147483649)):
            case("beyond", "room-left", service, used)
    print("\n# Such a record is cleared as any other.")
    for service in SIZE:
        for used in BEYOND:
            case("beyond", "meter-cleared", service, used, after=0)
    print("\n# Units added to such a record, and taken back from it: 5, but where 65,535 or less is left.")
    limit_rows("unit-added", ADDED_BEYOND, "A", "€", "beyond")
    limit_rows("unit-taken-back", TAKEN_BEYOND, "A", "€", "beyond")
    print("\n# Pairs of refusals at such a record: an unlisted unit is 6 first.")
    for at, (service, used) in enumerate((service, used) for service in SIZE for used in BEYOND):
        for call in KEYS:
            case("pair-6-5", call, service, used, UNLISTED_BEYOND[at % len(UNLISTED_BEYOND)], number=6)


def main():
    print(HEADER, end="")
    records()
    clears()
    listed_units()
    unlisted_units()
    limits()
    pairs()
    runs()
    beyond()


if __name__ == "__main__":
    main()
