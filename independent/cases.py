"""Runs cases in the format of docs/CASES.md on the second implementation.

    python3 independent/cases.py < vectors/scope.txt       runs the cases on standard input
    python3 independent/cases.py --random 100 --seed 7     writes 100 new cases with this implementation's answers

The exit status of a run is 0 if nothing differs and 1 if something does.
"""

import argparse
import re
import sys

import wikuay
from wikuay import Notice, Reading, Refused

LONGEST_LINE = 16384
LARGEST_ROOM = 4096
LARGEST_PAIR = 65535
LARGEST_NUMBER = 4294967295
MOST_UNITS = 40960


class NotACase(Exception):
    """A line that does not follow docs/CASES.md."""


# ---------------------------------------------------------------------------------------------------------------------
# Readings in words

# Each field of a reading and its words, in the order of docs/CASES.md.
WORDS = (
    ("alphabet", ("8bit", "ucs2", "wap", "i1")),
    ("compressed", ("compressed",)),
    ("class", ("class0", "class1", "class2", "class3", "user1", "user2")),
    ("language", tuple(word for word in wikuay.LANGUAGES if word) + wikuay.MORE_LANGUAGES),
    ("deletion", ("deletion",)),
    ("handling", ("discard", "store")),
    ("sense", ("active", "inactive")),
    ("kind", ("voicemail", "fax", "mail", "other")),
    ("prefix", ("prefix",)),
    ("reserved", ("reserved",)),
    ("letter1", tuple("letter1:%02X" % octet for octet in range(1, 256))),
    ("letter2", tuple("letter2:%02X" % octet for octet in range(1, 256))),
    ("header", ("header",)),
)


def parse_reading(value):
    said = {}
    if value != "plain":
        at = 0
        for word in value.split("+"):
            while at < len(WORDS) and word not in WORDS[at][1]:
                at += 1
            if at == len(WORDS):
                raise NotACase
            said[WORDS[at][0]] = word
            at += 1
    parts = [said.get(field) for field in ("handling", "sense", "kind")]
    if None in parts and parts != [None, None, None]:
        raise NotACase
    notice = Notice(parts[0], parts[1] == "active", parts[2]) if parts[0] else None
    letters = [int(said[field][-2:], 16) if field in said else 0 for field in ("letter1", "letter2")]
    return Reading(alphabet=said.get("alphabet", wikuay.SEVEN), compressed="compressed" in said,
                   message_class=said.get("class"), language=said.get("language"), deletion="deletion" in said,
                   notice=notice, prefix="prefix" in said, reserved="reserved" in said, header="header" in said,
                   letter1=letters[0], letter2=letters[1])


def print_reading(reading):
    words = []
    if reading.alphabet != wikuay.SEVEN:
        words.append(reading.alphabet)
    if reading.compressed:
        words.append("compressed")
    if reading.message_class:
        words.append(reading.message_class)
    if reading.language:
        words.append(reading.language)
    if reading.deletion:
        words.append("deletion")
    if reading.notice:
        words += [reading.notice.handling, "active" if reading.notice.active else "inactive", reading.notice.kind]
    if reading.prefix:
        words.append("prefix")
    if reading.reserved:
        words.append("reserved")
    if reading.letter1:
        words.append("letter1:%02X" % reading.letter1)
    if reading.letter2:
        words.append("letter2:%02X" % reading.letter2)
    if reading.header:
        words.append("header")
    return "+".join(words) or "plain"


# ---------------------------------------------------------------------------------------------------------------------
# The other values

def parse_word(words):
    def parse(value):
        if value not in words:
            raise NotACase
        return value
    return parse


def parse_number(value, largest=LARGEST_NUMBER):
    if not re.fullmatch("0|[1-9][0-9]{0,9}", value) or int(value) > largest:
        raise NotACase
    return int(value)


def parse_room(value):
    return parse_number(value, LARGEST_ROOM)


def parse_pair(value):
    return parse_number(value, LARGEST_PAIR)


def parse_mark(value):
    return parse_number(value, 1)


def parse_times(value):
    """A number from 1 on. How large it may be is the text's matter."""
    if value == "0":
        raise NotACase
    return parse_number(value)


def parse_signed(value):
    """A number, or - and one that is not 0: zero has no sign, so that it has one spelling."""
    if value == "-0":
        raise NotACase
    return -parse_number(value[1:]) if value.startswith("-") else parse_number(value)


def parse_element(digits):
    def parse(value):
        if not re.fullmatch("[0-9A-F]{%d}" % digits, value):
            raise NotACase
        return int(value, 16)
    return parse


def parse_elements(digits):
    def parse(value):
        if value == "-":
            return []
        if not re.fullmatch("([0-9A-F]{%d})+" % digits, value):
            raise NotACase
        return [int(value[at:at + digits], 16) for at in range(0, len(value), digits)]
    return parse


def parse_block(value):
    if not re.fullmatch("[0-9A-F]{%d}" % (2 * wikuay.BLOCK), value):
        raise NotACase
    return list(bytes.fromhex(value))


def parse_numbers(value):
    """Three octets, or none."""
    if not re.fullmatch("-|[0-9A-F]{6}", value):
        raise NotACase
    return parse_elements(2)(value)


def print_element(digits):
    return lambda element: "%0*X" % (digits, element)


def print_elements(digits):
    return lambda elements: "".join(map(print_element(digits), elements)) or "-"


# What each kind of value is parsed and printed by.
KINDS = {
    "service": (parse_word(wikuay.SERVICES), str),
    "holds": (parse_word(("7bit", "ucs2", "none")), str),
    "number": (parse_number, str),
    "room": (parse_room, str),
    "pair": (parse_pair, str),
    "signed": (parse_signed, str),
    "mark": (parse_mark, str),
    "times": (parse_times, str),
    "octet": (parse_element(2), print_element(2)),
    "unit": (parse_element(4), print_element(4)),
    "octets": (parse_elements(2), print_elements(2)),
    "block": (parse_block, print_elements(2)),
    "numbers": (parse_numbers, print_elements(2)),
    "text": (parse_elements(4), print_elements(4)),
    "reading": (parse_reading, print_reading),
}


# ---------------------------------------------------------------------------------------------------------------------
# Calls and their keys

# A key's kind of value where it is not the key itself. The kind of `out` is given with each call.
KIND_OF_KEY = {"coding": "octet", "septets": "octets", "refusal": "number", "position": "number", "written": "number",
               "count": "number", "total": "number", "pages": "number", "sequence": "pair", "identifier": "pair",
               "used": "number", "left": "signed", "parts": "number", "reference": "octet", "counts": "octets",
               "sizes": "octets", "list": "room"}

METER_ANSWER = "refusal position left service used"

# Name, function, keys of the inputs, keys of the answer, kind of `out`.
CALLS = {name: (function, inputs.split(), answer.split(), out) for name, function, inputs, answer, out in (
    ("read-coding", wikuay.read_coding, "service coding", "refusal position reading", None),
    ("write-coding", wikuay.write_coding, "service reading", "refusal position coding", None),
    ("holds-text", wikuay.holds_text, "reading", "refusal position holds", None),
    ("pack", wikuay.pack, "service septets room", "refusal position written count out", "octets"),
    ("unpack", wikuay.unpack, "service count octets room", "refusal position written out", "octets"),
    ("text-to-septets", wikuay.text_to_septets, "text room", "refusal position written out", "octets"),
    ("septets-to-text", wikuay.septets_to_text, "septets room", "refusal position written out", "text"),
    ("read-message", wikuay.read_message, "service coding count octets room",
     "refusal position written reading out", "text"),
    ("write-message", wikuay.write_message, "service reading text room",
     "refusal position written count coding out", "octets"),
    ("read-header", wikuay.read_header, "block", "sequence identifier coding total number", None),
    ("count-pages", wikuay.count_pages, "reading text", "refusal position pages", None),
    ("build-page", wikuay.build_page, "sequence identifier reading text number", "refusal position pages block", None),
    ("write-pages", wikuay.write_pages, "sequence identifier reading text room",
     "refusal position written pages out", "octets"),
    ("join-pages", wikuay.join_pages, "octets room",
     "refusal position written reading sequence identifier pages out", "text"),
    ("new-meter", wikuay.new_meter, "service", METER_ANSWER, None),
    ("room-left", wikuay.room_left, "service used", METER_ANSWER, None),
    ("unit-added", wikuay.unit_added, "service used unit", METER_ANSWER, None),
    ("unit-taken-back", wikuay.unit_taken_back, "service used unit", METER_ANSWER, None),
    ("meter-cleared", wikuay.meter_cleared, "service used", METER_ANSWER, None),
    ("read-part", wikuay.read_part, "coding count mark octets room",
     "refusal position written reading numbers out", "text"),
    ("count-parts", wikuay.count_parts, "reading text times", "refusal position parts", None),
    ("write-part", wikuay.write_part, "reading reference text times number room",
     "refusal position written mark count coding parts out", "octets"),
    ("write-parts", wikuay.write_parts, "reading reference text times room list",
     "refusal position written mark coding parts out sizes", "octets"),
    ("join-parts", wikuay.join_parts, "coding counts octets room",
     "refusal position written reading reference parts out", "text"),
)}

# What a refusal holds beside its number and position, but that of a meter, which answers for itself.
REFUSED = {"written": 0, "count": 0, "coding": 0, "reading": wikuay.PLAIN, "holds": "none", "sequence": 0, "identifier": 0,
           "pages": 0, "parts": 0, "mark": 0, "numbers": [], "reference": 0, "block": [0] * wikuay.BLOCK, "sizes": [],
           "out": []}

FILLING = {"octets": 0xA5, "text": 0xA5A5}


def kind_of(key, out_kind):
    return out_kind if key == "out" else KIND_OF_KEY.get(key, key)


def parse_values(parts, keys, out_kind):
    """The values of the parts, which are exactly these keys in this order."""
    if len(parts) != len(keys):
        raise NotACase
    values = {}
    for part, key in zip(parts, keys):
        if not part.startswith(key + "="):
            raise NotACase
        values[key] = KINDS[kind_of(key, out_kind)][0](part[len(key) + 1:])
    return values


def print_values(values, keys, out_kind):
    return " ".join(key + "=" + KINDS[kind_of(key, out_kind)][1](values[key]) for key in keys)


def parse_case(line):
    """Label, call, inputs and expected answer of a line."""
    if not re.fullmatch("[ -~]+", line):
        raise NotACase
    parts = line.split(" ")
    if len(parts) < 3 or ":" not in parts[2:]:
        raise NotACase
    label, call = parts[:2]
    if not re.fullmatch("[A-Za-z0-9._-]{1,64}", label) or call not in CALLS:
        raise NotACase
    colon = parts.index(":", 2)
    _, input_keys, answer_keys, out_kind = CALLS[call]
    inputs = parse_values(parts[2:colon], input_keys, out_kind)
    if "times" in inputs and len(inputs["text"]) * inputs["times"] > MOST_UNITS:
        raise NotACase
    return label, call, inputs, parse_values(parts[colon + 1:], answer_keys, out_kind)


def print_case(label, call, inputs, answer):
    _, input_keys, answer_keys, out_kind = CALLS[call]
    return "%s %s %s : %s" % (label, call, print_values(inputs, input_keys, out_kind),
                              print_values(answer, answer_keys, out_kind))


# ---------------------------------------------------------------------------------------------------------------------
# Running

def first_other(buffer, start, filling):
    """The first position from start on that holds something else than the filling, or None."""
    if buffer[start:] == [filling] * (len(buffer) - start):
        return None
    return next(at for at in range(start, len(buffer)) if buffer[at] != filling)


def run_call(call, inputs):
    """The whole answer, and what of each buffer was touched behind the written elements: the first position, under the word
    that closes the line."""
    function, _, answer_keys, out_kind = CALLS[call]
    given = {key: value for key, value in inputs.items() if key not in ("room", "list", "times")}
    if "times" in inputs:
        given["text"] = inputs["text"] * inputs["times"]
    if out_kind:
        given["out"] = [FILLING[out_kind]] * inputs["room"]
    if "list" in inputs:
        given["sizes"] = [FILLING["octets"]] * inputs["list"]
    try:
        answer = {"refusal": 0, "position": 0, **function(**given)}
    except Refused as refused:
        answer = {**REFUSED, "refusal": refused.number, "position": refused.position}
    touched = {}
    if out_kind:
        answer["out"] = given["out"][:answer["written"]]
        touched["touched"] = first_other(given["out"], len(answer["out"]), FILLING[out_kind])
    if "list" in inputs:
        answer["sizes"] = given["sizes"][:2 * answer["parts"]]
        touched["listed"] = first_other(given["sizes"], len(answer["sizes"]), FILLING["octets"])
    return ({key: answer[key] for key in answer_keys},
            {word: position for word, position in touched.items() if position is not None})


def run_line(line, number):
    """None if the line's case agrees, else what to print."""
    if len(line) > LONGEST_LINE:
        return "line %d: longer than %d characters" % (number, LONGEST_LINE)
    try:
        label, call, inputs, expected = parse_case(line)
    except NotACase:
        return "line %d: not a case" % number
    came, touched = run_call(call, inputs)
    if came == expected and not touched:
        return None
    _, _, answer_keys, out_kind = CALLS[call]
    return "%s: expected %s; came %s%s" % (
        label, print_values(expected, answer_keys, out_kind), print_values(came, answer_keys, out_kind),
        "".join(" %s=%d" % item for item in touched.items()))


def run(lines, write):
    """Runs all lines, each without its line feed. Answers how many cases differ."""
    cases = differ = 0
    for number, line in enumerate(lines, 1):
        if line == "" or line.startswith("#"):
            continue
        cases += 1
        complaint = run_line(line, number)
        if complaint is not None:
            differ += 1
            write(complaint + "\n")
    write("%d cases, %d differ\n" % (cases, differ))
    return differ


def input_lines(stream):
    """The lines of a stream of octets, closed by 0A and by nothing else, an octet a character."""
    for line in stream:
        yield (line[:-1] if line.endswith(b"\n") else line).decode("latin-1")


def main():
    parser = argparse.ArgumentParser(description="Run cases on standard input, or write new random ones.")
    parser.add_argument("--random", type=int, metavar="N", help="write N random cases")
    parser.add_argument("--seed", type=int, default=1, metavar="S", help="the seed of the random cases")
    arguments = parser.parse_args()
    if arguments.random is not None:
        from random_cases import random_cases
        for line in random_cases(arguments.random, arguments.seed):
            sys.stdout.write(line + "\n")
        return 0
    return 1 if run(input_lines(sys.stdin.buffer), sys.stdout.write) else 0


if __name__ == "__main__":
    sys.exit(main())
