"""A second implementation of Wikuay, the base and W1 to W5 of document 02, written from documents 01 and 02, clause 5
of source document 003 and the settled readings of them, without sight of the Rattle code.

It follows document 01 section by section, with W3's data coding table in the place of document 01's, then W1, W2, W4 and
W5, and does everything in the plainest way. The twenty-four calls at the end are what the cases run. Each answers with a
dictionary; one with a longer result stores it in a buffer that the caller lends, a list. Writing all parts of a long
message is lent two. A block of 88 octets is a list that is handed over by value. A call that refuses raises Refused, and
has then stored nothing; only a meter answers in a refusal too, since its record is shown all the same.
"""

from functools import lru_cache
from typing import NamedTuple


class Refused(Exception):
    """A refusal: its number and its position."""

    def __init__(self, number, position=0):
        super().__init__(number, position)
        self.number = number
        self.position = position


# ---------------------------------------------------------------------------------------------------------------------
# Services and their sizes

SMS, BROADCAST, USSD, OLD = "sms", "broadcast", "ussd", "old"
SERVICES = (SMS, BROADCAST, USSD, OLD)

SEPTETS = {SMS: 160, BROADCAST: 93, USSD: 182, OLD: 93}
UNITS = {SMS: 70, BROADCAST: 41, USSD: 80}
OCTETS = {SMS: 140, BROADCAST: 82, USSD: 160, OLD: 82}
EXACT = (BROADCAST, OLD)  # services whose octets are exactly that many


# ---------------------------------------------------------------------------------------------------------------------
# Reading the data coding octet

SEVEN, EIGHT, UCS2, WAP, I1 = "7bit", "8bit", "ucs2", "wap", "i1"
CLASSES = ("class0", "class1", "class2", "class3")
LANGUAGES = ("german", "english", "italian", "french", "spanish", "dutch", "swedish", "danish", "portuguese", "finnish",
             "norwegian", "greek", "turkish", "hungarian", "polish", None)
MORE_LANGUAGES = ("czech", "hebrew", "arabic", "russian", "icelandic")
KINDS = ("voicemail", "fax", "mail", "other")


class Notice(NamedTuple):
    """A waiting notice. One that is not active is still a notice."""
    handling: str  # "discard" or "store"
    active: bool
    kind: str


class Reading(NamedTuple):
    """What a data coding octet says. The defaults are what a rule does not mention."""
    alphabet: str = SEVEN
    compressed: bool = False
    message_class: str = None
    language: str = None
    deletion: bool = False
    notice: Notice = None
    prefix: bool = False
    reserved: bool = False
    header: bool = False  # the user data header of clause 5's group 1001, and not the header of a block
    letter1: int = 0  # the language letters in front of the text, each 0 where it is absent
    letter2: int = 0


PLAIN = Reading()
RESERVED = Reading(reserved=True)


def bit(octet, number):
    return (octet >> number) & 1


def general_coding(octet):
    """00xx of a short message: bit 5 compressed, bits 3..2 alphabet, bit 4 makes bits 1..0 the class."""
    alphabet = (SEVEN, EIGHT, UCS2, None)[(octet >> 2) & 3]
    if alphabet is None:
        return RESERVED
    return Reading(alphabet=alphabet, compressed=bit(octet, 5) == 1,
                   message_class=CLASSES[octet & 3] if bit(octet, 4) else None)


def read_sms_coding(octet):
    group = octet >> 4
    if group <= 0b0011:
        return general_coding(octet)
    if group <= 0b0111:
        reading = general_coding(octet)
        return reading if reading.reserved else reading._replace(deletion=True)
    if group <= 0b1011:
        return RESERVED
    if group <= 0b1110:
        if bit(octet, 2):
            return RESERVED
        handling = "discard" if group == 0b1100 else "store"
        return Reading(alphabet=UCS2 if group == 0b1110 else SEVEN,
                       notice=Notice(handling, bit(octet, 3) == 1, KINDS[octet & 3]))
    if bit(octet, 3):
        return RESERVED
    return Reading(alphabet=EIGHT if bit(octet, 2) else SEVEN, message_class=CLASSES[octet & 3])


def header_coding(octet):
    """1001 of a broadcast page or USSD: bits 3..2 alphabet, bits 1..0 the class, and a user data header in front."""
    if bit(octet, 3) and bit(octet, 2):
        return RESERVED
    return Reading(alphabet=(SEVEN, EIGHT, UCS2)[(octet >> 2) & 3], message_class=CLASSES[octet & 3], header=True)


def read_broadcast_coding(octet):
    """The data coding octet of a broadcast page, and of USSD: clause 5 of source document 003."""
    group = octet >> 4
    if group == 0b0000:
        return Reading(language=LANGUAGES[octet & 15])
    if octet == 0b00010000:
        return Reading(prefix=True)
    if octet == 0b00010001:
        return Reading(alphabet=UCS2, prefix=True)
    if group == 0b0010 and octet & 15 <= 4:
        return Reading(language=MORE_LANGUAGES[octet & 15])
    if group <= 0b0011:
        return RESERVED
    if group <= 0b0111:
        return general_coding(octet)
    if group == 0b1001:
        return header_coding(octet)
    if group <= 0b1100:
        return RESERVED
    if group == 0b1101:
        return Reading(alphabet=I1)
    if group == 0b1110:
        return Reading(alphabet=WAP)
    if bit(octet, 3):
        return RESERVED
    return Reading(alphabet=EIGHT if bit(octet, 2) else SEVEN,
                   message_class=(None, "user1", "user2", "class3")[octet & 3])


def read_old_coding(octet):
    """Bits 3..0 are the alphabet, which must be 0. Bits 7..4 are the language, which is ignored."""
    if octet & 15:
        raise Refused(2)
    return PLAIN


def reading_of(service, octet):
    if service == SMS:
        return read_sms_coding(octet)
    if service == OLD:
        return read_old_coding(octet)
    return read_broadcast_coding(octet)


@lru_cache(maxsize=None)
def smallest_octet(service, reading):
    """The smallest octet that reads so under that service, or None."""
    for octet in range(256):
        if reading_of(service, octet) == reading:
            return octet
    return None


def octet_of(service, reading):
    """The octet that is written for a reading. It says nothing of the language letters."""
    if service == OLD or reading.reserved:
        raise Refused(8)
    octet = smallest_octet(service, reading._replace(letter1=0, letter2=0))
    if octet is None:
        raise Refused(8)
    return octet


def text_of(reading):
    """Which text the reading holds: 7-bit or UCS2."""
    if reading.compressed:
        raise Refused(1)
    if reading.alphabet in (EIGHT, WAP, I1):
        raise Refused(2)
    if reading.prefix or reading.header:
        raise Refused(3)
    return reading.alphabet


# ---------------------------------------------------------------------------------------------------------------------
# The alphabet

ESCAPE, CR, SPACE = 0x1B, 0x0D, 0x0020

MAIN = {code: code for code in range(0x20, 0x80)}
MAIN.update(enumerate([
    0x0040, 0x00A3, 0x0024, 0x00A5, 0x00E8, 0x00E9, 0x00F9, 0x00EC,
    0x00F2, 0x00C7, 0x000A, 0x00D8, 0x00F8, 0x000D, 0x00C5, 0x00E5,
    0x0394, 0x005F, 0x03A6, 0x0393, 0x039B, 0x03A9, 0x03A0, 0x03A8,
    0x03A3, 0x0398, 0x039E, None, 0x00C6, 0x00E6, 0x00DF, 0x00C9]))
MAIN.update({
    0x24: 0x00A4, 0x40: 0x00A1,
    0x5B: 0x00C4, 0x5C: 0x00D6, 0x5D: 0x00D1, 0x5E: 0x00DC, 0x5F: 0x00A7, 0x60: 0x00BF,
    0x7B: 0x00E4, 0x7C: 0x00F6, 0x7D: 0x00F1, 0x7E: 0x00FC, 0x7F: 0x00E0})
del MAIN[ESCAPE]

EXTENSION = {
    0x0A: 0x000C, 0x14: 0x005E, 0x28: 0x007B, 0x29: 0x007D, 0x2F: 0x005C,
    0x3C: 0x005B, 0x3D: 0x007E, 0x3E: 0x005D, 0x40: 0x007C, 0x65: 0x20AC}

CODES = {unit: [code] for code, unit in MAIN.items()}
CODES.update({unit: [ESCAPE, code] for code, unit in EXTENSION.items()})


def septets_of(text):
    """The septets of a text: one code for a unit, or escape and code."""
    septets = []
    for position, unit in enumerate(text):
        if unit not in CODES:
            raise Refused(6, position)
        septets += CODES[unit]
    return septets


def units_of(septets):
    """The text of septets, left to right."""
    text = []
    at = 0
    while at < len(septets):
        if septets[at] != ESCAPE:
            text.append(MAIN[septets[at]])
            at += 1
        elif at + 1 == len(septets):
            text.append(SPACE)
            at += 1
        else:
            code = septets[at + 1]
            if code == ESCAPE:
                text.append(SPACE)
            elif code in EXTENSION:
                text.append(EXTENSION[code])
            else:
                text.append(MAIN[code])
            at += 2
    return text


def old_units_of(septets):
    """The text of an old page's septets: 11 and 1B are a space each, and there is no extension."""
    return [SPACE if septet in (0x11, 0x1B) else MAIN[septet] for septet in septets]


def check_septets(septets):
    for position, septet in enumerate(septets):
        if septet >= 128:
            raise Refused(9, position)


# ---------------------------------------------------------------------------------------------------------------------
# Packing

def octets_for(septet_count):
    """7n/8 rounded up."""
    return (7 * septet_count + 7) // 8


def packed(septets):
    """Bit i of septet k is bit 7k + i of the stream; octet j takes bits 8j to 8j + 7, lowest first."""
    stream = 0
    for k, septet in enumerate(septets):
        stream |= septet << (7 * k)
    return list(stream.to_bytes(octets_for(len(septets)), "little"))


def unpacked(octets, septet_count):
    """The first septets of the stream. Bits behind them are spare and ignored."""
    stream = int.from_bytes(bytes(octets), "little")
    return [(stream >> (7 * k)) & 127 for k in range(septet_count)]


def ussd_padded(septets):
    n = len(septets)
    if n % 8 == 7:
        return septets + [CR]
    if n != 0 and n % 8 == 0 and septets[-1] == CR:
        return septets + [CR]
    return septets


def broadcast_filled(septets):
    page = [CR] * 93
    page[:len(septets)] = septets
    return page


def packed_for(service, septets):
    if service == USSD:
        return packed(ussd_padded(septets))
    if service == BROADCAST:
        return packed(broadcast_filled(septets))
    return packed(septets)


def without_closing(elements, filling):
    end = len(elements)
    while end > 0 and elements[end - 1] == filling:
        end -= 1
    return elements[:end]


def unpacked_for(service, octets, count):
    if service == SMS:
        return unpacked(octets, count)
    if service == USSD:
        m = len(octets)
        septets = unpacked(octets, 8 * m // 7)
        if m != 0 and m % 7 == 0 and septets[-1] == CR:
            return septets[:-1]
        return septets
    if service == BROADCAST:
        return without_closing(unpacked(octets, 93), CR)
    return without_closing(unpacked(octets, 93), 0)


def ucs2_octets(service, text):
    """Two octets a unit, high octet first. A broadcast page is filled up with 000D."""
    if service == BROADCAST:
        text = text + [CR] * (41 - len(text))
    octets = []
    for unit in text:
        octets += [unit >> 8, unit & 255]
    return octets


def all_units(octets):
    return [256 * octets[at] + octets[at + 1] for at in range(0, len(octets), 2)]


def ucs2_units(service, octets):
    text = all_units(octets)
    if service == BROADCAST:
        return without_closing(text, CR)
    return text


# ---------------------------------------------------------------------------------------------------------------------
# Broadcasts of several pages (document 02, W1)

BLOCK = 88
MOST_PAGES = 15


def pair_of(number):
    """Two octets, the high one first."""
    return [number >> 8, number & 255]


def block_of(sequence, identifier, coding, total, number, page):
    """Sequence number, message identifier, data coding, page parameter, and the 82 octets of the page."""
    return pair_of(sequence) + pair_of(identifier) + [coding] + [total + 16 * number] + page


def header_of(block):
    """The five fields in front of the page, as they stand."""
    return {"sequence": 256 * block[0] + block[1], "identifier": 256 * block[2] + block[3], "coding": block[4],
            "total": block[5] & 15, "number": block[5] >> 4}


def cut(elements, size):
    """The elements of each page: as few pages as hold them, and one for no element. All but the last are full."""
    if not elements:
        return [[]]
    return [elements[at:at + size] for at in range(0, len(elements), size)]


def pages_of(alphabet, text):
    """The 82 octets of each page. Refusals 6 and 5."""
    if alphabet == UCS2:
        check_size(len(text), MOST_PAGES * 41)
        return [ucs2_octets(BROADCAST, page) for page in cut(text, 41)]
    septets = septets_of(text)
    check_size(len(septets), MOST_PAGES * 93)
    return [packed_for(BROADCAST, page) for page in cut(septets, 93)]


def check_pages(blocks):
    """Refusal 10: the blocks are not each page of one message, once."""
    total = header_of(blocks[0])["total"]
    seen = []
    for block in blocks:
        if block[:5] != blocks[0][:5]:
            raise Refused(10)
        if header_of(block)["total"] != total:
            raise Refused(10)
        number = header_of(block)["number"]
        if number < 1 or number > total:
            raise Refused(10)
        if number in seen:
            raise Refused(10)
        seen.append(number)
    if len(seen) < total:
        raise Refused(10)


def joined_text(alphabet, blocks):
    """The text of the pages in their order. Closing CRs are dropped once, and then the alphabet is read."""
    elements = []
    for block in sorted(blocks, key=lambda block: header_of(block)["number"]):
        page = block[6:]
        elements += all_units(page) if alphabet == UCS2 else unpacked(page, 93)
    elements = without_closing(elements, CR)
    return elements if alphabet == UCS2 else units_of(elements)


# ---------------------------------------------------------------------------------------------------------------------
# Language letters in front of the text (document 02, W2)

LETTERED_SEPTETS, LETTERED_UNITS = 90, 40  # what a page holds behind its letters


def message_octet(service, reading):
    """The octet of text that is written. Refusal 8, also for letters in a coding without the prefix mark."""
    if not reading.prefix and (reading.letter1 or reading.letter2):
        raise Refused(8)
    return octet_of(service, reading)


def message_text(service, reading):
    """Which text a message of one page holds. Only a broadcast page holds text behind letters."""
    return text_of(reading._replace(prefix=False) if service == BROADCAST else reading)


def is_lettered(service, reading):
    return service == BROADCAST and reading.prefix


def check_letters(letters):
    """Refusal 11: each letter is there, and is one of a to z."""
    for letter in letters:
        if letter < 0x61 or letter > 0x7A:
            raise Refused(11)


def lettered_octets(reading, text):
    """The 82 octets of a page with letters: CR stands behind them in 7-bit, and two zero bits in UCS2. 11, 6, 5."""
    letters = [reading.letter1, reading.letter2]
    check_letters(letters)
    if reading.alphabet == UCS2:
        check_size(len(text), LETTERED_UNITS)
        return packed(letters) + ucs2_octets(BROADCAST, text)[:80]
    content = septets_of(text)
    check_size(len(content), LETTERED_SEPTETS)
    return packed_for(BROADCAST, letters + [CR] + content)


def lettered_text(alphabet, octets):
    """The two letters of a page and the text behind them. Closing CRs are dropped behind the letters only. 11."""
    if alphabet == UCS2:
        letters = unpacked(octets[:2], 2)
        check_letters(letters)
        return letters, without_closing(all_units(octets[2:]), CR)
    septets = unpacked(octets, 93)
    check_letters(septets[:2])
    if septets[2] != CR:
        raise Refused(11)
    return septets[:2], units_of(without_closing(septets[3:], CR))


# ---------------------------------------------------------------------------------------------------------------------
# The room left (document 02, W4)

MOST_USED = 65535


def width_of(unit):
    """The septets of one unit. Refusal 6, at position 0: a key has no other unit."""
    if unit in MAIN.values():
        return 1
    if unit in EXTENSION.values():
        return 2
    raise Refused(6)


class Meter:
    """The one record that is kept while a clerk types: a service and the septets used. Each key changes it. It can come
    with more septets than keys make."""

    def __init__(self, service, used=0):
        self.service = service
        self.used = used

    def left(self):
        """The number that is shown, below zero where the text is over."""
        return SEPTETS[self.service] - self.used

    def change(self, septets):
        """Refusal 5: a sum below zero or above 65,535. The service's size is no bound, and the sum of before is none: what
        takes a record from above down to 65,535 goes."""
        if self.used + septets < 0 or self.used + septets > MOST_USED:
            raise Refused(5)
        self.used += septets

    def add(self, unit):
        self.change(width_of(unit))

    def take_back(self, unit):
        """The named unit goes. The text is not kept, so nothing tells whether it ended so."""
        self.change(-width_of(unit))

    def clear(self):
        self.used = 0


def shown(meter, refusal=0, position=0):
    return {"refusal": refusal, "position": position, "left": meter.left(), "service": meter.service, "used": meter.used}


def after_key(meter, key, *unit):
    """What is shown behind a key. A refused one changes nothing."""
    try:
        key(meter, *unit)
    except Refused as refused:
        return shown(meter, refused.number, refused.position)
    return shown(meter)


def left_afresh(service, text):
    """The number that a meter shows for a text, without a meter: the text is counted from its first unit. Refusal 6."""
    return SEPTETS[service] - len(septets_of(text))


# ---------------------------------------------------------------------------------------------------------------------
# Long short messages (document 02, W5)

MOST_PARTS = 255
PART_SEPTETS, PART_UNITS = 153, 67  # what a part holds behind its header
CONCATENATION = 0x00  # the element with reference, total and number, an octet each


def septets_before(header_length):
    """8m/7 rounded up: 7-bit text starts at the next septet boundary behind a header of m octets."""
    return (8 * header_length + 6) // 7


def part_header(reference, total, number):
    """The length of what follows, and one element: its identifier, its length and the three numbers."""
    return [5, CONCATENATION, 3, reference, total, number]


def elements_of(header):
    """The elements of a header without its first octet, each as identifier and data. Refusal 12: one runs past the
    header, also where only its length octet does."""
    elements = []
    at = 0
    while at < len(header):
        if at + 1 == len(header):
            raise Refused(12)
        identifier, length = header[at], header[at + 1]
        at += 2
        if at + length > len(header):
            raise Refused(12)
        elements.append((identifier, header[at:at + length]))
        at += length
    return elements


def numbers_of(elements):
    """Reference, total and number as the last such element gives them, or nothing. Refusal 12: an element of wrong length,
    also one that does not count."""
    numbers = []
    for identifier, data in elements:
        if identifier == CONCATENATION:
            if len(data) != 3:
                raise Refused(12)
            numbers = data
    return numbers


def opened(alphabet, count, octets):
    """The numbers of a part, and what stands behind its header: septets, or octets of UCS2. Refusal 12."""
    if not octets:
        raise Refused(12)
    header_length = 1 + octets[0]
    if header_length > len(octets):
        raise Refused(12)
    if alphabet == SEVEN and septets_before(header_length) > count:
        raise Refused(12)
    numbers = numbers_of(elements_of(octets[1:header_length]))
    if alphabet == UCS2:
        return numbers, octets[header_length:]
    return numbers, unpacked(octets, count)[septets_before(header_length):]


def check_even(alphabet, content):
    """Refusal 4: odd UCS2 octets behind the header."""
    if alphabet == UCS2 and len(content) % 2 != 0:
        raise Refused(4)


def text_behind(alphabet, content):
    return all_units(content) if alphabet == UCS2 else units_of(content)


def contents_of(alphabet, text):
    """The septets or the units of each part: one part for a text that fits alone. Refusals 6 and 5."""
    if alphabet == UCS2:
        elements, alone, size = text, UNITS[SMS], PART_UNITS
    else:
        elements, alone, size = septets_of(text), SEPTETS[SMS], PART_SEPTETS
    if len(elements) <= alone:
        return [elements]
    check_size(len(elements), MOST_PARTS * size)
    return cut(elements, size)


def part_of(alphabet, reference, contents, number):
    """The count and the octets of a part. A lone one has no header; the count covers the header of any other."""
    content = contents[number - 1]
    header = part_header(reference, len(contents), number) if len(contents) > 1 else []
    if alphabet == UCS2:
        octets = header + ucs2_octets(SMS, content)
        return len(octets), octets
    septets = [0] * septets_before(len(header)) + content
    octets = packed(septets)
    octets[:len(header)] = header  # over the front of those zeros: the fill bit behind it stays 0
    return len(septets), octets


def is_marked(contents):
    """The mark: 1 where a header stands in front."""
    return 1 if len(contents) > 1 else 0


def parts_lent(alphabet, counts, octets):
    """Each part's count and octets. Refusal 4: a count over the limit, or octets not of the length that all counts ask."""
    most = OCTETS[SMS] if alphabet == UCS2 else SEPTETS[SMS]
    lengths = [count if alphabet == UCS2 else octets_for(count) for count in counts]
    if any(count > most for count in counts) or sum(lengths) != len(octets):
        raise Refused(4)
    parts = []
    at = 0
    for count, length in zip(counts, lengths):
        parts.append((count, octets[at:at + length]))
        at += length
    return parts


def check_numbers(all_numbers):
    """Refusal 10: the parts are not each part of one message, once."""
    if not all_numbers or [] in all_numbers:
        raise Refused(10)
    reference, total, _ = all_numbers[0]
    if any(numbers[:2] != [reference, total] for numbers in all_numbers):
        raise Refused(10)
    if sorted(numbers[2] for numbers in all_numbers) != list(range(1, total + 1)):
        raise Refused(10)


# ---------------------------------------------------------------------------------------------------------------------
# Refusals

def check_octets(service, alphabet, octets, count):
    """Refusal 4: octets that do not fit the service or the count, and odd UCS2 octets."""
    m = len(octets)
    if service == SMS:
        if alphabet == UCS2:
            fits = m == count and m <= 140 and m % 2 == 0
        else:
            fits = count <= 160 and m == octets_for(count)
    else:
        fits = count == 0 and (m == OCTETS[service] if service in EXACT else m <= OCTETS[service])
        if alphabet == UCS2 and m % 2 != 0:
            fits = False
    if not fits:
        raise Refused(4)


def check_marked_octets(alphabet, octets, count):
    """Refusal 4 of a short message with a header in front: as without it, but evenness is judged behind the header."""
    if alphabet == UCS2:
        fits = len(octets) <= OCTETS[SMS] and count == len(octets)
    else:
        fits = count <= SEPTETS[SMS] and len(octets) == octets_for(count)
    if not fits:
        raise Refused(4)


def check_size(length, size):
    if length > size:
        raise Refused(5)


def store(result, out):
    """Refusal 7, or the result at the front of the lent buffer. Answers how many elements were written."""
    if len(out) < len(result):
        raise Refused(7)
    for position, element in enumerate(result):
        out[position] = element
    return len(result)


# ---------------------------------------------------------------------------------------------------------------------
# The calls. Each does its tests in the order that its first line gives.

def read_coding(service, coding):
    """Only 2, for an old page."""
    return {"reading": reading_of(service, coding)}


def write_coding(service, reading):
    """Only 8."""
    return {"coding": octet_of(service, reading)}


def holds_text(reading):
    """1, 2, 3."""
    return {"holds": text_of(reading)}


def pack(service, septets, out):
    """8 (old page), 9, 5, 7."""
    if service == OLD:
        raise Refused(8)
    check_septets(septets)
    check_size(len(septets), SEPTETS[service])
    written = store(packed_for(service, septets), out)
    return {"written": written, "count": len(septets) if service == SMS else 0}


def unpack(service, count, octets, out):
    """4, 7."""
    check_octets(service, SEVEN, octets, count)
    return {"written": store(unpacked_for(service, octets, count), out)}


def text_to_septets(text, out):
    """6, 7."""
    return {"written": store(septets_of(text), out)}


def septets_to_text(septets, out):
    """9, 7."""
    check_septets(septets)
    return {"written": store(units_of(septets), out)}


def read_message(service, coding, count, octets, out):
    """1, 2, 3, 4, 11, 7: a broadcast's 3 is the header's alone, and 11 is no other service's. The old page's own 2 stands
    in the place of 2: its coding holds no other refusal."""
    reading = reading_of(service, coding)
    alphabet = message_text(service, reading)
    check_octets(service, alphabet, octets, count)
    if is_lettered(service, reading):
        (letter1, letter2), text = lettered_text(alphabet, octets)
        reading = reading._replace(letter1=letter1, letter2=letter2)
    elif alphabet == UCS2:
        text = ucs2_units(service, octets)
    elif service == OLD:
        text = old_units_of(unpacked_for(service, octets, count))
    else:
        text = units_of(unpacked_for(service, octets, count))
    return {"written": store(text, out), "reading": reading}


def write_message(service, reading, text, out):
    """8, 1, 2, 3 (11 for the prefix mark on a broadcast), 6, 5, 7."""
    coding = message_octet(service, reading)
    alphabet = message_text(service, reading)
    if is_lettered(service, reading):
        octets = lettered_octets(reading, text)
        count = 0
    elif alphabet == UCS2:
        check_size(len(text), UNITS[service])
        octets = ucs2_octets(service, text)
        count = len(octets)
    else:
        septets = septets_of(text)
        check_size(len(septets), SEPTETS[service])
        octets = packed_for(service, septets)
        count = len(septets)
    written = store(octets, out)
    return {"written": written, "count": count if service == SMS else 0, "coding": coding}


def read_header(block):
    """Refuses nothing."""
    return header_of(block)


def count_pages(reading, text):
    """8, 1, 2, 3, 6, 5."""
    message_octet(BROADCAST, reading)
    return {"pages": len(pages_of(text_of(reading), text))}


def build_page(sequence, identifier, reading, text, number):
    """8, 1, 2, 3, 6, 5, 10."""
    coding = message_octet(BROADCAST, reading)
    pages = pages_of(text_of(reading), text)
    if number < 1 or number > len(pages):
        raise Refused(10)
    return {"pages": len(pages),
            "block": block_of(sequence, identifier, coding, len(pages), number, pages[number - 1])}


def write_pages(sequence, identifier, reading, text, out):
    """8, 1, 2, 3, 6, 5, 7."""
    coding = message_octet(BROADCAST, reading)
    pages = pages_of(text_of(reading), text)
    octets = []
    for number, page in enumerate(pages, 1):
        octets += block_of(sequence, identifier, coding, len(pages), number, page)
    return {"written": store(octets, out), "pages": len(pages)}


def join_pages(octets, out):
    """4 (no multiple of 88), 10 (no block), 1, 2, 3 (the first block), 10, 7."""
    if len(octets) % BLOCK != 0:
        raise Refused(4)
    if not octets:
        raise Refused(10)
    blocks = [octets[at:at + BLOCK] for at in range(0, len(octets), BLOCK)]
    first = header_of(blocks[0])
    reading = reading_of(BROADCAST, first["coding"])
    alphabet = text_of(reading)
    check_pages(blocks)
    written = store(joined_text(alphabet, blocks), out)
    return {"written": written, "reading": reading, "sequence": first["sequence"], "identifier": first["identifier"],
            "pages": first["total"]}


def new_meter(service):
    """Refuses nothing."""
    return shown(Meter(service))


def room_left(service, used):
    """Refuses nothing."""
    return shown(Meter(service, used))


def unit_added(service, used, unit):
    """6, 5."""
    return after_key(Meter(service, used), Meter.add, unit)


def unit_taken_back(service, used, unit):
    """6, 5."""
    return after_key(Meter(service, used), Meter.take_back, unit)


def meter_cleared(service, used):
    """Refuses nothing."""
    return after_key(Meter(service, used), Meter.clear)


def read_part(coding, count, mark, octets, out):
    """1, 2, 4, 7 without the mark, as a short message. 1, 2, 4 (octets and count), 12, 4 (odd behind the header), 7 with
    it. A short message's coding holds no 3."""
    if not mark:
        return {**read_message(SMS, coding, count, octets, out), "numbers": []}
    reading = reading_of(SMS, coding)
    alphabet = text_of(reading)
    check_marked_octets(alphabet, octets, count)
    numbers, content = opened(alphabet, count, octets)
    check_even(alphabet, content)
    return {"written": store(text_behind(alphabet, content), out), "reading": reading, "numbers": numbers}


def count_parts(reading, text):
    """8, 1, 2, 6, 5."""
    message_octet(SMS, reading)
    return {"parts": len(contents_of(text_of(reading), text))}


def write_part(reading, reference, text, number, out):
    """8, 1, 2, 6, 5, 10, 7."""
    coding = message_octet(SMS, reading)
    alphabet = text_of(reading)
    contents = contents_of(alphabet, text)
    if number < 1 or number > len(contents):
        raise Refused(10)
    count, octets = part_of(alphabet, reference, contents, number)
    return {"written": store(octets, out), "mark": is_marked(contents), "count": count, "coding": coding,
            "parts": len(contents)}


def write_parts(reading, reference, text, out, sizes):
    """8, 1, 2, 6, 5, 7: both buffers are long enough, or nothing is stored in either."""
    coding = message_octet(SMS, reading)
    alphabet = text_of(reading)
    contents = contents_of(alphabet, text)
    octets, pairs = [], []
    for number in range(1, len(contents) + 1):
        count, part = part_of(alphabet, reference, contents, number)
        octets += part
        pairs += [count, len(part)]
    if len(sizes) < len(pairs):
        raise Refused(7)
    written = store(octets, out)
    store(pairs, sizes)
    return {"written": written, "mark": is_marked(contents), "coding": coding, "parts": len(contents)}


def join_parts(coding, counts, octets, out):
    """1, 2, 4 (counts and octets), 12, 4 (odd behind a header), 10, 7: each is judged over all parts before the next."""
    reading = reading_of(SMS, coding)
    alphabet = text_of(reading)
    parts = [opened(alphabet, count, part) for count, part in parts_lent(alphabet, counts, octets)]
    for _, content in parts:
        check_even(alphabet, content)
    check_numbers([numbers for numbers, _ in parts])
    joined = []
    for _, content in sorted(parts, key=lambda part: part[0][2]):
        joined += content
    written = store(text_behind(alphabet, joined), out)
    reference, total, _ = parts[0][0]
    return {"written": written, "reading": reading, "reference": reference, "parts": total}
