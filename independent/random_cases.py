"""Random cases with the answers of the second implementation. The same seed gives the same cases.

Lengths keep to both sides of the limits, and inputs are for the most part nearly right: a valid input with one thing
changed reaches further into a call than noise does.

The base, several pages, language letters, W3's codings, the meter and long short messages have a stream each, so that a
stream's cases do not change when another grows. The first three draw by the coding table of before W3: their inputs
stay, and answers follow W3.
"""

import itertools
import random

import wikuay
from cases import CALLS, LARGEST_NUMBER, LARGEST_ROOM, print_case, run_call
from wikuay import Notice, Reading

# The lengths around every limit, in septets, units and octets.
LENGTHS = (0, 1, 2, 6, 7, 8, 9, 14, 15, 16, 17, 40, 41, 42, 69, 70, 71, 79, 80, 81, 82, 83, 92, 93, 94, 139, 140, 141, 159,
           160, 161, 162, 180, 181, 182, 183, 184)

LETTERS = [unit for unit in range(0x20, 0x7F) if len(wikuay.CODES.get(unit, ())) == 1]
EXTENDED = sorted(wikuay.EXTENSION.values())
LISTED = sorted(wikuay.CODES)
UNLISTED = (0x0000, 0x0001, 0x001B, 0x0060, 0x007F, 0x00A0, 0x00C0, 0x00E7, 0x0391, 0x20AB, 0x4E2D, 0xA5A5, 0xD83D, 0xDE00,
            0xFEFF, 0xFFFF)

WEIGHTS = {"read-coding": 2, "write-coding": 3, "holds-text": 2, "pack": 5, "unpack": 5, "text-to-septets": 4,
           "septets-to-text": 4, "read-message": 10, "write-message": 10}


def random_length(rng):
    return rng.choice(LENGTHS) if rng.random() < 0.6 else rng.randrange(0, 26)


def random_service(rng):
    return rng.choices(wikuay.SERVICES, (4, 4, 4, 1))[0]


# ---------------------------------------------------------------------------------------------------------------------
# Readings

# The broadcast octets that W3 gave a meaning. The streams of before draw as if they were reserved still.
LATER = (*range(0x21, 0x25), *range(0x90, 0x9C), *range(0xD0, 0xE0))
STILL_RESERVED = 0x80


def is_later(service, octet):
    return service in (wikuay.BROADCAST, wikuay.USSD) and octet in LATER


def earlier_reading(service, octet):
    """What the octet read as before W3."""
    return wikuay.RESERVED if is_later(service, octet) else wikuay.reading_of(service, octet)


def random_fields(rng):
    """A reading of any fields, which most often no octet reads as."""
    notice = Notice(rng.choice(("discard", "store")), rng.random() < 0.5, rng.choice(wikuay.KINDS))
    return Reading(
        alphabet=rng.choice((wikuay.SEVEN, wikuay.SEVEN, wikuay.EIGHT, wikuay.UCS2, wikuay.WAP)),
        compressed=rng.random() < 0.2,
        message_class=rng.choice((None, None, "class0", "class1", "class2", "class3", "user1", "user2")),
        language=rng.choice(wikuay.LANGUAGES + ("czech", None, None, None, None, None, None)),
        deletion=rng.random() < 0.2,
        notice=notice if rng.random() < 0.2 else None,
        prefix=rng.random() < 0.15,
        reserved=rng.random() < 0.1)


def random_reading(rng, service):
    kind = rng.random()
    if kind < 0.15:
        return random_fields(rng)
    if kind < 0.25:
        service = rng.choice((wikuay.SMS, wikuay.BROADCAST))
    if service == wikuay.OLD:
        return wikuay.PLAIN
    reading = earlier_reading(service, rng.randrange(256))
    if reading.reserved:  # most octets of a page are: draw once more
        reading = earlier_reading(service, rng.randrange(256))
    return reading


def random_text_reading(rng, service):
    """A reading for writing text with: most often one that holds text and has an octet."""
    kind = rng.random()
    if kind < 0.35:
        return wikuay.PLAIN
    if kind < 0.6:
        return Reading(alphabet=wikuay.UCS2)
    if kind < 0.65:
        return Reading(alphabet=rng.choice((wikuay.SEVEN, wikuay.UCS2)), prefix=True)
    return random_reading(rng, service)


# ---------------------------------------------------------------------------------------------------------------------
# Texts, septets and octets

def random_septets(rng, n):
    """Exactly n septets, all below 128."""
    kind = rng.random()
    if kind < 0.3:
        septets = [rng.randrange(0x20, 0x7B) for _ in range(n)]
    elif kind < 0.5:
        septets = [rng.choice((0x1B, 0x1B, 0x65, 0x0A, 0x28, 0x3C, 0x41, 0x0D, rng.randrange(128))) for _ in range(n)]
    elif kind < 0.6:
        septets = [rng.choice((0, 0x0D)) for _ in range(n)]
    else:
        septets = [rng.randrange(128) for _ in range(n)]
    if n and rng.random() < 0.35:
        closing = min(n, rng.choice((1, 1, 2, 3, 8, 9)))
        septets[n - closing:] = [rng.choice((0x0D, 0x0D, 0x0D, 0x00, 0x1B))] * closing
    return septets


def random_given_septets(rng, n):
    """Septets as a caller gives them: now and then one is 128 or more."""
    septets = random_septets(rng, n)
    if n and rng.random() < 0.15:
        for _ in range(rng.randrange(1, 4)):
            septets[rng.randrange(n)] = rng.choice((0x80, 0x8D, 0x9B, 0xC1, 0xFF, rng.randrange(128, 256)))
    return septets


def random_codable_text(rng, n):
    """A text of about n septets, most often of exactly n."""
    kind = rng.random()
    if kind < 0.35:
        return [rng.choice(LETTERS) for _ in range(n)]
    if kind < 0.5:
        return [rng.choice(EXTENDED) for _ in range(n // 2)] + [0x41] * (n % 2)
    text = []
    left = n
    while left > 0:
        unit = rng.choice(LISTED if left > 1 else LETTERS)
        text.append(unit)
        left -= len(wikuay.CODES[unit])
    return text


def random_text(rng, n):
    text = random_codable_text(rng, n)
    kind = rng.random()
    if text and kind < 0.25:
        closing = min(len(text), rng.choice((1, 1, 2, 3, 8, 9)))
        text[len(text) - closing:] = [rng.choice((0x000D, 0x000D, 0x000D, 0x0040))] * closing
    if text and 0.25 <= kind < 0.4:
        for _ in range(rng.randrange(1, 4)):
            text[rng.choice((rng.randrange(len(text)), len(text) - 1))] = rng.choice(UNLISTED)
    return text


def random_ucs2_text(rng, n):
    text = [rng.choice((rng.randrange(0x10000), rng.randrange(0x20, 0x7F), rng.choice(UNLISTED))) for _ in range(n)]
    if n and rng.random() < 0.3:
        closing = min(n, rng.choice((1, 1, 2, 5)))
        text[n - closing:] = [0x000D] * closing
    return text


def with_spare_bits(rng, septet_count, octets):
    """The octets with some of the bits behind the last septet set."""
    spare = 8 * len(octets) - 7 * septet_count
    if octets and 0 < spare < 8:
        octets[-1] |= (rng.randrange(1, 1 << spare) << (8 - spare)) & 255
    return octets


def random_seven_bit_octets(rng, service):
    """Octets and count of 7-bit text, valid under the service."""
    if service == wikuay.OLD:
        septets = random_septets(rng, rng.choice((93, 93, rng.randrange(94))))
        septets += [0] * (93 - len(septets))
        octets = wikuay.packed(septets)
    elif service == wikuay.BROADCAST:
        septets = wikuay.broadcast_filled(random_septets(rng, min(93, random_length(rng))))
        octets = wikuay.packed(septets)
    elif service == wikuay.USSD:
        m = min(160, random_length(rng))
        septets = random_septets(rng, 8 * m // 7)
        octets = wikuay.packed(septets)
        octets += [0] * (m - len(octets))
    else:
        septets = random_septets(rng, min(160, random_length(rng)))
        octets = wikuay.packed(septets)
    if rng.random() < 0.3:
        octets = with_spare_bits(rng, len(septets), octets)
    return octets, len(septets) if service == wikuay.SMS else 0


def random_ucs2_octets(rng, service):
    """Octets and count of UCS2 text, valid under the service."""
    if service == wikuay.SMS:
        octets = wikuay.ucs2_octets(service, random_ucs2_text(rng, min(70, random_length(rng))))
        return octets, len(octets)
    if service == wikuay.USSD:
        return wikuay.ucs2_octets(service, random_ucs2_text(rng, min(80, random_length(rng)))), 0
    return wikuay.ucs2_octets(wikuay.BROADCAST, random_ucs2_text(rng, min(41, random_length(rng)))), 0


def damaged(rng, octets, count):
    """The octets and the count with one thing made wrong, which may by chance still be right."""
    kind = rng.randrange(6)
    if kind == 0:
        return octets + [rng.randrange(256) for _ in range(rng.choice((1, 1, 2, 7)))], count
    if kind == 1:
        return octets[:max(0, len(octets) - rng.choice((1, 1, 2, 7)))], count
    if kind == 2:
        return octets, count + rng.choice((1, 1, 2, 8, 65536))
    if kind == 3:
        return octets, max(0, count - rng.choice((1, 1, 2, 8)))
    if kind == 4:
        return octets, rng.choice((0, 1, 140, 160, 161, 613566757, 4294967295))
    m = rng.choice((81, 82, 83, 139, 140, 141, 142, 159, 160, 161, 162, 163))
    return [rng.randrange(256) for _ in range(m)], rng.choice((count, 0, m, 8 * m // 7))


# ---------------------------------------------------------------------------------------------------------------------
# Inputs of each call, without the room

def random_coding(rng, service):
    kind = rng.random()
    if service == wikuay.OLD:
        return rng.choice((0x00, 0x10, 0xF0)) if kind < 0.8 else rng.randrange(256)
    if kind < 0.3:
        return 0x00 if service == wikuay.SMS else 0x0F
    if kind < 0.45:
        return 0x08 if service == wikuay.SMS else 0x48
    if kind < 0.48:
        return rng.choice((0x10, 0x11))
    return rng.randrange(256)


def random_inputs(rng, call):
    service = random_service(rng)
    if call == "read-coding":
        return {"service": service, "coding": rng.randrange(256)}
    if call == "write-coding":
        return {"service": service, "reading": random_reading(rng, service)}
    if call == "holds-text":
        return {"reading": random_fields(rng) if rng.random() < 0.5 else random_reading(rng, service)}
    if call == "pack":
        return {"service": service, "septets": random_given_septets(rng, random_length(rng))}
    if call == "unpack":
        octets, count = random_seven_bit_octets(rng, service)
        if rng.random() < 0.25:
            octets, count = damaged(rng, octets, count)
        return {"service": service, "count": count, "octets": octets}
    if call == "text-to-septets":
        return {"text": random_text(rng, rng.choice((random_length(rng), random_length(rng), 300)))}
    if call == "septets-to-text":
        return {"septets": random_given_septets(rng, rng.choice((random_length(rng), random_length(rng), 300)))}
    if call == "read-message":
        coding = random_coding(rng, service)
        ucs2 = service != wikuay.OLD and earlier_reading(service, coding).alphabet == wikuay.UCS2
        octets, count = (random_ucs2_octets if ucs2 else random_seven_bit_octets)(rng, service)
        if rng.random() < 0.2:
            octets, count = damaged(rng, octets, count)
        return {"service": service, "coding": coding, "count": count, "octets": octets}
    reading = random_text_reading(rng, service)
    if reading.alphabet == wikuay.UCS2:
        return {"service": service, "reading": reading, "text": random_ucs2_text(rng, random_length(rng))}
    return {"service": service, "reading": reading, "text": random_text(rng, random_length(rng))}


def random_room(rng, needed):
    kind = rng.random()
    if kind < 0.35:
        return needed
    if kind < 0.5:
        return max(0, needed - 1)
    if kind < 0.85:
        return needed + rng.choice((1, 2, 7, 8, 50))
    if kind < 0.9:
        return 0
    return rng.randrange(0, 200)


def random_case(rng, label):
    call = rng.choices(tuple(WEIGHTS), tuple(WEIGHTS.values()))[0]
    return case_of(rng, label, call, random_inputs(rng, call))


def earlier_inputs(call, inputs):
    """The inputs with a coding octet that was reserved before W3 changed over with one that still is."""
    if call == "read-message" and is_later(inputs["service"], inputs["coding"]):
        return {**inputs, "coding": STILL_RESERVED}
    if call == "join-pages" and len(inputs["octets"]) >= wikuay.BLOCK and inputs["octets"][4] in LATER:
        octets, first = list(inputs["octets"]), inputs["octets"][4]
        for at in range(4, len(octets), wikuay.BLOCK):
            octets[at] = {first: STILL_RESERVED, STILL_RESERVED: first}.get(octets[at], octets[at])
        return {**inputs, "octets": octets}
    return inputs


def case_of(rng, label, call, inputs, earlier=True):
    """The case of these inputs. A call that is lent a buffer gets a room around what it needs, or needed before W3; one that
    is lent two has a room for each."""
    if "out" in CALLS[call][2]:
        inputs["room"] = LARGEST_ROOM
        if "list" in CALLS[call][1]:
            inputs["list"] = LARGEST_ROOM
        answer, _ = run_call(call, earlier_inputs(call, inputs) if earlier else inputs)
        inputs["room"] = min(LARGEST_ROOM, random_room(rng, answer["written"]))
        if "list" in inputs:
            inputs["list"] = random_room(rng, 2 * answer["parts"])
    answer, _ = run_call(call, inputs)
    return print_case(label, call, inputs, answer)


# ---------------------------------------------------------------------------------------------------------------------
# Broadcasts of several pages

PAGE_WEIGHTS = {"read-header": 1, "count-pages": 3, "build-page": 4, "write-pages": 4, "join-pages": 8}

# The lengths around some numbers of pages. Long texts are rare, since their lines are long.
PAGE_SEPTETS = (0, 1, 92, 93, 94, 185, 186, 187, 279, 280)
PAGE_UNITS = (0, 1, 40, 41, 42, 81, 82, 83, 123, 124)
MANY_SEPTETS = (1301, 1302, 1303, 1393, 1394, 1395, 1396, 1397)
MANY_UNITS = (573, 574, 575, 614, 615, 616, 617)


def random_page_length(rng, around, many):
    kind = rng.random()
    if kind < 0.12:
        return rng.choice(many)
    if kind < 0.6:
        return rng.choice(around)
    if kind < 0.65:
        return rng.randrange(0, many[0])
    return rng.randrange(0, 3 * around[3])


def random_page_reading(rng):
    """Most often a reading that holds text and has an octet; one that is refused 1, 2 or 3 now and then."""
    kind = rng.random()
    if kind < 0.45:
        return wikuay.PLAIN
    if kind < 0.75:
        return Reading(alphabet=wikuay.UCS2)
    if kind < 0.78:
        return Reading(alphabet=rng.choice((wikuay.SEVEN, wikuay.UCS2)), compressed=True)
    if kind < 0.81:
        return Reading(alphabet=rng.choice((wikuay.EIGHT, wikuay.WAP)))
    if kind < 0.84:
        return Reading(alphabet=rng.choice((wikuay.SEVEN, wikuay.UCS2)), prefix=True)
    return random_reading(rng, wikuay.BROADCAST)


def random_page_text(rng, reading):
    if reading.alphabet == wikuay.UCS2:
        return random_ucs2_text(rng, random_page_length(rng, PAGE_UNITS, MANY_UNITS))
    n = random_page_length(rng, PAGE_SEPTETS, MANY_SEPTETS)
    if rng.random() < 0.05:
        return [wikuay.CR] * n
    return random_text(rng, n)


def random_pair(rng):
    return rng.choice((0, 1, 255, 256, 0x7FFF, 0x8000, 0xFFFF, rng.randrange(65536), rng.randrange(65536)))


def random_page(rng, alphabet, last):
    """The 82 octets of a page, which is full unless it is the last, and now and then even if it is not."""
    size = 41 if alphabet == wikuay.UCS2 else 93
    n = rng.choice((0, 1, size - 1, size, rng.randrange(size))) if last or rng.random() < 0.1 else size
    if alphabet == wikuay.UCS2:
        return wikuay.ucs2_octets(wikuay.BROADCAST, random_ucs2_text(rng, n))
    octets = wikuay.packed(wikuay.broadcast_filled(random_septets(rng, n)))
    return with_spare_bits(rng, 93, octets) if rng.random() < 0.3 else octets


def random_block_coding(rng):
    """Most often an octet that holds text, a reserved one among them."""
    octet = rng.choice((0x0F, 0x0F, 0x48, 0x48, rng.randrange(256), rng.randrange(256)))
    reading = earlier_reading(wikuay.BROADCAST, octet)
    if reading.compressed or reading.alphabet in (wikuay.EIGHT, wikuay.WAP):  # draw once more
        return rng.randrange(256)
    return octet


def random_blocks(rng):
    coding = random_block_coding(rng)
    return blocks_of(rng, coding, earlier_reading(wikuay.BROADCAST, coding).alphabet)


def blocks_of(rng, coding, alphabet):
    """The blocks of a message, in order."""
    total = rng.choice((1, 1, 2, 2, 2, 3, 3, 4, rng.randrange(1, 16)))
    sequence, identifier = random_pair(rng), random_pair(rng)
    return [wikuay.block_of(sequence, identifier, coding, total, number, random_page(rng, alphabet, number == total))
            for number in range(1, total + 1)]


def damaged_blocks(rng, blocks):
    """The blocks with one thing made wrong, which may by chance still be right."""
    blocks = [list(block) for block in blocks]
    victim = rng.randrange(len(blocks))
    kind = rng.randrange(7)
    if kind == 0:
        del blocks[victim]
    elif kind == 1:
        blocks.insert(rng.randrange(len(blocks) + 1), blocks[victim])
    elif kind == 2:
        blocks[victim][rng.randrange(5)] ^= 1 << rng.randrange(8)
    elif kind == 3:
        blocks[victim][5] ^= 1 << rng.randrange(8)
    elif kind == 4:
        blocks[victim][5] = rng.randrange(256)
    elif kind == 5:  # a page too many for the total, or one too few
        total = max(0, min(15, len(blocks) + rng.choice((-1, 1))))
        for block in blocks:
            block[5] = block[5] & 0xF0 | total
    else:
        blocks += [blocks[victim]] * (16 - len(blocks))
    return blocks


def random_joined_octets(rng, blocks):
    if rng.random() < 0.7:
        rng.shuffle(blocks)
    if rng.random() < 0.2:
        blocks = damaged_blocks(rng, blocks)
    octets = [octet for block in blocks for octet in block]
    if rng.random() < 0.05:
        if rng.random() < 0.5:
            return octets + [rng.randrange(256) for _ in range(rng.choice((1, 2, 82, 87, 88)))]
        return octets[:max(0, len(octets) - rng.choice((1, 2, 82, 87, 88)))]
    return octets


def random_page_inputs(rng, call):
    if call == "read-header":
        return {"block": [rng.randrange(256) for _ in range(wikuay.BLOCK)]}
    if call == "join-pages":
        return {"octets": random_joined_octets(rng, random_blocks(rng))}
    return page_inputs_of(rng, call, random_page_reading(rng))


def page_inputs_of(rng, call, reading):
    """Inputs of counting, building and writing pages."""
    inputs = {"reading": reading, "text": random_page_text(rng, reading)}
    if call == "count-pages":
        return inputs
    inputs = {"sequence": random_pair(rng), "identifier": random_pair(rng), **inputs}
    if call == "build-page":
        answer, _ = run_call("count-pages", {"reading": reading, "text": inputs["text"]})
        total = max(1, answer["pages"])
        inputs["number"] = rng.choice((0, total + 1, 15, 16, 257, 4294967295) if rng.random() < 0.2 else
                                      (1, total, rng.randrange(1, total + 1)))
    return inputs


def random_page_case(rng, label):
    call = rng.choices(tuple(PAGE_WEIGHTS), tuple(PAGE_WEIGHTS.values()))[0]
    return case_of(rng, label, call, random_page_inputs(rng, call))


# ---------------------------------------------------------------------------------------------------------------------
# Language letters in front of the text

LETTER_WEIGHTS = {"write-message": 9, "read-message": 9, "write-coding": 1, "holds-text": 1, "count-pages": 1,
                  "build-page": 1, "write-pages": 1, "join-pages": 1}

# The lengths around what a page holds behind its letters.
LETTER_SEPTETS = (0, 1, 2, 88, 89, 90, 90, 91, 92, 93)
LETTER_UNITS = (0, 1, 2, 38, 39, 40, 40, 41, 42)


def random_letter(rng):
    """Most often one of a to z. 0 is a letter that is absent."""
    if rng.random() < 0.88:
        return rng.randrange(0x61, 0x7B)
    return rng.choice((0x00, 0x00, 0x60, 0x7B, 0x41, 0x5A, 0x80, 0xE1, rng.randrange(256)))


def with_letters(rng, reading):
    return reading._replace(letter1=random_letter(rng), letter2=random_letter(rng))


def random_lettered_reading(rng, service):
    """Most often one with the prefix mark."""
    if rng.random() < 0.85:
        return with_letters(rng, Reading(alphabet=rng.choice((wikuay.SEVEN, wikuay.UCS2)), prefix=True))
    return with_letters(rng, random_reading(rng, service))


def random_lettered_text(rng, alphabet):
    if alphabet == wikuay.UCS2:
        return random_ucs2_text(rng, rng.choice(LETTER_UNITS + (rng.randrange(41),)))
    return random_text(rng, rng.choice(LETTER_SEPTETS + (rng.randrange(91),)))


def random_lettered_page(rng, alphabet):
    """The 82 octets of a page with letters, which are now and then wrong, as is the CR behind them."""
    letters = [random_letter(rng) & 127, random_letter(rng) & 127]
    if alphabet == wikuay.UCS2:
        text = random_ucs2_text(rng, rng.choice((0, 1, 39, 40, rng.randrange(41))))
        front = wikuay.packed(letters)
        front[1] |= rng.choice((0, 0, 0x40, 0x80, 0xC0))
        return front + wikuay.ucs2_octets(wikuay.BROADCAST, text)[:80]
    third = wikuay.CR if rng.random() < 0.93 else rng.randrange(128)
    septets = random_septets(rng, rng.choice((0, 1, 89, 90, rng.randrange(91))))
    octets = wikuay.packed(wikuay.broadcast_filled(letters + [third] + septets))
    return with_spare_bits(rng, 93, octets) if rng.random() < 0.3 else octets


def random_letter_inputs(rng, call):
    if call == "join-pages":
        coding, total = rng.choice((0x10, 0x11)), rng.choice((1, 1, 2))
        alphabet = wikuay.reading_of(wikuay.BROADCAST, coding).alphabet
        return {"octets": [octet for number in range(1, total + 1) for octet in
                           wikuay.block_of(1, 2, coding, total, number, random_lettered_page(rng, alphabet))]}
    if call in PAGE_WEIGHTS:
        inputs = random_page_inputs(rng, call)
        if rng.random() < 0.5:
            return {**inputs, "reading": random_lettered_reading(rng, wikuay.BROADCAST)}
        return {**inputs, "reading": with_letters(rng, inputs["reading"])}
    service = rng.choices(wikuay.SERVICES, (1, 20, 2, 1))[0]
    if call == "holds-text":
        return {"reading": random_lettered_reading(rng, service)}
    if call == "write-coding":
        return {"service": service, "reading": random_lettered_reading(rng, service)}
    if call == "write-message":
        reading = random_lettered_reading(rng, service)
        return {"service": service, "reading": reading, "text": random_lettered_text(rng, reading.alphabet)}
    coding = rng.choice((0x10, 0x11)) if rng.random() < 0.95 else rng.choice((0x0F, 0x12, 0x48))
    octets, count = random_lettered_page(rng, wikuay.UCS2 if coding in (0x11, 0x48) else wikuay.SEVEN), 0
    if rng.random() < 0.1:
        octets, count = damaged(rng, octets, count)
    return {"service": service, "coding": coding, "count": count, "octets": octets}


def random_letter_case(rng, label):
    call = rng.choices(tuple(LETTER_WEIGHTS), tuple(LETTER_WEIGHTS.values()))[0]
    return case_of(rng, label, call, random_letter_inputs(rng, call))


# ---------------------------------------------------------------------------------------------------------------------
# The codings of Release 9

RELEASE9_WEIGHTS = {"read-coding": 2, "write-coding": 3, "holds-text": 2, "read-message": 8, "write-message": 8,
                    "count-pages": 2, "build-page": 2, "write-pages": 2, "join-pages": 3}

# Octets beside those of W3, which have changed for nobody.
BESIDE = (0x1F, 0x20, 0x25, 0x2F, 0x8F, 0x9C, 0x9D, 0x9E, 0x9F, 0xA0, 0xCF, 0xE0)


def random_release9_coding(rng):
    """Most often a language, which holds text."""
    kind = rng.random()
    if kind < 0.45:
        return rng.randrange(0x21, 0x25)
    if kind < 0.7:
        return rng.randrange(0x90, 0x9C)
    if kind < 0.78:
        return rng.randrange(0xD0, 0xE0)
    return rng.choice(BESIDE) if kind < 0.9 else rng.randrange(256)


def random_release9_reading(rng):
    """What such an octet reads as, and now and then with one field changed, so that most often no octet reads so."""
    reading = wikuay.reading_of(wikuay.BROADCAST, random_release9_coding(rng))
    if rng.random() < 0.7:
        return reading
    return reading._replace(**rng.choice((
        {"header": not reading.header}, {"header": not reading.header}, {"prefix": True}, {"compressed": True},
        {"reserved": not reading.reserved}, {"deletion": True}, {"letter1": 0x65, "letter2": 0x6E},
        {"letter1": random_letter(rng)}, {"language": rng.choice(wikuay.MORE_LANGUAGES + (None,))},
        {"alphabet": rng.choice((wikuay.SEVEN, wikuay.EIGHT, wikuay.UCS2, wikuay.WAP, wikuay.I1))},
        {"message_class": rng.choice(wikuay.CLASSES + (None, "user1", "user2"))})))


def random_release9_inputs(rng, call):
    service = rng.choices(wikuay.SERVICES, (1, 10, 8, 1))[0]
    if call == "read-coding":
        return {"service": service, "coding": random_release9_coding(rng)}
    if call == "join-pages":
        coding = random_release9_coding(rng)
        blocks = blocks_of(rng, coding, wikuay.reading_of(wikuay.BROADCAST, coding).alphabet)
        return {"octets": random_joined_octets(rng, blocks)}
    if call == "read-message":
        coding = random_release9_coding(rng)
        ucs2 = service != wikuay.OLD and wikuay.reading_of(service, coding).alphabet == wikuay.UCS2
        octets, count = (random_ucs2_octets if ucs2 else random_seven_bit_octets)(rng, service)
        if rng.random() < 0.15:
            octets, count = damaged(rng, octets, count)
        return {"service": service, "coding": coding, "count": count, "octets": octets}
    reading = random_release9_reading(rng)
    if call in PAGE_WEIGHTS:
        return page_inputs_of(rng, call, reading)
    if call == "holds-text":
        return {"reading": reading}
    if call == "write-coding":
        return {"service": service, "reading": reading}
    text = (random_ucs2_text if reading.alphabet == wikuay.UCS2 else random_text)(rng, random_length(rng))
    return {"service": service, "reading": reading, "text": text}


def random_release9_case(rng, label):
    call = rng.choices(tuple(RELEASE9_WEIGHTS), tuple(RELEASE9_WEIGHTS.values()))[0]
    return case_of(rng, label, call, random_release9_inputs(rng, call), earlier=False)


# ---------------------------------------------------------------------------------------------------------------------
# The room left

METER_WEIGHTS = {"new-meter": 1, "room-left": 3, "unit-added": 10, "unit-taken-back": 10, "meter-cleared": 2}


def random_used(rng, service):
    """Most often a sum near zero, near the size or near the largest; now and then one that no keys make."""
    kind = rng.random()
    if kind < 0.25:
        return rng.randrange(0, 4)
    if kind < 0.45:
        return wikuay.SEPTETS[service] + rng.randrange(-3, 4)
    if kind < 0.7:
        return wikuay.MOST_USED - rng.randrange(0, 4)
    if kind < 0.8:
        return rng.randrange(0, wikuay.MOST_USED + 1)
    if kind < 0.9:
        return wikuay.MOST_USED + rng.randrange(1, 5)
    if kind < 0.93:
        return LARGEST_NUMBER - rng.randrange(0, 4)
    if kind < 0.97:
        # Its low 16 bits are a sum near zero or near the size: what cuts a record takes it for such a one.
        return 65536 * rng.randrange(1, 65536) + rng.choice((0, wikuay.SEPTETS[service])) + rng.randrange(0, 4)
    return rng.randrange(wikuay.MOST_USED + 1, LARGEST_NUMBER + 1)


def random_key_unit(rng):
    """Most often a listed unit, and often one of the extension."""
    kind = rng.random()
    if kind < 0.4:
        return rng.choice(EXTENDED)
    if kind < 0.8:
        return rng.choice(LISTED)
    return rng.choice(UNLISTED) if kind < 0.9 else rng.randrange(0x10000)


def random_meter_case(rng, label):
    call = rng.choices(tuple(METER_WEIGHTS), tuple(METER_WEIGHTS.values()))[0]
    service = rng.choice(wikuay.SERVICES)
    given = {"service": service, "used": random_used(rng, service), "unit": random_key_unit(rng)}
    return case_of(rng, label, call, {key: given[key] for key in CALLS[call][1]}, earlier=False)


# ---------------------------------------------------------------------------------------------------------------------
# Long short messages

PART_WEIGHTS = {"read-part": 8, "count-parts": 3, "write-part": 4, "write-parts": 4, "join-parts": 9}

# The lengths around what fits alone and around some numbers of parts, then around the most parts, which a text reaches
# only where it is taken often.
PART_SEPTETS = (0, 1, 7, 8, 152, 153, 159, 160, 160, 161, 161, 162, 305, 306, 307, 459, 460)
PART_UNITS = (0, 1, 2, 66, 67, 69, 70, 70, 71, 71, 72, 133, 134, 135, 201, 202)
MOST_SEPTETS = (4437, 4471, 4472, 38862, 38863, 39014, 39015, 39015, 39016, 39017)
MOST_UNITS_OF_PARTS = (1943, 1958, 1959, 17018, 17019, 17084, 17085, 17085, 17086, 17087)


def random_part_reading(rng):
    """Most often a reading that holds text and has an octet; one that is refused 1 or 2 now and then."""
    kind = rng.random()
    if kind < 0.45:
        return wikuay.PLAIN
    if kind < 0.75:
        return Reading(alphabet=wikuay.UCS2)
    if kind < 0.78:
        return Reading(alphabet=rng.choice((wikuay.SEVEN, wikuay.UCS2)), compressed=True)
    if kind < 0.81:
        return Reading(alphabet=wikuay.EIGHT)
    if kind < 0.84:
        return random_release9_reading(rng)
    return random_reading(rng, wikuay.SMS)


def random_repeated(rng, n, draw):
    """A text of about n units as a shorter one, and how often it is taken."""
    times = rng.choice((1, 2, 3, 5)) if n <= 600 else rng.choice((n // 150, n // 29, n // 8, n))
    text = draw(rng, n // times)
    return text, max(1, times if n % times == 0 or not text else n // len(text))


def random_part_text(rng, reading):
    kind = rng.random()
    ucs2 = reading.alphabet == wikuay.UCS2
    if kind < 0.15:
        n = rng.choice(MOST_UNITS_OF_PARTS if ucs2 else MOST_SEPTETS)
    elif kind < 0.75:
        n = rng.choice(PART_UNITS if ucs2 else PART_SEPTETS)
    else:
        n = rng.randrange(0, 250 if ucs2 else 500)
    return random_repeated(rng, n, random_ucs2_text if ucs2 else random_text)


def random_element(rng):
    """An element that says nothing here, most often a short one."""
    identifier = rng.choice((0x01, 0x05, 0x08, 0x08, 0x70, 0xFF, rng.randrange(1, 256)))
    return [identifier, *random_data(rng, rng.choice((0, 1, 1, 2, 3, 4, 4, rng.randrange(12))))]


def random_data(rng, length):
    """The length octet and so many octets."""
    return [length] + [rng.randrange(256) for _ in range(length)]


def random_header(rng, numbers):
    """A header that says these numbers last, or none."""
    elements = [random_element(rng) for _ in range(rng.choice((0, 0, 0, 1, 1, 2)))]
    if numbers:
        elements.insert(rng.randrange(len(elements) + 1), [wikuay.CONCATENATION, 3, *numbers])
        if rng.random() < 0.2:
            elements.insert(0, [wikuay.CONCATENATION, *random_data(rng, 3)])
    body = [octet for element in elements for octet in element]
    return [len(body)] + body


def damaged_header(rng, header):
    """The header with one thing made wrong, which may by chance still be right."""
    header = list(header)
    kind = rng.randrange(5)
    if kind == 0:
        header[0] = rng.choice((0, 1, max(0, header[0] - 1), header[0] + 1, 139, 140, 255, rng.randrange(256))) % 256
    elif kind == 1:
        at = rng.randrange(len(header))
        header[at] = (header[at] + rng.choice((1, -1, 2, 128))) % 256
    elif kind == 2:
        header[rng.randrange(len(header))] = rng.choice((0, 0, 3, 255, rng.randrange(256)))
    elif kind == 3:  # an identifier alone at the end
        header += [rng.choice((0x00, 0x08, 0x70))]
        header[0] += 1
    else:  # an element 00 of another length in front
        header[1:1] = [0x00, *random_data(rng, rng.choice((0, 1, 2, 4)))]
        header[0] = len(header) - 1
    return header


def random_part(rng, alphabet, header, full):
    """The count and the octets of a part with this header."""
    first = wikuay.septets_before(len(header))
    size = max(0, (140 - len(header)) // 2 if alphabet == wikuay.UCS2 else 160 - first)
    n = size if full else min(size, rng.choice((0, 1, 2, 5, 8, size, rng.randrange(size + 1))))
    if alphabet == wikuay.UCS2:
        octets = header + wikuay.ucs2_octets(wikuay.SMS, random_ucs2_text(rng, n))
        return len(octets), octets
    septets = [rng.choice((0, 127))] * first + random_septets(rng, n)  # the fill bits are 0 or 1
    octets = wikuay.packed(septets)
    octets[:len(header)] = header
    if rng.random() < 0.3:
        octets = with_spare_bits(rng, len(septets), octets)
    return len(septets), octets


def random_part_coding(rng):
    """Most often an octet that holds text, a reserved one among them."""
    octet = rng.choice((0x00, 0x00, 0x00, 0x08, 0x08, 0x08, rng.randrange(256)))
    reading = wikuay.reading_of(wikuay.SMS, octet)
    if reading.compressed or reading.alphabet == wikuay.EIGHT:  # draw once more
        octet = rng.randrange(256)
    return octet, wikuay.reading_of(wikuay.SMS, octet).alphabet


def random_numbers(rng):
    total = rng.choice((1, 2, 3, 255, rng.randrange(256)))
    return [rng.randrange(256), total, rng.choice((0, 1, max(1, total), rng.randrange(256)))]


def random_read_part(rng):
    coding, alphabet = random_part_coding(rng)
    if rng.random() < 0.2:
        octets, count = (random_ucs2_octets if alphabet == wikuay.UCS2 else random_seven_bit_octets)(rng, wikuay.SMS)
        mark = 0
    else:
        header = random_header(rng, random_numbers(rng) if rng.random() < 0.85 else [])
        if rng.random() < 0.3:
            header = damaged_header(rng, header)
        count, octets = random_part(rng, alphabet, header, rng.random() < 0.2)
        mark = 1 if rng.random() < 0.95 else 0
    if alphabet == wikuay.UCS2 and rng.random() < 0.1:  # odd, or over the limit
        octets = octets + [rng.randrange(256)]
        count += 1
    if rng.random() < 0.15:
        octets, count = damaged(rng, octets, count)
    return {"coding": coding, "count": count, "mark": mark, "octets": octets}


def damaged_numbers(rng, all_numbers):
    """The numbers of parts with one thing made wrong, which may by chance still be right."""
    all_numbers = [list(numbers) for numbers in all_numbers]
    victim = rng.randrange(len(all_numbers))
    kind = rng.randrange(6)
    if kind == 0:
        del all_numbers[victim]
    elif kind == 1:
        all_numbers.insert(rng.randrange(len(all_numbers) + 1), all_numbers[victim])
    elif kind == 2:
        all_numbers[victim][rng.randrange(3)] ^= 1 << rng.randrange(8)
    elif kind == 3:
        all_numbers[victim] = []
    elif kind == 4:  # a part too many for the total, or one too few
        total = len(all_numbers) + rng.choice((-1, 1))
        all_numbers = [[reference, total, number] for reference, _, number in all_numbers]
    else:
        all_numbers[victim][2] = rng.choice((0, len(all_numbers) + 1, 255))
    return all_numbers


def random_join_parts(rng):
    coding, alphabet = random_part_coding(rng)
    total = rng.choice((1, 2, 2, 2, 3, 3, 4, 5, rng.randrange(1, 12)))
    reference = rng.randrange(256)
    all_numbers = [[reference, total, number] for number in range(1, total + 1)]
    if rng.random() < 0.2:
        all_numbers = damaged_numbers(rng, all_numbers)
    headers = [random_header(rng, numbers) for numbers in all_numbers]
    if headers and rng.random() < 0.1:
        victim = rng.randrange(len(headers))
        headers[victim] = damaged_header(rng, headers[victim])
    full = rng.random() < 0.3
    parts = [random_part(rng, alphabet, header, full) for header in headers]
    if rng.random() < 0.7:
        rng.shuffle(parts)
    if parts and alphabet == wikuay.UCS2 and rng.random() < 0.05:
        victim = rng.randrange(len(parts))
        parts[victim] = (parts[victim][0] + 1, parts[victim][1] + [rng.randrange(256)])
    counts = [min(count, 255) for count, _ in parts]
    octets = [octet for _, part in parts for octet in part]
    if rng.random() < 0.08:
        kind = rng.randrange(3)
        if kind == 0:
            octets = octets + [0] if rng.random() < 0.5 else octets[:-1]
        elif kind == 1 and counts:
            victim = rng.randrange(len(counts))
            counts[victim] = rng.choice((0, max(0, counts[victim] - 1), min(255, counts[victim] + 1), 160, 161, 255))
        else:
            counts = counts + [rng.choice((0, 1, 8))]
    return {"coding": coding, "counts": counts, "octets": octets}


def random_part_inputs(rng, call):
    if call == "read-part":
        return random_read_part(rng)
    if call == "join-parts":
        return random_join_parts(rng)
    reading = random_part_reading(rng)
    text, times = random_part_text(rng, reading)
    inputs = {"reading": reading, "text": text, "times": times}
    if call == "count-parts":
        return inputs
    inputs["reference"] = rng.choice((0, 1, 128, 255, rng.randrange(256), rng.randrange(256)))
    if call == "write-part":
        answer, _ = run_call("count-parts", {"reading": reading, "text": text, "times": times})
        total = max(1, answer["parts"])
        inputs["number"] = rng.choice((0, total + 1, 255, 256, 257, 4294967295) if rng.random() < 0.2 else
                                      (1, total, rng.randrange(1, total + 1)))
    return inputs


def random_part_case(rng, label):
    call = rng.choices(tuple(PART_WEIGHTS), tuple(PART_WEIGHTS.values()))[0]
    return case_of(rng, label, call, random_part_inputs(rng, call), earlier=False)


# ---------------------------------------------------------------------------------------------------------------------
# The streams

def base_cases(seed):
    rng = random.Random(seed)
    for n in itertools.count(1):
        yield random_case(rng, "random-%d-%d" % (seed, n))


def page_cases(seed):
    rng = random.Random("pages %d" % seed)
    for n in itertools.count(1):
        yield random_page_case(rng, "random-pages-%d-%d" % (seed, n))


def letters_cases(seed):
    rng = random.Random("letters %d" % seed)
    for n in itertools.count(1):
        yield random_letter_case(rng, "random-letters-%d-%d" % (seed, n))


def release9_cases(seed):
    rng = random.Random("release9 %d" % seed)
    for n in itertools.count(1):
        yield random_release9_case(rng, "random-release9-%d-%d" % (seed, n))


def meter_cases(seed):
    rng = random.Random("meter %d" % seed)
    for n in itertools.count(1):
        yield random_meter_case(rng, "random-meter-%d-%d" % (seed, n))


def part_cases(seed):
    rng = random.Random("parts %d" % seed)
    for n in itertools.count(1):
        yield random_part_case(rng, "random-parts-%d-%d" % (seed, n))


def random_cases(number, seed):
    """All streams, mixed: each fourth case is one of several pages, of language letters, of Release 9, of a meter or of a
    long short message, in turn."""
    base = base_cases(seed)
    requests = itertools.cycle((page_cases(seed), letters_cases(seed), release9_cases(seed), meter_cases(seed),
                                part_cases(seed)))
    for n in range(1, number + 1):
        yield next(base if n % 4 else next(requests))
