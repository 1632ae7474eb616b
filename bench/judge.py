#!/usr/bin/env python3
"""Holds the harness's figures and the archive to the limits. Prints a line for each limit that is broken, then a total.

    judge.py TABLE ARCHIVE      the harness's table (tab-separated), and libwikuay.a or one object file
    judge.py --size ARCHIVE     what the archive holds, and nothing judged
    judge.py --self-test        shows that every limit can be broken
"""
import collections
import struct
import sys

Row = collections.namedtuple("Row", "direction service text length side answer cost stack")

# Instructions to write and to read 160 letters as a 7-bit short message. The other services cost the same a septet.
MOST = {"write": 2000, "read": 1600}
FULL = {"sms": 160, "page": 93, "ussd": 182, "pages": 1395, "lettered": 90}
FULL_UCS2 = 70
# How often the cost of the loop that swaps is allowed to them.
SWAP_TIMES = {"write": 2, "read": 2.12}
# A page of UCS2 behind language letters is held to the plain loop, and not to the loop that swaps, which has no letters.
LETTERED_UCS2 = {"lettered-ucs2": 40}
# The keys of a meter, of a text that takes so many septets, and how often the plain loop's cost is allowed: a key that is no small letter is encoded as a
# text of its own, where the plain loop looks into its table.
KEYS = {"meter": 182}
KEY_TIMES = {"letters": 1.56, "accent": 1.67}
# Texts whose every unit is searched for in the tables from code to unit, where the plain loop has a table from unit to code: how often its cost is allowed.
# Of one page of several and of parts more septets are made than leave. Beside the plain loop that searches too, they cost at most a part of its instructions.
SEARCHED = ("extension", "euro")
SEARCHED_TIMES = {"built": 3.4, "meter": 3.2, "parts": 3.7, "part": 6.9}
OTHER_SEARCHED = 2
SEARCH_PART = 0.25
# Messages of several pages, all of them and the last one alone: what a page of each holds, septets or units.
PAGED = {"pages": 93, "pages-ucs2": 41, "built": 93, "built-ucs2": 41}
MOST_PAGES = 15
# Texts that fill a page to its end, so that a page of them is a part of many.
LINEAR = ("letters", "han")
# Long short messages, all parts and the last one alone: what a part of each holds, septets or units.
PARTED = {"parts": 153, "parts-ucs2": 67, "part": 153, "part-ucs2": 67}
# What fits alone, and so has no header: septets.
ALONE = 160
MOST_PARTS = 255
# All parts of letters cost to write at most so many times as many short messages of 160 letters.
PARTS_AGAINST_MESSAGES = 1.2
# How often the plain loop's cost is allowed to the calls on parts, where once is not kept: of UCS2 the plain loop is vector code from end to end.
PART_TIMES = {("write", "parts-ucs2", "han"): 1.26, ("write", "part-ucs2", "han"): 1.34,
              ("read", "parts-ucs2", "han"): 1.78, ("read", "part-ucs2", "han"): 2.12}
# The calls that count pages or parts only test a text of letters: instructions a letter, at most.
COUNTING = {"wikuay_count_pages": 2.06, "wikuay_count_parts": 2}
# How often the plain loop's cost is allowed, where once is not kept: of UCS2 the plain loop is vector code from end to end.
TIMES = {("write", "pages-ucs2"): 1.12, ("write", "built-ucs2"): 1.45, ("read", "pages-ucs2"): 3.04,
         ("write", "lettered-ucs2"): 2.01, ("read", "lettered-ucs2"): 1.2}
# Texts that are refused for their last unit, and the accepted text that the same pass judges: its last unit is listed, and is not its own code.
REFUSED = ("refused", "circumflex")
ACCEPTED = "accent"
# A unit that is searched for in vain costs so many instructions more than one that is found, at most.
IN_VAIN = 21
ARCHIVE_OCTETS = 44 * 1024
STACK_OCTETS = 1024
# The septets of 15 pages stand in an array of 1,395 octets, their units of UCS2 in one of 1,230.
PAGED_STACK_OCTETS = 2432
# The calls on parts hold no more than the calls on pages do, whatever the text's length.
PARTED_STACK_OCTETS = 2304
# From this length on the library is at least as fast as the plain loop. Eight units with an accented one are tested in vain, and lose a tenth.
FROM = 8
FROM_ACCEPTED = 9
# A short message or USSD text of up to so many septets may cost so many instructions more to read: what is told of a text costs more than a few septets do.
SHORT = 18
SHORT_SERVICES = ("sms", "ussd")
SHORT_READ_MORE = 64
# Behind a header fewer septets than these have no limit to read: what is told of a part costs more than they do.
FROM_BEHIND = 16
MOST_LINES = 1000
# Services that are held to the plain loop by instructions alone, and not by times.
COUNTED = {*PAGED, *PARTED, *LETTERED_UCS2, *KEYS}
# What the archive may ask of its caller's C library: plain memory, and no storage.
MAY_ASK = {"memcpy", "memmove", "memset", "memcmp", "bcmp"}


def read_table(lines):
    """The rows of a table, and whether it holds times (ratios to the library) or instructions."""
    lines = [line.rstrip("\n").split("\t") for line in lines if not line.startswith("#")]
    names, body = lines[0], lines[1:]
    timed = "ratio" in names
    rows = []
    for line in body:
        field = dict(zip(names, line))
        cost = field["ratio"] if timed else field["instructions"]
        rows.append(Row(field["direction"], field["service"], field["text"], int(field["length"]), field["side"], field["answer"],
                        None if cost == "-" else float(cost),
                        None if field.get("stack", "-") == "-" else int(field["stack"])))
    return rows, timed


def is_searched(direction, service, text):
    """Whether a call searches for every unit of a text: the keys of a meter do both ways."""
    return text in SEARCHED and (direction == "write" or service in KEYS)


def allowed(direction, service, text):
    """How often the plain loop's cost is allowed to a call."""
    if is_searched(direction, service, text):
        return SEARCHED_TIMES.get(service, OTHER_SEARCHED)
    if service in KEYS:
        return KEY_TIMES[text]
    return PART_TIMES.get((direction, service, text), TIMES.get((direction, service), 1))


def held_to_plain(row):
    """Whether a text is long enough to be held to the plain loop."""
    if (row.direction, row.service) == ("read", "part") and row.length > ALONE:
        return row.length - PARTED["part"] >= FROM_BEHIND
    return row.length >= (FROM_ACCEPTED if row.text == ACCEPTED else FROM)


def stack_allowed(service):
    return PAGED_STACK_OCTETS if service in PAGED else PARTED_STACK_OCTETS if service in PARTED else STACK_OCTETS


def broken_by_figures(rows, timed):
    """A line for each limit that the figures break, and how many were judged."""
    cost = {(r.direction, r.service, r.text, r.length, r.side): r.cost for r in rows if r.answer == "same"}
    broken, judged = [], 0

    def hold(name, got, most):
        nonlocal judged
        judged += 1
        if most is None:
            broken.append(f"{name}: there is nothing to hold it against")
        elif not got <= most:
            broken.append(f"{name}: {got:g}, at most {most:g}")

    for r in rows:
        if r.side == "plain" and r.answer != "same" or r.side == "search" and r.answer == "differs":
            broken.append(f"{r.direction} {r.service} {r.text} {r.length}: the {r.side} loop answers something else")
        if r.side != "wikuay":
            continue
        key = (r.direction, r.service, r.text, r.length)
        name = " ".join(map(str, key))
        if r.text in REFUSED:
            if not timed:
                accepted = cost.get((r.direction, r.service, ACCEPTED, r.length, "wikuay"))
                hold(f"{name}: a refusal against the accepted text", r.cost, accepted and accepted + IN_VAIN)
        elif timed and r.service in COUNTED:
            continue
        elif (r.service in FULL or r.service in COUNTED) and held_to_plain(r):
            plain = cost.get(key + ("plain",))
            # The spread of a time is not a fault: a tenth is allowed there.
            times = allowed(r.direction, r.service, r.text) * (1.1 if timed else 1)
            more = SHORT_READ_MORE if not timed and r.direction == "read" and r.service in SHORT_SERVICES and r.length <= SHORT else 0
            hold(f"{name}: against the plain loop", r.cost, plain and plain * times + more)
        searching = cost.get(key + ("search",))
        if searching and held_to_plain(r) and not timed:
            hold(f"{name}: against the loop that searches", r.cost, SEARCH_PART * searching)
        if not timed and r.text == "letters" and r.length == FULL.get(r.service):
            hold(f"{name}: instructions", r.cost, MOST[r.direction] * r.length // FULL["sms"])
        if not timed and r.service in PAGED and r.text in LINEAR:
            # Whole pages cost no more than as many messages of one page.
            pages, over = divmod(r.length, PAGED[r.service])
            single = cost.get((r.direction, r.service, r.text, PAGED[r.service], "wikuay"))
            if pages > 1 and over == 0:
                hold(f"{name}: against as many single pages", r.cost, single and pages * single)
        if not timed and r.service in PARTED and r.text in LINEAR:
            # Whole parts cost no more than as many halves of a message of two.
            parts, over = divmod(r.length, PARTED[r.service])
            pair = cost.get((r.direction, r.service, r.text, 2 * PARTED[r.service], "wikuay"))
            if parts > 2 and over == 0:
                hold(f"{name}: against as many halves of two parts", r.cost, pair and parts * pair / 2)
            if parts > 1 and over == 0 and (r.direction, r.service) == ("write", "parts"):
                single = cost.get(("write", "sms", "letters", FULL["sms"], "wikuay"))
                hold(f"{name}: against as many messages of 160 letters", r.cost, single and PARTS_AGAINST_MESSAGES * parts * single)
        if not timed and r.service in KEYS and r.text in ("letters", "euro"):
            # A key takes the same time whatever was typed before: many cost no more than as many first ones.
            each = 2 if r.text == "euro" else 1
            first = cost.get((r.direction, r.service, r.text, each, "wikuay"))
            if r.length > each:
                hold(f"{name}: against as many first keys", r.cost, first and r.length // each * first)
        if not timed and r.service in COUNTING:
            hold(f"{name}: instructions a letter", r.cost / r.length, COUNTING[r.service])
        if not timed and r.service == "sms-ucs2" and r.length == FULL_UCS2:
            swap = cost.get(key + ("swap",))
            hold(f"{name}: against the loop that swaps", r.cost, swap and SWAP_TIMES[r.direction] * swap)
        if not timed:
            hold(f"{name}: octets of stack", r.stack, stack_allowed(r.service) - 1)
    return broken, judged


def members(archive):
    """The object files of an archive. An object file stands for itself."""
    if archive[:4] == b"\x7fELF":
        yield archive
        return
    if archive[:8] != b"!<arch>\n":
        raise SystemExit("judge: this is no archive")
    at = 8
    while at + 60 <= len(archive):
        head = archive[at:at + 60]
        size = int(head[48:58])
        body = archive[at + 60:at + 60 + size]
        if body[:4] == b"\x7fELF":
            yield body
        at += 60 + size + size % 2


def archive_holds(archive):
    """Of an archive: octets of code, of read-only data, of written data, and the names that it asks for."""
    code = tables = state = 0
    asked, given = set(), set()
    for elf in members(archive):
        start, = struct.unpack_from("<Q", elf, 40)
        size, number = struct.unpack_from("<HH", elf, 58)
        sections = [struct.unpack_from("<IIQQQQIIQQ", elf, start + i * size) for i in range(number)]
        for section in sections:
            kind, flags, octets = section[1], section[2], section[5]
            if flags & 2:  # it takes room in memory
                if flags & 1:
                    state += octets
                elif flags & 4:
                    code += octets
                else:
                    tables += octets
            if kind == 2:  # names
                texts = sections[section[6]][4]
                for at in range(section[4], section[4] + octets, 24):
                    name, info, _, where = struct.unpack_from("<IBBH", elf, at)
                    word = elf[texts + name:elf.index(b"\0", texts + name)].decode()
                    if word and info >> 4:
                        (given if where else asked).add(word)
    return code, tables, state, asked - given


def broken_by_archive(archive):
    code, tables, state, asked = archive_holds(archive)
    broken = []
    if not 0 < code + tables + state < ARCHIVE_OCTETS:
        broken.append(f"archive: code {code} and tables {tables} octets, less than {ARCHIVE_OCTETS} together")
    if state:
        broken.append(f"archive: {state} octets of state, none wanted")
    for name in sorted(asked - MAY_ASK):
        broken.append(f"archive: asks for {name}")
    return broken, f"code {code}, tables {tables}, state {state} octets; asks for {' '.join(sorted(asked)) or 'nothing'}"


def self_test():
    """Breaks each limit alone, in figures that keep all of them, and looks that this one is named."""
    rows = []
    for direction in ("write", "read"):
        for service, full in FULL.items():
            for text in ("letters", "extension", ACCEPTED) + REFUSED:
                if text in REFUSED and direction == "read":
                    continue
                for length in (FROM - 2, FROM, full - full % 2 if text == "extension" else full):
                    rows.append(Row(direction, service, text, length, "wikuay", "same", 9.0 * length, 400))
                    rows.append(Row(direction, service, text, length, "plain", "same", 9.0 * length / allowed(direction, service, text), None))
                    if is_searched(direction, service, text):
                        rows.append(Row(direction, service, text, length, "search", "same", 9.0 * length / SEARCH_PART, None))
        for side, each in (("wikuay", 8), ("plain", 6), ("swap", 4)):
            rows.append(Row(direction, "sms-ucs2", "han", FULL_UCS2, side, "same", each * FULL_UCS2, 400))
        for service, full in LETTERED_UCS2.items():
            for length in (FROM - 2, FROM, full):
                rows.append(Row(direction, service, "han", length, "wikuay", "same", 9.0 * length, 400))
                rows.append(Row(direction, service, "han", length, "plain", "same", 9.0 * length / TIMES.get((direction, service), 1), None))
        for service, full in KEYS.items():
            for text, each in (("letters", 1), ("euro", 2)):
                for length in (each, FROM, full):
                    rows.append(Row(direction, service, text, length, "wikuay", "same", 9.0 * length, 400))
                    rows.append(Row(direction, service, text, length, "plain", "same", 9.0 * length / allowed(direction, service, text), None))
        for service, room in PAGED.items():
            for pages in (1, 2, MOST_PAGES):
                text = "han" if service.endswith("ucs2") else "letters"
                each = 9.0 * pages * room
                rows.append(Row(direction, service, text, pages * room, "wikuay", "same", each, 2000))
                rows.append(Row(direction, service, text, pages * room, "plain", "same", each / TIMES.get((direction, service), 1), None))
        for service, room in PARTED.items():
            for text in ("han",) if service.endswith("ucs2") else ("letters", "extension", ACCEPTED) + REFUSED:
                if text in REFUSED and direction == "read":
                    continue
                for parts in (2, 3, MOST_PARTS):
                    each = 9.0 * parts * room
                    rows.append(Row(direction, service, text, parts * room, "wikuay", "same", each, 2000))
                    rows.append(Row(direction, service, text, parts * room, "plain", "same", each / allowed(direction, service, text), None))
    for call, each in COUNTING.items():
        rows.append(Row("other", call, "letters", 1000, "wikuay", "same", each * 1000, 400))
    clean, judged = broken_by_figures(rows, False)
    assert clean == [] and judged > 40, (clean, judged)

    def breaks(words, pick, **change):
        found = [i for i, r in enumerate(rows) if pick(r)]
        assert found, words
        for i in found:
            edited = rows[:i] + [rows[i]._replace(**change)] + rows[i + 1:]
            told, _ = broken_by_figures(edited, False)
            assert any(words in line for line in told), (words, rows[i], told)

    def is_ours(r):
        return r.side == "wikuay"

    for direction in MOST:
        for service, full in FULL.items():
            def whole(r):
                return is_ours(r) and (r.direction, r.service, r.text, r.length) == (direction, service, "letters", full)
            breaks(": instructions", whole, cost=MOST[direction] * full // 160 + 1)
            breaks("plain loop", whole, cost=9.0 * full + 1)
    breaks("plain loop", lambda r: is_ours(r) and r.service in FULL and r.text == "extension" and r.length >= FROM, cost=9.0 * 1395 + 1)
    breaks("loop that searches", lambda r: is_ours(r) and r.service in FULL and is_searched(r.direction, r.service, r.text) and r.length >= FROM,
           cost=9.0 * 1395 + 1)
    breaks("a refusal", lambda r: is_ours(r) and r.text in REFUSED, cost=9.0 * 39015 + IN_VAIN + 1)
    breaks("plain loop", lambda r: is_ours(r) and r.service in LETTERED_UCS2 and r.length >= FROM, cost=9.0 * 1395 + 1)
    breaks("plain loop", lambda r: is_ours(r) and r.service in KEYS and r.length >= FROM, cost=9.0 * 1395 + 1)
    breaks("as many first keys", lambda r: is_ours(r) and r.service in KEYS and r.length >= FROM, cost=9.0 * 1395 + 1)
    for direction, times in SWAP_TIMES.items():
        breaks("loop that swaps", lambda r: is_ours(r) and (r.direction, r.service) == (direction, "sms-ucs2"), cost=times * 4 * FULL_UCS2 + 1)
    breaks("plain loop", lambda r: is_ours(r) and r.direction == "read" and r.service in SHORT_SERVICES and r.length == FROM and r.text != ACCEPTED,
           cost=9.0 * FROM + SHORT_READ_MORE + 1)
    for service, room in PAGED.items():
        for pages in (1, 2, MOST_PAGES):
            def whole_pages(r):
                return is_ours(r) and (r.service, r.length) == (service, pages * room) and r.text in LINEAR
            breaks("plain loop", whole_pages, cost=9.0 * pages * room + 1)
            if pages > 1:
                breaks("as many single pages", whole_pages, cost=9.0 * pages * room + 1)
    for parts in (2, 3, MOST_PARTS):
        def whole_parts(r):
            return is_ours(r) and r.service in PARTED and r.text not in REFUSED and r.length == parts * PARTED[r.service]
        breaks("plain loop", whole_parts, cost=9.0 * parts * 153 + 1)
        if parts > 2:
            breaks("as many halves of two parts", lambda r: whole_parts(r) and r.text in LINEAR, cost=9.0 * parts * 153 + 1)
        breaks("as many messages of 160 letters", lambda r: whole_parts(r) and (r.direction, r.service, r.text) == ("write", "parts", "letters"),
               cost=PARTS_AGAINST_MESSAGES * 9.0 * 160 * parts + 1)
    breaks("instructions a letter", lambda r: r.service in COUNTING, cost=max(COUNTING.values()) * 1000 + 1)
    breaks("octets of stack", lambda r: is_ours(r) and r.service not in PAGED and r.service not in PARTED, stack=STACK_OCTETS)
    breaks("octets of stack", is_ours, stack=max(PAGED_STACK_OCTETS, PARTED_STACK_OCTETS))
    breaks("octets of stack", lambda r: is_ours(r) and r.service in PARTED, stack=PARTED_STACK_OCTETS)
    breaks("something else", lambda r: r.side in ("plain", "search") and r.service != "sms-ucs2", answer="differs", cost=9.0)
    slow = [r._replace(cost=2 * r.cost if is_ours(r) and r.text not in REFUSED else r.cost) for r in rows]
    assert any("plain loop" in line for line in broken_by_figures(slow, True)[0])
    print("judge: every limit on the figures can be broken")


def main(words):
    if words == ["--self-test"]:
        return self_test()
    if len(words) != 2:
        raise SystemExit(__doc__)
    if words[0] == "--size":
        with open(words[1], "rb") as archive:
            print(broken_by_archive(archive.read())[1])
        return 0
    with open(words[0], encoding="ascii") as table:
        rows, timed = read_table(table)
    with open(words[1], "rb") as archive:
        broken, about = broken_by_archive(archive.read())
    told, judged = broken_by_figures(rows, timed)
    broken += told
    print("archive: " + about)
    if not timed:
        print(f"stack: at most {max(r.stack for r in rows if r.stack is not None)} octets a call")
    for line in broken[:MOST_LINES]:
        print("over the limit: " + line)
    if len(broken) > MOST_LINES:
        print(f"over the limit: {len(broken) - MOST_LINES} more")
    if timed:
        print("not judged, since instructions cannot be counted here: instructions of a whole message, UCS2, several pages, parts, refusals, stack")
    print(f"{judged + 3} limits judged, {len(broken)} broken")
    return 1 if broken else 0


if __name__ == "__main__":
    sys.exit(main(sys.argv[1:]))
