"""Turns vectors/published.tsv into cases.

    python3 independent/published.py > vectors/published.txt

A row of the table is a text and its octets as another project's test suite holds them. A row of direction `enc` gives a
case for writing, `dec` one for reading, `both` one of each. No answer comes from the second implementation.
"""

HEADER = """\
# Published vectors: written by independent/published.py from vectors/published.tsv, whose last column names the test
# suite that each comes from. The number in a label is the line of the table, counted from 1; w writes, r reads.
# A writer is given the reading of the row's coding octet and answers with the smallest octet that reads so: F0 is 0F.
"""

SERVICE = {"sms": "sms", "ussd": "ussd", "cbs": "broadcast"}

# Each coding octet of the table: its reading, and the octet that is written for that reading.
CODING = {
    ("sms", "00"): ("plain", "00"),
    ("sms", "08"): ("ucs2", "08"),
    ("sms", "53"): ("class3+deletion", "53"),
    ("ussd", "0F"): ("plain", "0F"),
    ("ussd", "F0"): ("plain", "0F"),
    ("broadcast", "01"): ("english", "01"),
}


def elements(value, digits):
    return 0 if value == "-" else len(value) // digits


def septet_cases(label, direction, text, septets):
    if direction in ("enc", "both"):
        n = elements(septets, 2)
        print("%s-w text-to-septets text=%s room=%d : refusal=0 position=0 written=%d out=%s"
              % (label, text, n + 2, n, septets))
    if direction in ("dec", "both"):
        n = elements(text, 4)
        print("%s-r septets-to-text septets=%s room=%d : refusal=0 position=0 written=%d out=%s"
              % (label, septets, n + 2, n, text))


def message_cases(label, service, direction, coding, count, text, octets):
    reading, smallest = CODING[service, coding]
    if direction in ("enc", "both"):
        print("%s-w write-message service=%s reading=%s text=%s room=160 : "
              "refusal=0 position=0 written=%d count=%s coding=%s out=%s"
              % (label, service, reading, text, elements(octets, 2), count, smallest, octets))
    if direction in ("dec", "both"):
        print("%s-r read-message service=%s coding=%s count=%s octets=%s room=182 : "
              "refusal=0 position=0 written=%d reading=%s out=%s"
              % (label, service, coding, count, octets, elements(text, 4), reading, text))


def main():
    print(HEADER, end="")
    last_source = None
    with open("vectors/published.tsv", encoding="ascii") as table:
        for number, line in enumerate(table, 1):
            if line.startswith("#"):
                continue
            service, direction, coding, count, text, octets, source = line.rstrip("\n").split("\t")
            if source != last_source:
                print("\n# " + source)
                last_source = source
            label = "pub-%d" % number
            if service == "sept":
                septet_cases(label, direction, text, octets)
            else:
                message_cases(label, SERVICE[service], direction, coding, count, text, octets)


if __name__ == "__main__":
    main()
