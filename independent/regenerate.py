"""Writes the vector files that a program makes, or with --check says which of them are not what it would write.

    python3 independent/regenerate.py
    python3 independent/regenerate.py --check

scope.txt is written by hand and left alone.
"""

import contextlib
import io
import itertools
import sys

import damaged
import letters
import limits
import meter
import pages
import parts
import published
import release9
import standard
from random_cases import base_cases, letters_cases, meter_cases, page_cases, part_cases, release9_cases

RANDOM_SEED = 23038

# Each stream and how many of its cases are taken. A later stream stands behind, so that every line keeps its place.
RANDOM_STREAMS = ((base_cases, 3000), (page_cases, 500), (letters_cases, 400), (release9_cases, 300), (meter_cases, 300),
                  (part_cases, 400))

RANDOM_HEADER = """\
# Random cases, %d of the base and %d, %d, %d, %d, %d of W1 to W5: the first of each of cases.py --random 10000 --seed %d
# Every answer comes from the second implementation. These lines show that two programs agree, and not which is right.

""" % (*(number for _, number in RANDOM_STREAMS), RANDOM_SEED)


def random_file():
    print(RANDOM_HEADER, end="")
    for stream, number in RANDOM_STREAMS:
        for line in itertools.islice(stream(RANDOM_SEED), number):
            print(line)


WRITERS = {"standard": standard.main, "published": published.main, "limits": limits.main, "damaged": damaged.main,
           "pages": pages.main, "letters": letters.main, "release9": release9.main, "meter": meter.main,
           "parts": parts.main, "random": random_file}


def written_by(writer):
    with contextlib.redirect_stdout(io.StringIO()) as output:
        writer()
    return output.getvalue()


def stale_files():
    """The files that are not what their program writes."""
    stale = []
    for name, writer in WRITERS.items():
        path = "vectors/%s.txt" % name
        with open(path, encoding="ascii", newline="") as file:
            if file.read() != written_by(writer):
                stale.append(path)
    return stale


def main():
    if sys.argv[1:] == ["--check"]:
        stale = stale_files()
        for path in stale:
            print(path + " is not what its program writes")
        return 1 if stale else 0
    for name, writer in WRITERS.items():
        with open("vectors/%s.txt" % name, "w", encoding="ascii", newline="") as file:
            file.write(written_by(writer))
    return 0


if __name__ == "__main__":
    sys.exit(main())
