"""Unit tests of the case format: what is parsed, what is printed, and that the vectors are whole.

    python3 -m unittest discover independent

Run from the root of the repository.
"""

import collections
import glob
import io
import itertools
import unittest

import cases
import count
import random_cases
import regenerate
import wikuay


def run(text):
    printed = []
    cases.run(cases.input_lines(io.BytesIO(text)), printed.append)
    return "".join(printed)


def lines_of(path):
    with open(path, encoding="ascii", newline="") as file:
        return [line for line in file.read().split("\n") if line and not line.startswith("#")]


class Format(unittest.TestCase):
    def test_empty_input(self):
        self.assertEqual(run(b""), "0 cases, 0 differ\n")
        self.assertEqual(run(b"\n# comment\n\n"), "0 cases, 0 differ\n")

    def test_faults(self):
        with open("independent/faults.txt", "rb") as given, open("independent/faults.out", encoding="ascii") as printed:
            self.assertEqual(run(given.read()), printed.read())

    def test_touched_buffer_differs(self):
        line = b"t text-to-septets text=0041 room=4 : refusal=0 position=0 written=1 out=41\n"
        self.assertEqual(run(line), "1 cases, 0 differ\n")

        def careless(text, out):
            out[0], out[2] = 0x41, 0
            return {"written": 1}

        good = cases.CALLS["text-to-septets"]
        cases.CALLS["text-to-septets"] = (careless,) + good[1:]
        try:
            self.assertEqual(run(line), "t: expected refusal=0 position=0 written=1 out=41; "
                                        "came refusal=0 position=0 written=1 out=41 touched=2\n1 cases, 1 differ\n")
        finally:
            cases.CALLS["text-to-septets"] = good

    def test_written_more_than_the_room(self):
        def careless(text, out):
            out[0] = 0x41
            return {"written": 9}

        good = cases.CALLS["text-to-septets"]
        cases.CALLS["text-to-septets"] = (careless,) + good[1:]
        try:
            self.assertEqual(run(b"t text-to-septets text=0041 room=2 : refusal=0 position=0 written=1 out=41\n"),
                             "t: expected refusal=0 position=0 written=1 out=41; "
                             "came refusal=0 position=0 written=9 out=41A5\n1 cases, 1 differ\n")
        finally:
            cases.CALLS["text-to-septets"] = good

    def test_every_reading_comes_back(self):
        for service in (wikuay.SMS, wikuay.BROADCAST):
            for octet in range(256):
                reading = wikuay.reading_of(service, octet)
                self.assertEqual(cases.parse_reading(cases.print_reading(reading)), reading)

    def test_letters_of_a_reading(self):
        for words, reading in (("letter1:01", wikuay.Reading(letter1=1)), ("letter2:FF", wikuay.Reading(letter2=255)),
                               ("ucs2+prefix+letter1:65+letter2:6E",
                                wikuay.Reading(alphabet="ucs2", prefix=True, letter1=0x65, letter2=0x6E)),
                               ("german+reserved+letter2:41",
                                wikuay.Reading(language="german", reserved=True, letter2=0x41))):
            self.assertEqual(cases.parse_reading(words), reading)
            self.assertEqual(cases.print_reading(reading), words)
        for words in ("letter1:00", "letter1:6", "letter1:6e", "letter1:065", "letter1:", "letter1", "letter1=65",
                      "letter3:65", "letter:65", "Letter1:65", "letter1:65+letter1:65", "letter2:6E+letter1:65",
                      "letter1:65+prefix", "letter2:6E+reserved", "plain+letter1:65", "letter1:65+", "letter1:656E",
                      "letter1:-"):
            self.assertRaises(cases.NotACase, cases.parse_reading, words)

    def test_words_of_release_9(self):
        for words, reading in (("i1", wikuay.Reading(alphabet="i1")), ("header", wikuay.Reading(header=True)),
                               ("hebrew", wikuay.Reading(language="hebrew")), ("arabic", wikuay.Reading(language="arabic")),
                               ("russian", wikuay.Reading(language="russian")),
                               ("icelandic", wikuay.Reading(language="icelandic")),
                               ("ucs2+class1+header", wikuay.Reading(alphabet="ucs2", message_class="class1", header=True)),
                               ("prefix+reserved+letter1:65+header",
                                wikuay.Reading(prefix=True, reserved=True, header=True, letter1=0x65))):
            self.assertEqual(cases.parse_reading(words), reading)
            self.assertEqual(cases.print_reading(reading), words)
        for words in ("header+prefix", "header+reserved", "header+class0", "header+letter1:65", "header+header", "headers",
                      "Header", "header:1", "hebrews", "Hebrew", "czech+hebrew", "hebrew+arabic", "hebrew+class0",
                      "deletion+russian", "I1", "i2", "i1+wap", "wap+i1", "compressed+i1", "i1+", "icelandic+i1",
                      "plain+header", "iceland"):
            self.assertRaises(cases.NotACase, cases.parse_reading, words)

    def test_blocks_and_pairs(self):
        self.assertEqual(cases.parse_block("00" * 87 + "FF"), [0] * 87 + [0xFF])
        for value in ("00" * 87, "00" * 89, "00" * 87 + "0", "00" * 87 + "ff", "-", ""):
            self.assertRaises(cases.NotACase, cases.parse_block, value)
        self.assertEqual(cases.parse_pair("65535"), 65535)
        for value in ("65536", "00", "01", "-", "", "4294967296"):
            self.assertRaises(cases.NotACase, cases.parse_pair, value)

    def test_signed_numbers_and_units(self):
        parse, spell = cases.KINDS["signed"]
        for value in ("0", "1", "-1", "7", "-65375", "182", "4294967295", "-4294967295"):
            self.assertEqual(parse(value), int(value))
            self.assertEqual(spell(int(value)), value)
        for value in ("-0", "+0", "+7", "-07", "07", "--7", "- 7", "7-", "-", "", "-00", "4294967296", "-4294967296", "1.0"):
            self.assertRaises(cases.NotACase, parse, value)
        parse, spell = cases.KINDS["unit"]
        for value, unit in (("0000", 0), ("20AC", 0x20AC), ("FFFF", 0xFFFF)):
            self.assertEqual(parse(value), unit)
            self.assertEqual(spell(unit), value)
        for value in ("-", "", "041", "41", "00041", "00410042", "20ac", "20AG", "+041", "0x41"):
            self.assertRaises(cases.NotACase, parse, value)

    def test_a_refused_key_shows_the_record(self):
        for line in ("t unit-added service=sms used=65535 unit=4E2D : refusal=6 position=0 left=-65375 service=sms used=65535",
                     "t unit-taken-back service=old used=1 unit=20AC : refusal=5 position=0 left=92 service=old used=1",
                     "t unit-taken-back service=sms used=4294967295 unit=0041 : "
                     "refusal=5 position=0 left=-4294967135 service=sms used=4294967295"):
            self.assertEqual(run(line.encode()), "1 cases, 0 differ\n")

    def test_header_has_no_refusal(self):
        line = "t read-header block=0001FF000F21%s : sequence=1 identifier=65280 coding=0F total=1 number=2" % ("00" * 82)
        self.assertEqual(run(line.encode()), "1 cases, 0 differ\n")

    def test_marks_times_and_numbers(self):
        parse, spell = cases.KINDS["mark"]
        for value in ("0", "1"):
            self.assertEqual(parse(value), int(value))
            self.assertEqual(spell(int(value)), value)
        for value in ("2", "-", "", "00", "01", "+1", "true"):
            self.assertRaises(cases.NotACase, parse, value)
        parse, spell = cases.KINDS["times"]
        for value in ("1", "255", "40960", "4294967295"):
            self.assertEqual(parse(value), int(value))
            self.assertEqual(spell(int(value)), value)
        for value in ("0", "-", "", "01", "-1", "4294967296"):
            self.assertRaises(cases.NotACase, parse, value)
        parse, spell = cases.KINDS["numbers"]
        for value, numbers in (("-", []), ("000000", [0, 0, 0]), ("C70201", [0xC7, 2, 1]), ("FFFFFF", [255, 255, 255])):
            self.assertEqual(parse(value), numbers)
            self.assertEqual(spell(numbers), value)
        for value in ("", "C7", "C702", "C7020", "C7020101", "c70201", "--"):
            self.assertRaises(cases.NotACase, parse, value)

    def test_a_text_is_taken_times(self):
        for text, times, parts in (("0041", 160, 1), ("0041", 161, 2), ("00410042", 80, 1), ("00410042", 81, 2),
                                   ("20AC", 80, 1), ("20AC", 81, 2), ("-", 1, 1), ("-", 4294967295, 1)):
            line = "t count-parts reading=plain text=%s times=%d : refusal=0 position=0 parts=%d" % (text, times, parts)
            self.assertEqual(run(line.encode()), "1 cases, 0 differ\n")
        line = "t count-parts reading=plain text=%s times=%d : refusal=5 position=0 parts=0"
        self.assertEqual(run((line % ("0041", 40960)).encode()), "1 cases, 0 differ\n")
        for text, times in (("0041", 40961), ("00410042", 20481), ("004100420043", 13654), ("0041", 4294967295)):
            self.assertEqual(run((line % (text, times)).encode()), "line 1: not a case\n1 cases, 1 differ\n")

    def test_the_second_buffer(self):
        line = (b"t write-parts reading=plain reference=07 text=0041 times=1 room=3 list=4 : "
                b"refusal=0 position=0 written=1 mark=0 coding=00 parts=1 out=41 sizes=0101\n")
        self.assertEqual(run(line), "1 cases, 0 differ\n")
        same = "refusal=0 position=0 written=1 mark=0 coding=00 parts=%d out=41 sizes=%s"

        def careless(out_at, sizes_at, parts=1):
            def write(reading, reference, text, out, sizes):
                out[0], sizes[:2] = 0x41, [1, 1]
                for buffer, at in ((out, out_at), (sizes, sizes_at)):
                    if at is not None:
                        buffer[at] = 0
                return {"written": 1, "mark": 0, "coding": 0, "parts": parts}
            return write

        good = cases.CALLS["write-parts"]
        try:
            for out_at, sizes_at, parts, came, closing in (
                    (None, 2, 1, "0101", " listed=2"), (None, 3, 1, "0101", " listed=3"), (1, None, 1, "0101", " touched=1"),
                    (2, 3, 1, "0101", " touched=2 listed=3"), (None, 3, 2, "0101A500", ""), (None, None, 2, "0101A5A5", ""),
                    (None, None, 9, "0101A5A5", ""), (None, None, 0, "-", " listed=0")):
                cases.CALLS["write-parts"] = (careless(out_at, sizes_at, parts),) + good[1:]
                self.assertEqual(run(line), "t: expected %s; came %s%s\n1 cases, 1 differ\n" % (
                    same % (1, "0101"), same % (parts, came), closing))
        finally:
            cases.CALLS["write-parts"] = good

    def test_a_refusal_leaves_both_buffers(self):
        def careless(reading, reference, text, out, sizes):
            sizes[0] = 1
            raise wikuay.Refused(7)

        good = cases.CALLS["write-parts"]
        cases.CALLS["write-parts"] = (careless,) + good[1:]
        try:
            answer = "refusal=7 position=0 written=0 mark=0 coding=00 parts=0 out=- sizes=-"
            line = "t write-parts reading=plain reference=07 text=0041 times=1 room=0 list=4 : " + answer
            self.assertEqual(run(line.encode()), "t: expected %s; came %s listed=0\n1 cases, 1 differ\n" % (answer, answer))
        finally:
            cases.CALLS["write-parts"] = good

    def test_longest_line(self):
        line = b"t text-to-septets text=%s room=0 : refusal=6 position=0 written=0 out=-" % (b"4E2D" * 4078)
        line = b"t" * (16384 - len(line)) + line
        self.assertEqual(run(line), "1 cases, 0 differ\n")
        self.assertEqual(run(b"t" + line), "line 1: longer than 16384 characters\n1 cases, 1 differ\n")


class Random(unittest.TestCase):
    def test_each_fourth_case_is_one_of_a_request(self):
        labels = [line.split(" ", 1)[0] for line in random_cases.random_cases(24, 7)]
        self.assertEqual(labels, ["random-7-1", "random-7-2", "random-7-3", "random-pages-7-1",
                                  "random-7-4", "random-7-5", "random-7-6", "random-letters-7-1",
                                  "random-7-7", "random-7-8", "random-7-9", "random-release9-7-1",
                                  "random-7-10", "random-7-11", "random-7-12", "random-meter-7-1",
                                  "random-7-13", "random-7-14", "random-7-15", "random-parts-7-1",
                                  "random-7-16", "random-7-17", "random-7-18", "random-pages-7-2"])

    def test_the_streams_of_before_draw_no_word_of_release_9(self):
        for stream in (random_cases.base_cases, random_cases.page_cases, random_cases.letters_cases):
            for line in itertools.islice(stream(7), 400):
                reading = cases.parse_case(line)[2].get("reading", wikuay.PLAIN)
                self.assertFalse(reading.header or reading.alphabet == wikuay.I1
                                 or reading.language in wikuay.MORE_LANGUAGES[1:], line)

    def test_all_calls_come(self):
        came = {line.split(" ")[1] for line in random_cases.random_cases(1000, 1)}
        self.assertEqual(came, set(cases.CALLS))

    def test_parts_are_accepted_and_refused(self):
        """Every refusal of every call comes, both marks, long texts, repeated elements and headers of every remainder."""
        lines = list(itertools.islice(random_cases.part_cases(7), 3000))
        self.assertLessEqual(max(map(len, lines)), cases.LONGEST_LINE)
        given = [cases.parse_case(line)[1:] for line in lines]
        for call, numbers in (("read-part", (0, 1, 2, 4, 7, 12)), ("count-parts", (0, 1, 2, 5, 6, 8)),
                              ("write-part", (0, 1, 2, 5, 6, 7, 8, 10)), ("write-parts", (0, 1, 2, 5, 6, 7, 8)),
                              ("join-parts", (0, 1, 2, 4, 7, 10, 12))):
            self.assertEqual({answer["refusal"] for name, _, answer in given if name == call}, set(numbers))
        read = [(inputs, answer) for name, inputs, answer in given if name == "read-part" and answer["refusal"] == 0]
        self.assertEqual({inputs["mark"] for inputs, _ in read}, {0, 1})
        self.assertEqual({inputs["octets"][0] % 7 for inputs, _ in read if inputs["mark"]}, set(range(7)))
        self.assertEqual({len(answer["numbers"]) for _, answer in read}, {0, 3})
        self.assertIn(255, {answer["parts"] for name, _, answer in given if name == "count-parts"})
        self.assertGreater(len({answer["parts"] for name, _, answer in given if name == "join-parts"}), 8)

    def test_units_and_sums_of_the_meter(self):
        """Every width and every refusal comes, and the sums are near each limit."""
        keys = [cases.parse_case(line)[2:] for line in itertools.islice(random_cases.meter_cases(7), 2000)]
        for number in (0, 5, 6):
            self.assertGreater(sum(answer["refusal"] == number for _, answer in keys), 50)
        for size in {182, 160, 93}:
            self.assertGreater(sum(abs(answer["left"]) <= 3 for inputs, answer in keys
                                   if wikuay.SEPTETS[inputs["service"]] == size), 50)

    def test_records_that_no_keys_make(self):
        """They come with every refusal, just above the largest sum and up to the largest record."""
        keys = [cases.parse_case(line)[1:] for line in itertools.islice(random_cases.meter_cases(7), 2000)]
        beyond = [(call, inputs["used"], answer["refusal"]) for call, inputs, answer in keys if inputs.get("used", 0) > 65535]
        self.assertEqual({call for call, _, _ in beyond}, set(random_cases.METER_WEIGHTS) - {"new-meter"})
        self.assertEqual({refusal for call, _, refusal in beyond if call == "unit-taken-back"}, {0, 5, 6})
        self.assertEqual({refusal for call, _, refusal in beyond if call == "unit-added"}, {5, 6})
        self.assertLessEqual({*range(65536, 65540), *range(4294967292, 4294967296)}, {used for _, used, _ in beyond})


class Vectors(unittest.TestCase):
    FILES = sorted(glob.glob("vectors/*.txt"))

    def test_labels_are_unique(self):
        labels = collections.Counter(line.split(" ", 1)[0] for path in self.FILES for line in lines_of(path))
        self.assertEqual([label for label, times in labels.items() if times > 1], [])

    def test_each_key_of_a_run_begins_where_the_one_before_ended(self):
        left_behind = {}
        for line in lines_of("vectors/meter.txt"):
            label, call, inputs, answer = cases.parse_case(line)
            name, _, step = label.rpartition("-")
            if label.startswith("meter-run-") and int(step) > 1:
                self.assertEqual(inputs["used"], left_behind[name], line)
                self.assertNotEqual(call, "new-meter")
            left_behind[name] = answer["used"]

    def test_every_line_is_in_its_one_spelling(self):
        for path in self.FILES:
            for line in lines_of(path):
                self.assertEqual(cases.print_case(*cases.parse_case(line)), line)

    def test_nothing_differs(self):
        for path in self.FILES:
            lines = lines_of(path)
            with open(path, "rb") as file:
                self.assertEqual(run(file.read()), "%d cases, 0 differ\n" % len(lines), path)

    def test_table_of_the_docs(self):
        with open("docs/VECTORS.md", encoding="utf-8") as file:
            self.assertIn("\n".join(count.table()), file.read())

    def test_generated_files_are_what_their_programs_write(self):
        self.assertEqual(regenerate.stale_files(), [])


if __name__ == "__main__":
    unittest.main()
