"""Unit tests of the second implementation against document 01 and W1 to W5 of document 02.

    python3 -m unittest discover independent

Every expected value is worked out by hand from these documents or stands in them. None is a printout of the program.
"""

import random
import unittest

import wikuay
from wikuay import BROADCAST, CR, OLD, SMS, USSD, Meter, Notice, Reading, Refused

PLAIN = Reading()
RESERVED = Reading(reserved=True)
A, EURO, HAN = 0x41, 0x20AC, 0x4E2D


def octets(text):
    return list(bytes.fromhex(text))


def units(text):
    return [ord(character) for character in text]


class Case(unittest.TestCase):
    def accepts(self, function, *inputs, room, out, **answer):
        """The call answers so, writes out, and leaves the rest of the buffer alone."""
        buffer = ["untouched"] * room
        came = function(*inputs, buffer)
        self.assertEqual(came, {"written": len(out), **answer})
        self.assertEqual(buffer, out + ["untouched"] * (room - len(out)))

    def refuses(self, number, position, function, *inputs, room=None):
        """The call refuses so, and stores nothing."""
        buffer = [] if room is None else [["untouched"] * room]
        with self.assertRaises(Refused) as caught:
            function(*inputs, *buffer)
        self.assertEqual((caught.exception.number, caught.exception.position), (number, position))
        if buffer:
            self.assertEqual(buffer[0], ["untouched"] * room)


class SmsCoding(Case):
    def reads(self, octet, reading):
        self.assertEqual(wikuay.read_coding(SMS, octet), {"reading": reading})

    def test_general_group(self):
        self.reads(0x00, PLAIN)
        self.reads(0x04, Reading(alphabet="8bit"))
        self.reads(0x08, Reading(alphabet="ucs2"))
        self.reads(0x10, Reading(message_class="class0"))
        self.reads(0x17, Reading(alphabet="8bit", message_class="class3"))
        self.reads(0x1A, Reading(alphabet="ucs2", message_class="class2"))
        self.reads(0x20, Reading(compressed=True))
        self.reads(0x39, Reading(alphabet="ucs2", compressed=True, message_class="class1"))

    def test_low_bits_without_class_are_ignored(self):
        for octet in (0x01, 0x02, 0x03):
            self.reads(octet, PLAIN)
        self.reads(0x07, Reading(alphabet="8bit"))

    def test_deletion_group(self):
        self.reads(0x40, Reading(deletion=True))
        self.reads(0x51, Reading(message_class="class1", deletion=True))
        self.reads(0x78, Reading(alphabet="ucs2", compressed=True, message_class="class0", deletion=True))

    def test_reserved_alphabet_keeps_no_class_compression_or_deletion(self):
        for octet in (0x0C, 0x1D, 0x2F, 0x3C, 0x4C, 0x5D, 0x6E, 0x7F):
            self.reads(octet, RESERVED)

    def test_reserved_groups(self):
        for octet in (0x80, 0x8F, 0x90, 0xA5, 0xBF):
            self.reads(octet, RESERVED)

    def test_notices(self):
        self.reads(0xC0, Reading(notice=Notice("discard", False, "voicemail")))
        self.reads(0xC9, Reading(notice=Notice("discard", True, "fax")))
        self.reads(0xD2, Reading(notice=Notice("store", False, "mail")))
        self.reads(0xDB, Reading(notice=Notice("store", True, "other")))
        self.reads(0xE8, Reading(alphabet="ucs2", notice=Notice("store", True, "voicemail")))
        for octet in (0xC4, 0xCF, 0xD4, 0xE7, 0xEC):
            self.reads(octet, RESERVED)

    def test_last_group(self):
        self.reads(0xF0, Reading(message_class="class0"))
        self.reads(0xF5, Reading(alphabet="8bit", message_class="class1"))
        for octet in (0xF8, 0xFF):
            self.reads(octet, RESERVED)

    def test_numbers_of_octets_and_readings(self):
        all_readings = [wikuay.reading_of(SMS, octet) for octet in range(256)]
        self.assertEqual(sum(reading.reserved for reading in all_readings), 128)
        self.assertEqual(len(set(all_readings) - {RESERVED}), 84)

    def test_smallest_octet(self):
        self.assertEqual(wikuay.write_coding(SMS, PLAIN), {"coding": 0x00})
        self.assertEqual(wikuay.write_coding(SMS, Reading(alphabet="8bit", message_class="class1")), {"coding": 0x15})
        for octet in range(0xF0, 0xF8):
            self.assertEqual(wikuay.write_coding(SMS, wikuay.reading_of(SMS, octet)), {"coding": octet - 0xE0})
        self.assertEqual(wikuay.write_coding(SMS, Reading(alphabet="ucs2", notice=Notice("store", False, "other"))),
                         {"coding": 0xE3})

    def test_not_writable(self):
        for reading in (RESERVED, Reading(language="english"), Reading(prefix=True), Reading(alphabet="wap"),
                        Reading(message_class="user1"), Reading(alphabet="ucs2", notice=Notice("discard", True, "fax")),
                        Reading(compressed=True, reserved=True)):
            self.refuses(8, 0, wikuay.write_coding, SMS, reading)


class BroadcastCoding(Case):
    def reads(self, octet, reading):
        for service in (BROADCAST, USSD):
            self.assertEqual(wikuay.read_coding(service, octet), {"reading": reading})

    def test_languages(self):
        for octet, language in ((0x00, "german"), (0x01, "english"), (0x05, "dutch"), (0x0E, "polish"), (0x0F, None),
                                (0x20, "czech"), (0x21, "hebrew"), (0x22, "arabic"), (0x23, "russian"),
                                (0x24, "icelandic")):
            self.reads(octet, Reading(language=language))

    def test_prefix(self):
        self.reads(0x10, Reading(prefix=True))
        self.reads(0x11, Reading(alphabet="ucs2", prefix=True))

    def test_reserved(self):
        for octet in (0x12, 0x1F, 0x25, 0x2F, 0x30, 0x31, 0x3F, 0x4C, 0x7F, 0x80, 0x8F, 0x9C, 0x9D, 0x9E, 0x9F, 0xA0, 0xBF,
                      0xC0, 0xCF, 0xF8, 0xFF):
            self.reads(octet, RESERVED)

    def test_header_group(self):
        for octet, alphabet, message_class in ((0x90, "7bit", "class0"), (0x91, "7bit", "class1"), (0x92, "7bit", "class2"),
                                               (0x93, "7bit", "class3"), (0x94, "8bit", "class0"), (0x97, "8bit", "class3"),
                                               (0x98, "ucs2", "class0"), (0x99, "ucs2", "class1"), (0x9B, "ucs2", "class3")):
            self.reads(octet, Reading(alphabet=alphabet, message_class=message_class, header=True))

    def test_i1_group(self):
        for octet in (0xD0, 0xD1, 0xD7, 0xD8, 0xDC, 0xDF):
            self.reads(octet, Reading(alphabet="i1"))

    def test_general_group_has_no_deletion(self):
        self.reads(0x40, PLAIN)
        self.reads(0x48, Reading(alphabet="ucs2"))
        self.reads(0x55, Reading(alphabet="8bit", message_class="class1"))
        self.reads(0x6B, Reading(alphabet="ucs2", compressed=True))

    def test_last_groups(self):
        self.reads(0xE0, Reading(alphabet="wap"))
        self.reads(0xEF, Reading(alphabet="wap"))
        self.reads(0xF0, PLAIN)
        self.reads(0xF1, Reading(message_class="user1"))
        self.reads(0xF6, Reading(alphabet="8bit", message_class="user2"))
        self.reads(0xF7, Reading(alphabet="8bit", message_class="class3"))

    def test_numbers_of_octets_and_readings(self):
        all_readings = [wikuay.reading_of(USSD, octet) for octet in range(256)]
        self.assertEqual(sum(reading.reserved for reading in all_readings), 133)
        self.assertEqual(len(set(all_readings) - {RESERVED}), 70)

    def test_smallest_octet(self):
        for octet, written in ((0x40, 0x0F), (0x43, 0x0F), (0xF0, 0x0F), (0xF4, 0x44), (0xF3, 0x53), (0xF7, 0x57),
                               (0xEF, 0xE0), (0xF1, 0xF1), (0xF2, 0xF2), (0xF5, 0xF5), (0xF6, 0xF6), (0x20, 0x20),
                               (0x21, 0x21), (0x24, 0x24), (0x90, 0x90), (0x93, 0x93), (0x96, 0x96), (0x9B, 0x9B),
                               (0xD0, 0xD0), (0xD1, 0xD0), (0xDF, 0xD0)):
            self.assertEqual(wikuay.write_coding(BROADCAST, wikuay.reading_of(BROADCAST, octet)), {"coding": written})

    def test_not_writable(self):
        for reading in (RESERVED, Reading(deletion=True), Reading(notice=Notice("store", True, "fax")),
                        Reading(language="english", message_class="class0"), Reading(header=True),
                        Reading(message_class="user1", header=True),
                        Reading(message_class="class0", reserved=True, header=True),
                        Reading(message_class="class0", prefix=True, header=True), Reading(prefix=True, header=True),
                        Reading(compressed=True, message_class="class0", header=True),
                        Reading(alphabet="wap", message_class="class0", header=True), Reading(alphabet="i1", header=True),
                        Reading(alphabet="i1", message_class="class0"), Reading(alphabet="i1", language="hebrew"),
                        Reading(language="hebrew", header=True), Reading(alphabet="ucs2", language="arabic"),
                        Reading(language="russian", message_class="class0"), Reading(language="icelandic", prefix=True)):
            self.refuses(8, 0, wikuay.write_coding, BROADCAST, reading)
            self.refuses(8, 0, wikuay.write_coding, USSD, reading)


class OldCoding(Case):
    def test_language_bits_are_ignored(self):
        for octet in (0x00, 0x10, 0x80, 0xF0):
            self.assertEqual(wikuay.read_coding(OLD, octet), {"reading": PLAIN})

    def test_other_alphabets(self):
        for octet in (0x01, 0x08, 0x0F, 0x11, 0xFF):
            self.refuses(2, 0, wikuay.read_coding, OLD, octet)

    def test_never_written(self):
        self.refuses(8, 0, wikuay.write_coding, OLD, PLAIN)


class HoldsText(Case):
    def test_texts(self):
        self.assertEqual(wikuay.holds_text(PLAIN), {"holds": "7bit"})
        self.assertEqual(wikuay.holds_text(RESERVED), {"holds": "7bit"})
        self.assertEqual(wikuay.holds_text(Reading(alphabet="ucs2", message_class="class0")), {"holds": "ucs2"})

    def test_refusals_in_order(self):
        self.refuses(1, 0, wikuay.holds_text, Reading(alphabet="8bit", compressed=True, prefix=True))
        self.refuses(2, 0, wikuay.holds_text, Reading(alphabet="wap", prefix=True))
        self.refuses(3, 0, wikuay.holds_text, Reading(alphabet="ucs2", prefix=True))
        self.refuses(1, 0, wikuay.holds_text, Reading(alphabet="i1", compressed=True, header=True))
        self.refuses(2, 0, wikuay.holds_text, Reading(alphabet="8bit", message_class="class0", header=True))
        self.refuses(2, 0, wikuay.holds_text, Reading(alphabet="i1"))
        self.refuses(3, 0, wikuay.holds_text, Reading(alphabet="ucs2", message_class="class3", header=True))
        self.refuses(3, 0, wikuay.holds_text, Reading(prefix=True, header=True))


class Alphabet(Case):
    def test_each_row_of_the_table(self):
        self.accepts(wikuay.septets_to_text, list(range(0x00, 0x10)), room=20, out=units("@£$¥èéùìòÇ\nØø\rÅå"))
        self.accepts(wikuay.septets_to_text, list(range(0x10, 0x1B)), room=20, out=units("Δ_ΦΓΛΩΠΨΣΘΞ"))
        self.accepts(wikuay.septets_to_text, list(range(0x1C, 0x20)), room=20, out=units("ÆæßÉ"))
        self.accepts(wikuay.septets_to_text, list(range(0x20, 0x30)), room=20, out=units(" !\"#¤%&'()*+,-./"))
        self.accepts(wikuay.septets_to_text, list(range(0x30, 0x40)), room=20, out=units("0123456789:;<=>?"))
        self.accepts(wikuay.septets_to_text, list(range(0x40, 0x60)), room=32,
                     out=units("¡ABCDEFGHIJKLMNOPQRSTUVWXYZÄÖÑÜ§"))
        self.accepts(wikuay.septets_to_text, list(range(0x60, 0x80)), room=32,
                     out=units("¿abcdefghijklmnopqrstuvwxyzäöñüà"))

    def test_extension(self):
        self.accepts(wikuay.text_to_septets, units("\f^{}\\[~]|€"), room=20,
                     out=octets("1B0A 1B14 1B28 1B29 1B2F 1B3C 1B3D 1B3E 1B40 1B65"))

    def test_escapes(self):
        self.accepts(wikuay.septets_to_text, octets("1B1B65"), room=3, out=units(" e"))
        self.accepts(wikuay.septets_to_text, octets("1B"), room=3, out=units(" "))
        self.accepts(wikuay.septets_to_text, octets("1B41"), room=3, out=units("A"))
        self.accepts(wikuay.septets_to_text, octets("1B1B1B"), room=3, out=units("  "))
        self.accepts(wikuay.septets_to_text, octets("1B0D"), room=3, out=units("\r"))

    def test_number_of_listed_units(self):
        self.assertEqual(len(wikuay.CODES), 127 + 10)

    def test_unlisted_units(self):
        for unit in (0x0000, 0x001B, 0x0060, 0x007F, 0x00A0, 0x00E7, 0x0391, HAN, 0xD83D, 0xFFFF):
            self.refuses(6, 1, wikuay.text_to_septets, [A, unit, unit], room=9)

    def test_refusals_in_order(self):
        self.refuses(6, 2, wikuay.text_to_septets, [A, EURO, HAN], room=0)
        self.refuses(7, 0, wikuay.text_to_septets, [EURO], room=1)
        self.refuses(9, 1, wikuay.septets_to_text, [A, 0x80, 0xFF], room=0)
        self.refuses(7, 0, wikuay.septets_to_text, [A, A], room=1)

    def test_no_size(self):
        self.accepts(wikuay.text_to_septets, [EURO] * 500, room=1000, out=[0x1B, 0x65] * 500)
        self.accepts(wikuay.septets_to_text, [A] * 500, room=500, out=[A] * 500)


class Packing(Case):
    # Septet k of "A" sets bits 7k and 7k + 6 of the stream: eight of them are C1 60 30 18 0C 06 83.
    EIGHT = octets("C16030180C0683")

    def test_short_message(self):
        for n, packed in ((0, ""), (1, "41"), (2, "C120"), (3, "C16010"), (4, "C1603008"), (5, "C160301804"),
                          (6, "C16030180C02"), (7, "C16030180C0601"), (8, "C16030180C0683"), (9, "C16030180C068341")):
            self.accepts(wikuay.pack, SMS, [A] * n, room=9, out=octets(packed), count=n)
            self.accepts(wikuay.unpack, SMS, n, octets(packed), room=9, out=[A] * n)
        self.accepts(wikuay.pack, SMS, [A] * 160, room=140, out=self.EIGHT * 20, count=160)

    def test_ussd_adds_a_cr(self):
        self.accepts(wikuay.pack, USSD, [0] * 7, room=7, out=octets("0000000000001A"), count=0)
        self.accepts(wikuay.pack, USSD, [0] * 8, room=7, out=[0] * 7, count=0)
        self.accepts(wikuay.pack, USSD, [0] * 7 + [CR], room=8, out=octets("0000000000001A0D"), count=0)
        self.accepts(wikuay.pack, USSD, [0] * 7 + [CR, CR], room=8, out=octets("0000000000001A0D"), count=0)
        self.accepts(wikuay.pack, USSD, [], room=8, out=[], count=0)
        self.accepts(wikuay.pack, USSD, [A, CR], room=8, out=octets("C106"), count=0)

    def test_ussd_drops_a_cr(self):
        self.accepts(wikuay.unpack, USSD, 0, octets("0000000000001A"), room=8, out=[0] * 7)
        self.accepts(wikuay.unpack, USSD, 0, [0] * 7, room=8, out=[0] * 8)
        self.accepts(wikuay.unpack, USSD, 0, octets("0000000000001A0D"), room=9, out=[0] * 7 + [CR, CR])
        self.accepts(wikuay.unpack, USSD, 0, octets("C106"), room=9, out=[A, CR])
        self.accepts(wikuay.unpack, USSD, 0, [], room=0, out=[])
        self.accepts(wikuay.unpack, USSD, 0, self.EIGHT * 22 + octets("C16030180C02"), room=182, out=[A] * 182)

    def test_broadcast(self):
        empty = octets("8D46A3D168341A" * 11 + "8D46A3D100")
        self.accepts(wikuay.pack, BROADCAST, [], room=82, out=empty, count=0)
        self.accepts(wikuay.unpack, BROADCAST, 0, empty, room=0, out=[])
        self.accepts(wikuay.pack, BROADCAST, [A] * 93, room=82, out=self.EIGHT * 11 + octets("C160301804"), count=0)
        # All five spare bits set.
        self.accepts(wikuay.unpack, BROADCAST, 0, self.EIGHT * 11 + octets("C1603018FC"), room=93, out=[A] * 93)

    def test_old_page(self):
        self.accepts(wikuay.unpack, OLD, 0, octets("C120") + [0] * 80, room=2, out=[A, A])
        self.accepts(wikuay.unpack, OLD, 0, [0] * 82, room=0, out=[])
        self.accepts(wikuay.unpack, OLD, 0, octets("0040") + [0] * 80, room=3, out=[0, 0, 1])
        self.refuses(8, 0, wikuay.pack, OLD, [], room=82)

    def test_pack_refusals(self):
        self.refuses(8, 0, wikuay.pack, OLD, [0x80] * 94, room=0)
        self.refuses(9, 160, wikuay.pack, SMS, [A] * 160 + [0x80], room=0)
        for service, size in ((SMS, 160), (BROADCAST, 93), (USSD, 182)):
            self.refuses(5, 0, wikuay.pack, service, [A] * (size + 1), room=0)
            self.refuses(7, 0, wikuay.pack, service, [A] * size, room=81)

    def test_unpack_refusals(self):
        self.refuses(4, 0, wikuay.unpack, SMS, 2, [0], room=0)
        self.refuses(4, 0, wikuay.unpack, SMS, 2, [0, 0, 0], room=9)
        self.refuses(4, 0, wikuay.unpack, SMS, 161, [0] * 141, room=200)
        self.refuses(4, 0, wikuay.unpack, SMS, 613566757, [0], room=200)
        self.refuses(4, 0, wikuay.unpack, USSD, 0, [0] * 161, room=200)
        self.refuses(4, 0, wikuay.unpack, USSD, 1, [0], room=200)
        for service in (BROADCAST, OLD):
            self.refuses(4, 0, wikuay.unpack, service, 0, [0] * 81, room=93)
            self.refuses(4, 0, wikuay.unpack, service, 0, [0] * 83, room=93)
            self.refuses(4, 0, wikuay.unpack, service, 93, [0] * 82, room=93)
        self.refuses(7, 0, wikuay.unpack, SMS, 2, [0, 0], room=1)
        self.refuses(7, 0, wikuay.unpack, BROADCAST, 0, [0] * 82, room=92)


class WholeWriter(Case):
    def test_cases_of_document_01(self):
        write = wikuay.write_message
        self.accepts(write, SMS, PLAIN, [], room=0, out=[], count=0, coding=0)
        self.accepts(write, SMS, PLAIN, units("AB"), room=9, out=octets("4121"), count=2, coding=0)
        self.accepts(write, SMS, PLAIN, units("€"), room=9, out=octets("9B32"), count=2, coding=0)
        self.accepts(write, USSD, PLAIN, units("@" * 7), room=9, out=octets("0000000000001A"), count=0, coding=0x0F)
        self.accepts(write, USSD, PLAIN, units("@" * 8), room=9, out=[0] * 7, count=0, coding=0x0F)
        self.accepts(write, USSD, PLAIN, units("@" * 7 + "\r"), room=9, out=octets("0000000000001A0D"), count=0,
                     coding=0x0F)
        self.accepts(write, USSD, PLAIN, units("@" * 7 + "\r\r"), room=9, out=octets("0000000000001A0D"), count=0,
                     coding=0x0F)
        self.refuses(5, 0, write, SMS, PLAIN, [A] * 161, room=200)
        self.refuses(5, 0, write, SMS, PLAIN, [EURO] * 81, room=200)
        self.refuses(5, 0, write, SMS, Reading(alphabet="ucs2"), [HAN] * 71, room=200)
        self.refuses(5, 0, write, USSD, PLAIN, [A] * 183, room=200)
        self.refuses(5, 0, write, BROADCAST, PLAIN, [A] * 94, room=200)
        self.refuses(6, 160, write, SMS, PLAIN, [A] * 160 + [HAN], room=0)

    def test_ucs2(self):
        ucs2 = Reading(alphabet="ucs2")
        self.accepts(wikuay.write_message, SMS, ucs2, [HAN, 0xD83D], room=9, out=octets("4E2DD83D"), count=4, coding=0x08)
        self.accepts(wikuay.write_message, USSD, ucs2, [HAN], room=9, out=octets("4E2D"), count=0, coding=0x48)
        self.accepts(wikuay.write_message, BROADCAST, ucs2, [HAN], room=82, out=octets("4E2D" + "000D" * 40), count=0,
                     coding=0x48)
        self.accepts(wikuay.write_message, USSD, ucs2, [HAN] * 80, room=160, out=octets("4E2D" * 80), count=0, coding=0x48)
        self.refuses(5, 0, wikuay.write_message, USSD, ucs2, [HAN] * 81, room=200)
        self.refuses(5, 0, wikuay.write_message, BROADCAST, ucs2, [HAN] * 42, room=0)
        self.refuses(7, 0, wikuay.write_message, BROADCAST, ucs2, [], room=81)

    def test_refusals_in_order(self):
        write, text = wikuay.write_message, [A] * 300 + [HAN]
        self.refuses(8, 0, write, OLD, Reading(compressed=True), text, room=0)
        self.refuses(8, 0, write, SMS, Reading(compressed=True, reserved=True), text, room=0)
        self.refuses(1, 0, write, SMS, Reading(alphabet="8bit", compressed=True), text, room=0)
        self.refuses(2, 0, write, BROADCAST, Reading(alphabet="wap"), text, room=0)
        self.refuses(3, 0, write, USSD, Reading(prefix=True), text, room=0)
        self.refuses(6, 300, write, BROADCAST, PLAIN, text, room=0)
        self.refuses(5, 0, write, BROADCAST, PLAIN, [A] * 300, room=0)
        self.refuses(7, 0, write, BROADCAST, PLAIN, [A], room=81)


class WholeReader(Case):
    def test_cases_of_document_01(self):
        read = wikuay.read_message
        self.accepts(read, SMS, 0x00, 0, [], room=0, out=[], reading=PLAIN)
        self.accepts(read, SMS, 0x00, 2, octets("9B32"), room=1, out=[EURO], reading=PLAIN)
        self.accepts(read, SMS, 0x8F, 2, octets("4121"), room=2, out=units("AB"), reading=RESERVED)
        self.accepts(read, USSD, 0x0F, 0, octets("0000000000001A0D"), room=9, out=units("@" * 7 + "\r\r"), reading=PLAIN)
        self.refuses(4, 0, read, SMS, 0x08, 3, [0, 0, 0], room=9)

    def test_escape_in_front_of_filling_is_a_space(self):
        # 1B, then 92 CR: only the first seven bits are not those of the empty page.
        page = octets("9B46A3D168341A" + "8D46A3D168341A" * 10 + "8D46A3D100")
        self.accepts(wikuay.read_message, BROADCAST, 0x0F, 0, page, room=9, out=units(" "), reading=PLAIN)

    def test_ucs2(self):
        ucs2 = Reading(alphabet="ucs2")
        self.accepts(wikuay.read_message, SMS, 0x08, 2, octets("4E2D"), room=1, out=[HAN], reading=ucs2)
        self.accepts(wikuay.read_message, USSD, 0x48, 0, octets("4E2D000D"), room=2, out=[HAN, CR], reading=ucs2)
        self.accepts(wikuay.read_message, BROADCAST, 0x48, 0, octets("4E2D" + "000D" * 40), room=1, out=[HAN],
                     reading=ucs2)
        self.refuses(4, 0, wikuay.read_message, SMS, 0x08, 1, octets("4E2D"), room=9)
        self.refuses(4, 0, wikuay.read_message, SMS, 0x08, 142, [0] * 142, room=99)
        self.refuses(4, 0, wikuay.read_message, USSD, 0x48, 0, [0] * 3, room=99)

    def test_old_page(self):
        # "A", 1B, 65 and zeros: 41, 1B shifted by 7, 65 shifted by 14 give C1 4D 19.
        self.accepts(wikuay.read_message, OLD, 0x30, 0, octets("C14D19") + [0] * 79, room=3, out=units("A e"),
                     reading=PLAIN)
        self.refuses(2, 0, wikuay.read_message, OLD, 0x31, 5, [], room=0)
        self.refuses(4, 0, wikuay.read_message, OLD, 0x30, 0, [], room=0)

    def test_refusals_in_order(self):
        read = wikuay.read_message
        self.refuses(1, 0, read, SMS, 0x24, 9, [0], room=0)
        self.refuses(2, 0, read, USSD, 0xE3, 9, [0], room=0)
        self.refuses(3, 0, read, USSD, 0x11, 9, [0], room=0)
        self.refuses(4, 0, read, USSD, 0x0F, 9, [0], room=0)
        self.refuses(7, 0, read, USSD, 0x0F, 0, [0], room=0)


UCS2 = Reading(alphabet="ucs2")

# Pages of 82 octets. The filling of a page is that of document 01's C9; "A" and 65 in its first septet change only the
# first octet, whose highest bit is the lowest of the CR behind.
EMPTY_PAGE = octets("8D46A3D168341A" * 11 + "8D46A3D100")
A_PAGE = [0xC1] + EMPTY_PAGE[1:]
CODE_PAGE = [0xE5] + EMPTY_PAGE[1:]
FULL_PAGE = octets("C16030180C0683" * 11 + "C160301804")
# 92 "A" and an escape: its low half closes the fourth octet of the last group, its high half is the last octet.
ESCAPE_PAGE = octets("C16030180C0683" * 11 + "C16030B801")


def block(parameter, page, front="123456780F"):
    return octets(front) + [parameter] + page


class Headers(Case):
    def test_fields(self):
        self.assertEqual(wikuay.read_header(block(0x23, FULL_PAGE)),
                         {"sequence": 0x1234, "identifier": 0x5678, "coding": 0x0F, "total": 3, "number": 2})

    def test_nothing_is_refused(self):
        self.assertEqual(wikuay.read_header([0] * 88),
                         {"sequence": 0, "identifier": 0, "coding": 0, "total": 0, "number": 0})
        self.assertEqual(wikuay.read_header([0xFF] * 88),
                         {"sequence": 65535, "identifier": 65535, "coding": 0xFF, "total": 15, "number": 15})


class CountingPages(Case):
    def counts(self, reading, text, pages):
        self.assertEqual(wikuay.count_pages(reading, text), {"pages": pages})

    def test_seven_bit(self):
        for n, pages in ((0, 1), (1, 1), (93, 1), (94, 2), (186, 2), (187, 3), (1302, 14), (1303, 15), (1395, 15)):
            self.counts(PLAIN, [A] * n, pages)
        self.refuses(5, 0, wikuay.count_pages, PLAIN, [A] * 1396)

    def test_septets_count_and_not_units(self):
        self.counts(PLAIN, [EURO] * 46, 1)
        self.counts(PLAIN, [EURO] * 47, 2)
        self.counts(PLAIN, [EURO] * 697 + [A], 15)
        self.refuses(5, 0, wikuay.count_pages, PLAIN, [EURO] * 698)

    def test_closing_crs_count(self):
        self.counts(PLAIN, [CR] * 93, 1)
        self.counts(PLAIN, [CR] * 94, 2)
        self.counts(UCS2, [CR] * 42, 2)

    def test_ucs2(self):
        for n, pages in ((0, 1), (41, 1), (42, 2), (574, 14), (575, 15), (615, 15)):
            self.counts(UCS2, [HAN] * n, pages)
        self.refuses(5, 0, wikuay.count_pages, UCS2, [HAN] * 616)

    def test_refusals_in_order(self):
        text = [A] * 1396 + [HAN]
        self.refuses(8, 0, wikuay.count_pages, Reading(compressed=True, deletion=True), text)
        self.refuses(1, 0, wikuay.count_pages, Reading(alphabet="8bit", compressed=True), text)
        self.refuses(2, 0, wikuay.count_pages, Reading(alphabet="wap"), text)
        self.refuses(3, 0, wikuay.count_pages, Reading(prefix=True), text)
        self.refuses(6, 1396, wikuay.count_pages, PLAIN, text)


class BuildingPages(Case):
    def builds(self, reading, text, number, pages, block):
        self.assertEqual(wikuay.build_page(0x1234, 0x5678, reading, text, number), {"pages": pages, "block": block})

    def test_pages(self):
        self.builds(PLAIN, [], 1, 1, block(0x11, EMPTY_PAGE))
        self.builds(PLAIN, [A] * 93, 1, 1, block(0x11, FULL_PAGE))
        self.builds(PLAIN, [A] * 94, 1, 2, block(0x12, FULL_PAGE))
        self.builds(PLAIN, [A] * 94, 2, 2, block(0x22, A_PAGE))
        self.builds(PLAIN, [A] * 1395, 15, 15, block(0xFF, FULL_PAGE))
        self.builds(PLAIN, [CR] * 94, 2, 2, block(0x22, EMPTY_PAGE))

    def test_an_escape_ends_a_page(self):
        self.builds(PLAIN, [A] * 92 + [EURO], 1, 2, block(0x12, ESCAPE_PAGE))
        self.builds(PLAIN, [A] * 92 + [EURO], 2, 2, block(0x22, CODE_PAGE))

    def test_ucs2(self):
        self.builds(UCS2, [HAN] * 42, 1, 2, block(0x12, octets("4E2D" * 41), "1234567848"))
        self.builds(UCS2, [HAN] * 42, 2, 2, block(0x22, octets("4E2D" + "000D" * 40), "1234567848"))

    def test_pages_that_the_message_lacks(self):
        for number in (0, 3, 15, 16, 17, 258, 65537, 4294967295):
            self.refuses(10, 0, wikuay.build_page, 1, 2, PLAIN, [A] * 94, number)

    def test_refusals_in_order(self):
        text = [A] * 1396 + [HAN]
        self.refuses(8, 0, wikuay.build_page, 1, 2, Reading(reserved=True), text, 0)
        self.refuses(1, 0, wikuay.build_page, 1, 2, Reading(compressed=True), text, 0)
        self.refuses(2, 0, wikuay.build_page, 1, 2, Reading(alphabet="8bit"), text, 0)
        self.refuses(3, 0, wikuay.build_page, 1, 2, Reading(alphabet="ucs2", prefix=True), text, 0)
        self.refuses(6, 1396, wikuay.build_page, 1, 2, PLAIN, text, 0)
        self.refuses(5, 0, wikuay.build_page, 1, 2, PLAIN, text[:-1], 0)


class WritingPages(Case):
    def test_pages(self):
        write = wikuay.write_pages
        self.accepts(write, 0x1234, 0x5678, PLAIN, [], room=89, out=block(0x11, EMPTY_PAGE), pages=1)
        self.accepts(write, 0x1234, 0x5678, PLAIN, [A] * 187, room=264, pages=3,
                     out=block(0x13, FULL_PAGE) + block(0x23, FULL_PAGE) + block(0x33, A_PAGE))
        self.accepts(write, 0x1234, 0x5678, UCS2, [HAN] * 42, room=200, pages=2,
                     out=block(0x12, octets("4E2D" * 41), "1234567848")
                     + block(0x22, octets("4E2D" + "000D" * 40), "1234567848"))

    def test_refusals_in_order(self):
        write, text = wikuay.write_pages, [A] * 1396 + [HAN]
        self.refuses(8, 0, write, 1, 2, Reading(deletion=True), text, room=0)
        self.refuses(1, 0, write, 1, 2, Reading(compressed=True), text, room=0)
        self.refuses(2, 0, write, 1, 2, Reading(alphabet="8bit"), text, room=0)
        self.refuses(3, 0, write, 1, 2, Reading(prefix=True), text, room=0)
        self.refuses(6, 1396, write, 1, 2, PLAIN, text, room=0)
        self.refuses(5, 0, write, 1, 2, PLAIN, text[:-1], room=0)
        self.refuses(7, 0, write, 1, 2, PLAIN, [A] * 94, room=175)


class JoiningPages(Case):
    def joins(self, blocks, text, pages, reading=PLAIN):
        self.accepts(wikuay.join_pages, sum(blocks, []), room=len(text) + 1, out=text, reading=reading, sequence=0x1234,
                     identifier=0x5678, pages=pages)

    def lacks(self, *blocks, number=10):
        self.refuses(number, 0, wikuay.join_pages, sum(blocks, []), room=1500)

    def test_any_order(self):
        first, second, third = block(0x13, FULL_PAGE), block(0x23, ESCAPE_PAGE), block(0x33, CODE_PAGE)
        for blocks in ([first, second, third], [third, second, first], [second, third, first]):
            self.joins(blocks, [A] * 185 + [EURO], 3)

    def test_closing_crs_are_dropped_once(self):
        self.joins([block(0x12, FULL_PAGE), block(0x22, EMPTY_PAGE)], [A] * 93, 2)
        self.joins([block(0x12, EMPTY_PAGE), block(0x22, EMPTY_PAGE)], [], 2)
        self.joins([block(0x12, A_PAGE), block(0x22, EMPTY_PAGE)], [A], 2)
        self.joins([block(0x12, A_PAGE), block(0x22, A_PAGE)], [A] + [CR] * 92 + [A], 2)

    def test_escapes(self):
        self.joins([block(0x11, ESCAPE_PAGE)], [A] * 92 + units(" "), 1)
        self.joins([block(0x12, ESCAPE_PAGE), block(0x22, EMPTY_PAGE)], [A] * 92 + units(" "), 2)
        self.joins([block(0x12, ESCAPE_PAGE), block(0x22, A_PAGE)], [A] * 93, 2)

    def test_spare_bits_are_ignored(self):
        self.joins([block(0x12, FULL_PAGE[:-1] + [0xFC]), block(0x22, A_PAGE[:-1] + [0xF8])], [A] * 94, 2)

    def test_ucs2(self):
        front = "1234567849"  # reads as 48 does, and is no other message's
        self.joins([block(0x22, octets("000D" + "4E2D" + "000D" * 39), front), block(0x12, octets("4E2D" * 41), front)],
                   [HAN] * 41 + [CR, HAN], 2, UCS2)

    def test_a_reserved_coding_is_read(self):
        self.joins([block(0x11, A_PAGE, "1234567880")], [A], 1, RESERVED)

    def test_pages_that_are_no_message(self):
        first, second = block(0x12, FULL_PAGE), block(0x22, A_PAGE)
        self.lacks()
        self.lacks(first)
        self.lacks(second)
        self.lacks(first, first)
        self.lacks(first, second, second)
        self.lacks(block(0x01, A_PAGE))
        self.lacks(block(0x02, A_PAGE), first)
        self.lacks(block(0x21, A_PAGE))
        self.lacks(block(0x10, A_PAGE))
        self.lacks(block(0x00, A_PAGE))
        self.lacks(first, block(0x23, A_PAGE))
        self.lacks(block(0x13, A_PAGE), second)
        self.lacks(*[block(16 * number + 15, A_PAGE) for number in range(16)])
        for front in ("923456780F", "123556780F", "1234D6780F", "123456790F", "1234567840", "1234567860"):
            self.lacks(first, block(0x22, A_PAGE, front))

    def test_refusals_in_order(self):
        join = wikuay.join_pages
        self.refuses(4, 0, join, block(0x00, A_PAGE, "1234567860") + [0], room=0)
        self.refuses(4, 0, join, [0] * 87, room=0)
        self.lacks(block(0x00, A_PAGE, "1234567864"), number=1)
        self.lacks(block(0x00, A_PAGE, "12345678E0"), number=2)
        self.lacks(block(0x12, A_PAGE, "1234567811"), block(0x22, A_PAGE), number=3)
        self.refuses(10, 0, join, block(0x12, A_PAGE), room=0)
        self.refuses(7, 0, join, block(0x12, FULL_PAGE) + block(0x22, A_PAGE), room=93)


SEVEN_EN = Reading(prefix=True, letter1=0x65, letter2=0x6E)
UCS2_EN = Reading(alphabet="ucs2", prefix=True, letter1=0x65, letter2=0x6E)

# 65, then 6E shifted by 7 and a CR shifted by 14, change the first two octets of the empty page to 65 77. "A" behind them
# closes the third octet, and its high half begins the fourth.
EN_EMPTY = octets("6577") + EMPTY_PAGE[2:]
EN_A = octets("657723D8") + EMPTY_PAGE[4:]
EN_FULL = octets("657723") + FULL_PAGE[3:]
NO_LETTERS = (0x00, 0x01, 0x0D, 0x41, 0x5A, 0x60, 0x7B, 0x7F)


class Letters(Case):
    def writes(self, reading, text, coding, out):
        self.accepts(wikuay.write_message, BROADCAST, reading, text, room=83, out=out, count=0, coding=coding)

    def reads(self, coding, page, text, reading):
        self.accepts(wikuay.read_message, BROADCAST, coding, 0, page, room=len(text) + 1, out=text, reading=reading)

    def lacks(self, coding, page):
        self.refuses(11, 0, wikuay.read_message, BROADCAST, coding, 0, page, room=99)

    def test_seven_bit(self):
        for text, page in (([], EN_EMPTY), ([A], EN_A), ([A] * 90, EN_FULL)):
            self.writes(SEVEN_EN, text, 0x10, page)
            self.reads(0x10, page, text, SEVEN_EN)
        self.refuses(5, 0, wikuay.write_message, BROADCAST, SEVEN_EN, [A] * 91, room=82)
        self.refuses(5, 0, wikuay.write_message, BROADCAST, SEVEN_EN, [A] * 89 + [EURO], room=82)

    def test_ucs2(self):
        for text, page in (([], octets("6537" + "000D" * 40)), ([HAN], octets("6537" + "4E2D" + "000D" * 39)),
                           ([HAN] * 40, octets("6537" + "4E2D" * 40))):
            self.writes(UCS2_EN, text, 0x11, page)
            self.reads(0x11, page, text, UCS2_EN)
        self.refuses(5, 0, wikuay.write_message, BROADCAST, UCS2_EN, [HAN] * 41, room=82)

    def test_the_second_letter_begins_in_the_first_octet(self):
        for (letter1, letter2), front in ((units("ea"), "E530"), (units("az"), "613D"), (units("zy"), "FA3C")):
            reading, page = UCS2_EN._replace(letter1=letter1, letter2=letter2), octets(front + "000D" * 40)
            self.writes(reading, [], 0x11, page)
            self.reads(0x11, page, [], reading)

    def test_closing_crs_are_dropped_behind_the_letters(self):
        self.writes(SEVEN_EN, [CR] * 90, 0x10, EN_EMPTY)
        self.writes(SEVEN_EN, [A, CR, CR], 0x10, EN_A)
        self.writes(UCS2_EN, [CR] * 40, 0x11, octets("6537" + "000D" * 40))
        # A CR in front of "A", whose low four bits close the fourth octet and whose high three begin the fifth.
        self.reads(0x10, octets("6577A3116C") + EMPTY_PAGE[5:], [CR, A], SEVEN_EN)
        self.reads(0x11, octets("6537" + "000D" + "4E2D" + "000D" * 38), [CR, HAN], UCS2_EN)

    def test_an_escape_in_front_of_filling_is_a_space(self):
        # 1B in place of "A": 03 and the low three bits 011 are 63, the high four 0011 and the low four of a CR are D3.
        self.reads(0x10, octets("657763D3") + EMPTY_PAGE[4:], units(" "), SEVEN_EN)

    def test_spare_bits_are_ignored(self):
        self.reads(0x10, EN_A[:-1] + [0xF8], [A], SEVEN_EN)
        for octet in (0x77, 0xB7, 0xF7):
            self.reads(0x11, [0x65, octet] + octets("000D" * 40), [], UCS2_EN)

    def test_letters_that_are_none(self):
        for letter in NO_LETTERS + (0x80, 0xE1, 0xFF):
            for reading in (SEVEN_EN, UCS2_EN):
                for wrong in (reading._replace(letter1=letter), reading._replace(letter2=letter)):
                    self.refuses(11, 0, wikuay.write_message, BROADCAST, wrong, [A], room=82)
        for letter in NO_LETTERS:
            for letters in ([letter, 0x6E], [0x65, letter]):
                front = [letters[0] + 128 * (letters[1] % 2), letters[1] // 2]
                self.lacks(0x10, [front[0], front[1] + 0x40] + EMPTY_PAGE[2:])
                self.lacks(0x11, front + octets("000D" * 40))

    def test_the_cr_is_missing(self):
        for front in ("6537A0", "65B7A2", "6577AB"):  # 00, 0A and 2D behind the letters
            self.lacks(0x10, octets(front) + EMPTY_PAGE[3:])
        self.lacks(0x10, EMPTY_PAGE)

    def test_other_codings_have_no_letters(self):
        for letters in ({"letter1": 0x65}, {"letter2": 0x6E}, {"letter1": 0x65, "letter2": 0x6E}, {"letter2": 0xFF}):
            for service in (SMS, BROADCAST, USSD, OLD):
                for reading in (PLAIN, UCS2, Reading(compressed=True), Reading(alphabet="8bit")):
                    self.refuses(8, 0, wikuay.write_message, service, reading._replace(**letters), [HAN] * 300, room=0)
            for reading in (PLAIN, UCS2, Reading(language="german")):
                self.refuses(8, 0, wikuay.count_pages, reading._replace(**letters), [A])
                self.refuses(8, 0, wikuay.build_page, 1, 2, reading._replace(**letters), [A], 0)
                self.refuses(8, 0, wikuay.write_pages, 1, 2, reading._replace(**letters), [A], room=0)

    def test_ussd_and_several_pages_give_3(self):
        for reading in (SEVEN_EN, UCS2_EN, SEVEN_EN._replace(letter1=0), UCS2_EN._replace(letter2=0x41)):
            self.refuses(3, 0, wikuay.write_message, USSD, reading, [A], room=0)
            self.refuses(3, 0, wikuay.count_pages, reading, [A])
            self.refuses(3, 0, wikuay.build_page, 1, 2, reading, [A], 0)
            self.refuses(3, 0, wikuay.write_pages, 1, 2, reading, [A], room=0)
        self.refuses(3, 0, wikuay.read_message, USSD, 0x10, 0, EN_A, room=99)
        self.refuses(3, 0, wikuay.join_pages, block(0x11, EN_A, "1234567810"), room=99)

    def test_data_coding_alone_looks_past_letters(self):
        self.assertEqual(wikuay.read_coding(BROADCAST, 0x10), {"reading": Reading(prefix=True)})
        for letters in ({"letter1": 0x65, "letter2": 0x6E}, {"letter1": 0xFF}, {"letter2": 0x01}):
            for service, reading, octet in ((BROADCAST, SEVEN_EN, 0x10), (USSD, UCS2_EN, 0x11), (BROADCAST, PLAIN, 0x0F),
                                            (SMS, UCS2, 0x08), (USSD, Reading(language="german"), 0x00)):
                self.assertEqual(wikuay.write_coding(service, reading._replace(**letters)), {"coding": octet})
            self.assertEqual(wikuay.holds_text(UCS2._replace(**letters)), {"holds": "ucs2"})
            self.refuses(3, 0, wikuay.holds_text, SEVEN_EN._replace(**letters))
            self.refuses(8, 0, wikuay.write_coding, SMS, SEVEN_EN._replace(**letters))

    def test_refusals_in_order(self):
        write, text = wikuay.write_message, [A] * 91 + [HAN]
        self.refuses(8, 0, write, BROADCAST, Reading(language="german", prefix=True, letter1=0x41), text, room=0)
        self.refuses(8, 0, write, SMS, SEVEN_EN, text, room=0)
        self.refuses(11, 0, write, BROADCAST, Reading(prefix=True), text, room=0)
        self.refuses(11, 0, write, BROADCAST, UCS2_EN._replace(letter2=0), text, room=0)
        self.refuses(6, 91, write, BROADCAST, SEVEN_EN, text, room=0)
        self.refuses(5, 0, write, BROADCAST, SEVEN_EN, text[:-1], room=0)
        self.refuses(5, 0, write, BROADCAST, UCS2_EN, text, room=0)
        self.refuses(7, 0, write, BROADCAST, UCS2_EN, [HAN], room=81)
        read = wikuay.read_message
        self.refuses(4, 0, read, BROADCAST, 0x10, 0, EMPTY_PAGE[:81], room=0)
        self.refuses(4, 0, read, BROADCAST, 0x11, 82, EMPTY_PAGE, room=0)
        self.refuses(11, 0, read, BROADCAST, 0x10, 0, FULL_PAGE, room=0)
        self.refuses(7, 0, read, BROADCAST, 0x10, 0, EN_A, room=0)


HEADER = Reading(message_class="class0", header=True)
UCS2_HEADER = Reading(alphabet="ucs2", message_class="class3", header=True)
EIGHT_HEADER = Reading(alphabet="8bit", message_class="class1", header=True)
I1 = Reading(alphabet="i1")


class Release9(Case):
    def test_short_messages_and_old_pages_do_not_move(self):
        self.assertEqual(wikuay.read_coding(SMS, 0x21), {"reading": Reading(compressed=True)})
        self.assertEqual(wikuay.read_coding(SMS, 0x90), {"reading": RESERVED})
        self.assertEqual(wikuay.read_coding(SMS, 0xD1), {"reading": Reading(notice=Notice("store", False, "fax"))})
        self.assertEqual(wikuay.read_coding(OLD, 0x90), {"reading": PLAIN})
        self.assertEqual(wikuay.read_coding(OLD, 0xD0), {"reading": PLAIN})
        self.refuses(2, 0, wikuay.read_coding, OLD, 0x94)
        for reading in (HEADER, UCS2_HEADER, EIGHT_HEADER, I1, Reading(language="hebrew")):
            for service in (SMS, OLD):
                self.refuses(8, 0, wikuay.write_coding, service, reading)
                self.refuses(8, 0, wikuay.write_message, service, reading, [HAN] * 300, room=0)

    def test_text_under_the_new_languages(self):
        for octet, language in ((0x21, "hebrew"), (0x22, "arabic"), (0x23, "russian"), (0x24, "icelandic")):
            reading = Reading(language=language)
            for service, text, out in ((BROADCAST, [], EMPTY_PAGE), (BROADCAST, [A], A_PAGE),
                                       (BROADCAST, [A] * 93, FULL_PAGE), (USSD, [], []),
                                       (USSD, units("AB"), octets("4121"))):
                self.accepts(wikuay.write_message, service, reading, text, room=83, out=out, count=0, coding=octet)
                self.accepts(wikuay.read_message, service, octet, 0, out, room=94, out=text, reading=reading)
            self.refuses(5, 0, wikuay.write_message, BROADCAST, reading, [A] * 94, room=82)
            self.refuses(5, 0, wikuay.write_message, USSD, reading, [A] * 183, room=160)
            self.assertEqual(wikuay.count_pages(reading, [A] * 94), {"pages": 2})
            front = "12345678%02X" % octet
            self.accepts(wikuay.write_pages, 0x1234, 0x5678, reading, [A] * 94, room=176, pages=2,
                         out=block(0x12, FULL_PAGE, front) + block(0x22, A_PAGE, front))
            self.accepts(wikuay.join_pages, block(0x22, A_PAGE, front) + block(0x12, FULL_PAGE, front), room=94,
                         out=[A] * 94, reading=reading, sequence=0x1234, identifier=0x5678, pages=2)

    def test_reserved_octets_of_the_group_hold_text(self):
        for octet in (0x9C, 0x9D, 0x9E, 0x9F):
            self.accepts(wikuay.read_message, BROADCAST, octet, 0, A_PAGE, room=1, out=[A], reading=RESERVED)
            self.accepts(wikuay.join_pages, block(0x11, A_PAGE, "12345678%02X" % octet), room=1, out=[A], reading=RESERVED,
                         sequence=0x1234, identifier=0x5678, pages=1)

    def test_the_reader_refuses(self):
        for octet, number in ((0x90, 3), (0x93, 3), (0x94, 2), (0x97, 2), (0x98, 3), (0x9B, 3), (0xD0, 2), (0xDF, 2)):
            for service in (BROADCAST, USSD):
                self.refuses(number, 0, wikuay.read_message, service, octet, 0, A_PAGE, room=93)
                self.refuses(number, 0, wikuay.read_message, service, octet, 7, A_PAGE[:81] * 2, room=0)
            self.refuses(number, 0, wikuay.join_pages, block(0x11, A_PAGE, "12345678%02X" % octet), room=93)
            self.refuses(number, 0, wikuay.join_pages, block(0x12, A_PAGE, "12345678%02X" % octet), room=0)
            self.refuses(4, 0, wikuay.join_pages, block(0x11, A_PAGE, "12345678%02X" % octet) + [0], room=93)

    def test_the_writer_refuses(self):
        text = [A] * 1396 + [HAN]
        for reading, number in ((HEADER, 3), (UCS2_HEADER, 3), (EIGHT_HEADER, 2), (I1, 2)):
            for service in (BROADCAST, USSD):
                self.refuses(number, 0, wikuay.write_message, service, reading, [A], room=160)
                self.refuses(number, 0, wikuay.write_message, service, reading, text, room=0)
            self.refuses(number, 0, wikuay.count_pages, reading, text)
            self.refuses(number, 0, wikuay.build_page, 1, 2, reading, text, 0)
            self.refuses(number, 0, wikuay.write_pages, 1, 2, reading, text, room=0)

    def test_8_comes_first(self):
        for reading in (Reading(header=True), HEADER._replace(letter1=0x65), UCS2_HEADER._replace(letter2=0x6E),
                        EIGHT_HEADER._replace(letter1=0x65, letter2=0x6E), HEADER._replace(prefix=True),
                        SEVEN_EN._replace(header=True), UCS2_EN._replace(header=True), I1._replace(message_class="class0"),
                        I1._replace(letter1=0x65), Reading(language="hebrew", letter2=0x6E)):
            for service in (BROADCAST, USSD):
                self.refuses(8, 0, wikuay.write_message, service, reading, [HAN] * 300, room=0)
            self.refuses(8, 0, wikuay.count_pages, reading, [A])
            self.refuses(8, 0, wikuay.build_page, 1, 2, reading, [A], 0)
            self.refuses(8, 0, wikuay.write_pages, 1, 2, reading, [A], room=0)

    def test_data_coding_alone_looks_past_letters(self):
        for reading, octet in ((HEADER, 0x90), (UCS2_HEADER, 0x9B), (EIGHT_HEADER, 0x95), (I1, 0xD0)):
            self.assertEqual(wikuay.write_coding(USSD, reading._replace(letter1=0x65, letter2=0xFF)), {"coding": octet})


class RoomLeft(Case):
    SIZES = {SMS: 160, BROADCAST: 93, USSD: 182, OLD: 93}

    def shows(self, answer, service, used, refusal=0):
        """The whole answer of a call that leaves this record."""
        self.assertEqual(answer, {"refusal": refusal, "position": 0, "left": self.SIZES[service] - used,
                                  "service": service, "used": used})

    def test_records(self):
        for service, size in self.SIZES.items():
            self.shows(wikuay.new_meter(service), service, 0)
            self.assertEqual(wikuay.new_meter(service)["left"], size)
            self.assertEqual(wikuay.room_left(service, size)["left"], 0)
            self.assertEqual(wikuay.room_left(service, size + 1)["left"], -1)
            for used in (0, 1, size - 1, size, size + 1, 65534, 65535):
                self.shows(wikuay.room_left(service, used), service, used)
                self.shows(wikuay.meter_cleared(service, used), service, 0)
        self.assertEqual(wikuay.room_left(SMS, 65535)["left"], -65375)

    def test_records_that_no_keys_make(self):
        for service in self.SIZES:
            for used in (65536, 65537, 65538, 70000, 131072, 2147483647, 2147483648, 4294967294, 4294967295):
                self.shows(wikuay.room_left(service, used), service, used)
                self.shows(wikuay.meter_cleared(service, used), service, 0)
                for unit in (A, EURO):
                    self.shows(wikuay.unit_added(service, used, unit), service, used, 5)
                for call in (wikuay.unit_added, wikuay.unit_taken_back):
                    self.shows(call(service, used, HAN), service, used, 6)
            for used, unit, after in ((65536, A, 65535), (65536, EURO, 65534), (65537, EURO, 65535)):
                self.shows(wikuay.unit_taken_back(service, used, unit), service, after)
            for used, unit in ((65537, A), (65538, A), (65538, EURO), (65539, EURO), (131072, A), (2147483648, EURO),
                               (4294967295, A), (4294967295, EURO)):
                self.shows(wikuay.unit_taken_back(service, used, unit), service, used, 5)
        self.assertEqual(wikuay.room_left(SMS, 65536)["left"], -65376)
        self.assertEqual(wikuay.room_left(SMS, 4294967295)["left"], -4294967135)
        self.assertEqual(wikuay.room_left(USSD, 2147483648)["left"], -2147483466)

    def test_widths(self):
        for service in self.SIZES:
            for unit in units("A@\n\rà€^{}\\[~]|\f"):
                septets = 2 if unit in units("€^{}\\[~]|\f") else 1
                self.shows(wikuay.unit_added(service, 90, unit), service, 90 + septets)
                self.shows(wikuay.unit_taken_back(service, 90, unit), service, 90 - septets)

    def test_limits(self):
        for service in self.SIZES:
            for call, used, unit, after in (
                    (wikuay.unit_added, 65534, A, 65535), (wikuay.unit_added, 65533, EURO, 65535),
                    (wikuay.unit_taken_back, 1, A, 0), (wikuay.unit_taken_back, 2, EURO, 0),
                    (wikuay.unit_taken_back, 3, EURO, 1), (wikuay.unit_taken_back, 65535, EURO, 65533)):
                self.shows(call(service, used, unit), service, after)
            for call, used, unit in ((wikuay.unit_added, 65535, A), (wikuay.unit_added, 65535, EURO),
                                     (wikuay.unit_added, 65534, EURO), (wikuay.unit_taken_back, 0, A),
                                     (wikuay.unit_taken_back, 0, EURO), (wikuay.unit_taken_back, 1, EURO)):
                self.shows(call(service, used, unit), service, used, 5)

    def test_unlisted_units(self):
        for unit in (0x0000, 0x001B, 0x0060, 0x00A0, 0x00E7, HAN, 0xD800, 0xFFFF):
            for used in (0, 1, 2, 160, 65534, 65535):
                self.shows(wikuay.unit_added(SMS, used, unit), SMS, used, 6)
                self.shows(wikuay.unit_taken_back(OLD, used, unit), OLD, used, 6)

    def test_a_refused_key_changes_nothing(self):
        meter = Meter(USSD, 65534)
        self.refuses(5, 0, meter.add, EURO)
        self.refuses(6, 0, meter.add, HAN)
        self.refuses(6, 0, meter.take_back, HAN)
        self.assertEqual((meter.service, meter.used, meter.left()), (USSD, 65534, -65352))
        meter.clear()
        self.refuses(5, 0, meter.take_back, A)
        self.assertEqual((meter.service, meter.used, meter.left()), (USSD, 0, 182))

    def test_counted_afresh(self):
        self.assertEqual(wikuay.left_afresh(SMS, []), 160)
        self.assertEqual(wikuay.left_afresh(BROADCAST, units("A€[")), 88)
        self.assertEqual(wikuay.left_afresh(OLD, [EURO] * 47), -1)
        self.refuses(6, 2, wikuay.left_afresh, USSD, [A, EURO, HAN])

    def random_keys(self, service, kept, number, seed):
        """Keys at random over one record. The text of the accepted ones is kept beside it, and counted afresh."""
        rng = random.Random(seed)
        meter = Meter(service, len(wikuay.septets_of(kept)))
        for _ in range(number):
            kind = rng.random()
            unit = rng.choice((A, CR, 0x40, 0xE0, EURO, EURO, 0x5B, 0x0C, HAN, 0x1B))
            refusal = 0
            try:
                if kind < 0.6:
                    meter.add(unit)
                    kept.append(unit)
                elif kind < 0.98:
                    unit = kept[-1] if kept and unit != HAN else unit
                    meter.take_back(unit)
                    kept.pop()
                else:
                    meter.clear()
                    kept.clear()
            except Refused as refused:
                refusal = refused.number
            self.assertEqual(refusal == 6, kind < 0.98 and unit in (HAN, 0x1B))
            self.assertEqual(meter.service, service)
            self.assertEqual(meter.left(), wikuay.left_afresh(service, kept))
            yield refusal

    def test_runs_of_keys_show_what_the_text_leaves(self):
        came = set()
        for seed, service in enumerate(self.SIZES):
            came.update(self.random_keys(service, [], 1000, seed))
            came.update(self.random_keys(service, [A] * (self.SIZES[service] - 5), 200, seed))
            came.update(self.random_keys(service, [EURO] * 32766 + [A], 25, seed))
        self.assertEqual(came, {0, 5, 6})


# Headers of the first and the second of two parts, and seven octets: the fill bit, and "A" or "B" behind it.
FIRST, SECOND = octets("050003C70201"), octets("050003C70202")
FIRST_A, SECOND_B = FIRST + [0x82], SECOND + [0x84]


class UserDataHeaders(Case):
    def reads(self, header, numbers):
        """The header stands in front of 4E2D, as UCS2."""
        self.accepts(wikuay.read_part, 0x08, len(header) + 2, 1, header + [0x4E, 0x2D], room=2, out=[HAN], reading=UCS2,
                     numbers=numbers)

    def lacks(self, header):
        self.refuses(12, 0, wikuay.read_part, 0x08, len(header) + 2, 1, header + [0x4E, 0x2D], room=2)

    def test_the_element(self):
        self.reads(FIRST, [0xC7, 2, 1])
        self.reads([0], [])
        for numbers in ([0, 0, 0], [1, 0, 1], [1, 2, 0], [1, 2, 3], [255, 255, 255]):
            self.reads([5, 0, 3] + numbers, numbers)

    def test_unknown_elements_are_passed_over(self):
        self.reads(octets("027000"), [])
        self.reads(octets("06080401020304"), [])
        self.reads(octets("050803C70201"), [])
        self.reads(octets("0B08040102030400030A0B0C"), [10, 11, 12])
        self.reads(octets("0B00030A0B0C080401020304"), [10, 11, 12])
        self.reads(octets("0770050003C70201"), [])

    def test_the_last_of_a_repeated_element_counts(self):
        self.reads(octets("0A00030102030003040506"), [4, 5, 6])
        self.reads(octets("0A00030405060003010203"), [1, 2, 3])
        self.reads(octets("0F000301020370030A0A0A0003040506"), [4, 5, 6])

    def test_elements_of_wrong_length(self):
        for header in ("020000", "03000101", "0400020101", "06000401010101", "0700000003010203", "0700030102030000",
                       "080001010003010203", "080003010203000101"):
            self.lacks(octets(header))

    def test_elements_past_the_header(self):
        for header in ("0100", "0170", "027001", "0270FF", "050004010203", "057004010203", "03700070", "06000301020370",
                       "06000301020300"):
            self.lacks(octets(header))

    def test_the_header_is_longer_than_the_octets(self):
        for length in (7, 8, 127, 128, 255):
            self.refuses(12, 0, wikuay.read_part, 0x08, 7, 1, [length] + [0x70, 0] * 3, room=9)
        self.accepts(wikuay.read_part, 0x08, 7, 1, [6] + [0x70, 0] * 3, room=9, out=[], reading=UCS2, numbers=[])
        self.refuses(12, 0, wikuay.read_part, 0x00, 0, 1, [], room=9)
        self.refuses(12, 0, wikuay.read_part, 0x08, 0, 1, [], room=9)

    def test_the_header_is_longer_than_the_count(self):
        """A header of 7 octets takes 8 septets, though 7 septets take 7 octets too; one of 6 takes 7 septets, not 6."""
        seven = octets("06700401020304")
        self.accepts(wikuay.read_part, 0x00, 8, 1, seven, room=9, out=[], reading=PLAIN, numbers=[])
        self.refuses(12, 0, wikuay.read_part, 0x00, 7, 1, seven, room=9)
        self.accepts(wikuay.read_part, 0x00, 7, 1, FIRST + [0x00], room=9, out=[], reading=PLAIN, numbers=[0xC7, 2, 1])
        self.refuses(12, 0, wikuay.read_part, 0x00, 6, 1, FIRST, room=9)


class ReadingParts(Case):
    def reads(self, coding, count, part, text, reading=PLAIN, numbers=(), mark=1):
        self.accepts(wikuay.read_part, coding, count, mark, part, room=len(text) + 1, out=text, reading=reading,
                     numbers=list(numbers))

    def test_text_starts_at_the_next_septet(self):
        self.reads(0x00, 8, FIRST_A, [A], numbers=[0xC7, 2, 1])
        # Headers of 1, 3, 4, 5 and 7 octets, behind which 6, 4, 3, 2 and no fill bits stand, "A", and spare bits. Fill bits
        # and spare bits are set.
        for part, count in (("007FF0", 3), ("0270001FFC", 5), ("037001090FFE", 6), ("047002090907FF", 7),
                            ("06700401020304C1", 9)):
            self.reads(0x00, count, octets(part), [A])

    def test_fill_bits_and_spare_bits_are_ignored(self):
        self.reads(0x00, 8, FIRST + [0x83], [A], numbers=[0xC7, 2, 1])
        self.reads(0x00, 9, FIRST + [0x82, 0x42], [A, A + 1], numbers=[0xC7, 2, 1])
        self.reads(0x00, 9, FIRST + [0x83, 0xC2], [A, A + 1], numbers=[0xC7, 2, 1])

    def test_the_count_covers_the_header(self):
        self.reads(0x00, 7, FIRST_A, [], numbers=[0xC7, 2, 1])
        self.refuses(4, 0, wikuay.read_part, 0x00, 1, 1, FIRST_A, room=9)
        self.reads(0x00, 160, FIRST + [0] * 134, [0x40] * 153, numbers=[0xC7, 2, 1])
        self.refuses(4, 0, wikuay.read_part, 0x00, 161, 1, FIRST + [0] * 135, room=200)

    def test_ucs2(self):
        self.reads(0x08, 140, FIRST + [0x4E, 0x2D] * 67, [HAN] * 67, UCS2, [0xC7, 2, 1])
        self.reads(0x08, 3, octets("004E2D"), [HAN], UCS2)
        for part in (FIRST + [0x4E], [0, 0x4E], FIRST + [0x4E, 0x2D, 0x4E]):
            self.refuses(4, 0, wikuay.read_part, 0x08, len(part), 1, part, room=9)
        self.refuses(4, 0, wikuay.read_part, 0x08, 8, 1, FIRST + [0x4E], room=9)
        self.refuses(4, 0, wikuay.read_part, 0x08, 141, 1, [0] + [0x4E, 0x2D] * 70, room=99)

    def test_escapes(self):
        # 1B behind the fill bit is 36, and 65 takes the octet behind it.
        self.reads(0x00, 9, FIRST + [0x36, 0x65], [EURO], numbers=[0xC7, 2, 1])
        self.reads(0x00, 8, FIRST + [0x36], units(" "), numbers=[0xC7, 2, 1])

    def test_without_the_mark(self):
        self.reads(0x00, 2, octets("4121"), units("AB"), mark=0)
        self.reads(0x00, 0, [], [], mark=0)
        self.reads(0x08, 6, FIRST, [0x0500, 0x03C7, 0x0201], UCS2, mark=0)
        self.refuses(4, 0, wikuay.read_part, 0x08, 3, 0, octets("004E2D"), room=9)
        self.refuses(1, 0, wikuay.read_part, 0x24, 9, 0, [255], room=0)
        self.refuses(2, 0, wikuay.read_part, 0x04, 9, 0, [255], room=0)
        self.refuses(4, 0, wikuay.read_part, 0x00, 9, 0, [255], room=0)
        self.refuses(7, 0, wikuay.read_part, 0x00, 1, 0, [255], room=0)

    def test_a_reserved_coding_is_read(self):
        self.reads(0x80, 8, FIRST_A, [A], RESERVED, [0xC7, 2, 1])

    def test_refusals_in_order(self):
        read, wrong = wikuay.read_part, octets("040002C702")
        self.refuses(1, 0, read, 0x24, 9, 1, wrong, room=0)
        self.refuses(2, 0, read, 0x04, 9, 1, wrong, room=0)
        self.refuses(4, 0, read, 0x08, 9, 1, wrong, room=0)
        self.refuses(12, 0, read, 0x08, 6, 1, wrong + [0x4E], room=0)
        self.refuses(4, 0, read, 0x08, 7, 1, FIRST + [0x4E], room=0)
        self.refuses(7, 0, read, 0x00, 8, 1, FIRST_A, room=0)


class WritingParts(Case):
    def counts(self, reading, text, parts):
        self.assertEqual(wikuay.count_parts(reading, text), {"parts": parts})

    def writes(self, reading, text, number, parts, count, out, coding=0x00):
        self.accepts(wikuay.write_part, reading, 0xC7, text, number, room=len(out) + 1, out=out,
                     mark=1 if parts > 1 else 0, count=count, coding=coding, parts=parts)

    def writes_all(self, reading, text, out, sizes, coding=0x00):
        """Both buffers hold what is written, and are left alone behind it."""
        octets_lent, sizes_lent = ["untouched"] * (len(out) + 1), ["untouched"] * (len(sizes) + 1)
        came = wikuay.write_parts(reading, 0xC7, text, octets_lent, sizes_lent)
        parts = len(sizes) // 2
        self.assertEqual(came, {"written": len(out), "mark": 1 if parts > 1 else 0, "coding": coding, "parts": parts})
        self.assertEqual((octets_lent, sizes_lent), (out + ["untouched"], sizes + ["untouched"]))

    def test_numbers_of_parts(self):
        for n, parts in ((0, 1), (160, 1), (161, 2), (306, 2), (307, 3), (38862, 254), (38863, 255), (39015, 255)):
            self.counts(PLAIN, [A] * n, parts)
        self.refuses(5, 0, wikuay.count_parts, PLAIN, [A] * 39016)
        for n, parts in ((0, 1), (70, 1), (71, 2), (134, 2), (135, 3), (17018, 254), (17019, 255), (17085, 255)):
            self.counts(UCS2, [HAN] * n, parts)
        self.refuses(5, 0, wikuay.count_parts, UCS2, [HAN] * 17086)

    def test_septets_count_and_not_units(self):
        for n, parts in ((80, 1), (81, 2), (153, 2), (154, 3), (19507, 255)):
            self.counts(PLAIN, [EURO] * n, parts)
        self.refuses(5, 0, wikuay.count_parts, PLAIN, [EURO] * 19508)

    def test_a_lone_text_has_no_header(self):
        self.writes(PLAIN, units("AB"), 1, 1, 2, octets("4121"))
        self.writes(PLAIN, [], 1, 1, 0, [])
        self.writes(UCS2, [HAN] * 70, 1, 1, 140, [0x4E, 0x2D] * 70, 0x08)
        self.writes(Reading(message_class="class1"), [EURO], 1, 1, 2, octets("9B32"), 0x11)
        self.writes_all(PLAIN, units("AB"), octets("4121"), [2, 2])
        self.writes_all(PLAIN, [], [], [0, 0])

    def test_seven_bit(self):
        # "A" is septet 14 of the second part: its lowest bit is bit 98, and its highest 104.
        self.writes(PLAIN, [0x40] * 153 + [A] * 8, 1, 2, 160, FIRST + [0] * 134)
        self.writes(PLAIN, [0x40] * 160 + [A], 2, 2, 15, SECOND + [0] * 6 + [0x04, 0x01])
        self.writes(PLAIN, [0x40] * 306 + [A], 3, 3, 8, octets("050003C7030382"))
        self.writes_all(PLAIN, [0x40] * 306 + [A], octets("050003C70301") + [0] * 134 + octets("050003C70302") + [0] * 134
                        + octets("050003C7030382"), [160, 140, 160, 140, 8, 7])

    def test_an_escape_ends_a_part(self):
        # The escape takes the last octet but its lowest bit. Its code stands behind the second part's fill bit.
        self.writes(PLAIN, [0x40] * 152 + [EURO] + [0x40] * 9, 1, 2, 160, FIRST + [0] * 133 + [0x36])
        self.writes(PLAIN, [0x40] * 152 + [EURO] + [0x40] * 7, 2, 2, 15, SECOND + [0xCA] + [0] * 7)

    def test_ucs2(self):
        self.writes(UCS2, [HAN] * 71, 1, 2, 140, FIRST + [0x4E, 0x2D] * 67, 0x08)
        self.writes(UCS2, [HAN] * 71, 2, 2, 14, SECOND + [0x4E, 0x2D] * 4, 0x08)
        self.writes_all(UCS2, [HAN] * 71, FIRST + [0x4E, 0x2D] * 67 + SECOND + [0x4E, 0x2D] * 4, [140, 140, 14, 14], 0x08)

    def test_the_most_parts(self):
        self.writes(PLAIN, [0x40] * 39015, 255, 255, 160, octets("050003C7FFFF") + [0] * 134)
        self.writes(UCS2, [HAN] * 17085, 128, 255, 140, octets("050003C7FF80") + [0x4E, 0x2D] * 67, 0x08)

    def test_parts_that_the_message_lacks(self):
        for number in (0, 3, 255, 256, 258, 65537, 4294967295):
            self.refuses(10, 0, wikuay.write_part, PLAIN, 7, [A] * 161, number, room=140)
        for number in (0, 2):
            self.refuses(10, 0, wikuay.write_part, PLAIN, 7, [A], number, room=140)

    def test_rooms(self):
        self.refuses(7, 0, wikuay.write_part, UCS2, 7, [HAN] * 71, 1, room=139)
        self.refuses(7, 0, wikuay.write_part, UCS2, 7, [HAN] * 71, 2, room=13)
        for out, sizes in ((153, 4), (154, 3), (153, 3), (0, 0)):
            lent = ["untouched"] * out, ["untouched"] * sizes
            self.refuses(7, 0, wikuay.write_parts, UCS2, 7, [HAN] * 71, *lent)
            self.assertEqual(lent, (["untouched"] * out, ["untouched"] * sizes))
        self.refuses(7, 0, wikuay.write_parts, PLAIN, 7, [], [], [0])

    def test_refusals_in_order(self):
        text = [A] * 39016 + [HAN]
        for reading, number, position in ((Reading(compressed=True, language="german"), 8, 0),
                                          (PLAIN._replace(letter1=0x65), 8, 0), (RESERVED, 8, 0),
                                          (Reading(prefix=True), 8, 0), (Reading(message_class="class0", header=True), 8, 0),
                                          (Reading(alphabet="8bit", compressed=True), 1, 0),
                                          (Reading(alphabet="8bit"), 2, 0), (PLAIN, 6, 39016), (UCS2, 5, 0)):
            self.refuses(number, position, wikuay.count_parts, reading, text)
            self.refuses(number, position, wikuay.write_part, reading, 7, text, 0, room=0)
            self.refuses(number, position, wikuay.write_parts, reading, 7, text, [], [])
        self.refuses(5, 0, wikuay.write_part, PLAIN, 7, text[:-1], 0, room=0)
        self.refuses(10, 0, wikuay.write_part, PLAIN, 7, [A], 0, room=0)


class JoiningParts(Case):
    def joins(self, counts, parts, text, coding=0x00, reading=PLAIN, reference=0xC7):
        self.accepts(wikuay.join_parts, coding, counts, sum(parts, []), room=len(text) + 1, out=text, reading=reading,
                     reference=reference, parts=len(counts))

    def lacks(self, counts, parts, number=10, coding=0x00):
        self.refuses(number, 0, wikuay.join_parts, coding, counts, sum(parts, []), room=200)

    def test_any_order(self):
        self.joins([8, 8], [FIRST_A, SECOND_B], units("AB"))
        self.joins([8, 8], [SECOND_B, FIRST_A], units("AB"))
        parts = [octets("050003C703%02X%02X" % (number, 0x80 + 2 * number)) for number in (1, 2, 3)]
        for at in ((0, 1, 2), (0, 2, 1), (1, 0, 2), (1, 2, 0), (2, 0, 1), (2, 1, 0)):
            self.joins([8] * 3, [parts[number] for number in at], units("ABC"))

    def test_escapes(self):
        self.joins([8, 8], [SECOND + [0xCA], FIRST + [0x36]], [EURO])
        self.joins([8, 8], [FIRST + [0x36], SECOND + [0x36]], units(" "))
        self.joins([8, 9], [FIRST + [0x36], SECOND + [0x36, 0x65]], units(" e"))
        self.joins([8, 7], [FIRST + [0x36], SECOND + [0x00]], units(" "))

    def test_parts_need_not_be_full_nor_alike(self):
        self.joins([7, 7], [FIRST + [0], SECOND + [0]], [])
        # An element of two octets in front: 8 octets, which take 10 septets and leave 6 fill bits.
        self.joins([11, 8], [octets("0770000003C702014010"), SECOND_B], units("AB"))
        self.joins([8], [octets("05000305010182")], [A], reference=5)

    def test_ucs2(self):
        parts = [SECOND + [0x4E, 0x2E], FIRST + [0x4E, 0x2D]]
        self.joins([8, 8], parts, [HAN, HAN + 1], 0x08, UCS2)
        self.lacks([7, 9], [FIRST + [0x4E], SECOND + [0x4E, 0x2D, 0x4E]], 4, 0x08)

    def test_parts_that_are_no_message(self):
        self.lacks([], [])
        self.lacks([8], [FIRST_A])
        self.lacks([8], [SECOND_B])
        self.lacks([8, 8], [FIRST_A, FIRST_A])
        self.lacks([8, 8, 8], [FIRST_A, SECOND_B, SECOND_B])
        self.lacks([8, 8], [FIRST_A, octets("050003C8020284")])
        self.lacks([8, 8], [FIRST_A, octets("050003C7030284")])
        self.lacks([8, 8], [FIRST_A, octets("050003C7020384")])
        self.lacks([8, 8], [FIRST_A, octets("050003C7020084")])
        self.lacks([8], [octets("050003C7000082")])
        self.lacks([2], [octets("0000")])
        self.lacks([8, 2], [FIRST_A, octets("0000")])

    def test_counts_and_octets(self):
        self.lacks([], [[0]], 4)
        self.lacks([8], [FIRST_A + [0]], 4)
        self.lacks([8, 8], [FIRST_A], 4)
        self.lacks([161], [FIRST + [0] * 135], 4)
        self.lacks([141], [[0] * 141], 4, 0x08)
        self.joins([160, 8], [FIRST + [0] * 134, SECOND_B], [0x40] * 153 + units("B"))
        self.joins([140, 8], [FIRST + [0] * 134, SECOND + [0, 0x42]], [0] * 67 + units("B"), 0x08, UCS2)

    def test_255_parts(self):
        parts = [octets("050003C7FF%02X4E2D" % number) for number in range(255, 0, -1)]
        self.joins([8] * 255, parts, [HAN] * 255, 0x08, UCS2)
        self.lacks([8] * 256, parts + parts[:1], 10, 0x08)
        self.lacks([8] * 254, parts[:-1], 10, 0x08)

    def test_refusals_in_order(self):
        join, wrong, odd = wikuay.join_parts, octets("040002C7024E"), octets("004E")
        self.refuses(1, 0, join, 0x24, [6, 9], wrong, room=0)
        self.refuses(2, 0, join, 0x04, [6, 9], wrong, room=0)
        self.refuses(4, 0, join, 0x08, [6, 9], wrong, room=0)
        self.refuses(12, 0, join, 0x08, [2, 6], odd + wrong, room=0)
        self.refuses(12, 0, join, 0x08, [0], [], room=0)
        self.refuses(4, 0, join, 0x08, [3, 2], octets("004E2D") + odd, room=0)
        self.refuses(10, 0, join, 0x08, [3], octets("004E2D"), room=0)
        self.refuses(7, 0, join, 0x08, [8], octets("050003C701014E2D"), room=0)


if __name__ == "__main__":
    unittest.main()
