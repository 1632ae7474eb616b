/*
 * numbers.c: every number that can cross include/wikuay.h in the place of a service or of a field of a reading.
 *
 * The vectors name services and fields by words, so that they cannot ask what a number does that names nothing. Here
 * every service number of a wide range, and every number of every field, is handed to every call that takes one. So is
 * every mark of a user data header, every pair of language letters, every sequence number and message identifier, every
 * page parameter, every reference, total and number of a part, and numbers of pages and parts of a wide range. Every
 * unit is typed on a meter and taken back, and texts are typed key by key and counted afresh at each. Messages of up to
 * 255 parts, which no line of the vectors holds, are written, read and joined. The version of the library must be that
 * of the header. It prints how many answers were judged and how many are wrong; the exit status is 1 if one is. C99 and
 * C++11.
 */
#include <stdio.h>
#include <string.h>

#include "wikuay.h"

static unsigned long judged, wrong;

static void judge(int right, const char *what, unsigned long number) {
  judged++;
  if (right) return;
  wrong++;
  printf("%s: wrong for %lu\n", what, number);
}

static int same(wikuay_reading a, wikuay_reading b) {
  return a.alphabet == b.alphabet && a.compressed == b.compressed && a.message_class == b.message_class &&
         a.language == b.language && a.deletion == b.deletion && a.prefix == b.prefix && a.reserved == b.reserved &&
         a.header == b.header && a.notice == b.notice && a.first_letter == b.first_letter && a.second_letter == b.second_letter;
}

/* The answer is this refusal and reports nothing. */
static int refused(wikuay_answer a, uint32_t refusal) {
  return a.refusal == refusal && a.count == 0 && a.position == 0 && a.written == 0 && a.coding == 0;
}

static int read_refused(wikuay_read_answer a, uint32_t refusal) {
  return a.refusal == refusal && a.position == 0 && a.written == 0 && a.holds == 0 && same(a.reading, wikuay_plain());
}

static int is_8(wikuay_answer a) { return refused(a, WIKUAY_REFUSED_UNWRITABLE); }

static int read_is_8(wikuay_read_answer a) { return read_refused(a, WIKUAY_REFUSED_UNWRITABLE); }

/* The same of the calls with pages: a refusal with this number. */
static int pages_refused(wikuay_pages_answer a, uint32_t refusal) {
  return a.refusal == refusal && a.pages == 0 && a.position == 0 && a.written == 0;
}

static int page_refused(wikuay_page_answer a, uint32_t refusal) {
  size_t at;
  for (at = 0; at < WIKUAY_BLOCK_OCTETS; at++)
    if (a.block.octets[at] != 0) return 0;
  return a.refusal == refusal && a.pages == 0 && a.position == 0;
}

static int join_refused(wikuay_join_answer a, uint32_t refusal) {
  return a.refusal == refusal && a.pages == 0 && a.position == 0 && a.written == 0 && a.sequence == 0 &&
         a.identifier == 0 && same(a.reading, wikuay_plain());
}

/* The same of the calls with parts. */
static int parts_refused(wikuay_parts_answer a, uint32_t refusal) {
  return a.refusal == refusal && a.parts == 0 && a.position == 0 && a.written == 0 && a.count == 0 && a.coding == 0 &&
         a.mark == 0;
}

static int part_refused(wikuay_part_answer a, uint32_t refusal) {
  return a.refusal == refusal && a.numbered == 0 && a.reference == 0 && a.total == 0 && a.number == 0 &&
         a.position == 0 && a.written == 0 && same(a.reading, wikuay_plain());
}

static int parts_join_refused(wikuay_parts_join_answer a, uint32_t refusal) {
  return a.refusal == refusal && a.parts == 0 && a.position == 0 && a.written == 0 && a.reference == 0 &&
         same(a.reading, wikuay_plain());
}

/* The answer of a key is this refusal, and shows this number and this record. */
static int metered(wikuay_meter_answer a, uint32_t refusal, int64_t left, uint32_t service, uint32_t used) {
  return a.refusal == refusal && a.position == 0 && a.left == left && a.meter.service == service &&
         a.meter.used == used;
}

static int meter_is_8(wikuay_meter_answer a, uint32_t service, uint32_t used) {
  return metered(a, WIKUAY_REFUSED_UNWRITABLE, 0, service, used);
}

static int all_are(const void *memory, size_t size, uint8_t octet) {
  const uint8_t *at = (const uint8_t *)memory;
  while (size && *at == octet) at++, size--;
  return size == 0;
}

/* A service that no number up to 3 names is refused 8 by every call, and nothing is stored. */
static void no_service(uint32_t service) {
  static const uint8_t septets[] = {0x41, 0xFF};
  static const uint16_t text[] = {0x0041, 0x4E2D};
  uint8_t octets[WIKUAY_MOST_OCTETS], before[WIKUAY_MOST_OCTETS];
  uint16_t units[WIKUAY_MOST_UNITS], units_before[WIKUAY_MOST_UNITS];
  wikuay_meter meter = {0, 7};
  memset(octets, 0xA5, sizeof octets);
  memset(units, 0xA5, sizeof units);
  memcpy(before, octets, sizeof octets);
  memcpy(units_before, units, sizeof units);
  judge(read_is_8(wikuay_read_coding(service, 0)), "wikuay_read_coding, service", service);
  judge(is_8(wikuay_write_coding(service, wikuay_plain())), "wikuay_write_coding, service", service);
  judge(is_8(wikuay_pack(service, septets, 2, octets, sizeof octets)), "wikuay_pack, service", service);
  judge(is_8(wikuay_unpack(service, septets, 2, 99, octets, sizeof octets)), "wikuay_unpack, service", service);
  judge(read_is_8(wikuay_read_message(service, 0x24, 99, septets, 2, units, WIKUAY_MOST_UNITS)),
        "wikuay_read_message, service", service);
  judge(is_8(wikuay_write_message(service, wikuay_plain(), text, 2, octets, sizeof octets)),
        "wikuay_write_message, service", service);
  judge(memcmp(before, octets, sizeof octets) == 0 && memcmp(units_before, units, sizeof units) == 0,
        "a buffer is touched under service", service);
  meter.service = service;
  judge(meter_is_8(wikuay_new_meter(service), service, 0), "wikuay_new_meter, service", service);
  judge(meter_is_8(wikuay_room_left(meter), service, 7), "wikuay_room_left, service", service);
  judge(meter_is_8(wikuay_unit_added(meter, 0x4E2D), service, 7), "wikuay_unit_added, service", service);
  judge(meter_is_8(wikuay_unit_taken_back(meter, 0x4E2D), service, 7), "wikuay_unit_taken_back, service", service);
  judge(meter_is_8(wikuay_meter_cleared(meter), service, 7), "wikuay_meter_cleared, service", service);
}

/* The calls with parts refuse the reading 8 before all else: the unit is unlisted, the part is none, and there is no
   room. */
static void no_parts(wikuay_reading reading, const char *what, unsigned long number) {
  static const uint16_t text[] = {0x4E2D};
  uint8_t octets[WIKUAY_SHORT_MESSAGE_OCTETS], sizes[2];
  memset(octets, 0xA5, sizeof octets);
  memset(sizes, 0xA5, sizeof sizes);
  judge(parts_refused(wikuay_count_parts(reading, text, 1), WIKUAY_REFUSED_UNWRITABLE), what, number);
  judge(parts_refused(wikuay_write_part(reading, 7, text, 1, 0, octets, 0), WIKUAY_REFUSED_UNWRITABLE), what, number);
  judge(parts_refused(wikuay_write_parts(reading, 7, text, 1, octets, 0, sizes, 0), WIKUAY_REFUSED_UNWRITABLE), what,
        number);
  judge(parts_refused(wikuay_write_part(reading, 7, text, 1, 1, octets, sizeof octets), WIKUAY_REFUSED_UNWRITABLE),
        what, number);
  judge(parts_refused(wikuay_write_parts(reading, 7, text, 1, octets, sizeof octets, sizes, 2),
                      WIKUAY_REFUSED_UNWRITABLE),
        what, number);
  judge(all_are(octets, sizeof octets, 0xA5) && all_are(sizes, sizeof sizes, 0xA5), what, number);
}

/* They refuse so exactly what no coding octet of a short message says. */
static void parts_under(wikuay_reading reading, const char *what, unsigned long number) {
  static const uint16_t text[] = {0x0041};
  uint8_t octets[WIKUAY_SHORT_MESSAGE_OCTETS], sizes[2];
  if (wikuay_write_coding(WIKUAY_SHORT_MESSAGE, reading).refusal != 0) {
    no_parts(reading, what, number);
    return;
  }
  judge(wikuay_count_parts(reading, text, 1).refusal != WIKUAY_REFUSED_UNWRITABLE, what, number);
  judge(wikuay_write_part(reading, 7, text, 1, 1, octets, sizeof octets).refusal != WIKUAY_REFUSED_UNWRITABLE, what,
        number);
  judge(wikuay_write_parts(reading, 7, text, 1, octets, sizeof octets, sizes, 2).refusal != WIKUAY_REFUSED_UNWRITABLE,
        what, number);
}

/* A reading with this number in a field: named says whether the number names a value of that field. */
static void field(wikuay_reading reading, int named, const char *what, unsigned long number) {
  static const uint16_t text[] = {0x4E2D};
  uint8_t octets[WIKUAY_MOST_OCTETS];
  uint32_t service;
  judge((wikuay_holds_text(reading).refusal != WIKUAY_REFUSED_UNWRITABLE) == named, what, number);
  if (!named) judge(read_is_8(wikuay_holds_text(reading)), what, number);
  for (service = WIKUAY_SHORT_MESSAGE; service <= WIKUAY_OLD_PAGE; service++) {
    wikuay_answer a = wikuay_write_coding(service, reading);
    if (a.refusal == 0)
      judge(named && same(wikuay_read_coding(service, a.coding).reading, reading), what, number);
    else
      judge(is_8(a), what, number);
    if (!named) judge(is_8(wikuay_write_message(service, reading, text, 1, octets, sizeof octets)), what, number);
  }
  parts_under(reading, what, number);
  /* The calls with pages refuse 8 exactly what no coding octet of a broadcast page says. */
  if (wikuay_write_coding(WIKUAY_BROADCAST, reading).refusal == 0) {
    judge(wikuay_count_pages(reading, text, 1).refusal != WIKUAY_REFUSED_UNWRITABLE, what, number);
    return;
  }
  memset(octets, 0xA5, sizeof octets);
  judge(pages_refused(wikuay_count_pages(reading, text, 1), WIKUAY_REFUSED_UNWRITABLE), what, number);
  judge(page_refused(wikuay_build_page(1, 2, reading, text, 1, 0), WIKUAY_REFUSED_UNWRITABLE), what, number);
  judge(pages_refused(wikuay_write_pages(1, 2, reading, text, 1, octets, sizeof octets), WIKUAY_REFUSED_UNWRITABLE) &&
            all_are(octets, sizeof octets, 0xA5),
        what, number);
}

/* Data coding writes past language letters, and reads none. */
static void coding_with_letters(wikuay_reading reading, unsigned long number) {
  wikuay_reading without = reading;
  wikuay_read_answer told = wikuay_holds_text(reading);
  uint32_t service;
  without.first_letter = without.second_letter = 0;
  judge(told.refusal == wikuay_holds_text(without).refusal && told.holds == wikuay_holds_text(without).holds &&
            told.refusal == (reading.prefix ? WIKUAY_REFUSED_PREFIXED : 0u) && same(told.reading, wikuay_plain()),
        "wikuay_holds_text, letters", number);
  for (service = WIKUAY_SHORT_MESSAGE; service <= WIKUAY_OLD_PAGE; service++) {
    wikuay_answer a = wikuay_write_coding(service, reading), b = wikuay_write_coding(service, without);
    judge(a.refusal == b.refusal && a.coding == b.coding, "wikuay_write_coding, letters", number);
    if (a.refusal == 0)
      judge(same(wikuay_read_coding(service, a.coding).reading, without), "wikuay_read_coding, letters", number);
  }
}

/* The calls with pages, and one message under this service, refuse the reading. */
static void text_refused(uint32_t service, wikuay_reading reading, uint32_t refusal, unsigned long number) {
  static const uint16_t text[] = {0x0041};
  uint8_t octets[WIKUAY_MOST_OCTETS];
  memset(octets, 0xA5, sizeof octets);
  judge(refused(wikuay_write_message(service, reading, text, 1, octets, sizeof octets), refusal),
        "wikuay_write_message, letters", number);
  judge(pages_refused(wikuay_count_pages(reading, text, 1), refusal), "wikuay_count_pages, letters", number);
  judge(page_refused(wikuay_build_page(1, 2, reading, text, 1, 1), refusal), "wikuay_build_page, letters", number);
  judge(pages_refused(wikuay_write_pages(1, 2, reading, text, 1, octets, sizeof octets), refusal),
        "wikuay_write_pages, letters", number);
  judge(all_are(octets, sizeof octets, 0xA5), "a buffer is touched under letters", number);
}

/* One broadcast page with the prefix mark: where both letters are a to z it is written, and read as it was given. Where
   they are not it is refused 11, on reading too. A letter is a septet there. */
static void lettered_page(wikuay_reading reading, unsigned long number) {
  static const uint16_t text[] = {0x0041, 0x000D, 0x0042};
  const uint8_t first = reading.first_letter, second = reading.second_letter;
  const int right = 'a' <= first && first <= 'z' && 'a' <= second && second <= 'z';
  uint8_t octets[WIKUAY_BROADCAST_OCTETS];
  uint16_t units[WIKUAY_LETTERED_SEPTETS];
  wikuay_reading english = reading;
  wikuay_answer a;
  wikuay_read_answer r;
  memset(octets, 0xA5, sizeof octets);
  memset(units, 0xA5, sizeof units);
  a = wikuay_write_message(WIKUAY_BROADCAST, reading, text, 3, octets, sizeof octets);
  judge(right ? a.refusal == 0 && a.count == 0 && a.written == sizeof octets &&
                    a.coding == (reading.alphabet == WIKUAY_UCS2 ? 0x11 : 0x10)
              : refused(a, WIKUAY_REFUSED_WRONG_LETTERS) && all_are(octets, sizeof octets, 0xA5),
        "wikuay_write_message, lettered page", number);
  if (127 < first || 127 < second) return;
  if (!right) {
    english.first_letter = 'e', english.second_letter = 'n';
    a = wikuay_write_message(WIKUAY_BROADCAST, english, text, 3, octets, sizeof octets);
    octets[0] = (uint8_t)(first | (second & 1) << 7);
    octets[1] = (uint8_t)((octets[1] & 0xC0) | second >> 1);
  }
  r = wikuay_read_message(WIKUAY_BROADCAST, a.coding, 0, octets, sizeof octets, units, WIKUAY_LETTERED_SEPTETS);
  judge(right ? r.refusal == 0 && r.written == 3 && same(r.reading, reading) && memcmp(units, text, sizeof text) == 0 &&
                    all_are(units + 3, sizeof units - sizeof text, 0xA5)
              : read_refused(r, WIKUAY_REFUSED_WRONG_LETTERS) && all_are(units, sizeof units, 0xA5),
        "wikuay_read_message, lettered page", number);
}

/* Two language letters of any numbers, with the prefix mark and without. */
static void letters(wikuay_reading reading, unsigned long number) {
  static const uint16_t text[] = {0x0041};
  uint8_t octets[WIKUAY_MOST_OCTETS];
  uint32_t service;
  reading.first_letter = (uint8_t)(number >> 8);
  reading.second_letter = (uint8_t)number;
  coding_with_letters(reading, number);
  for (service = WIKUAY_SHORT_MESSAGE; service <= WIKUAY_USSD; service++)
    if (number != 0)
      text_refused(service, reading, WIKUAY_REFUSED_UNWRITABLE, number);
    else
      judge(wikuay_write_message(service, reading, text, 1, octets, sizeof octets).refusal == 0, "no letters", service);
  if (number != 0) no_parts(reading, "parts with letters", number);
  reading.prefix = 1;
  no_parts(reading, "parts with the prefix mark", number);
  coding_with_letters(reading, number);
  text_refused(WIKUAY_USSD, reading, WIKUAY_REFUSED_PREFIXED, number);
  judge(is_8(wikuay_write_message(WIKUAY_SHORT_MESSAGE, reading, text, 1, octets, sizeof octets)),
        "wikuay_write_message, prefix mark", number);
  lettered_page(reading, number);
}

/* Page n of a message of two pages: 1 and 2 are built, and any other is refused 10. */
static void page_number(size_t n) {
  uint16_t text[WIKUAY_BROADCAST_SEPTETS + 1];
  wikuay_page_answer a;
  wikuay_block_header h;
  size_t at;
  for (at = 0; at <= WIKUAY_BROADCAST_SEPTETS; at++) text[at] = 'A';
  a = wikuay_build_page(0x1234, 0xFEDC, wikuay_plain(), text, WIKUAY_BROADCAST_SEPTETS + 1, n);
  if (n < 1 || 2 < n) {
    judge(page_refused(a, WIKUAY_REFUSED_WRONG_PAGES), "wikuay_build_page, number", (unsigned long)n);
    return;
  }
  h = wikuay_read_header(a.block);
  judge(a.refusal == 0 && a.pages == 2 && h.sequence == 0x1234 && h.identifier == 0xFEDC && h.total == 2 &&
            h.number == n && h.coding == wikuay_write_coding(WIKUAY_BROADCAST, wikuay_plain()).coding,
        "wikuay_build_page, number", (unsigned long)n);
}

/* A sequence number and a message identifier, high octet first, come back from every call that tells them. */
static void pair(uint16_t sequence, uint16_t identifier) {
  static const uint16_t text[] = {0x0041};
  uint8_t octets[WIKUAY_BLOCK_OCTETS];
  uint16_t units[WIKUAY_PAGES_UNITS];
  wikuay_page_answer a = wikuay_build_page(sequence, identifier, wikuay_plain(), text, 1, 1);
  wikuay_block_header h = wikuay_read_header(a.block);
  wikuay_pages_answer w = wikuay_write_pages(sequence, identifier, wikuay_plain(), text, 1, octets, sizeof octets);
  wikuay_join_answer j = wikuay_join_pages(octets, sizeof octets, units, WIKUAY_PAGES_UNITS);
  judge(a.refusal == 0 && a.block.octets[0] == sequence >> 8 && a.block.octets[1] == (sequence & 255) &&
            a.block.octets[2] == identifier >> 8 && a.block.octets[3] == (identifier & 255),
        "wikuay_build_page, sequence", sequence);
  judge(h.sequence == sequence && h.identifier == identifier, "wikuay_read_header, sequence", sequence);
  judge(w.refusal == 0 && w.pages == 1 && w.written == sizeof octets &&
            memcmp(octets, a.block.octets, sizeof octets) == 0,
        "wikuay_write_pages, sequence", sequence);
  judge(j.refusal == 0 && j.pages == 1 && j.written == 1 && units[0] == 0x0041 && j.sequence == sequence &&
            j.identifier == identifier,
        "wikuay_join_pages, sequence", sequence);
}

/* A page parameter is told as it stands, and a lone block joins where it says page 1 of 1. So many octets of blocks are
   refused 4 where they are not whole blocks. */
static void parameter(uint8_t octet) {
  static const uint16_t text[] = {0x0041};
  wikuay_block block = wikuay_build_page(1, 2, wikuay_plain(), text, 1, 1).block;
  uint8_t blocks[256];
  uint16_t units[WIKUAY_BROADCAST_SEPTETS];
  wikuay_block_header h;
  wikuay_join_answer j;
  memset(units, 0xA5, sizeof units);
  block.octets[5] = octet;
  h = wikuay_read_header(block);
  judge(h.total == octet % 16 && h.number == octet / 16, "wikuay_read_header, page parameter", octet);
  j = wikuay_join_pages(block.octets, sizeof block.octets, units, WIKUAY_BROADCAST_SEPTETS);
  judge(octet == 0x11 ? j.refusal == 0 && j.written == 1 && all_are(units + 1, sizeof units - 2, 0xA5)
                      : join_refused(j, WIKUAY_REFUSED_WRONG_PAGES) && all_are(units, sizeof units, 0xA5),
        "wikuay_join_pages, page parameter", octet);
  memset(blocks, 0, sizeof blocks);
  memset(units, 0xA5, sizeof units);
  j = wikuay_join_pages(blocks, octet, units, WIKUAY_BROADCAST_SEPTETS);
  judge(join_refused(j, octet % WIKUAY_BLOCK_OCTETS ? WIKUAY_REFUSED_WRONG_LENGTH : WIKUAY_REFUSED_WRONG_PAGES) &&
            all_are(units, sizeof units, 0xA5),
        "wikuay_join_pages, length", octet);
}

/* The largest message takes exactly the room that the header gives, there and back. */
static void largest(void) {
  static uint16_t text[WIKUAY_PAGES_UNITS + 1], units[WIKUAY_PAGES_UNITS];
  static uint8_t octets[WIKUAY_PAGES_OCTETS];
  const size_t most = WIKUAY_PAGES_UNITS;
  wikuay_pages_answer w;
  wikuay_join_answer j;
  size_t at;
  for (at = 0; at <= most; at++) text[at] = 'A';
  judge(pages_refused(wikuay_count_pages(wikuay_plain(), text, most + 1), WIKUAY_REFUSED_TOO_LONG), "over 15 pages",
        (unsigned long)most + 1);
  w = wikuay_write_pages(1, 2, wikuay_plain(), text, most, octets, sizeof octets - 1);
  judge(pages_refused(w, WIKUAY_REFUSED_NO_ROOM), "wikuay_write_pages, room", sizeof octets - 1);
  w = wikuay_write_pages(1, 2, wikuay_plain(), text, most, octets, sizeof octets);
  judge(w.refusal == 0 && w.pages == WIKUAY_MOST_PAGES && w.written == sizeof octets, "wikuay_write_pages, room",
        sizeof octets);
  j = wikuay_join_pages(octets, sizeof octets, units, most - 1);
  judge(join_refused(j, WIKUAY_REFUSED_NO_ROOM), "wikuay_join_pages, room", (unsigned long)most - 1);
  j = wikuay_join_pages(octets, sizeof octets, units, most);
  judge(j.refusal == 0 && j.pages == WIKUAY_MOST_PAGES && j.written == most && memcmp(units, text, sizeof units) == 0,
        "wikuay_join_pages, room", (unsigned long)most);
}

/* ---- Parts of a short message. */

/* Part 1 of 2, with the reference C7 and one letter, A: seven septets of header, and one. */
static const uint8_t one_part[] = {5, 0, 3, 0xC7, 2, 1, 0x82};

/* A mark that is neither 0 nor 1 is refused 8 before all else: also where the coding is compressed and the count is
   wrong. Without the mark the header's own octets are text. */
static void mark(uint8_t number) {
  uint16_t units[WIKUAY_MOST_UNITS];
  wikuay_part_answer a;
  memset(units, 0xA5, sizeof units);
  a = wikuay_read_part(0x24, 99, number, one_part, sizeof one_part, units, 0);
  judge(part_refused(a, number > 1 ? WIKUAY_REFUSED_UNWRITABLE : WIKUAY_REFUSED_COMPRESSED), "wikuay_read_part, mark",
        number);
  a = wikuay_read_part(0, 99, number, one_part, sizeof one_part, units, 0);
  judge(part_refused(a, number > 1 ? WIKUAY_REFUSED_UNWRITABLE : WIKUAY_REFUSED_WRONG_LENGTH), "wikuay_read_part, mark",
        number);
  judge(all_are(units, sizeof units, 0xA5), "a buffer is touched under mark", number);
  a = wikuay_read_part(0, 8, number, one_part, sizeof one_part, units, WIKUAY_MOST_UNITS);
  if (number > 1)
    judge(part_refused(a, WIKUAY_REFUSED_UNWRITABLE) && all_are(units, sizeof units, 0xA5), "wikuay_read_part, mark",
          number);
  else if (number == 1)
    judge(a.refusal == 0 && a.numbered == 1 && a.reference == 0xC7 && a.total == 2 && a.number == 1 &&
              a.position == 0 && a.written == 1 && same(a.reading, wikuay_plain()) && units[0] == 'A' &&
              all_are(units + 1, sizeof units - 2, 0xA5),
          "wikuay_read_part, mark", number);
  else
    judge(a.refusal == 0 && a.numbered == 0 && a.reference == 0 && a.total == 0 && a.number == 0 && a.written == 8 &&
              units[0] == 0x00E9 && all_are(units + 8, sizeof units - 16, 0xA5),
          "wikuay_read_part, mark", number);
}

/* A coding octet: without the mark a part is read as a short message, and with it the same codings hold text. */
static void part_coding(uint8_t coding) {
  static const uint8_t message[] = {0x41, 0x21}, lone[] = {5, 0, 3, 0xC7, 1, 1, 0};
  const wikuay_read_answer told = wikuay_read_coding(WIKUAY_SHORT_MESSAGE, coding);
  /* The header alone: 6 octets, or 7 septets, which take 7 octets. */
  const size_t count = told.reading.alphabet == WIKUAY_UCS2 ? 6 : 7;
  const uint8_t counts[] = {(uint8_t)count};
  uint16_t units[2], as_message[2];
  wikuay_read_answer r;
  wikuay_part_answer a;
  wikuay_parts_join_answer j;
  memset(units, 0xA5, sizeof units);
  memset(as_message, 0xA5, sizeof as_message);
  r = wikuay_read_message(WIKUAY_SHORT_MESSAGE, coding, 2, message, 2, as_message, 2);
  a = wikuay_read_part(coding, 2, 0, message, 2, units, 2);
  judge(a.refusal == r.refusal && a.position == r.position && a.written == r.written && same(a.reading, r.reading) &&
            a.numbered == 0 && a.reference == 0 && a.total == 0 && a.number == 0 &&
            memcmp(units, as_message, sizeof units) == 0,
        "wikuay_read_part without the mark, coding", coding);
  a = wikuay_read_part(coding, count, 1, lone, count, units, 2);
  j = wikuay_join_parts(coding, counts, 1, lone, count, units, 2);
  if (r.refusal != 0)
    judge(part_refused(a, r.refusal) && parts_join_refused(j, r.refusal), "parts, coding", coding);
  else
    judge(a.refusal == 0 && a.written == 0 && a.numbered == 1 && same(a.reading, told.reading) && j.refusal == 0 &&
              j.parts == 1 && j.written == 0 && j.reference == 0xC7 && same(j.reading, told.reading),
          "parts, coding", coding);
  judge(memcmp(units, as_message, sizeof units) == 0, "a buffer is touched under coding", coding);
}

/* A total and a number are told as they stand, and a lone part joins where they say part 1 of 1. */
static void stated(uint8_t total, uint8_t number) {
  const unsigned long both = 256ul * total + number;
  static const uint8_t counts[] = {8};
  uint8_t octets[sizeof one_part];
  uint16_t units[2];
  wikuay_part_answer a;
  wikuay_parts_join_answer j;
  memcpy(octets, one_part, sizeof octets);
  octets[4] = total, octets[5] = number;
  memset(units, 0xA5, sizeof units);
  a = wikuay_read_part(0, 8, 1, octets, sizeof octets, units, 1);
  judge(a.refusal == 0 && a.numbered == 1 && a.reference == 0xC7 && a.total == total && a.number == number &&
            a.written == 1 && units[0] == 'A' && all_are(units + 1, 2, 0xA5),
        "wikuay_read_part, total and number", both);
  memset(units, 0xA5, sizeof units);
  j = wikuay_join_parts(0, counts, 1, octets, sizeof octets, units, 1);
  if (total == 1 && number == 1)
    judge(j.refusal == 0 && j.parts == 1 && j.reference == 0xC7 && j.written == 1 && units[0] == 'A' &&
              all_are(units + 1, 2, 0xA5),
          "wikuay_join_parts, total and number", both);
  else
    judge(parts_join_refused(j, WIKUAY_REFUSED_WRONG_PAGES) && all_are(units, sizeof units, 0xA5),
          "wikuay_join_parts, total and number", both);
}

/* A reference comes back from every call that tells it, and stands in every part. */
static void reference(uint8_t number) {
  uint16_t text[WIKUAY_SHORT_MESSAGE_SEPTETS + 1], units[WIKUAY_SHORT_MESSAGE_SEPTETS + 1];
  uint8_t octets[2 * WIKUAY_SHORT_MESSAGE_OCTETS], sizes[4], counts[2];
  wikuay_parts_answer w;
  wikuay_part_answer a;
  wikuay_parts_join_answer j;
  size_t at;
  for (at = 0; at <= WIKUAY_SHORT_MESSAGE_SEPTETS; at++) text[at] = 'A';
  w = wikuay_write_parts(wikuay_plain(), number, text, at, octets, sizeof octets, sizes, sizeof sizes);
  judge(w.refusal == 0 && w.parts == 2 && octets[3] == number && octets[sizes[1] + 3] == number,
        "wikuay_write_parts, reference", number);
  a = wikuay_read_part(w.coding, sizes[2], w.mark, octets + sizes[1], sizes[3], units, at);
  judge(a.refusal == 0 && a.numbered == 1 && a.reference == number && a.total == 2 && a.number == 2,
        "wikuay_read_part, reference", number);
  counts[0] = sizes[0], counts[1] = sizes[2];
  j = wikuay_join_parts(w.coding, counts, 2, octets, w.written, units, at);
  judge(j.refusal == 0 && j.reference == number && j.written == at, "wikuay_join_parts, reference", number);
  /* In one part it is not the reference of another. */
  octets[3] = (uint8_t)(number + 1);
  j = wikuay_join_parts(w.coding, counts, 2, octets, w.written, units, at);
  judge(parts_join_refused(j, WIKUAY_REFUSED_WRONG_PAGES), "wikuay_join_parts, references", number);
}

/* Part n of a message of two parts: 1 and 2 are written, and any other is refused 10. */
static void part_number(size_t n) {
  uint16_t text[WIKUAY_SHORT_MESSAGE_UNITS + 1];
  uint8_t octets[WIKUAY_SHORT_MESSAGE_OCTETS];
  wikuay_reading reading = wikuay_plain();
  wikuay_parts_answer a;
  size_t at, held = n == 1 ? WIKUAY_PART_UNITS : WIKUAY_SHORT_MESSAGE_UNITS + 1 - WIKUAY_PART_UNITS;
  for (at = 0; at <= WIKUAY_SHORT_MESSAGE_UNITS; at++) text[at] = 0x4E2D;
  memset(octets, 0xA5, sizeof octets);
  reading.alphabet = WIKUAY_UCS2;
  a = wikuay_write_part(reading, 9, text, at, n, octets, sizeof octets);
  if (n < 1 || 2 < n)
    judge(parts_refused(a, WIKUAY_REFUSED_WRONG_PAGES) && all_are(octets, sizeof octets, 0xA5),
          "wikuay_write_part, number", (unsigned long)n);
  else
    judge(a.refusal == 0 && a.parts == 2 && a.mark == 1 && a.coding == 8 && a.written == 6 + 2 * held &&
              a.count == a.written && octets[4] == 2 && octets[5] == n &&
              all_are(octets + a.written, sizeof octets - a.written, 0xA5),
          "wikuay_write_part, number", (unsigned long)n);
}

/* A count of joined parts. Over 160 it is 4. Zeros are a header without an element, which takes two septets of the
   count: no such part is 12, and one that has no numbers is 10. */
static void part_count(uint8_t count) {
  static const uint8_t zeros[256] = {0};
  const size_t octets = ((size_t)7 * count + 7) / 8;
  const uint32_t refusal = count > WIKUAY_SHORT_MESSAGE_SEPTETS ? WIKUAY_REFUSED_WRONG_LENGTH
                           : count < 2                          ? WIKUAY_REFUSED_WRONG_HEADER
                                                                : WIKUAY_REFUSED_WRONG_PAGES;
  uint16_t units[WIKUAY_MOST_UNITS];
  memset(units, 0xA5, sizeof units);
  judge(parts_join_refused(wikuay_join_parts(0, &count, 1, zeros, octets, units, WIKUAY_MOST_UNITS), refusal),
        "wikuay_join_parts, count", count);
  judge(parts_join_refused(wikuay_join_parts(0, &count, 1, zeros, octets + 1, units, WIKUAY_MOST_UNITS),
                           WIKUAY_REFUSED_WRONG_LENGTH),
        "wikuay_join_parts, an octet more than the count", count);
  judge(all_are(units, sizeof units, 0xA5), "a buffer is touched under count", count);
}

/* A count of one part of 140 octets, all zero: 159 and 160 ask so many, and two septets are the header's. */
static void read_count(size_t count) {
  static const uint8_t zeros[WIKUAY_SHORT_MESSAGE_OCTETS] = {0};
  uint16_t units[WIKUAY_SHORT_MESSAGE_SEPTETS];
  wikuay_part_answer a;
  size_t at;
  memset(units, 0xA5, sizeof units);
  a = wikuay_read_part(0, count, 1, zeros, sizeof zeros, units, WIKUAY_SHORT_MESSAGE_SEPTETS);
  if (count != 159 && count != 160) {
    judge(part_refused(a, WIKUAY_REFUSED_WRONG_LENGTH) && all_are(units, sizeof units, 0xA5), "wikuay_read_part, count",
          (unsigned long)count);
    return;
  }
  for (at = 0; at < count - 2 && units[at] == '@'; at++) {
  }
  judge(a.refusal == 0 && a.numbered == 0 && a.written == count - 2 && at == count - 2 &&
            all_are(units + at, sizeof units - 2 * at, 0xA5),
        "wikuay_read_part, count", (unsigned long)count);
  judge(part_refused(wikuay_read_part(0, count, 1, zeros, sizeof zeros, units, count - 3), WIKUAY_REFUSED_NO_ROOM),
        "wikuay_read_part, room", (unsigned long)count - 3);
}

/* ---- Long messages. */

enum { LETTERS, ACCENTS, EXTENSIONS, UNITS, KINDS };

static uint16_t long_text[WIKUAY_PARTS_UNITS + 2], joined_text[WIKUAY_PARTS_UNITS + 1];
static uint8_t text_septets[WIKUAY_PARTS_UNITS + 1];
static uint8_t all_parts[WIKUAY_PARTS_OCTETS + 1], all_sizes[WIKUAY_PARTS_SIZES + 1];
static uint8_t moved_parts[WIKUAY_PARTS_OCTETS], moved_counts[WIKUAY_MOST_PARTS];

/* A text of so many septets, or units of UCS2. Answers how many units it has. Extension letters take two septets, and
   an odd number of septets begins with a letter: so escapes end parts of odd numbers, or of even ones. */
static size_t make_text(int kind, size_t length) {
  static const uint16_t accents[] = {0x00E9, 0x00C7, 0x0394, 0x0040, 0x00E0, 0x03A9, 0x00BF};
  static const uint16_t extensions[] = {'[', 0x20AC, '}', '\\', '~', '^', '|', ']', '{', 0x000C, 0x20AC};
  size_t at, units = kind == EXTENSIONS ? (length + 1) / 2 : length;
  for (at = 0; at < units; at++)
    long_text[at] = kind == LETTERS      ? (uint16_t)('a' + at % 26)
               : kind == ACCENTS    ? accents[at % 7]
               : kind == EXTENSIONS ? extensions[at % 11]
                                    : (uint16_t)(40503 * at);
  if (kind == EXTENSIONS && length % 2 == 1) long_text[0] = 'a';
  return units;
}

static wikuay_reading reading_for(int kind) {
  wikuay_reading reading = wikuay_plain();
  if (kind == UNITS) reading.alphabet = WIKUAY_UCS2;
  return reading;
}

/* What stands behind the header of a part, from this septet or unit of the text on: so many, and the spare bits 0. */
static int holds(int kind, const uint8_t *octets, size_t octets_len, size_t count, size_t from, size_t many) {
  uint8_t septets[WIKUAY_SHORT_MESSAGE_SEPTETS];
  size_t at;
  if (kind == UNITS) {
    for (at = 0; at < many; at++)
      if (octets[6 + 2 * at] << 8 != (long_text[from + at] & 0xFF00) ||
          octets[7 + 2 * at] != (long_text[from + at] & 0xFF))
        return 0;
    return octets_len == 6 + 2 * many;
  }
  if (wikuay_unpack(WIKUAY_SHORT_MESSAGE, octets, octets_len, count, septets, sizeof septets).written != 7 + many)
    return 0;
  if (7 * count % 8 != 0 && octets[octets_len - 1] >> (7 * count % 8) != 0) return 0;
  return (octets[6] & 1) == 0 && memcmp(septets + 7, text_septets + from, many) == 0;
}

/* Part k, counted from 0, of what wikuay_write_parts wrote: it has the header and the text of that part, its sizes say
   so, wikuay_write_part writes the same, and wikuay_read_part reads it. */
static void long_part(int kind, size_t units, size_t parts, size_t k, size_t many, unsigned long length) {
  const size_t room = kind == UNITS ? WIKUAY_PART_UNITS : WIKUAY_PART_SEPTETS;
  const size_t count = kind == UNITS ? 6 + 2 * many : 7 + many, octets = kind == UNITS ? count : (7 * count + 7) / 8;
  const uint8_t *here = all_parts + WIKUAY_SHORT_MESSAGE_OCTETS * k;
  const uint8_t header[] = {5, 0, 3, 0xC7, (uint8_t)parts, (uint8_t)(k + 1)};
  uint8_t one[WIKUAY_SHORT_MESSAGE_OCTETS + 1];
  uint16_t read[WIKUAY_SHORT_MESSAGE_SEPTETS];
  wikuay_parts_answer a;
  wikuay_part_answer r;
  judge(all_sizes[2 * k] == count && all_sizes[2 * k + 1] == octets, "sizes of long parts, length", length);
  judge(memcmp(here, header, sizeof header) == 0, "headers of long parts, length", length);
  judge(holds(kind, here, octets, count, room * k, many), "text of long parts, length", length);
  memset(one, 0xA5, sizeof one);
  a = wikuay_write_part(reading_for(kind), 0xC7, long_text, units, k + 1, one, octets - 1);
  judge(parts_refused(a, WIKUAY_REFUSED_NO_ROOM) && all_are(one, sizeof one, 0xA5),
        "wikuay_write_part, no room, length", length);
  a = wikuay_write_part(reading_for(kind), 0xC7, long_text, units, k + 1, one, octets);
  judge(a.refusal == 0 && a.parts == parts && a.position == 0 && a.written == octets && a.count == count &&
            a.mark == 1 && a.coding == (kind == UNITS ? 8 : 0),
        "wikuay_write_part, length", length);
  judge(memcmp(one, here, octets) == 0 && all_are(one + octets, sizeof one - octets, 0xA5),
        "wikuay_write_part against wikuay_write_parts, length", length);
  memset(read, 0xA5, sizeof read);
  r = wikuay_read_part(a.coding, a.count, a.mark, here, octets, read, WIKUAY_SHORT_MESSAGE_SEPTETS);
  judge(r.refusal == 0 && r.numbered == 1 && r.reference == 0xC7 && r.total == parts && r.number == k + 1 &&
            same(r.reading, reading_for(kind)) && all_are(read + r.written, sizeof read - 2 * r.written, 0xA5),
        "wikuay_read_part, length", length);
  /* Extension letters may be cut in two. */
  judge(kind == EXTENSIONS ? r.written >= many / 2 && r.written <= many / 2 + 1
                           : r.written == many && memcmp(read, long_text + room * k, 2 * many) == 0,
        "wikuay_read_part, text, length", length);
}

/* Joins the parts with the one of place (step * i + start) mod parts as the i-th, into one less than the room of the
   text, into exactly that, and into one more. */
static void joined_in_order(int kind, size_t units, size_t parts, size_t step, size_t start, unsigned long length) {
  size_t i, room, used = 0;
  wikuay_parts_join_answer j;
  for (i = 0; i < parts; i++) {
    size_t k = (step * i + start) % parts;
    memcpy(moved_parts + used, all_parts + WIKUAY_SHORT_MESSAGE_OCTETS * k, all_sizes[2 * k + 1]);
    moved_counts[i] = all_sizes[2 * k];
    used += all_sizes[2 * k + 1];
  }
  memset(joined_text, 0xA5, sizeof joined_text);
  j = wikuay_join_parts(kind == UNITS ? 8 : 0, moved_counts, parts, moved_parts, used, joined_text, units - 1);
  judge(parts_join_refused(j, WIKUAY_REFUSED_NO_ROOM) && all_are(joined_text, sizeof joined_text, 0xA5),
        "wikuay_join_parts, no room, length", length);
  for (room = units; room <= units + 1; room++) {
    memset(joined_text, 0xA5, sizeof joined_text);
    j = wikuay_join_parts(kind == UNITS ? 8 : 0, moved_counts, parts, moved_parts, used, joined_text, room);
    judge(j.refusal == 0 && j.parts == parts && j.position == 0 && j.written == units && j.reference == 0xC7 &&
              same(j.reading, reading_for(kind)),
          "wikuay_join_parts, length", length);
    judge(memcmp(joined_text, long_text, 2 * units) == 0 &&
              all_are(joined_text + units, sizeof joined_text - 2 * units, 0xA5),
          "wikuay_join_parts, text, length", length);
  }
  /* Without the part that is the last here, and with the first one numbered as the second. */
  memset(joined_text, 0xA5, sizeof joined_text);
  j = wikuay_join_parts(kind == UNITS ? 8 : 0, moved_counts, parts - 1, moved_parts,
                        used - all_sizes[2 * ((step * (parts - 1) + start) % parts) + 1], joined_text, units);
  judge(parts_join_refused(j, WIKUAY_REFUSED_WRONG_PAGES), "wikuay_join_parts, one part less, length", length);
  moved_parts[5] = moved_parts[all_sizes[2 * (start % parts) + 1] + 5];
  j = wikuay_join_parts(kind == UNITS ? 8 : 0, moved_counts, parts, moved_parts, used, joined_text, units);
  judge(parts_join_refused(j, WIKUAY_REFUSED_WRONG_PAGES), "wikuay_join_parts, a part twice, length", length);
  judge(all_are(joined_text, sizeof joined_text, 0xA5), "a buffer is touched by wrong parts, length", length);
}

/* A message of so many parts, of so many septets or units: all parts against each, and joined in three orders. */
static void long_message(int kind, size_t parts, size_t length) {
  const size_t room = kind == UNITS ? WIKUAY_PART_UNITS : WIKUAY_PART_SEPTETS, last = length - room * (parts - 1);
  const size_t units = make_text(kind, length), count = kind == UNITS ? 6 + 2 * last : 7 + last;
  const size_t octets = WIKUAY_SHORT_MESSAGE_OCTETS * (parts - 1) + (kind == UNITS ? count : (7 * count + 7) / 8);
  const wikuay_reading reading = reading_for(kind);
  wikuay_parts_answer w;
  size_t k;
  if (kind != UNITS)
    judge(wikuay_text_to_septets(long_text, units, text_septets, sizeof text_septets).written == length,
          "septets of a long text", (unsigned long)length);
  w = wikuay_count_parts(reading, long_text, units);
  judge(w.refusal == 0 && w.parts == parts && w.position == 0 && w.written == 0 && w.count == 0 && w.coding == 0 &&
            w.mark == 0,
        "wikuay_count_parts, length", (unsigned long)length);
  memset(all_parts, 0xA5, sizeof all_parts);
  memset(all_sizes, 0xA5, sizeof all_sizes);
  w = wikuay_write_parts(reading, 0xC7, long_text, units, all_parts, octets - 1, all_sizes, 2 * parts);
  judge(parts_refused(w, WIKUAY_REFUSED_NO_ROOM), "wikuay_write_parts, no room, length", (unsigned long)length);
  w = wikuay_write_parts(reading, 0xC7, long_text, units, all_parts, octets, all_sizes, 2 * parts - 1);
  judge(parts_refused(w, WIKUAY_REFUSED_NO_ROOM), "wikuay_write_parts, no room for sizes, length",
        (unsigned long)length);
  judge(all_are(all_parts, sizeof all_parts, 0xA5) && all_are(all_sizes, sizeof all_sizes, 0xA5),
        "a buffer is touched without room, length", (unsigned long)length);
  w = wikuay_write_parts(reading, 0xC7, long_text, units, all_parts, octets, all_sizes, 2 * parts);
  judge(w.refusal == 0 && w.parts == parts && w.position == 0 && w.written == octets && w.count == 0 &&
            w.coding == (kind == UNITS ? 8 : 0) && w.mark == 1,
        "wikuay_write_parts, length", (unsigned long)length);
  judge(all_are(all_parts + octets, sizeof all_parts - octets, 0xA5) &&
            all_are(all_sizes + 2 * parts, sizeof all_sizes - 2 * parts, 0xA5),
        "a buffer is touched behind the parts, length", (unsigned long)length);
  if (w.refusal != 0 || w.written != octets) return;
  for (k = 0; k < parts; k++) long_part(kind, units, parts, k, k + 1 < parts ? room : last, (unsigned long)length);
  joined_in_order(kind, units, parts, 1, 0, (unsigned long)length);
  joined_in_order(kind, units, parts, parts - 1, parts - 1, (unsigned long)length);
  joined_in_order(kind, units, parts, 7, 1, (unsigned long)length);
}

/* A text over 255 parts is refused 5, and 6 where its last unit is unlisted. */
static void too_long(int kind) {
  const size_t most = WIKUAY_MOST_PARTS * (kind == UNITS ? WIKUAY_PART_UNITS : WIKUAY_PART_SEPTETS);
  const size_t units = make_text(kind, most + 1);
  const wikuay_reading reading = reading_for(kind);
  wikuay_parts_answer w;
  memset(all_parts, 0xA5, sizeof all_parts);
  memset(all_sizes, 0xA5, sizeof all_sizes);
  judge(parts_refused(wikuay_count_parts(reading, long_text, units), WIKUAY_REFUSED_TOO_LONG),
        "wikuay_count_parts, over", (unsigned long)most);
  w = wikuay_write_part(reading, 0xC7, long_text, units, 1, all_parts, sizeof all_parts);
  judge(parts_refused(w, WIKUAY_REFUSED_TOO_LONG), "wikuay_write_part, over", (unsigned long)most);
  w = wikuay_write_parts(reading, 0xC7, long_text, units, all_parts, sizeof all_parts, all_sizes, sizeof all_sizes);
  judge(parts_refused(w, WIKUAY_REFUSED_TOO_LONG), "wikuay_write_parts, over", (unsigned long)most);
  long_text[units] = 0x4E2D;
  w = wikuay_write_parts(reading, 0xC7, long_text, units + 1, all_parts, sizeof all_parts, all_sizes, sizeof all_sizes);
  judge(kind == UNITS ? parts_refused(w, WIKUAY_REFUSED_TOO_LONG)
                      : w.refusal == WIKUAY_REFUSED_UNLISTED && w.position == units,
        "wikuay_write_parts, unlisted and over", (unsigned long)most);
  judge(all_are(all_parts, sizeof all_parts, 0xA5) && all_are(all_sizes, sizeof all_sizes, 0xA5),
        "a buffer is touched by a text over 255 parts", (unsigned long)most);
}

/* A text that fits alone is one part, without a header, and is what wikuay_write_message writes. */
static void alone(int kind, size_t length) {
  const size_t units = make_text(kind, length);
  const wikuay_reading reading = reading_for(kind);
  uint8_t octets[WIKUAY_SHORT_MESSAGE_OCTETS];
  const wikuay_answer m =
      wikuay_write_message(WIKUAY_SHORT_MESSAGE, reading, long_text, units, octets, sizeof octets);
  wikuay_parts_answer w;
  memset(all_parts, 0xA5, sizeof all_parts);
  memset(all_sizes, 0xA5, sizeof all_sizes);
  judge(wikuay_count_parts(reading, long_text, units).parts == 1, "wikuay_count_parts, alone", (unsigned long)length);
  w = wikuay_write_parts(reading, 0xC7, long_text, units, all_parts, m.written, all_sizes, 2);
  judge(m.refusal == 0 && w.refusal == 0 && w.parts == 1 && w.mark == 0 && w.coding == m.coding &&
            w.written == m.written && all_sizes[0] == m.count && all_sizes[1] == m.written &&
            memcmp(all_parts, octets, m.written) == 0 &&
            all_are(all_parts + m.written, sizeof all_parts - m.written, 0xA5) &&
            all_are(all_sizes + 2, sizeof all_sizes - 2, 0xA5),
        "wikuay_write_parts, alone", (unsigned long)length);
  memset(all_parts, 0xA5, sizeof all_parts);
  w = wikuay_write_part(reading, 0xC7, long_text, units, 1, all_parts, m.written);
  judge(w.refusal == 0 && w.parts == 1 && w.mark == 0 && w.coding == m.coding && w.written == m.written &&
            w.count == m.count && memcmp(all_parts, octets, m.written) == 0 &&
            all_are(all_parts + m.written, sizeof all_parts - m.written, 0xA5),
        "wikuay_write_part, alone", (unsigned long)length);
}

/* Both ends of each number of parts: the shortest text that takes so many, and the longest. */
static void long_messages(void) {
  static const size_t several[] = {2, 3, 12, 254, 255};
  int kind;
  size_t i;
  for (kind = LETTERS; kind < KINDS; kind++) {
    const size_t room = kind == UNITS ? WIKUAY_PART_UNITS : WIKUAY_PART_SEPTETS;
    const size_t most = kind == UNITS ? WIKUAY_SHORT_MESSAGE_UNITS : WIKUAY_SHORT_MESSAGE_SEPTETS;
    for (i = 0; i <= most; i++) alone(kind, i);
    long_message(kind, 2, most + 1);
    for (i = 0; i < sizeof several / sizeof several[0]; i++) {
      if (several[i] > 2) long_message(kind, several[i], room * (several[i] - 1) + 1);
      long_message(kind, several[i], room * several[i]);
    }
    too_long(kind);
  }
}

/* Whether a number is that of a notice, by the sums of the header. */
static int is_notice(unsigned long number) {
  static const unsigned long kept[] = {WIKUAY_DISCARD, WIKUAY_STORE}, active[] = {0, WIKUAY_ACTIVE},
                             kind[] = {WIKUAY_VOICEMAIL, WIKUAY_FAX, WIKUAY_MAIL, WIKUAY_OTHER};
  int i, j, k;
  for (i = 0; i < 2; i++)
    for (j = 0; j < 2; j++)
      for (k = 0; k < 4; k++)
        if (number == kept[i] + active[j] + kind[k]) return 1;
  return number == WIKUAY_NO_NOTICE;
}

static const int64_t sizes[] = {WIKUAY_SHORT_MESSAGE_SEPTETS, WIKUAY_BROADCAST_SEPTETS, WIKUAY_USSD_SEPTETS,
                                WIKUAY_OLD_PAGE_SEPTETS};

/* A key that moves the sum by so many septets, or by none where the unit is unlisted. */
static int moved(wikuay_meter_answer a, wikuay_meter m, int64_t septets) {
  int64_t sum = (int64_t)m.used + septets;
  if (septets == 0) return metered(a, WIKUAY_REFUSED_UNLISTED, sizes[m.service] - m.used, m.service, m.used);
  if (sum < 0 || WIKUAY_METER_SEPTETS < sum)
    return metered(a, WIKUAY_REFUSED_TOO_LONG, sizes[m.service] - m.used, m.service, m.used);
  return metered(a, 0, sizes[m.service] - sum, m.service, (uint32_t)sum);
}

/* A key in place leaves the record that it answers. */
static int left_as(wikuay_meter_answer a, wikuay_meter kept) {
  return kept.service == a.meter.service && kept.used == a.meter.used;
}

/* A unit on a record, by the septets that writing it gives. */
static void pressed(uint32_t service, uint32_t used, uint16_t unit) {
  uint8_t septets[2];
  wikuay_meter meter, kept;
  wikuay_meter_answer a;
  int64_t count = (int64_t)wikuay_text_to_septets(&unit, 1, septets, 2).written;
  meter.service = service, meter.used = used;
  judge(moved(wikuay_unit_added(meter, unit), meter, count), "wikuay_unit_added, unit", unit);
  judge(moved(wikuay_unit_taken_back(meter, unit), meter, -count), "wikuay_unit_taken_back, unit", unit);
  kept = meter, a = wikuay_add_unit(&kept, unit);
  judge(moved(a, meter, count) && left_as(a, kept), "wikuay_add_unit, unit", unit);
  kept = meter, a = wikuay_take_back_unit(&kept, unit);
  judge(moved(a, meter, -count) && left_as(a, kept), "wikuay_take_back_unit, unit", unit);
}

/* A record: what it shows, and each kind of unit on it. */
static void recorded(uint32_t used) {
  uint32_t service;
  for (service = WIKUAY_SHORT_MESSAGE; service <= WIKUAY_OLD_PAGE; service++) {
    wikuay_meter meter;
    meter.service = service, meter.used = used;
    judge(metered(wikuay_room_left(meter), 0, sizes[service] - used, service, used), "wikuay_room_left, used", used);
    judge(metered(wikuay_meter_cleared(meter), 0, sizes[service], service, 0), "wikuay_meter_cleared, used", used);
    pressed(service, used, 0x0041);
    pressed(service, used, 0x20AC);
    pressed(service, used, 0x4E2D);
  }
}

/* Keys by chance, in place: the number must be the size less the septets of the text, counted afresh at each key, and
   below zero exactly where the writer refuses the text with 5. An old page is not written. */
static void typed(uint32_t service, unsigned long seed) {
  static const uint16_t keys[] = {0x0041, 0x0020, 0x000D, 0x20AC, 0x005B, 0x000C, 0x4E2D, 0x0060};
  static uint16_t text[400];
  static uint8_t septets[2 * 400];
  uint8_t octets[WIKUAY_MOST_OCTETS];
  size_t length = 0;
  wikuay_meter meter = wikuay_new_meter(service).meter;
  unsigned long turn;
  for (turn = 0; turn < 3000; turn++) {
    unsigned long draw;
    wikuay_meter_answer a;
    wikuay_answer count, sent;
    seed = (seed * 1103515245UL + 12345UL) & 0x7FFFFFFFUL;
    draw = seed >> 12;
    if (draw % 701 == 0) {
      a = wikuay_clear_meter(&meter);
      length = 0;
    } else if ((draw % 5 < 2 || length == 400) && length) {
      a = wikuay_take_back_unit(&meter, text[length - 1]);
      length--;
    } else {
      text[length] = keys[draw / 5 % 8];
      a = wikuay_add_unit(&meter, text[length]);
      if (a.refusal == 0) length++;
    }
    count = wikuay_text_to_septets(text, length, septets, sizeof septets);
    judge(count.refusal == 0 && (a.refusal == 0 || a.refusal == WIKUAY_REFUSED_UNLISTED), "typed, turn", turn);
    judge(left_as(a, meter) && a.left == sizes[service] - (int64_t)count.written, "counted afresh, turn", turn);
    if (service == WIKUAY_OLD_PAGE) continue;
    sent = wikuay_write_message(service, wikuay_plain(), text, length, octets, sizeof octets);
    judge((a.left < 0) == (sent.refusal == WIKUAY_REFUSED_TOO_LONG), "typed and written, turn", turn);
  }
}

int main(void) {
  unsigned long number;
  uint32_t service;
  wikuay_reading r;
  judge(wikuay_version() == WIKUAY_VERSION_NUMBER, "version", wikuay_version());
  for (number = 4; number < 5000; number++) no_service((uint32_t)number);
  for (number = 12; number < 32; number++) no_service((uint32_t)1 << number);
  no_service(UINT32_MAX);
  for (number = 0; number < 256; number++) {
    r = wikuay_plain(), r.alphabet = (uint8_t)number;
    field(r, number <= WIKUAY_I1, "alphabet", number);
    r = wikuay_plain(), r.compressed = (uint8_t)number;
    field(r, number <= 1, "compressed", number);
    r = wikuay_plain(), r.message_class = (uint8_t)number;
    field(r, number <= WIKUAY_USER_DEFINED_2, "message_class", number);
    r = wikuay_plain(), r.language = (uint8_t)number;
    field(r, number <= WIKUAY_ICELANDIC, "language", number);
    r = wikuay_plain(), r.deletion = (uint8_t)number;
    field(r, number <= 1, "deletion", number);
    r = wikuay_plain(), r.prefix = (uint8_t)number;
    field(r, number <= 1, "prefix", number);
    r = wikuay_plain(), r.reserved = (uint8_t)number;
    field(r, number <= 1, "reserved", number);
    r = wikuay_plain(), r.header = (uint8_t)number;
    field(r, number <= 1, "header", number);
  }
  for (number = 0; number < 65536; number++) {
    r = wikuay_plain(), r.notice = (uint16_t)number;
    field(r, is_notice(number), "notice", number);
    r = wikuay_plain();
    letters(r, number);
    r.alphabet = WIKUAY_UCS2;
    letters(r, number);
    pair((uint16_t)number, (uint16_t)(65535 - number));
  }
  for (number = 0; number < 65536; number++)
    for (service = WIKUAY_SHORT_MESSAGE; service <= WIKUAY_OLD_PAGE; service++) pressed(service, 90, (uint16_t)number);
  for (number = 0; number < 300; number++) recorded((uint32_t)number);
  for (number = 65500; number < 65600; number++) recorded((uint32_t)number);
  for (number = 9; number < 32; number++) recorded((uint32_t)1 << number), recorded(((uint32_t)1 << number) + 1);
  recorded(UINT32_MAX), recorded(UINT32_MAX - 1);
  for (service = WIKUAY_SHORT_MESSAGE; service <= WIKUAY_OLD_PAGE; service++)
    for (number = 0; number < 20; number++) typed(service, 23038 + number);
  for (number = 0; number < 300; number++) page_number(number);
  for (number = 9; number < 64; number++) page_number((size_t)1 << number), page_number(((size_t)1 << number) + 1);
  page_number(SIZE_MAX);
  largest();
  for (number = 0; number < 256; number++) {
    mark((uint8_t)number);
    part_coding((uint8_t)number);
    reference((uint8_t)number);
    part_count((uint8_t)number);
  }
  for (number = 0; number < 65536; number++) stated((uint8_t)(number >> 8), (uint8_t)number);
  for (number = 0; number < 300; number++) part_number(number), read_count(number);
  for (number = 9; number < 64; number++) {
    part_number((size_t)1 << number), part_number(((size_t)1 << number) + 1);
    read_count((size_t)1 << number), read_count(((size_t)1 << number) + 160);
  }
  part_number(SIZE_MAX), read_count(SIZE_MAX);
  long_messages();
  for (number = 0; number < 256; number++) parameter((uint8_t)number);
  /* What an octet says, written again, is an octet that is no larger and says the same. */
  for (service = WIKUAY_SHORT_MESSAGE; service <= WIKUAY_USSD; service++)
    for (number = 0; number < 256; number++) {
      wikuay_read_answer read = wikuay_read_coding(service, (uint8_t)number);
      wikuay_answer written = wikuay_write_coding(service, read.reading);
      judge(read.refusal == 0, "wikuay_read_coding", number);
      if (read.reading.reserved)
        judge(is_8(written), "wikuay_write_coding, reserved", number);
      else
        judge(written.refusal == 0 && written.coding <= number &&
                  same(wikuay_read_coding(service, written.coding).reading, read.reading),
              "wikuay_write_coding, smallest", number);
    }
  printf("%lu answers, %lu wrong\n", judged, wrong);
  return wrong != 0;
}
