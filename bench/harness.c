/* The benchmark's harness: gives the same cases to every side, holds each answer to the library's, then measures.

     harness LENGTHS MEASURE SIDE..
     harness repeat TIMES

   LENGTHS is `listed` or `all` (every length that the service holds). MEASURE is `count` (x86-64 instructions, and the
   library's stack) or `time`. It prints one line for each case and side, tab-separated, under a line of headings; a side
   that answers something else than the library is not measured. Progress and differences go to standard error.

   `repeat` writes 160 letters TIMES times over, in three instructions a turn besides the call, for an emulator that counts by
   itself. With TIMES 0 it prints its own count of that call. */
#define _GNU_SOURCE
#include "plain.h"
#include "sides.h"
#include "wikuay.h"
#include <stdio.h>
#include <stdlib.h>
#include <string.h>

enum { ROUNDS = 31, COUNTS = 3, MOST_SIDES = 8 };

static one_case given;
static uint8_t octets[PARTS_OCTETS];
static uint16_t units[PARTS_UNITS];
static uint8_t sizes[PARTS_SIZES];

static void out_to_answer(one_answer *got) {
  if (given.writing) memcpy(got->octets, octets, sizeof octets);
  else memcpy(got->units, units, sizeof units);
}

static const char *nothing_to_load(void) { return NULL; }

/* ---- the library, through its C calls ---- */

static wikuay_answer wrote;
static wikuay_read_answer read;
static wikuay_reading reading;
static wikuay_pages_answer paged;
static wikuay_page_answer built;
static wikuay_join_answer joined;
static wikuay_meter_answer keyed;
static wikuay_parts_answer parted;
static wikuay_part_answer part;
static wikuay_parts_join_answer rejoined;
static size_t number; /* of the page that is built, or the part that is written alone: the last one */
static uint32_t service; /* of one message, as the calls name it */

enum { SEQUENCE = 0x1234, IDENTIFIER = 50, REFERENCE = 0xC7 };

/* Whether the case is one of several pages, or of parts. */
static int is_paged(void) { return given.service == PAGES || given.service == BUILT; }
static int is_parted(void) { return given.service == PARTS || given.service == PART; }

/* How much of a text a page holds, or a part, and a short message by itself. */
static size_t page_room(void) { return given.alphabet == 2 ? 41 : 93; }
static size_t part_room(void) { return given.alphabet == 2 ? 67 : 153; }
static size_t alone_room(void) { return given.alphabet == 2 ? 70 : 160; }

static const char *ours_prepare(const one_case *c) {
  reading = wikuay_plain();
  reading.alphabet = c->alphabet;
  service = c->service;
  if (c->service == LETTERED) {
    service = WIKUAY_BROADCAST;
    reading.prefix = 1;
    reading.first_letter = 'e';
    reading.second_letter = 'n';
  }
  number = c->length == 0 ? 1 : (c->length + page_room() - 1) / page_room();
  if (c->service == PART) number = c->length <= alone_room() ? 1 : (c->length + part_room() - 1) / part_room();
  return NULL;
}

static void ours_run_pages(void) {
  if (given.service == BUILT) built = wikuay_build_page(SEQUENCE, IDENTIFIER, reading, given.text, given.units, number);
  else if (given.writing) paged = wikuay_write_pages(SEQUENCE, IDENTIFIER, reading, given.text, given.units, octets, PAGES_OCTETS);
  else joined = wikuay_join_pages(given.octets, given.octets_len, units, PAGES_UNITS);
}

static void ours_run(void) {
  if (given.writing) wrote = wikuay_write_message(service, reading, given.text, given.units, octets, ROOM_OCTETS);
  else read = wikuay_read_message(service, given.coding, given.count, given.octets, given.octets_len, units, ROOM_UNITS);
}

/* Every key of a text, each on the record that the one before it left. */
static void ours_run_keys(void) {
  wikuay_meter meter = { WIKUAY_SHORT_MESSAGE, given.writing ? 0 : (uint32_t)given.length };
  for (size_t i = 0; i < given.units; i++) {
    keyed = given.writing ? wikuay_unit_added(meter, given.text[i]) : wikuay_unit_taken_back(meter, given.text[given.units - 1 - i]);
    meter = keyed.meter;
  }
}

static void ours_run_parts(void) {
  if (given.service == PART && given.writing)
    parted = wikuay_write_part(reading, REFERENCE, given.text, given.units, number, octets, ROOM_OCTETS);
  else if (given.service == PART)
    part = wikuay_read_part(given.coding, given.count, given.mark, given.octets, given.octets_len, units, ROOM_UNITS);
  else if (given.writing)
    parted = wikuay_write_parts(reading, REFERENCE, given.text, given.units, octets, PARTS_OCTETS, sizes, PARTS_SIZES);
  else
    rejoined = wikuay_join_parts(given.coding, given.counts, given.parts, given.octets, given.octets_len, units, PARTS_UNITS);
}

static call ours_entry(void) {
  if (given.service == PARTS) return given.writing ? (call)wikuay_write_parts : (call)wikuay_join_parts;
  if (given.service == PART) return given.writing ? (call)wikuay_write_part : (call)wikuay_read_part;
  if (given.service == METER) return given.writing ? (call)wikuay_unit_added : (call)wikuay_unit_taken_back;
  if (given.service == BUILT) return (call)wikuay_build_page;
  if (given.service == PAGES) return given.writing ? (call)wikuay_write_pages : (call)wikuay_join_pages;
  return given.writing ? (call)wikuay_write_message : (call)wikuay_read_message;
}

static void to_answer(one_answer *got, wikuay_answer wrote, wikuay_read_answer read) {
  got->refusal = given.writing ? wrote.refusal : read.refusal;
  got->position = given.writing ? wrote.position : read.position;
  got->written = given.writing ? wrote.written : read.written;
  got->count = given.writing ? wrote.count : 0;
  got->coding = given.writing ? wrote.coding : 0;
  got->numbers = given.writing ? 0 : (uint32_t)read.reading.first_letter << 8 | read.reading.second_letter;
  out_to_answer(got);
}

/* The same of several pages. */
static void pages_to_answer(one_answer *got, wikuay_pages_answer paged, const wikuay_page_answer *built, wikuay_join_answer joined) {
  got->coding = 0;
  got->numbers = 0;
  if (given.service == BUILT) {
    got->refusal = built->refusal;
    got->position = built->position;
    got->count = built->pages;
    got->written = built->refusal == 0 ? BLOCK : 0;
    memcpy(got->octets, built->block.octets, BLOCK);
    return;
  }
  got->refusal = given.writing ? paged.refusal : joined.refusal;
  got->position = given.writing ? paged.position : joined.position;
  got->count = given.writing ? paged.pages : joined.pages;
  got->written = given.writing ? paged.written : joined.written;
  if (!given.writing) {
    got->coding = joined.reading.alphabet;
    got->numbers = (uint32_t)joined.sequence << 16 | joined.identifier;
  }
  out_to_answer(got);
}

/* The same of the last key of a meter. */
static void key_to_answer(one_answer *got, wikuay_meter_answer keyed) {
  got->refusal = keyed.refusal;
  got->position = keyed.position;
  got->count = keyed.meter.used;
  got->numbers = (uint32_t)keyed.left;
  got->coding = (uint8_t)keyed.meter.service;
  got->written = 0;
}

/* The same of parts. */
static void parts_to_answer(one_answer *got, wikuay_parts_answer parted, wikuay_part_answer part, wikuay_parts_join_answer rejoined) {
  if (given.writing) {
    got->refusal = parted.refusal;
    got->position = parted.position;
    got->written = parted.written;
    got->count = parted.parts;
    got->coding = parted.coding;
    got->numbers = parted.count << 8 | parted.mark;
    memcpy(got->sizes, sizes, sizeof sizes);
  } else if (given.service == PART) {
    got->refusal = part.refusal;
    got->position = part.position;
    got->written = part.written;
    got->count = part.numbered;
    got->coding = part.reading.alphabet;
    got->numbers = (uint32_t)part.reference << 16 | (uint32_t)part.total << 8 | part.number;
  } else {
    got->refusal = rejoined.refusal;
    got->position = rejoined.position;
    got->written = rejoined.written;
    got->count = rejoined.parts;
    got->coding = rejoined.reading.alphabet;
    got->numbers = rejoined.reference;
  }
  out_to_answer(got);
}

static void ours_answer(one_answer *got) {
  if (given.service == METER) key_to_answer(got, keyed);
  else if (is_parted()) parts_to_answer(got, parted, part, rejoined);
  else if (is_paged()) pages_to_answer(got, paged, &built, joined);
  else to_answer(got, wrote, read);
}

static const side ours = { "wikuay", nothing_to_load, ours_prepare, ours_run, ours_run_pages, ours_answer, ours_run_keys, ours_run_parts };

/* ---- the plain C loop ---- */

static wikuay_answer plain_wrote;
static wikuay_read_answer plain_got;
static wikuay_pages_answer plain_paged;
static wikuay_page_answer plain_built;
static wikuay_join_answer plain_joined;
static wikuay_meter_answer plain_keyed;
static wikuay_parts_answer plain_parted;
static wikuay_part_answer plain_part;
static wikuay_parts_join_answer plain_rejoined;

static void plain_run_pages(void) {
  if (given.service == BUILT) plain_built = plain_build_page(SEQUENCE, IDENTIFIER, reading, given.text, given.units, number);
  else if (given.writing)
    plain_paged = plain_write_pages(SEQUENCE, IDENTIFIER, reading, given.text, given.units, octets, PAGES_OCTETS);
  else plain_joined = plain_join_pages(given.octets, given.octets_len, units, PAGES_UNITS);
}

static void plain_run(void) {
  if (given.writing) plain_wrote = plain_write(service, reading, given.text, given.units, octets, ROOM_OCTETS);
  else plain_got = plain_read(service, given.coding, given.count, given.octets, given.octets_len, units, ROOM_UNITS);
}

static void plain_run_keys(void) {
  wikuay_meter meter = { WIKUAY_SHORT_MESSAGE, given.writing ? 0 : (uint32_t)given.length };
  for (size_t i = 0; i < given.units; i++) {
    plain_keyed = given.writing ? plain_unit_added(meter, given.text[i]) : plain_unit_taken_back(meter, given.text[given.units - 1 - i]);
    meter = plain_keyed.meter;
  }
}

static void plain_run_parts(void) {
  if (given.service == PART && given.writing)
    plain_parted = plain_write_part(reading, REFERENCE, given.text, given.units, number, octets, ROOM_OCTETS);
  else if (given.service == PART)
    plain_part = plain_read_part(given.coding, given.count, given.mark, given.octets, given.octets_len, units, ROOM_UNITS);
  else if (given.writing)
    plain_parted = plain_write_parts(reading, REFERENCE, given.text, given.units, octets, PARTS_OCTETS, sizes, PARTS_SIZES);
  else
    plain_rejoined = plain_join_parts(given.coding, given.counts, given.parts, given.octets, given.octets_len, units, PARTS_UNITS);
}

static void plain_result(one_answer *got) {
  if (given.service == METER) key_to_answer(got, plain_keyed);
  else if (is_parted()) parts_to_answer(got, plain_parted, plain_part, plain_rejoined);
  else if (is_paged()) pages_to_answer(got, plain_paged, &plain_built, plain_joined);
  else to_answer(got, plain_wrote, plain_got);
}

static const side plain = { "plain", nothing_to_load, ours_prepare, plain_run, plain_run_pages, plain_result, plain_run_keys, plain_run_parts };

/* ---- the plain C loop that searches for a code, of the calls that do ---- */

extern __typeof__(plain_write) search_write;
extern __typeof__(plain_build_page) search_build_page;
extern __typeof__(plain_write_pages) search_write_pages;
extern __typeof__(plain_write_part) search_write_part;
extern __typeof__(plain_write_parts) search_write_parts;
extern __typeof__(plain_unit_added) search_unit_added;
extern __typeof__(plain_unit_taken_back) search_unit_taken_back;

/* It takes long to count, so a few texts do, of those that are all searched for: of 4 and of 20 units, and a whole short message. */
static const char *search_prepare(const one_case *c) {
  int searched = strcmp(c->kind, "extension") == 0 || strcmp(c->kind, "euro") == 0;
  int counted = c->units == 4 || c->units == 20 || (c->units == 80 && c->service == SMS);
  return searched && counted && (c->writing || c->service == METER) ? ours_prepare(c) : "is not searched for here";
}

static void search_run(void) { plain_wrote = search_write(service, reading, given.text, given.units, octets, ROOM_OCTETS); }

static void search_run_pages(void) {
  if (given.service == BUILT) plain_built = search_build_page(SEQUENCE, IDENTIFIER, reading, given.text, given.units, number);
  else plain_paged = search_write_pages(SEQUENCE, IDENTIFIER, reading, given.text, given.units, octets, PAGES_OCTETS);
}

static void search_run_keys(void) {
  wikuay_meter meter = { WIKUAY_SHORT_MESSAGE, given.writing ? 0 : (uint32_t)given.length };
  for (size_t i = 0; i < given.units; i++) {
    plain_keyed = given.writing ? search_unit_added(meter, given.text[i]) : search_unit_taken_back(meter, given.text[given.units - 1 - i]);
    meter = plain_keyed.meter;
  }
}

static void search_run_parts(void) {
  if (given.service == PART) plain_parted = search_write_part(reading, REFERENCE, given.text, given.units, number, octets, ROOM_OCTETS);
  else plain_parted = search_write_parts(reading, REFERENCE, given.text, given.units, octets, PARTS_OCTETS, sizes, PARTS_SIZES);
}

static const side search = { "search", nothing_to_load, search_prepare, search_run, search_run_pages, plain_result, search_run_keys, search_run_parts };

/* ---- the floors: a copy of the message's octets, and for UCS2 the loop that swaps them ---- */

static uint8_t copied[PARTS_OCTETS];

/* The texts of these kinds are refused for their last unit. */
static int is_refused(const char *kind) { return strcmp(kind, "refused") == 0 || strcmp(kind, "circumflex") == 0; }

static const char *copy_prepare(const one_case *c) {
  return is_refused(c->kind) || c->service == BUILT || c->service == METER ? "has no octets here" : NULL;
}

static void copy_run(void) { memcpy(copied, given.octets, given.octets_len); }

static void copy_answer(one_answer *got) {
  /* It gives no text. On writing it has the octets. */
  if (given.writing) {
    got->written = given.octets_len;
    memcpy(got->octets, copied, given.octets_len);
  }
}

static const side copy = { "copy", nothing_to_load, copy_prepare, copy_run, copy_run, copy_answer, NULL, copy_run };

static const char *swap_prepare(const one_case *c) {
  return c->alphabet == 2 && c->service == SMS ? NULL : "is for UCS2 in one message";
}

static void swap_run(void) {
  if (given.writing) plain_swap_out(given.text, given.units, octets);
  else plain_swap_in(given.octets, given.octets_len / 2, units);
}

static void swap_answer(one_answer *got) {
  got->written = given.writing ? 2 * given.units : given.octets_len / 2;
  out_to_answer(got);
}

static const side swap = { "swap", nothing_to_load, swap_prepare, swap_run, NULL, swap_answer, NULL, NULL };

/* ---- one case ---- */

static const side *const every_side[] = { &ours, &plain, &search, &swap, &copy, &peer_libosmocore, &peer_gammu, &peer_wireshark };
static const side *sides[MOST_SIDES];
static int sides_len;
static int timing;
static int plain_differs;
static int counts_len = COUNTS;

static const char *service_name(void) {
  static const char *const names[][2] = {
    { "sms", "sms-ucs2" }, { "page", "" }, { "ussd", "" }, { "pages", "pages-ucs2" }, { "built", "built-ucs2" },
    { "lettered", "lettered-ucs2" }, { "meter", "" }, { "parts", "parts-ucs2" }, { "part", "part-ucs2" },
  };
  return names[given.service][given.alphabet == 2];
}

static call call_of(const side *s) {
  return given.service == METER ? s->run_keys : is_parted() ? s->run_parts : is_paged() ? s->run_pages : s->run;
}

static void run_side(const side *s, one_answer *got) {
  memset(octets, 0xA5, sizeof octets);
  memset(units, 0xA5, sizeof units);
  memset(sizes, 0xA5, sizeof sizes);
  call_of(s)();
  s->answer(got);
}

static void say_answer(const one_answer *a) {
  if (a->refusal != 0) {
    fprintf(stderr, "refusal %u at %zu", (unsigned)a->refusal, a->position);
    return;
  }
  fprintf(stderr, "%zu %s, count %u, the last", a->written, given.writing ? "octets" : "units", (unsigned)a->count);
  for (size_t i = a->written > 3 ? a->written - 3 : 0; i < a->written && i < PARTS_OCTETS; i++)
    fprintf(stderr, given.writing ? " %02X" : " %04X", given.writing ? a->octets[i] : a->units[i]);
}

static int same(const one_answer *a, const one_answer *b) {
  if (a->refusal != b->refusal || a->position != b->position || a->written != b->written) return 0;
  if (a->refusal != 0) return 1;
  if (a->count != b->count || a->coding != b->coding || a->numbers != b->numbers) return 0;
  if (given.service == PARTS && given.writing && memcmp(a->sizes, b->sizes, 2 * a->count) != 0) return 0;
  return given.writing ? memcmp(a->octets, b->octets, a->written) == 0
                       : memcmp(a->units, b->units, a->written * sizeof a->units[0]) == 0;
}

static int by_size(const void *a, const void *b) {
  double x = *(const double *)a, y = *(const double *)b;
  return x < y ? -1 : x > y;
}

static int by_count(const void *a, const void *b) {
  unsigned long x = *(const unsigned long *)a, y = *(const unsigned long *)b;
  return x < y ? -1 : x > y;
}

static void do_case(void) {
  static one_answer expected, got;
  const char *verdict[MOST_SIDES];
  static double ns[MOST_SIDES][ROUNDS], ratio[MOST_SIDES][ROUNDS];

  memset(&expected, 0, sizeof expected);
  ours_prepare(&given);
  run_side(&ours, &expected);
  for (int s = 0; s < sides_len; s++) {
    const char *reason = sides[s]->prepare(&given);
    if (reason != NULL) {
      verdict[s] = "none";
      continue;
    }
    got = expected;
    run_side(sides[s], &got);
    verdict[s] = same(&expected, &got) ? "same" : "differs";
    if (strcmp(verdict[s], "differs") == 0) {
      fprintf(stderr, "bench: differs: %s %s %s %zu: %s answers ", given.writing ? "write" : "read", service_name(), given.kind,
              given.length, sides[s]->name);
      say_answer(&got);
      fprintf(stderr, "; wikuay answers ");
      say_answer(&expected);
      fprintf(stderr, "\n");
      if (sides[s] == &plain || sides[s] == &search) plain_differs = 1;
    }
  }
  if (timing) {
    unsigned long times[MOST_SIDES];
    for (int s = 0; s < sides_len; s++) {
      if (strcmp(verdict[s], "same") != 0) continue;
      sides[s]->prepare(&given);
      times[s] = 16;
      while (times[s] < 1u << 24 && meter_time(call_of(sides[s]), times[s]) * (double)times[s] < 400e3) times[s] *= 2;
    }
    /* The sides take turns in every round, so that what slows the machine slows all of them. */
    for (int r = 0; r < ROUNDS; r++)
      for (int s = 0; s < sides_len; s++) {
        if (strcmp(verdict[s], "same") != 0) continue;
        sides[s]->prepare(&given);
        ns[s][r] = meter_time(call_of(sides[s]), times[s]);
        ratio[s][r] = ns[s][r] / ns[0][r];
      }
  }
  for (int s = 0; s < sides_len; s++) {
    printf("%s\t%s\t%s\t%zu\t%zu\t%s\t%s", given.writing ? "write" : "read", service_name(), given.kind, given.length, given.units,
           sides[s]->name, verdict[s]);
    if (strcmp(verdict[s], "same") != 0) {
      printf(timing ? "\t-\t-\t-\t-\t-\t-\n" : "\t-\t-\n");
      continue;
    }
    sides[s]->prepare(&given);
    if (timing) {
      qsort(ns[s], ROUNDS, sizeof ns[s][0], by_size);
      qsort(ratio[s], ROUNDS, sizeof ratio[s][0], by_size);
      printf("\t%.1f\t%.1f\t%.1f\t%.3f\t%.3f\t%.3f\n", ns[s][ROUNDS / 2], ns[s][ROUNDS / 4], ns[s][ROUNDS * 3 / 4],
             ratio[s][ROUNDS / 2], ratio[s][ROUNDS / 4], ratio[s][ROUNDS * 3 / 4]);
    } else {
      unsigned long counts[COUNTS];
      for (int c = 0; c < counts_len; c++) counts[c] = meter_instructions(call_of(sides[s]));
      qsort(counts, (size_t)counts_len, sizeof counts[0], by_count);
      if (counts[0] != counts[counts_len - 1]) {
        /* A peer that asks for storage depends on what the storage held before: its median stands. */
        fprintf(stderr, "bench: %s: the count varies from %lu to %lu\n", sides[s]->name, counts[0], counts[counts_len - 1]);
        if (sides[s] == &ours || sides[s] == &plain || sides[s] == &search) exit(1);
      }
      unsigned long middle = counts[counts_len / 2];
      if (sides[s] == &ours) printf("\t%lu\t%lu\n", middle, meter_stack(call_of(sides[s]), ours_entry()));
      else printf("\t%lu\t-\n", middle);
    }
  }
  fflush(stdout);
}

/* ---- all cases ---- */

static void make_text(size_t length) {
  static const uint16_t brackets[] = { '[', ']', '{', '}', '\\', '~', '^', '|' };
  int two = strcmp(given.kind, "extension") == 0 || strcmp(given.kind, "euro") == 0;
  given.length = length;
  given.units = two ? length / 2 : length;
  for (size_t i = 0; i < given.units; i++) {
    if (strcmp(given.kind, "extension") == 0) given.text[i] = brackets[i % 8];
    else if (strcmp(given.kind, "euro") == 0) given.text[i] = 0x20AC;
    else if (strcmp(given.kind, "han") == 0) given.text[i] = (uint16_t)(0x4E00 + 37 * i);
    else given.text[i] = (uint16_t)(i % 7 == 6 ? ' ' : i % 7 == 0 ? 'A' + i % 26 : 'a' + i % 26);
  }
  if (strcmp(given.kind, "refused") == 0) given.text[given.units - 1] = 0x4E2D;
  if (strcmp(given.kind, "circumflex") == 0) given.text[given.units - 1] = 0x00EA;
  if (strcmp(given.kind, "accent") == 0) given.text[given.units - 1] = 0x00E9;
}

/* To read, and to copy: what the library writes for the text. To be joined, the last page comes first, and so does the last part. */
static void write_octets(void) {
  int writing = given.writing;
  if (given.service == BUILT || given.service == METER) return;
  given.writing = 1;
  ours_prepare(&given);
  call_of(&ours)();
  given.writing = writing;
  if (given.service == PAGES) {
    given.octets_len = paged.written;
    for (size_t from = 0; from < paged.written; from += BLOCK)
      memcpy(given.octets + (writing ? from : paged.written - BLOCK - from), octets + from, BLOCK);
    return;
  }
  if (is_parted()) {
    given.octets_len = parted.written;
    given.coding = parted.coding;
    given.count = parted.count;
    given.mark = parted.mark;
    given.parts = parted.parts;
    if (writing || given.service == PART) {
      memcpy(given.octets, octets, parted.written);
      return;
    }
    /* All parts but the last have 140 octets. */
    for (size_t k = parted.parts, used = 0; k-- > 0; used += sizes[2 * k + 1]) {
      memcpy(given.octets + used, octets + 140 * k, sizes[2 * k + 1]);
      given.counts[parted.parts - 1 - k] = sizes[2 * k];
    }
    return;
  }
  memcpy(given.octets, octets, wrote.written);
  given.octets_len = wrote.written;
  given.coding = wrote.coding;
  given.count = wrote.count;
}

static void do_text(const char *kind, size_t most, int all) {
  static const size_t listed[] = { 0, 1, 7, 8, 93, 160, 182 }, listed_two[] = { 2, 8, 92, 160, 182 }, listed_ucs2[] = { 0, 1, 7, 8, 41, 70 };
  static const size_t lettered[] = { 0, 1, 7, 8, 40, 89, 90 }, lettered_two[] = { 2, 8, 40, 88, 90 }, lettered_ucs2[] = { 0, 1, 7, 8, 39, 40 };
  int two = strcmp(kind, "extension") == 0 || strcmp(kind, "euro") == 0;
  const size_t *lengths = given.alphabet == 2 ? listed_ucs2 : two ? listed_two : listed;
  size_t lengths_len = given.alphabet == 2 ? 6 : two ? 5 : 7;
  if (given.service == LETTERED) lengths = given.alphabet == 2 ? lettered_ucs2 : two ? lettered_two : lettered;
  given.kind = kind;
  fprintf(stderr, "bench: %s %s %s\n", given.writing ? "write" : "read", service_name(), kind);
  for (size_t i = 0; all ? i <= most : i < lengths_len; i++) {
    size_t length = all ? i : lengths[i];
    if (length > most || (two && length % 2 != 0) || (two && length == 0)) continue;
    if ((is_refused(kind) || strcmp(kind, "accent") == 0 || given.service == METER) && length == 0) continue;
    make_text(length);
    write_octets();
    do_case();
  }
}

/* The kinds of 7-bit text that every call is given. */
static void do_kinds(size_t most, int all) {
  given.alphabet = 0;
  do_text("letters", most, all);
  do_text("accent", most, all);
  do_text("extension", most, all);
  do_text("euro", most, all);
  if (given.writing) do_text("refused", most, all);
}

/* The keys of a meter. Without a key there is no call to count, and one count does. */
static void do_meter(int all) {
  int counts = counts_len;
  counts_len = 1;
  given.service = METER;
  do_kinds(182, all);
  counts_len = counts;
}

/* One page behind language letters. */
static void do_lettered(int all) {
  given.service = LETTERED;
  do_kinds(90, all);
  if (given.writing) do_text("circumflex", 90, all);
  given.alphabet = 2;
  do_text("han", 40, all);
}

/* Several pages: each filled to its end, with `all` every number of them, and a text that is one over the end of the first and of the last. */
static void do_pages(const char *kind, int all) {
  static const size_t listed[] = { 0, 1, 2, 15 };
  int two = strcmp(kind, "extension") == 0;
  given.kind = kind;
  fprintf(stderr, "bench: %s %s %s\n", given.writing ? "write" : "read", service_name(), kind);
  for (size_t i = 0; all ? i <= 15 : i < sizeof listed / sizeof listed[0]; i++) {
    size_t pages = all ? i : listed[i];
    for (size_t over = 0; over <= 1; over++) {
      size_t length = pages * page_room() + over;
      if (over == 1 && pages > 1 && pages != 14) continue;
      if (length == 0 && (two || is_refused(kind) || strcmp(kind, "accent") == 0)) continue;
      /* An extension letter takes two septets: a page of an odd length is one short, and one over it is two letters. */
      if (two && length % 2 != 0 && over == 1) continue;
      if (two && length % 2 != 0) length--;
      make_text(length);
      write_octets();
      do_case();
    }
  }
}

/* One count does: other texts show that it repeats. */
static void do_all_pages(int all) {
  int counts = counts_len;
  counts_len = 1;
  for (given.service = PAGES; given.service <= BUILT; given.service++) {
    if (given.service == BUILT && !given.writing) continue;
    given.alphabet = 0;
    do_pages("letters", all);
    do_pages("accent", all);
    do_pages("extension", all);
    if (given.writing) do_pages("refused", all);
    if (given.writing) do_pages("circumflex", all);
    given.alphabet = 2;
    do_pages("han", all);
  }
  counts_len = counts;
}

/* Parts: a text that fits alone, the shortest one that does not, and parts filled to their end. Many are of letters and of UCS2 alone, and 255 are
   not counted with the listed lengths: the trap flag takes its time. What a part costs to read is no matter of the others. */
static void do_parts(const char *kind, int all) {
  static const size_t listed[] = { 1, 2, 4, 12, 255 }, every[] = { 1, 2, 3, 4, 5, 6, 7, 8, 12, 255 };
  int two = strcmp(kind, "extension") == 0, full = strcmp(kind, "letters") == 0 || strcmp(kind, "han") == 0;
  size_t most = full && given.service == PARTS && (all || timing) ? 255 : full || all || timing ? 12 : 4;
  if (given.service == PART && !given.writing) most = 2;
  given.kind = kind;
  fprintf(stderr, "bench: %s %s %s\n", given.writing ? "write" : "read", service_name(), kind);
  for (size_t i = 0; i < (all ? sizeof every : sizeof listed) / sizeof listed[0]; i++) {
    size_t parts = all ? every[i] : listed[i];
    for (size_t over = 0; over <= 1 && parts <= most; over++) {
      size_t length = (parts == 1 ? alone_room() : parts * part_room()) + over;
      if (over == 1 && parts > 1) continue;
      /* An extension letter takes two septets: parts of an odd length are one short, and one over what fits alone is two letters. */
      if (two && length % 2 != 0) length += over == 1 ? 1 : (size_t)-1;
      /* Nothing is joined that has no header. */
      if (given.service == PARTS && !given.writing && length <= alone_room()) continue;
      make_text(length);
      write_octets();
      do_case();
    }
  }
}

/* One count does: other texts show that it repeats. */
static void do_all_parts(int all) {
  int counts = counts_len;
  counts_len = 1;
  for (given.service = PARTS; given.service <= PART; given.service++) {
    given.alphabet = 0;
    do_parts("letters", all);
    do_parts("accent", all);
    do_parts("extension", all);
    if (given.writing) do_parts("refused", all);
    if (given.writing) do_parts("circumflex", all);
    given.alphabet = 2;
    do_parts("han", all);
  }
  counts_len = counts;
}

/* ---- the library's other calls: instructions and stack, with nothing beside them ---- */

static uint8_t septets[182];

static void run_read_coding(void) { read = wikuay_read_coding(WIKUAY_SHORT_MESSAGE, 0xE9); }
static void run_write_coding(void) { wrote = wikuay_write_coding(WIKUAY_SHORT_MESSAGE, reading); }
static void run_write_coding_page(void) { wrote = wikuay_write_coding(WIKUAY_BROADCAST, reading); }
static void run_holds_text(void) { read = wikuay_holds_text(reading); }
static void run_text_to_septets(void) { wrote = wikuay_text_to_septets(given.text, 182, septets, 182); }
static void run_septets_to_text(void) { wrote = wikuay_septets_to_text(septets, 182, units, 182); }
static void run_pack(void) { wrote = wikuay_pack(WIKUAY_USSD, septets, 182, octets, 160); }
static void run_unpack(void) { wrote = wikuay_unpack(WIKUAY_USSD, octets, 160, 0, septets, 182); }
static void run_count_pages(void) { paged = wikuay_count_pages(reading, given.text, PAGES_UNITS); }
static void run_count_parts(void) { parted = wikuay_count_parts(reading, given.text, 12 * 153); }
static wikuay_block_header header;
static void run_read_header(void) { header = wikuay_read_header(built.block); }
static void run_new_meter(void) { keyed = wikuay_new_meter(WIKUAY_USSD); }
static void run_room_left(void) { keyed = wikuay_room_left(keyed.meter); }
static void run_meter_cleared(void) { keyed = wikuay_meter_cleared(keyed.meter); }
static void run_old_page(void) { read = wikuay_read_message(WIKUAY_OLD_PAGE, 0, 0, octets, 82, units, ROOM_UNITS); }

static void do_other_calls(void) {
  static const struct {
    const char *name, *what;
    size_t length;
    call run, entry;
  } others[] = {
    { "wikuay_read_coding", "short message, E9", 0, run_read_coding, (call)wikuay_read_coding },
    { "wikuay_write_coding", "short message, plain", 0, run_write_coding, (call)wikuay_write_coding },
    { "wikuay_write_coding", "broadcast page, plain", 0, run_write_coding_page, (call)wikuay_write_coding },
    { "wikuay_holds_text", "plain", 0, run_holds_text, (call)wikuay_holds_text },
    { "wikuay_text_to_septets", "letters", 182, run_text_to_septets, (call)wikuay_text_to_septets },
    { "wikuay_septets_to_text", "letters", 182, run_septets_to_text, (call)wikuay_septets_to_text },
    { "wikuay_pack", "USSD, letters", 182, run_pack, (call)wikuay_pack },
    { "wikuay_unpack", "USSD, letters", 182, run_unpack, (call)wikuay_unpack },
    { "wikuay_read_message", "old page, letters", 93, run_old_page, (call)wikuay_read_message },
    { "wikuay_count_pages", "letters", PAGES_UNITS, run_count_pages, (call)wikuay_count_pages },
    { "wikuay_read_header", "a block", 0, run_read_header, (call)wikuay_read_header },
    { "wikuay_count_parts", "letters", 12 * 153, run_count_parts, (call)wikuay_count_parts },
    { "wikuay_new_meter", "USSD", 0, run_new_meter, (call)wikuay_new_meter },
    { "wikuay_room_left", "USSD", 0, run_room_left, (call)wikuay_room_left },
    { "wikuay_meter_cleared", "USSD", 0, run_meter_cleared, (call)wikuay_meter_cleared },
  };
  fprintf(stderr, "bench: the other calls\n");
  memset(&keyed, 0, sizeof keyed);
  given.kind = "letters";
  make_text(12 * 153);
  reading = wikuay_plain();
  for (size_t i = 0; i < sizeof others / sizeof others[0]; i++) {
    others[i].run();
    if (wrote.refusal != 0 || read.refusal != 0 || paged.refusal != 0 || keyed.refusal != 0 || parted.refusal != 0) {
      fprintf(stderr, "bench: %s refuses\n", others[i].name);
      exit(1);
    }
    unsigned long count = meter_instructions(others[i].run);
    printf("other\t%s\t%s\t%zu\t%zu\twikuay\tsame\t%lu\t%lu\n", others[i].name, others[i].what, others[i].length, others[i].length, count,
           meter_stack(others[i].run, others[i].entry));
  }
}

static int repeat(unsigned long times) {
  given.writing = 1;
  given.kind = "letters";
  make_text(160);
  ours_prepare(&given);
  if (times == 0) {
    if (!meter_start()) return 3;
    ours_run();
    printf("%lu\n", meter_instructions(ours_run));
    return 0;
  }
  __asm__ volatile("1:\tcall *%[run]\n\tdecq %[times]\n\tjnz 1b"
                   : [times] "+r"(times)
                   : [run] "r"(ours_run)
                   : "rax", "rcx", "rdx", "rsi", "rdi", "r8", "r9", "r10", "r11", "xmm0", "xmm1", "xmm2", "xmm3", "xmm4", "xmm5", "xmm6",
                     "xmm7", "xmm8", "xmm9", "xmm10", "xmm11", "xmm12", "xmm13", "xmm14", "xmm15", "memory", "cc");
  return 0;
}

/* ---- the plain loop's data coding octets are the library's, over every octet and every reading that an octet has ---- */

static int same_reading(wikuay_reading a, wikuay_reading b) {
  return a.alphabet == b.alphabet && a.compressed == b.compressed && a.message_class == b.message_class && a.language == b.language &&
         a.deletion == b.deletion && a.prefix == b.prefix && a.reserved == b.reserved && a.header == b.header &&
         a.notice == b.notice && a.first_letter == b.first_letter && a.second_letter == b.second_letter;
}

static int codings(void) {
  int differ = 0;
  for (uint32_t from = SMS; from <= USSD; from++)
    for (unsigned octet = 0; octet < 256; octet++) {
      wikuay_reading said = wikuay_read_coding(from, (uint8_t)octet).reading;
      differ += !same_reading(said, plain_read_coding(from, (uint8_t)octet));
      for (uint32_t to = SMS; to <= USSD; to++) {
        wikuay_answer written = wikuay_write_coding(to, said);
        differ += plain_write_coding(to, said) != (written.refusal == 0 ? written.coding : -1);
      }
    }
  if (differ != 0) fprintf(stderr, "bench: the plain loop has %d other data coding octets\n", differ);
  return differ != 0;
}

int main(int words_len, char **words) {
  if (words_len == 2 && strcmp(words[1], "codings") == 0) return codings();
  if (words_len == 3 && strcmp(words[1], "repeat") == 0) return repeat(strtoul(words[2], NULL, 10));
  if (words_len < 4) {
    fprintf(stderr, "harness: give LENGTHS MEASURE SIDE..\n");
    return 2;
  }
  int all = strcmp(words[1], "all") == 0;
  timing = strcmp(words[2], "time") == 0;
  /* The listed lengths show that the count repeats. Over all lengths one count does. */
  if (all) counts_len = 1;
  for (int w = 3; w < words_len; w++) {
    const side *found = NULL;
    for (size_t s = 0; s < sizeof every_side / sizeof every_side[0]; s++)
      if (strcmp(words[w], every_side[s]->name) == 0) found = every_side[s];
    const char *reason = found == NULL ? "there is no such side" : found->load();
    if (reason != NULL) fprintf(stderr, "bench: %s is left out: %s\n", words[w], reason);
    else sides[sides_len++] = found;
  }
  if (sides_len == 0 || sides[0] != &ours) {
    fprintf(stderr, "harness: the first side is wikuay\n");
    return 2;
  }
  if (!timing && !meter_start()) {
    fprintf(stderr, "bench: instructions cannot be counted here: known loops give other counts\n");
    return 3;
  }
  printf(timing ? "direction\tservice\ttext\tlength\tunits\tside\tanswer\tns\tns_low\tns_high\tratio\tratio_low\tratio_high\n"
                : "direction\tservice\ttext\tlength\tunits\tside\tanswer\tinstructions\tstack\n");
  for (given.writing = 1; given.writing >= 0; given.writing--) {
    static const size_t most[] = { 160, 93, 182 };
    for (given.service = SMS; given.service <= USSD; given.service++) {
      do_kinds(most[given.service], all);
      if (given.writing) do_text("circumflex", most[given.service], all);
    }
    given.alphabet = 2;
    given.service = SMS;
    do_text("han", 70, all);
    do_lettered(all);
    do_meter(all);
    do_all_pages(all);
    do_all_parts(all);
  }
  if (!timing) do_other_calls();
  return plain_differs;
}
