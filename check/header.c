/*
 * What stands in include/wikuay.h alone: the version, sizes, and the names and texts of the refusals. Prints the number
 * and the text of each refusal that is given today. C99 and C++11.
 */
#include <stdio.h>
#include <string.h>
#include <wikuay.h>

/* A constant with its own spelling. */
#define NAMED(constant) {constant, #constant}

static const struct {
  uint32_t number;
  const char *name;
} refusals[] = {
    {0, "none"},
    NAMED(WIKUAY_REFUSED_COMPRESSED),
    NAMED(WIKUAY_REFUSED_NO_TEXT),
    NAMED(WIKUAY_REFUSED_PREFIXED),
    NAMED(WIKUAY_REFUSED_WRONG_LENGTH),
    NAMED(WIKUAY_REFUSED_TOO_LONG),
    NAMED(WIKUAY_REFUSED_UNLISTED),
    NAMED(WIKUAY_REFUSED_NO_ROOM),
    NAMED(WIKUAY_REFUSED_UNWRITABLE),
    NAMED(WIKUAY_REFUSED_NO_SEPTET),
    NAMED(WIKUAY_REFUSED_WRONG_PAGES),
    NAMED(WIKUAY_REFUSED_WRONG_LETTERS),
    NAMED(WIKUAY_REFUSED_WRONG_HEADER),
    NAMED(WIKUAY_REFUSED_NO_TABLE),
    NAMED(WIKUAY_REFUSED_ILL_FORMED),
};
enum { KNOWN = sizeof refusals / sizeof refusals[0], GIVEN = 12 };

static int differ(const char *what, const char *got, const char *expected) {
  if (strcmp(got, expected) == 0) return 0;
  printf("%s: '%s', and not '%s'\n", what, got, expected);
  return 1;
}

int main(void) {
  char version[32];
  int faults = 0;
  snprintf(version, sizeof version, "%d.%d.%d", WIKUAY_VERSION_MAJOR, WIKUAY_VERSION_MINOR, WIKUAY_VERSION_PATCH);
  faults += differ("version", WIKUAY_VERSION, version);
#if WIKUAY_VERSION_NUMBER < 100 || WIKUAY_VERSION_NUMBER > 999999
#error "WIKUAY_VERSION_NUMBER is wrong"
#endif
#if WIKUAY_PAGES_OCTETS != WIKUAY_MOST_PAGES * WIKUAY_BLOCK_OCTETS || WIKUAY_BLOCK_OCTETS != 6 + WIKUAY_BROADCAST_OCTETS
#error "the octets of pages are wrong"
#endif
#if WIKUAY_PAGES_UNITS != WIKUAY_MOST_PAGES * WIKUAY_BROADCAST_SEPTETS
#error "WIKUAY_PAGES_UNITS is wrong"
#endif
  /* The letters and their CR take three septets, and the place of one unit. */
#if WIKUAY_LETTERED_SEPTETS != WIKUAY_BROADCAST_SEPTETS - 3 || WIKUAY_LETTERED_UNITS != WIKUAY_BROADCAST_UNITS - 1
#error "what a page holds behind language letters is wrong"
#endif
  /* The header of a part takes 6 octets, which are seven septets with the fill bit behind them, or three units. */
#if WIKUAY_PART_SEPTETS != WIKUAY_SHORT_MESSAGE_SEPTETS - 7 || WIKUAY_PART_UNITS != WIKUAY_SHORT_MESSAGE_UNITS - 3
#error "what a part holds is wrong"
#endif
#if WIKUAY_PARTS_OCTETS != WIKUAY_MOST_PARTS * WIKUAY_SHORT_MESSAGE_OCTETS || WIKUAY_PARTS_SIZES != 2 * WIKUAY_MOST_PARTS
#error "the octets of parts are wrong"
#endif
#if WIKUAY_PARTS_UNITS != WIKUAY_MOST_PARTS * WIKUAY_PART_SEPTETS
#error "WIKUAY_PARTS_UNITS is wrong"
#endif
  if (sizeof(wikuay_block) != WIKUAY_BLOCK_OCTETS) faults += differ("a block", "padded", "88 octets");
  if (sizeof(wikuay_reading) != 12 || offsetof(wikuay_reading, notice) != 8 ||
      offsetof(wikuay_reading, first_letter) != 10 || offsetof(wikuay_reading, second_letter) != 11)
    faults += differ("a reading", "laid out otherwise", "12 octets, the letters in the last two");
  if (sizeof(wikuay_meter) != 8 || sizeof(wikuay_meter_answer) != 32 || offsetof(wikuay_meter_answer, meter) != 24)
    faults += differ("a meter", "laid out otherwise", "8 octets, the last of an answer's 32");
  if (sizeof(wikuay_parts_answer) != 32 || offsetof(wikuay_parts_answer, parts) != 4 ||
      offsetof(wikuay_parts_answer, position) != 8 || offsetof(wikuay_parts_answer, written) != 16 ||
      offsetof(wikuay_parts_answer, count) != 24 || offsetof(wikuay_parts_answer, coding) != 28 ||
      offsetof(wikuay_parts_answer, mark) != 29)
    faults += differ("an answer of parts", "laid out otherwise", "32 octets, the mark in the 30th");
  if (sizeof(wikuay_part_answer) != 40 || offsetof(wikuay_part_answer, numbered) != 4 ||
      offsetof(wikuay_part_answer, reference) != 5 || offsetof(wikuay_part_answer, total) != 6 ||
      offsetof(wikuay_part_answer, number) != 7 || offsetof(wikuay_part_answer, position) != 8 ||
      offsetof(wikuay_part_answer, written) != 16 || offsetof(wikuay_part_answer, reading) != 24)
    faults += differ("the answer of a part", "laid out otherwise", "40 octets, the numbers behind the refusal");
  if (sizeof(wikuay_parts_join_answer) != 40 || offsetof(wikuay_parts_join_answer, parts) != 4 ||
      offsetof(wikuay_parts_join_answer, position) != 8 || offsetof(wikuay_parts_join_answer, written) != 16 ||
      offsetof(wikuay_parts_join_answer, reference) != 24 || offsetof(wikuay_parts_join_answer, reading) != 26)
    faults += differ("the answer of joined parts", "laid out otherwise", "40 octets, the reading from the 27th on");
  if (wikuay_plain().first_letter != 0 || wikuay_plain().second_letter != 0)
    faults += differ("the plain reading", "with letters", "without");
  for (uint32_t n = 0; n < KNOWN; n++) {
    if (refusals[n].number != n) faults += differ("the order of the constants", refusals[n].name, "another");
    faults += differ("name", wikuay_refusal_name(n), refusals[n].name);
    for (uint32_t m = 0; m < n; m++)
      if (strcmp(wikuay_refusal_text(m), wikuay_refusal_text(n)) == 0) faults += differ("text twice", refusals[m].name, refusals[n].name);
    if (1 <= n && n <= GIVEN) printf("%u %s\n", (unsigned)n, wikuay_refusal_text(n));
  }
  faults += differ("name", wikuay_refusal_name(KNOWN), "unknown");
  faults += differ("name", wikuay_refusal_name(UINT32_MAX), "unknown");
  faults += differ("text", wikuay_refusal_text(KNOWN), "there is no such refusal");
  return faults != 0;
}
