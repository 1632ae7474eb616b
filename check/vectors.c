/*
 * vectors.c: runs cases in the format of docs/CASES.md through include/wikuay.h, from standard input.
 *
 * It prints what docs/CASES.md asks: a line for each case that differs, and the totals. The exit status is 0 if nothing
 * differs, and 1 if something does. Every case is run three times: with each buffer, input and output, ending where an
 * unmapped page begins; beginning where one ends; and on the heap, of exact size, for valgrind. One element over either
 * end ends the program with a signal. All runs must give the same. The argument `low` or `high` touches one octet over
 * that end and nothing else, to show that it does. C99 and C++11.
 */
#define _DEFAULT_SOURCE
#include <stdio.h>
#include <stdlib.h>
#include <string.h>
#include <sys/mman.h>
#include <unistd.h>

#include "wikuay.h"

#define LONGEST 16384
#define MOST_ROOM 4096
#define MOST_ELEMENTS (LONGEST / 2) /* octets, septets or units of a value */
#define MOST_TEXT 40960             /* units of a text that is taken so many times */
#define MOST_WORDS 17               /* of a line, the colon too */

static void fail(const char *why) {
  fprintf(stderr, "vectors: %s\n", why);
  exit(2);
}

/* ---- Lent memory: pages of our own between two that may not be touched. */

typedef struct {
  unsigned char *low;  /* the first octet that may be touched */
  unsigned char *high; /* the first octet behind */
} fence;

/* A fence around so many octets, and up to a page more. */
static fence new_fence(size_t octets) {
  size_t page = (size_t)sysconf(_SC_PAGESIZE), inner;
  unsigned char *all;
  fence made;
  for (inner = page; inner < octets; inner += page) {
  }
  all = (unsigned char *)mmap(NULL, inner + 2 * page, PROT_NONE, MAP_PRIVATE | MAP_ANONYMOUS, -1, 0);
  if (all == (unsigned char *)MAP_FAILED || mprotect(all + page, inner, PROT_READ | PROT_WRITE) != 0)
    fail("no memory with fences");
  made.low = all + page;
  made.high = all + page + inner;
  return made;
}

enum { LOW, HIGH, HEAP, PLACES };

/* size octets at a place: against the fence at one end, the octets up to the other filled; or on the heap. */
static unsigned char *lend(fence f, size_t size, int place) {
  unsigned char *made;
  if (place == HEAP) {
    made = (unsigned char *)malloc(size + (size == 0));
    if (!made) fail("no memory");
    return made;
  }
  memset(f.low, 0x5A, (size_t)(f.high - f.low));
  return place == HIGH ? f.high - size : f.low;
}

/* Takes it back. Answers whether every octet of the fence outside the lent part is as lend left it. */
static int take_back(fence f, unsigned char *part, size_t size, int place) {
  const unsigned char *at;
  if (place == HEAP) {
    free(part);
    return 1;
  }
  for (at = f.low; at < f.high; at++)
    if ((at < part || part + size <= at) && *at != 0x5A) return 0;
  return 1;
}

/* ---- Values of a case. */

typedef struct {
  unsigned char octets[MOST_ELEMENTS]; /* elements of one octet */
  uint16_t units[MOST_ROOM];           /* elements of one unit */
  size_t length;
} run;

typedef struct {
  uint32_t service, count, room, refusal, position, written, holds, sequence, identifier, pages, total, number, used;
  uint32_t mark, times, list, parts;
  int64_t left;
  uint16_t unit;
  unsigned coding, reference;
  wikuay_reading reading;
  wikuay_block block;
  run numbers; /* reference, total and number of a part, or none */
  run given, out;
  run counts, sizes; /* octets beside those: of the parts that are joined, and of those that are written */
} values;

static values input, wanted, came;

typedef struct {
  const char *word;
  uint32_t number;
} name;

static const name services[] = {{"sms", WIKUAY_SHORT_MESSAGE},
                                {"broadcast", WIKUAY_BROADCAST},
                                {"ussd", WIKUAY_USSD},
                                {"old", WIKUAY_OLD_PAGE},
                                {NULL, 0}};
static const name held[] = {
    {"7bit", WIKUAY_HOLDS_7BIT}, {"ucs2", WIKUAY_HOLDS_UCS2}, {"none", WIKUAY_HOLDS_NOTHING}, {NULL, 0}};
static const name alphabets[] = {
    {"8bit", WIKUAY_8BIT}, {"ucs2", WIKUAY_UCS2}, {"wap", WIKUAY_WAP}, {"i1", WIKUAY_I1}, {NULL, 0}};
static const name classes[] = {{"class0", WIKUAY_CLASS_0},       {"class1", WIKUAY_CLASS_1},
                               {"class2", WIKUAY_CLASS_2},       {"class3", WIKUAY_CLASS_3},
                               {"user1", WIKUAY_USER_DEFINED_1}, {"user2", WIKUAY_USER_DEFINED_2},
                               {NULL, 0}};
static const name languages[] = {{"german", WIKUAY_GERMAN},         {"english", WIKUAY_ENGLISH},
                                 {"italian", WIKUAY_ITALIAN},       {"french", WIKUAY_FRENCH},
                                 {"spanish", WIKUAY_SPANISH},       {"dutch", WIKUAY_DUTCH},
                                 {"swedish", WIKUAY_SWEDISH},       {"danish", WIKUAY_DANISH},
                                 {"portuguese", WIKUAY_PORTUGUESE}, {"finnish", WIKUAY_FINNISH},
                                 {"norwegian", WIKUAY_NORWEGIAN},   {"greek", WIKUAY_GREEK},
                                 {"turkish", WIKUAY_TURKISH},       {"hungarian", WIKUAY_HUNGARIAN},
                                 {"polish", WIKUAY_POLISH},         {"czech", WIKUAY_CZECH},
                                 {"hebrew", WIKUAY_HEBREW},         {"arabic", WIKUAY_ARABIC},
                                 {"russian", WIKUAY_RUSSIAN},       {"icelandic", WIKUAY_ICELANDIC},
                                 {NULL, 0}};
static const name handlings[] = {{"discard", WIKUAY_DISCARD}, {"store", WIKUAY_STORE}, {NULL, 0}};
static const name senses[] = {{"active", WIKUAY_ACTIVE}, {"inactive", 0}, {NULL, 0}};
static const name kinds[] = {
    {"voicemail", WIKUAY_VOICEMAIL}, {"fax", WIKUAY_FAX}, {"mail", WIKUAY_MAIL}, {"other", WIKUAY_OTHER}, {NULL, 0}};
static const name compressed[] = {{"compressed", 1}, {NULL, 0}};
static const name deletion[] = {{"deletion", 1}, {NULL, 0}};
static const name prefix[] = {{"prefix", 1}, {NULL, 0}};
static const name reserved[] = {{"reserved", 1}, {NULL, 0}};

/* The fields of a reading in the order of their words, and the number of each without a word. Behind them stand the
   words of the language letters, which have an octet, and last the word of the header mark. */
enum { ALPHABET, COMPRESSED, CLASS, LANGUAGE, DELETION, HANDLING, SENSE, KIND, PREFIX, RESERVED, FIELDS, LETTERS = 2 };
enum { HEADER = FIELDS + LETTERS };
static const name *const fields[FIELDS] = {alphabets, compressed, classes, languages, deletion,
                                           handlings, senses,     kinds,   prefix,    reserved};

static const name *find(const name *names, const char *word, size_t length) {
  for (; names->word; names++)
    if (strlen(names->word) == length && memcmp(names->word, word, length) == 0) return names;
  return NULL;
}

static const char *word_of(const name *names, uint32_t number) {
  for (; names->word; names++)
    if (names->number == number) return names->word;
  return "?";
}

static int digit(char c) {
  if ('0' <= c && c <= '9') return c - '0';
  if ('A' <= c && c <= 'F') return c - 'A' + 10;
  return -1;
}

static const char *const letter_words[LETTERS] = {"letter1:", "letter2:"};

/* The octet of a language letter's word, or 0 where it is none. */
static uint8_t letter_in(const char *name, const char *word, size_t length) {
  size_t before = strlen(name);
  if (length != before + 2 || memcmp(name, word, before) != 0 || digit(word[before]) < 0 || digit(word[before + 1]) < 0)
    return 0;
  return (uint8_t)(16 * digit(word[before]) + digit(word[before + 1]));
}

static int parse_reading(const char *text, wikuay_reading *reading) {
  const name *said[FIELDS] = {NULL, NULL, NULL, NULL, NULL, NULL, NULL, NULL, NULL, NULL};
  uint8_t letters[LETTERS] = {0, 0};
  int at = 0, parts;
  *reading = wikuay_plain();
  if (strcmp(text, "plain") == 0) return 1;
  for (;;) {
    size_t length = strcspn(text, "+");
    while (at < FIELDS && !(said[at] = find(fields[at], text, length))) at++;
    while (FIELDS <= at && at < FIELDS + LETTERS &&
           !(letters[at - FIELDS] = letter_in(letter_words[at - FIELDS], text, length)))
      at++;
    if (at == HEADER && strncmp(text, "header", length) == 0 && length == strlen("header")) reading->header = 1;
    else if (at >= HEADER) return 0;
    at++;
    text += length;
    if (*text == 0) break;
    text++;
  }
  parts = (said[HANDLING] != NULL) + (said[SENSE] != NULL) + (said[KIND] != NULL);
  if (parts != 0 && parts != 3) return 0;
  if (said[ALPHABET]) reading->alphabet = (uint8_t)said[ALPHABET]->number;
  if (said[CLASS]) reading->message_class = (uint8_t)said[CLASS]->number;
  if (said[LANGUAGE]) reading->language = (uint8_t)said[LANGUAGE]->number;
  reading->compressed = said[COMPRESSED] != NULL;
  reading->deletion = said[DELETION] != NULL;
  reading->prefix = said[PREFIX] != NULL;
  reading->reserved = said[RESERVED] != NULL;
  if (parts) reading->notice = (uint16_t)(said[HANDLING]->number + said[SENSE]->number + said[KIND]->number);
  reading->first_letter = letters[0];
  reading->second_letter = letters[1];
  return 1;
}

static void print_reading(const wikuay_reading *r) {
  const char *said[FIELDS] = {NULL, NULL, NULL, NULL, NULL, NULL, NULL, NULL, NULL, NULL};
  const uint8_t letters[LETTERS] = {r->first_letter, r->second_letter};
  const char *between = "";
  int at;
  if (r->alphabet != WIKUAY_7BIT) said[ALPHABET] = word_of(alphabets, r->alphabet);
  if (r->compressed) said[COMPRESSED] = word_of(compressed, r->compressed);
  if (r->message_class != WIKUAY_NO_CLASS) said[CLASS] = word_of(classes, r->message_class);
  if (r->language != WIKUAY_NO_LANGUAGE) said[LANGUAGE] = word_of(languages, r->language);
  if (r->deletion) said[DELETION] = word_of(deletion, r->deletion);
  if (r->notice != WIKUAY_NO_NOTICE) {
    said[HANDLING] = word_of(handlings, r->notice & ~15u);
    said[SENSE] = word_of(senses, r->notice & 8u);
    said[KIND] = word_of(kinds, r->notice & 7u);
  }
  if (r->prefix) said[PREFIX] = word_of(prefix, r->prefix);
  if (r->reserved) said[RESERVED] = word_of(reserved, r->reserved);
  for (at = 0; at < FIELDS; at++)
    if (said[at]) {
      printf("%s%s", between, said[at]);
      between = "+";
    }
  for (at = 0; at < LETTERS; at++)
    if (letters[at]) {
      printf("%s%s%02X", between, letter_words[at], (unsigned)letters[at]);
      between = "+";
    }
  if (r->header) {
    printf("%sheader", between);
    between = "+";
  }
  if (!*between) printf("plain");
}

static int same_reading(const wikuay_reading *a, const wikuay_reading *b) {
  return a->alphabet == b->alphabet && a->compressed == b->compressed && a->message_class == b->message_class &&
         a->language == b->language && a->deletion == b->deletion && a->prefix == b->prefix &&
         a->reserved == b->reserved && a->header == b->header && a->notice == b->notice &&
         a->first_letter == b->first_letter && a->second_letter == b->second_letter;
}

static int parse_number(const char *text, uint32_t most, uint32_t *number) {
  uint64_t sum = 0;
  size_t length = strlen(text), at;
  if (length == 0 || length > 10 || (text[0] == '0' && length > 1)) return 0;
  for (at = 0; at < length; at++) {
    if (text[at] < '0' || '9' < text[at]) return 0;
    sum = 10 * sum + (uint64_t)(text[at] - '0');
  }
  if (sum > most) return 0;
  *number = (uint32_t)sum;
  return 1;
}

/* A number, with a - in front of it where it is below zero. */
static int parse_signed(const char *text, int64_t *number) {
  uint32_t size;
  int below = *text == '-';
  if (!parse_number(text + below, UINT32_MAX, &size) || (below && size == 0)) return 0;
  *number = below ? -(int64_t)size : (int64_t)size;
  return 1;
}

/* Elements of so many hexadecimal digits: 2 for octets and septets, 4 for units. */
static int parse_elements(const char *text, size_t digits, run *elements) {
  size_t length = strlen(text), at, k;
  elements->length = 0;
  if (strcmp(text, "-") == 0) return 1;
  if (length == 0 || length % digits != 0 || length > LONGEST) return 0;
  for (at = 0; at < length; at += digits) {
    unsigned element = 0;
    for (k = 0; k < digits; k++) {
      int d = digit(text[at + k]);
      if (d < 0) return 0;
      element = 16 * element + (unsigned)d;
    }
    if (digits == 2)
      elements->octets[elements->length++] = (unsigned char)element;
    else
      elements->units[elements->length++] = (uint16_t)element;
  }
  return 1;
}

static void print_elements(const run *elements, size_t digits) {
  size_t at;
  for (at = 0; at < elements->length; at++)
    printf("%0*X", (int)digits, digits == 2 ? (unsigned)elements->octets[at] : (unsigned)elements->units[at]);
  if (elements->length == 0) printf("-");
}

static int parse_block(const char *text, wikuay_block *block) {
  size_t at;
  if (strlen(text) != 2 * WIKUAY_BLOCK_OCTETS) return 0;
  for (at = 0; at < WIKUAY_BLOCK_OCTETS; at++) {
    int high = digit(text[2 * at]), low = digit(text[2 * at + 1]);
    if (high < 0 || low < 0) return 0;
    block->octets[at] = (uint8_t)(16 * high + low);
  }
  return 1;
}

static int parse_octet(const char *text, unsigned *octet) {
  if (strlen(text) != 2 || digit(text[0]) < 0 || digit(text[1]) < 0) return 0;
  *octet = (unsigned)(16 * digit(text[0]) + digit(text[1]));
  return 1;
}

static int same_elements(const run *a, const run *b, size_t digits) {
  if (a->length != b->length) return 0;
  return digits == 2 ? memcmp(a->octets, b->octets, a->length) == 0
                     : memcmp(a->units, b->units, 2 * a->length) == 0;
}

/* ---- Calls and their keys. */

enum {
  READ_CODING,
  WRITE_CODING,
  HOLDS_TEXT,
  PACK,
  UNPACK,
  TO_SEPTETS,
  TO_TEXT,
  READ_MESSAGE,
  WRITE_MESSAGE,
  READ_HEADER,
  COUNT_PAGES,
  BUILD_PAGE,
  WRITE_PAGES,
  JOIN_PAGES,
  NEW_METER,
  ROOM_LEFT,
  UNIT_ADDED,
  UNIT_TAKEN_BACK,
  METER_CLEARED,
  READ_PART,
  COUNT_PARTS,
  WRITE_PART,
  WRITE_PARTS,
  JOIN_PARTS,
  CALLS
};

typedef struct {
  const char *name;
  const char *inputs; /* keys, each closed by a space */
  const char *answer;
  size_t digits; /* of an element of out, or 0 where no buffer is lent */
} call;

static const call calls[CALLS] = {
    {"read-coding", "service coding ", "refusal position reading ", 0},
    {"write-coding", "service reading ", "refusal position coding ", 0},
    {"holds-text", "reading ", "refusal position holds ", 0},
    {"pack", "service septets room ", "refusal position written count out ", 2},
    {"unpack", "service count octets room ", "refusal position written out ", 2},
    {"text-to-septets", "text room ", "refusal position written out ", 2},
    {"septets-to-text", "septets room ", "refusal position written out ", 4},
    {"read-message", "service coding count octets room ", "refusal position written reading out ", 4},
    {"write-message", "service reading text room ", "refusal position written count coding out ", 2},
    {"read-header", "block ", "sequence identifier coding total number ", 0},
    {"count-pages", "reading text ", "refusal position pages ", 0},
    {"build-page", "sequence identifier reading text number ", "refusal position pages block ", 0},
    {"write-pages", "sequence identifier reading text room ", "refusal position written pages out ", 2},
    {"join-pages", "octets room ", "refusal position written reading sequence identifier pages out ", 4},
    {"new-meter", "service ", "refusal position left service used ", 0},
    {"room-left", "service used ", "refusal position left service used ", 0},
    {"unit-added", "service used unit ", "refusal position left service used ", 0},
    {"unit-taken-back", "service used unit ", "refusal position left service used ", 0},
    {"meter-cleared", "service used ", "refusal position left service used ", 0},
    {"read-part", "coding count mark octets room ", "refusal position written reading numbers out ", 4},
    {"count-parts", "reading text times ", "refusal position parts ", 0},
    {"write-part", "reading reference text times number room ",
     "refusal position written mark count coding parts out ", 2},
    {"write-parts", "reading reference text times room list ",
     "refusal position written mark coding parts out sizes ", 2},
    {"join-parts", "coding counts octets room ", "refusal position written reading reference parts out ", 4},
};

static int is(const char *key, size_t length, const char *word) {
  return strlen(word) == length && memcmp(key, word, length) == 0;
}

/* The largest number that a key may have. */
static uint32_t most_of(const char *key, size_t length) {
  if (is(key, length, "room") || is(key, length, "list")) return MOST_ROOM;
  if (is(key, length, "mark")) return 1;
  if (is(key, length, "sequence") || is(key, length, "identifier")) return UINT16_MAX;
  return UINT32_MAX;
}

static int parse_value(const char *key, size_t length, const char *text, size_t out_digits, values *v) {
  const name *found;
  uint32_t number;
  if (is(key, length, "service")) {
    found = find(services, text, strlen(text));
    if (found) v->service = found->number;
    return found != NULL;
  }
  if (is(key, length, "holds")) {
    found = find(held, text, strlen(text));
    if (found) v->holds = found->number;
    return found != NULL;
  }
  if (is(key, length, "coding")) return parse_octet(text, &v->coding);
  if (is(key, length, "reference")) return parse_octet(text, &v->reference);
  if (is(key, length, "left")) return parse_signed(text, &v->left);
  if (is(key, length, "unit")) {
    if (!parse_elements(text, 4, &v->given) || v->given.length != 1) return 0;
    v->unit = v->given.units[0];
    v->given.length = 0;
    return 1;
  }
  if (is(key, length, "reading")) return parse_reading(text, &v->reading);
  if (is(key, length, "block")) return parse_block(text, &v->block);
  if (is(key, length, "septets") || is(key, length, "octets")) return parse_elements(text, 2, &v->given);
  if (is(key, length, "text")) return parse_elements(text, 4, &v->given);
  if (is(key, length, "out")) return parse_elements(text, out_digits, &v->out);
  if (is(key, length, "counts")) return parse_elements(text, 2, &v->counts);
  if (is(key, length, "sizes")) return parse_elements(text, 2, &v->sizes);
  if (is(key, length, "numbers"))
    return parse_elements(text, 2, &v->numbers) && (v->numbers.length == 0 || v->numbers.length == 3);
  if (!parse_number(text, most_of(key, length), &number) || (is(key, length, "times") && number == 0)) return 0;
  if (is(key, length, "room")) v->room = number;
  if (is(key, length, "count")) v->count = number;
  if (is(key, length, "refusal")) v->refusal = number;
  if (is(key, length, "position")) v->position = number;
  if (is(key, length, "written")) v->written = number;
  if (is(key, length, "sequence")) v->sequence = number;
  if (is(key, length, "identifier")) v->identifier = number;
  if (is(key, length, "pages")) v->pages = number;
  if (is(key, length, "total")) v->total = number;
  if (is(key, length, "number")) v->number = number;
  if (is(key, length, "used")) v->used = number;
  if (is(key, length, "mark")) v->mark = number;
  if (is(key, length, "times")) v->times = number;
  if (is(key, length, "list")) v->list = number;
  if (is(key, length, "parts")) v->parts = number;
  return 1;
}

/* The words from `from` up to `to` are exactly these keys with their values, in this order. */
static int parse_values(char **words, int from, int to, const char *keys, size_t out_digits, values *v) {
  for (; *keys; from++) {
    size_t length = strcspn(keys, " ");
    if (from == to || strncmp(words[from], keys, length) != 0 || words[from][length] != '=') return 0;
    if (!parse_value(keys, length, words[from] + length + 1, out_digits, v)) return 0;
    keys += length + 1;
  }
  return from == to;
}

static void print_block(const wikuay_block *block) {
  size_t at;
  for (at = 0; at < WIKUAY_BLOCK_OCTETS; at++) printf("%02X", (unsigned)block->octets[at]);
}

static void print_values(const char *keys, size_t out_digits, const values *v) {
  const char *between = "";
  while (*keys) {
    size_t length = strcspn(keys, " ");
    printf("%s%.*s=", between, (int)length, keys);
    if (is(keys, length, "refusal")) printf("%lu", (unsigned long)v->refusal);
    if (is(keys, length, "position")) printf("%lu", (unsigned long)v->position);
    if (is(keys, length, "written")) printf("%lu", (unsigned long)v->written);
    if (is(keys, length, "count")) printf("%lu", (unsigned long)v->count);
    if (is(keys, length, "sequence")) printf("%lu", (unsigned long)v->sequence);
    if (is(keys, length, "identifier")) printf("%lu", (unsigned long)v->identifier);
    if (is(keys, length, "pages")) printf("%lu", (unsigned long)v->pages);
    if (is(keys, length, "total")) printf("%lu", (unsigned long)v->total);
    if (is(keys, length, "number")) printf("%lu", (unsigned long)v->number);
    if (is(keys, length, "used")) printf("%lu", (unsigned long)v->used);
    if (is(keys, length, "mark")) printf("%lu", (unsigned long)v->mark);
    if (is(keys, length, "parts")) printf("%lu", (unsigned long)v->parts);
    if (is(keys, length, "reference")) printf("%02X", v->reference);
    if (is(keys, length, "numbers")) print_elements(&v->numbers, 2);
    if (is(keys, length, "sizes")) print_elements(&v->sizes, 2);
    if (is(keys, length, "left")) printf("%lld", (long long)v->left);
    if (is(keys, length, "service")) printf("%s", word_of(services, v->service));
    if (is(keys, length, "block")) print_block(&v->block);
    if (is(keys, length, "coding")) printf("%02X", v->coding);
    if (is(keys, length, "reading")) print_reading(&v->reading);
    if (is(keys, length, "holds")) printf("%s", word_of(held, v->holds));
    if (is(keys, length, "out")) print_elements(&v->out, out_digits);
    between = " ";
    keys += length + 1;
  }
}

/* The values of keys that a call's answer lacks are the same on both sides, since both begin as all zero. */
static int same_values(const values *a, const values *b, size_t out_digits) {
  return a->refusal == b->refusal && a->position == b->position && a->written == b->written && a->count == b->count &&
         a->coding == b->coding && a->holds == b->holds && a->sequence == b->sequence &&
         a->identifier == b->identifier && a->pages == b->pages && a->total == b->total && a->number == b->number &&
         a->service == b->service && a->used == b->used && a->left == b->left && a->mark == b->mark &&
         a->parts == b->parts && a->reference == b->reference && same_elements(&a->numbers, &b->numbers, 2) &&
         same_elements(&a->sizes, &b->sizes, 2) &&
         memcmp(&a->block, &b->block, sizeof a->block) == 0 && same_reading(&a->reading, &b->reading) &&
         (out_digits == 0 || same_elements(&a->out, &b->out, out_digits));
}

/* ---- Running. */

static fence given_fence, long_fence, counts_fence, out_fence, sizes_fence;
static int wrong_silence; /* a value was set that the call's answer does not name */

static void take(const wikuay_answer *a, int counts, int codes) {
  came.refusal = a->refusal;
  came.position = (uint32_t)a->position;
  came.written = (uint32_t)a->written;
  came.count = a->count;
  came.coding = a->coding;
  if ((!counts && a->count) || (!codes && a->coding) || a->position > UINT32_MAX || a->written > UINT32_MAX)
    wrong_silence = 1;
}

static void take_read(const wikuay_read_answer *a, int reads, int holds) {
  static const wikuay_reading plain = WIKUAY_PLAIN;
  came.refusal = a->refusal;
  came.position = (uint32_t)a->position;
  came.written = (uint32_t)a->written;
  came.holds = a->holds;
  came.reading = a->reading;
  if ((!reads && !same_reading(&a->reading, &plain)) || (!holds && a->holds) || a->position > UINT32_MAX ||
      a->written > UINT32_MAX)
    wrong_silence = 1;
}

static void take_header(const wikuay_block_header *h) {
  came.sequence = h->sequence;
  came.identifier = h->identifier;
  came.coding = h->coding;
  came.total = h->total;
  came.number = h->number;
}

static void take_pages(const wikuay_pages_answer *a, int writes) {
  came.refusal = a->refusal;
  came.position = (uint32_t)a->position;
  came.written = (uint32_t)a->written;
  came.pages = a->pages;
  if ((!writes && a->written) || a->position > UINT32_MAX || a->written > UINT32_MAX) wrong_silence = 1;
}

static void take_page(const wikuay_page_answer *a) {
  came.refusal = a->refusal;
  came.position = (uint32_t)a->position;
  came.pages = a->pages;
  came.block = a->block;
  if (a->position > UINT32_MAX) wrong_silence = 1;
}

static void take_joined(const wikuay_join_answer *a) {
  came.refusal = a->refusal;
  came.position = (uint32_t)a->position;
  came.written = (uint32_t)a->written;
  came.reading = a->reading;
  came.sequence = a->sequence;
  came.identifier = a->identifier;
  came.pages = a->pages;
  if (a->position > UINT32_MAX || a->written > UINT32_MAX) wrong_silence = 1;
}

static void take_parts(const wikuay_parts_answer *a, int writes, int counts) {
  came.refusal = a->refusal;
  came.position = (uint32_t)a->position;
  came.written = (uint32_t)a->written;
  came.count = a->count;
  came.coding = a->coding;
  came.mark = a->mark;
  came.parts = a->parts;
  if ((!writes && (a->written || a->coding || a->mark)) || (!counts && a->count) || a->position > UINT32_MAX ||
      a->written > UINT32_MAX)
    wrong_silence = 1;
}

static void take_part(const wikuay_part_answer *a) {
  came.refusal = a->refusal;
  came.position = (uint32_t)a->position;
  came.written = (uint32_t)a->written;
  came.reading = a->reading;
  came.numbers.length = a->numbered ? 3 : 0;
  came.numbers.octets[0] = a->reference;
  came.numbers.octets[1] = a->total;
  came.numbers.octets[2] = a->number;
  if (a->numbered > 1 || (!a->numbered && (a->reference || a->total || a->number)) || a->position > UINT32_MAX ||
      a->written > UINT32_MAX)
    wrong_silence = 1;
}

static void take_joined_parts(const wikuay_parts_join_answer *a) {
  came.refusal = a->refusal;
  came.position = (uint32_t)a->position;
  came.written = (uint32_t)a->written;
  came.reading = a->reading;
  came.reference = a->reference;
  came.parts = a->parts;
  if (a->position > UINT32_MAX || a->written > UINT32_MAX) wrong_silence = 1;
}

static void take_meter(const wikuay_meter_answer *a) {
  came.refusal = a->refusal;
  came.position = (uint32_t)a->position;
  came.left = a->left;
  came.service = a->meter.service;
  came.used = a->meter.used;
  if (a->position > UINT32_MAX) wrong_silence = 1;
}

static int same_meter(const wikuay_meter_answer *a, const wikuay_meter_answer *b) {
  return a->refusal == b->refusal && a->position == b->position && a->left == b->left &&
         a->meter.service == b->meter.service && a->meter.used == b->meter.used;
}

/* A key by value and in place: the two must say the same, and leave the same record. */
static wikuay_meter_answer press(int c) {
  wikuay_meter before = {input.service, input.used}, kept = before;
  wikuay_meter_answer value, place;
  if (c == UNIT_ADDED)
    value = wikuay_unit_added(before, input.unit), place = wikuay_add_unit(&kept, input.unit);
  else if (c == UNIT_TAKEN_BACK)
    value = wikuay_unit_taken_back(before, input.unit), place = wikuay_take_back_unit(&kept, input.unit);
  else
    value = wikuay_meter_cleared(before), place = wikuay_clear_meter(&kept);
  if (!same_meter(&value, &place) || kept.service != value.meter.service || kept.used != value.meter.used)
    fail("a key in place is another than by value");
  return value;
}

/* Whether the elements that a call is given are units. */
static int takes_units(int c) {
  return c == TO_SEPTETS || c == WRITE_MESSAGE || c == COUNT_PAGES || c == BUILD_PAGE || c == WRITE_PAGES ||
         c == COUNT_PARTS || c == WRITE_PART || c == WRITE_PARTS;
}

/* Where an octet behind the first `kept` no longer holds the filling, or -1. */
static long first_other(const unsigned char *octets, size_t kept, size_t size) {
  for (; kept < size; kept++)
    if (octets[kept] != 0xA5) return (long)kept;
  return -1;
}

/* Runs the call with its buffers at a place. Answers the first touched element behind the written ones, or -1, and the
   same of the second buffer in `listed`. */
static long run_call(int c, int place, long *listed) {
  size_t wide = calls[c].digits / 2, in_wide = takes_units(c) ? 2 : 1, turn;
  size_t once = input.given.length * in_wide, given_len = input.given.length * input.times;
  size_t given_size = given_len * in_wide, out_size = input.room * wide, at, kept;
  const void *from = in_wide == 2 ? (const void *)input.given.units : (const void *)input.given.octets;
  fence in_fence = given_size > (size_t)(given_fence.high - given_fence.low) ? long_fence : given_fence;
  unsigned char *given = lend(in_fence, given_size, place), *out = lend(out_fence, out_size, place);
  unsigned char *counts = lend(counts_fence, input.counts.length, place), *sizes = lend(sizes_fence, input.list, place);
  const uint16_t *given_units = (const uint16_t *)(void *)given;
  uint16_t *out_units = (uint16_t *)(void *)out;
  wikuay_answer a;
  wikuay_read_answer r;
  wikuay_block block;
  wikuay_block_header header;
  wikuay_pages_answer pages;
  wikuay_page_answer page;
  wikuay_join_answer joined;
  wikuay_part_answer part;
  wikuay_parts_answer parts;
  wikuay_parts_join_answer joined_parts;
  wikuay_meter_answer metered;
  wikuay_meter meter = {input.service, input.used};
  long touched;
  for (turn = 0; once && turn < input.times; turn++) memcpy(given + turn * once, from, once);
  memcpy(counts, input.counts.octets, input.counts.length);
  memset(out, 0xA5, out_size);
  memset(sizes, 0xA5, input.list);
  memset(&came, 0, sizeof came);
  came.reading = wikuay_plain();
  switch (c) {
    case READ_CODING:
      r = wikuay_read_coding(input.service, (uint8_t)input.coding);
      take_read(&r, 1, 0);
      break;
    case WRITE_CODING:
      a = wikuay_write_coding(input.service, input.reading);
      take(&a, 0, 1);
      break;
    case HOLDS_TEXT:
      r = wikuay_holds_text(input.reading);
      take_read(&r, 0, 1);
      break;
    case PACK:
      a = wikuay_pack(input.service, given, given_len, out, input.room);
      take(&a, 1, 0);
      break;
    case UNPACK:
      a = wikuay_unpack(input.service, given, given_len, input.count, out, input.room);
      take(&a, 0, 0);
      break;
    case TO_SEPTETS:
      a = wikuay_text_to_septets(given_units, given_len, out, input.room);
      take(&a, 0, 0);
      break;
    case TO_TEXT:
      a = wikuay_septets_to_text(given, given_len, out_units, input.room);
      take(&a, 0, 0);
      break;
    case READ_MESSAGE:
      r = wikuay_read_message(input.service, (uint8_t)input.coding, input.count, given, given_len, out_units,
                              input.room);
      take_read(&r, 1, 0);
      break;
    case WRITE_MESSAGE:
      a = wikuay_write_message(input.service, input.reading, given_units, given_len, out, input.room);
      take(&a, 1, 1);
      break;
    case READ_HEADER:
      block = input.block;
      header = wikuay_read_header(block);
      if (memcmp(&block, &input.block, sizeof block) != 0) fail("a call stored into a block by value");
      take_header(&header);
      break;
    case COUNT_PAGES:
      pages = wikuay_count_pages(input.reading, given_units, given_len);
      take_pages(&pages, 0);
      break;
    case BUILD_PAGE:
      page = wikuay_build_page((uint16_t)input.sequence, (uint16_t)input.identifier, input.reading, given_units,
                               given_len, input.number);
      take_page(&page);
      break;
    case WRITE_PAGES:
      pages = wikuay_write_pages((uint16_t)input.sequence, (uint16_t)input.identifier, input.reading, given_units,
                                 given_len, out, input.room);
      take_pages(&pages, 1);
      break;
    case JOIN_PAGES:
      joined = wikuay_join_pages(given, given_len, out_units, input.room);
      take_joined(&joined);
      break;
    case NEW_METER:
      metered = wikuay_new_meter(input.service);
      take_meter(&metered);
      break;
    case ROOM_LEFT:
      metered = wikuay_room_left(meter);
      take_meter(&metered);
      break;
    case READ_PART:
      part = wikuay_read_part((uint8_t)input.coding, input.count, (uint8_t)input.mark, given, given_len, out_units,
                              input.room);
      take_part(&part);
      break;
    case COUNT_PARTS:
      parts = wikuay_count_parts(input.reading, given_units, given_len);
      take_parts(&parts, 0, 0);
      break;
    case WRITE_PART:
      parts = wikuay_write_part(input.reading, (uint8_t)input.reference, given_units, given_len, input.number, out,
                                input.room);
      take_parts(&parts, 1, 1);
      break;
    case WRITE_PARTS:
      parts = wikuay_write_parts(input.reading, (uint8_t)input.reference, given_units, given_len, out, input.room,
                                 sizes, input.list);
      take_parts(&parts, 1, 0);
      break;
    case JOIN_PARTS:
      joined_parts = wikuay_join_parts((uint8_t)input.coding, counts, input.counts.length, given, given_len, out_units,
                                       input.room);
      take_joined_parts(&joined_parts);
      break;
    default:
      metered = press(c);
      take_meter(&metered);
      break;
  }
  for (turn = 0; once && turn < input.times; turn++)
    if (memcmp(given + turn * once, from, once) != 0) fail("a call stored into its input");
  if (memcmp(counts, input.counts.octets, input.counts.length) != 0) fail("a call stored into its input");
  kept = came.written < input.room ? came.written : input.room;
  came.out.length = wide ? kept : 0;
  if (wide == 1) memcpy(came.out.octets, out, kept);
  if (wide == 2) memcpy(came.out.units, out, 2 * kept);
  for (at = kept; wide && at < input.room; at++)
    if (wide == 1 ? out[at] != 0xA5 : out_units[at] != 0xA5A5) break;
  touched = wide && at < input.room ? (long)at : -1;
  came.sizes.length = (size_t)2 * came.parts < input.list ? (size_t)2 * came.parts : input.list;
  memcpy(came.sizes.octets, sizes, came.sizes.length);
  *listed = first_other(sizes, came.sizes.length, input.list);
  if (!take_back(out_fence, out, out_size, place) || !take_back(in_fence, given, given_size, place) ||
      !take_back(counts_fence, counts, input.counts.length, place) || !take_back(sizes_fence, sizes, input.list, place))
    fail("a call stored outside its buffer");
  return touched;
}

/* Answers whether the line agrees; prints it where not. */
static int run_line(char *line, size_t length, unsigned long number) {
  static values first;
  char *words[MOST_WORDS];
  int count = 0, colon = -1, c = 0, place;
  size_t at;
  long touched, listed, again;
  if (length > LONGEST) {
    printf("line %lu: longer than %d characters\n", number, LONGEST);
    return 0;
  }
  for (at = 0; at < length; at++)
    if (line[at] < ' ' || '~' < line[at]) goto no_case;
  for (at = 0; at <= length; at++) {
    if (count == MOST_WORDS) goto no_case;
    words[count] = line + at;
    at += strcspn(line + at, " ");
    line[at] = 0;
    if (count >= 2 && colon < 0 && strcmp(words[count], ":") == 0) colon = count;
    count++;
  }
  if (colon < 0 || strlen(words[0]) == 0 || strlen(words[0]) > 64 ||
      words[0][strspn(words[0], "ABCDEFGHIJKLMNOPQRSTUVWXYZabcdefghijklmnopqrstuvwxyz0123456789.-_")] != 0)
    goto no_case;
  while (c < CALLS && strcmp(words[1], calls[c].name) != 0) c++;
  if (c == CALLS) goto no_case;
  memset(&input, 0, sizeof input);
  memset(&wanted, 0, sizeof wanted);
  input.reading = wanted.reading = wikuay_plain();
  input.times = 1;
  if (!parse_values(words, 2, colon, calls[c].inputs, calls[c].digits, &input) ||
      !parse_values(words, colon + 1, count, calls[c].answer, calls[c].digits, &wanted) ||
      (uint64_t)input.given.length * input.times > MOST_TEXT)
    goto no_case;
  wrong_silence = 0;
  touched = run_call(c, LOW, &listed);
  first = came;
  for (place = HIGH; place < PLACES; place++)
    if (run_call(c, place, &again) != touched || again != listed || !same_values(&first, &came, calls[c].digits))
      fail("a call answers by where its buffers lie");
  if (wrong_silence) fail("a call sets a value that its answer does not name");
  if (touched < 0 && listed < 0 && same_values(&wanted, &came, calls[c].digits)) return 1;
  printf("%s: expected ", words[0]);
  print_values(calls[c].answer, calls[c].digits, &wanted);
  printf("; came ");
  print_values(calls[c].answer, calls[c].digits, &came);
  if (touched >= 0) printf(" touched=%ld", touched);
  if (listed >= 0) printf(" listed=%ld", listed);
  printf("\n");
  return 0;
no_case:
  printf("line %lu: not a case\n", number);
  return 0;
}

int main(int words, char **word) {
  static char line[LONGEST + 3];
  unsigned long number = 0, cases = 0, differ = 0;
  int c;
  given_fence = new_fence(MOST_ELEMENTS);
  long_fence = new_fence(2 * MOST_TEXT);
  counts_fence = new_fence(MOST_ELEMENTS);
  out_fence = new_fence(2 * MOST_ROOM);
  sizes_fence = new_fence(MOST_ROOM);
  if (words == 2 && strcmp(word[1], "low") == 0) *((volatile unsigned char *)out_fence.low - 1) = 1;
  if (words == 2 && strcmp(word[1], "high") == 0) *(volatile unsigned char *)out_fence.high = 1;
  if (words != 1) fail("the argument is none, low or high, and the last two do not come back");
  c = getchar();
  while (c != EOF) {
    size_t length = 0;
    for (; c != EOF && c != '\n'; c = getchar())
      if (length <= LONGEST) line[length++] = (char)c;
    line[length] = 0;
    number++;
    if (length != 0 && line[0] != '#') {
      cases++;
      differ += !run_line(line, length, number);
    }
    if (c != EOF) c = getchar();
  }
  if (ferror(stdin)) fail("standard input cannot be read");
  printf("%lu cases, %lu differ\n", cases, differ);
  return differ != 0;
}
