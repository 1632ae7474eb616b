/* The peers of the benchmark, out of Debian's packages: libosmocore, gammu, and wireshark, which only reads.
   They are loaded while the harness runs, so that it also runs without them. Their prototypes are written out here. */
#include "sides.h"
#include <dlfcn.h>
#include <stdio.h>
#include <string.h>

static const one_case *now;
static const char *const one_page = "has no call for several pages, for keys or for parts";
static uint8_t septets[512];
static uint8_t octets[512];
static size_t written;
static int count;

static void *open_library(const char *file) {
  void *library = dlopen(file, RTLD_NOW | RTLD_LOCAL);
  if (!library) fprintf(stderr, "bench: %s\n", dlerror());
  return library;
}

/* ISO C has no cast from an object's address to a function's. */
static int find(void *library, const char *name, void *pointer) {
  void *found = dlsym(library, name);
  if (!found) fprintf(stderr, "bench: %s\n", dlerror());
  memcpy(pointer, &found, sizeof found);
  return found != NULL;
}

static size_t septets_to_read(void) {
  return now->service == SMS ? now->count : 8 * now->octets_len / 7;
}

/* ---- libosmocore: text is one octet a letter, closed by a zero. ---- */

static int (*osmo_encode)(uint8_t *result, size_t n, const char *data, int *octets_written);
static int (*osmo_encode_ussd)(uint8_t *result, size_t n, const char *data, int *octets_written);
static int (*osmo_decode)(char *text, size_t n, const uint8_t *user_data, uint8_t length);
static int (*osmo_decode_ussd)(char *text, size_t n, const uint8_t *user_data, uint8_t length);
static int (*osmo_septets)(uint8_t *result, const char *data);
static int (*osmo_pack)(uint8_t *result, const uint8_t *septets, size_t septets_len, uint8_t padding);
static char letters[512];

static const char *osmo_load(void) {
  void *library = open_library("libosmogsm.so");
  if (!library) return "the library does not load";
  return find(library, "gsm_7bit_encode_n", &osmo_encode) && find(library, "gsm_7bit_encode_n_ussd", &osmo_encode_ussd) &&
                 find(library, "gsm_7bit_decode_n", &osmo_decode) && find(library, "gsm_7bit_decode_n_ussd", &osmo_decode_ussd) &&
                 find(library, "gsm_septet_encode", &osmo_septets) && find(library, "gsm_septet_pack", &osmo_pack)
             ? NULL
             : "a call is missing";
}

static const char *osmo_prepare(const one_case *given) {
  now = given;
  if (given->service >= PAGES) return one_page;
  if (given->alphabet != 0) return "has no call for UCS2";
  memset(letters, 0, sizeof letters);
  if (given->writing)
    for (size_t i = 0; i < given->units; i++) {
      if (given->text[i] > 0xFF) return "takes text of one octet a letter, which cannot hold this unit";
      letters[i] = (char)given->text[i];
    }
  return NULL;
}

static void osmo_run(void) {
  int used = 0;
  if (now->writing) {
    if (now->service == PAGE) {
      /* It has no call for a page: the page is filled between its two steps. */
      count = osmo_septets(septets, letters);
      memset(septets + count, 0x0D, (size_t)(93 - count));
      used = osmo_pack(octets, septets, 93, 0);
    } else {
      count = now->service == USSD ? osmo_encode_ussd(octets, ROOM_OCTETS, letters, &used)
                                   : osmo_encode(octets, ROOM_OCTETS, letters, &used);
    }
    written = (size_t)used;
  } else {
    used = now->service == USSD ? osmo_decode_ussd(letters, sizeof letters, now->octets, (uint8_t)septets_to_read())
                                : osmo_decode(letters, sizeof letters, now->octets, (uint8_t)septets_to_read());
    if (now->service == PAGE)
      while (used > 0 && letters[used - 1] == 0x0D) used--;
    written = (size_t)used;
  }
}

static void osmo_answer(one_answer *got) {
  got->refusal = 0;
  got->position = 0;
  got->written = written;
  if (now->writing) {
    memcpy(got->octets, octets, sizeof octets);
    if (now->service == SMS) got->count = (uint32_t)count;
  } else {
    for (size_t i = 0; i < written; i++) got->units[i] = (unsigned char)letters[i];
  }
}

const side peer_libosmocore = { "libosmocore", osmo_load, osmo_prepare, osmo_run, NULL, osmo_answer, NULL, NULL };

/* ---- gammu: text is two octets a unit, high octet first, closed by a zero unit. ---- */

static void (*gammu_encode)(unsigned char *dest, const unsigned char *src, size_t *len, int extensions, unsigned char *extra);
static void (*gammu_decode)(unsigned char *dest, const unsigned char *src, size_t len, int extensions, unsigned char *extra);
static int (*gammu_pack)(size_t offset, const unsigned char *input, unsigned char *output, size_t length);
static int (*gammu_unpack)(size_t offset, size_t in_length, size_t out_length, const unsigned char *input, unsigned char *output);
static unsigned char pairs[1024];

static const char *gammu_load(void) {
  void *library = open_library("libGammu.so");
  if (!library) return "the library does not load";
  return find(library, "EncodeDefault", &gammu_encode) && find(library, "DecodeDefault", &gammu_decode) &&
                 find(library, "GSM_PackSevenBitsToEight", &gammu_pack) && find(library, "GSM_UnpackEightBitsToSeven", &gammu_unpack)
             ? NULL
             : "a call is missing";
}

static const char *gammu_prepare(const one_case *given) {
  now = given;
  if (given->service >= PAGES) return one_page;
  if (given->alphabet != 0) return "keeps text as these very octets, so that there is nothing to do";
  memset(pairs, 0, sizeof pairs);
  if (given->writing)
    for (size_t i = 0; i < given->units; i++) {
      pairs[2 * i] = (unsigned char)(given->text[i] >> 8);
      pairs[2 * i + 1] = (unsigned char)given->text[i];
    }
  return NULL;
}

static void gammu_run(void) {
  if (now->writing) {
    size_t used = now->units;
    gammu_encode(septets, pairs, &used, 1, NULL);
    count = (int)used;
    if (now->service == PAGE) {
      memset(septets + used, 0x0D, 93 - used);
      used = 93;
    }
    written = (size_t)gammu_pack(0, septets, octets, used);
  } else {
    size_t used = (size_t)gammu_unpack(0, now->octets_len, septets_to_read(), now->octets, septets);
    if (now->service == PAGE)
      while (used > 0 && septets[used - 1] == 0x0D) used--;
    gammu_decode(pairs, septets, used, 1, NULL);
  }
}

static void gammu_answer(one_answer *got) {
  got->refusal = 0;
  got->position = 0;
  if (now->writing) {
    got->written = written;
    memcpy(got->octets, octets, sizeof octets);
    if (now->service == SMS) got->count = (uint32_t)count;
  } else {
    size_t i = 0;
    for (; pairs[2 * i] != 0 || pairs[2 * i + 1] != 0; i++) got->units[i] = (uint16_t)(pairs[2 * i] << 8 | pairs[2 * i + 1]);
    got->written = i;
  }
}

const side peer_gammu = { "gammu", gammu_load, gammu_prepare, gammu_run, NULL, gammu_answer, NULL, NULL };

/* ---- wireshark: reads only, into UTF-8 of its own storage. ---- */

static unsigned char *(*shark_read)(void *scope, const unsigned char *from, int bit_offset, int septets);
static void (*shark_free)(void *scope, void *storage);
static unsigned char utf8[1024];

static const char *shark_load(void) {
  void *library = open_library("libwireshark.so");
  if (!library) return "the library does not load";
  return find(library, "get_ts_23_038_7bits_string_packed", &shark_read) && find(library, "wmem_free", &shark_free)
             ? NULL
             : "a call is missing";
}

static const char *shark_prepare(const one_case *given) {
  now = given;
  if (given->service >= PAGES) return one_page;
  if (given->writing) return "only reads";
  if (given->alphabet != 0) return "has no call of its own for UCS2";
  return NULL;
}

static void shark_run(void) {
  unsigned char *text = shark_read(NULL, now->octets, 0, (int)septets_to_read());
  size_t used = strlen((char *)text);
  if (now->service == PAGE)
    while (used > 0 && text[used - 1] == 0x0D) used--;
  memcpy(utf8, text, used);
  utf8[used] = 0;
  shark_free(NULL, text);
}

static void shark_answer(one_answer *got) {
  size_t used = 0;
  for (size_t i = 0; utf8[i] != 0;) {
    unsigned first = utf8[i];
    if (first < 0x80) {
      got->units[used++] = (uint16_t)first;
      i += 1;
    } else if (first < 0xE0) {
      got->units[used++] = (uint16_t)((first & 0x1F) << 6 | (utf8[i + 1] & 0x3F));
      i += 2;
    } else {
      got->units[used++] = (uint16_t)((first & 0x0F) << 12 | (utf8[i + 1] & 0x3F) << 6 | (utf8[i + 2] & 0x3F));
      i += 3;
    }
  }
  got->refusal = 0;
  got->position = 0;
  got->written = used;
}

const side peer_wireshark = { "wireshark", shark_load, shark_prepare, shark_run, NULL, shark_answer, NULL, NULL };
