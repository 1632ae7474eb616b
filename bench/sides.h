/* What the benchmark's harness and its sides share: a case, an answer, and a side. */
#ifndef SIDES_H
#define SIDES_H
#include "meter.h"
#include <stddef.h>
#include <stdint.h>

/* PAGES are all pages of a broadcast message, and BUILT its last one alone. LETTERED is one page behind language letters. METER types a text key by
   key, where it is written, and takes it back key by key, where it is read. PARTS are all parts of a long short message, and PART its last one alone. */
enum { SMS = 0, PAGE = 1, USSD = 2, PAGES = 3, BUILT = 4, LETTERED = 5, METER = 6, PARTS = 7, PART = 8 };
enum { ROOM_OCTETS = 160, ROOM_UNITS = 182, PAGES_OCTETS = 1320, PAGES_UNITS = 1395, BLOCK = 88 };
enum { PARTS_OCTETS = 35700, PARTS_UNITS = 39015, PARTS_SIZES = 510, MOST_PARTS = 255 };

typedef struct {
  int writing;                 /* 1 text into octets, 0 octets into text */
  uint32_t service;            /* SMS .. PART */
  uint8_t alphabet;            /* 0 7-bit, 2 UCS2 */
  const char *kind;            /* letters, extension, euro, refused, circumflex, han */
  size_t length;               /* septets of the text, or its units in UCS2 */
  size_t units;
  uint16_t text[PARTS_UNITS];
  uint8_t coding;              /* to read: what the library wrote for the text, of pages and of parts in reverse order */
  uint8_t mark;
  uint32_t count;
  size_t parts;
  uint8_t counts[MOST_PARTS];
  size_t octets_len;
  uint8_t octets[PARTS_OCTETS];
} one_case;

typedef struct {
  uint32_t refusal;
  size_t position;
  uint32_t count;              /* of several pages or parts how many they are */
  uint8_t coding;
  uint32_t numbers;            /* of pages that are joined the sequence number and the message identifier, of one message read its letters, of
                                  a part that is read its numbers, of parts that are written the mark and a count, of joined ones the reference */
  size_t written;
  uint8_t octets[PARTS_OCTETS];
  uint16_t units[PARTS_UNITS];
  uint8_t sizes[PARTS_SIZES];
} one_answer;

typedef struct {
  const char *name;
  /* Loads the side. Answers 0, or why it cannot be had. */
  const char *(*load)(void);
  /* Brings the case into the side's own form, outside the measurement. Answers 0, or why it cannot be given. */
  const char *(*prepare)(const one_case *given);
  /* The measured call, and that of several pages, which is apart so that neither pays for the choice. */
  call run;
  call run_pages;
  /* What came of the call. A part that the side has no word for is left as it stands: it is the library's own. */
  void (*answer)(one_answer *got);
  /* The keys of a meter, and the parts of a long short message, where the side has them. */
  call run_keys;
  call run_parts;
} side;

extern const side peer_libosmocore, peer_gammu, peer_wireshark;
#endif
