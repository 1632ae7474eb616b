/*
 * wikuay.h: the text that mobile networks carry, by 3GPP TS 23.038, broadcasts of several pages, in the blocks of 3GPP
 * TS 23.041, short messages of several parts, behind the user data header of 3GPP TS 23.040, and the room left while a
 * text is typed. C99 and C++11, for x86-64 Linux.
 *
 * Link libwikuay.a or libwikuay.so. Nothing is allocated, kept or printed; every call returns and may run in any
 * thread.
 *
 * A call asks nothing of the values that it is given: it answers on every number, octet and unit. Of pointers and
 * lengths it asks what C asks, and nothing else:
 * - A pointer is not NULL, also where its length is 0, is aligned, and is valid for that many elements.
 * - The lent buffers `out` and `sizes` overlap no input and not each other.
 * - No length is over PTRDIFF_MAX octets.
 *
 * Lengths and positions count elements: octets, septets or units. A septet is an octet of 0 to 127. A unit is a
 * native uint16_t of UCS2, and each stands alone: a lone surrogate is a unit like any other, written and read as it is.
 * A flag is a uint8_t of 0 or 1. The count is TP-UDL, and a coding octet is the data coding scheme (DCS).
 *
 * An answer with refusal 0 is a success: the result is the first `written` elements of `out`, and the rest of `out` is
 * as it came. Any other answer is a refusal: `out` is as it came, and so are `sizes` and a meter; written, count,
 * coding, holds, pages, sequence, identifier, parts, mark, numbered, reference, total and number are 0, the octets of a
 * block are 0, and the reading is WIKUAY_PLAIN. Each call names its refusals in the order in which they are judged, and
 * its clauses of TS 23.038. Every call is proved to answer so: docs/OUTCOMES.md of the source names the theorems.
 */
#ifndef WIKUAY_H
#define WIKUAY_H

#include <stddef.h>
#include <stdint.h>

#ifdef __cplusplus
extern "C" {
#endif

/* The version of this header. WIKUAY_VERSION_NUMBER compares: 102 is 0.1.2. */
#define WIKUAY_VERSION "0.1.0"
#define WIKUAY_VERSION_MAJOR 0
#define WIKUAY_VERSION_MINOR 1
#define WIKUAY_VERSION_PATCH 0
#define WIKUAY_VERSION_NUMBER (WIKUAY_VERSION_MAJOR * 10000 + WIKUAY_VERSION_MINOR * 100 + WIKUAY_VERSION_PATCH)

/* Services. Any other number is refused 8 before all else, in every call that takes a service. */
#define WIKUAY_SHORT_MESSAGE 0
#define WIKUAY_BROADCAST 1
#define WIKUAY_USSD 2
#define WIKUAY_OLD_PAGE 3 /* the broadcast page of 1991, which is read only */

/* Refusals. The numbers are permanent. */
#define WIKUAY_REFUSED_COMPRESSED 1     /* compressed text */
#define WIKUAY_REFUSED_NO_TEXT 2        /* the coding holds no text: 8-bit, WAP, I1, an old page's alphabet not 0 */
#define WIKUAY_REFUSED_PREFIXED 3       /* the coding has the prefix mark, but on one page, or the header mark */
#define WIKUAY_REFUSED_WRONG_LENGTH 4   /* octets do not fit the service or counts, or are not whole blocks or units */
#define WIKUAY_REFUSED_TOO_LONG 5       /* text over its service, behind letters, 15 pages, 255 parts; a meter's sum */
#define WIKUAY_REFUSED_UNLISTED 6       /* a unit is not in the alphabet; position: the first such unit */
#define WIKUAY_REFUSED_NO_ROOM 7        /* a lent buffer is shorter than the result */
#define WIKUAY_REFUSED_UNWRITABLE 8     /* the reading cannot be written under the service; a number names nothing */
#define WIKUAY_REFUSED_NO_SEPTET 9      /* a given septet is 128 or more; position: the first such septet */
#define WIKUAY_REFUSED_WRONG_PAGES 10   /* pages or parts that are not those of one message; one that it lacks */
#define WIKUAY_REFUSED_WRONG_LETTERS 11 /* a language letter is not a to z, or there is no CR behind them */
#define WIKUAY_REFUSED_WRONG_HEADER 12  /* a user data header longer than its part, or an element of wrong length */
/* Not given yet by any call. */
#define WIKUAY_REFUSED_NO_TABLE 13   /* no table for the language */
#define WIKUAY_REFUSED_ILL_FORMED 14 /* ill-formed sequence or lone surrogate */

/* The constant's own name, and what the command prints. 0 is no refusal; another number is unknown. */
static inline const char *wikuay_refusal_name(uint32_t refusal) {
  switch (refusal) {
    case 0: return "none";
    case WIKUAY_REFUSED_COMPRESSED: return "WIKUAY_REFUSED_COMPRESSED";
    case WIKUAY_REFUSED_NO_TEXT: return "WIKUAY_REFUSED_NO_TEXT";
    case WIKUAY_REFUSED_PREFIXED: return "WIKUAY_REFUSED_PREFIXED";
    case WIKUAY_REFUSED_WRONG_LENGTH: return "WIKUAY_REFUSED_WRONG_LENGTH";
    case WIKUAY_REFUSED_TOO_LONG: return "WIKUAY_REFUSED_TOO_LONG";
    case WIKUAY_REFUSED_UNLISTED: return "WIKUAY_REFUSED_UNLISTED";
    case WIKUAY_REFUSED_NO_ROOM: return "WIKUAY_REFUSED_NO_ROOM";
    case WIKUAY_REFUSED_UNWRITABLE: return "WIKUAY_REFUSED_UNWRITABLE";
    case WIKUAY_REFUSED_NO_SEPTET: return "WIKUAY_REFUSED_NO_SEPTET";
    case WIKUAY_REFUSED_WRONG_PAGES: return "WIKUAY_REFUSED_WRONG_PAGES";
    case WIKUAY_REFUSED_WRONG_LETTERS: return "WIKUAY_REFUSED_WRONG_LETTERS";
    case WIKUAY_REFUSED_WRONG_HEADER: return "WIKUAY_REFUSED_WRONG_HEADER";
    case WIKUAY_REFUSED_NO_TABLE: return "WIKUAY_REFUSED_NO_TABLE";
    case WIKUAY_REFUSED_ILL_FORMED: return "WIKUAY_REFUSED_ILL_FORMED";
    default: return "unknown";
  }
}

static inline const char *wikuay_refusal_text(uint32_t refusal) {
  switch (refusal) {
    case 0: return "nothing is refused";
    case WIKUAY_REFUSED_COMPRESSED: return "the text is compressed";
    case WIKUAY_REFUSED_NO_TEXT: return "the coding holds no text";
    case WIKUAY_REFUSED_PREFIXED: return "the coding has the prefix mark or the header mark";
    case WIKUAY_REFUSED_WRONG_LENGTH: return "the octets do not fit the service or the count";
    case WIKUAY_REFUSED_TOO_LONG: return "the text is over the service's size";
    case WIKUAY_REFUSED_UNLISTED: return "a unit is not in the alphabet";
    case WIKUAY_REFUSED_NO_ROOM: return "the buffer is too short";
    case WIKUAY_REFUSED_UNWRITABLE: return "the reading cannot be written under this service";
    case WIKUAY_REFUSED_NO_SEPTET: return "a septet is 128 or more";
    case WIKUAY_REFUSED_WRONG_PAGES: return "the pages or parts are not those of one message";
    case WIKUAY_REFUSED_WRONG_LETTERS: return "the language letters are wrong";
    case WIKUAY_REFUSED_WRONG_HEADER: return "the user data header is wrong";
    case WIKUAY_REFUSED_NO_TABLE: return "there is no table for the language";
    case WIKUAY_REFUSED_ILL_FORMED: return "a sequence is ill-formed, or a surrogate is alone";
    default: return "there is no such refusal";
  }
}

/* The most of each service. A buffer of WIKUAY_MOST_.. elements is never refused 7 by the calls named beside it. */
#define WIKUAY_SHORT_MESSAGE_SEPTETS 160
#define WIKUAY_SHORT_MESSAGE_UNITS 70 /* of UCS2, as below */
#define WIKUAY_SHORT_MESSAGE_OCTETS 140
#define WIKUAY_BROADCAST_SEPTETS 93
#define WIKUAY_BROADCAST_UNITS 41
#define WIKUAY_BROADCAST_OCTETS 82 /* exactly */
#define WIKUAY_LETTERED_SEPTETS 90 /* of a broadcast page behind its language letters and their CR */
#define WIKUAY_LETTERED_UNITS 40   /* the same of UCS2, which has no CR there */
#define WIKUAY_USSD_SEPTETS 182
#define WIKUAY_USSD_UNITS 80
#define WIKUAY_USSD_OCTETS 160
#define WIKUAY_OLD_PAGE_SEPTETS 93
#define WIKUAY_OLD_PAGE_OCTETS 82 /* exactly */
#define WIKUAY_MOST_OCTETS 160    /* room for what wikuay_pack, wikuay_write_message and wikuay_write_part store */
#define WIKUAY_MOST_SEPTETS 182   /* room for what wikuay_unpack stores */
#define WIKUAY_MOST_UNITS 182     /* room for what wikuay_read_message and wikuay_read_part store */

/* Broadcasts of several pages. A page holds as much as one by itself: 93 septets or 41 units. */
#define WIKUAY_BLOCK_OCTETS 88   /* exactly: six of the header and 82 of text */
#define WIKUAY_MOST_PAGES 15
#define WIKUAY_PAGES_OCTETS 1320 /* room for what wikuay_write_pages stores */
#define WIKUAY_PAGES_UNITS 1395  /* room for what wikuay_join_pages stores */

/* Short messages of several parts. A text that fits alone, 160 septets or 70 units, is one part without a header. In
   front of every part of a longer one stands a header of 6 octets. wikuay_join_parts takes headers of other sizes too,
   but none is smaller that says which part it is, so that no part holds more than here. */
#define WIKUAY_PART_SEPTETS 153   /* of a part behind its header */
#define WIKUAY_PART_UNITS 67      /* the same of UCS2 */
#define WIKUAY_MOST_PARTS 255
#define WIKUAY_PARTS_OCTETS 35700 /* room for what wikuay_write_parts stores */
#define WIKUAY_PARTS_SIZES 510    /* room for the sizes beside them */
#define WIKUAY_PARTS_UNITS 39015  /* room for what wikuay_join_parts stores */

/* A meter counts up to so many septets: far more than a service holds, since it goes on below zero. */
#define WIKUAY_METER_SEPTETS 65535

/* Alphabets of a reading. */
#define WIKUAY_7BIT 0
#define WIKUAY_8BIT 1
#define WIKUAY_UCS2 2
#define WIKUAY_WAP 3
#define WIKUAY_I1 4 /* a message of the I1 protocol, 3GPP TS 24.294 */

/* Classes of a reading. */
#define WIKUAY_NO_CLASS 0
#define WIKUAY_CLASS_0 1
#define WIKUAY_CLASS_1 2
#define WIKUAY_CLASS_2 3
#define WIKUAY_CLASS_3 4
#define WIKUAY_USER_DEFINED_1 5
#define WIKUAY_USER_DEFINED_2 6

/* Languages of a reading. */
#define WIKUAY_GERMAN 0
#define WIKUAY_ENGLISH 1
#define WIKUAY_ITALIAN 2
#define WIKUAY_FRENCH 3
#define WIKUAY_SPANISH 4
#define WIKUAY_DUTCH 5
#define WIKUAY_SWEDISH 6
#define WIKUAY_DANISH 7
#define WIKUAY_PORTUGUESE 8
#define WIKUAY_FINNISH 9
#define WIKUAY_NORWEGIAN 10
#define WIKUAY_GREEK 11
#define WIKUAY_TURKISH 12
#define WIKUAY_HUNGARIAN 13
#define WIKUAY_POLISH 14
#define WIKUAY_NO_LANGUAGE 15 /* unspecified */
#define WIKUAY_CZECH 16
#define WIKUAY_HEBREW 17
#define WIKUAY_ARABIC 18
#define WIKUAY_RUSSIAN 19
#define WIKUAY_ICELANDIC 20

/* Waiting notices of a reading: WIKUAY_NO_NOTICE, or how it is kept + whether it is active + its kind. */
#define WIKUAY_NO_NOTICE 0
#define WIKUAY_DISCARD 16
#define WIKUAY_STORE 32
#define WIKUAY_ACTIVE 8
#define WIKUAY_VOICEMAIL 0
#define WIKUAY_FAX 1
#define WIKUAY_MAIL 2
#define WIKUAY_OTHER 3

/* What wikuay_holds_text answers. */
#define WIKUAY_HOLDS_NOTHING 0
#define WIKUAY_HOLDS_7BIT 1
#define WIKUAY_HOLDS_UCS2 2

/* What a data coding octet says, and the letters that name the language in front of the text. They are those of a
   broadcast page with the prefix mark, 'a' to 'z', and 0 where absent. Any other number is a wrong letter: none is
   refused as a field that names nothing. */
typedef struct {
  uint8_t alphabet;      /* WIKUAY_7BIT .. WIKUAY_I1 */
  uint8_t compressed;    /* flag */
  uint8_t message_class; /* WIKUAY_NO_CLASS .. WIKUAY_USER_DEFINED_2 */
  uint8_t language;      /* WIKUAY_GERMAN .. WIKUAY_ICELANDIC */
  uint8_t deletion;      /* flag: the message is marked for automatic deletion */
  uint8_t prefix;        /* flag: the text begins with its language */
  uint8_t reserved;      /* flag: the coding is reserved, and reads as 7-bit text */
  uint8_t header;        /* flag: the message begins with a user data header */
  uint16_t notice;       /* WIKUAY_NO_NOTICE, or a sum as above */
  uint8_t first_letter;  /* 'a' to 'z', or 0 where absent */
  uint8_t second_letter; /* the same */
} wikuay_reading;

/* The reading of 7-bit text with nothing special, for any service but the old page. WIKUAY_PLAIN initialises one, and
   wikuay_plain() is one. */
#define WIKUAY_PLAIN {WIKUAY_7BIT, 0, WIKUAY_NO_CLASS, WIKUAY_NO_LANGUAGE, 0, 0, 0, 0, WIKUAY_NO_NOTICE, 0, 0}

static inline wikuay_reading wikuay_plain(void) {
  wikuay_reading reading = WIKUAY_PLAIN;
  return reading;
}

/* What a call answers that writes, or that fills a lent buffer. */
typedef struct {
  uint32_t refusal; /* 0, or a WIKUAY_REFUSED_.. number */
  uint32_t count;   /* the length count that travels with a short message (TP-UDL), else 0 */
  size_t position;  /* the unit or septet of refusal 6 or 9, else 0 */
  size_t written;   /* elements stored at the front of out */
  uint8_t coding;   /* the data coding octet of wikuay_write_coding and wikuay_write_message, else 0 */
} wikuay_answer;

/* What a call answers that reads a coding. */
typedef struct {
  uint32_t refusal; /* 0, or a WIKUAY_REFUSED_.. number */
  size_t position;  /* 0, since no refusal of these calls has a position */
  size_t written;   /* units stored at the front of out, by wikuay_read_message, else 0 */
  uint32_t holds;   /* a WIKUAY_HOLDS_.. number of wikuay_holds_text, else 0 */
  wikuay_reading reading; /* of wikuay_read_coding and wikuay_read_message, else WIKUAY_PLAIN */
} wikuay_read_answer;

/* One page of a broadcast, by value. Octets are counted from 1, and of a pair the high octet is first:
   1 and 2 are the sequence number, 3 and 4 the message identifier, 5 is the data coding octet, 6 holds the total of
   pages in its bits 3..0 and the number of this page, from 1, in its bits 7..4, and 7 to 88 are the text. */
typedef struct {
  uint8_t octets[WIKUAY_BLOCK_OCTETS];
} wikuay_block;

/* What stands in a block in front of the text. */
typedef struct {
  uint16_t sequence;   /* the sequence number */
  uint16_t identifier; /* the message identifier */
  uint8_t coding;      /* the data coding octet */
  uint8_t total;       /* how many pages the message has, 0 to 15 */
  uint8_t number;      /* which of them this is, 0 to 15 */
} wikuay_block_header;

/* What a call answers that counts the pages of a text, or writes all of them. */
typedef struct {
  uint32_t refusal; /* 0, or a WIKUAY_REFUSED_.. number */
  uint32_t pages;   /* how many pages the message has, 1 to WIKUAY_MOST_PAGES */
  size_t position;  /* the unit of refusal 6, else 0 */
  size_t written;   /* octets stored at the front of out by wikuay_write_pages, 88 a page, else 0 */
} wikuay_pages_answer;

/* What a call answers that builds a page. */
typedef struct {
  uint32_t refusal;   /* 0, or a WIKUAY_REFUSED_.. number */
  uint32_t pages;     /* how many pages the message has, 1 to WIKUAY_MOST_PAGES */
  size_t position;    /* the unit of refusal 6, else 0 */
  wikuay_block block; /* the page; all zero in a refusal */
} wikuay_page_answer;

/* What a call answers that joins pages. */
typedef struct {
  uint32_t refusal;       /* 0, or a WIKUAY_REFUSED_.. number */
  uint32_t pages;         /* how many pages the message has, 1 to WIKUAY_MOST_PAGES */
  size_t position;        /* 0, since no refusal of this call has a position */
  size_t written;         /* units stored at the front of out */
  uint16_t sequence;      /* the sequence number of every block */
  uint16_t identifier;    /* the message identifier of every block */
  wikuay_reading reading; /* what the coding octet of every block says */
} wikuay_join_answer;

/* What a call answers that counts the parts of a text, or writes one or all of them. */
typedef struct {
  uint32_t refusal; /* 0, or a WIKUAY_REFUSED_.. number */
  uint32_t parts;   /* how many parts the message has, 1 to WIKUAY_MOST_PARTS */
  size_t position;  /* the unit of refusal 6, else 0 */
  size_t written;   /* octets stored at the front of out, by wikuay_write_part and wikuay_write_parts, else 0 */
  uint32_t count;   /* of the one part that wikuay_write_part writes: its length count (TP-UDL), else 0 */
  uint8_t coding;   /* the data coding octet of every part, but 0 of wikuay_count_parts */
  uint8_t mark;     /* 1 where a user data header stands in front of each part, else 0; 0 of wikuay_count_parts */
} wikuay_parts_answer;

/* What a call answers that reads one part. The numbers are told as they stand, and 0 where there are none. */
typedef struct {
  uint32_t refusal;       /* 0, or a WIKUAY_REFUSED_.. number */
  uint8_t numbered;       /* 1 where the header gives the three numbers of a part, else 0 */
  uint8_t reference;      /* the same for all parts of one message */
  uint8_t total;          /* how many parts the message has */
  uint8_t number;         /* which of them this is, from 1 */
  size_t position;        /* 0, since no refusal of this call has a position */
  size_t written;         /* units stored at the front of out */
  wikuay_reading reading; /* what the coding octet says */
} wikuay_part_answer;

/* What a call answers that joins parts. */
typedef struct {
  uint32_t refusal;       /* 0, or a WIKUAY_REFUSED_.. number */
  uint32_t parts;         /* how many parts the message has, 1 to WIKUAY_MOST_PARTS */
  size_t position;        /* 0, since no refusal of this call has a position */
  size_t written;         /* units stored at the front of out */
  uint8_t reference;      /* the reference of every part */
  wikuay_reading reading; /* what the coding octet says */
} wikuay_parts_join_answer;

/* A meter: one small record, kept while a text is typed. No text is kept, and a key takes the same time whatever was
   typed before. */
typedef struct {
  uint32_t service; /* WIKUAY_SHORT_MESSAGE .. WIKUAY_OLD_PAGE */
  uint32_t used;    /* how many septets the text takes, 0 to WIKUAY_METER_SEPTETS where only keys changed it */
} wikuay_meter;

/* What a call of a meter answers. */
typedef struct {
  uint32_t refusal;   /* 0, or a WIKUAY_REFUSED_.. number */
  size_t position;    /* 0, since no refusal of these calls has a position */
  int64_t left;       /* the number to show: how many septets remain, below zero where the text is over; 0 where the
                         service is unknown */
  wikuay_meter meter; /* the record after the key; as it came in a refusal */
} wikuay_meter_answer;

/* The version of the library that is linked, as WIKUAY_VERSION_NUMBER has that of the header. Refuses nothing. */
uint32_t wikuay_version(void);

/*
 * Reads a data coding octet. It says no language letters: those of the reading are 0. Clauses 4 and 5.
 * Refuses: 8 unknown service, 2 an old page whose bits 3..0 are not 0.
 */
wikuay_read_answer wikuay_read_coding(uint32_t service, uint8_t coding);

/*
 * Writes a reading as the smallest octet that reads so, whatever its language letters are. Clauses 4 and 5.
 * Refuses: 8 unknown service, a field that names nothing, an old page, the reserved mark, no octet reads so.
 */
wikuay_answer wikuay_write_coding(uint32_t service, wikuay_reading reading);

/*
 * Which text a reading holds under every service, whatever its language letters are. Clauses 4 and 5.
 * A reading with the prefix mark holds text on one broadcast page alone, so it is refused 3 here, and one with the
 * header mark holds none.
 * Refuses: 8 a field that names nothing, 1, 2, 3.
 */
wikuay_read_answer wikuay_holds_text(wikuay_reading reading);

/*
 * Packs septets into octets, filling and added carriage return included. Clauses 6.1.2.1, 6.1.2.2 and 6.1.2.3.
 * Refuses: 8 unknown service or an old page, 9, 5, 7. Stores octets; count holds the septets of a short message.
 */
wikuay_answer wikuay_pack(uint32_t service, const uint8_t *septets, size_t septets_len, uint8_t *out, size_t out_len);

/*
 * Unpacks octets into septets, filling dropped. Clauses 6.1.2.1, 6.1.2.2 and 6.1.2.3.
 * count is the septets of a short message, and 0 for the other services.
 * Refuses: 8 unknown service, 4, 7. Stores septets.
 */
wikuay_answer wikuay_unpack(uint32_t service, const uint8_t *octets, size_t octets_len, size_t count, uint8_t *out,
                            size_t out_len);

/*
 * Text to septets, by the alphabet and its extension. Clauses 6.2.1 and 6.2.1.1.
 * Refuses: 6, 7. Stores septets, at most two a unit.
 */
wikuay_answer wikuay_text_to_septets(const uint16_t *text, size_t text_len, uint8_t *out, size_t out_len);

/*
 * Septets to text, by the alphabet and its extension. Clauses 6.2.1 and 6.2.1.1.
 * Refuses: 9, 7. Stores units, at most one a septet.
 */
wikuay_answer wikuay_septets_to_text(const uint8_t *septets, size_t septets_len, uint16_t *out, size_t out_len);

/*
 * Reads a message: its text, and what its coding octet says. Clauses 4, 5 and 6.
 * count is the septets of a 7-bit short message, the octets of a UCS2 one, and 0 for the other services.
 * The reading of a broadcast page with the prefix mark has its language letters. Behind them, and behind the CR that
 * 7-bit text has there, CRs that close the text are dropped.
 * Refuses: 8 unknown service, 1, 2, 3 the header mark or in USSD the prefix mark, 4, 11 on a broadcast page with the
 * prefix mark a letter that is not a to z or no CR behind them, 7. Stores units.
 */
wikuay_read_answer wikuay_read_message(uint32_t service, uint8_t coding, size_t count, const uint8_t *octets,
                                       size_t octets_len, uint16_t *out, size_t out_len);

/*
 * Writes a message: the octets of a text under a reading, with the length count and the coding octet. Clauses 4, 5, 6.
 * A broadcast page with the prefix mark begins with the language letters of the reading.
 * Refuses: 8 unknown service, a field that names nothing, a reading that cannot be written, a letter without the prefix
 * mark; 1, 2, 3 the header mark or in USSD the prefix mark, 11 on a broadcast page with the prefix mark a letter that
 * is 0 or not a to z, 6, 5, 7. Stores octets.
 */
wikuay_answer wikuay_write_message(uint32_t service, wikuay_reading reading, const uint16_t *text, size_t text_len,
                                   uint8_t *out, size_t out_len);

/*
 * Reads the header of a block. 3GPP TS 23.041, the block of 88 octets.
 * Refuses nothing: a number or a total of 0 is told as it stands.
 */
wikuay_block_header wikuay_read_header(wikuay_block block);

/*
 * How many pages a text takes under a reading: as few as hold it, and one for the empty text. Clauses 5 and 6.
 * No message of pages has language letters: the prefix mark is refused 3, here and below, where one page is enough
 * too, and so is the header mark.
 * Refuses: 8 a field that names nothing, a reading that cannot be written on a broadcast page, a letter without the
 * prefix mark; 1, 2, 3, 6, 5.
 */
wikuay_pages_answer wikuay_count_pages(wikuay_reading reading, const uint16_t *text, size_t text_len);

/*
 * Builds page number, from 1, of a text under a reading: every page but the last is full, and an escape may end one
 * with its code on the next. Clauses 5 and 6, and the block of 3GPP TS 23.041.
 * Refuses: 8 a field that names nothing, a reading that cannot be written on a broadcast page, a letter without the
 * prefix mark; 1, 2, 3, 6, 5, 10 a page that the message lacks.
 */
wikuay_page_answer wikuay_build_page(uint16_t sequence, uint16_t identifier, wikuay_reading reading,
                                     const uint16_t *text, size_t text_len, size_t number);

/*
 * Writes all pages of a text under a reading, the blocks end to end in their order. Clauses 5 and 6, and the block of
 * 3GPP TS 23.041.
 * Refuses: 8 a field that names nothing, a reading that cannot be written on a broadcast page, a letter without the
 * prefix mark; 1, 2, 3, 6, 5, 7. Stores octets, 88 a page.
 */
wikuay_pages_answer wikuay_write_pages(uint16_t sequence, uint16_t identifier, wikuay_reading reading,
                                       const uint16_t *text, size_t text_len, uint8_t *out, size_t out_len);

/*
 * Joins the pages of a message, lent as blocks end to end in any order: its text, what its coding octet says, and its
 * header. CRs that close the text are dropped once, at the end of the last page. Clauses 5 and 6, and the block of 3GPP
 * TS 23.041.
 * Refuses: 4 octets that are not whole blocks, 10 no block; by the first block 1, 2, 3; 10 pages missing, repeated,
 * numbered 0 or above the total, or of differing headers or totals; 7. Stores units.
 */
wikuay_join_answer wikuay_join_pages(const uint8_t *blocks, size_t blocks_len, uint16_t *out, size_t out_len);

/*
 * Reads one short message, or one part of a longer one: its text, what its coding octet says, and the three numbers of
 * the part. The mark, 0 or 1, says whether a user data header stands in front; without it this is wikuay_read_message,
 * and there are no numbers. count is the septets of 7-bit text, the octets of UCS2, and covers the header. Behind the
 * header 7-bit text starts at the next septet boundary. Elements but that of the numbers are passed over, and of
 * several the last counts. An escape that closes a part is a space here. Clauses 4 and 6, and 3GPP TS 23.040, clause
 * 9.2.3.24.
 * Refuses: 8 a mark that is neither 0 nor 1, 1, 2, 4 octets and count, 12 a header longer than the octets or, in
 * septets, than the count, an element that runs past it, numbers that are not three octets; 4 UCS2 octets that are odd
 * behind the header, 7. Stores units, at most 160.
 */
wikuay_part_answer wikuay_read_part(uint8_t coding, size_t count, uint8_t mark, const uint8_t *octets,
                                    size_t octets_len, uint16_t *out, size_t out_len);

/*
 * How many parts a text takes under a reading: one where it fits alone, else as few as hold it. Clauses 4 and 6.
 * Refuses: 8 a field that names nothing, a reading that cannot be written in a short message, a language letter; 1, 2,
 * 6, 5 over 255 parts.
 */
wikuay_parts_answer wikuay_count_parts(wikuay_reading reading, const uint16_t *text, size_t text_len);

/*
 * Writes part number, from 1, of a text under a reading: every part but the last is full, and an escape may end one
 * with its code on the next. A text that fits alone has no header, and its reference is nowhere. Clauses 4 and 6, and
 * 3GPP TS 23.040, clause 9.2.3.24.
 * Refuses: 8 a field that names nothing, a reading that cannot be written in a short message, a language letter; 1, 2,
 * 6, 5 over 255 parts, 10 a part that the message lacks, 7. Stores octets, at most 140.
 */
wikuay_parts_answer wikuay_write_part(wikuay_reading reading, uint8_t reference, const uint16_t *text, size_t text_len,
                                      size_t number, uint8_t *out, size_t out_len);

/*
 * Writes all parts of a text under a reading, their octets end to end in their order, as wikuay_write_part writes each.
 * Beside them it stores two octets a part at the front of sizes: the part's length count and how many octets it has.
 * What is behind these stays as it came. Clauses 4 and 6, and 3GPP TS 23.040, clause 9.2.3.24.
 * Refuses: 8 a field that names nothing, a reading that cannot be written in a short message, a language letter; 1, 2,
 * 6, 5 over 255 parts, 7 for either buffer. Stores octets and sizes.
 */
wikuay_parts_answer wikuay_write_parts(wikuay_reading reading, uint8_t reference, const uint16_t *text, size_t text_len,
                                       uint8_t *out, size_t out_len, uint8_t *sizes, size_t sizes_len);

/*
 * Joins the parts of a message, lent end to end in any order beside a list of their counts in the same order: its text,
 * what its coding octet says, and its reference. A header stands in front of each part; how many octets a part has
 * follows from its count. Clauses 4 and 6, and 3GPP TS 23.040, clause 9.2.3.24.
 * Refuses, each over all parts before the next: 1, 2, 4 a count over 160 septets or 140 octets, octets that are not as
 * many as the counts ask; 12 as wikuay_read_part, 4 UCS2 octets that are odd behind a header, 10 no part, a part
 * without the three numbers, missing, repeated, numbered 0 or above the total, or of differing references or totals; 7.
 * Stores units.
 */
wikuay_parts_join_answer wikuay_join_parts(uint8_t coding, const uint8_t *counts, size_t counts_len,
                                           const uint8_t *octets, size_t octets_len, uint16_t *out, size_t out_len);

/*
 * A meter for a service, with nothing typed: the number to show is the service's size in septets of 7-bit text, from
 * which language letters in front of a page take nothing.
 * Refuses: 8 unknown service.
 */
wikuay_meter_answer wikuay_new_meter(uint32_t service);

/*
 * The number that a meter shows: the service's size less the septets used.
 * Refuses: 8 unknown service.
 */
wikuay_meter_answer wikuay_room_left(wikuay_meter meter);

/*
 * The key that types a unit: the meter with its septets added, one or two with an escape. Clauses 6.2.1 and 6.2.1.1.
 * A text that is over the service is no refusal: the number to show is then below zero.
 * Refuses: 8 unknown service, 6, 5 a sum above WIKUAY_METER_SEPTETS. wikuay_add_unit does it in place.
 */
wikuay_meter_answer wikuay_unit_added(wikuay_meter meter, uint16_t unit);

/*
 * The key that takes a unit back: the meter without the septets of the unit that goes. Clauses 6.2.1 and 6.2.1.1.
 * Refuses: 8 unknown service, 6, 5 a sum below zero or above WIKUAY_METER_SEPTETS. wikuay_take_back_unit does it in
 * place.
 */
wikuay_meter_answer wikuay_unit_taken_back(wikuay_meter meter, uint16_t unit);

/*
 * The key that clears: the meter as a new one for its service.
 * Refuses: 8 unknown service. wikuay_clear_meter does it in place.
 */
wikuay_meter_answer wikuay_meter_cleared(wikuay_meter meter);

/* The keys in place: `*meter` is changed, and stays as it was where the key is refused. */
static inline wikuay_meter_answer wikuay_add_unit(wikuay_meter *meter, uint16_t unit) {
  wikuay_meter_answer answer = wikuay_unit_added(*meter, unit);
  *meter = answer.meter;
  return answer;
}

static inline wikuay_meter_answer wikuay_take_back_unit(wikuay_meter *meter, uint16_t unit) {
  wikuay_meter_answer answer = wikuay_unit_taken_back(*meter, unit);
  *meter = answer.meter;
  return answer;
}

static inline wikuay_meter_answer wikuay_clear_meter(wikuay_meter *meter) {
  wikuay_meter_answer answer = wikuay_meter_cleared(*meter);
  *meter = answer.meter;
  return answer;
}

#ifdef __cplusplus
}
#endif

#endif
