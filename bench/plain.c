/* The baseline of the benchmark, see plain.h: a table from unit to code, a bit accumulator, one loop for each step. Compiled with SEARCHES, it has
   no such table and searches the tables from code to unit: see search.c.
   It makes the same tests as the library, answers as much, and stores nothing in a refusal, so that both do the same work. */
#include "plain.h"
#include <string.h>

enum { CR = 0x0D, ESCAPE = 0x1B };
enum { BLOCK = 88, HEADER = 6, PAGE_OCTETS = 82, PAGE_SEPTETS = 93, PAGE_UNITS = 41, MOST_PAGES = 15 };
enum { ALONE_SEPTETS = 160, ALONE_UNITS = 70, ALONE_OCTETS = 140, MOST_PARTS = 255 };
/* The header of a part, and what is behind it. */
enum { PART_HEADER = 6, HEADER_SEPTETS = 7, PART_SEPTETS = 153, PART_UNITS = 67 };
enum { LISTED = 0x100, EXTENSION = 0x200 };
#define M(code) (LISTED | (code))
#define E(code) (LISTED | EXTENSION | (code))

/* Codes by their unit; an escape has none. */
static const uint16_t main_unit[128] = {
  0x0040, 0x00A3, 0x0024, 0x00A5, 0x00E8, 0x00E9, 0x00F9, 0x00EC, 0x00F2, 0x00C7, 0x000A, 0x00D8, 0x00F8, 0x000D, 0x00C5, 0x00E5,
  0x0394, 0x005F, 0x03A6, 0x0393, 0x039B, 0x03A9, 0x03A0, 0x03A8, 0x03A3, 0x0398, 0x039E, 0x0020, 0x00C6, 0x00E6, 0x00DF, 0x00C9,
  0x0020, 0x0021, 0x0022, 0x0023, 0x00A4, 0x0025, 0x0026, 0x0027, 0x0028, 0x0029, 0x002A, 0x002B, 0x002C, 0x002D, 0x002E, 0x002F,
  0x0030, 0x0031, 0x0032, 0x0033, 0x0034, 0x0035, 0x0036, 0x0037, 0x0038, 0x0039, 0x003A, 0x003B, 0x003C, 0x003D, 0x003E, 0x003F,
  0x00A1, 0x0041, 0x0042, 0x0043, 0x0044, 0x0045, 0x0046, 0x0047, 0x0048, 0x0049, 0x004A, 0x004B, 0x004C, 0x004D, 0x004E, 0x004F,
  0x0050, 0x0051, 0x0052, 0x0053, 0x0054, 0x0055, 0x0056, 0x0057, 0x0058, 0x0059, 0x005A, 0x00C4, 0x00D6, 0x00D1, 0x00DC, 0x00A7,
  0x00BF, 0x0061, 0x0062, 0x0063, 0x0064, 0x0065, 0x0066, 0x0067, 0x0068, 0x0069, 0x006A, 0x006B, 0x006C, 0x006D, 0x006E, 0x006F,
  0x0070, 0x0071, 0x0072, 0x0073, 0x0074, 0x0075, 0x0076, 0x0077, 0x0078, 0x0079, 0x007A, 0x00E4, 0x00F6, 0x00F1, 0x00FC, 0x00E0,
};

/* Codes behind an escape by their unit; 0 is unlisted, and escape escape is a space. */
static const uint16_t extension_unit[128] = {
  [0x0A] = 0x000C, [0x14] = 0x005E, [0x1B] = 0x0020, [0x28] = 0x007B, [0x29] = 0x007D, [0x2F] = 0x005C, [0x3C] = 0x005B,
  [0x3D] = 0x007E, [0x3E] = 0x005D, [0x40] = 0x007C, [0x65] = 0x20AC,
};

static const uint8_t most_septets[4] = { 160, 93, 182, 93 };
static const uint8_t most_units[3] = { 70, 41, 80 };

static wikuay_answer refused(uint32_t refusal, size_t position) {
  wikuay_answer a = { refusal, 0, position, 0, 0 };
  return a;
}

static wikuay_read_answer read_refused(uint32_t refusal) {
  wikuay_read_answer a = { refusal, 0, 0, 0, WIKUAY_PLAIN };
  return a;
}

/* The octet of a short message, by the bits of its groups. */
static int short_coding(wikuay_reading r) {
  if (r.language != WIKUAY_NO_LANGUAGE || r.prefix || r.header || r.message_class > WIKUAY_CLASS_3 || r.alphabet > WIKUAY_UCS2)
    return -1;
  if (r.notice == WIKUAY_NO_NOTICE)
    return r.deletion << 6 | r.compressed << 5 | (r.message_class ? 0x10 | (r.message_class - 1) : 0) | r.alphabet << 2;
  if (r.deletion || r.compressed || r.message_class) return -1;
  int kind = r.notice & 0x0F, store = r.notice & WIKUAY_STORE;
  if (r.alphabet == WIKUAY_7BIT) return (store ? 0xD0 : 0xC0) | kind;
  if (r.alphabet == WIKUAY_UCS2 && store) return 0xE0 | kind;
  return -1;
}

/* The smallest octet of a broadcast page or a USSD string. */
static int page_coding(wikuay_reading r) {
  if (r.deletion || r.notice != WIKUAY_NO_NOTICE) return -1;
  int nothing_else = !r.compressed && r.message_class == WIKUAY_NO_CLASS;
  if (r.language != WIKUAY_NO_LANGUAGE) {
    if (!nothing_else || r.prefix || r.header || r.alphabet != WIKUAY_7BIT) return -1;
    return r.language >= WIKUAY_CZECH ? 0x20 | (r.language - WIKUAY_CZECH) : r.language;
  }
  if (r.prefix) {
    if (!nothing_else || r.header) return -1;
    return r.alphabet == WIKUAY_7BIT ? 0x10 : r.alphabet == WIKUAY_UCS2 ? 0x11 : -1;
  }
  if (r.alphabet >= WIKUAY_WAP) return !nothing_else || r.header ? -1 : r.alphabet == WIKUAY_WAP ? 0xE0 : 0xD0;
  if (r.header) {
    if (r.compressed || r.message_class < WIKUAY_CLASS_0 || r.message_class > WIKUAY_CLASS_3) return -1;
    return 0x90 | r.alphabet << 2 | (r.message_class - 1);
  }
  if (r.message_class >= WIKUAY_USER_DEFINED_1) {
    if (r.compressed || r.alphabet == WIKUAY_UCS2) return -1;
    return 0xF0 | r.alphabet << 2 | (r.message_class - WIKUAY_CLASS_3);
  }
  if (nothing_else && r.alphabet == WIKUAY_7BIT) return 0x0F;
  return 0x40 | r.compressed << 5 | (r.message_class ? 0x10 | (r.message_class - 1) : 0) | r.alphabet << 2;
}

int plain_write_coding(uint32_t service, wikuay_reading r) {
  if (service > 2) return -1;
  if (r.alphabet > 4 || r.compressed > 1 || r.message_class > 6 || r.language > 20 || r.deletion > 1 || r.prefix > 1 || r.reserved > 1 ||
      r.header > 1)
    return -1;
  /* A notice is a multiple of 16, an active one 8 more, and its kind. */
  if (r.notice != WIKUAY_NO_NOTICE && (r.notice < 16 || r.notice >= 48 || (r.notice & 4) != 0)) return -1;
  if (r.reserved) return -1;
  return service == 0 ? short_coding(r) : page_coding(r);
}

/* The same of a text, which has no letter without the prefix mark. */
static int text_coding(uint32_t service, wikuay_reading r) {
  if (!r.prefix && (r.first_letter != 0 || r.second_letter != 0)) return -1;
  return plain_write_coding(service, r);
}

static wikuay_reading reserved_reading(void) {
  wikuay_reading r = WIKUAY_PLAIN;
  r.reserved = 1;
  return r;
}

wikuay_reading plain_read_coding(uint32_t service, uint8_t coding) {
  wikuay_reading r = WIKUAY_PLAIN;
  unsigned group = coding >> 4, low = coding & 0x0F;
  if (service == 0 ? group < 8 : (group >= 4 && group < 8)) {
    if ((low & 0x0C) == 0x0C) return reserved_reading();
    r.alphabet = low >> 2;
    r.compressed = group >> 1 & 1;
    if (group & 1) r.message_class = (low & 3) + 1;
    r.deletion = service == 0 && group >= 4;
    return r;
  }
  if (group == 15) {
    if (low & 8) return reserved_reading();
    r.alphabet = low >> 2 & 1;
    unsigned class = low & 3;
    if (service == 0) r.message_class = class + 1;
    else r.message_class = class == 0 ? WIKUAY_NO_CLASS : class == 3 ? WIKUAY_CLASS_3 : class + WIKUAY_CLASS_3;
    return r;
  }
  if (service == 0) {
    if (group < 12 || low & 4) return reserved_reading();
    r.notice = (group == 12 ? WIKUAY_DISCARD : WIKUAY_STORE) | low;
    if (group == 14) r.alphabet = WIKUAY_UCS2;
    return r;
  }
  if (group == 0) {
    r.language = low;
    return r;
  }
  if (group == 1 && low < 2) {
    r.prefix = 1;
    if (low == 1) r.alphabet = WIKUAY_UCS2;
    return r;
  }
  if (group == 2 && low < 5) {
    r.language = WIKUAY_CZECH + low;
    return r;
  }
  if (group == 9 && low < 12) {
    r.header = 1;
    r.alphabet = low >> 2;
    r.message_class = (low & 3) + 1;
    return r;
  }
  if (group == 13 || group == 14) {
    r.alphabet = group == 14 ? WIKUAY_WAP : WIKUAY_I1;
    return r;
  }
  return reserved_reading();
}

/* The refusal of a reading that holds no text, or 0. */
static uint32_t no_text(wikuay_reading r) {
  return r.compressed ? 1 : r.alphabet != WIKUAY_7BIT && r.alphabet != WIKUAY_UCS2 ? 2 : r.prefix || r.header ? 3 : 0;
}

#ifdef SEARCHES
/* The unit's own place is looked at first; then every code but the escape; then every code behind an escape but the gaps. */
static unsigned find(uint16_t unit) {
  if (unit < 128 && unit != ESCAPE && main_unit[unit] == unit) return M(unit);
  for (unsigned code = 0; code < 128; code++)
    if (code != ESCAPE && main_unit[code] == unit) return M(code);
  for (unsigned code = 0; code < 128; code++)
    if (code != ESCAPE && extension_unit[code] != 0 && extension_unit[code] == unit) return E(code);
  return 0;
}
#else
/* Units below 0100 by their code; 0 is unlisted. */
static const uint16_t entry_of[256] = {
  [0x0A] = M(0x0A), [0x0C] = E(0x0A), [0x0D] = M(0x0D),
  [0x20] = M(0x20), M(0x21), M(0x22), M(0x23), M(0x02), M(0x25), M(0x26), M(0x27),
  M(0x28), M(0x29), M(0x2A), M(0x2B), M(0x2C), M(0x2D), M(0x2E), M(0x2F),
  M(0x30), M(0x31), M(0x32), M(0x33), M(0x34), M(0x35), M(0x36), M(0x37),
  M(0x38), M(0x39), M(0x3A), M(0x3B), M(0x3C), M(0x3D), M(0x3E), M(0x3F),
  M(0x00), M(0x41), M(0x42), M(0x43), M(0x44), M(0x45), M(0x46), M(0x47),
  M(0x48), M(0x49), M(0x4A), M(0x4B), M(0x4C), M(0x4D), M(0x4E), M(0x4F),
  M(0x50), M(0x51), M(0x52), M(0x53), M(0x54), M(0x55), M(0x56), M(0x57),
  M(0x58), M(0x59), M(0x5A), E(0x3C), E(0x2F), E(0x3E), E(0x14), M(0x11),
  [0x61] = M(0x61), M(0x62), M(0x63), M(0x64), M(0x65), M(0x66), M(0x67),
  M(0x68), M(0x69), M(0x6A), M(0x6B), M(0x6C), M(0x6D), M(0x6E), M(0x6F),
  M(0x70), M(0x71), M(0x72), M(0x73), M(0x74), M(0x75), M(0x76), M(0x77),
  M(0x78), M(0x79), M(0x7A), E(0x28), E(0x40), E(0x29), E(0x3D),
  [0xA1] = M(0x40), [0xA3] = M(0x01), M(0x24), M(0x03), [0xA7] = M(0x5F), [0xBF] = M(0x60),
  [0xC4] = M(0x5B), M(0x0E), M(0x1C), M(0x09), [0xC9] = M(0x1F), [0xD1] = M(0x5D), [0xD6] = M(0x5C),
  [0xD8] = M(0x0B), [0xDC] = M(0x5E), [0xDF] = M(0x1E), M(0x7F), [0xE4] = M(0x7B), M(0x0F), M(0x1D),
  [0xE8] = M(0x04), M(0x05), [0xEC] = M(0x07), [0xF1] = M(0x7D), M(0x08), [0xF6] = M(0x7C),
  [0xF8] = M(0x0C), M(0x06), [0xFC] = M(0x7E),
};

static unsigned find(uint16_t unit) {
  if (unit < 256) return entry_of[unit];
  switch (unit) {
    case 0x0394: return M(0x10);
    case 0x03A6: return M(0x12);
    case 0x0393: return M(0x13);
    case 0x039B: return M(0x14);
    case 0x03A9: return M(0x15);
    case 0x03A0: return M(0x16);
    case 0x03A8: return M(0x17);
    case 0x03A3: return M(0x18);
    case 0x0398: return M(0x19);
    case 0x039E: return M(0x1A);
    case 0x20AC: return E(0x65);
    default: return 0;
  }
}
#endif

void plain_swap_out(const uint16_t *text, size_t text_len, uint8_t *out) {
  for (size_t i = 0; i < text_len; i++) {
    out[2 * i] = (uint8_t)(text[i] >> 8);
    out[2 * i + 1] = (uint8_t)text[i];
  }
}

void plain_swap_in(const uint8_t *octets, size_t units, uint16_t *out) {
  for (size_t i = 0; i < units; i++) out[i] = (uint16_t)(octets[2 * i] << 8 | octets[2 * i + 1]);
}

static wikuay_answer write_ucs2(uint32_t service, uint8_t coding, const uint16_t *text, size_t text_len, uint8_t *out, size_t out_len) {
  if (text_len > most_units[service]) return refused(5, 0);
  size_t octets = service == 1 ? 82 : 2 * text_len;
  if (octets > out_len) return refused(7, 0);
  plain_swap_out(text, text_len, out);
  for (size_t i = 2 * text_len; i < octets; i += 2) {
    out[i] = 0;
    out[i + 1] = CR;
  }
  wikuay_answer a = { 0, service == 0 ? (uint32_t)octets : 0, 0, octets, coding };
  return a;
}

static int is_letter(uint8_t octet) { return 'a' <= octet && octet <= 'z'; }

/* A broadcast page behind its language letters. In UCS2 they take the place of the first unit, else of three septets, a CR with them. */
static wikuay_answer write_lettered(uint8_t coding, wikuay_reading reading, const uint16_t *text, size_t text_len, uint8_t *out,
                                    size_t out_len) {
  wikuay_answer a = { 0, 0, 0, PAGE_OCTETS, coding };
  uint8_t first = reading.first_letter, second = reading.second_letter;
  if (!is_letter(first) || !is_letter(second)) return refused(11, 0);
  if (reading.alphabet == WIKUAY_UCS2) {
    if (text_len > PAGE_UNITS - 1) return refused(5, 0);
    if (out_len < PAGE_OCTETS) return refused(7, 0);
    out[0] = (uint8_t)(first | second << 7);
    out[1] = second >> 1;
    plain_swap_out(text, text_len, out + 2);
    for (size_t i = 2 + 2 * text_len; i < PAGE_OCTETS; i += 2) {
      out[i] = 0;
      out[i + 1] = CR;
    }
    return a;
  }
  /* A unit takes one septet or two, so a text of at most 90 units always has room here. */
  uint8_t septets[2 * PAGE_SEPTETS] = { first, second, CR };
  size_t limit = PAGE_SEPTETS - 3, used = 3;
  for (size_t i = 0; i < text_len && text_len > limit; i++)
    if (find(text[i]) == 0) return refused(6, i);
  if (text_len > limit) return refused(5, 0);
  for (size_t i = 0; i < text_len; i++) {
    unsigned entry = find(text[i]);
    if (entry == 0) return refused(6, i);
    if (entry & EXTENSION) septets[used++] = ESCAPE;
    septets[used++] = entry & 0x7F;
  }
  if (used > PAGE_SEPTETS) return refused(5, 0);
  while (used < PAGE_SEPTETS) septets[used++] = CR;
  if (out_len < PAGE_OCTETS) return refused(7, 0);
  uint32_t bits = 0;
  unsigned held = 0;
  for (size_t i = 0; i < PAGE_SEPTETS; i++) {
    bits |= (uint32_t)septets[i] << held;
    held += 7;
    if (held >= 8) {
      *out++ = (uint8_t)bits;
      bits >>= 8;
      held -= 8;
    }
  }
  *out = (uint8_t)bits;
  return a;
}

wikuay_answer plain_write(uint32_t service, wikuay_reading reading, const uint16_t *text, size_t text_len, uint8_t *out,
                          size_t out_len) {
  int coding = text_coding(service, reading);
  if (coding < 0) return refused(8, 0);
  if (service == 1 && reading.prefix) return write_lettered((uint8_t)coding, reading, text, text_len, out, out_len);
  uint32_t refusal = no_text(reading);
  if (refusal != 0) return refused(refusal, 0);
  if (reading.alphabet == WIKUAY_UCS2) return write_ucs2(service, (uint8_t)coding, text, text_len, out, out_len);

  /* A unit takes one septet or two, so a text of at most `limit` units always has room here. */
  uint8_t septets[2 * 182 + 1];
  size_t limit = most_septets[service], used = 0;
  for (size_t i = 0; i < text_len && text_len > limit; i++)
    if (find(text[i]) == 0) return refused(6, i);
  if (text_len > limit) return refused(5, 0);
  for (size_t i = 0; i < text_len; i++) {
    unsigned entry = find(text[i]);
    if (entry == 0) return refused(6, i);
    if (entry & EXTENSION) septets[used++] = ESCAPE;
    septets[used++] = entry & 0x7F;
  }
  if (used > limit) return refused(5, 0);
  size_t count = used;
  if (service == 1) {
    while (used < 93) septets[used++] = CR;
  } else if (service == 2 && (used % 8 == 7 || (used > 0 && used % 8 == 0 && septets[used - 1] == CR))) {
    septets[used++] = CR;
  }
  size_t octets = (7 * used + 7) / 8;
  if (octets > out_len) return refused(7, 0);

  uint32_t bits = 0;
  unsigned held = 0;
  size_t at = 0;
  for (size_t i = 0; i < used; i++) {
    bits |= (uint32_t)septets[i] << held;
    held += 7;
    if (held >= 8) {
      out[at++] = (uint8_t)bits;
      bits >>= 8;
      held -= 8;
    }
  }
  if (held > 0) out[at] = (uint8_t)bits;
  wikuay_answer a = { 0, service == 0 ? (uint32_t)count : 0, 0, octets, (uint8_t)coding };
  return a;
}

static wikuay_read_answer read_ucs2(uint32_t service, wikuay_reading reading, size_t count, const uint8_t *octets,
                                    size_t octets_len, uint16_t *out, size_t out_len) {
  if (octets_len % 2 != 0 || (service == 1 ? octets_len != 82 : octets_len > 2u * most_units[service])) return read_refused(4);
  if (count != (service == 0 ? octets_len : 0)) return read_refused(4);
  size_t units = octets_len / 2;
  if (service == 1) {
    while (units > 0 && octets[2 * units - 2] == 0 && octets[2 * units - 1] == CR) units--;
  }
  if (units > out_len) return read_refused(7);
  plain_swap_in(octets, units, out);
  wikuay_read_answer a = { 0, 0, units, 0, reading };
  return a;
}

/* A broadcast page behind its language letters, of which CRs are dropped behind them alone. */
static wikuay_read_answer read_lettered(wikuay_reading reading, size_t count, const uint8_t *octets, size_t octets_len, uint16_t *out,
                                        size_t out_len) {
  if (octets_len != PAGE_OCTETS || count != 0) return read_refused(4);
  reading.first_letter = octets[0] & 0x7F;
  reading.second_letter = (octets[1] << 1 | octets[0] >> 7) & 0x7F;
  if (!is_letter(reading.first_letter) || !is_letter(reading.second_letter)) return read_refused(11);
  if (reading.alphabet == WIKUAY_UCS2) {
    size_t units = PAGE_UNITS - 1;
    while (units > 0 && octets[2 * units] == 0 && octets[2 * units + 1] == CR) units--;
    if (units > out_len) return read_refused(7);
    plain_swap_in(octets + 2, units, out);
    wikuay_read_answer a = { 0, 0, units, 0, reading };
    return a;
  }
  uint8_t septets[PAGE_SEPTETS];
  size_t septets_len = PAGE_SEPTETS, used = 0;
  uint32_t bits = 0;
  unsigned held = 0;
  for (size_t i = 0; i < PAGE_SEPTETS; i++) {
    if (held < 7) {
      bits |= (uint32_t)*octets++ << held;
      held += 8;
    }
    septets[i] = bits & 0x7F;
    bits >>= 7;
    held -= 7;
  }
  if (septets[2] != CR) return read_refused(11);
  while (septets_len > 3 && septets[septets_len - 1] == CR) septets_len--;
  uint16_t units[PAGE_SEPTETS];
  for (size_t i = 3; i < septets_len; i++) {
    uint16_t unit = main_unit[septets[i]];
    if (septets[i] == ESCAPE && i + 1 < septets_len) {
      i++;
      unit = extension_unit[septets[i]];
      if (unit == 0) unit = main_unit[septets[i]];
    }
    units[used++] = unit;
  }
  if (used > out_len) return read_refused(7);
  memcpy(out, units, used * sizeof units[0]);
  wikuay_read_answer a = { 0, 0, used, 0, reading };
  return a;
}

wikuay_read_answer plain_read(uint32_t service, uint8_t coding, size_t count, const uint8_t *octets, size_t octets_len,
                              uint16_t *out, size_t out_len) {
  if (service > 2) return read_refused(8);
  wikuay_reading reading = plain_read_coding(service, coding);
  if (service == 1 && reading.prefix) return read_lettered(reading, count, octets, octets_len, out, out_len);
  uint32_t refusal = no_text(reading);
  if (refusal != 0) return read_refused(refusal);
  if (reading.alphabet == WIKUAY_UCS2) return read_ucs2(service, reading, count, octets, octets_len, out, out_len);

  size_t septets_len;
  if (service == 0) {
    if (count > 160 || octets_len != (7 * count + 7) / 8) return read_refused(4);
    septets_len = count;
  } else {
    if (count != 0 || (service == 1 ? octets_len != 82 : octets_len > 160)) return read_refused(4);
    septets_len = 8 * octets_len / 7;
  }

  uint8_t septets[184];
  uint32_t bits = 0;
  unsigned held = 0;
  size_t at = 0;
  for (size_t i = 0; i < septets_len; i++) {
    if (held < 7) {
      bits |= (uint32_t)octets[at++] << held;
      held += 8;
    }
    septets[i] = bits & 0x7F;
    bits >>= 7;
    held -= 7;
  }
  if (service == 1) {
    while (septets_len > 0 && septets[septets_len - 1] == CR) septets_len--;
  } else if (service == 2 && octets_len > 0 && octets_len % 7 == 0 && septets[septets_len - 1] == CR) {
    septets_len--;
  }

  uint16_t units[184];
  size_t used = 0;
  for (size_t i = 0; i < septets_len; i++) {
    uint16_t unit = main_unit[septets[i]];
    if (septets[i] == ESCAPE && i + 1 < septets_len) {
      i++;
      unit = extension_unit[septets[i]];
      if (unit == 0) unit = main_unit[septets[i]];
    }
    units[used++] = unit;
  }
  if (used > out_len) return read_refused(7);
  memcpy(out, units, used * sizeof units[0]);
  wikuay_read_answer a = { 0, 0, used, 0, reading };
  return a;
}

/* ---- texts of any length ---- */

/* Text to septets, where `used` says how many there are, or more than the limit; or not, where it says which unit is not in the alphabet. */
static int lay_septets(const uint16_t *text, size_t text_len, size_t limit, uint8_t *septets, size_t *used) {
  size_t n = 0;
  for (size_t i = 0; i < text_len; i++) {
    unsigned entry = find(text[i]);
    if (entry == 0) {
      *used = i;
      return 0;
    }
    /* A unit takes one septet or two, so there is room for the first one that is too many. */
    if (n > limit) continue;
    if (entry & EXTENSION) septets[n++] = ESCAPE;
    septets[n++] = entry & 0x7F;
  }
  *used = n;
  return 1;
}

/* ---- broadcasts of several pages ---- */

/* What is known of a message before its first block is made: its pages, or why there are none. Of 7-bit text the septets of all pages are
   there too, the last one filled up. */
typedef struct {
  uint32_t refusal;
  uint8_t coding;
  uint8_t ucs2;
  size_t position;
  size_t pages;
  uint8_t septets[2 * MOST_PAGES * PAGE_SEPTETS + 1];
} paged;

static void page_text(paged *to, wikuay_reading reading, const uint16_t *text, size_t text_len) {
  int coding = text_coding(1, reading);
  to->position = 0;
  to->refusal = coding < 0 ? 8 : no_text(reading);
  if (to->refusal != 0) return;
  to->coding = (uint8_t)coding;
  to->ucs2 = reading.alphabet == WIKUAY_UCS2;
  size_t room = to->ucs2 ? PAGE_UNITS : PAGE_SEPTETS, limit = MOST_PAGES * room, used = to->ucs2 ? text_len : 0;
  if (!to->ucs2 && !lay_septets(text, text_len, limit, to->septets, &used)) {
    to->refusal = 6;
    to->position = used;
    return;
  }
  if (used > limit) {
    to->refusal = 5;
    return;
  }
  to->pages = used == 0 ? 1 : (used + room - 1) / room;
  if (!to->ucs2)
    while (used < PAGE_SEPTETS * to->pages) to->septets[used++] = CR;
}

/* Makes the block of page k, counted from 0. */
static void put_block(uint8_t *block, uint16_t sequence, uint16_t identifier, const paged *from, const uint16_t *text, size_t text_len,
                      size_t k) {
  block[0] = (uint8_t)(sequence >> 8);
  block[1] = (uint8_t)sequence;
  block[2] = (uint8_t)(identifier >> 8);
  block[3] = (uint8_t)identifier;
  block[4] = from->coding;
  block[5] = (uint8_t)((k + 1) << 4 | from->pages);
  uint8_t *out = block + HEADER;
  if (from->ucs2) {
    size_t units = text_len - PAGE_UNITS * k < PAGE_UNITS ? text_len - PAGE_UNITS * k : PAGE_UNITS;
    plain_swap_out(text + PAGE_UNITS * k, units, out);
    for (size_t i = units; i < PAGE_UNITS; i++) {
      out[2 * i] = 0;
      out[2 * i + 1] = CR;
    }
    return;
  }
  const uint8_t *septets = from->septets + PAGE_SEPTETS * k;
  uint32_t bits = 0;
  unsigned held = 0;
  for (size_t i = 0; i < PAGE_SEPTETS; i++) {
    bits |= (uint32_t)septets[i] << held;
    held += 7;
    if (held >= 8) {
      *out++ = (uint8_t)bits;
      bits >>= 8;
      held -= 8;
    }
  }
  *out = (uint8_t)bits;
}

wikuay_pages_answer plain_write_pages(uint16_t sequence, uint16_t identifier, wikuay_reading reading, const uint16_t *text,
                                      size_t text_len, uint8_t *out, size_t out_len) {
  paged from;
  page_text(&from, reading, text, text_len);
  if (from.refusal == 0 && out_len < BLOCK * from.pages) from.refusal = 7;
  if (from.refusal != 0) {
    wikuay_pages_answer a = { from.refusal, 0, from.position, 0 };
    return a;
  }
  for (size_t k = 0; k < from.pages; k++) put_block(out + BLOCK * k, sequence, identifier, &from, text, text_len, k);
  wikuay_pages_answer a = { 0, (uint32_t)from.pages, 0, BLOCK * from.pages };
  return a;
}

wikuay_page_answer plain_build_page(uint16_t sequence, uint16_t identifier, wikuay_reading reading, const uint16_t *text,
                                    size_t text_len, size_t number) {
  paged from;
  wikuay_page_answer a = { 0, 0, 0, { { 0 } } };
  page_text(&from, reading, text, text_len);
  if (from.refusal == 0 && (number == 0 || number > from.pages)) from.refusal = 10;
  if (from.refusal != 0) {
    a.refusal = from.refusal;
    a.position = from.position;
    return a;
  }
  a.pages = (uint32_t)from.pages;
  put_block(a.block.octets, sequence, identifier, &from, text, text_len, number - 1);
  return a;
}

static wikuay_join_answer join_refused(uint32_t refusal) {
  wikuay_join_answer a = { refusal, 0, 0, 0, 0, 0, WIKUAY_PLAIN };
  return a;
}

wikuay_join_answer plain_join_pages(const uint8_t *blocks, size_t blocks_len, uint16_t *out, size_t out_len) {
  if (blocks_len % BLOCK != 0) return join_refused(4);
  if (blocks_len == 0) return join_refused(10);
  wikuay_reading reading = plain_read_coding(1, blocks[4]);
  uint32_t refusal = no_text(reading);
  if (refusal != 0) return join_refused(refusal);

  /* Each page from 1 to the total is there once, and all blocks have the header of the first. */
  const uint8_t *text_of[MOST_PAGES + 1] = { NULL };
  size_t total = blocks[5] & 15;
  for (const uint8_t *block = blocks; block < blocks + blocks_len; block += BLOCK) {
    size_t number = block[5] >> 4;
    if (memcmp(block, blocks, 5) != 0 || (block[5] & 15u) != total || number == 0 || number > total || text_of[number] != NULL)
      return join_refused(10);
    text_of[number] = block + HEADER;
  }
  if (blocks_len != BLOCK * total) return join_refused(10);

  uint16_t units[MOST_PAGES * PAGE_SEPTETS];
  size_t used = 0;
  if (reading.alphabet == WIKUAY_UCS2) {
    for (size_t k = 1; k <= total; k++, used += PAGE_UNITS) plain_swap_in(text_of[k], PAGE_UNITS, units + used);
    while (used > 0 && units[used - 1] == CR) used--;
  } else {
    uint8_t septets[MOST_PAGES * PAGE_SEPTETS];
    size_t septets_len = 0;
    for (size_t k = 1; k <= total; k++) {
      const uint8_t *octets = text_of[k];
      uint32_t bits = 0;
      unsigned held = 0;
      for (size_t i = 0; i < PAGE_SEPTETS; i++) {
        if (held < 7) {
          bits |= (uint32_t)*octets++ << held;
          held += 8;
        }
        septets[septets_len++] = bits & 0x7F;
        bits >>= 7;
        held -= 7;
      }
    }
    while (septets_len > 0 && septets[septets_len - 1] == CR) septets_len--;
    for (size_t i = 0; i < septets_len; i++) {
      uint16_t unit = main_unit[septets[i]];
      if (septets[i] == ESCAPE && i + 1 < septets_len) {
        i++;
        unit = extension_unit[septets[i]];
        if (unit == 0) unit = main_unit[septets[i]];
      }
      units[used++] = unit;
    }
  }
  if (used > out_len) return join_refused(7);
  memcpy(out, units, used * sizeof units[0]);
  wikuay_join_answer a = { 0, (uint32_t)total, 0, used, (uint16_t)(blocks[0] << 8 | blocks[1]), (uint16_t)(blocks[2] << 8 | blocks[3]), reading };
  return a;
}

/* ---- short messages of several parts ---- */

/* What is known of a message before its first part is made: its parts, or why there are none. Of 7-bit text the septets of all parts are
   there too. */
typedef struct {
  uint32_t refusal;
  uint8_t coding;
  uint8_t ucs2;
  size_t position;
  size_t parts;
  size_t length; /* septets, or units of UCS2 */
  uint8_t septets[MOST_PARTS * PART_SEPTETS + 2];
} parted;

static void part_text(parted *to, wikuay_reading reading, const uint16_t *text, size_t text_len) {
  int coding = text_coding(0, reading);
  to->position = 0;
  to->refusal = coding < 0 ? 8 : no_text(reading);
  if (to->refusal != 0) return;
  to->coding = (uint8_t)coding;
  to->ucs2 = reading.alphabet == WIKUAY_UCS2;
  size_t alone = to->ucs2 ? ALONE_UNITS : ALONE_SEPTETS, room = to->ucs2 ? PART_UNITS : PART_SEPTETS;
  size_t limit = MOST_PARTS * room, used = to->ucs2 ? text_len : 0;
  if (!to->ucs2 && !lay_septets(text, text_len, limit, to->septets, &used)) {
    to->refusal = 6;
    to->position = used;
    return;
  }
  if (used > limit) {
    to->refusal = 5;
    return;
  }
  to->length = used;
  to->parts = used <= alone ? 1 : (used + room - 1) / room;
}

/* The length count of part k, counted from 0, and how many octets it has. */
static size_t part_count(const parted *from, size_t k) {
  size_t room = from->ucs2 ? PART_UNITS : PART_SEPTETS;
  size_t held = from->parts == 1 ? from->length : k + 1 < from->parts ? room : from->length - room * k;
  if (from->ucs2) return (from->parts == 1 ? 0 : PART_HEADER) + 2 * held;
  return (from->parts == 1 ? 0 : HEADER_SEPTETS) + held;
}

static size_t part_octets(int ucs2, size_t count) { return ucs2 ? count : (7 * count + 7) / 8; }

/* Makes part k, counted from 0, of so many septets or octets. */
static void put_part(uint8_t *out, uint8_t reference, const parted *from, const uint16_t *text, size_t k, size_t count) {
  int headed = from->parts > 1;
  if (headed) {
    *out++ = PART_HEADER - 1;
    *out++ = 0;
    *out++ = 3;
    *out++ = reference;
    *out++ = (uint8_t)from->parts;
    *out++ = (uint8_t)(k + 1);
  }
  if (from->ucs2) {
    plain_swap_out(text + PART_UNITS * k, (count - (headed ? PART_HEADER : 0)) / 2, out);
    return;
  }
  /* The header ends one bit in front of a septet boundary. */
  const uint8_t *septets = from->septets + PART_SEPTETS * k;
  size_t septets_len = count - (headed ? HEADER_SEPTETS : 0);
  uint32_t bits = 0;
  unsigned held = headed ? 1 : 0;
  for (size_t i = 0; i < septets_len; i++) {
    bits |= (uint32_t)septets[i] << held;
    held += 7;
    if (held >= 8) {
      *out++ = (uint8_t)bits;
      bits >>= 8;
      held -= 8;
    }
  }
  if (held > 0) *out = (uint8_t)bits;
}

static wikuay_parts_answer parts_refused(uint32_t refusal, size_t position) {
  wikuay_parts_answer a = { refusal, 0, position, 0, 0, 0, 0 };
  return a;
}

wikuay_parts_answer plain_write_parts(wikuay_reading reading, uint8_t reference, const uint16_t *text, size_t text_len, uint8_t *out,
                                      size_t out_len, uint8_t *sizes, size_t sizes_len) {
  parted from;
  part_text(&from, reading, text, text_len);
  if (from.refusal != 0) return parts_refused(from.refusal, from.position);
  /* All parts but the last are full. */
  size_t octets = ALONE_OCTETS * (from.parts - 1) + part_octets(from.ucs2, part_count(&from, from.parts - 1));
  if (out_len < octets || sizes_len < 2 * from.parts) return parts_refused(7, 0);
  for (size_t k = 0; k < from.parts; k++) {
    size_t count = part_count(&from, k);
    put_part(out + ALONE_OCTETS * k, reference, &from, text, k, count);
    sizes[2 * k] = (uint8_t)count;
    sizes[2 * k + 1] = (uint8_t)part_octets(from.ucs2, count);
  }
  wikuay_parts_answer a = { 0, (uint32_t)from.parts, 0, octets, 0, from.coding, from.parts > 1 };
  return a;
}

wikuay_parts_answer plain_write_part(wikuay_reading reading, uint8_t reference, const uint16_t *text, size_t text_len, size_t number,
                                     uint8_t *out, size_t out_len) {
  parted from;
  part_text(&from, reading, text, text_len);
  if (from.refusal != 0) return parts_refused(from.refusal, from.position);
  if (number == 0 || number > from.parts) return parts_refused(10, 0);
  size_t count = part_count(&from, number - 1), octets = part_octets(from.ucs2, count);
  if (out_len < octets) return parts_refused(7, 0);
  put_part(out, reference, &from, text, number - 1, count);
  wikuay_parts_answer a = { 0, (uint32_t)from.parts, 0, octets, (uint32_t)count, from.coding, from.parts > 1 };
  return a;
}

/* Whether a part has this length count and so many octets. Of UCS2 they may be odd: what is behind the header is judged apart. */
static int part_fits(int ucs2, size_t count, size_t octets_len) {
  return count <= (ucs2 ? ALONE_OCTETS : ALONE_SEPTETS) && octets_len == part_octets(ucs2, count);
}

/* The header of a part: its octets, the length octet too, or 0 where it is wrong. `numbers` is where the last element has its three, or
   NULL. */
static size_t open_header(int ucs2, size_t count, const uint8_t *octets, size_t octets_len, const uint8_t **numbers) {
  *numbers = NULL;
  if (octets_len == 0) return 0;
  size_t header = 1 + (size_t)octets[0], at = 1;
  if (header > octets_len || (!ucs2 && (8 * header + 6) / 7 > count)) return 0;
  while (at < header) {
    if (header - at < 2 || header - at - 2 < octets[at + 1]) return 0;
    if (octets[at] == 0) {
      if (octets[at + 1] != 3) return 0;
      *numbers = octets + at + 2;
    }
    at += 2 + (size_t)octets[at + 1];
  }
  return header;
}

/* Unpacks the septets behind a header, of a part that has so many with it. Answers how many they are. */
static size_t unpack_part(const uint8_t *octets, size_t header, size_t count, uint8_t *septets) {
  size_t before = (8 * header + 6) / 7, bit = 7 * before;
  const uint8_t *at = octets + bit / 8;
  uint32_t bits = 0;
  unsigned held = 0;
  if (bit % 8 != 0) {
    bits = (uint32_t)*at++ >> bit % 8;
    held = 8 - bit % 8;
  }
  for (size_t i = before; i < count; i++) {
    if (held < 7) {
      bits |= (uint32_t)*at++ << held;
      held += 8;
    }
    *septets++ = bits & 0x7F;
    bits >>= 7;
    held -= 7;
  }
  return count - before;
}

/* Septets to text, into out. Answers how many units they are, or SIZE_MAX where there is no room, and then nothing is stored. */
static size_t septets_out(const uint8_t *septets, size_t septets_len, uint16_t *out, size_t out_len) {
  size_t used = 0;
  /* No text has more units than septets, so they are counted only where that many have no room. */
  if (out_len < septets_len) {
    for (size_t i = 0; i < septets_len; i++, used++)
      if (septets[i] == ESCAPE && i + 1 < septets_len) i++;
    if (out_len < used) return SIZE_MAX;
    used = 0;
  }
  for (size_t i = 0; i < septets_len; i++) {
    uint16_t unit = main_unit[septets[i]];
    if (septets[i] == ESCAPE && i + 1 < septets_len) {
      i++;
      unit = extension_unit[septets[i]];
      if (unit == 0) unit = main_unit[septets[i]];
    }
    out[used++] = unit;
  }
  return used;
}

static wikuay_part_answer part_refused(uint32_t refusal) {
  wikuay_part_answer a = { refusal, 0, 0, 0, 0, 0, 0, WIKUAY_PLAIN };
  return a;
}

wikuay_part_answer plain_read_part(uint8_t coding, size_t count, uint8_t mark, const uint8_t *octets, size_t octets_len, uint16_t *out,
                                   size_t out_len) {
  if (mark > 1) return part_refused(8);
  if (mark == 0) {
    wikuay_read_answer r = plain_read(0, coding, count, octets, octets_len, out, out_len);
    wikuay_part_answer a = { r.refusal, 0, 0, 0, 0, r.position, r.written, r.reading };
    return a;
  }
  wikuay_reading reading = plain_read_coding(0, coding);
  uint32_t refusal = no_text(reading);
  if (refusal != 0) return part_refused(refusal);
  int ucs2 = reading.alphabet == WIKUAY_UCS2;
  if (!part_fits(ucs2, count, octets_len)) return part_refused(4);
  const uint8_t *numbers;
  size_t header = open_header(ucs2, count, octets, octets_len, &numbers), used;
  if (header == 0) return part_refused(12);
  if (ucs2) {
    if ((octets_len - header) % 2 != 0) return part_refused(4);
    used = (octets_len - header) / 2;
    if (used > out_len) return part_refused(7);
    plain_swap_in(octets + header, used, out);
  } else {
    uint8_t septets[ALONE_SEPTETS];
    used = septets_out(septets, unpack_part(octets, header, count, septets), out, out_len);
    if (used == SIZE_MAX) return part_refused(7);
  }
  wikuay_part_answer a = { 0, numbers != NULL, 0, 0, 0, 0, used, reading };
  if (numbers != NULL) {
    a.reference = numbers[0];
    a.total = numbers[1];
    a.number = numbers[2];
  }
  return a;
}

static wikuay_parts_join_answer parts_join_refused(uint32_t refusal) {
  wikuay_parts_join_answer a = { refusal, 0, 0, 0, 0, WIKUAY_PLAIN };
  return a;
}

wikuay_parts_join_answer plain_join_parts(uint8_t coding, const uint8_t *counts, size_t counts_len, const uint8_t *octets,
                                          size_t octets_len, uint16_t *out, size_t out_len) {
  wikuay_reading reading = plain_read_coding(0, coding);
  uint32_t refusal = no_text(reading);
  if (refusal != 0) return parts_join_refused(refusal);
  int ucs2 = reading.alphabet == WIKUAY_UCS2;
  size_t left = octets_len;
  for (size_t i = 0; i < counts_len; i++) {
    size_t length = part_octets(ucs2, counts[i]);
    if (left < length || !part_fits(ucs2, counts[i], length)) return parts_join_refused(4);
    left -= length;
  }
  if (left != 0) return parts_join_refused(4);

  /* Each part from 1 to the total is there once, and all have the reference and the total of the first. A wrong header anywhere goes
     before odd octets anywhere, and those before parts that are not those of one message. */
  struct {
    const uint8_t *octets;
    uint8_t header, count;
  } part_of[MOST_PARTS + 1];
  uint8_t seen[MOST_PARTS + 1] = { 0 };
  const uint8_t *first = NULL, *numbers;
  size_t total = 0;
  int odd = 0, wrong = counts_len == 0;
  for (size_t i = 0; i < counts_len; i++) {
    size_t length = part_octets(ucs2, counts[i]), header = open_header(ucs2, counts[i], octets, length, &numbers);
    if (header == 0) return parts_join_refused(12);
    if (ucs2 && (length - header) % 2 != 0) odd = 1;
    if (i == 0 && numbers != NULL) {
      first = numbers;
      total = numbers[1];
    }
    if (first == NULL || numbers == NULL || numbers[0] != first[0] || numbers[1] != total || numbers[2] == 0 || numbers[2] > total ||
        seen[numbers[2]]) {
      wrong = 1;
    } else {
      seen[numbers[2]] = 1;
      part_of[numbers[2]].octets = octets;
      part_of[numbers[2]].header = (uint8_t)header;
      part_of[numbers[2]].count = counts[i];
    }
    octets += length;
  }
  if (odd) return parts_join_refused(4);
  if (wrong || counts_len != total) return parts_join_refused(10);

  size_t used = 0;
  if (ucs2) {
    for (size_t k = 1; k <= total; k++) used += (size_t)(part_of[k].count - part_of[k].header) / 2;
    if (used > out_len) return parts_join_refused(7);
    for (size_t k = 1; k <= total; k++) {
      size_t units = (size_t)(part_of[k].count - part_of[k].header) / 2;
      plain_swap_in(part_of[k].octets + part_of[k].header, units, out);
      out += units;
    }
  } else {
    uint8_t septets[MOST_PARTS * PART_SEPTETS];
    size_t septets_len = 0;
    for (size_t k = 1; k <= total; k++)
      septets_len += unpack_part(part_of[k].octets, part_of[k].header, part_of[k].count, septets + septets_len);
    used = septets_out(septets, septets_len, out, out_len);
    if (used == SIZE_MAX) return parts_join_refused(7);
  }
  wikuay_parts_join_answer a = { 0, (uint32_t)total, 0, used, first[0], reading };
  return a;
}

/* ---- the meter ---- */

static wikuay_meter_answer keyed(wikuay_meter meter, uint16_t unit, int64_t sign) {
  wikuay_meter_answer a = { 0, 0, 0, meter };
  if (meter.service > 3) {
    a.refusal = 8;
    return a;
  }
  unsigned entry = find(unit);
  int64_t sum = meter.used + (entry & EXTENSION ? 2 : 1) * sign;
  if (entry == 0) a.refusal = 6;
  else if (sum < 0 || sum > 65535) a.refusal = 5;
  else a.meter.used = (uint32_t)sum;
  a.left = (int64_t)most_septets[meter.service] - a.meter.used;
  return a;
}

wikuay_meter_answer plain_unit_added(wikuay_meter meter, uint16_t unit) { return keyed(meter, unit, 1); }

wikuay_meter_answer plain_unit_taken_back(wikuay_meter meter, uint16_t unit) { return keyed(meter, unit, -1); }
