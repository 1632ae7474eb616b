/* A library that breaks every limit on purpose, for `bench/check --self-test`: it waits, a refusal waits longer, it takes
   much stack, asks for storage, keeps state, and holds a table that nobody needs. Its answers are the plain loop's. */
#include "plain.h"
#include "wikuay.h"
#include <stdlib.h>
#include <string.h>

static const uint8_t table[50000] = { 1 };
static void *volatile kept;

static void wait(unsigned turns) {
  volatile uint8_t frame[1200];
  for (unsigned i = 0; i < turns; i++) frame[i % sizeof frame] = table[i % sizeof table];
  kept = malloc(frame[0]);
  free(kept);
}

wikuay_answer wikuay_write_message(uint32_t service, wikuay_reading reading, const uint16_t *text, size_t text_len, uint8_t *out,
                                   size_t out_len) {
  wikuay_answer answer = plain_write(service, reading, text, text_len, out, out_len);
  wait(answer.refusal != 0 ? 1500 : 400);
  return answer;
}

wikuay_read_answer wikuay_read_message(uint32_t service, uint8_t coding, size_t count, const uint8_t *octets, size_t octets_len,
                                       uint16_t *out, size_t out_len) {
  /* The plain loop has no old page. */
  wikuay_read_answer answer =
      plain_read(service == WIKUAY_OLD_PAGE ? WIKUAY_BROADCAST : service, coding, count, octets, octets_len, out, out_len);
  wait(400);
  return answer;
}

/* Of several pages it waits longer the more there are: its cost is not linear. */
wikuay_pages_answer wikuay_write_pages(uint16_t sequence, uint16_t identifier, wikuay_reading reading, const uint16_t *text,
                                       size_t text_len, uint8_t *out, size_t out_len) {
  wikuay_pages_answer answer = plain_write_pages(sequence, identifier, reading, text, text_len, out, out_len);
  wait(answer.refusal != 0 ? 4000 : 20 * answer.pages * answer.pages);
  return answer;
}

wikuay_page_answer wikuay_build_page(uint16_t sequence, uint16_t identifier, wikuay_reading reading, const uint16_t *text,
                                     size_t text_len, size_t number) {
  wikuay_page_answer answer = plain_build_page(sequence, identifier, reading, text, text_len, number);
  wait(answer.refusal != 0 ? 4000 : 20 * answer.pages * answer.pages);
  return answer;
}

wikuay_join_answer wikuay_join_pages(const uint8_t *blocks, size_t blocks_len, uint16_t *out, size_t out_len) {
  wikuay_join_answer answer = plain_join_pages(blocks, blocks_len, out, out_len);
  wait(20 * answer.pages * answer.pages);
  return answer;
}

/* The same of parts. From 12 on it waits no longer: what is more says nothing new, and is counted instruction by instruction. */
static unsigned parts_wait(wikuay_parts_answer answer) {
  unsigned parts = answer.parts < 12 ? answer.parts : 12;
  return answer.refusal != 0 ? 1500 : 60 * parts * parts;
}

wikuay_parts_answer wikuay_write_parts(wikuay_reading reading, uint8_t reference, const uint16_t *text, size_t text_len, uint8_t *out,
                                       size_t out_len, uint8_t *sizes, size_t sizes_len) {
  wikuay_parts_answer answer = plain_write_parts(reading, reference, text, text_len, out, out_len, sizes, sizes_len);
  wait(parts_wait(answer));
  return answer;
}

wikuay_parts_answer wikuay_write_part(wikuay_reading reading, uint8_t reference, const uint16_t *text, size_t text_len, size_t number,
                                      uint8_t *out, size_t out_len) {
  wikuay_parts_answer answer = plain_write_part(reading, reference, text, text_len, number, out, out_len);
  wait(parts_wait(answer));
  return answer;
}

wikuay_part_answer wikuay_read_part(uint8_t coding, size_t count, uint8_t mark, const uint8_t *octets, size_t octets_len, uint16_t *out,
                                    size_t out_len) {
  wikuay_part_answer answer = plain_read_part(coding, count, mark, octets, octets_len, out, out_len);
  wait(400);
  return answer;
}

wikuay_parts_join_answer wikuay_join_parts(uint8_t coding, const uint8_t *counts, size_t counts_len, const uint8_t *octets,
                                           size_t octets_len, uint16_t *out, size_t out_len) {
  wikuay_parts_join_answer answer = plain_join_parts(coding, counts, counts_len, octets, octets_len, out, out_len);
  wait(60 * (unsigned)(counts_len < 12 ? counts_len * counts_len : 144));
  return answer;
}

/* A key waits longer the more is typed: it does not take the same time. */
wikuay_meter_answer wikuay_unit_added(wikuay_meter meter, uint16_t unit) {
  wikuay_meter_answer answer = plain_unit_added(meter, unit);
  wait(answer.refusal != 0 ? 2000 : answer.meter.used);
  return answer;
}

wikuay_meter_answer wikuay_unit_taken_back(wikuay_meter meter, uint16_t unit) {
  wikuay_meter_answer answer = plain_unit_taken_back(meter, unit);
  wait(answer.meter.used);
  return answer;
}

static wikuay_answer nothing(void) {
  wikuay_answer answer;
  memset(&answer, 0, sizeof answer);
  return answer;
}

static wikuay_read_answer nothing_read(void) {
  wikuay_read_answer answer;
  memset(&answer, 0, sizeof answer);
  return answer;
}

/* Counting looks at one unit after the other. */
static uint32_t counted(const uint16_t *text, size_t text_len, uint32_t room) {
  volatile uint32_t septets = 0;
  for (size_t i = 0; i < text_len; i++) septets += text[i] != 0;
  return septets / room;
}
wikuay_pages_answer wikuay_count_pages(wikuay_reading reading, const uint16_t *text, size_t text_len) {
  wikuay_pages_answer answer;
  (void)reading;
  memset(&answer, 0, sizeof answer);
  answer.pages = counted(text, text_len, 93);
  return answer;
}
wikuay_parts_answer wikuay_count_parts(wikuay_reading reading, const uint16_t *text, size_t text_len) {
  wikuay_parts_answer answer;
  (void)reading;
  memset(&answer, 0, sizeof answer);
  answer.parts = counted(text, text_len, 153);
  return answer;
}
/* The other calls answer nothing: they are there to be linked. */
wikuay_block_header wikuay_read_header(wikuay_block block) {
  wikuay_block_header header;
  (void)block;
  memset(&header, 0, sizeof header);
  return header;
}
static wikuay_meter_answer nothing_metered(wikuay_meter meter) {
  wikuay_meter_answer answer = { 0, 0, 0, meter };
  return answer;
}
wikuay_meter_answer wikuay_new_meter(uint32_t service) {
  wikuay_meter meter = { service, 0 };
  return nothing_metered(meter);
}
wikuay_meter_answer wikuay_room_left(wikuay_meter meter) { return nothing_metered(meter); }
wikuay_meter_answer wikuay_meter_cleared(wikuay_meter meter) { return nothing_metered(meter); }
wikuay_read_answer wikuay_read_coding(uint32_t service, uint8_t coding) { return (void)service, (void)coding, nothing_read(); }
wikuay_answer wikuay_write_coding(uint32_t service, wikuay_reading reading) { return (void)service, (void)reading, nothing(); }
wikuay_read_answer wikuay_holds_text(wikuay_reading reading) { return (void)reading, nothing_read(); }
wikuay_answer wikuay_pack(uint32_t service, const uint8_t *septets, size_t septets_len, uint8_t *out, size_t out_len) {
  return (void)service, (void)septets, (void)septets_len, (void)out, (void)out_len, nothing();
}
wikuay_answer wikuay_unpack(uint32_t service, const uint8_t *octets, size_t octets_len, size_t count, uint8_t *out, size_t out_len) {
  return (void)service, (void)octets, (void)octets_len, (void)count, (void)out, (void)out_len, nothing();
}
wikuay_answer wikuay_text_to_septets(const uint16_t *text, size_t text_len, uint8_t *out, size_t out_len) {
  return (void)text, (void)text_len, (void)out, (void)out_len, nothing();
}
wikuay_answer wikuay_septets_to_text(const uint8_t *septets, size_t septets_len, uint16_t *out, size_t out_len) {
  return (void)septets, (void)septets_len, (void)out, (void)out_len, nothing();
}
