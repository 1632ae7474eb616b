/* The baseline of the benchmark: the codec as a careful engineer writes it by hand, in plain C loops. It takes and gives what the
   C calls of the library do. It has no old page. */
#ifndef PLAIN_H
#define PLAIN_H
#include "wikuay.h"

wikuay_answer plain_write(uint32_t service, wikuay_reading reading, const uint16_t *text, size_t text_len, uint8_t *out,
                          size_t out_len);
wikuay_read_answer plain_read(uint32_t service, uint8_t coding, size_t count, const uint8_t *octets, size_t octets_len,
                              uint16_t *out, size_t out_len);

/* Broadcasts of several pages. */
wikuay_pages_answer plain_write_pages(uint16_t sequence, uint16_t identifier, wikuay_reading reading, const uint16_t *text,
                                      size_t text_len, uint8_t *out, size_t out_len);
wikuay_page_answer plain_build_page(uint16_t sequence, uint16_t identifier, wikuay_reading reading, const uint16_t *text,
                                    size_t text_len, size_t number);
wikuay_join_answer plain_join_pages(const uint8_t *blocks, size_t blocks_len, uint16_t *out, size_t out_len);

/* Short messages of several parts. */
wikuay_parts_answer plain_write_parts(wikuay_reading reading, uint8_t reference, const uint16_t *text, size_t text_len, uint8_t *out,
                                      size_t out_len, uint8_t *sizes, size_t sizes_len);
wikuay_parts_answer plain_write_part(wikuay_reading reading, uint8_t reference, const uint16_t *text, size_t text_len, size_t number,
                                     uint8_t *out, size_t out_len);
wikuay_part_answer plain_read_part(uint8_t coding, size_t count, uint8_t mark, const uint8_t *octets, size_t octets_len, uint16_t *out,
                                   size_t out_len);
wikuay_parts_join_answer plain_join_parts(uint8_t coding, const uint8_t *counts, size_t counts_len, const uint8_t *octets,
                                          size_t octets_len, uint16_t *out, size_t out_len);

/* The keys of a meter, by value. */
wikuay_meter_answer plain_unit_added(wikuay_meter meter, uint16_t unit);
wikuay_meter_answer plain_unit_taken_back(wikuay_meter meter, uint16_t unit);

/* The data coding octet of a reading, or -1 where there is none; and what an octet says. */
int plain_write_coding(uint32_t service, wikuay_reading reading);
wikuay_reading plain_read_coding(uint32_t service, uint8_t coding);

/* UCS2 without any test: units to octets, high octet first, and back. */
void plain_swap_out(const uint16_t *text, size_t text_len, uint8_t *out);
void plain_swap_in(const uint8_t *octets, size_t units, uint16_t *out);
#endif
