/* The plain loop of plain.c once more, without its table from unit to code: it searches. Its calls are named search_ in the place of plain_. */
#define SEARCHES
#define plain_write search_write
#define plain_read search_read
#define plain_write_pages search_write_pages
#define plain_build_page search_build_page
#define plain_join_pages search_join_pages
#define plain_write_parts search_write_parts
#define plain_write_part search_write_part
#define plain_read_part search_read_part
#define plain_join_parts search_join_parts
#define plain_unit_added search_unit_added
#define plain_unit_taken_back search_unit_taken_back
#define plain_write_coding search_write_coding
#define plain_read_coding search_read_coding
#define plain_swap_out search_swap_out
#define plain_swap_in search_swap_in
#include "plain.c"
