/* The yardsticks in plain C: what the library's calls do, without its proofs and mostly without its tests. */
#include <stddef.h>
#include <stdint.h>

#define POINTER 0x80000000u

/* rk_look_up, test for test. */
uint32_t plain_look_up(const uint8_t *first, size_t first_bytes, const uint8_t *long_table, size_t long_bytes, uint32_t base,
                       uint32_t base_length, uint32_t address);

/* A DIR-24-8 loop over many addresses with no test at all. */
void plain_look_up_all(const uint32_t *first, const uint32_t *long_table, const uint32_t *addresses, uint32_t *answers, size_t count);

/* Adds each amount to the word of the hop that rk_look_up_all's answer names, and to word 0 for "no route"; a refused one to none. */
void plain_add(const uint32_t *answers, const uint64_t *amounts, uint64_t *octets, size_t count);

/* The cost sheet by qsort: each comparison tests and divides the words of its two hops. */
void plain_sheet(const uint64_t *octets, const uint64_t *cents, uint32_t *hops);

/* The cost sheet by qsort over lines whose kinds and rates were worked out before, once for each. */
void plain_sheet_of_lines(const uint64_t *octets, const uint64_t *cents, uint32_t *hops);

/* How many rule words are live, or SIZE_MAX where they break their form or order or leave the territory. */
size_t plain_form(const uint64_t *rules, size_t count, uint32_t base, uint32_t base_length);

/* Whether each cell of a first table without pointers is 0 or direct. */
int plain_clean(const uint32_t *first, size_t count);

/* Announce's repaint of all blocks: a cell that is 0 or at most `length` long becomes `new`. */
void plain_paint(uint32_t *first, size_t blocks, uint32_t *long_table, uint32_t new, uint32_t length);

/* Withdraw's repaint of all blocks, where one `other` cell is known to be the answer everywhere: a cell of exactly `length` becomes it. */
void plain_unpaint(uint32_t *first, size_t blocks, uint32_t *long_table, uint32_t other, uint32_t length);
