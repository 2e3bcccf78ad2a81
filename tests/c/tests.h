/* The tests of the entries, and what they share. */
#ifndef TESTS_H
#define TESTS_H

#include "check.h"

enum { DECODE = 1, ENCODE = 0, LIMIT = 1048576 };

/* Set for a short run. */
extern int small;

/* Random numbers, the same in every run. */
uint32_t random32(void);
size_t below(size_t n);

/* Bytes and codes next to the borders of the table. */
enum { BORDER = 28, BORDER_CODES = 23 };
extern const uint8_t border[BORDER];
extern const uint32_t border_codes[BORDER_CODES];

/* n bytes, most of them from the borders. */
size_t damaged_text(uint8_t *s, size_t n);

/* All strings of n bytes, at most 4, over the borders: the k-th of them, from 0, and how many there are. */
void border_string(uint8_t *s, size_t n, size_t k);
size_t border_strings(size_t n);

/* n bytes of sequences and of bad ones, some of them damaged, cut off wherever that is. */
void fill_samples(uint8_t *s, size_t n);

/* One call with a good report, against the model. */
void try_call(int decode, const uint8_t *in, size_t in_len, size_t out_len, uint32_t flags);

void test_lines(void);
void test_header(void);
void test_refusals(void);
void test_flags(void);
void test_null(void);
void test_limits(void);
void test_huge_lengths(void);
void test_short_reads(void);
void test_random_reads(void);
void test_pairs(void);
void test_short_writes(void);
void test_random_writes(void);
void test_leaps(void);
void test_long_leaps(void);
void test_byte_places(void);
void test_pieces(void);
void test_packets(void);
void test_stack(void);
void test_index(void);
void test_reason(void);

#endif
