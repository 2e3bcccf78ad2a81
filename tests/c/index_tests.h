/* The tests of the calls on an index, and what they share. */
#ifndef INDEX_TESTS_H
#define INDEX_TESTS_H

#include "index_check.h"
#include "tests.h"

/* Sequences of 1 to 4 bytes, then what is bad: beginnings, a surrogate, a byte that begins nothing. */
enum { WELL_FORMED = 4, PIECES = 11 };
extern const char *const pieces[PIECES];

/*
 * Kinds of logs: each of the well-formed pieces alone, all of them, all pieces, the bad ones, bytes of the borders, any.
 * A log is cut off after n bytes, wherever that is.
 */
enum { KINDS = 9 };
void fill_log(uint8_t *s, size_t n, size_t kind);

/* So many times the same piece; answers how many bytes. */
size_t repeat(uint8_t *s, const char *piece, size_t times);

/* Bytes that an index has before it is built. */
enum { MOST_INDEX = 65536 };
extern uint8_t scrap[MOST_INDEX];

/* A number near a power of two, so that what is cut off of it or wraps is seen. */
size_t far_number(void);

/* One call against the model; its outcome is answered. */
struct index_outcome try_build(const uint8_t *log, size_t log_len, const uint8_t *index, size_t index_len);
struct index_outcome try_find(const uint8_t *log, size_t log_len, const uint8_t *index, size_t index_len, size_t k);
struct index_outcome try_cover(const uint8_t *log, size_t log_len, size_t p);
struct index_outcome try_update(const uint8_t *log, size_t log_len, size_t old_len, size_t old_records,
                                const uint8_t *index, size_t index_len);

void test_index_lines(void);
void test_index_header(void);
void test_index_null(void);
void test_index_rooms(void);
void test_index_whole(void);
void test_index_multiples(void);
void test_index_false(void);
void test_index_far_codes(void);
void test_index_long(void);
void test_cover_short(void);
void test_cover_long(void);
void test_cover_far(void);
void test_cover_reach(void);
void test_find_reach(void);
void test_update_reach(void);
void test_update_packets(void);
void test_update_last(void);
void test_update_fewer(void);
void test_update_stand(void);
void test_update_refusals(void);
void test_update_false(void);

#endif
