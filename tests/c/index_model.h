/* What the calls on an index have to do, written plainly and slowly. */
#ifndef INDEX_MODEL_H
#define INDEX_MODEL_H

#include <stddef.h>
#include <stdint.h>

/* Codes from one record to the next, and bytes in a record. */
enum { EVERY = 64, RECORD = 8 };

/* Numbers that the calls answer. */
enum { DONE = 0, NO_ROOM = 1, OUTSIDE = 15 };

/* The full reading of a log with LAST alone: its items from byte 0 on. */
struct item {
    size_t start, length;
    uint32_t code;
};

struct reading {
    struct item *items;
    size_t count;
};

/* It is kept until the next one. */
const struct reading *read_log(const uint8_t *log, size_t log_len);

enum index_entry { BUILD, FIND, COVER, UPDATE };

/* One call.  k is the code to find or the byte to cover; index has the bytes before the call. */
struct index_call {
    enum index_entry entry;
    const uint8_t *log;
    size_t log_len;
    const uint8_t *index;
    size_t index_len;
    size_t k;
    size_t old_len;
    size_t old_records;
};

/* What it must leave: the answer, all bytes of the index and, where the answer is 0, the numbers. */
struct index_outcome {
    uint32_t answer;
    uint8_t *index;
    size_t number; /* records, place or start */
    size_t length;
    uint32_t code;
};

/* index of the outcome must have room for index_len bytes of the call. */
void index_model(const struct index_call *c, struct index_outcome *o);

size_t record_at(const uint8_t *index, size_t i);
void set_record(uint8_t *index, size_t i, size_t place);

#endif
