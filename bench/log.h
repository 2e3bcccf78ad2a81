/* A log with its index, and ways to get to a code of it. */
#ifndef LOG_H
#define LOG_H

#include "corpora.h"

struct log {
    const struct corpus *corpus;
    uint8_t *bytes, *index;
    size_t len, index_len, records;
};

/* The index of a log's first bytes, in the room that the whole log needs. */
struct old_index {
    uint8_t *index;
    size_t len, records;
};

/* Where a walk has come to. */
struct position {
    size_t code, place;
};

/* The place of code k; Rust's is for well-formed texts alone. */
typedef size_t way(const struct log *log, size_t k);
way find_code, walk_to_code, walk_in_rust;

/* To a later code, or to the end. */
struct position walk_on(const struct log *log, struct position at, size_t code);

/* What is not as it must be ends the program. */
void expect(int holds, const struct log *log, const char *what);

/* So many bytes of a corpus, with their index. */
void make_log(struct log *log, const struct corpus *c, size_t len);
void free_log(struct log *log);

void make_old_index(struct old_index *old, const struct log *log, size_t len);

/* The number of records. An index that has been brought up to date can be again, with the same outcome. */
size_t build_index(const struct log *log, size_t len, uint8_t *index);
size_t update_index(const struct log *log, const struct old_index *old);

#endif
