/* What is measured of an index, and what comes out. */
#ifndef INDEX_H
#define INDEX_H

#include "corpora.h"

enum { SMALL, LARGE, SIZES };
enum { SMALL_LOG = 1048576, LARGE_LOG = 67108864 };

/* Find with empty caches, all over the log, in one place; walks; build; update after little and after more. */
enum { COLD, SPREAD, ONE, WALK, RUST_WALK, BUILD, UPDATE, UPDATE_MORE, JOBS };

/* How many calls are timed together, and how many come before those all over the log. */
enum { COLD_FINDS = 64, FINDS = 8192, FINDS_BEFORE = 3 * FINDS, WALKS = 4 };

/* What takes long runs in one of so many rounds. */
enum { SELDOM = 25 };

/* The bytes that are appended before an update. */
enum { LITTLE = 24, MORE = 4096 };

/* Median times of a call in ns, on the two logs of a corpus; 0 where there is none. */
struct result {
    const char *name;
    double ns[SIZES][JOBS];
};

void show_index_conditions(int rounds);
void show_index_tables(const struct result *results, int count);

#endif
