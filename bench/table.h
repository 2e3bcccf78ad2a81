/* What one table compares: some contenders on all corpora. */
#ifndef TABLE_H
#define TABLE_H

#include "contender.h"
#include "corpora.h"

/* The placements of the entry, and all contenders. */
enum { PLACES = 4, MOST = 16 };

/* What a contender is handed of a text, and what it has to give. */
struct task {
    const void *in, *expected;
    size_t in_len, expected_len;
};

/* A contender on a corpus; there are no tasks where it is not run. */
struct job {
    struct task *tasks;
    double least;
};

/* First comes the entry in its placements; the last may be NULL. Each corpus has so many texts, each with that room. */
struct table {
    const char *title, *unit;
    const struct contender **contenders;
    int form, writes;
    size_t texts, room;
    struct job jobs[CORPORA][MOST];
};

/* How it was measured. */
void show_conditions(int rounds);

void show_table(const struct table *t);

#endif
