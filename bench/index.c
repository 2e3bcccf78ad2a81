/*
 * A code of a log, found by its index and by walking to it; and an index, brought up to date and built anew.
 *
 * usage: index ROUNDS
 */
#include "index.h"

#include "clock.h"
#include "log.h"
#include "utf8b.h"

#include <stdio.h>
#include <stdlib.h>
#include <string.h>

enum { KINDS = 3 };
/* The codes that are looked for: those of one round, and others for the next. */
enum { OF_ROUND = FINDS_BEFORE + FINDS, WANTED = 8 * OF_ROUND };

static const int kinds[KINDS] = {ASCII, LINE_LOG, RANDOM};
static const size_t lengths[SIZES] = {SMALL_LOG, LARGE_LOG};

#ifdef RUST
static way *const rust = walk_in_rust;
#else
static way *const rust = NULL;
#endif

struct trial {
    struct log log;
    struct old_index old, older;
    size_t *wanted, round;
    double *times[JOBS];
    size_t runs[JOBS];
};

struct job {
    int is_seldom, calls;
    /* What comes before the timing; NULL: nothing. */
    void (*before)(const struct trial *t);
    void (*run)(const struct trial *t);
};

/* What the compiler has to work out, since others might look. */
static volatile size_t sink;
static uint8_t *other_memory;

static void empty_caches(const struct trial *t)
{
    size_t sum = 0;

    (void)t;
    for (size_t i = 0; i < LARGE_LOG; i += 64)
        sum += other_memory[i];
    sink = sum;
}

/* The wanted codes from number i on. */
static void seek(const struct trial *t, way *place_of, size_t i, size_t count)
{
    size_t sum = 0;

    for (size_t end = i + count; i < end; i++)
        sum += place_of(&t->log, t->wanted[i]);
    sink = sum;
}

static void find_cold(const struct trial *t)
{
    seek(t, find_code, t->round * COLD_FINDS % WANTED, COLD_FINDS);
}

/* The caches then have what such finds leave there. */
static void find_before(const struct trial *t)
{
    seek(t, find_code, t->round * OF_ROUND % WANTED, FINDS_BEFORE);
}

static void find_spread(const struct trial *t)
{
    seek(t, find_code, t->round * OF_ROUND % WANTED + FINDS_BEFORE, FINDS);
}

/* Half way from one record to the next, in the middle of the log. */
static void find_one(const struct trial *t)
{
    size_t k = t->log.records / 2 * UTF8B_INDEX_EVERY + UTF8B_INDEX_EVERY / 2, sum = 0;

    for (int i = 0; i < FINDS; i++)
        sum += find_code(&t->log, k);
    sink = sum;
}

static void walk(const struct trial *t)
{
    seek(t, walk_to_code, 0, WALKS);
}

static void rust_walk(const struct trial *t)
{
    seek(t, rust, 0, WALKS);
}

static void build(const struct trial *t)
{
    sink = build_index(&t->log, t->log.len, t->log.index);
}

static void update(const struct trial *t)
{
    sink = update_index(&t->log, &t->old);
}

static void update_more(const struct trial *t)
{
    sink = update_index(&t->log, &t->older);
}

static const struct job jobs[JOBS] = {
    [COLD] = {.calls = COLD_FINDS, .before = empty_caches, .run = find_cold},
    [SPREAD] = {.calls = FINDS, .before = find_before, .run = find_spread},
    [ONE] = {.calls = FINDS, .run = find_one},
    [WALK] = {.is_seldom = 1, .calls = WALKS, .run = walk},
    [RUST_WALK] = {.is_seldom = 1, .calls = WALKS, .run = rust_walk},
    [BUILD] = {.is_seldom = 1, .calls = 1, .run = build},
    [UPDATE] = {.calls = 1, .run = update},
    [UPDATE_MORE] = {.calls = 1, .run = update_more},
};

static int has_rust(const struct trial *t)
{
    return rust && t->log.corpus->next;
}

/* From the parts of the log by turns, so that the first few are spread over it as well. */
static void choose_codes(struct trial *t)
{
    size_t part = UTF8B_INDEX_EVERY * (t->log.records - 1) / WALKS;

    t->wanted = new_memory(WANTED * sizeof *t->wanted);
    for (size_t i = 0; i < WANTED; i++)
        t->wanted[i] = i % WALKS * part + below((uint32_t)part);
}

static int compare_sizes(const void *a, const void *b)
{
    size_t x = *(const size_t *)a, y = *(const size_t *)b;

    return (x > y) - (x < y);
}

/* One walk goes by all of them. */
static void check_finds(const struct trial *t)
{
    size_t *sorted = new_memory(WANTED * sizeof *sorted);
    struct position at = {0, 0};

    memcpy(sorted, t->wanted, WANTED * sizeof *sorted);
    qsort(sorted, WANTED, sizeof *sorted, compare_sizes);
    for (size_t i = 0; i < WANTED; i++) {
        at = walk_on(&t->log, at, sorted[i]);
        expect(find_code(&t->log, sorted[i]) == at.place, &t->log, "find gives another place than the walk");
    }
    free(sorted);
}

static void check_rust(const struct trial *t)
{
    for (size_t i = 0; i < WALKS && has_rust(t); i++)
        expect(rust(&t->log, t->wanted[i]) == find_code(&t->log, t->wanted[i]), &t->log, "Rust gives another place");
}

static void check_update(const struct log *log, const struct old_index *old)
{
    expect(update_index(log, old) == log->records, log, "update gives another number of records than build");
    expect(memcmp(old->index, log->index, UTF8B_INDEX_RECORD * log->records) == 0, log, "update gives other records");
}

static void make_trial(struct trial *t, const struct corpus *c, size_t len, size_t rounds)
{
    make_log(&t->log, c, len);
    choose_codes(t);
    make_old_index(&t->old, &t->log, len - LITTLE);
    make_old_index(&t->older, &t->log, len - MORE);
    check_finds(t);
    check_rust(t);
    check_update(&t->log, &t->old);
    check_update(&t->log, &t->older);
    for (int i = 0; i < JOBS; i++) {
        t->times[i] = new_memory(rounds * sizeof *t->times[i]);
        t->runs[i] = 0;
    }
}

static void free_trial(struct trial *t)
{
    for (int i = 0; i < JOBS; i++)
        free(t->times[i]);
    free(t->older.index);
    free(t->old.index);
    free(t->wanted);
    free_log(&t->log);
}

static void measure(struct trial *t, int i)
{
    const struct job *job = &jobs[i];
    double start;

    if ((job->is_seldom && t->round % SELDOM != 0) || (i == RUST_WALK && !has_rust(t)))
        return;
    if (job->before)
        job->before(t);
    start = thread_time();
    job->run(t);
    t->times[i][t->runs[i]++] = (thread_time() - start) / job->calls;
}

static int compare_times(const void *a, const void *b)
{
    double x = *(const double *)a, y = *(const double *)b;

    return (x > y) - (x < y);
}

static double median(double *times, size_t count)
{
    qsort(times, count, sizeof *times, compare_times);
    return count > 0 ? times[count / 2] : 0;
}

static void run_round(struct trial *t, size_t round)
{
    t->round = round;
    for (int i = 0; i < JOBS; i++)
        measure(t, round % 2 ? JOBS - 1 - i : i);
}

static void try_corpus(const struct corpus *c, size_t rounds, struct result *result)
{
    struct trial trials[SIZES];

    for (int size = 0; size < SIZES; size++)
        make_trial(&trials[size], c, lengths[size], rounds);
    for (size_t round = 0; round < rounds; round++)
        for (int size = 0; size < SIZES; size++)
            run_round(&trials[size], round);
    result->name = c->name;
    for (int size = 0; size < SIZES; size++) {
        for (int i = 0; i < JOBS; i++)
            result->ns[size][i] = median(trials[size].times[i], trials[size].runs[i]);
        free_trial(&trials[size]);
    }
}

int main(int argc, char **argv)
{
    struct result results[KINDS];
    int rounds = argc == 2 ? atoi(argv[1]) : 0;

    if (rounds < 1) {
        fputs("usage: index ROUNDS\n", stderr);
        return 2;
    }
    other_memory = new_memory(LARGE_LOG);
    for (int i = 0; i < KINDS; i++)
        try_corpus(&corpora[kinds[i]], (size_t)rounds, &results[i]);
    show_index_conditions(rounds);
    show_index_tables(results, KINDS);
    return 0;
}
