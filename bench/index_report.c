#include "index.h"

#include <stdio.h>

#ifdef RUST
#define RUST_NAME "Rust " RUST
#else
#define RUST_NAME "Rust"
#endif

static const char *const sizes[SIZES] = {"1 MiB", "64 MiB"};

void show_index_conditions(int rounds)
{
    puts("\nThe index of a log:\n");
    printf("- Median thread-CPU time of %d rounds; in each round everything runs once on a log of 1 MiB and on one of\n"
           "  64 MiB, but walks and building in one of %d rounds.\n", rounds, SELDOM);
    puts("- Outputs were found equal before the timing.");
    printf("- Find, cold: %d codes all over the log, after 64 MiB of other memory were read. What it reads of the log\n"
           "  and of the index is in no cache.\n", COLD_FINDS);
    printf("- Find, spread: %d codes all over the log, after %d others. The caches then have most of the small log,\n"
           "  and little of the large one.\n", FINDS, FINDS_BEFORE);
    puts("- Find, one: one code again and again, the 32nd after a record. All that it reads is in the caches.");
    printf("- Walk: utf8b_decode from the start, 4096 codes a call. Rust: char_indices().nth(k) of a str. Both are\n"
           "  the mean of %d codes, one from each part of the log.\n", WALKS);
}

static void show_ratio(double time, double by)
{
    if (time > 0)
        printf(" %.0f |", time / by);
    else
        printf(" - |");
}

static void show_finds(const struct result *r, int size)
{
    const double *ns = r->ns[size];

    printf("| %s, %s | %.0f | %.0f | %.0f |", r->name, sizes[size], ns[COLD], ns[SPREAD], ns[ONE]);
    show_ratio(ns[WALK], ns[COLD]);
    show_ratio(ns[RUST_WALK], ns[COLD]);
    puts("");
}

static void show_updates(const struct result *r, int size)
{
    const double *ns = r->ns[size];

    printf("| %s, %s |", r->name, sizes[size]);
    for (int i = UPDATE; i <= UPDATE_MORE; i++) {
        printf(" %.1f |", ns[i] / 1000);
        show_ratio(ns[BUILD], ns[i]);
    }
    puts("");
}

static double growth(const struct result *r, int job)
{
    return r->ns[LARGE][job] / r->ns[SMALL][job];
}

static void show_growth(const struct result *r)
{
    printf("- %s: find in 64 MiB takes %.2f times as long as in 1 MiB; spread, %.2f times; one, %.2f times.\n", r->name,
           growth(r, COLD), growth(r, SPREAD), growth(r, ONE));
}

static void each_row(const struct result *results, int count, void (*show)(const struct result *r, int size))
{
    for (int i = 0; i < count; i++)
        for (int size = 0; size < SIZES; size++)
            show(&results[i], size);
}

void show_index_tables(const struct result *results, int count)
{
    puts("\nFind, ns a call, and the time of walks divided by that of the cold find:\n\n"
         "| log | find, cold | find, spread | find, one | walk | " RUST_NAME " |\n|---|--:|--:|--:|--:|--:|");
    each_row(results, count, show_finds);
    puts("");
    for (int i = 0; i < count; i++)
        show_growth(&results[i]);
    printf("\nUpdate after so many bytes were appended, µs a call, and the time of build divided by it:\n\n"
           "| log | update, %d bytes | build | update, %d bytes | build |\n|---|--:|--:|--:|--:|\n", LITTLE, MORE);
    each_row(results, count, show_updates);
}
