#include "table.h"

#include <stdio.h>

/* The entry's time in its worst placement and in its best. */
struct times {
    double worst, best;
};

void show_conditions(int rounds)
{
    printf("- Least thread-CPU time of %d rounds; in each round every contender runs once on every corpus.\n", rounds);
    puts("- Outputs were found equal before the timing.");
    puts("- Buffers were touched before the timing. They are not cleared between runs.");
    printf("- Short lines: %d of %d to %d bytes, cut from each corpus; one call a line.\n", LINES, SHORTEST, LONGEST);
}

static struct times entry_times(const struct job *jobs)
{
    struct times times = {jobs[0].least, jobs[0].least};

    for (int i = 1; i < PLACES; i++) {
        if (jobs[i].least > times.worst)
            times.worst = jobs[i].least;
        if (jobs[i].least < times.best)
            times.best = jobs[i].least;
    }
    return times;
}

/* Its number; 0 if no library is timed. */
static int fastest_library(const struct table *t, const struct job *jobs)
{
    int found = 0;

    for (int i = PLACES; i < MOST && t->contenders[i]; i++)
        if (jobs[i].tasks && !t->contenders[i]->is_apart && (found == 0 || jobs[i].least < jobs[found].least))
            found = i;
    return found;
}

static void show_row(const struct table *t, int corpus)
{
    const struct job *jobs = t->jobs[corpus];
    struct times entry = entry_times(jobs);
    double units = t->texts == 1 ? WHOLE : (double)t->texts;
    int library = fastest_library(t, jobs);

    printf("| %s | %.2f |", corpora[corpus].name, entry.worst / units);
    if (library)
        printf(" %.2f | %.2f | %s |", jobs[library].least / entry.worst, jobs[library].least / entry.best,
               t->contenders[library]->name);
    else
        printf(" - | - | - |");
    for (int i = PLACES; i < MOST && t->contenders[i]; i++)
        if (jobs[i].tasks)
            printf(" %.2f |", jobs[i].least / entry.worst);
        else
            printf(" - |");
    puts("");
}

void show_table(const struct table *t)
{
    printf("\n%s:\n\n| corpus | entry, worst placement, %s |", t->title, t->unit);
    printf(" fastest library over entry, worst placement | best placement | which |");
    for (int i = PLACES; i < MOST && t->contenders[i]; i++)
        printf(" %s |", t->contenders[i]->name);
    printf("\n|---|--:|--:|--:|---|");
    for (int i = PLACES; i < MOST && t->contenders[i]; i++)
        printf("--:|");
    puts("");
    for (int corpus = 0; corpus < CORPORA; corpus++)
        show_row(t, corpus);
}
