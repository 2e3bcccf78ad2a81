/*
 * Every corpus once through each entry, for callgrind, which writes its counts whenever run_texts ends. Prints the
 * tables, with what each count is to be divided by, marked with @, in its place. A # is the place of a figure of the
 * steps, which have no entry.
 */
#include "contender.h"

#include "utf8b.h"

#include <stdio.h>

/* One output for all. */
static void *out;

/* The index goes where codes would, and is given the room that is always enough. */
static size_t build_index(const void *in, size_t len, void *to, size_t room)
{
    size_t records = 0;

    (void)room;
    utf8b_index_build(in, len, to, utf8b_index_room(len), &records);
    return records;
}

static const struct contender indexer = {.name = "index", .run = build_index};

/* Not compiled into its callers, so that it has an end. */
__attribute__((noinline))
static void run_texts(const struct contender *one, int writes, struct text *texts, size_t count)
{
    for (struct text *t = texts; t < texts + count; t++)
        if (writes)
            one->run(t->codes, t->count, out, t->len);
        else
            t->count = one->run(t->bytes, t->len, t->codes, t->len);
}

/* The readers come first: the writers write what they have read. */
static void show_row(struct corpus *c, int is_whole)
{
    size_t texts = is_whole ? 1 : LINES;

    printf("| %s |", c->name);
    for (int form = 0; form < FORMS; form++)
        for (int writes = 0; writes < 2; writes++) {
            run_texts(writes ? &entries.writer[form] : &entries.reader[form], writes,
                      is_whole ? &c->whole[form] : c->lines[form], texts);
            printf(" @%zu |", is_whole ? (size_t)WHOLE : texts);
        }
    puts("");
}

static void show_table(const char *title, int is_whole)
{
    printf("\n%s:\n\n| corpus | reader | writer | reader of CESU-8 | writer of CESU-8 |\n", title);
    puts("|---|--:|--:|--:|--:|");
    for (struct corpus *c = corpora; c < corpora + CORPORA; c++)
        show_row(c, is_whole);
}

static void show_others(struct corpus *c)
{
    const struct contender *others[] = {&entries.show_reader, &indexer};

    printf("| %s |", c->name);
    for (size_t i = 0; i < sizeof others / sizeof *others; i++) {
        run_texts(others[i], 0, &c->whole[UTF8], 1);
        printf(" @%d |", WHOLE);
    }
    puts(" # | # |");
}

/* This comes last: it leaves other codes than the writers have to write, or none. */
static void show_others_table(void)
{
    puts("\nMarks, the index and the steps, instructions:\n");
    puts("| corpus | reader with SHOW, a byte | index, build, a byte | step, a sequence a call "
         "| step, a byte a call |");
    puts("|---|--:|--:|--:|--:|");
    for (struct corpus *c = corpora; c < corpora + CORPORA; c++)
        show_others(c);
}

int main(void)
{
    out = new_memory(WHOLE);
    make_corpora();
    show_table("1 MiB, instructions a byte", 1);
    show_table("Short lines, instructions a line", 0);
    show_others_table();
    return 0;
}
