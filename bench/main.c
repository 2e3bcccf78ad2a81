/*
 * The reader and the writer, through the C entries and directly, against other libraries.
 *
 * usage: bench ROUNDS
 */
#include "clock.h"
#include "table.h"

#include <stdio.h>
#include <stdlib.h>
#include <string.h>

#define PLACED(entry) &entries_0.entry, &entries_16.entry, &entries_32.entry, &entries_48.entry

static const struct contender *readers[MOST] = {
    PLACED(reader[UTF8]), &direct_reader, &mbsnrtowcs_reader, &iconv_reader,
#ifdef RUST
    &rust_reader,
#endif
#ifdef UTF8PROC
    &utf8proc_reader,
#endif
#ifdef UNISTRING
    &unistring_reader,
#endif
#ifdef GLIB
    &glib_reader,
#endif
#ifdef ICU
    &icu_reader, &icu_macro_reader,
#endif
#ifdef PYTHON
    &python_reader,
#endif
};
static const struct contender *writers[MOST] = {
    PLACED(writer[UTF8]), &direct_writer, &wcsnrtombs_writer, &iconv_writer,
#ifdef RUST
    &rust_writer,
#endif
#ifdef UTF8PROC
    &utf8proc_writer,
#endif
#ifdef UNISTRING
    &unistring_writer,
#endif
#ifdef GLIB
    &glib_writer,
#endif
#ifdef ICU
    &icu_writer, &icu_macro_writer,
#endif
#ifdef PYTHON
    &python_writer,
#endif
};
static const struct contender *cesu8_readers[MOST] = {
    PLACED(reader[CESU8]),
#ifdef ICU
    &icu_cesu8_reader,
#endif
};
static const struct contender *cesu8_writers[MOST] = {
    PLACED(writer[CESU8]),
#ifdef ICU
    &icu_cesu8_writer,
#endif
};

static struct table tables[] = {
    {"Reader, 1 MiB", "ns a byte", readers, UTF8, .writes = 0, .texts = 1, .room = WHOLE},
    {"Writer, 1 MiB", "ns a byte", writers, UTF8, .writes = 1, .texts = 1, .room = WHOLE},
    {"Reader, short lines", "ns a line", readers, UTF8, .writes = 0, .texts = LINES, .room = LONGEST},
    {"Writer, short lines", "ns a line", writers, UTF8, .writes = 1, .texts = LINES, .room = LONGEST},
    {"Reader of CESU-8, 1 MiB", "ns a byte", cesu8_readers, CESU8, .writes = 0, .texts = 1, .room = WHOLE},
    {"Writer of CESU-8, 1 MiB", "ns a byte", cesu8_writers, CESU8, .writes = 1, .texts = 1, .room = WHOLE},
    {"Reader of CESU-8, short lines", "ns a line", cesu8_readers, CESU8, .writes = 0, .texts = LINES, .room = LONGEST},
    {"Writer of CESU-8, short lines", "ns a line", cesu8_writers, CESU8, .writes = 1, .texts = LINES, .room = LONGEST},
};

enum { TABLES = sizeof tables / sizeof tables[0] };

/* One output for all; CPython and glib have their own. */
static void *out;

/* Drops the contenders that cannot run here. */
static void keep_able(const struct contender **list, const char *what)
{
    size_t kept = 0;

    for (size_t i = 0; i < MOST && list[i]; i++) {
        const struct contender *one = list[i];

        list[i] = NULL;
        if (!one->start || one->start())
            list[kept++] = one;
        else
            printf("- %s is left out as a %s: it cannot run here.\n", one->name, what);
    }
}

static struct task task_of(const struct table *t, const struct contender *one, const struct text *text)
{
    struct task reading = {text->bytes, text->codes, text->len, text->count};
    struct task writing = {text->codes, text->bytes, text->count, text->len};
    struct task task = t->writes ? writing : reading;

    if (one->prepare)
        task.in = one->prepare(task.in, task.in_len);
    return task;
}

/* Whether it gives what it has to. The output is cleared, so that no other's is taken for it. */
static int gives(const struct table *t, const struct contender *one, const struct task *task)
{
    size_t size = t->writes ? 1 : sizeof(uint32_t);

    memset(out, 0xA5, size * t->room);
    if (one->run(task->in, task->in_len, out, t->room) != task->expected_len)
        return 0;
    if (one->fetch)
        one->fetch(out, t->room);
    return memcmp(out, task->expected, size * task->expected_len) == 0;
}

/* Makes the tasks, and checks the outputs. */
static void prepare(const struct table *t, const struct corpus *c, const struct contender *one, struct job *job)
{
    const struct text *texts = t->texts == 1 ? &c->whole[t->form] : c->lines[t->form];

    job->tasks = new_memory(t->texts * sizeof *job->tasks);
    for (size_t i = 0; i < t->texts; i++) {
        job->tasks[i] = task_of(t, one, &texts[i]);
        if (!gives(t, one, &job->tasks[i])) {
            fprintf(stderr, "bench: %s, %s, text %zu: %s gives something else\n", t->title, c->name, i, one->name);
            exit(1);
        }
    }
}

static void measure(const struct table *t, const struct corpus *c, const struct contender *one, struct job *job)
{
    double start = thread_time(), time;

    (void)c;
    for (size_t i = 0; i < t->texts; i++)
        one->run(job->tasks[i].in, job->tasks[i].in_len, out, t->room);
    time = thread_time() - start;
    if (job->least == 0 || time < job->least)
        job->least = time;
}

typedef void action(const struct table *t, const struct corpus *c, const struct contender *one, struct job *job);

/* Going backwards, each comes after another contender, with other things in the caches. */
static void each_contender(struct table *t, int corpus, int backwards, action *act)
{
    const struct corpus *c = &corpora[corpus];

    for (int i = 0; i < MOST; i++) {
        int place = backwards ? MOST - 1 - i : i;
        const struct contender *one = t->contenders[place];

        if (one && (c->next || !one->only_well_formed))
            act(t, c, one, &t->jobs[corpus][place]);
    }
}

static void each_job(int backwards, action *act)
{
    for (int t = 0; t < TABLES; t++)
        for (int corpus = 0; corpus < CORPORA; corpus++)
            each_contender(&tables[t], corpus, backwards, act);
}

/* The codes are the entry's. Every other reader has to give them too, and every writer has to give the bytes. */
static void read_texts(int form, struct text *texts, size_t count)
{
    for (struct text *t = texts; t < texts + count; t++)
        t->count = entries_0.reader[form].run(t->bytes, t->len, t->codes, t->len);
}

static void read_corpus(struct corpus *c)
{
    for (int form = 0; form < FORMS; form++) {
        read_texts(form, &c->whole[form], 1);
        read_texts(form, c->lines[form], LINES);
    }
}

int main(int argc, char **argv)
{
    int rounds = argc == 2 ? atoi(argv[1]) : 0;

    if (rounds < 1) {
        fputs("usage: bench ROUNDS\n", stderr);
        return 2;
    }
    keep_able(readers, "reader");
    keep_able(writers, "writer");
    keep_able(cesu8_readers, "reader of CESU-8");
    keep_able(cesu8_writers, "writer of CESU-8");
    out = new_memory(WHOLE * sizeof(uint32_t));
    make_corpora();
    for (int i = 0; i < CORPORA; i++)
        read_corpus(&corpora[i]);
    each_job(0, prepare);
    for (int round = 0; round < rounds; round++)
        each_job(round % 2, measure);
    show_conditions(rounds);
    for (int t = 0; t < TABLES; t++)
        show_table(&tables[t]);
    return 0;
}
