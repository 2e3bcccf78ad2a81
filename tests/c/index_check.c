#include "index_check.h"

#include "check.h"
#include "guard.h"
#include "utf8b.h"

#include <inttypes.h>
#include <stdio.h>
#include <string.h>

/* Memory for a log and an index, small to large. */
static struct memory {
    size_t most;
    struct guarded log, index;
} memories[] = {{.most = 4096}, {.most = 16384}, {.most = 65536}, {.most = 2097152}};

/* Memory for the numbers that the calls fill in: the records, place or start, then cover's length and code. */
static struct guarded numbers[3];
static const size_t sizes[3] = {sizeof(size_t), sizeof(size_t), sizeof(uint32_t)};

/* A call's buffers and numbers. */
struct lent {
    uint8_t *log, *index, *numbers[3];
};

void show_index_call(const void *call)
{
    const struct index_call *c = call;

    if (c->entry == BUILD)
        printf("  utf8b_index_build, log_len %zu, index_len %zu\n", c->log_len, c->index_len);
    if (c->entry == FIND)
        printf("  utf8b_index_find, log_len %zu, index_len %zu, k %zu\n", c->log_len, c->index_len, c->k);
    if (c->entry == COVER)
        printf("  utf8b_index_cover, log_len %zu, p %zu\n", c->log_len, c->k);
    if (c->entry == UPDATE)
        printf("  utf8b_index_update, log_len %zu, old_len %zu, old_records %zu, index_len %zu\n", c->log_len, c->old_len,
               c->old_records, c->index_len);
    show_bytes("log", c->log, c->log_len);
    if (c->entry != COVER)
        show_bytes("index", c->index, c->index_len);
}

static uint32_t enter_index(const struct index_call *c, const struct lent *l)
{
    size_t *number = (size_t *)l->numbers[0], *length = (size_t *)l->numbers[1];
    uint32_t *code = (uint32_t *)l->numbers[2];

    if (c->entry == BUILD)
        return utf8b_index_build(l->log, c->log_len, l->index, c->index_len, number);
    if (c->entry == FIND)
        return utf8b_index_find(l->log, c->log_len, l->index, c->index_len, c->k, number);
    if (c->entry == COVER)
        return utf8b_index_cover(l->log, c->log_len, c->k, number, length, code);
    return utf8b_index_update(l->log, c->log_len, c->old_len, c->old_records, l->index, c->index_len, number);
}

static const struct memory *memory_for(const struct index_call *c)
{
    size_t need = c->log_len > c->index_len ? c->log_len : c->index_len;
    struct memory *m = memories;

    while (m->most < need)
        m++;
    if (!m->log.base) {
        m->log = guarded_new(m->most);
        m->index = guarded_new(m->most);
    }
    for (int i = 0; i < 3; i++)
        if (!numbers[i].base)
            numbers[i] = guarded_new(sizes[i]);
    return m;
}

static struct lent lend(const struct memory *m, const struct index_call *c, enum side side)
{
    struct lent l;

    guarded_fill(&m->log);
    guarded_fill(&m->index);
    l.log = guarded_place(&m->log, c->log_len, side);
    l.index = guarded_place(&m->index, c->index_len, side);
    if (c->log_len)
        memcpy(l.log, c->log, c->log_len);
    if (c->index_len)
        memcpy(l.index, c->index, c->index_len);
    for (int i = 0; i < 3; i++) {
        guarded_fill(&numbers[i]);
        l.numbers[i] = guarded_place(&numbers[i], sizes[i], side);
    }
    return l;
}

/* Whether a number is as it must be; after a refusal, as it was. */
static int number_holds(const struct index_call *c, const struct index_outcome *o, const struct lent *l, int i)
{
    const void *expected[] = {&o->number, &o->length, &o->code};
    int set = o->answer == DONE && (i == 0 || c->entry == COVER);

    return guarded_holds(&numbers[i], l->numbers[i], expected[i], set ? sizes[i] : 0);
}

static int differs(int holds, const char *what)
{
    if (!holds)
        check_failed(what);
    return !holds;
}

static void show_numbers(const struct index_call *c, size_t number, size_t length, uint32_t code)
{
    if (c->entry == COVER)
        printf(", start %zu, length %zu, code %" PRIX32 "\n", number, length, code);
    else
        printf(", %s %zu\n", c->entry == FIND ? "place" : "records", number);
}

static void show_difference(const struct index_call *c, const struct index_outcome *o, const struct lent *l,
                            uint32_t answer)
{
    size_t number, length;
    uint32_t code;

    memcpy(&number, l->numbers[0], sizeof number);
    memcpy(&length, l->numbers[1], sizeof length);
    memcpy(&code, l->numbers[2], sizeof code);
    show_index_call(c);
    printf("  expected answer %" PRIu32, o->answer);
    if (o->answer == DONE)
        show_numbers(c, o->number, o->length, o->code);
    else
        puts(", numbers as they were");
    printf("  the answer is %" PRIu32, answer);
    show_numbers(c, number, length, code);
    if (c->entry != COVER) {
        show_bytes("expected index", o->index, c->index_len);
        show_bytes("index after", l->index, c->index_len);
    }
    check_go_on();
}

static void check_side(const struct index_call *c, const struct index_outcome *o, enum side side)
{
    const struct memory *m = memory_for(c);
    struct lent l = lend(m, c, side);
    int wrong = 0;
    uint32_t answer;

    check_enter(c, show_index_call);
    answer = enter_index(c, &l);
    check_leave();

    wrong += differs(answer == o->answer, "another answer");
    wrong += differs(guarded_holds(&m->log, l.log, c->log, c->log_len), "the log is changed");
    wrong += differs(guarded_holds(&m->index, l.index, o->index, c->index_len), "another index, or changed beyond it");
    for (int i = 0; i < 3; i++)
        wrong += differs(number_holds(c, o, &l, i), "another number, or one changed that must not be");
    if (wrong)
        show_difference(c, o, &l, answer);
}

void check_index(const struct index_call *c, const struct index_outcome *o)
{
    check_side(c, o, AT_END);
    check_side(c, o, AT_START);
}

void check_index_model(const struct index_call *c, struct index_outcome *o)
{
    static uint8_t index[2097152];

    o->index = index;
    index_model(c, o);
    check_index(c, o);
}
