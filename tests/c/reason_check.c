#include "reason_check.h"

#include "check.h"
#include "guard.h"
#include "utf8b.h"

#include <inttypes.h>
#include <stdio.h>
#include <string.h>

/* Memory for the bytes, small to large. */
static struct memory {
    size_t most;
    struct guarded s;
} memories[] = {{.most = 4096}, {.most = 65536}, {.most = 2097152}};

void show_reason_call(const void *call)
{
    const struct reason_call *c = call;

    printf("  utf8b_reason, s_len %zu, place %zu\n", c->s_len, c->place);
    show_bytes("input", c->s, c->s_len);
    if (c->place < c->s_len)
        show_bytes("from the place on", c->s + c->place, c->s_len - c->place);
}

void compare_reason(const struct reason_call *c, uint32_t reason, uint32_t answer)
{
    if (answer == reason)
        return;
    check_failed("another reason");
    show_reason_call(c);
    printf("  expected reason %" PRIu32 ", the answer is %" PRIu32 "\n", reason, answer);
    check_go_on();
}

static const struct guarded *memory_for(size_t n)
{
    struct memory *m = memories;

    while (m->most < n)
        m++;
    if (!m->s.base)
        m->s = guarded_new(m->most);
    return &m->s;
}

static uint8_t *lay(const struct guarded *g, const uint8_t *s, size_t n, enum side side)
{
    uint8_t *place = guarded_place(g, n, side);

    guarded_fill(g);
    if (n)
        memcpy(place, s, n);
    return place;
}

static void ask(const struct reason_call *c, const uint8_t *laid, uint32_t reason)
{
    uint32_t answer;

    check_enter(c, show_reason_call);
    answer = utf8b_reason(laid, c->s_len, c->place);
    check_leave();
    compare_reason(c, reason, answer);
}

/* A call at the place of c, or at one before it, could have changed them. */
static void compare_laid(const struct reason_call *c, const struct guarded *g, const uint8_t *laid)
{
    if (guarded_holds(g, laid, c->s, c->s_len))
        return;
    check_failed("the input is changed, or what is beside it, at this place or before");
    show_reason_call(c);
    check_go_on();
}

static void check_side(const struct reason_call *c, uint32_t reason, enum side side)
{
    const struct guarded *g = memory_for(c->s_len);
    const uint8_t *laid = lay(g, c->s, c->s_len, side);

    ask(c, laid, reason);
    compare_laid(c, g, laid);
}

void check_reason(const struct reason_call *c, uint32_t reason)
{
    check_side(c, reason, AT_END);
    check_side(c, reason, AT_START);
}

uint32_t check_reason_model(const struct reason_call *c)
{
    uint32_t reason = reason_model(c->s, c->s_len, c->place);

    check_reason(c, reason);
    return reason;
}

static void each_side(const uint8_t *s, size_t n, enum side side)
{
    const struct guarded *g = memory_for(n);
    const uint8_t *laid = lay(g, s, n, side);
    struct reason_call c = {s, n, 0};

    for (; c.place < n; c.place++)
        ask(&c, laid, reason_model(s, n, c.place));
    compare_laid(&c, g, laid);
}

void check_reason_each(const uint8_t *s, size_t n)
{
    each_side(s, n, AT_END);
    each_side(s, n, AT_START);
}
