#define _DEFAULT_SOURCE
#include "check.h"

#include "guard.h"
#include "utf8b.h"

#include <inttypes.h>
#include <signal.h>
#include <stdio.h>
#include <stdlib.h>
#include <string.h>
#include <unistd.h>

enum { MOST_FAILURES = 10, MOST_SHOWN = 80 };

/* Memory for the input, the output and the report, small to large. */
static struct memory {
    size_t most;
    struct guarded in, out, report;
} memories[] = {{.most = 1000}, {.most = 8000}, {.most = 16000}, {.most = 60000}, {.most = 1048576 + 8}};

static const char *test = "";
static const void *current;
static void (*show_current)(const void *call);
static unsigned long compared, failures;

int64_t enter(int decode, const uint8_t *in, size_t in_len, uint8_t *out, size_t out_len, uint32_t flags,
              uint8_t *report, size_t report_len)
{
    if (cesu8 && decode)
        return utf8b_cesu8_decode(in, in_len, out, out_len, flags, report, report_len);
    if (cesu8)
        return utf8b_cesu8_encode(in, in_len, out, out_len, flags, report, report_len);
    if (decode)
        return utf8b_decode(in, in_len, out, out_len, flags, report, report_len);
    return utf8b_encode(in, in_len, out, out_len, flags, report, report_len);
}

uint64_t consumed_in(const uint8_t *report)
{
    uint64_t n = 0;

    for (int i = 7; i >= 0; i--)
        n = n * 256 + report[i];
    return n;
}

void show_bytes(const char *name, const uint8_t *s, size_t n)
{
    printf("  %s, %zu bytes:", name, n);
    for (size_t i = 0; i < n && i < MOST_SHOWN; i++)
        printf(" %02X", s[i]);
    puts(n > MOST_SHOWN ? " .." : "");
}

static void show_call(const void *call)
{
    const struct call *c = call;

    printf("  utf8b_%s%s, flags %" PRIu32 ", out_len %zu, report_len %zu\n", cesu8 ? "cesu8_" : "",
           c->decode ? "decode" : "encode", c->flags, c->out_len, c->report_len);
    show_bytes("input", c->in, c->in_len);
}

void check_failed(const char *what)
{
    printf("%s: %s\n", test, what);
    failures++;
}

void check_go_on(void)
{
    if (failures >= MOST_FAILURES) {
        puts("too many differences");
        exit(1);
    }
}

/* A touch of a forbidden page ends the test; printing is safe enough for that. */
static void touched(int signal)
{
    printf("%s: signal %d: a touch outside the buffers\n", test, signal);
    if (current)
        show_current(current);
    fflush(stdout);
    _exit(1);
}

void check_enter(const void *call, void (*show)(const void *call))
{
    current = call;
    show_current = show;
}

void check_leave(void)
{
    current = NULL;
    compared++;
}

static const struct memory *memory_for(const struct call *c)
{
    size_t need = c->in_len > c->out_len ? c->in_len : c->out_len;
    struct memory *m = memories;

    if (c->report_len > need)
        need = c->report_len;
    while (m->most < need)
        m++;
    if (!m->in.base) {
        m->in = guarded_new(m->most);
        m->out = guarded_new(m->most);
        m->report = guarded_new(m->most);
    }
    return m;
}

static void check_side(const struct call *c, const struct outcome *o, enum side side)
{
    const struct memory *m = memory_for(c);
    uint8_t *in = guarded_place(&m->in, c->in_len, side);
    uint8_t *out = guarded_place(&m->out, c->out_len, side);
    uint8_t *report = guarded_place(&m->report, c->report_len, side);
    uint8_t expected[REPORT];
    unsigned long before = failures;
    int64_t answer;

    guarded_fill(&m->in);
    guarded_fill(&m->out);
    guarded_fill(&m->report);
    if (c->in_len)
        memcpy(in, c->in, c->in_len);
    for (int i = 0; i < 8; i++)
        expected[i] = (uint8_t)(o->consumed >> (8 * i));
    expected[8] = o->bad_length;

    check_enter(c, show_call);
    answer = enter(c->decode, in, c->in_len, out, c->out_len, c->flags, report, c->report_len);
    check_leave();

    if (answer != o->answer)
        check_failed("another answer");
    if (!guarded_holds(&m->in, in, c->in, c->in_len))
        check_failed("the input is changed");
    if (!guarded_holds(&m->out, out, o->out, o->written))
        check_failed("other bytes in the output, or changed beyond it");
    if (!guarded_holds(&m->report, report, expected, o->reported ? REPORT : 0))
        check_failed("another report, or changed beyond it");
    if (failures == before)
        return;
    show_call(c);
    printf("  expected answer %" PRId64 ", consumed %" PRIu64 ", bad length %d; the answer is %" PRId64 "\n", o->answer,
           o->consumed, o->bad_length, answer);
    show_bytes("expected", o->out, o->written);
    show_bytes("output", out, o->written);
    if (c->report_len == REPORT)
        show_bytes("report", report, REPORT);
    check_go_on();
}

void check_call(const struct call *c, const struct outcome *o)
{
    check_side(c, o, AT_END);
    check_side(c, o, AT_START);
}

void check_model(const struct call *c)
{
    static uint8_t out[1048576];
    struct outcome o;

    o.out = out;
    model(c, &o);
    check_call(c, &o);
}

void check_that(int holds, const char *what)
{
    compared++;
    if (!holds)
        check_failed(what);
    check_go_on();
}

void check_begin(const char *name)
{
    test = name;
    signal(SIGSEGV, touched);
    signal(SIGBUS, touched);
}

int check_end(void)
{
    printf("%lu calls compared, %lu differences\n", compared, failures);
    return failures != 0;
}
