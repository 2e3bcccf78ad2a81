/* What utf8b_reason reads, the byte at the place and three behind it: the others lie in forbidden pages. */
#include "check.h"
#include "guard.h"
#include "reason_tests.h"
#include "utf8b.h"

#include <stdio.h>
#include <stdlib.h>
#include <string.h>

/* An input of which one page may be touched.  Its places are above 2^32, but not in a short run. */
static struct guarded page;
static size_t before;
enum { AFTER = 1048576, WINDOW = 4 };

static int make_amid(size_t bytes_before)
{
    before = bytes_before;
    page = guarded_amid(before, AFTER);
    return page.base != NULL;
}

static void make_page(void)
{
    if (page.base || (!small && make_amid(((size_t)1 << 32) + AFTER)))
        return;
    if (!small)
        puts("reasons at places above 2^32 skipped: no 4 GiB of addresses");
    if (!make_amid(AFTER))
        abort();
}

static const uint8_t *beginning(void)
{
    return page.base - before;
}

static const uint8_t *ending(void)
{
    return page.base + page.size + AFTER;
}

/*
 * The bytes from the place on, all of them if they are fewer than four; else the input may go on behind them.  c is the
 * call as it would be with no other bytes about it: it can be shown.
 */
static void reach_to(const uint8_t *window, size_t n, const uint8_t *w, const uint8_t *end)
{
    const uint8_t *s = beginning();
    struct reason_call c = {window, n, 0};
    uint32_t answer;

    check_enter(&c, show_reason_call);
    answer = utf8b_reason(s, (size_t)(end - s), (size_t)(w - s));
    check_leave();
    compare_reason(&c, reason_model(window, n, 0), answer);
}

static void reach(const uint8_t *window, size_t n, enum side side)
{
    uint8_t *w = guarded_place(&page, n, side);

    guarded_fill(&page);
    memcpy(w, window, n);
    reach_to(window, n, w, w + n);
    if (n == WINDOW) {
        reach_to(window, n, w, w + n + 1 + below(4));
        reach_to(window, n, w, ending());
    }
}

void test_reason_reach(void)
{
    uint8_t window[WINDOW];

    check_begin("bytes read for a reason");
    make_page();
    for (size_t n = 1; n < WINDOW; n++)
        for (size_t k = 0; k < border_strings(n); k += small ? 1 + border_strings(n) / 30 : 1) {
            border_string(window, n, k);
            reach(window, n, AT_END);
            reach(window, n, AT_START);
        }
    for (long i = 0; i < (small ? 50 : 40000); i++) {
        if (below(2))
            fill_samples(window, WINDOW);
        else
            damaged_text(window, WINDOW);
        reach(window, WINDOW, AT_END);
        reach(window, WINDOW, AT_START);
    }
}

/* At or past the end not one byte may be read; c has none to show. */
static void read_nothing(size_t s_len, size_t place)
{
    struct reason_call c = {NULL, 0, place};
    uint32_t answer;

    check_enter(&c, show_reason_call);
    answer = utf8b_reason(beginning(), s_len, place);
    check_leave();
    compare_reason(&c, END, answer);
}

void test_reason_nothing(void)
{
    check_begin("no byte read past the end");
    make_page();
    for (long i = 0; i < (small ? 30 : 5000); i++) {
        size_t s_len = below(3) ? before - below(i % 2 ? 9 : AFTER) : below(9);

        read_nothing(s_len, s_len);
        read_nothing(s_len, s_len + 1 + below(9));
        read_nothing(s_len, s_len + ((size_t)1 << (32 + below(32))));
        read_nothing(s_len, SIZE_MAX - below(9));
    }
}
