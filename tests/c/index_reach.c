/* What the calls on an index read: the other bytes of the log and of the index lie in forbidden pages. */
#include "check.h"
#include "guard.h"
#include "index_tests.h"
#include "utf8b.h"

#include <stdio.h>
#include <stdlib.h>
#include <string.h>

/* A log and an index of which one page may be touched.  Their places are above 2^32, but not in a short run. */
static struct guarded log_page, index_page;
static size_t before;
enum { AFTER = 1048576, KEPT = 0x5A };

static int make_amid(size_t bytes_before)
{
    before = bytes_before;
    log_page = guarded_amid(before, AFTER);
    index_page = guarded_amid(before, AFTER);
    return log_page.base && index_page.base;
}

static void make_pages(void)
{
    if (log_page.base || (!small && make_amid(((size_t)1 << 32) + AFTER)))
        return;
    if (!small)
        puts("places above 2^32 skipped: no 4 GiB of addresses");
    if (!make_amid(AFTER))
        abort();
}

static const uint8_t *beginning(const struct guarded *g)
{
    return g->base - before;
}

static const uint8_t *ending(const struct guarded *g)
{
    return g->base + g->size + AFTER;
}

static uint8_t *put(const struct guarded *g, const uint8_t *s, size_t n, enum side side)
{
    uint8_t *place = guarded_place(g, n, side);

    guarded_fill(g);
    if (n)
        memcpy(place, s, n);
    return place;
}

/* c is the call as it would be with no other bytes about it: it can be shown. */
static void compare_reach(const struct index_call *c, int holds, const char *what)
{
    if (holds)
        return;
    check_failed(what);
    show_index_call(c);
    check_go_on();
}

/* n bytes of a log, and byte q of them is asked for.  Where three are before it, or three behind, the log goes on. */
static void cover_reach(const uint8_t *window, size_t n, size_t q, enum side side)
{
    uint8_t *w = put(&log_page, window, n, side);
    const uint8_t *log = q == 3 ? beginning(&log_page) : w, *end = n - q == 4 ? ending(&log_page) : w + n;
    struct index_call c = {COVER, window, n, NULL, 0, q, 0, 0};
    struct index_outcome o;
    size_t start = KEPT, length = KEPT, at = (size_t)(w - log);
    uint32_t code = KEPT, answer;

    index_model(&c, &o);
    check_enter(&c, show_index_call);
    answer = utf8b_index_cover(log, (size_t)(end - log), at + q, &start, &length, &code);
    check_leave();
    compare_reach(&c, answer == DONE && start == at + o.number && length == o.length && code == o.code,
                  "another item than from these bytes alone");
}

/* Bytes with a piece, whole or damaged, that may cover byte q. */
static void fill_window(uint8_t *s, size_t n, size_t q)
{
    const char *piece = pieces[below(PIECES)];
    size_t at = q - below(q + 1), length = strlen(piece) < n - at ? strlen(piece) : n - at;

    damaged_text(s, n);
    memcpy(s + at, piece, length);
    if (below(3) == 0)
        s[at + below(length)] = border[below(BORDER)];
}

void test_cover_reach(void)
{
    uint8_t window[7];

    check_begin("bytes read to cover one");
    make_pages();
    for (long i = 0; i < (small ? 10 : 5000); i++)
        for (size_t q = 0; q <= 3; q++)
            for (size_t behind = 0; behind <= 3; behind++) {
                fill_window(window, q + 1 + behind, q);
                cover_reach(window, q + 1 + behind, q, AT_END);
                cover_reach(window, q + 1 + behind, q, AT_START);
            }
}

/* One record, and from its place on only what the walk needs: of each item at most four bytes. */
static void find_reach(const uint8_t *s, size_t items, enum side side)
{
    const uint8_t *log = beginning(&log_page), *index = beginning(&index_page), *w, *r;
    size_t n = 0, reached = 0, index_len, place = KEPT;
    struct index_call c = {FIND, s, 0, NULL, RECORD, 0, 0, 0};
    uint8_t record[RECORD];
    uint32_t code, answer;

    for (size_t i = 0; i < items; i++) {
        n = reached + 4;
        reached += front_item(s + reached, 4, UTF8B_LAST, &code);
    }
    w = put(&log_page, s, n, side);
    set_record(record, 0, (size_t)(w - log));
    r = put(&index_page, record, RECORD, side);
    index_len = below(2) ? (size_t)(ending(&index_page) - index) : (size_t)(r - index) + RECORD + below(RECORD);
    c.log_len = n;
    c.index = record;
    c.k = EVERY * ((size_t)(r - index) / RECORD) + items;
    check_enter(&c, show_index_call);
    answer = utf8b_index_find(log, (size_t)(ending(&log_page) - log), index, index_len, c.k, &place);
    check_leave();
    compare_reach(&c, answer == DONE && place == (size_t)(w - log) + reached, "another place than from these bytes alone");
}

/* Not one byte of the log may be read, nor of the index but one record, of whose code 0 code k is counted. */
static void find_nothing(size_t log_len, size_t index_len, size_t recorded, size_t k)
{
    const uint8_t *log = beginning(&log_page), *index = beginning(&index_page);
    uint8_t record[RECORD];
    struct index_call c = {FIND, NULL, 0, record, RECORD, EVERY * (before / RECORD) + k, 0, 0};
    size_t place = KEPT;
    uint32_t answer;

    set_record(record, 0, recorded);
    put(&index_page, record, RECORD, AT_START);
    check_enter(&c, show_index_call);
    answer = utf8b_index_find(log, log_len, index, index_len, c.k, &place);
    check_leave();
    compare_reach(&c, answer == OUTSIDE && place == KEPT, "15, and the number kept");
}

void test_find_reach(void)
{
    uint8_t s[EVERY * 4];

    check_begin("bytes read to find a code");
    make_pages();
    for (long i = 0; i < (small ? 30 : 6000); i++) {
        fill_log(s, sizeof s, below(KINDS));
        find_reach(s, below(4) ? below(EVERY) : EVERY - 1, AT_END);
        find_reach(s, below(4) ? below(EVERY) : EVERY - 1, AT_START);
        /* The record is missing, or has a place at or past the end. */
        find_nothing(before, before + below(RECORD), below(before), below(2) ? below(EVERY) : EVERY * below(1000));
        find_nothing(before, before + RECORD, before + (below(2) ? 0 : below(200)), below(EVERY));
    }
}

/* The old records before the last that stands, then those of s from its place on; answers how many. */
static size_t lay_expected(const uint8_t *s, size_t n, size_t place, size_t stand, uint8_t *index)
{
    const struct reading *r = read_log(s, n);
    size_t records = stand - 1;

    for (size_t i = 0; i < r->count; i += EVERY)
        set_record(index, records++, place + r->items[i].start);
    return records;
}

/* The walk goes on from the last record that stands, the place of s: what is before it is not read. */
static void update_reach(const uint8_t *s, size_t n, size_t stand, enum side side)
{
    enum { ROOM = RECORD * 20 };
    uint8_t *w = put(&log_page, s, n, side), old[ROOM], index[ROOM], expected[ROOM];
    const uint8_t *log = beginning(&log_page);
    size_t place = (size_t)(w - log), old_len = place + 4 + below(n - 3), records = KEPT, expected_records;
    struct index_call c = {UPDATE, s, n, old, ROOM, 0, old_len, stand};
    uint32_t answer;

    memcpy(old, scrap, ROOM);
    for (size_t i = 0; i + 1 < stand; i++)
        set_record(old, i, below(2) ? EVERY * i : old_len - 4 - below(9));
    set_record(old, stand - 1, place);
    memcpy(index, old, ROOM);
    memcpy(expected, old, ROOM);
    expected_records = lay_expected(s, n, place, stand, expected);

    check_enter(&c, show_index_call);
    answer = utf8b_index_update(log, place + n, old_len, stand, index, ROOM, &records);
    check_leave();
    compare_reach(&c, answer == DONE && records == expected_records && memcmp(index, expected, ROOM) == 0,
                  "another index than from these bytes alone");
}

void test_update_reach(void)
{
    uint8_t s[600];

    check_begin("bytes read to update an index");
    make_pages();
    for (long i = 0; i < (small ? 30 : 3000); i++) {
        size_t n = 4 + below(sizeof s - 4);

        fill_log(s, n, below(KINDS));
        update_reach(s, n, 1 + below(8), AT_END);
        update_reach(s, n, 1 + below(8), AT_START);
    }
}
