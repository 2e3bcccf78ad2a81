/* The calls on an index: what their tests share, and all of them. */
#include "index_tests.h"

#include <string.h>

const char *const pieces[PIECES] = {"a",        "\xC3\xA9", "\xE2\x80\xB2", "\xF0\x9F\x92\xA7", "\xC3", "\xE2\x80", "\xF0",
                                    "\xF0\x9F", "\xF0\x9F\x92", "\xED\xA0\x80", "\x80"};

uint8_t scrap[MOST_INDEX];

/* n bytes of pieces from first to last. */
static void fill_with(uint8_t *s, size_t n, size_t first, size_t last)
{
    for (size_t at = 0; at < n;) {
        const char *piece = pieces[first + below(last - first + 1)];
        size_t length = strlen(piece) < n - at ? strlen(piece) : n - at;

        memcpy(s + at, piece, length);
        at += length;
    }
}

void fill_log(uint8_t *s, size_t n, size_t kind)
{
    if (kind < WELL_FORMED)
        fill_with(s, n, kind, kind);
    else if (kind == WELL_FORMED)
        fill_with(s, n, 0, WELL_FORMED - 1);
    else if (kind == WELL_FORMED + 1)
        fill_with(s, n, 0, PIECES - 1);
    else if (kind == WELL_FORMED + 2)
        fill_with(s, n, WELL_FORMED, PIECES - 1);
    else if (kind == WELL_FORMED + 3)
        damaged_text(s, n);
    else
        for (size_t i = 0; i < n; i++)
            s[i] = (uint8_t)random32();
}

size_t repeat(uint8_t *s, const char *piece, size_t times)
{
    size_t length = strlen(piece);

    for (size_t i = 0; i < times; i++)
        memcpy(s + i * length, piece, length);
    return times * length;
}

size_t far_number(void)
{
    size_t near = below(2) ? 2 : 130;

    return ((size_t)1 << below(64)) * (1 + below(2)) - near + below(2 * near + 1);
}

static struct index_outcome try_index(const struct index_call *c)
{
    struct index_outcome o;

    check_index_model(c, &o);
    return o;
}

struct index_outcome try_build(const uint8_t *log, size_t log_len, const uint8_t *index, size_t index_len)
{
    struct index_call c = {BUILD, log, log_len, index, index_len, 0, 0, 0};

    return try_index(&c);
}

struct index_outcome try_find(const uint8_t *log, size_t log_len, const uint8_t *index, size_t index_len, size_t k)
{
    struct index_call c = {FIND, log, log_len, index, index_len, k, 0, 0};

    return try_index(&c);
}

struct index_outcome try_cover(const uint8_t *log, size_t log_len, size_t p)
{
    struct index_call c = {COVER, log, log_len, NULL, 0, p, 0, 0};

    return try_index(&c);
}

struct index_outcome try_update(const uint8_t *log, size_t log_len, size_t old_len, size_t old_records,
                                const uint8_t *index, size_t index_len)
{
    struct index_call c = {UPDATE, log, log_len, index, index_len, 0, old_len, old_records};

    return try_index(&c);
}

void test_index(void)
{
    for (size_t i = 0; i < MOST_INDEX; i++)
        scrap[i] = (uint8_t)random32();
    test_index_lines();
    test_index_header();
    test_index_null();
    test_index_rooms();
    test_index_whole();
    test_index_multiples();
    test_index_false();
    test_index_far_codes();
    test_cover_short();
    test_cover_long();
    test_cover_far();
    test_cover_reach();
    test_find_reach();
    test_update_reach();
    test_update_packets();
    test_update_last();
    test_update_fewer();
    test_update_stand();
    test_update_refusals();
    test_update_false();
    if (!small)
        test_index_long();
}
