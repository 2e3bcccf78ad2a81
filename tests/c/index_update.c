/* An index brought up to date after bytes were appended. */
#include "index_tests.h"
#include "utf8b.h"

#include <string.h>

enum { MOST_LOG = 1200, MOST_ROOM = MOST_LOG };

static uint8_t text[MOST_LOG], index[MOST_ROOM];

/* Builds the index of the first n bytes into index; answers the number of its records. */
static size_t build_index(size_t n, size_t index_len)
{
    struct index_outcome o = try_build(text, n, index, index_len);

    memcpy(index, o.index, index_len);
    return o.number;
}

/* Brings index up to date; its records must be those of a fresh one. */
static size_t update_fresh(size_t n, size_t old_len, size_t old_records, size_t index_len)
{
    struct index_outcome o = try_update(text, n, old_len, old_records, index, index_len);
    size_t records = o.number;

    memcpy(index, o.index, index_len);
    o = try_build(text, n, scrap, index_len);
    check_that(o.number == records && memcmp(o.index, index, RECORD * records) == 0, "the records of a fresh index");
    return records;
}

/* The log's first part, then the rest at once. */
static void append_rest(size_t n, size_t cut)
{
    size_t index_len = utf8b_index_room(n) + below(20), records;

    memcpy(index, scrap, index_len);
    records = build_index(cut, index_len);
    update_fresh(n, cut, records, index_len);
}

/* The same in packets, empty ones too; at times fewer of the records are handed over. */
static void append_packets(size_t n, size_t cut, size_t most)
{
    size_t index_len = utf8b_index_room(n) + below(20), records, old_len = cut;

    memcpy(index, scrap, index_len);
    records = build_index(cut, index_len);
    while (old_len < n) {
        size_t packet = below(most + 1), len = n - old_len < packet ? n : old_len + packet;

        records = update_fresh(len, old_len, below(4) ? records : below(records + 1), index_len);
        old_len = len;
    }
    update_fresh(n, n, records, index_len);
}

void test_update_packets(void)
{
    static const size_t lengths[] = {6, 70, 135, 300};

    check_begin("packets appended");
    for (size_t kind = 0; kind < KINDS; kind++)
        for (size_t l = 0; l < (small ? 2 : 4); l++)
            for (size_t cut = 0; cut <= lengths[l]; cut += small ? 1 + lengths[l] / 3 : 1) {
                fill_log(text, lengths[l], kind);
                append_rest(lengths[l], cut);
                append_packets(lengths[l], cut, lengths[l] - cut);
                if (cut % 16 == 0)
                    append_packets(lengths[l], cut, 1 + below(9));
            }
    for (size_t kind = WELL_FORMED; kind < KINDS && !small; kind++) {
        fill_log(text, MOST_LOG, kind);
        append_packets(MOST_LOG, 0, 3);
    }
}

/* The last records alone, two or more of them, give the last records of a fresh index. */
static void append_to_last(size_t n, size_t cut)
{
    static uint8_t fresh[MOST_ROOM];
    size_t index_len = utf8b_index_room(n), records, all;
    struct index_outcome o = try_build(text, n, scrap, index_len);

    all = o.number;
    memcpy(fresh, o.index, index_len);
    memcpy(index, scrap, index_len);
    records = build_index(cut, index_len);
    for (size_t i = 0; i + 1 < records; i++) {
        o = try_update(text, n, cut, records - i, index + RECORD * i, index_len - RECORD * i);
        check_that(i + o.number == all && memcmp(o.index, fresh + RECORD * i, RECORD * o.number) == 0,
                   "the last records of a fresh index");
    }
}

void test_update_last(void)
{
    size_t most = small ? 140 : MOST_LOG;

    check_begin("the last records alone");
    for (size_t kind = 0; kind < KINDS; kind++)
        for (size_t n = 66; n < most; n += 1 + below(small ? 60 : 9)) {
            fill_log(text, n, kind);
            append_to_last(n, n - below(7));
            append_to_last(n, below(n + 1));
        }
}

/* A sequence cut off at the end is as many codes as bytes; with its rest it is one, and a record may fall away. */
void test_update_fewer(void)
{
    size_t longest = small ? 66 : 258;

    check_begin("codes that become fewer");
    for (size_t before = 60; before <= longest; before++)
        for (size_t p = 1; p < WELL_FORMED; p++)
            for (size_t held = 1; held < strlen(pieces[p]); held++)
                for (size_t more = 0; more < (small ? 1 : 3); more++) {
                    size_t n = repeat(text, pieces[0], before) + repeat(text + before, pieces[p], 1), records;
                    size_t index_len = utf8b_index_room(n + more) + 8;

                    n += repeat(text + n, pieces[0], more);
                    memcpy(index, scrap, index_len);
                    records = build_index(before + held, index_len);
                    check_that(records == (before + held + EVERY - 1) / EVERY, "a code for each byte held");
                    records = update_fresh(n, before + held, records, index_len);
                    check_that(records == (before + 1 + more + EVERY - 1) / EVERY, "one code for the sequence");
                }
}

/* Records of which the second is about the old length or about 2^64; the third would stand, if the second did. */
static void stand_about(size_t n, size_t old_len)
{
    for (size_t near = 0; near < 14; near++)
        for (size_t old_records = 0; old_records <= 3; old_records++) {
            set_record(index, 0, near % 2 ? old_len / 2 : 0);
            set_record(index, 1, near < 9 ? old_len - near + 1 : SIZE_MAX - (near - 9));
            set_record(index, 2, 1);
            set_record(index, 3, 99);
            try_update(text, n, old_len, old_records, index, near % 4 ? 56 : 24 + below(24));
        }
}

void test_update_stand(void)
{
    check_begin("records that stand");
    for (size_t kind = 0; kind < KINDS; kind += small ? 4 : 1)
        for (size_t n = 0; n < (small ? 80 : 200); n += n < 12 ? 1 : 47)
            for (size_t old_len = 0; old_len <= n; old_len += small ? 5 : 1) {
                fill_log(text, n, kind);
                stand_about(n, old_len);
            }
}

/* Old lengths past the log, more old records than there is room for, and no room, in every order. */
void test_update_refusals(void)
{
    static const size_t lengths[] = {0, 1, 10, 64, 65, 130};
    const size_t wrap = (size_t)1 << 61, half = (size_t)1 << 63, low = (size_t)1 << 32;

    check_begin("refusals of an update");
    for (size_t l = 0; l < 6; l += small ? 2 : 1)
        for (size_t index_len = 0; index_len < 34; index_len += small ? 5 : 1) {
            size_t n = lengths[l], room = index_len / RECORD;
            const size_t old_lens[] = {0, 1, 3, n / 2, n, n + 1, n + 64, n + low, half, n + half, SIZE_MAX - 3, SIZE_MAX};
            const size_t olds[] = {0, room, room + 1, room + 2, low, low + room, wrap - 1, wrap, wrap + 1, wrap + room,
                                   half, half + room, SIZE_MAX - 1, SIZE_MAX};

            fill_log(text, n, below(KINDS));
            for (size_t i = 0; i < 4; i++)
                set_record(index, i, below(2) ? EVERY * i : below(n + 1));
            for (size_t a = 0; a < sizeof old_lens / sizeof old_lens[0]; a += small ? 5 : 1)
                for (size_t b = 0; b < sizeof olds / sizeof olds[0]; b++)
                    try_update(text, n, old_lens[a], olds[b], index, index_len);
        }
}

/* The log's own records up to an old length, with some that are false. */
static void update_false(size_t n)
{
    size_t old_len = below(4) ? below(n + 1) : n - below(n < 5 ? n + 1 : 5), places = 6 + n / EVERY;
    size_t records, old_records, need;

    fill_log(text, n, below(KINDS));
    memcpy(index, scrap, MOST_ROOM);
    records = build_index(old_len, RECORD * places);
    old_records = below(4) ? records : below(places);
    for (size_t changed = below(4); changed > 0; changed--)
        set_record(index, below(places), below(3) ? below(n + 1) : old_len - below(6) + 1);
    if (below(20) == 0)
        set_record(index, below(places), below(2) ? SIZE_MAX - below(9) : far_number());
    need = RECORD * try_update(text, n, old_len, old_records, index, MOST_ROOM).number;
    for (size_t room = need < 9 ? 0 : need - 9; room <= need + 9; room += 1 + below(8))
        try_update(text, n, old_len, old_records, index, room);
    try_update(text, n, old_len, old_records, index, need);
    if (below(20) == 0)
        try_update(text, n, far_number(), old_records, index, need);
    if (below(20) == 0)
        try_update(text, n, old_len, far_number(), index, need);
}

void test_update_false(void)
{
    check_begin("false indexes brought up to date");
    for (long i = 0; i < (small ? 120 : 30000); i++)
        update_false(below(below(3) ? 40 : 600));
}
