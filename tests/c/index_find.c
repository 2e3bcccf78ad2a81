/* An index built, with every room about it, and codes found by true and by false ones. */
#include "index_tests.h"
#include "utf8b.h"

#include <string.h>

enum { MOST_LOG = 6000 };

static uint8_t text[MOST_LOG], index[MOST_LOG];

/* Lengths about the records of letters of 1 to 4 bytes, and about a page. */
static const size_t lengths[] = {
    0,    1,    2,    3,    4,    7,    62,   63,   64,   65,   66,   67,   127,  128,  129,  130,  131,  191,  192,  193,
    194,  195,  255,  256,  257,  258,  259,  260,  383,  384,  387,  511,  512,  513,  640,  700,  767,  768,  770,  771,
    772,  773,  774,  775,  776,  999,  1000, 1023, 1024, 1025, 1500, 2047, 2048, 3000, 4095, 4096, 4097, 5000,
};
enum { LENGTHS = sizeof lengths / sizeof lengths[0], SMALL_LENGTHS = 14 };

/* Rooms from the ninth byte below what is needed to the ninth above, none, and what the header calls enough. */
void test_index_rooms(void)
{
    check_begin("rooms for an index");
    for (size_t kind = 0; kind < KINDS; kind++)
        for (size_t l = 0; l < (small ? SMALL_LENGTHS : LENGTHS); l += small ? 3 : 1) {
            size_t n = lengths[l], need;
            struct index_outcome o;

            fill_log(text, n, kind);
            o = try_build(text, n, scrap, utf8b_index_room(n));
            check_that(o.answer == DONE, "the header's room is enough");
            need = RECORD * o.number;
            try_build(text, n, scrap, 0);
            try_build(text, n, scrap, utf8b_index_room(n) + 8 * below(40) + 5);
            for (size_t room = need < 9 ? 0 : need - 9; room <= need + 9; room += small ? 4 : 1)
                try_build(text, n, scrap, room);
        }
}

/* Codes about the first records. */
static const size_t codes[] = {0, 1, 2, 61, 62, 63, 64, 65, 66, 126, 127, 128, 129, 130};
enum { CODES = sizeof codes / sizeof codes[0] };

/* The place of code k by the log's own index is the full reading's. */
static void find_true(size_t n, const struct item *items, size_t count, size_t index_len, size_t k)
{
    struct index_outcome o = try_find(text, n, index, index_len, k);

    if (k < count)
        check_that(o.answer == DONE && o.number == items[k].start, "the full reading's place");
    else
        check_that(o.answer == OUTSIDE, "15 at and past the end");
}

/* The log's own index: all codes of a short log, and those about each record of a long one. */
static void find_all(size_t n)
{
    static struct item items[MOST_LOG];
    const struct reading *r = read_log(text, n);
    size_t count = r->count, index_len;

    memcpy(items, r->items, count * sizeof *items);
    index_len = RECORD * try_build(text, n, scrap, utf8b_index_room(n)).number;
    memcpy(index, try_build(text, n, scrap, index_len + 64).index, index_len + 64);
    for (size_t i = 0; i < CODES; i++)
        find_true(n, items, count, index_len, codes[i]);
    for (size_t k = 0; k < count + 3; k += small && k > 3 && k + 3 < count ? 17 : 1)
        if (count < 600 || (k + 2) % EVERY < 4 || k + 3 > count)
            find_true(n, items, count, index_len + below(RECORD), k);
    /* Too short by a record or by bytes, or with others behind. */
    for (size_t k = count < 3 ? 0 : count - 3; k < count + 70; k += small ? 40 : 7)
        for (size_t length = index_len < 17 ? 0 : index_len - 17; length < index_len + 24; length += small ? 11 : 4)
            try_find(text, n, index, length, k);
}

void test_index_whole(void)
{
    check_begin("codes found");
    for (size_t kind = 0; kind < KINDS; kind++)
        for (size_t l = 0; l < (small ? SMALL_LENGTHS : LENGTHS); l += small ? 5 : 1) {
            fill_log(text, lengths[l], kind);
            find_all(lengths[l]);
        }
}

/* A log of so many codes: a well-formed piece is one, a bad one as many as it has bytes; answers its length. */
static size_t log_of_codes(size_t piece, size_t count)
{
    size_t codes_of_piece = piece < WELL_FORMED ? 1 : strlen(pieces[piece]);
    size_t n = repeat(text, pieces[piece], count / codes_of_piece);

    return n + repeat(text + n, "z", count % codes_of_piece);
}

/* Logs that end at a multiple of 64 codes, or one or two before or behind. */
void test_index_multiples(void)
{
    check_begin("multiples of 64 codes");
    for (size_t p = 0; p < PIECES; p += small ? 3 : 1)
        for (size_t records = 1; records < (small ? 3 : 12); records++)
            for (size_t count = EVERY * records - 2; count <= EVERY * records + 2; count++) {
                size_t n = log_of_codes(p, count), room = RECORD * records + 16;
                struct index_outcome o = try_build(text, n, scrap, room);

                memcpy(index, o.index, room);
                check_that(o.number == (count + EVERY - 1) / EVERY, "a record for each multiple of 64 that is there");
                for (size_t k = EVERY * records - 4; k < EVERY * records + 5; k++)
                    try_find(text, n, index, room, k);
            }
}

/* Any place, about the end of the log, about 2^64, or far. */
static size_t false_place(size_t n)
{
    switch (below(8)) {
    case 0:
        return n - 3 + below(8);
    case 1:
        return SIZE_MAX - below(9);
    case 2:
        return ((size_t)1 << (32 + below(32))) + below(n + 1);
    case 3:
        return far_number();
    default:
        return below(n + 1);
    }
}

/* Any bytes in the index: places inside items, in no order, at the end, beyond and far beyond. */
void test_index_false(void)
{
    check_begin("codes found by a false index");
    for (long i = 0; i < (small ? 150 : 25000); i++) {
        size_t n = below(below(3) ? 60 : 500), records = below(6), index_len = RECORD * records + below(RECORD);

        fill_log(text, n, below(KINDS));
        for (size_t r = 0; r <= records; r++)
            set_record(index, r, false_place(n));
        for (int times = 0; times < 3; times++)
            try_find(text, n, index, index_len, below(EVERY * (records + 2)));
        try_find(text, n, index, index_len, EVERY * below(records + 2) + below(4));
        try_find(text, n, index, index_len, far_number());
    }
}

/* Code numbers about each power of two, with true records and with others behind them. */
void test_index_far_codes(void)
{
    static const size_t offsets[] = {0, 1, 2, 63, 64, 65, 66, 127, 128, 129};
    size_t n = repeat(text, pieces[0], 130);

    check_begin("far codes");
    memcpy(index, try_build(text, n, scrap, 40).index, 40);
    set_record(index, 3, 5);
    set_record(index, 4, 77);
    for (int bit = small ? 56 : 0; bit < 64; bit++)
        for (size_t i = 0; i < sizeof offsets / sizeof offsets[0]; i++)
            for (size_t index_len = 24; index_len <= 40; index_len += 8) {
                try_find(text, n, index, index_len, ((size_t)1 << bit) + offsets[i]);
                try_find(text, n, index, index_len, ((size_t)1 << bit) - offsets[i]);
                try_find(text, n, index, index_len, SIZE_MAX - offsets[i] - 64 * (size_t)bit);
            }
}

/* More bytes than the readers and writers take. */
void test_index_long(void)
{
    enum { LONG = 1300000, ROOM = LONG / 8 + 8, FINDS = 100 };
    static uint8_t log[LONG], records[ROOM];
    size_t k[FINDS], starts[FINDS];
    struct index_outcome o;
    const struct reading *r;

    check_begin("a long log");
    fill_log(log, LONG, WELL_FORMED + 1);
    r = read_log(log, LONG);
    for (size_t i = 0; i < FINDS; i++) {
        k[i] = i < 4 ? r->count - 1 - i : below(r->count);
        starts[i] = r->items[k[i]].start;
    }
    o = try_build(log, LIMIT, records, ROOM);
    memcpy(records, o.index, ROOM);
    try_update(log, LONG, LIMIT, o.number, records, RECORD * o.number);
    o = try_update(log, LONG, LIMIT, o.number, records, ROOM);
    memcpy(records, o.index, ROOM);
    for (size_t i = 0; i < FINDS; i++)
        check_that(try_find(log, LONG, records, RECORD * o.number, k[i]).number == starts[i], "the full reading's place");
    try_build(log, LONG, records, RECORD * o.number);
    try_build(log, LONG, records, RECORD * o.number - 1);
    for (size_t p = LONG - 6; p <= LONG; p++)
        try_cover(log, LONG, p);
    try_cover(log, LONG, LIMIT);
}
