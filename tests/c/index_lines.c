/* Calls on an index with their answers written out; the header's functions for it; null pointers. */
#include "index_tests.h"
#include "utf8b.h"

#include <string.h>

/* A record with a place below 256, and one with the highest place. */
#define AT(place) place "\0\0\0\0\0\0\0"
#define AT_MOST "\xFF\xFF\xFF\xFF\xFF\xFF\xFF\xFF"

#define BYTES(s) (s), sizeof(s) - 1
#define LETTERS_10 "abcdefghij"
#define LETTERS_64 LETTERS_10 LETTERS_10 LETTERS_10 LETTERS_10 LETTERS_10 LETTERS_10 "abcd"
#define LETTERS_128 LETTERS_64 LETTERS_64
#define LETTERS_130 LETTERS_128 "yz"

/* The index stands there as it is before and after the call. */
struct line {
    enum index_entry entry;
    const char *log;
    size_t log_len, k, old_len, old_records;
    const char *before;
    size_t index_len;
    uint32_t answer;
    size_t number, length;
    uint32_t code;
    const char *after;
};

#define LINE_BUILD(log, before, answer, records, after) \
    {BUILD, BYTES(log), 0, 0, 0, BYTES(before), answer, records, 0, 0, after}
#define LINE_FIND(log, index, k, answer, place) {FIND, BYTES(log), k, 0, 0, BYTES(index), answer, place, 0, 0, index}
#define LINE_COVER(log, p, answer, start, length, code) \
    {COVER, BYTES(log), p, 0, 0, BYTES(""), answer, start, length, code, ""}
#define LINE_UPDATE(log, old_len, old_records, before, answer, records, after) \
    {UPDATE, BYTES(log), 0, old_len, old_records, BYTES(before), answer, records, 0, 0, after}

static const struct line lines[] = {
    LINE_BUILD(LETTERS_130, "12345678abcdefghABCDEFGH", DONE, 3, AT("\0") AT("\x40") AT("\x80")),
    LINE_BUILD(LETTERS_130, "12345678abcdefghABCDEFG", NO_ROOM, 0, "12345678abcdefghABCDEFG"),
    LINE_BUILD(LETTERS_128, "12345678abcdefghABCDEFGH", DONE, 2, AT("\0") AT("\x40") "ABCDEFGH"),
    LINE_FIND(LETTERS_128, AT("\0") AT("\x40"), 127, DONE, 127),
    LINE_FIND(LETTERS_128, AT("\0") AT("\x40"), 128, OUTSIDE, 0),
    LINE_BUILD("", "", DONE, 0, ""),
    LINE_FIND("", "", 0, OUTSIDE, 0),
    LINE_FIND("", AT("\0"), 0, OUTSIDE, 0),
    LINE_BUILD("\xF0\x9F\x92", "12345678", DONE, 1, AT("\0")),
    LINE_FIND("\xF0\x9F\x92", AT("\0"), 2, DONE, 2),
    LINE_FIND("\xF0\x9F\x92", AT("\0"), 3, OUTSIDE, 0),
    LINE_UPDATE("\xF0\x9F\x92\xA7", 3, 1, AT("\0"), DONE, 1, AT("\0")),
    LINE_FIND("\xF0\x9F\x92\xA7", AT("\0"), 1, OUTSIDE, 0),
    LINE_UPDATE(LETTERS_10, 10, 2, AT("\0") AT("\7"), DONE, 1, AT("\0") AT("\7")),
    LINE_UPDATE(LETTERS_10, 10, 2, AT("\0") AT("\6"), DONE, 2, AT("\0") AT("\6")),
    LINE_UPDATE(LETTERS_10, 10, 2, AT("\0") AT_MOST, DONE, 1, AT("\0") AT_MOST),
    LINE_UPDATE(LETTERS_10, 10, 2, AT("\0"), OUTSIDE, 0, AT("\0")),
    LINE_UPDATE(LETTERS_10, 11, 1, AT("\0"), OUTSIDE, 0, AT("\0")),
    LINE_UPDATE(LETTERS_130, 131, 0, "", OUTSIDE, 0, ""),
    LINE_UPDATE(LETTERS_130, 10, 1, "", OUTSIDE, 0, ""),
    LINE_UPDATE(LETTERS_130, 10, 1, AT("\0"), NO_ROOM, 0, AT("\0")),
    LINE_UPDATE(LETTERS_64 "\xF0\x9F\x92\xA7", 67, 2, AT("\0") AT("\x40"), DONE, 2, AT("\0") AT("\x40")),
    LINE_UPDATE(LETTERS_10 LETTERS_10 LETTERS_10 LETTERS_10 LETTERS_10 LETTERS_10 "ab\xF0\x9F\x92\xA7", 65, 2,
                AT("\0") AT("\x40"), DONE, 1, AT("\0") AT("\x40")),
    LINE_FIND(LETTERS_130, AT("\0") AT("\x40") AT("\x80"), SIZE_MAX, OUTSIDE, 0),
    LINE_FIND(LETTERS_130, AT("\0") AT("\x40") AT("\x80"), 129, DONE, 129),
    LINE_FIND(LETTERS_130, AT("\0") "\x40\0\0\0", 63, DONE, 63),
    LINE_FIND(LETTERS_130, AT("\0") "\x40\0\0\0", 64, OUTSIDE, 0),
    LINE_FIND("\xE2\x80\xB2", AT("\1"), 0, DONE, 1),
    LINE_FIND("\xE2\x80\xB2", AT("\3"), 0, OUTSIDE, 0),
    LINE_FIND(LETTERS_10, AT("\0") AT("\5"), 68, DONE, 9),
    LINE_FIND(LETTERS_10, AT("\0") AT("\5"), 69, OUTSIDE, 0),
    LINE_COVER("\xE2\x80\xB2", 0, DONE, 0, 3, 0x2032),
    LINE_COVER("\xE2\x80\xB2", 1, DONE, 0, 3, 0x2032),
    LINE_COVER("\xE2\x80\xB2", 2, DONE, 0, 3, 0x2032),
    LINE_COVER("\xE2\x80\xB2", 3, OUTSIDE, 0, 0, 0),
    LINE_COVER("\xE2\x80", 1, DONE, 1, 1, 0xDC80),
    LINE_COVER("\xF0\x9F\x92" "A", 2, DONE, 2, 1, 0xDC92),
    LINE_COVER("", 0, OUTSIDE, 0, 0, 0),
};

void test_index_lines(void)
{
    check_begin("lines of the index");
    for (size_t i = 0; i < sizeof lines / sizeof lines[0]; i++) {
        const struct line *l = &lines[i];
        struct index_call c = {l->entry, (const uint8_t *)l->log, l->log_len, (const uint8_t *)l->before, l->index_len,
                               l->k, l->old_len, l->old_records};
        uint8_t after[64];
        struct index_outcome o = {l->answer, after, l->number, l->length, l->code}, by_model;

        memcpy(after, l->after, l->index_len);
        check_index(&c, &o);
        check_index_model(&c, &by_model);
    }
}

void test_index_header(void)
{
    static const uint8_t index[] = {1, 2, 3, 4, 5, 6, 7, 0x88, 0x40, 0, 0, 0, 0, 0, 0, 0, 9};

    check_begin("the header, of an index");
    check_that(UTF8B_DONE == DONE && UTF8B_NO_ROOM == NO_ROOM && UTF8B_OUTSIDE == OUTSIDE, "the answers");
    check_that(UTF8B_INDEX_EVERY == EVERY && UTF8B_INDEX_RECORD == RECORD, "the sizes");
    check_that(utf8b_number(index) == 0x8807060504030201u, "a number");
    check_that(utf8b_index_place(index, 0) == 0x8807060504030201u && utf8b_index_place(index, 1) == 64, "a record");
    check_that(utf8b_index_room(0) == 0 && utf8b_index_room(1) == 8, "room for a short log");
    check_that(utf8b_index_room(64) == 8 && utf8b_index_room(65) == 16, "room for 64 bytes and one more");
    check_that(utf8b_index_room(SIZE_MAX) == (size_t)1 << 61, "room for the longest log");
    check_that(utf8b_index_room(SIZE_MAX - 63) == ((size_t)1 << 61) - 8, "room for one record less");
}

/* A null pointer with length 0, for the log, the index and both. */
void test_index_null(void)
{
    const size_t kept = 0xA5A5A5A5A5A5A5A5u;
    static const uint8_t log[] = {0x41};
    uint8_t index[8] = {1, 2, 3, 4, 5, 6, 7, 8}, before[8];
    size_t number = kept, length = kept;
    uint32_t code = 0xA5A5A5A5u;

    check_begin("null pointers of the index");
    memcpy(before, index, sizeof index);
    check_that(utf8b_index_build(log, 1, NULL, 0, &number) == NO_ROOM && number == kept, "build, null index: 1");
    check_that(utf8b_index_find(log, 1, NULL, 0, 0, &number) == OUTSIDE && number == kept, "find, null index: 15");
    check_that(utf8b_index_find(NULL, 0, index, 8, 0, &number) == OUTSIDE && number == kept, "find, null log: 15");
    check_that(utf8b_index_find(NULL, 0, NULL, 0, 0, &number) == OUTSIDE && number == kept, "find, both null: 15");
    check_that(utf8b_index_update(log, 1, 0, 0, NULL, 0, &number) == NO_ROOM && number == kept, "update, null index: 1");
    check_that(utf8b_index_update(log, 1, 0, 1, NULL, 0, &number) == OUTSIDE && number == kept, "update, null index: 15");
    check_that(utf8b_index_update(NULL, 0, 1, 1, index, 8, &number) == OUTSIDE && number == kept, "update, null log: 15");
    check_that(utf8b_index_update(NULL, 0, 1, 0, NULL, 0, &number) == OUTSIDE && number == kept, "update, both null: 15");
    check_that(utf8b_index_cover(NULL, 0, 0, &number, &length, &code) == OUTSIDE, "cover, null log: 15");
    check_that(number == kept && length == kept && code == 0xA5A5A5A5u, "cover, null log: numbers kept");
    check_that(utf8b_index_build(NULL, 0, index, 8, &number) == DONE && number == 0, "build, null log: 0");
    number = kept;
    check_that(utf8b_index_build(NULL, 0, NULL, 0, &number) == DONE && number == 0, "build, both null: 0");
    number = kept;
    check_that(utf8b_index_update(NULL, 0, 0, 1, index, 8, &number) == DONE && number == 0, "update, null log: 0");
    number = kept;
    check_that(utf8b_index_update(NULL, 0, 0, 0, NULL, 0, &number) == DONE && number == 0, "update, both null: 0");
    check_that(memcmp(index, before, sizeof index) == 0, "null pointers: the index is kept");
}
