/* Calls with their answers written out. */
#include "tests.h"

#include "utf8b.h"

#include <string.h>

/* In the strings a code is four bytes, low byte first. */

struct line {
    int decode;
    uint32_t flags;
    size_t out_len;
    const char *in;
    size_t in_len;
    int64_t answer;
    uint64_t consumed;
    uint8_t bad_length;
    const char *out;
    size_t written;
};

#define BYTES(s) (s), sizeof(s) - 1

static const struct line utf8_lines[] = {
    {DECODE, 1, 64, BYTES(""), 0, 0, 0, BYTES("")},
    {DECODE, 0, 0, BYTES(""), 0, 0, 0, BYTES("")},
    {DECODE, 1, 64, BYTES("\0"), 1, 1, 0, BYTES("\0\0\0\0")},
    {DECODE, 1, 64, BYTES("40\xE2\x80\xB2"), 3, 5, 0, BYTES("4\0\0\0" "0\0\0\0" "\x32\x20\0\0")},
    {DECODE, 1, 64, BYTES("\xF4\x8F\xBF\xBF"), 1, 4, 0, BYTES("\xFF\xFF\x10\0")},
    {DECODE, 1, 64, BYTES("\xF4\x90\x80\x80"), 4, 4, 0, BYTES("\xF4\xDC\0\0\x90\xDC\0\0\x80\xDC\0\0\x80\xDC\0\0")},
    {DECODE, 1, 64, BYTES("\xC0\x80"), 2, 2, 0, BYTES("\xC0\xDC\0\0\x80\xDC\0\0")},
    {DECODE, 1, 64, BYTES("\xED\xA0\x80"), 3, 3, 0, BYTES("\xED\xDC\0\0\xA0\xDC\0\0\x80\xDC\0\0")},
    {DECODE, 3, 64, BYTES("\xED\xA0\x80"), 1, 3, 0, BYTES("\0\xD8\0\0")},
    {DECODE, 1, 64, BYTES("\xE2\x80"), 2, 2, 0, BYTES("\xE2\xDC\0\0\x80\xDC\0\0")},
    {DECODE, 0, 64, BYTES("\xE2\x80"), 0, 0, 0, BYTES("")},
    {DECODE, 1, 64, BYTES("\xF0\x9F\x92\xA7"), 1, 4, 0, BYTES("\xA7\xF4\x01\0")},
    {DECODE, 5, 64, BYTES("4\x80"), 1, 1, 1, BYTES("4\0\0\0")},
    {DECODE, 4, 64, BYTES("4\x80"), 1, 1, 1, BYTES("4\0\0\0")},
    {DECODE, 4, 64, BYTES("\x80"), -1, 0, 1, BYTES("")},
    {DECODE, 4, 0, BYTES("\x80"), -1, 0, 1, BYTES("")},
    {DECODE, 4, 0, BYTES("\xE2"), 0, 0, 0, BYTES("")},
    {DECODE, 5, 0, BYTES("\xE2"), -1, 0, 1, BYTES("")},
    {DECODE, 0, 3, BYTES("4"), 0, 0, 0, BYTES("")},
    {DECODE, 0, 7, BYTES("40"), 1, 1, 0, BYTES("4\0\0\0")},
    {DECODE, 1, 64, BYTES("\xE0\x9F\xBF"), 3, 3, 0, BYTES("\xE0\xDC\0\0\x9F\xDC\0\0\xBF\xDC\0\0")},
    {DECODE, 1, 64, BYTES("\xE0\xA0\x80"), 1, 3, 0, BYTES("\0\x08\0\0")},
    {DECODE, 1, 64, BYTES("\xF0\x8F\xBF\xBF"), 4, 4, 0, BYTES("\xF0\xDC\0\0\x8F\xDC\0\0\xBF\xDC\0\0\xBF\xDC\0\0")},
    {DECODE, 1, 64, BYTES("\xF0\x90\x80\x80"), 1, 4, 0, BYTES("\0\0\x01\0")},
    {DECODE, 1, 64, BYTES("\xED\x9F\xBF"), 1, 3, 0, BYTES("\xFF\xD7\0\0")},
    {DECODE, 1, 64, BYTES("\xEE\x80\x80"), 1, 3, 0, BYTES("\0\xE0\0\0")},
    {DECODE, 0, 64, BYTES("\xE2" "4"), 2, 2, 0, BYTES("\xE2\xDC\0\0" "4\0\0\0")},
    {DECODE, 0, 64, BYTES("\xF8"), 1, 1, 0, BYTES("\xF8\xDC\0\0")},
    {DECODE, 0, 64, BYTES("\xE1\x80\xE2\x80"), 2, 2, 0, BYTES("\xE1\xDC\0\0\x80\xDC\0\0")},
    {DECODE, 9, 64, BYTES("\xE2" "4"), 2, 2, 0, BYTES("\xFD\xFF\0\0" "4\0\0\0")},
    {DECODE, 11, 64, BYTES("\xED\xB2\x80\x80"), 2, 4, 0, BYTES("\x80\xDC\0\0\xFD\xFF\0\0")},
    {DECODE, 9, 64, BYTES("\xE1\x80\xE2\xF0\x91\x92\xF1\xBF" "A"), 5, 9, 0,
     BYTES("\xFD\xFF\0\0\xFD\xFF\0\0\xFD\xFF\0\0\xFD\xFF\0\0" "A\0\0\0")},
    {DECODE, 8, 64, BYTES("\xE1\x80\xE2"), 1, 2, 0, BYTES("\xFD\xFF\0\0")},
    {DECODE, 9, 64, BYTES("\xED\xA0" "A"), 3, 3, 0, BYTES("\xFD\xFF\0\0\xFD\xFF\0\0" "A\0\0\0")},
    {DECODE, 11, 64, BYTES("\xED\xA0" "A"), 2, 3, 0, BYTES("\xFD\xFF\0\0" "A\0\0\0")},
    {DECODE, 11, 64, BYTES("\xED\xB2\x80"), 1, 3, 0, BYTES("\x80\xDC\0\0")},
    {DECODE, 9, 64, BYTES("\xF0\x9F\x92"), 1, 3, 0, BYTES("\xFD\xFF\0\0")},
    {DECODE, 8, 64, BYTES("\xF0\x9F\x92"), 0, 0, 0, BYTES("")},
    {DECODE, 9, 3, BYTES("\xE1\x80" "A"), 0, 0, 0, BYTES("")},
    {DECODE, 9, 4, BYTES("\xE1\x80" "A"), 1, 2, 0, BYTES("\xFD\xFF\0\0")},
    {DECODE, 9, 64, BYTES("\xF4\x90\x80\x80"), 4, 4, 0, BYTES("\xFD\xFF\0\0\xFD\xFF\0\0\xFD\xFF\0\0\xFD\xFF\0\0")},
    {DECODE, 5, 64, BYTES("A\x80"), 1, 1, 1, BYTES("A\0\0\0")},
    {DECODE, 5, 64, BYTES("\x80"), -1, 0, 1, BYTES("")},
    {DECODE, 5, 0, BYTES("\x80"), -1, 0, 1, BYTES("")},
    {DECODE, 5, 64, BYTES("\xE1\x80"), -1, 0, 2, BYTES("")},
    {DECODE, 4, 64, BYTES("\xE1\x80"), 0, 0, 0, BYTES("")},
    {DECODE, 5, 64, BYTES("A\xF0\x9F\x92"), 1, 1, 3, BYTES("A\0\0\0")},
    {DECODE, 5, 64, BYTES("\xED\xA0" "A"), -1, 0, 1, BYTES("")},
    {DECODE, 7, 64, BYTES("\xED\xA0" "A"), -1, 0, 2, BYTES("")},
    {DECODE, 5, 64, BYTES("\xE2("), -1, 0, 1, BYTES("")},
    {DECODE, 4, 4, BYTES("A\xE1\x80" "A"), 1, 1, 2, BYTES("A\0\0\0")},
    {ENCODE, 0, 64, BYTES("\xE2\xDC\0\0\x80\xDC\0\0\xB2\xDC\0\0"), 3, 3, 0, BYTES("\xE2\x80\xB2")},
    {ENCODE, 0, 64, BYTES("\x32\x20\0\0"), 3, 1, 0, BYTES("\xE2\x80\xB2")},
    {ENCODE, 0, 2, BYTES("\x32\x20\0\0"), 0, 0, 0, BYTES("")},
    {ENCODE, 0, 3, BYTES("4\0\0\0\x32\x20\0\0"), 1, 1, 0, BYTES("4")},
    {ENCODE, 0, 64, BYTES("\0\0\x11\0"), -1, 0, 0, BYTES("")},
    {ENCODE, 0, 0, BYTES("\0\0\x11\0"), -1, 0, 0, BYTES("")},
    {ENCODE, 0, 64, BYTES("4\0\0\0\0\0\x11\0"), 1, 1, 0, BYTES("4")},
    {ENCODE, 0, 64, BYTES("\0\0\0\x80"), -1, 0, 0, BYTES("")},
    {ENCODE, 0, 64, BYTES("\0\xD8\0\0"), 3, 1, 0, BYTES("\xED\xA0\x80")},
    {ENCODE, 4, 64, BYTES("\0\xD8\0\0"), -1, 0, 0, BYTES("")},
    {ENCODE, 4, 64, BYTES("\x80\xDC\0\0"), -1, 0, 0, BYTES("")},
    {ENCODE, 6, 64, BYTES("\x80\xDC\0\0"), 3, 1, 0, BYTES("\xED\xB2\x80")},
    {ENCODE, 2, 64, BYTES("\x80\xDC\0\0"), 3, 1, 0, BYTES("\xED\xB2\x80")},
};

static const struct line cesu8_lines[] = {
    {DECODE, 1, 64, BYTES("40\xE2\x80\xB2"), 3, 5, 0, BYTES("4\0\0\0" "0\0\0\0" "\x32\x20\0\0")},
    {DECODE, 1, 64, BYTES("\xED\xA0\xBD\xED\xB2\xA7"), 1, 6, 0, BYTES("\xA7\xF4\x01\0")},
    {DECODE, 1, 64, BYTES("\xED\xAF\xBF\xED\xBF\xBF"), 1, 6, 0, BYTES("\xFF\xFF\x10\0")},
    {DECODE, 1, 64, BYTES("\xF0\x9F\x92\xA7"), 4, 4, 0, BYTES("\xF0\xDC\0\0\x9F\xDC\0\0\x92\xDC\0\0\xA7\xDC\0\0")},
    {DECODE, 1, 64, BYTES("\xED\xA0\x80"), 3, 3, 0, BYTES("\xED\xDC\0\0\xA0\xDC\0\0\x80\xDC\0\0")},
    {DECODE, 0, 64, BYTES("\xED\xA0\x80"), 0, 0, 0, BYTES("")},
    {DECODE, 0, 64, BYTES("\xED\xB0\x80"), 3, 3, 0, BYTES("\xED\xDC\0\0\xB0\xDC\0\0\x80\xDC\0\0")},
    {DECODE, 0, 64, BYTES("\xED\xA0\x80\xED"), 0, 0, 0, BYTES("")},
    {DECODE, 0, 64, BYTES("A\xED\xA0\x80\xED\xB0"), 1, 1, 0, BYTES("A\0\0\0")},
    {DECODE, 1, 64, BYTES("\xED\xA0\x80" "A"), 4, 4, 0, BYTES("\xED\xDC\0\0\xA0\xDC\0\0\x80\xDC\0\0" "A\0\0\0")},
    {DECODE, 1, 64, BYTES("\xED\xA0\x80\xED\x9F\xBF"), 4, 6, 0, BYTES("\xED\xDC\0\0\xA0\xDC\0\0\x80\xDC\0\0\xFF\xD7\0\0")},
    {DECODE, 9, 64, BYTES("\xED\xA0\x80\xED\x9F\xBF"), 3, 6, 0, BYTES("\xFD\xFF\0\0\xFD\xFF\0\0\xFD\xFF\0\0")},
    {DECODE, 5, 64, BYTES("\xED\xA0\x80\xED\x9F\xBF"), -1, 0, 4, BYTES("")},
    {DECODE, 5, 64, BYTES("A\xED\xA0\x80\xED\xB0"), 1, 1, 5, BYTES("A\0\0\0")},
    {DECODE, 4, 64, BYTES("\xF0\x90\x80\x80"), -1, 0, 1, BYTES("")},
    {DECODE, 1, 64, BYTES("\xED\xA0\x80\xED\xA0\x80\xED\xB0\x80"), 4, 9, 0,
     BYTES("\xED\xDC\0\0\xA0\xDC\0\0\x80\xDC\0\0" "\0\0\x01\0")},
    {DECODE, 1, 3, BYTES("\xED\xA0\xBD\xED\xB2\xA7"), 0, 0, 0, BYTES("")},
    {ENCODE, 0, 64, BYTES("\0\0\x01\0"), 6, 1, 0, BYTES("\xED\xA0\x80\xED\xB0\x80")},
    {ENCODE, 0, 5, BYTES("\0\0\x01\0"), 0, 0, 0, BYTES("")},
    {ENCODE, 0, 64, BYTES("\x80\xDC\0\0"), 1, 1, 0, BYTES("\x80")},
    {ENCODE, 0, 64, BYTES("\0\xD8\0\0"), 3, 1, 0, BYTES("\xED\xA0\x80")},
    {ENCODE, 0, 64, BYTES("\0\xD8\0\0\0\xDC\0\0"), 6, 2, 0, BYTES("\xED\xA0\x80\xED\xB0\x80")},
    {ENCODE, 0, 64, BYTES("\0\0\x11\0"), -1, 0, 0, BYTES("")},
    {ENCODE, 4, 64, BYTES("\0\xD8\0\0"), -1, 0, 0, BYTES("")},
    {ENCODE, 4, 64, BYTES("A\0\0\0\x80\xDC\0\0"), 1, 1, 0, BYTES("A")},
};

static void check_lines(const struct line *lines, size_t n)
{
    for (size_t i = 0; i < n; i++) {
        const struct line *l = &lines[i];
        struct call c = {l->decode, l->flags, (const uint8_t *)l->in, l->in_len, l->out_len, REPORT};
        uint8_t out[64];
        struct outcome o = {l->answer, out, l->written, 1, l->consumed, l->bad_length};

        memcpy(out, l->out, l->written);
        check_call(&c, &o);
        check_model(&c);
    }
}

void test_lines(void)
{
    check_begin("lines");
    if (cesu8)
        check_lines(cesu8_lines, sizeof cesu8_lines / sizeof cesu8_lines[0]);
    else
        check_lines(utf8_lines, sizeof utf8_lines / sizeof utf8_lines[0]);
}

/* The header's own functions. */
void test_header(void)
{
    static const uint8_t report[REPORT] = {1, 2, 3, 4, 5, 6, 7, 0x88, 9};
    static const uint8_t codes[] = {0x32, 0x20, 0, 0, 1, 2, 3, 0x84};

    check_begin("the header");
    check_that(UTF8B_REPORT == REPORT, "the bytes in a report");
    check_that(utf8b_consumed(report) == 0x8807060504030201u, "the count of a report");
    check_that(utf8b_bad_length(report) == 9, "the length in a report");
    check_that(utf8b_code(codes, 0) == 0x2032 && utf8b_code(codes, 1) == 0x84030201u, "a code");
}
