/* Reasons with their answers written out; the header's names and words for them; null pointers. */
#include "reason_tests.h"
#include "utf8b.h"

#include <string.h>

struct line {
    const char *s;
    size_t s_len, place;
    uint32_t reason;
};

#define BYTES(s) (s), sizeof(s) - 1

static const struct line lines[] = {
    {BYTES(""), 0, END},
    {BYTES(""), 1, END},
    {BYTES(""), SIZE_MAX, END},
    {BYTES("A"), 0, GOOD},
    {BYTES("A"), 1, END},
    {BYTES("A"), 2, END},
    {BYTES("A"), SIZE_MAX, END},
    {BYTES("\0"), 0, GOOD},
    {BYTES("\x7F"), 0, GOOD},
    {BYTES("\xC3\xA9"), 0, GOOD},
    {BYTES("\xC3\xA9"), 1, LONE},
    {BYTES("40\xE2\x80\xB2"), 2, GOOD},
    {BYTES("40\xE2\x80\xB2"), 3, LONE},
    {BYTES("40\xE2\x80\xB2"), 4, LONE},
    {BYTES("40\xE2\x80\xB2"), 5, END},
    {BYTES("\xF0\x9F\x92\xA7"), 0, GOOD},
    {BYTES("\xF0\x9F\x92\xA7"), 1, LONE},
    {BYTES("\xF0\x9F\x92\xA7"), 3, LONE},
    {BYTES("\x80"), 0, LONE},
    {BYTES("\xBF\xBF"), 0, LONE},
    {BYTES("\xC0\x80"), 0, NEVER},
    {BYTES("\xC0\x80"), 1, LONE},
    {BYTES("\xC1"), 0, NEVER},
    {BYTES("\xC1" "A"), 0, NEVER},
    {BYTES("\xC2\x80"), 0, GOOD},
    {BYTES("\xDF\xBF"), 0, GOOD},
    {BYTES("\xF5"), 0, BEYOND},
    {BYTES("\xF5\x80\x80\x80"), 0, BEYOND},
    {BYTES("\xF8\x88\x80\x80\x80"), 0, BEYOND},
    {BYTES("\xFF"), 0, BEYOND},
    {BYTES("\xE0\x80"), 0, TOO_LONG},
    {BYTES("\xE0\x80"), 1, LONE},
    {BYTES("\xE0\x80" "A"), 0, TOO_LONG},
    {BYTES("\xE0\x9F\xBF"), 0, TOO_LONG},
    {BYTES("\xE0\xA0\x80"), 0, GOOD},
    {BYTES("\xE0\xA0"), 0, UNFINISHED},
    {BYTES("\xF0\x80"), 0, TOO_LONG},
    {BYTES("\xF0\x8F"), 0, TOO_LONG},
    {BYTES("\xF0\x8F\xBF\xBF"), 0, TOO_LONG},
    {BYTES("\xF0\x90\x80\x80"), 0, GOOD},
    {BYTES("\xF0\x90"), 0, UNFINISHED},
    {BYTES("\xED\xA0"), 0, SURROGATE},
    {BYTES("\xED\xA0" "A"), 0, SURROGATE},
    {BYTES("\xED\xA0\x80"), 0, SURROGATE},
    {BYTES("\xED\xBF\xBF"), 0, SURROGATE},
    {BYTES("\xED\xA0\xBD\xED\xB2\xA7"), 3, SURROGATE},
    {BYTES("\xED\x9F\xBF"), 0, GOOD},
    {BYTES("\xED\x9F"), 0, UNFINISHED},
    {BYTES("\xEE\x80\x80"), 0, GOOD},
    {BYTES("\xF4\x90"), 0, TOO_HIGH},
    {BYTES("\xF4\x90\x80\x80"), 0, TOO_HIGH},
    {BYTES("\xF4\xBF" "A"), 0, TOO_HIGH},
    {BYTES("\xF4\x8F\xBF\xBF"), 0, GOOD},
    {BYTES("\xF4\x8F"), 0, UNFINISHED},
    {BYTES("\xC2\0"), 0, CUT_SHORT},
    {BYTES("\xC2\x7F"), 0, CUT_SHORT},
    {BYTES("\xC2\xC0"), 0, CUT_SHORT},
    {BYTES("\xC2\xC2\x80"), 0, CUT_SHORT},
    {BYTES("\xC2\xC2\x80"), 1, GOOD},
    {BYTES("\xE0" "A"), 0, CUT_SHORT},
    {BYTES("\xE0\xC0"), 0, CUT_SHORT},
    {BYTES("\xED\x7F"), 0, CUT_SHORT},
    {BYTES("\xED\xC0"), 0, CUT_SHORT},
    {BYTES("\xF0\x7F"), 0, CUT_SHORT},
    {BYTES("\xF4\xC0"), 0, CUT_SHORT},
    {BYTES("\xF0\x90" "A"), 0, CUT_SHORT},
    {BYTES("\xF0\x9F\x92" "A"), 0, CUT_SHORT},
    {BYTES("\xF0\x9F\x92\xFF"), 0, CUT_SHORT},
    {BYTES("\xE1\x80\xE2"), 0, CUT_SHORT},
    {BYTES("\xE1\x80\xE2"), 1, LONE},
    {BYTES("\xE1\x80\xE2"), 2, UNFINISHED},
    {BYTES("\xC2"), 0, UNFINISHED},
    {BYTES("\xE0"), 0, UNFINISHED},
    {BYTES("\xED"), 0, UNFINISHED},
    {BYTES("\xF0"), 0, UNFINISHED},
    {BYTES("\xF4"), 0, UNFINISHED},
    {BYTES("40\xE2\x80"), 2, UNFINISHED},
    {BYTES("40\xE2\x80\n"), 2, CUT_SHORT},
    {BYTES("\xF0\x9F\x92"), 0, UNFINISHED},
    {BYTES("\xF0\x9F\x92"), 1, LONE},
};

void test_reason_lines(void)
{
    check_begin("lines of reasons");
    for (size_t i = 0; i < sizeof lines / sizeof lines[0]; i++) {
        struct reason_call c = {(const uint8_t *)lines[i].s, lines[i].s_len, lines[i].place};

        check_reason(&c, lines[i].reason);
        check_reason_model(&c);
    }
}

/* The words that codes and the manual have too. */
static const char *const words[REASONS] = {
    "well-formed",
    "a continuation byte with nothing to continue",
    "C0 and C1 begin no sequence",
    "F5 to FF begin no sequence",
    "too long a form of its code",
    "a surrogate, D800 to DFFF",
    "above 10FFFF, the last code",
    "no continuation byte follows",
    "the end of the input cuts it off",
    "at or past the end",
};

static int is_unknown(uint32_t reason)
{
    return strcmp(utf8b_reason_text(reason), "unknown reason") == 0;
}

void test_reason_header(void)
{
    check_begin("the header, of reasons");
    check_that(UTF8B_REASON_GOOD == GOOD && UTF8B_REASON_END == END, "the numbers of no reason");
    check_that(UTF8B_REASON_LONE == LONE && UTF8B_REASON_NEVER == NEVER && UTF8B_REASON_BEYOND == BEYOND,
               "the numbers of reasons in one byte");
    check_that(UTF8B_REASON_TOO_LONG == TOO_LONG && UTF8B_REASON_SURROGATE == SURROGATE
                   && UTF8B_REASON_TOO_HIGH == TOO_HIGH,
               "the numbers of reasons in two bytes");
    check_that(UTF8B_REASON_CUT_SHORT == CUT_SHORT && UTF8B_REASON_UNFINISHED == UNFINISHED,
               "the numbers of reasons in what follows");
    for (uint32_t i = 0; i < REASONS; i++) {
        check_that(strcmp(utf8b_reason_text(i), words[i]) == 0, words[i]);
        for (uint32_t k = 0; k < i; k++)
            check_that(strcmp(utf8b_reason_text(i), utf8b_reason_text(k)) != 0, "two reasons in the same words");
    }
    for (uint32_t i = REASONS; i < (small ? 300 : 70000); i++)
        check_that(is_unknown(i) && is_unknown(UINT32_MAX - (i - REASONS)), "words for what is no reason");
    for (int bit = 4; bit < 32; bit++)
        for (uint32_t i = 0; i < REASONS; i++)
            check_that(is_unknown(((uint32_t)1 << bit) + i), "words for what is no reason");
}

/* A null pointer with length 0. */
void test_reason_null(void)
{
    check_begin("null pointers of reasons");
    check_that(utf8b_reason(NULL, 0, 0) == END, "null input, place 0: 9");
    check_that(utf8b_reason(NULL, 0, 1) == END, "null input, place 1: 9");
    check_that(utf8b_reason(NULL, 0, SIZE_MAX) == END, "null input, the last place: 9");
}
