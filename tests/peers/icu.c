/*
 * utf8b_cesu8_decode and utf8b_cesu8_encode against ICU's converter "CESU-8".
 *
 * usage: icu
 *
 * ICU reads each half of a pair for itself.  It gives out a half that stands alone, which is bad here, and
 * reads the four bytes of UTF-8 to find them illegal.  So it has other bad stretches in three cases:
 *   - ED B0..BF after no first half: ED is bad alone, and ICU takes it with what follows;
 *   - a first half, then ED, or ED B0..BF, and no second half: these 4 or 5 bytes are one stretch, and two
 *     of ICU's;
 *   - F0..F4 that begins four bytes of UTF-8: it is bad alone, and ICU takes it with what follows, or waits.
 * There the place is as ICU has it, and the length as the rules have it (other_length).
 */
#include <stdint.h>
#include <stdio.h>
#include <stdlib.h>
#include <string.h>
#include <unicode/ucnv.h>
#include <unicode/utf16.h>
#include "utf8b.h"

enum { MOST_DIFFERENCES = 10, BLOCK = 2048, MOST_BYTES = 6 * BLOCK, MOST_SHOWN = 24 };

static UConverter *icu;
static unsigned long compared, otherwise, differences;

/* What a reader answers. */
struct reading {
    int64_t answer;
    size_t consumed, length;
    uint8_t codes[4 * MOST_BYTES];
};

static uint32_t below(uint32_t n)
{
    static uint64_t x = 88172645463325252u;

    x ^= x << 13;
    x ^= x >> 7;
    x ^= x << 17;
    return (uint32_t)(x >> 32) % n;
}

static void die(const char *what)
{
    puts(what);
    exit(1);
}

static void check(UErrorCode error)
{
    if (U_FAILURE(error))
        die(u_errorName(error));
}

static void put_code(uint8_t *codes, size_t i, uint32_t code)
{
    for (int k = 0; k < 4; k++)
        codes[4 * i + (size_t)k] = (uint8_t)(code >> 8 * k);
}

/* Where ICU and the rules differ. */

static int within(const uint8_t *s, size_t n, size_t i, uint8_t low, uint8_t high)
{
    return i < n && low <= s[i] && s[i] <= high;
}

static int first_half(const uint8_t *s, size_t n)
{
    return within(s, n, 0, 0xED, 0xED) && within(s, n, 1, 0xA0, 0xAF) && within(s, n, 2, 0x80, 0xBF);
}

static int cut_pair(const uint8_t *s, size_t n)
{
    return first_half(s, n) && n < 6 && (n < 4 || s[3] == 0xED) && (n < 5 || within(s, n, 4, 0xB0, 0xBF));
}

static int four_bytes_begin(const uint8_t *s, size_t n, int last)
{
    if (n == 1 && !last)
        return within(s, n, 0, 0xF0, 0xF4);
    return (within(s, n, 0, 0xF0, 0xF0) && within(s, n, 1, 0x90, 0xBF))
        || (within(s, n, 0, 0xF1, 0xF3) && within(s, n, 1, 0x80, 0xBF))
        || (within(s, n, 0, 0xF4, 0xF4) && within(s, n, 1, 0x80, 0x8F));
}

/* At a bad place: the length of the stretch where ICU has another, else 0. */
static size_t other_length(const uint8_t *s, size_t n, int last)
{
    if (first_half(s, n) && within(s, n, 3, 0xED, 0xED) && (last || !cut_pair(s, n)))
        return within(s, n, 4, 0xB0, 0xBF) ? 5 : 4;
    return (within(s, n, 0, 0xED, 0xED) && within(s, n, 1, 0xB0, 0xBF)) || four_bytes_begin(s, n, last);
}

/* ICU's side. */

/* Units as codes, up to a half that stands alone.  Answers how many units that are. */
static size_t take_codes(struct reading *r, const UChar *units, size_t n)
{
    size_t at = 0, next = 0;
    UChar32 code;

    for (r->answer = 0; at < n; at = next) {
        U16_NEXT(units, next, n, code);
        if (U_IS_SURROGATE(code))
            break;
        put_code(r->codes, (size_t)r->answer++, (uint32_t)code);
    }
    return at;
}

static size_t invalid_length(UErrorCode error)
{
    char bytes[16];
    int8_t length = sizeof bytes;

    if (error != U_ILLEGAL_CHAR_FOUND && error != U_TRUNCATED_CHAR_FOUND)
        check(error);
    error = U_ZERO_ERROR;
    ucnv_getInvalidChars(icu, bytes, &length, &error);
    check(error);
    return (size_t)length;
}

static size_t pending(void)
{
    UErrorCode error = U_ZERO_ERROR;
    int32_t n = ucnv_toUCountPending(icu, &error);

    check(error);
    return (size_t)n;
}

static void read_by_icu(struct reading *r, const uint8_t *s, size_t n, int last)
{
    static UChar units[MOST_BYTES];
    static int32_t places[MOST_BYTES];
    const char *source = (const char *)s;
    UChar *target = units;
    UErrorCode error = U_ZERO_ERROR;
    size_t taken;

    ucnv_resetToUnicode(icu);
    ucnv_toUnicode(icu, &target, units + MOST_BYTES, &source, source + n, places, (UBool)last, &error);
    r->length = U_FAILURE(error) ? invalid_length(error) : 0;
    r->consumed = (size_t)(source - (const char *)s) - (r->length ? r->length : pending());
    taken = take_codes(r, units, (size_t)(target - units));
    if (taken < (size_t)(target - units)) {
        r->consumed = (size_t)places[taken];
        r->length = !last && cut_pair(s + r->consumed, n - r->consumed) ? 0 : 3;
    }
}

static size_t write_by_icu(uint8_t *dst, const uint32_t *codes, size_t n)
{
    static UChar units[2 * BLOCK];
    const UChar *source = units;
    char *target = (char *)dst;
    UErrorCode error = U_ZERO_ERROR;
    size_t made = 0;

    for (size_t i = 0; i < n; i++)
        U16_APPEND_UNSAFE(units, made, codes[i]);
    ucnv_resetFromUnicode(icu);
    ucnv_fromUnicode(icu, &target, target + MOST_BYTES, &source, units + made, NULL, 1, &error);
    check(error);
    return (size_t)((uint8_t *)target - dst);
}

/* This side. */

static void read_here(struct reading *r, const uint8_t *s, size_t n, uint32_t flags)
{
    uint8_t report[UTF8B_REPORT];

    r->answer = utf8b_cesu8_decode(s, n, r->codes, sizeof r->codes, flags, report, sizeof report);
    r->consumed = utf8b_consumed(report);
    r->length = utf8b_bad_length(report);
}

/* Comparisons. */

static void print_bytes(const uint8_t *s, size_t n)
{
    for (size_t i = 0; i < n && i < MOST_SHOWN; i++)
        printf("%02X", s[i]);
    puts(n > MOST_SHOWN ? "..." : "");
}

static void print_reading(const char *whose, const struct reading *r)
{
    printf("  %s answer %ld, consumed %zu, length %zu, codes", whose, (long)r->answer, r->consumed, r->length);
    for (size_t i = 0; (int64_t)i < r->answer && i < MOST_SHOWN; i++)
        printf(" %X", (unsigned)utf8b_code(r->codes, i));
    puts(r->answer > MOST_SHOWN ? "..." : "");
}

static void count_difference(void)
{
    if (++differences == MOST_DIFFERENCES)
        die("too many differences");
}

static int same_codes(const struct reading *a, const struct reading *b)
{
    return a->answer == b->answer && (a->answer <= 0 || memcmp(a->codes, b->codes, 4 * (size_t)a->answer) == 0);
}

static void compare_reading(const uint8_t *s, size_t n, uint32_t flags)
{
    static struct reading theirs, ours;
    int last = (flags & UTF8B_LAST) != 0;
    size_t other;

    read_by_icu(&theirs, s, n, last);
    read_here(&ours, s, n, flags);
    other = other_length(s + theirs.consumed, n - theirs.consumed, last);
    if (other) {
        if (other == theirs.length)
            die("no other stretch than ICU's");
        theirs.length = other;
        otherwise++;
    }
    if (theirs.length && theirs.answer == 0)
        theirs.answer = UTF8B_BAD;
    compared++;
    if (same_codes(&theirs, &ours) && theirs.consumed == ours.consumed && theirs.length == ours.length)
        return;
    printf("difference: read, flags %u: ", (unsigned)flags);
    print_bytes(s, n);
    print_reading("ICU: ", &theirs);
    print_reading("here:", &ours);
    count_difference();
}

static void compare_string(const uint8_t *s, size_t n)
{
    compare_reading(s, n, UTF8B_STRICT | UTF8B_LAST);
    compare_reading(s, n, UTF8B_STRICT);
}

/* Writes the codes, and gives ICU's bytes and their number. */
static size_t compare_writing(uint8_t *s, const uint32_t *codes, size_t n, uint32_t flags)
{
    static uint8_t packed[4 * BLOCK], ours[MOST_BYTES];
    uint8_t report[UTF8B_REPORT];
    size_t made = write_by_icu(s, codes, n);
    int64_t answer;

    for (size_t i = 0; i < n; i++)
        put_code(packed, i, codes[i]);
    answer = utf8b_cesu8_encode(packed, 4 * n, ours, made, flags, report, sizeof report);
    compared++;
    if (answer == (int64_t)made && utf8b_consumed(report) == n && memcmp(s, ours, made) == 0)
        return made;
    printf("difference: write, flags %u, %zu codes from %X\n", (unsigned)flags, n, (unsigned)codes[0]);
    printf("  ICU:  %zu bytes ", made);
    print_bytes(s, made);
    printf("  here: answer %ld, consumed %zu, bytes ", (long)answer, utf8b_consumed(report));
    print_bytes(ours, answer < 0 ? 0 : (size_t)answer);
    count_difference();
    return made;
}

/* Every scalar value, alone and in blocks. */
static void compare_scalars(uint32_t block)
{
    static uint8_t s[MOST_BYTES];
    static uint32_t codes[BLOCK];

    for (uint32_t first = 0; first < 0x110000; first += block) {
        if (U_IS_SURROGATE(first))
            continue;
        for (uint32_t i = 0; i < block; i++)
            codes[i] = first + i;
        compare_reading(s, compare_writing(s, codes, block, UTF8B_STRICT), UTF8B_STRICT | UTF8B_LAST);
    }
}

/* Without STRICT the halves are written as ICU has them, but for the escapes. */
static void compare_halves(void)
{
    uint8_t s[MOST_BYTES];

    for (uint32_t code = 0xD800; code <= 0xDFFF; code++) {
        if (0xDC80 <= code && code <= 0xDCFF)
            continue;
        compare_writing(s, (uint32_t[]){code, 0x41, code}, 3, 0);
    }
}

/* Inputs. */

static const uint8_t border[] = {0x00, 0x41, 0x7F, 0x80, 0x8F, 0x90, 0x9F, 0xA0, 0xAF, 0xB0,
                                 0xBF, 0xC0, 0xC1, 0xC2, 0xDF, 0xE0, 0xE1, 0xEC, 0xED, 0xEE,
                                 0xEF, 0xF0, 0xF1, 0xF3, 0xF4, 0xF5, 0xF7, 0xF8, 0xFF};
static const uint8_t narrow[] = {0x41, 0x80, 0x8F, 0x90, 0x9F, 0xA0, 0xAF, 0xB0,
                                 0xBF, 0xC2, 0xE0, 0xE1, 0xED, 0xF0, 0xF4};
static const uint8_t halves[] = {0x41, 0x80, 0xA0, 0xB0, 0xED, 0xF0};
static const uint8_t pairs[][6] = {{0xED, 0xA0, 0x80, 0xED, 0xB0, 0x80}, {0xED, 0xAF, 0xBF, 0xED, 0xBF, 0xBF}};

/* All strings of a length over some bytes. */
static void compare_strings(const uint8_t *bytes, size_t count, size_t length)
{
    uint8_t s[8];
    size_t all = 1;

    for (size_t i = 0; i < length; i++)
        all *= count;
    for (size_t k = 0; k < all; k++) {
        size_t rest = k;

        for (size_t i = 0; i < length; i++, rest /= count)
            s[i] = bytes[rest % count];
        compare_string(s, length);
    }
}

/* Every beginning of every string that a pair gives with one byte changed. */
static void compare_changed_pairs(void)
{
    for (size_t p = 0; p < sizeof pairs / sizeof pairs[0]; p++)
        for (size_t at = 0; at < 6; at++)
            for (int b = 0; b < 256; b++) {
                uint8_t s[7];

                memcpy(s, pairs[p], 6);
                s[at] = (uint8_t)b;
                s[6] = 0x41;
                for (size_t n = 0; n <= 7; n++)
                    compare_string(s, n);
            }
}

static void compare_all_short(void)
{
    uint8_t every[256];

    for (int i = 0; i < 256; i++)
        every[i] = (uint8_t)i;
    compare_strings(every, 256, 1);
    compare_strings(every, 256, 2);
    compare_strings(border, sizeof border, 3);
    compare_strings(narrow, sizeof narrow, 4);
    compare_strings(halves, sizeof halves, 6);
    compare_strings(halves, sizeof halves, 7);
    compare_changed_pairs();
}

static uint32_t random_scalar(void)
{
    static const uint32_t most[] = {0x80, 0x800, 0xD800, 0x110000};
    uint32_t code = below(most[below(4)]);

    return U_IS_SURROGATE(code) ? 0x2032 : code;
}

/* Reads in two calls.  Answers how many bytes are unread after the first; a first half that ICU gave out is. */
static size_t read_cut_by_icu(struct reading *r, const uint8_t *s, size_t n, size_t cut)
{
    static UChar units[MOST_BYTES];
    const char *source = (const char *)s;
    UChar *target = units;
    UErrorCode error = U_ZERO_ERROR;
    size_t unread;

    ucnv_resetToUnicode(icu);
    ucnv_toUnicode(icu, &target, units + MOST_BYTES, &source, source + cut, NULL, 0, &error);
    unread = pending() + (target > units && U16_IS_LEAD(target[-1]) ? 3 : 0);
    ucnv_toUnicode(icu, &target, units + MOST_BYTES, &source, (const char *)s + n, NULL, 1, &error);
    check(error);
    take_codes(r, units, (size_t)(target - units));
    return unread;
}

static size_t read_cut_here(struct reading *r, const uint8_t *s, size_t n, size_t cut)
{
    static struct reading rest;

    read_here(r, s, cut, UTF8B_STRICT);
    read_here(&rest, s + r->consumed, n - r->consumed, UTF8B_STRICT | UTF8B_LAST);
    if (r->answer >= 0 && rest.answer >= 0) {
        memcpy(r->codes + 4 * r->answer, rest.codes, 4 * (size_t)rest.answer);
        r->answer += rest.answer;
    }
    return cut - r->consumed;
}

static void compare_cut(const uint8_t *s, size_t n, size_t cut)
{
    static struct reading theirs, ours;
    size_t unread = read_cut_by_icu(&theirs, s, n, cut), unread_here = read_cut_here(&ours, s, n, cut);

    compared++;
    if (unread == unread_here && same_codes(&theirs, &ours))
        return;
    printf("difference: cut at %zu, then unread by ICU %zu, here %zu: ", cut, unread, unread_here);
    print_bytes(s, n);
    print_reading("ICU: ", &theirs);
    print_reading("here:", &ours);
    count_difference();
}

/* The first and the last code of each row of the table, cut at every place. */
static void compare_cuts(void)
{
    static const uint32_t ends[] = {0,      0x7F,   0x80,   0x7FF,  0x800,  0xFFF,   0x1000,
                                    0xCFFF, 0xD000, 0xD7FF, 0xE000, 0xFFFF, 0x10000, 0x10FFFF};
    uint8_t s[MOST_BYTES];

    for (size_t i = 0; i < sizeof ends / sizeof ends[0]; i++)
        for (size_t k = 0; k < sizeof ends / sizeof ends[0]; k++) {
            size_t n = write_by_icu(s, (uint32_t[]){ends[i], ends[k]}, 2);

            for (size_t cut = 0; cut <= n; cut++)
                compare_cut(s, n, cut);
        }
}

/* Random texts, whole, cut, and with one byte changed. */
static void compare_texts(int count)
{
    uint8_t s[MOST_BYTES];
    uint32_t codes[12];

    while (count-- > 0) {
        size_t n = 1 + below(12), made;

        for (size_t i = 0; i < n; i++)
            codes[i] = random_scalar();
        made = compare_writing(s, codes, n, 0);
        compare_string(s, made);
        compare_cut(s, made, below((uint32_t)made + 1));
        s[below((uint32_t)made)] = (uint8_t)below(256);
        compare_string(s, made);
    }
}

int main(void)
{
    UErrorCode error = U_ZERO_ERROR;

    icu = ucnv_open("CESU-8", &error);
    check(error);
    ucnv_setToUCallBack(icu, UCNV_TO_U_CALLBACK_STOP, NULL, NULL, NULL, &error);
    ucnv_setFromUCallBack(icu, UCNV_FROM_U_CALLBACK_STOP, NULL, NULL, NULL, &error);
    check(error);
    compare_scalars(1);
    compare_scalars(BLOCK);
    compare_halves();
    compare_all_short();
    compare_cuts();
    compare_texts(100000);
    ucnv_close(icu);
    printf("comparisons at another stretch than ICU's: %lu\n", otherwise);
    printf("%lu comparisons, %lu differences\n", compared, differences);
    return differences != 0;
}
