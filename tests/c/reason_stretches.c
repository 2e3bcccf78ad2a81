/* The reason beside what utf8b_decode says with LAST and STRICT of the bytes from the place on. */
#include "reason_tests.h"
#include "utf8b.h"

/* How long the bad stretch is, 0 for none; LIMIT, which no reason has, where the answer or the report is another. */
static size_t bad_stretch(const uint8_t *s, size_t n)
{
    uint8_t code[4], report[REPORT];
    int64_t answer = utf8b_decode(s, n, code, sizeof code, UTF8B_LAST | UTF8B_STRICT, report, sizeof report);

    if (answer == UTF8B_BAD && utf8b_consumed(report) == 0 && utf8b_bad_length(report) > 0)
        return utf8b_bad_length(report);
    return answer == (n > 0) && (utf8b_consumed(report) > 0) == (n > 0) ? 0 : LIMIT;
}

/* Whether a stretch of that length, with the byte behind it, can have the reason; n is how many bytes there are. */
static int can_have(uint32_t reason, const uint8_t *s, size_t n, size_t length)
{
    if (reason == GOOD || reason == END)
        return length == 0 && (reason == END) == (n == 0);
    if (reason < CUT_SHORT)
        return length == 1;
    if (length < 1 || 3 < length)
        return 0;
    if (reason == CUT_SHORT)
        return length < n && (s[length] < 0x80 || 0xBF < s[length]);
    return reason == UNFINISHED && length == n;
}

static void stretch_all(const uint8_t *s, size_t n)
{
    for (size_t place = 0; place <= n; place++) {
        struct reason_call c = {s, n, place};
        uint32_t reason = utf8b_reason(s, n, place);
        int fits = can_have(reason, s + place, n - place, bad_stretch(s + place, n - place));

        check_that(fits, "another bad stretch than the reason's");
        if (!fits)
            show_reason_call(&c);
    }
}

void test_reason_stretches(void)
{
    uint8_t s[40];

    check_begin("bad stretches and their reasons");
    for (size_t k = 0; k < 65536; k += small ? 997 : 1) {
        s[0] = (uint8_t)(k / 256);
        s[1] = (uint8_t)(k % 256);
        stretch_all(s, 2);
    }
    for (size_t n = 0; n <= 4; n++)
        for (size_t k = 0; k < border_strings(n); k += small ? 1 + border_strings(n) / 20 : 1) {
            border_string(s, n, k);
            stretch_all(s, n);
        }
    for (long i = 0; i < (small ? 10 : 10000); i++) {
        size_t n = below(sizeof s);

        fill_samples(s, n);
        stretch_all(s, n);
    }
}
