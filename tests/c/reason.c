/* Why bytes are bad: what the tests share, all of them, and those against the model. */
#include "reason_tests.h"

#include <string.h>

static uint32_t try_reason(const uint8_t *s, size_t n, size_t place)
{
    struct reason_call c = {s, n, place};

    return check_reason_model(&c);
}

/* At each byte, at the end, behind it and as far behind it as can be. */
static void reason_all(const uint8_t *s, size_t n)
{
    check_reason_each(s, n);
    check_that(try_reason(s, n, n) == END && try_reason(s, n, n + 1) == END && try_reason(s, n, SIZE_MAX) == END,
               "9 at and past the end");
}

/* All strings of at most two bytes. */
void test_reason_short(void)
{
    uint8_t s[2];

    check_begin("reasons in short strings");
    reason_all(s, 0);
    for (int a = 0; a < 256; a += small ? 15 : 1) {
        s[0] = (uint8_t)a;
        reason_all(s, 1);
        for (int b = 0; b < 256; b += small ? 51 : 1) {
            s[1] = (uint8_t)b;
            reason_all(s, 2);
        }
    }
}

/* All strings of three and four bytes over the borders. */
void test_reason_borders(void)
{
    uint8_t s[4];

    check_begin("reasons between borders");
    for (size_t k = 0; k < border_strings(3); k += small ? 397 : 1) {
        border_string(s, 3, k);
        reason_all(s, 3);
    }
    for (size_t k = 0; k < border_strings(4); k += small ? 6001 : 1) {
        border_string(s, 4, k);
        check_reason_each(s, 4);
    }
}

void test_reason_random(void)
{
    uint8_t s[48];

    check_begin("reasons in random strings");
    for (long i = 0; i < (small ? 5 : 12000); i++) {
        size_t n = below(sizeof s);

        fill_samples(s, n);
        reason_all(s, n);
        damaged_text(s, n);
        reason_all(s, n);
        for (size_t k = 0; k < n; k++)
            s[k] = (uint8_t)random32();
        reason_all(s, n);
    }
}

/* More than a page, and more than the readers and writers take. */
void test_reason_long(void)
{
    static uint8_t s[LIMIT + 5000];
    static const size_t lengths[] = {4095, 4096, 4097, 5000, 65536, LIMIT, LIMIT + 1, sizeof s};

    check_begin("reasons in long strings");
    for (size_t l = 0; l < (small ? 3 : sizeof lengths / sizeof lengths[0]); l++) {
        size_t n = lengths[l];

        fill_samples(s, n);
        for (size_t back = 0; back < 6; back++)
            try_reason(s, n, n + 1 - back);
        for (int i = 0; i < (small ? 10 : n < LIMIT ? 500 : 30); i++)
            try_reason(s, n, below(n));
    }
}

/* Places about each power of two and about 2^64. */
void test_reason_far(void)
{
    static const uint8_t s[] = {0x41, 0xE0, 0x80, 0xC0, 0xF4, 0x90, 0xF5, 0xED, 0xA0, 0xF0, 0x9F, 0x92};

    check_begin("reasons at far places");
    for (size_t n = 0; n <= sizeof s; n += small ? 6 : 1) {
        for (size_t back = 0; back < 20; back++)
            try_reason(s, n, SIZE_MAX - back);
        for (int bit = 0; bit < 64; bit += small ? 9 : 1)
            for (size_t near = 0; near < sizeof s; near++) {
                try_reason(s, n, ((size_t)1 << bit) - near);
                try_reason(s, n, ((size_t)1 << bit) + near);
            }
    }
}

void test_reason(void)
{
    test_reason_lines();
    test_reason_header();
    test_reason_null();
    test_reason_short();
    test_reason_borders();
    test_reason_random();
    test_reason_long();
    test_reason_far();
    test_reason_stretches();
    test_reason_reach();
    test_reason_nothing();
}
