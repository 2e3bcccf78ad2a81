/* The texts of the tests. */
#include "tests.h"

#include <string.h>

const uint8_t border[BORDER] = {0x00, 0x41, 0x7F, 0x80, 0x8F, 0x90, 0x9F, 0xA0, 0xAF, 0xB0, 0xBF, 0xC0, 0xC1, 0xC2,
                                0xDF, 0xE0, 0xE1, 0xEC, 0xED, 0xEE, 0xEF, 0xF0, 0xF1, 0xF3, 0xF4, 0xF5, 0xF8, 0xFF};

const uint32_t border_codes[BORDER_CODES] = {
    0,      1,      0x7F,   0x80,   0x7FF,  0x800,  0xD7FF,  0xD800,   0xDBFF,   0xDC00,     0xDC7F,     0xDC80,
    0xDCFF, 0xDD00, 0xDFFF, 0xE000, 0xFFFD, 0xFFFF, 0x10000, 0x10FFFF, 0x110000, 0x80000000, 0xFFFFFFFF,
};

size_t damaged_text(uint8_t *s, size_t n)
{
    for (size_t i = 0; i < n; i++)
        s[i] = below(8) ? border[below(BORDER)] : (uint8_t)random32();
    return n;
}

/* The first and last sequences of each row of the table, what each reason is found at, and pairs of CESU-8, whole and cut. */
static const char *const samples[] = {
    "A", "\x7F", "\xC2\x80", "\xDF\xBF", "\xE0\xA0\x80", "\xE1\x80\x80", "\xEC\xBF\xBF", "\xED\x9F\xBF", "\xEE\x80\x80",
    "\xEF\xBF\xBF", "\xF0\x90\x80\x80", "\xF1\x80\x80\x80", "\xF3\xBF\xBF\xBF", "\xF4\x8F\xBF\xBF",
    "\x80", "\xBF", "\xC0\x80", "\xC1", "\xF5\x80", "\xFF", "\xE0\x80", "\xE0\x9F\xBF", "\xF0\x80", "\xF0\x8F\xBF\xBF",
    "\xED\xA0\x80", "\xED\xBF", "\xF4\x90\x80\x80", "\xF4\xBF", "\xC3", "\xE1", "\xE2\x80", "\xF4", "\xF1\x80",
    "\xF0\x9F\x92",
    "\xED\xA0\xBD\xED\xB2\xA7", "\xED\xAF\xBF\xED\xBF\xBF", "\xED\xA0\x80\xED", "\xED\xA0\x80\xED\xB0",
};
enum { SAMPLES = sizeof samples / sizeof samples[0] };

void fill_samples(uint8_t *s, size_t n)
{
    for (size_t at = 0; at < n;) {
        const char *sample = samples[below(SAMPLES)];
        size_t length = strlen(sample) < n - at ? strlen(sample) : n - at;

        memcpy(s + at, sample, length);
        if (below(4) == 0)
            s[at + below(length)] = below(2) ? border[below(BORDER)] : (uint8_t)random32();
        at += length;
    }
}

size_t border_strings(size_t n)
{
    return n == 0 ? 1 : BORDER * border_strings(n - 1);
}

void border_string(uint8_t *s, size_t n, size_t k)
{
    for (size_t i = 0; i < n; i++, k /= BORDER)
        s[i] = border[k % BORDER];
}
