/* Short inputs against the model, with every room about them. */
#include "tests.h"

#include <string.h>

/* Short byte strings over the borders, every flag number and every room about them. */
void test_short_reads(void)
{
    check_begin("short reads");
    for (size_t n = 0; n <= (small ? 1 : 3); n++)
        for (size_t k = 0; k < border_strings(n); k++) {
            uint8_t s[4];

            border_string(s, n, k);
            for (uint32_t flags = 0; flags < 16; flags++)
                if (n < 3)
                    for (size_t out_len = 0; out_len < 4 * n + 6; out_len++)
                        try_call(DECODE, s, n, out_len, flags);
                else
                    try_call(DECODE, s, n, below(4 * n + 6), flags);
        }
}

void test_random_reads(void)
{
    uint8_t s[48];

    check_begin("random reads");
    for (long i = 0; i < (small ? 300 : 100000); i++) {
        size_t n = damaged_text(s, below(sizeof s));

        try_call(DECODE, s, n, below(4 * n + 8), random32() % 16);
    }
}

/* Surrogate pairs of three bytes each, with one byte or two changed, cut and whole. */
void test_pairs(void)
{
    static const uint8_t pair[] = {0xED, 0xA0, 0xBD, 0xED, 0xB2, 0xA7, 'A'};

    check_begin("pairs");
    for (size_t i = 0; i < 6; i++)
        for (size_t j = i; j < 6; j++)
            for (size_t k = 0; k < (small ? 1 : BORDER * BORDER); k++) {
                uint8_t s[7];

                memcpy(s, pair, sizeof s);
                s[j] = border[k / BORDER];
                s[i] = border[k % BORDER];
                for (size_t n = 1; n <= sizeof s; n++)
                    try_call(DECODE, s, n, 4 * n, random32() % 12);
            }
}

/* Border codes alone and in pairs, every flag number and every room about them. */
void test_short_writes(void)
{
    check_begin("short writes");
    for (size_t a = 0; a < BORDER_CODES; a++)
        for (size_t b = 0; b < (small ? 2 : BORDER_CODES); b++)
            for (uint32_t flags = 0; flags < 16; flags++)
                for (size_t out_len = 0; out_len < 14; out_len++) {
                    uint8_t codes[8];

                    set_code(codes, 0, border_codes[a]);
                    set_code(codes, 1, border_codes[b]);
                    if (b == 0)
                        try_call(ENCODE, codes, 4, out_len, flags);
                    try_call(ENCODE, codes, 8, out_len, flags);
                }
}

void test_random_writes(void)
{
    uint8_t codes[4 * 24];

    check_begin("random writes");
    for (long i = 0; i < (small ? 300 : 100000); i++) {
        size_t n = below(25);

        for (size_t k = 0; k < n; k++)
            set_code(codes, k, below(4) ? border_codes[below(BORDER_CODES - 3 + below(8) / 6)] : random32() % 0x110800);
        try_call(ENCODE, codes, 4 * n, below(6 * n + 4), random32() % 8);
    }
}
