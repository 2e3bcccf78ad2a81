/* Which item covers a byte, against the full reading. */
#include "index_tests.h"

#include <string.h>

static void cover_all(const uint8_t *s, size_t n)
{
    for (size_t p = 0; p < n + 2; p++)
        try_cover(s, n, p);
}

/* All short strings over the borders. */
static void cover_borders(size_t n)
{
    size_t all = 1;

    for (size_t i = 0; i < n; i++)
        all *= BORDER;
    for (size_t k = 0; k < all; k++) {
        uint8_t s[4];
        size_t rest = k;

        for (size_t i = 0; i < n; i++, rest /= BORDER)
            s[i] = border[rest % BORDER];
        cover_all(s, n);
    }
}

/* Up to 7 bytes, in which a piece, or one with another byte, stands anywhere among others. */
static void cover_piece(void)
{
    size_t n = 4 + below(4), at = below(n), length;
    const char *piece = pieces[below(PIECES)];
    uint8_t s[7];

    damaged_text(s, n);
    length = strlen(piece) < n - at ? strlen(piece) : n - at;
    memcpy(s + at, piece, length);
    if (below(2))
        s[at + below(length)] = border[below(BORDER)];
    cover_all(s, n);
}

void test_cover_short(void)
{
    check_begin("bytes of short logs covered");
    for (size_t n = 0; n <= (small ? 1 : 3); n++)
        cover_borders(n);
    for (long i = 0; i < (small ? 60 : 15000); i++)
        cover_piece();
}

void test_cover_long(void)
{
    static uint8_t text[5000];

    check_begin("bytes covered");
    for (size_t kind = 0; kind < KINDS; kind++) {
        for (size_t n = 1; n < (small ? 40 : 300); n += n < 20 ? 1 : 17) {
            fill_log(text, n, kind);
            cover_all(text, n);
        }
        if (small)
            continue;
        fill_log(text, sizeof text, kind);
        for (int i = 0; i < 300; i++)
            try_cover(text, sizeof text, i < 10 ? sizeof text + 1 - (size_t)i : below(sizeof text));
    }
}

/* Places about each power of two and about 2^64. */
void test_cover_far(void)
{
    static const uint8_t s[] = {0x41, 0xF0, 0x9F, 0x92, 0xA7, 0xE2, 0x80, 0xB2, 0xC3};

    check_begin("far bytes covered");
    for (size_t n = 0; n <= sizeof s; n += small ? 3 : 1) {
        for (size_t back = 0; back < 20; back++)
            try_cover(s, n, SIZE_MAX - back);
        for (int bit = 0; bit < 64; bit++)
            for (size_t near = 0; near < 5; near++) {
                try_cover(s, n, ((size_t)1 << bit) - near);
                try_cover(s, n, ((size_t)1 << bit) + near);
            }
    }
}
