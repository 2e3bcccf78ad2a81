/* Long inputs at once and in pieces. */
#include "tests.h"
#include "utf8b.h"

#include <string.h>

/* Converts in calls with little input and little room; answers the bytes produced. */
static size_t in_pieces(int decode, const uint8_t *in, size_t n, uint8_t *out, uint32_t flags)
{
    size_t unit = decode ? 1 : 4, made_unit = decode ? 4 : 1, at = 0, made = 0;

    while (at < n) {
        size_t piece = (6 + below(below(10) ? 40 : 3000)) * unit, room = (6 + below(below(10) ? 40 : 3000)) * made_unit;
        uint8_t report[REPORT];
        int64_t answer;

        if (piece > n - at)
            piece = n - at;
        answer = enter(decode, in + at, piece, out + made, room, at + piece == n ? flags : flags & ~1u, report, REPORT);
        if (answer < 0 || consumed_in(report) == 0)
            break;
        at += consumed_in(report) * unit;
        made += (size_t)answer * made_unit;
    }
    check_that(at == n, "pieces: all is consumed");
    return made;
}

/* Reading and writing back gives the bytes again. */
void test_pieces(void)
{
    static uint8_t s[120000], codes[LIMIT], again[LIMIT], back[LIMIT];
    uint8_t report[REPORT];

    check_begin("pieces");
    for (int round = 0; round < (small ? 1 : 40); round++) {
        size_t n = damaged_text(s, small ? 2000 : 100000 + below(20000)), made, bytes;
        static const uint32_t flags[] = {1, 9, 3, 1};
        uint32_t f = flags[round % 4] & ~(cesu8 ? UTF8B_SURRO : 0);

        made = (size_t)enter(DECODE, s, n, codes, LIMIT, f, report, REPORT) * 4;
        check_that(consumed_in(report) == n, "at once: all is consumed");
        check_that(in_pieces(DECODE, s, n, again, f) == made && memcmp(codes, again, made) == 0, "read in pieces");
        bytes = (size_t)enter(ENCODE, codes, made, back, LIMIT, 0, report, REPORT);
        check_that(consumed_in(report) * 4 == made, "at once: all is consumed");
        check_that(in_pieces(ENCODE, codes, made, again, 0) == bytes && memcmp(back, again, bytes) == 0,
                   "written in pieces");
        if (f == UTF8B_LAST)
            check_that(bytes == n && memcmp(s, back, n) == 0, "writing undoes reading");
    }
}
