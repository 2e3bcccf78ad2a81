/* Runs that end at each place where a leap might go wrong, and with so much left behind them and so much room. */
#include "tests.h"

#include <string.h>

/* Letters of each length. */
static const char *const letters[] = {"a", "\xC3\xA9", "\xE2\x80\xB2", "\xF0\x9F\x92\xA7", "\xED\xA0\xBD\xED\xB2\xA7"};

/* What a run of letters ends with: sequences, the borders of their ranges, cut ones, damage. */
static const char *const ends[] = {
    "",
    "z",
    "\xC2\x80",
    "\xDF\xBF",
    "\xE0\xA0\x80",
    "\xE0\x9F\xBF",
    "\xED\x9F\xBF",
    "\xED\xA0\x80",
    "\xED\xAF\xBF\xED\xBF\xBF",
    "\xED\xA0\xBD\xED\xB2",
    "\xED\xA0\xBD\xED\xAF\xBF",
    "\xED\xB0\x80\xED\xB0\x80",
    "\xED",
    "\xEE\x80\x80",
    "\xEF\xBF\xBF",
    "\xE2\x80",
    "\xF0\x90\x80\x80",
    "\xF0\x8F\xBF\xBF",
    "\xF4\x8F\xBF\xBF",
    "\xF4\x90\x80\x80",
    "\xF0\x9F\x92",
    "\xF5",
    "\xC1",
    "\xC0\xBF",
    "\x80\x7F\xC1\xBF",
    "\xC3",
};

enum { LETTERS = sizeof letters / sizeof letters[0], ENDS = sizeof ends / sizeof ends[0], MOST_LEFT = 37 };

static size_t append(uint8_t *s, size_t at, const char *piece)
{
    memcpy(s + at, piece, strlen(piece));
    return at + strlen(piece);
}

/* count letters, the end of the run, and so many bytes of ASCII. */
static size_t run_text(uint8_t *s, const char *letter, size_t count, const char *end, size_t left)
{
    size_t n = 0;

    for (size_t i = 0; i < count; i++)
        n = append(s, n, letter);
    n = append(s, n, end);
    memset(s + n, 'z', left);
    return n + left;
}

static void read_run(const char *letter, size_t count, const char *end, size_t left)
{
    static uint8_t s[30000];
    size_t n = run_text(s, letter, count, end, left);

    for (uint32_t flags = 0; flags < 12; flags++)
        try_call(DECODE, s, n, 4 * n, flags);
    /* Room that ends at, before and behind the end of the run. */
    for (size_t room = count > 2 ? count - 2 : 0; room <= count + 5; room++)
        try_call(DECODE, s, n, 4 * room + below(4), (uint32_t)below(12));
}

static void write_run(uint32_t letter, size_t count, uint32_t end, size_t left)
{
    static uint8_t codes[4 * 5000];
    size_t n = count + 1 + left, need = letter < 0x80 ? 1 : letter < 0x800 ? 2 : letter < 0x10000 ? 3 : cesu8 ? 6 : 4;

    for (size_t i = 0; i < n; i++)
        set_code(codes, i, i < count ? letter : 'z');
    set_code(codes, count, end);
    for (uint32_t flags = 0; flags < 8; flags++)
        try_call(ENCODE, codes, 4 * n, 6 * n, flags);
    for (size_t room = need * count > 5 ? need * count - 5 : 0; room <= need * count + 7; room++)
        try_call(ENCODE, codes, 4 * n, room, (uint32_t)below(4));
}

void test_leaps(void)
{
    static const uint32_t wide[LETTERS] = {'a', 0xE9, 0x2032, 0x1F4A7, 0xDC80};

    check_begin("leaps");
    for (size_t l = 0; l < LETTERS; l++)
        for (size_t count = 0; count < (small ? 2 : 10); count++)
            for (size_t left = 0; left < MOST_LEFT; left += small || (5 < left && left < 27) ? 7 : 1) {
                for (size_t e = 0; e < ENDS; e++)
                    read_run(letters[l], count, ends[e], left);
                for (size_t k = 0; k < BORDER_CODES; k++)
                    write_run(wide[l], count, border_codes[k], left);
            }
}

/* The same far into a text. */
void test_long_leaps(void)
{
    static const size_t places[] = {255, 256, 1023, 4096};
    static const uint32_t wide[LETTERS] = {'a', 0xE9, 0x2032, 0x10FFFF, 0xDCFF};

    check_begin("long leaps");
    for (size_t p = 0; p < (small ? 1 : 4); p++)
        for (size_t l = 0; l < LETTERS; l++) {
            for (size_t e = 0; e < ENDS; e++)
                read_run(letters[l], places[p], ends[e], 6);
            for (size_t k = 0; k < BORDER_CODES; k++)
                write_run(wide[l], places[p], border_codes[k], 6);
        }
}

/* Letters of all lengths, and an end at each place. */
void test_byte_places(void)
{
    static uint8_t s[10000];

    check_begin("byte places");
    for (size_t place = 256; place <= (small ? 256 : 9216); place += 256)
        for (size_t e = 0; e < ENDS; e++)
            for (size_t back = 0; back <= 6; back++) {
                size_t n = 0;

                while (n + 8 < place)
                    n = append(s, n, letters[below(LETTERS)]);
                while (n < place - back)
                    n = append(s, n, "a");
                n = append(s, n, ends[e]);
                try_call(DECODE, s, n, 4 * n, 0);
                try_call(DECODE, s, n, 4 * n, 1);
                n = append(s, n, letters[below(LETTERS)]);
                try_call(DECODE, s, n, 4 * n, (uint32_t)below(12));
            }
}
