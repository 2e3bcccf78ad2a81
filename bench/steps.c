/*
 * Commands for probe, one a line, that take the 32-bit step through the front of a corpus in UTF-8. The way sequences
 * is a call at the start of each item, from the starting state; the way bytes is a call for each byte.
 *
 * usage: steps CORPUS sequences|bytes
 */
#include "corpora.h"

#include <stdio.h>
#include <stdlib.h>
#include <string.h>

enum { FRONT = 4096, INPUT = 6, RECORD = 16, MOST_BYTES = 4 };
enum part { NEITHER, BEGINNING, SEQUENCE };

struct range {
    uint8_t first, last;
};

struct row {
    size_t len;
    struct range bytes[MOST_BYTES];
};

/* Table 3-7 of the Unicode Standard, as it stands there. The library is not asked: it is what is measured. */
static const struct row rows[] = {
    {1, {{0x00, 0x7F}}},
    {2, {{0xC2, 0xDF}, {0x80, 0xBF}}},
    {3, {{0xE0, 0xE0}, {0xA0, 0xBF}, {0x80, 0xBF}}},
    {3, {{0xE1, 0xEC}, {0x80, 0xBF}, {0x80, 0xBF}}},
    {3, {{0xED, 0xED}, {0x80, 0x9F}, {0x80, 0xBF}}},
    {3, {{0xEE, 0xEF}, {0x80, 0xBF}, {0x80, 0xBF}}},
    {4, {{0xF0, 0xF0}, {0x90, 0xBF}, {0x80, 0xBF}, {0x80, 0xBF}}},
    {4, {{0xF1, 0xF3}, {0x80, 0xBF}, {0x80, 0xBF}, {0x80, 0xBF}}},
    {4, {{0xF4, 0xF4}, {0x80, 0x8F}, {0x80, 0xBF}, {0x80, 0xBF}}},
};

static int begins(const struct row *row, const uint8_t *s, size_t n)
{
    if (n > row->len)
        return 0;
    for (size_t i = 0; i < n; i++)
        if (s[i] < row->bytes[i].first || s[i] > row->bytes[i].last)
            return 0;
    return 1;
}

/* Whether n bytes are a well-formed sequence, the beginning of one, or neither. */
static enum part part_of(const uint8_t *s, size_t n)
{
    for (size_t i = 0; i < sizeof rows / sizeof *rows; i++)
        if (begins(&rows[i], s, n))
            return n == rows[i].len ? SEQUENCE : BEGINNING;
    return NEITHER;
}

/* An item is a well-formed sequence, or else one bad byte. */
static size_t item_length(const uint8_t *s)
{
    for (size_t n = 1; n <= MOST_BYTES; n++)
        if (part_of(s, n) == SEQUENCE)
            return n;
    return 1;
}

static void put_hex(const uint8_t *s, size_t len)
{
    for (size_t i = 0; i < len; i++)
        printf("%02X", s[i]);
}

/* A record is its kind, 1 where bytes are held and 0 at the start, their number, the bytes, and zeros. */
static void put_step(const uint8_t *held, size_t count, const uint8_t *in, size_t len)
{
    uint8_t record[RECORD] = {count > 0, (uint8_t)count};

    memcpy(record + 2, held, count);
    printf("step32 ");
    put_hex(record, RECORD);
    printf(" ");
    put_hex(in, len);
    puts("");
}

/* The text goes on behind its front, so there are always bytes enough, and no item is cut off. */
static void step_by_sequences(const uint8_t *s)
{
    for (size_t at = 0; at < FRONT; at += item_length(s + at))
        put_step(s, 0, s + at, INPUT);
}

/* What is held are the bytes before this one. A byte that makes them bad is not handed over again. */
static void step_by_bytes(const uint8_t *s)
{
    size_t start = 0;

    for (size_t at = 0; at < FRONT; at++) {
        put_step(s + start, at - start, s + at, 1);
        if (part_of(s + start, at + 1 - start) != BEGINNING)
            start = at + 1;
    }
}

int main(int argc, char **argv)
{
    int corpus = argc == 3 ? atoi(argv[1]) : -1;
    int is_bytes = argc == 3 && strcmp(argv[2], "bytes") == 0;

    if (corpus < 0 || corpus >= CORPORA || (!is_bytes && strcmp(argv[2], "sequences") != 0)) {
        fputs("usage: steps CORPUS sequences|bytes\n", stderr);
        return 2;
    }
    make_corpora();
    (is_bytes ? step_by_bytes : step_by_sequences)(corpora[corpus].whole[UTF8].bytes);
    return 0;
}
