#include "corpora.h"

#include <stdio.h>
#include <stdlib.h>
#include <string.h>

uint32_t below(uint32_t n)
{
    static uint64_t x = 88172645463325252u;

    x ^= x << 13;
    x ^= x >> 7;
    x ^= x << 17;
    return (uint32_t)(x >> 32) % n;
}

void *new_memory(size_t size)
{
    void *p = malloc(size);

    if (!p) {
        fputs("bench: no memory\n", stderr);
        exit(1);
    }
    return memset(p, 0xA5, size);
}

/* The texts, code by code. */

static uint32_t next_ascii(void)
{
    return below(6) ? 'a' + below(26) : ' ';
}

static uint32_t next_accented(void)
{
    return below(50) ? next_ascii() : 0xE0 + below(0x20);
}

/* Words of Cyrillic letters, two bytes each, and of Devanagari letters, three bytes each. */
static uint32_t next_word_letter(void)
{
    static uint32_t left, first = 0x430;

    if (left == 0) {
        left = 2 + below(8);
        first = below(2) ? 0x430 : 0x915;
        return ' ';
    }
    left--;
    return first + below(32);
}

static uint32_t next_emoji(void)
{
    return 0x1F600 + below(80);
}

/* What the members send, with the time; the sign for minutes is U+2032. */
static uint32_t next_of_log(void)
{
    static char line[80];
    static size_t at;
    static uint32_t seconds;

    if (!line[at]) {
        seconds += below(90);
        snprintf(line, sizeof line, "%02u:%02u:%02u member %u: pump %u, %u'\n", seconds / 3600 % 24, seconds / 60 % 60,
                 seconds % 60, 1 + below(40), 1 + below(4), 5 * (1 + below(24)));
        at = 0;
    }
    at++;
    return line[at - 1] == '\'' ? 0x2032 : (uint32_t)line[at - 1];
}

static size_t put_code(uint8_t *s, uint32_t code)
{
    static const uint8_t marks[] = {0, 0, 0xC0, 0xE0, 0xF0};
    size_t len = 1 + (code >= 0x80) + (code >= 0x800) + (code >= 0x10000);

    for (size_t i = len; i-- > 1; code >>= 6)
        s[i] = (uint8_t)(0x80 | (code & 0x3F));
    s[0] = (uint8_t)(marks[len] | code);
    return len;
}

/* A text ends with full stops where the next code might not fit. */
void fill(const struct corpus *c, uint8_t *bytes, size_t len)
{
    size_t at = 0;

    while (c->next && len - at >= 4)
        at += put_code(bytes + at, c->next());
    for (; at < len; at++)
        bytes[at] = c->next ? '.' : (uint8_t)below(256);
}

/* The same in CESU-8, as far as there is room: four bytes become a high and a low surrogate of three each. */
static void recode(const uint8_t *src, uint8_t *dst)
{
    size_t at = 0;

    while (WHOLE - at >= 6) {
        size_t len = 1 + (*src >= 0xC0) + (*src >= 0xE0) + (*src >= 0xF0);
        uint32_t code = (src[0] & 7u) << 18 | (src[1] & 0x3Fu) << 12 | (src[2] & 0x3Fu) << 6 | (src[3] & 0x3Fu);

        if (len == 4) {
            at += put_code(dst + at, 0xD7C0 + (code >> 10));
            at += put_code(dst + at, 0xDC00 + (code & 0x3FF));
        } else {
            memcpy(dst + at, src, len);
            at += len;
        }
        src += len;
    }
    memset(dst + at, '.', WHOLE - at);
}

/* Whether no code of a text starts at s: there is a later byte of a sequence, or a low surrogate. */
static int is_inside(const uint8_t *s)
{
    return (s[0] & 0xC0) == 0x80 || (s[0] == 0xED && s[1] >= 0xB0);
}

/* The length of a line at the front of s: up to the end of a code if it is text, else any. */
static size_t line_length(const uint8_t *s, int is_text)
{
    size_t len = SHORTEST + below(LONGEST - SHORTEST + 1);

    while (is_text && len > SHORTEST && is_inside(s + len))
        len--;
    while (is_text && is_inside(s + len))
        len++;
    return len;
}

static void cut_lines(struct corpus *c, int form)
{
    struct text rest = c->whole[form];

    rest.codes = new_memory(LINES * LONGEST * sizeof *rest.codes);
    for (size_t i = 0; i < LINES; i++) {
        rest.len = line_length(rest.bytes, c->next != NULL);
        c->lines[form][i] = rest;
        rest.bytes += rest.len;
        rest.codes += rest.len;
    }
}

static struct text new_text(void)
{
    struct text text = {.bytes = new_memory(WHOLE), .len = WHOLE};

    text.codes = new_memory(WHOLE * sizeof *text.codes);
    return text;
}

struct corpus corpora[CORPORA] = {
    [ASCII] = {.name = "ASCII", .next = next_ascii},
    [ACCENTED] = {.name = "2 % accented", .next = next_accented},
    [WORDS] = {.name = "2- and 3-byte words", .next = next_word_letter},
    [EMOJI] = {.name = "emoji", .next = next_emoji},
    [RANDOM] = {.name = "random bytes"},
    [LINE_LOG] = {.name = "line log", .next = next_of_log},
};

void make_corpora(void)
{
    for (struct corpus *c = corpora; c < corpora + CORPORA; c++) {
        c->whole[UTF8] = new_text();
        fill(c, c->whole[UTF8].bytes, WHOLE);
        cut_lines(c, UTF8);
    }
    for (struct corpus *c = corpora; c < corpora + CORPORA; c++) {
        c->whole[CESU8] = new_text();
        if (c->next)
            recode(c->whole[UTF8].bytes, c->whole[CESU8].bytes);
        else
            memcpy(c->whole[CESU8].bytes, c->whole[UTF8].bytes, WHOLE);
        cut_lines(c, CESU8);
    }
}
