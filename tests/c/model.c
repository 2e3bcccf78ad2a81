#include "model.h"

#include "utf8b.h"

#include <string.h>

int cesu8;

/* The table of well-formed sequences; a later byte is 80..BF unless it is the second. */
static const struct row {
    uint8_t first, last, second_first, second_last;
    size_t length;
} rows[] = {
    {0x00, 0x7F, 0x80, 0xBF, 1}, {0xC2, 0xDF, 0x80, 0xBF, 2}, {0xE0, 0xE0, 0xA0, 0xBF, 3},
    {0xE1, 0xEC, 0x80, 0xBF, 3}, {0xED, 0xED, 0x80, 0x9F, 3}, {0xEE, 0xEF, 0x80, 0xBF, 3},
    {0xF0, 0xF0, 0x90, 0xBF, 4}, {0xF1, 0xF3, 0x80, 0xBF, 4}, {0xF4, 0xF4, 0x80, 0x8F, 4},
};

static const struct row *row_of(uint8_t first)
{
    for (size_t i = 0; i < sizeof rows / sizeof rows[0]; i++)
        if (rows[i].first <= first && first <= rows[i].last)
            return &rows[i];
    return NULL;
}

static int second_fits(const struct row *r, uint8_t first, uint8_t second, uint32_t flags)
{
    uint8_t last = first == 0xED && (flags & UTF8B_SURRO) ? 0xBF : r->second_last;

    return r->second_first <= second && second <= last;
}

/* Whether s begins like a high and a low surrogate of three bytes each. */
static int begins_pair(const uint8_t *s, size_t n)
{
    static const uint8_t first[] = {0xED, 0xA0, 0x80, 0xED, 0xB0, 0x80}, last[] = {0xED, 0xAF, 0xBF, 0xED, 0xBF, 0xBF};

    for (size_t i = 0; i < n && i < 6; i++)
        if (s[i] < first[i] || last[i] < s[i])
            return 0;
    return 1;
}

/* The length of the sequence that starts s if s begins like one, else 0; n is at least 1. */
static size_t sequence(const uint8_t *s, size_t n, uint32_t flags)
{
    const struct row *r = row_of(s[0]);

    if (cesu8 && begins_pair(s, n))
        return 6;
    if (!r || (cesu8 && r->length == 4))
        return 0;
    for (size_t i = 1; i < r->length && i < n; i++)
        if (i == 1 ? !second_fits(r, s[0], s[1], flags) : (s[i] & 0xC0) != 0x80)
            return 0;
    return r->length;
}

/* The longest beginning of a sequence at the front of s, or else one byte. */
static uint8_t maximal_subpart(const uint8_t *s, size_t n, uint32_t flags)
{
    uint8_t longest = 1;

    for (uint8_t k = 2; k <= n && k <= 6; k++)
        if (sequence(s, k, flags) >= k)
            longest = k;
    return longest;
}

static uint32_t code_of(const uint8_t *s, size_t length)
{
    static const uint32_t offset[] = {0, 0, 0x3080, 0xE2080, 0x3C82080};
    uint32_t sum = 0;

    if (length == 6)
        return 0x10000 + (s[1] - 0xA0u) * 0x10000 + (s[2] - 0x80u) * 0x400 + (s[4] - 0xB0u) * 0x40 + (s[5] - 0x80u);
    for (size_t i = 0; i < length; i++)
        sum = sum * 64 + s[i];
    return sum - offset[length];
}

size_t front_item(const uint8_t *s, size_t n, uint32_t flags, uint32_t *code)
{
    size_t length = sequence(s, n, flags);

    if (length == 0 || n < length) {
        *code = 0xDC00u + s[0];
        return 1;
    }
    *code = code_of(s, length);
    return length;
}

uint32_t code_at(const uint8_t *codes, size_t i)
{
    const uint8_t *p = codes + 4 * i;

    return p[0] + 0x100u * p[1] + 0x10000u * p[2] + 0x1000000u * p[3];
}

void set_code(uint8_t *codes, size_t i, uint32_t code)
{
    for (int k = 0; k < 4; k++, code >>= 8)
        codes[4 * i + (size_t)k] = (uint8_t)code;
}

/* Reads; the number of the stop is returned. */
static int read_codes(const struct call *c, struct outcome *o)
{
    size_t room = c->out_len / 4, i = 0, made = 0;
    int number;

    for (;;) {
        const uint8_t *s = c->in + i;
        size_t n = c->in_len - i, length;
        uint32_t code;

        o->consumed = i;
        o->written = 4 * made;
        o->answer = (int64_t)made;
        if (n == 0) {
            number = 0;
            break;
        }
        length = sequence(s, n, c->flags);
        if (length > n && !(c->flags & UTF8B_LAST)) {
            number = 2;
            break;
        }
        if (length > n)
            length = 0;
        if (length == 0 && (c->flags & UTF8B_STRICT)) {
            number = 3;
            o->bad_length = maximal_subpart(s, n, c->flags);
            break;
        }
        if (made == room) {
            number = 1;
            break;
        }
        if (length == 0 && (c->flags & UTF8B_SHOW)) {
            code = 0xFFFD;
            i += maximal_subpart(s, n, c->flags);
        } else {
            i += front_item(s, n, c->flags, &code);
        }
        set_code(o->out, made, code);
        made++;
    }
    return number;
}

static void three_bytes(uint32_t code, uint8_t *b)
{
    b[0] = (uint8_t)(0xE0 + code / 4096);
    b[1] = (uint8_t)(0x80 + code / 64 % 64);
    b[2] = (uint8_t)(0x80 + code % 64);
}

/* The bytes of a code, or none if it is refused. */
static size_t bytes_of(uint32_t code, uint32_t flags, uint8_t *b)
{
    int surrogate = 0xD800 <= code && code <= 0xDFFF;
    int surro = (flags & UTF8B_SURRO) != 0;

    if (code > 0x10FFFF || (surrogate && (flags & UTF8B_STRICT) && !surro))
        return 0;
    if (0xDC80 <= code && code <= 0xDCFF && !surro) {
        b[0] = (uint8_t)(code - 0xDC00);
        return 1;
    }
    if (code < 0x80) {
        b[0] = (uint8_t)code;
        return 1;
    }
    if (code < 0x800) {
        b[0] = (uint8_t)(0xC0 + code / 64);
        b[1] = (uint8_t)(0x80 + code % 64);
        return 2;
    }
    if (code < 0x10000) {
        three_bytes(code, b);
        return 3;
    }
    if (cesu8) {
        three_bytes(0xD800 + (code - 0x10000) / 1024, b);
        three_bytes(0xDC00 + (code - 0x10000) % 1024, b + 3);
        return 6;
    }
    b[0] = (uint8_t)(0xF0 + code / 262144);
    b[1] = (uint8_t)(0x80 + code / 4096 % 64);
    b[2] = (uint8_t)(0x80 + code / 64 % 64);
    b[3] = (uint8_t)(0x80 + code % 64);
    return 4;
}

/* Writes; the number of the stop is returned. */
static int write_bytes(const struct call *c, struct outcome *o)
{
    size_t i = 0, made = 0;
    int number = 0;

    while (i < c->in_len / 4) {
        uint8_t b[6];
        size_t n = bytes_of(code_at(c->in, i), c->flags, b);

        if (n == 0 || c->out_len - made < n) {
            number = n == 0 ? 3 : 1;
            break;
        }
        memcpy(o->out + made, b, n);
        made += n;
        i++;
    }
    o->consumed = i;
    o->written = made;
    o->answer = (int64_t)made;
    return number;
}

static int flags_refused(const struct call *c)
{
    if (cesu8 && (c->flags & UTF8B_SURRO))
        return 1;
    if (c->decode)
        return c->flags > 15 || ((c->flags & UTF8B_STRICT) && (c->flags & UTF8B_SHOW));
    return c->flags > 7;
}

/* 6, 8, 7, 4, or 0 if nothing is refused. */
static int refusal(const struct call *c)
{
    if (c->report_len != 9)
        return 6;
    if (c->in_len > 1048576 || c->out_len > 1048576)
        return 8;
    if (!c->decode && c->in_len % 4 != 0)
        return 7;
    return flags_refused(c) ? 4 : 0;
}

void model(const struct call *c, struct outcome *o)
{
    int refused = refusal(c), number;

    o->written = 0;
    o->consumed = 0;
    o->bad_length = 0;
    o->reported = !refused;
    o->answer = -refused;
    if (refused)
        return;
    number = c->decode ? read_codes(c, o) : write_bytes(c, o);
    if (number == 3 && o->answer == 0)
        o->answer = -1;
}
