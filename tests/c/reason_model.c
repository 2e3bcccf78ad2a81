#include "reason_model.h"

#include "model.h"
#include "utf8b.h"

/* The bytes from the place on. */
struct rest {
    const uint8_t *s;
    size_t n;
};

/* Whether byte i is there, and is one of first..last. */
static int is_in(const struct rest *r, size_t i, uint8_t first, uint8_t last)
{
    return i < r->n && first <= r->s[i] && r->s[i] <= last;
}

static int is_continuation(const struct rest *r, size_t i)
{
    return is_in(r, i, 0x80, 0xBF);
}

/* By the table of model.c: no sequence has the code of an escape. */
static int good(const struct rest *r)
{
    uint32_t code = 0xDC80;

    if (r->n > 0)
        front_item(r->s, r->n, UTF8B_LAST, &code);
    return code < 0xDC80 || 0xDCFF < code;
}

static int lone(const struct rest *r)
{
    return is_continuation(r, 0);
}

static int never(const struct rest *r)
{
    return is_in(r, 0, 0xC0, 0xC1);
}

static int beyond(const struct rest *r)
{
    return is_in(r, 0, 0xF5, 0xFF);
}

static int too_long(const struct rest *r)
{
    return (is_in(r, 0, 0xE0, 0xE0) && is_in(r, 1, 0x80, 0x9F)) || (is_in(r, 0, 0xF0, 0xF0) && is_in(r, 1, 0x80, 0x8F));
}

static int surrogate(const struct rest *r)
{
    return is_in(r, 0, 0xED, 0xED) && is_in(r, 1, 0xA0, 0xBF);
}

static int too_high(const struct rest *r)
{
    return is_in(r, 0, 0xF4, 0xF4) && is_in(r, 1, 0x90, 0xBF);
}

/* How many continuation bytes are due after the first byte. */
static size_t due(const struct rest *r)
{
    return is_in(r, 0, 0xC2, 0xDF) ? 1 : is_in(r, 0, 0xE0, 0xEF) ? 2 : is_in(r, 0, 0xF0, 0xF4) ? 3 : 0;
}

/* Whether the first k bytes, 1 to 3, are a partial sequence: one more is due, and none of them was refused. */
static int is_partial(const struct rest *r, size_t k)
{
    if (due(r) < k || (k > 1 && (too_long(r) || surrogate(r) || too_high(r))))
        return 0;
    for (size_t i = 1; i < k; i++)
        if (!is_continuation(r, i))
            return 0;
    return 1;
}

static int cut_short(const struct rest *r)
{
    for (size_t k = 1; k <= 3; k++)
        if (k < r->n && is_partial(r, k) && !is_continuation(r, k))
            return 1;
    return 0;
}

static int unfinished(const struct rest *r)
{
    return 1 <= r->n && r->n <= 3 && is_partial(r, r->n);
}

static int at_end(const struct rest *r)
{
    return r->n == 0;
}

uint32_t reason_model(const uint8_t *s, size_t s_len, size_t place)
{
    static int (*const holds[REASONS])(const struct rest *) = {good,      lone,     never,     beyond,     too_long,
                                                               surrogate, too_high, cut_short, unfinished, at_end};
    struct rest r = {NULL, 0};
    uint32_t reason = REASONS;
    int count = 0;

    if (place < s_len) {
        r.s = s + place;
        r.n = s_len - place;
    }
    for (uint32_t i = 0; i < REASONS; i++)
        if (holds[i](&r)) {
            reason = i;
            count++;
        }
    return count == 1 ? reason : REASONS;
}
