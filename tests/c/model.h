/* What the entries have to do, written plainly and slowly. */
#ifndef MODEL_H
#define MODEL_H

#include <stddef.h>
#include <stdint.h>

/* Set for CESU-8's entries, which all calls then go to. */
extern int cesu8;

/* One call of an entry: reading if decode is set, else writing. */
struct call {
    int decode;
    uint32_t flags;
    const uint8_t *in;
    size_t in_len;
    size_t out_len;
    size_t report_len;
};

/* What it must leave: the answer, the first bytes of the output, and if reported the consumed count and the bad length. */
struct outcome {
    int64_t answer;
    uint8_t *out;
    size_t written;
    int reported;
    uint64_t consumed;
    uint8_t bad_length;
};

/* out must have room for out_len bytes of the call. */
void model(const struct call *c, struct outcome *o);

/* The item at the front of s, read with the flags and LAST: how many bytes it has, and its code.  n is at least 1. */
size_t front_item(const uint8_t *s, size_t n, uint32_t flags, uint32_t *code);

uint32_t code_at(const uint8_t *codes, size_t i);
void set_code(uint8_t *codes, size_t i, uint32_t code);

#endif
