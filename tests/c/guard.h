/* Memory between two pages that may not be touched. */
#ifndef GUARD_H
#define GUARD_H

#include <stddef.h>
#include <stdint.h>

struct guarded {
    uint8_t *base;
    size_t size;
};

/* Where a buffer lies: it ends right before a forbidden page, or begins right after one. */
enum side { AT_END, AT_START };

/* size is rounded up to whole pages. */
struct guarded guarded_new(size_t size);

/* One page with so many forbidden bytes before and after it, whole pages of them; base is null if there is no such span. */
struct guarded guarded_amid(size_t before, size_t after);

uint8_t *guarded_place(const struct guarded *g, size_t len, enum side side);

/* Fills all of g with a pattern. */
void guarded_fill(const struct guarded *g);

/* Whether g holds the n bytes of expected at place, and the pattern everywhere else. */
int guarded_holds(const struct guarded *g, const uint8_t *place, const uint8_t *expected, size_t n);

#endif
