/* Asks for a reason beside forbidden pages. */
#ifndef REASON_CHECK_H
#define REASON_CHECK_H

#include "reason_model.h"

/* One call. */
struct reason_call {
    const uint8_t *s;
    size_t s_len;
    size_t place;
};

/* The call, with both placements of the bytes, must answer the reason and leave them as they were. */
void check_reason(const struct reason_call *c, uint32_t reason);

/* The same against the model; its reason is answered. */
uint32_t check_reason_model(const struct reason_call *c);

/* The same at each of n bytes, which are laid out once for all of them. */
void check_reason_each(const uint8_t *s, size_t n);

/* Compares the answer of a call that was made already, and shows it where it is another. */
void compare_reason(const struct reason_call *c, uint32_t reason, uint32_t answer);

/* Prints a call. */
void show_reason_call(const void *call);

#endif
