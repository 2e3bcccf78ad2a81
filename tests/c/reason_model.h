/* Why bytes at a place are bad, in the words of the request. */
#ifndef REASON_MODEL_H
#define REASON_MODEL_H

#include <stddef.h>
#include <stdint.h>

/* The numbers of the reasons, and how many there are. */
enum { GOOD, LONE, NEVER, BEYOND, TOO_LONG, SURROGATE, TOO_HIGH, CUT_SHORT, UNFINISHED, END, REASONS };

/* The one reason that holds; REASONS, which no call answers, where none or several would. */
uint32_t reason_model(const uint8_t *s, size_t s_len, size_t place);

#endif
