/* Makes a call beside forbidden pages and compares everything that it left. */
#ifndef CHECK_H
#define CHECK_H

#include "model.h"

/* The bytes in a report. */
enum { REPORT = 9 };

/* Names the test that the following calls belong to. */
void check_begin(const char *name);

/* The call, with both placements of its buffers, must leave what o says. */
void check_call(const struct call *c, const struct outcome *o);

/* The same against the model. */
void check_model(const struct call *c);

/* Counts one comparison of another kind; prints what if it does not hold. */
void check_that(int holds, const char *what);

/* For a check of other calls.  From enter to leave, a touch of a forbidden page shows the call; leave counts it. */
void check_enter(const void *call, void (*show)(const void *call));
void check_leave(void);

/* Counts one difference and prints what it is. */
void check_failed(const char *what);

/* Ends the test where the differences are too many. */
void check_go_on(void);

/* Prints the first of n bytes. */
void show_bytes(const char *name, const uint8_t *s, size_t n);

/* Prints the counts; the exit status of the test. */
int check_end(void);

/* The consumed count of a report. */
uint64_t consumed_in(const uint8_t *report);

/* The call itself, with no check. */
int64_t enter(int decode, const uint8_t *in, size_t in_len, uint8_t *out, size_t out_len, uint32_t flags,
              uint8_t *report, size_t report_len);

#endif
