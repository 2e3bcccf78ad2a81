/* The tests of utf8b_reason, and what they share. */
#ifndef REASON_TESTS_H
#define REASON_TESTS_H

#include "reason_check.h"
#include "tests.h"

void test_reason_lines(void);
void test_reason_header(void);
void test_reason_null(void);
void test_reason_short(void);
void test_reason_borders(void);
void test_reason_random(void);
void test_reason_long(void);
void test_reason_far(void);
void test_reason_stretches(void);
void test_reason_reach(void);
void test_reason_nothing(void);

#endif
