/* The stack that the entries use. */
#define _DEFAULT_SOURCE
#include "tests.h"
#include "utf8b.h"

#include <signal.h>
#include <string.h>

/* The entries run in a signal handler, on a painted stack of its own. */

enum { STACK = 65536, STACK_MOST = 8192, PAINT = 0x5A };

static uint8_t stack[STACK];
static size_t stack_used;

static void on_own_stack(int signal)
{
    static uint8_t in[4096], out[4096], report[REPORT];
    static size_t number, length;
    static uint32_t code;
    uint8_t here = (uint8_t)signal;
    size_t free_below = (size_t)(&here - stack) - 512, i = 0;

    memset(stack, PAINT, free_below);
    enter(DECODE, in, sizeof in, out, sizeof out, 1, report, sizeof report);
    enter(ENCODE, in, sizeof in, out, sizeof out, 1, report, sizeof report);
    utf8b_reason(in, sizeof in, 999);
    utf8b_index_build(in, sizeof in, out, sizeof out, &number);
    utf8b_index_update(in, sizeof in, sizeof in - 99, number, out, sizeof out, &number);
    utf8b_index_find(in, sizeof in, out, sizeof out, 999, &number);
    utf8b_index_cover(in, sizeof in, 999, &number, &length, &code);
    while (i < free_below && stack[i] == PAINT)
        i++;
    stack_used = free_below + 512 - i;
}

void test_stack(void)
{
    stack_t alternate;
    struct sigaction action;

    check_begin("stack");
    memset(&alternate, 0, sizeof alternate);
    memset(&action, 0, sizeof action);
    alternate.ss_sp = stack;
    alternate.ss_size = sizeof stack;
    action.sa_handler = on_own_stack;
    action.sa_flags = SA_ONSTACK;
    check_that(sigaltstack(&alternate, NULL) == 0 && sigaction(SIGUSR1, &action, NULL) == 0, "own stack");
    raise(SIGUSR1);
    check_that(0 < stack_used && stack_used <= STACK_MOST, "a few KiB of stack");
}
