#define _POSIX_C_SOURCE 200809L
#include "clock.h"

#include <time.h>

double thread_time(void)
{
    struct timespec now;

    clock_gettime(CLOCK_THREAD_CPUTIME_ID, &now);
    return 1e9 * (double)now.tv_sec + (double)now.tv_nsec;
}
