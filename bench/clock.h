/* The time that is measured. */
#ifndef CLOCK_H
#define CLOCK_H

/* The CPU time of this thread, in ns. */
double thread_time(void);

#endif
