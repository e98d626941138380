/* The processor's time of this thread, which other work on the machine does not lengthen. */
#define _GNU_SOURCE
#include <time.h>

double thread_seconds(void)
{
    struct timespec now;
    clock_gettime(CLOCK_THREAD_CPUTIME_ID, &now);
    return (double)now.tv_sec + 1e-9 * (double)now.tv_nsec;
}
