/* Loaded before the program's own libraries, this gives the wall clock the hour in the environment's HOUR, in whole
   hours since 1970. */
#include <stdlib.h>
#include <time.h>

int clock_gettime(clockid_t clock, struct timespec *now) {
    const char *hour = getenv("HOUR");
    (void)clock;
    now->tv_sec = hour ? atoll(hour) * 3600 : 0;
    now->tv_nsec = 0;
    return 0;
}
