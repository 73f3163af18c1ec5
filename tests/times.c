/* Times given beforehand in place of the machine's: a program that is linked with this and -Wl,--wrap=clock_gettime reads those of the
 * variable TIMES, seconds of UNIX time with a point and nine digits each and spaces between, one at a call, and the last one from then on. */
#define _POSIX_C_SOURCE 200809L
#include <stdlib.h>
#include <time.h>

int __wrap_clock_gettime(clockid_t clock, struct timespec *now);

int __wrap_clock_gettime(clockid_t clock, struct timespec *now)
{
    static const char *left;
    static struct timespec last;
    char *end;
    (void)clock;
    if (left == NULL && (left = getenv("TIMES")) == NULL)
        return -1;
    long long seconds = strtoll(left, &end, 10);
    if (end != left && *end == '.') {
        last.tv_sec = (time_t)seconds;
        last.tv_nsec = strtol(end + 1, &end, 10);
        left = end;
    }
    *now = last;
    return 0;
}
