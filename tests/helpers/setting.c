// Sets the clock of the program that this library is loaded into, which goes on from there.
//
//     cc -O2 -shared -fPIC -D_GNU_SOURCE -o setting.so setting.c
//     SETTING_TO=SECONDS LD_PRELOAD=./setting.so PROGRAM ..
//
// The time of day begins so many seconds after 1970 began. The other clocks aren't changed.
#include <dlfcn.h>
#include <stdlib.h>
#include <time.h>

int clock_gettime(clockid_t clock, struct timespec *now) {
    static int (*next)(clockid_t, struct timespec *);
    static struct timespec first;
    if (!next) next = (int (*)(clockid_t, struct timespec *))dlsym(RTLD_NEXT, "clock_gettime");
    int done = next(clock, now);
    const char *to = getenv("SETTING_TO");
    if (done || clock != CLOCK_REALTIME || !to) return done;
    if (!first.tv_sec) first = *now;
    now->tv_sec += atoll(to) - first.tv_sec;
    return 0;
}
