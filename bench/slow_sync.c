// Each sync of a file takes 5 milliseconds more: for LD_PRELOAD.
//
//     cc -O2 -shared -fPIC -D_GNU_SOURCE -o slow_sync.so slow_sync.c -ldl
#include <dlfcn.h>
#include <time.h>

static int slowly(const char *name, int file) {
    int (*below)(int) = (int (*)(int))dlsym(RTLD_NEXT, name);
    struct timespec more = {.tv_nsec = 5000000};
    nanosleep(&more, 0);
    return below(file);
}

int fsync(int file) { return slowly("fsync", file); }
int fdatasync(int file) { return slowly("fdatasync", file); }
