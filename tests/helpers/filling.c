// Makes the device that a program writes to run full, for the program that this library is loaded into: from a call on
// each write, sync, cut and making of a file fails, until files were unlinked.
//
//     cc -O2 -shared -fPIC -D_GNU_SOURCE -o filling.so filling.c
//     FILLING_CALL=N FILLING_GOING=COUNT FILLING_MET=FILE LD_PRELOAD=./filling.so PROGRAM ..
//
// The calls are counted from 1. From the Nth on each fails with ENOSPC and does nothing, until COUNT files whose names
// end in .ogg were unlinked. FILE is made once a call has failed. A file is made by a call that must make it (O_EXCL).
#include <dlfcn.h>
#include <errno.h>
#include <fcntl.h>
#include <stdarg.h>
#include <stdlib.h>
#include <string.h>
#include <unistd.h>

static long calls, gone;

// Whether the next call fails.
static int is_full(void) {
    const char *at = getenv("FILLING_CALL"), *going = getenv("FILLING_GOING"), *met = getenv("FILLING_MET");
    if (!at || !going) return 0;
    calls++;
    if (calls < atol(at) || gone >= atol(going)) return 0;
    int (*make)(const char *, int, ...) = (int (*)(const char *, int, ...))dlsym(RTLD_NEXT, "open");
    if (met) close(make(met, O_CREAT | O_WRONLY, 0600));
    errno = ENOSPC;
    return 1;
}

#define NEXT(name) ((__typeof__(name) *)dlsym(RTLD_NEXT, #name))

ssize_t pwrite(int file, const void *bytes, size_t count, off_t at) {
    return is_full() ? -1 : NEXT(pwrite)(file, bytes, count, at);
}

ssize_t pwrite64(int file, const void *bytes, size_t count, off64_t at) {
    return is_full() ? -1 : NEXT(pwrite64)(file, bytes, count, at);
}

int fsync(int file) { return is_full() ? -1 : NEXT(fsync)(file); }

int fdatasync(int file) { return is_full() ? -1 : NEXT(fdatasync)(file); }

int ftruncate(int file, off_t size) { return is_full() ? -1 : NEXT(ftruncate)(file, size); }

int ftruncate64(int file, off64_t size) { return is_full() ? -1 : NEXT(ftruncate64)(file, size); }

int unlink(const char *path) {
    size_t length = strlen(path);
    int result = NEXT(unlink)(path);
    if (result == 0 && length > 4 && !strcmp(path + length - 4, ".ogg")) gone++;
    return result;
}

// The mode follows if the call makes a file.
#define OPENED(name)                                                                                                   \
    int name(const char *path, int flags, ...) {                                                                       \
        va_list words;                                                                                                 \
        va_start(words, flags);                                                                                        \
        mode_t mode = flags & O_CREAT ? va_arg(words, mode_t) : 0;                                                     \
        va_end(words);                                                                                                 \
        if ((flags & O_EXCL) && is_full()) return -1;                                                                  \
        return NEXT(name)(path, flags, mode);                                                                          \
    }

OPENED(open)
OPENED(open64)
