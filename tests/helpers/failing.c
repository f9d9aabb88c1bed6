// Makes device calls fail in the program that this library is loaded into: writes, syncs and cuts of files, counted
// from 1.
//
//     cc -O2 -shared -fPIC -D_GNU_SOURCE -o failing.so failing.c
//     FAILING_CALL=N FAILING_HOW=io|full|interrupted|short|torn|stop [FAILING_ON=1] FAILING_MET=FILE LD_PRELOAD=./failing.so PROGRAM ..
//
// The Nth call, or with FAILING_ON each from the Nth on, fails with EIO, ENOSPC or EINTR and does nothing; or moves
// half of the bytes; or writes half of them and fails; or isn't made, since the program ends before it. FILE is made
// once a call has been met. With FAILING_OUTPUT=N the Nth write to standard output fails with EIO and does nothing.
// With FAILING_LOG=FILE each device call that is made is a line of FILE: "write COUNT AT", "sync" (fdatasync), "sync whole"
// (fsync, also of a folder), or "cut SIZE".
#include <dlfcn.h>
#include <errno.h>
#include <fcntl.h>
#include <stdarg.h>
#include <stdio.h>
#include <stdlib.h>
#include <string.h>
#include <unistd.h>

static long calls;

// What to do with the next call: null if it is an ordinary one.
static const char *met(void) {
    const char *at = getenv("FAILING_CALL"), *how = getenv("FAILING_HOW"), *on = getenv("FAILING_ON");
    if (!at || !how) return NULL;
    calls++;
    if (calls != atol(at) && !(on && calls > atol(at))) return NULL;
    const char *file = getenv("FAILING_MET");
    if (file) close(open(file, O_CREAT | O_WRONLY, 0600));
    if (!strcmp(how, "stop")) _exit(9);
    return how;
}

// Adds a line to the log, if there is one.
static void tell(const char *format, ...) {
    const char *log = getenv("FAILING_LOG");
    if (!log) return;
    int file = open(log, O_CREAT | O_WRONLY | O_APPEND, 0600);
    va_list words;
    va_start(words, format);
    vdprintf(file, format, words);
    va_end(words);
    close(file);
}

static int number_of(const char *how) {
    return !strcmp(how, "full") ? ENOSPC : !strcmp(how, "interrupted") ? EINTR : EIO;
}

ssize_t pwrite(int file, const void *bytes, size_t count, off_t at) {
    static ssize_t (*next)(int, const void *, size_t, off_t);
    if (!next) next = (ssize_t (*)(int, const void *, size_t, off_t))dlsym(RTLD_NEXT, "pwrite");
    const char *how = met();
    if (!how) {
        tell("write %zu %lld\n", count, (long long)at);
        return next(file, bytes, count, at);
    }
    if (!strcmp(how, "short")) return next(file, bytes, count > 1 ? count / 2 : count, at);
    if (!strcmp(how, "torn") && count > 1 && next(file, bytes, count / 2, at) < 0) return -1;
    errno = number_of(how);
    return -1;
}

// A sync by the system's call, which is this line of the log.
static int synced(int (*call)(int), int file, const char *line) {
    const char *how = met();
    if (!how || !strcmp(how, "short")) {
        tell("%s\n", line);
        return call(file);
    }
    errno = number_of(how);
    return -1;
}

int fsync(int file) {
    static int (*next)(int);
    if (!next) next = (int (*)(int))dlsym(RTLD_NEXT, "fsync");
    return synced(next, file, "sync whole");
}

int fdatasync(int file) {
    static int (*next)(int);
    if (!next) next = (int (*)(int))dlsym(RTLD_NEXT, "fdatasync");
    return synced(next, file, "sync");
}

int ftruncate(int file, off_t size) {
    static int (*next)(int, off_t);
    if (!next) next = (int (*)(int, off_t))dlsym(RTLD_NEXT, "ftruncate");
    const char *how = met();
    if (!how || !strcmp(how, "short")) {
        tell("cut %lld\n", (long long)size);
        return next(file, size);
    }
    errno = number_of(how);
    return -1;
}

ssize_t write(int file, const void *bytes, size_t count) {
    static ssize_t (*next)(int, const void *, size_t);
    static long written;
    if (!next) next = (ssize_t (*)(int, const void *, size_t))dlsym(RTLD_NEXT, "write");
    const char *at = getenv("FAILING_OUTPUT");
    if (!at || file != 1 || ++written != atol(at)) return next(file, bytes, count);
    errno = EIO;
    return -1;
}
