// Makes calls on sockets fail in the program that this library is loaded into: its receives and sends, counted from 1.
//
//     cc -O2 -shared -fPIC -D_GNU_SOURCE -o peers.so peers.c
//     PEERS_CALL=N PEERS_HOW=reset|gone|short PEERS_MET=FILE LD_PRELOAD=./peers.so PROGRAM ..
//
// The Nth call fails with ECONNRESET; or finds the peer gone, by no byte received or by EPIPE; or moves one byte. FILE
// is made once a call has been met. With PEERS_HURRY a socket that would wait for 30 seconds waits for one.
#include <dlfcn.h>
#include <errno.h>
#include <fcntl.h>
#include <stdlib.h>
#include <string.h>
#include <sys/socket.h>
#include <sys/time.h>
#include <unistd.h>

static long calls;

// What to do with the next call: null if it is an ordinary one.
static const char *met(void) {
    const char *at = getenv("PEERS_CALL"), *how = getenv("PEERS_HOW"), *file = getenv("PEERS_MET");
    calls++;
    if (!at || !how || calls != atol(at)) return NULL;
    if (file) close(open(file, O_CREAT | O_WRONLY, 0600));
    return how;
}

ssize_t recv(int file, void *bytes, size_t count, int flags) {
    static ssize_t (*next)(int, void *, size_t, int);
    if (!next) next = (ssize_t (*)(int, void *, size_t, int))dlsym(RTLD_NEXT, "recv");
    const char *how = met();
    if (!how) return next(file, bytes, count, flags);
    if (!strcmp(how, "short")) return next(file, bytes, count ? 1 : 0, flags);
    if (!strcmp(how, "gone")) return 0;
    errno = ECONNRESET;
    return -1;
}

ssize_t send(int file, const void *bytes, size_t count, int flags) {
    static ssize_t (*next)(int, const void *, size_t, int);
    if (!next) next = (ssize_t (*)(int, const void *, size_t, int))dlsym(RTLD_NEXT, "send");
    const char *how = met();
    if (!how) return next(file, bytes, count, flags);
    if (!strcmp(how, "short")) return next(file, bytes, count ? 1 : 0, flags);
    errno = strcmp(how, "gone") ? ECONNRESET : EPIPE;
    return -1;
}

int setsockopt(int file, int level, int name, const void *value, socklen_t size) {
    static int (*next)(int, int, int, const void *, socklen_t);
    if (!next) next = (int (*)(int, int, int, const void *, socklen_t))dlsym(RTLD_NEXT, "setsockopt");
    const struct timeval one = {1, 0}, *time = value;
    if (getenv("PEERS_HURRY") && level == SOL_SOCKET && (name == SO_RCVTIMEO || name == SO_SNDTIMEO) && size == sizeof one &&
        time->tv_sec == 30)
        value = &one;
    return next(file, level, name, value, size);
}
