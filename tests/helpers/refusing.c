// Refuses memory to the program that this library is loaded into: requests are counted from 1, once main has begun.
//
//     cc -O2 -shared -fPIC -D_GNU_SOURCE -o refusing.so refusing.c
//     REFUSING_CALL=N [REFUSING_ON=1] REFUSING_MET=FILE LD_PRELOAD=./refusing.so PROGRAM ..
//
// The Nth request, or with REFUSING_ON each from the Nth on, gets no memory. FILE is made once a request has been refused.
#include <dlfcn.h>
#include <errno.h>
#include <fcntl.h>
#include <stdlib.h>
#include <unistd.h>

extern void *__libc_malloc(size_t);
extern void *__libc_calloc(size_t, size_t);
extern void *__libc_realloc(void *, size_t);
extern void *__libc_memalign(size_t, size_t);

static long calls, at;
static int on, ready;

// The first word of the environment that is asked for comes when the library is loaded, so what loads the program
// isn't refused.
__attribute__((constructor)) static void begin(void) {
    const char *number = getenv("REFUSING_CALL");
    at = number ? atol(number) : 0;
    on = getenv("REFUSING_ON") != NULL;
    ready = 1;
}

static int refused(void) {
    if (!ready || !at) return 0;
    calls++;
    if (calls != at && !(on && calls > at)) return 0;
    const char *file = getenv("REFUSING_MET");
    if (file) close(open(file, O_CREAT | O_WRONLY, 0600));
    errno = ENOMEM;
    return 1;
}

void *malloc(size_t size) { return refused() ? NULL : __libc_malloc(size); }
void *calloc(size_t count, size_t size) { return refused() ? NULL : __libc_calloc(count, size); }
void *realloc(void *old, size_t size) { return refused() ? NULL : __libc_realloc(old, size); }
void *aligned_alloc(size_t align, size_t size) { return refused() ? NULL : __libc_memalign(align, size); }
int posix_memalign(void **out, size_t align, size_t size) {
    if (refused()) return ENOMEM;
    *out = __libc_memalign(align, size);
    return *out ? 0 : ENOMEM;
}
