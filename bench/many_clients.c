// Asks a server on 127.0.0.1 for a resource over many connections at once, for some seconds: each connection asks once,
// reads its answer to the end, and another one takes its place. Slow ones beside them take 1 kB a second, and ask once.
// Prints the requests that were answered, the MB of their content, the seconds by the clock, the server's CPU seconds in
// user and system mode, the most MB of memory that it had, and the milliseconds that an answer took in the middle and at
// worst. The places of ranges are random and the same in each run.
//
//     cc -O2 -D_GNU_SOURCE -o many_clients many_clients.c && ./many_clients PID PORT TARGET SIZE LENGTH COUNT SECONDS SLOW
//
// SIZE is the length of the resource; if LENGTH is 0 all of it is asked for, without a range.
#include "server.h"
#include <arpa/inet.h>
#include <netinet/in.h>
#include <sys/epoll.h>
#include <sys/socket.h>

struct one {
    int socket;
    int slow, asked;
    char head[2048];
    size_t head_length; // until the head is whole
    int whole;
    long long got;
    double begun;
};

static char piece[1 << 18];
static const char *target;
static int port, epoll;
static long long size, length, content, answered;
static double *took;
static size_t took_room;
static unsigned long long seed = 1;

static void begin(struct one *it) {
    struct sockaddr_in to = {.sin_family = AF_INET, .sin_port = htons(port), .sin_addr.s_addr = htonl(INADDR_LOOPBACK)};
    it->socket = socket(AF_INET, SOCK_STREAM | SOCK_NONBLOCK, 0);
    if (it->socket < 0) fail("no socket: ulimit -n");
    int small = 4096;
    if (it->slow) setsockopt(it->socket, SOL_SOCKET, SO_RCVBUF, &small, sizeof small);
    it->asked = it->whole = 0;
    it->head_length = 0;
    it->got = 0;
    it->begun = clock_seconds();
    if (connect(it->socket, (struct sockaddr *)&to, sizeof to) && errno != EINPROGRESS) fail("no connection");
    struct epoll_event event = {.events = EPOLLOUT, .data.ptr = it};
    if (epoll_ctl(epoll, EPOLL_CTL_ADD, it->socket, &event)) fail("epoll");
}

static void ask(struct one *it) {
    char text[512];
    int count;
    if (length) {
        seed = seed * 6364136223846793005ull + 1442695040888963407ull;
        long long from = (long long)((seed >> 20) % (unsigned long long)(size - length + 1));
        count = snprintf(text, sizeof text, "GET %s HTTP/1.1\r\nHost: a\r\nRange: bytes=%lld-%lld\r\nConnection: close\r\n\r\n", target, from,
                         from + length - 1);
    } else {
        count = snprintf(text, sizeof text, "GET %s HTTP/1.1\r\nHost: a\r\nConnection: close\r\n\r\n", target);
    }
    if (send(it->socket, text, count, MSG_NOSIGNAL) != count) fail("a request wasn't sent");
    struct epoll_event event = {.events = it->slow ? 0 : EPOLLIN, .data.ptr = it};
    if (epoll_ctl(epoll, EPOLL_CTL_MOD, it->socket, &event)) fail("epoll");
    it->asked = 1;
}

// What came, after the head.
static void take(struct one *it, const char *bytes, size_t count) {
    while (!it->whole && count) {
        if (it->head_length == sizeof it->head) fail("a long head");
        it->head[it->head_length++] = *bytes++;
        count--;
        if (it->head_length >= 4 && !memcmp(it->head + it->head_length - 4, "\r\n\r\n", 4)) {
            it->whole = 1;
            if (strncmp(it->head + 9, length ? "206" : "200", 3)) fail("another status");
        }
    }
    it->got += count;
}

static void end(struct one *it) {
    if (!it->whole || it->got != (length ? length : size)) fail("an answer of another length");
    if ((size_t)answered == took_room) {
        took_room = took_room ? 2 * took_room : 1024;
        took = realloc(took, took_room * sizeof *took);
        if (!took) fail("memory");
    }
    took[answered++] = clock_seconds() - it->begun;
    close(it->socket);
    begin(it);
}

static int order(const void *a, const void *b) {
    double x = *(const double *)a, y = *(const double *)b;
    return x < y ? -1 : x > y;
}

int main(int count, char **words) {
    if (count != 9) fail("PID PORT TARGET SIZE LENGTH COUNT SECONDS SLOW");
    pid = words[1];
    port = atoi(words[2]);
    target = words[3];
    size = atoll(words[4]);
    length = atoll(words[5]);
    int fast = atoi(words[6]), slow = atoi(words[8]);
    double seconds = atof(words[7]);
    epoll = epoll_create1(0);
    struct one *all = calloc(fast + slow, sizeof *all);
    double user, system, user_after, system_after;
    cpu_seconds(&user, &system);
    double start = clock_seconds(), tick = start;
    for (int it = 0; it < fast + slow; it++) {
        all[it].slow = it >= fast;
        begin(&all[it]);
    }
    static struct epoll_event events[1024];
    while (clock_seconds() - start < seconds) {
        int ready = epoll_wait(epoll, events, 1024, 50);
        for (int at = 0; at < ready; at++) {
            struct one *it = events[at].data.ptr;
            if (!it->asked) {
                ask(it);
                continue;
            }
            if (it->slow) continue;
            ssize_t got = recv(it->socket, piece, sizeof piece, 0);
            if (got > 0) {
                content += got;
                take(it, piece, got);
            } else if (got == 0) {
                end(it);
            } else if (errno != EAGAIN) {
                fail("a connection broke");
            }
        }
        if (clock_seconds() - tick >= 1) {
            tick += 1;
            for (int it = fast; it < fast + slow; it++)
                if (all[it].asked && recv(all[it].socket, piece, 1024, 0) < 0 && errno != EAGAIN) fail("a slow connection broke");
        }
    }
    double clock = clock_seconds() - start;
    cpu_seconds(&user_after, &system_after);
    if (!answered) took = calloc(1, sizeof *took);
    qsort(took, answered, sizeof *took, order);
    printf("%lld %.1f %.3f %.3f %.3f %.1f %.1f %.1f\n", answered, content / 1e6, clock, user_after - user, system_after - system, most_memory() / 1024.0,
           1000 * took[answered / 2], 1000 * took[answered ? answered - 1 : 0]);
    return 0;
}
