// Asks a server on 127.0.0.1 for ranges of a resource, one connection after the other, and checks the status and the
// length of each answer. The places are random and the same in each run. Prints the seconds by the clock, the server's
// CPU seconds in user and system mode in that time, and the most kB of memory that the server has had. A first
// request, of one byte, is answered before the clock starts, so that the server's own start doesn't count.
//
//     cc -O2 -D_GNU_SOURCE -o serve_client serve_client.c && ./serve_client PID PORT TARGET SIZE LENGTH REQUESTS
//
// SIZE is the length of the resource; if LENGTH is 0 all of it is asked for, without a range.
#include "server.h"
#include <arpa/inet.h>
#include <netinet/in.h>
#include <sys/socket.h>

static char piece[1 << 18];

// One request: for a range, or for the whole if `length` is 0. While no server listens it is tried again, for
// `patience` seconds.
static void ask(int port, const char *target, long long size, long long first, long long length, int patience) {
    struct sockaddr_in address = {.sin_family = AF_INET, .sin_port = htons(port), .sin_addr.s_addr = htonl(INADDR_LOOPBACK)};
    double until = clock_seconds() + patience;
    int to;
    for (;;) {
        to = socket(AF_INET, SOCK_STREAM, 0);
        if (!connect(to, (struct sockaddr *)&address, sizeof address)) break;
        close(to);
        if (errno != ECONNREFUSED || clock_seconds() > until) fail("no connection");
        usleep(10000);
    }
    char head[512];
    int count = snprintf(head, sizeof head, "GET %s HTTP/1.1\r\nHost: 127.0.0.1\r\n", target);
    if (length) count += snprintf(head + count, sizeof head - count, "Range: bytes=%lld-%lld\r\n", first, first + length - 1);
    count += snprintf(head + count, sizeof head - count, "\r\n");
    if (write(to, head, count) != count) fail("the request wasn't sent");
    // The head of the answer ends within its first 4,096 bytes, which are read together.
    static char front[4097];
    size_t fronted = 0;
    long long total = 0;
    for (;;) {
        ssize_t have = read(to, piece, sizeof piece);
        if (have < 0) fail("the answer can't be read");
        if (have == 0) break;
        size_t more = 4096 - fronted < (size_t)have ? 4096 - fronted : (size_t)have;
        memcpy(front + fronted, piece, more);
        fronted += more;
        total += have;
    }
    close(to);
    front[fronted] = 0;
    char *body = memmem(front, fronted, "\r\n\r\n", 4);
    if (!body || strncmp(front, length ? "HTTP/1.1 206 " : "HTTP/1.1 200 ", 13)) fail("another status");
    if (total - (body + 4 - front) != (length ? length : size)) fail("another length");
}

int main(int count, char **words) {
    if (count != 7) return 2;
    pid = words[1];
    int port = atoi(words[2]);
    long long size = atoll(words[4]), length = atoll(words[5]);
    long requests = atol(words[6]);
    unsigned long long random = 1;
    ask(port, words[3], size, 0, 1, 60);
    double user, system, user_then, system_then, then = clock_seconds();
    cpu_seconds(&user_then, &system_then);
    for (long number = 0; number < requests; number++) {
        random = random * 6364136223846793005ULL + 1442695040888963407ULL;
        ask(port, words[3], size, length ? (long long)((random >> 16) % (size - length + 1)) : 0, length, 0);
    }
    double took = clock_seconds() - then;
    cpu_seconds(&user, &system);
    printf("%.3f %.2f %.2f %ld\n", took, user - user_then, system - system_then, most_memory());
    return 0;
}
