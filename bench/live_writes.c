// The calls alone by which many hear what is live: accepts listeners, and has for each no more than one read, a write of what
// a new one gets at once (the head of a response and 64 KiB), and a write of BYTES once a second. It runs until it is killed.
//
//     cc -O2 -D_GNU_SOURCE -o live_writes live_writes.c && ./live_writes PORT BYTES
#include <arpa/inet.h>
#include <netinet/in.h>
#include <netinet/tcp.h>
#include <signal.h>
#include <stdint.h>
#include <stdlib.h>
#include <string.h>
#include <sys/epoll.h>
#include <sys/socket.h>
#include <sys/timerfd.h>
#include <unistd.h>

#define MOST 20000
static const char HEAD[] = "HTTP/1.1 200 OK\r\nContent-Type: application/ogg\r\nCache-Control: no-store\r\nConnection: close\r\n\r\nOggS";
static char burst[sizeof HEAD - 1 + 65536], piece[1 << 20];
// Whether this file descriptor listens.
static char listens[MOST];

int main(int count, char **words) {
    if (count != 3) return 2;
    int listener = socket(AF_INET, SOCK_STREAM | SOCK_NONBLOCK, 0), all = epoll_create1(0), one = 1, most = 0;
    int timer = timerfd_create(CLOCK_MONOTONIC, TFD_NONBLOCK);
    size_t bytes = atol(words[2]);
    struct sockaddr_in address = {.sin_family = AF_INET, .sin_port = htons(atoi(words[1])), .sin_addr.s_addr = htonl(INADDR_LOOPBACK)};
    struct itimerspec second = {{1, 0}, {1, 0}};
    struct epoll_event event = {.events = EPOLLIN, .data.fd = listener}, events[1024];
    signal(SIGPIPE, SIG_IGN);
    setsockopt(listener, SOL_SOCKET, SO_REUSEADDR, &one, sizeof one);
    if (bytes > sizeof piece || bind(listener, (struct sockaddr *)&address, sizeof address) || listen(listener, 4096)) return 1;
    memcpy(burst, HEAD, sizeof HEAD - 1);
    epoll_ctl(all, EPOLL_CTL_ADD, listener, &event);
    event.data.fd = timer;
    epoll_ctl(all, EPOLL_CTL_ADD, timer, &event);
    timerfd_settime(timer, 0, &second, NULL);
    for (;;) {
        int have = epoll_wait(all, events, 1024, -1);
        for (int i = 0; i < have; i++) {
            int from = events[i].data.fd;
            if (from == listener) {
                int to;
                while ((to = accept4(listener, NULL, NULL, SOCK_NONBLOCK)) >= 0) {
                    if (to >= MOST) {
                        close(to);
                        continue;
                    }
                    setsockopt(to, IPPROTO_TCP, TCP_NODELAY, &one, sizeof one);
                    event = (struct epoll_event){.events = EPOLLIN | EPOLLET, .data.fd = to};
                    epoll_ctl(all, EPOLL_CTL_ADD, to, &event);
                    if (to > most) most = to;
                }
            } else if (from == timer) {
                uint64_t passed;
                if (read(timer, &passed, sizeof passed) < 0) continue;
                for (int to = 0; to <= most; to++)
                    if (listens[to] && write(to, piece, bytes) < 0) continue;
            } else {
                char text[4096];
                if (read(from, text, sizeof text) <= 0) {
                    listens[from] = 0;
                    close(from);
                } else if (!listens[from]) {
                    listens[from] = 1;
                    if (write(from, burst, sizeof burst) < 0) continue;
                }
            }
        }
    }
}
