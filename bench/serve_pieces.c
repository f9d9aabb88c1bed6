// Serves ranges of a file over HTTP in the plainest way: accepts a connection, reads the head of its request, and
// sends the range that it asks for, or the whole file, in pieces of 4,096 bytes. It runs until it is killed.
//
//     cc -O2 -D_GNU_SOURCE -o serve_pieces serve_pieces.c && ./serve_pieces FILE PORT
#include <arpa/inet.h>
#include <fcntl.h>
#include <netinet/in.h>
#include <signal.h>
#include <stdio.h>
#include <stdlib.h>
#include <string.h>
#include <sys/socket.h>
#include <unistd.h>

static char piece[4096], head[8192];

// Reads until the empty line after a head, and returns whether there was one.
static int read_head(int to) {
    size_t have = 0;
    while (have < sizeof head - 1) {
        ssize_t count = read(to, head + have, sizeof head - 1 - have);
        if (count <= 0) return 0;
        have += count;
        head[have] = 0;
        if (strstr(head, "\r\n\r\n")) return 1;
    }
    return 0;
}

static int send_whole(int to, const char *bytes, size_t count) {
    while (count) {
        ssize_t sent = write(to, bytes, count);
        if (sent <= 0) return 0;
        bytes += sent;
        count -= sent;
    }
    return 1;
}

int main(int count, char **words) {
    if (count != 3) return 2;
    int file = open(words[1], O_RDONLY), listener = socket(AF_INET, SOCK_STREAM, 0), one = 1;
    long long size = lseek(file, 0, SEEK_END);
    struct sockaddr_in address = {.sin_family = AF_INET, .sin_port = htons(atoi(words[2])), .sin_addr.s_addr = htonl(INADDR_LOOPBACK)};
    signal(SIGPIPE, SIG_IGN);
    setsockopt(listener, SOL_SOCKET, SO_REUSEADDR, &one, sizeof one);
    if (file < 0 || bind(listener, (struct sockaddr *)&address, sizeof address) || listen(listener, 128)) return 1;
    for (;;) {
        int to = accept(listener, NULL, NULL);
        if (to < 0) continue;
        if (read_head(to)) {
            long long first = 0, last = size - 1;
            char *range = strstr(head, "\r\nRange: bytes=");
            if (range) sscanf(range, "\r\nRange: bytes=%lld-%lld", &first, &last);
            int length = sprintf(piece, "HTTP/1.1 %s\r\nContent-Length: %lld\r\nConnection: close\r\n\r\n",
                                 range ? "206 Partial Content" : "200 OK", last - first + 1);
            int well = send_whole(to, piece, length);
            while (well && first <= last) {
                long long left = last - first + 1;
                ssize_t have = pread(file, piece, left < 4096 ? left : 4096, first);
                well = have > 0 && send_whole(to, piece, have);
                first += have;
            }
        }
        close(to);
    }
}
