/* Records packets with their times: cc -O2 -o sensor examples/sensor.c, and then
 *
 *     ./sensor < LINES | ./kudzuturret record FILE --renumber
 *
 * It writes a feed of version 2 (docs/FORMATS.md): a link of one stream with a Skeleton, and then each line as a packet, which is on
 * the disk once `record` has written its `kept` line. */
#include <stdint.h>
#include <stdio.h>
#include <string.h>
#include <time.h>

static unsigned char payload[1 << 16];
static size_t length;

static void bytes(const void *data, size_t count) {
    memcpy(payload + length, data, count);
    length += count;
}

/* A number of so many bytes, least significant byte first. */
static void number(uint64_t value, int count) {
    for (; count > 0; count--, value >>= 8) payload[length++] = value & 255;
}

static void text(const char *word) {
    number(strlen(word), 2);
    bytes(word, strlen(word));
}

static void record(int kind) {
    unsigned char head[5] = {kind, length & 255, length >> 8 & 255, length >> 16 & 255, length >> 24 & 255};
    fwrite(head, 1, 5, stdout);
    fwrite(payload, 1, length, stdout);
    fflush(stdout);
    length = 0;
}

int main(void) {
    static char line[1 << 15];
    number(2, 1), record(0);
    number(1, 1), number(1000, 4), number(0, 8), number(1, 8), number(0, 8), number(1, 8);
    bytes("\0\0\0\0\0\0\0\0\0\0\0\0\0\0\0\0\0\0\0", 20);
    number(1, 2), number(1, 4), number(1, 2), number(8, 4), bytes("MySensor", 8), text("application/octet-stream");
    number(1000, 8), number(1, 8), number(0, 8), number(0, 4), number(0, 1), number(1, 2), text("Name"), text("sensor");
    record(1);
    while (fgets(line, sizeof line, stdin)) {
        struct timespec now;
        clock_gettime(CLOCK_REALTIME, &now);
        size_t count = strcspn(line, "\n");
        number(1, 2), number(1, 4), number(now.tv_sec * 1000ull + now.tv_nsec / 1000000, 8), number(count, 4);
        bytes(line, count), record(2);
    }
    number(1, 4), record(3);
    return 0;
}
