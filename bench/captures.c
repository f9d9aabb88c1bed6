// Counts the capture patterns in standard input by memchr, from one byte `O` to the next. This is the least time that
// `salvage` could take on random bytes.
//
//     cc -O2 -D_GNU_SOURCE -o captures captures.c && ./captures < FILE
#include <stdio.h>
#include <string.h>
#include <unistd.h>

enum { PIECE = 1 << 20 };

int main(void) {
    static char room[PIECE + 3];
    size_t kept = 0, count = 0;
    for (;;) {
        ssize_t took = read(0, room + kept, PIECE);
        if (took <= 0) break;
        size_t length = kept + took;
        for (char *at = room; (at = memchr(at, 'O', room + length - at)) && room + length - at >= 4; at++)
            count += !memcmp(at, "OggS", 4);
        kept = length < 3 ? length : 3;
        memmove(room, room + length - kept, kept);
    }
    printf("%zu\n", count);
    return 0;
}
