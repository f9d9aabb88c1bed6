// Counts the pages of an Ogg file on standard input, and checks their checksums, by libogg's sync layer, as `test_read`
// does. Prints `pages COUNT END`.
//
//     cc -O2 -o pages_libogg pages_libogg.c -logg && ./pages_libogg < FILE.ogg
#include <inttypes.h>
#include <ogg/ogg.h>
#include <stdint.h>
#include <stdio.h>
#include <unistd.h>

enum { PIECE = 65536 };

int main(void) {
    ogg_sync_state sync;
    ogg_page page;
    uint64_t count = 0, end = 0;
    ogg_sync_init(&sync);
    for (;;) {
        int found = ogg_sync_pageout(&sync, &page);
        if (found < 0) return 1;
        if (found > 0) {
            count++;
            end += page.header_len + page.body_len;
            continue;
        }
        char *room = ogg_sync_buffer(&sync, PIECE);
        ssize_t took = read(0, room, PIECE);
        if (took < 0) return 2;
        if (took == 0) break;
        ogg_sync_wrote(&sync, took);
    }
    printf("pages %" PRIu64 " %" PRIu64 "\n", count, end);
    return 0;
}
