// Does what `links`, `split` and `salvage` do, over libogg's sync layer, for a file of one stream on standard input.
// It counts the file's pages and prints the listing; or it checks every page and then writes them, as `split` first
// finds where the pages end; or it prints where each page stands.
//
//     cc -O2 -o split_libogg split_libogg.c -logg && ./split_libogg links|split|salvage < FILE.ogg
#include <inttypes.h>
#include <ogg/ogg.h>
#include <stdint.h>
#include <stdio.h>
#include <string.h>
#include <unistd.h>

enum { PIECE = 65536 };

// Goes through the pages, and writes each, or prints where it stands. Returns their number.
static uint64_t walk(int copies, int lists, uint64_t *end, int *serial, int *ended) {
    ogg_sync_state sync;
    ogg_page page;
    uint64_t count = 0;
    *end = 0;
    ogg_sync_init(&sync);
    for (;;) {
        int found = ogg_sync_pageout(&sync, &page);
        if (found > 0) {
            uint64_t size = page.header_len + page.body_len;
            *serial = ogg_page_serialno(&page);
            *ended = ogg_page_eos(&page);
            if (copies) {
                fwrite(page.header, 1, page.header_len, stdout);
                fwrite(page.body, 1, page.body_len, stdout);
            }
            if (lists) printf("%" PRIu64 " %" PRIu64 "\n", *end, size);
            count++;
            *end += size;
            continue;
        }
        char *room = ogg_sync_buffer(&sync, PIECE);
        ssize_t took = read(0, room, PIECE);
        if (took <= 0) break;
        ogg_sync_wrote(&sync, took);
    }
    ogg_sync_clear(&sync);
    return count;
}

int main(int count, char **words) {
    static char room[PIECE];
    uint64_t pages, end;
    int serial = 0, ended = 0;
    if (count != 2) return 2;
    setvbuf(stdout, room, _IOFBF, sizeof room);
    if (!strcmp(words[1], "salvage")) {
        walk(0, 1, &end, &serial, &ended);
        return 0;
    }
    pages = walk(0, 0, &end, &serial, &ended);
    if (!strcmp(words[1], "split")) {
        if (lseek(0, 0, SEEK_SET)) return 1;
        walk(1, 0, &end, &serial, &ended);
        return 0;
    }
    printf("committed %" PRIu64 "\nlink 0 0 %" PRIu64 " 1\n", end, end);
    printf("stream %d %" PRIu64 " %" PRIu64 " %s\n", serial, end, pages, ended ? "ended" : "open");
    return 0;
}
