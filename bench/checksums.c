// What else goes over the bytes of a page: `libogg` computes its checksum, `memory` reads it and adds it up, word by word.
// The page, which begins the file, is gone over TURNS times. Prints `checksum VALUE`, or `sum VALUE`.
//
//     cc -O2 -o checksums checksums.c -logg && ./checksums libogg|memory TURNS < FILE.ogg
#include <inttypes.h>
#include <ogg/ogg.h>
#include <stdint.h>
#include <stdio.h>
#include <stdlib.h>
#include <string.h>
#include <unistd.h>

enum { MOST = 65307 };

static unsigned char bytes[MOST + 8] __attribute__((aligned(64)));

int main(int count, char **words) {
    if (count != 3) return 2;
    size_t size = 0;
    for (ssize_t took; size < MOST && (took = read(0, bytes + size, MOST - size)) > 0;) size += (size_t)took;
    if (size < 27) return 2;
    long turns = strtol(words[2], NULL, 10);
    ogg_page page = {bytes, 27 + bytes[26], bytes + 27 + bytes[26], 0};
    for (int i = 0; i < bytes[26]; i++) page.body_len += bytes[27 + i];
    size_t whole = (size_t)(page.header_len + page.body_len);
    if (whole > size) return 2;
    if (strcmp(words[1], "libogg") == 0) {
        uint32_t sum = 0;
        for (long turn = 0; turn < turns; turn++) {
            ogg_page_checksum_set(&page);
            memcpy(&sum, bytes + 22, 4);
        }
        printf("checksum %" PRIu32 "\n", sum);
        return 0;
    }
    uint64_t sum = 0;
    for (long turn = 0; turn < turns; turn++) {
        for (size_t at = 0; at + 8 <= whole; at += 8) {
            uint64_t word;
            memcpy(&word, bytes + at, 8);
            sum += word;
        }
        // So that no turn is left out.
        __asm__ volatile("" ::: "memory");
    }
    printf("sum %" PRIu64 "\n", sum);
    return 0;
}
