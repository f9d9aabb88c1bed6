// Writes an Ogg file of about BYTES bytes on standard output: one stream, or several whose pages alternate, with
// serials from 1 on. Each packet has PACKET bytes, on a page to itself.
//
//     cc -O2 -o pages_made pages_made.c -logg && ./pages_made BYTES PACKET [STREAMS] > FILE.ogg
#include <ogg/ogg.h>
#include <stdio.h>
#include <stdlib.h>

int main(int count, char **words) {
    if (count != 3 && count != 4) return 2;
    long long left = atoll(words[1]);
    long size = atol(words[2]);
    unsigned char *bytes = malloc(size ? size : 1);
    for (long i = 0; i < size; i++) bytes[i] = (unsigned char)(i * 31);
    int streams = count == 4 ? atoi(words[3]) : 1;
    ogg_stream_state *stream = malloc(streams * sizeof *stream);
    ogg_page page;
    for (int serial = 1; serial <= streams; serial++) ogg_stream_init(&stream[serial - 1], serial);
    for (long long turn = 0; left > 0; turn++) {
        ogg_stream_state *next = &stream[turn % streams];
        long long number = turn / streams;
        ogg_packet packet = {bytes, size, number == 0, 0, number, number};
        ogg_stream_packetin(next, &packet);
        while (ogg_stream_flush(next, &page)) {
            fwrite(page.header, 1, page.header_len, stdout);
            fwrite(page.body, 1, page.body_len, stdout);
            left -= page.header_len + page.body_len;
        }
    }
    return 0;
}
