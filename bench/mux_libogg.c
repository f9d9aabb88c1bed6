// Runs the feed on standard input by libogg: what `kudzuturret mux` and `kudzuturret record` do, without their rules. It
// trusts its input, so each command is kept. Without words it writes the pages to standard output, and a reply for each
// command to standard error. With `quiet` it writes the pages of many commands at once, and no replies. With two words it
// records into FILE, MOST commands to a commit, by the calls of the system that `record` makes, and writes the replies to
// standard output.
//
//     cc -O2 -o mux_libogg mux_libogg.c -logg && ./mux_libogg < FEED > PAGES
//     ./mux_libogg quiet < FEED > PAGES
//     ./mux_libogg FILE MOST < FEED > REPLIES
#include <fcntl.h>
#include <inttypes.h>
#include <ogg/ogg.h>
#include <stdint.h>
#include <stdio.h>
#include <stdlib.h>
#include <string.h>
#include <unistd.h>

enum { MOST_STREAMS = 64, MOST_PAYLOAD = 33554432, TOGETHER = 65536 };

static struct { uint32_t serial; ogg_int64_t position; ogg_stream_state state; } streams[MOST_STREAMS];
static int count;
static unsigned char *pages;
static size_t length, room;

// The file that is recorded, if one is: how much of it is committed, and how much is written.
static int file = -1;
static off_t committed, written;

static void fail(const char *why) {
    fprintf(stderr, "mux_libogg: %s\n", why);
    exit(1);
}

static uint64_t number(const unsigned char **at, int bytes) {
    uint64_t value = 0;
    for (int i = 0; i < bytes; i++) value |= (uint64_t)(*at)[i] << (8 * i);
    *at += bytes;
    return value;
}

// Writes the page that is in `pages`, with a byte 0 after it. The first byte of what isn't committed is 0 until it is.
static void write_page(size_t size) {
    if (written == committed) pages[0] = 0;
    pages[size] = 0;
    if (pwrite(file, pages, size + 1, written) != (ssize_t)size + 1) fail("writing failed");
    written += size;
}

// Syncs what is written, sets its first byte, and syncs once more.
static void commit(void) {
    if (fsync(file) || pwrite(file, "O", 1, committed) != 1 || fsync(file)) fail("committing failed");
    committed = written;
}

static void append(const ogg_page *page) {
    size_t more = page->header_len + page->body_len;
    if (length + more + 1 > room) {
        room = 2 * (length + more + 1);
        pages = realloc(pages, room);
        if (!pages) fail("no memory");
    }
    memcpy(pages + length, page->header, page->header_len);
    memcpy(pages + length + page->header_len, page->body, page->body_len);
    if (file >= 0) write_page(more);
    else length += more;
}

// All that the stream holds, as pages that are cut only at 255 lacing values.
static void flush(int i) {
    ogg_page page;
    while (ogg_stream_flush_fill(&streams[i].state, &page, 255 * 255 + 1)) append(&page);
}

static void put(int i, const unsigned char *bytes, uint32_t size, ogg_int64_t position) {
    ogg_packet packet = {0};
    packet.packet = (unsigned char *)bytes;
    packet.bytes = size;
    packet.granulepos = position;
    if (ogg_stream_packetin(&streams[i].state, &packet)) fail("packetin");
    streams[i].position = position;
}

static int find(uint32_t serial) {
    for (int i = 0; i < count; i++)
        if (streams[i].serial == serial) return i;
    fail("no such stream");
    return 0;
}

static void begin(const unsigned char *at) {
    if (number(&at, 1)) fail("a Skeleton");
    for (int i = 0; i < count; i++) ogg_stream_clear(&streams[i].state);
    count = number(&at, 2);
    if (count > MOST_STREAMS) fail("too many streams");
    const unsigned char *others[MOST_STREAMS];
    int left[MOST_STREAMS];
    for (int i = 0; i < count; i++) {
        streams[i].serial = number(&at, 4);
        if (ogg_stream_init(&streams[i].state, streams[i].serial)) fail("no memory");
        left[i] = number(&at, 2) - 1;
        uint32_t size = number(&at, 4);
        put(i, at, size, 0);
        flush(i);
        at += size;
        others[i] = at;
        for (int k = 0; k < left[i]; k++) {
            size = number(&at, 4);
            at += size;
        }
        at += number(&at, 2);
        at += 8 + 8 + 8 + 4 + 1;
    }
    for (int i = 0; i < count; i++) {
        for (int k = 0; k < left[i]; k++) {
            uint32_t size = number(&others[i], 4);
            put(i, others[i], size, 0);
            others[i] += size;
        }
        flush(i);
    }
}

static void put_entries(const unsigned char *at) {
    int entries = number(&at, 2), last = -1;
    for (int k = 0; k < entries; k++) {
        int i = find(number(&at, 4));
        if (last >= 0 && last != i) flush(last);
        ogg_int64_t position = number(&at, 8);
        uint32_t size = number(&at, 4);
        put(i, at, size, position);
        at += size;
        last = i;
    }
    if (last >= 0) flush(last);
}

// libogg has no page without packets to give, so this one is put together from the parts of its page.
static void end(const unsigned char *at) {
    int i = find(number(&at, 4));
    unsigned char head[27] = "OggS\0\4";
    ogg_page page = {head, 27, NULL, 0};
    for (int k = 0; k < 8; k++) head[6 + k] = streams[i].position >> (8 * k);
    for (int k = 0; k < 4; k++) head[14 + k] = streams[i].serial >> (8 * k);
    for (int k = 0; k < 4; k++) head[18 + k] = streams[i].state.pageno >> (8 * k);
    ogg_page_checksum_set(&page);
    append(&page);
}

// The line of a commit, and with it those that wait for it in the buffer of standard output.
static void reply_kept(uint64_t kept) {
    if (printf("kept %" PRIu64 " %" PRIu64 "\n", kept, (uint64_t)committed) < 0 || fflush(stdout)) fail("replying failed");
}

// Writes the pages that were made to standard output.
static void write_pages(void) {
    for (size_t done = 0; done < length;) {
        ssize_t took = write(1, pages + done, length - done);
        if (took <= 0) fail("writing failed");
        done += took;
    }
    length = 0;
}

int main(int words, char **word) {
    unsigned char head[5], *payload = malloc(MOST_PAYLOAD);
    static char buffer[65536], lines[16384];
    uint64_t kept = 0, held = 0, end_of_file = 0, most = 1;
    char line[64];
    setvbuf(stdin, buffer, _IOFBF, sizeof buffer);
    setvbuf(stdout, lines, _IOFBF, sizeof lines);
    if (!payload) fail("no memory");
    int quiet = words == 2 && strcmp(word[1], "quiet") == 0;
    if (words == 3) {
        most = strtoull(word[2], NULL, 10);
        file = open(word[1], O_CREAT | O_RDWR, 0666);
        if (file < 0) fail("the file can't be opened");
    }
    while (fread(head, 1, 5, stdin) == 5) {
        const unsigned char *at = head + 1;
        uint32_t size = number(&at, 4);
        if (size > MOST_PAYLOAD || fread(payload, 1, size, stdin) != size) fail("a bad record");
        if (file >= 0) length = 0;
        switch (head[0]) {
        case 1: begin(payload); break;
        case 2: put_entries(payload); break;
        case 3: end(payload); break;
        default: fail("a bad kind");
        }
        if (quiet) {
            if (length >= TOGETHER) write_pages();
            continue;
        }
        held++;
        if (file >= 0 && held < most) {
            if (printf("held %" PRIu64 "\n", kept + held) < 0) fail("replying failed");
            continue;
        }
        kept += held;
        held = 0;
        if (file >= 0) {
            commit();
            reply_kept(kept);
            continue;
        }
        end_of_file += length;
        write_pages();
        int bytes = snprintf(line, sizeof line, "kept %" PRIu64 " %" PRIu64 "\n", kept, end_of_file);
        if (write(2, line, bytes) != bytes) fail("replying failed");
    }
    if (quiet) write_pages();
    if (held) {
        commit();
        kept += held;
        reply_kept(kept);
    }
    return 0;
}
