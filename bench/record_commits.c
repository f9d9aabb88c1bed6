/* Commits packets: record_commits plain|sqlite FILE COUNT BYTES GROUP. record.sh measures it beside `record`.
 *
 * plain: makes the calls of the system that `record` makes: a write for each page, a sync, one byte written, a sync. It
 * writes as many bytes as the pages of `record` have, without a checksum.
 * sqlite: writes a row for each packet, with GROUP rows in a transaction. */
#include <fcntl.h>
#include <sqlite3.h>
#include <stdio.h>
#include <stdlib.h>
#include <string.h>
#include <unistd.h>

static void fail(const char *what) {
    perror(what);
    exit(1);
}

// A line for each packet. Those of a group are written together, after its commit, as `record` does.
static void reply(int count, long long end, int is_last) {
    if ((is_last ? printf("kept %d %lld\n", count, end) : printf("held %d\n", count)) < 0) fail("reply");
    if (is_last && fflush(stdout)) fail("reply");
}

static void plain(const char *path, int count, int bytes, int group) {
    int size = 27 + bytes / 255 + 1 + bytes;
    char *page = calloc(1, size + 1);
    int file = open(path, O_CREAT | O_RDWR, 0666);
    off_t end = 0, at = 0;
    if (file < 0 || !page) fail(path);
    for (int n = 0; n < count; n++) {
        memset(page + 28, n * 31 % 256, bytes);
        if (pwrite(file, page, size, at + 1) != size) fail("write");
        at += size;
        int is_last = (n + 1) % group == 0 || n + 1 == count;
        if (is_last) {
            if (fsync(file) || pwrite(file, "O", 1, end) != 1 || fsync(file)) fail("commit");
            end = at;
        }
        reply(n + 1, end, is_last);
    }
}

static void run(sqlite3 *db, const char *text) {
    if (sqlite3_exec(db, text, 0, 0, 0) != SQLITE_OK) {
        fprintf(stderr, "%s: %s\n", text, sqlite3_errmsg(db));
        exit(1);
    }
}

static void sqlite(const char *path, int count, int bytes, int group) {
    char *packet = malloc(bytes);
    sqlite3 *db;
    sqlite3_stmt *insert;
    if (!packet || sqlite3_open(path, &db) != SQLITE_OK) fail(path);
    run(db, "PRAGMA journal_mode=WAL");
    run(db, "PRAGMA synchronous=FULL");
    run(db, "CREATE TABLE packets(position INTEGER PRIMARY KEY, packet BLOB)");
    if (sqlite3_prepare_v2(db, "INSERT INTO packets VALUES(?, ?)", -1, &insert, 0) != SQLITE_OK) fail("prepare");
    for (int n = 0; n < count; n++) {
        if (n % group == 0) run(db, "BEGIN");
        memset(packet, n * 31 % 256, bytes);
        sqlite3_bind_int(insert, 1, n);
        sqlite3_bind_blob(insert, 2, packet, bytes, SQLITE_STATIC);
        if (sqlite3_step(insert) != SQLITE_DONE) fail("insert");
        sqlite3_reset(insert);
        int is_last = (n + 1) % group == 0 || n + 1 == count;
        if (is_last) run(db, "COMMIT");
        reply(n + 1, n + 1, is_last);
    }
    sqlite3_finalize(insert);
    sqlite3_close(db);
}

int main(int argc, char **argv) {
    if (argc != 6) return 2;
    int count = atoi(argv[3]), bytes = atoi(argv[4]), group = atoi(argv[5]);
    if (!strcmp(argv[1], "plain")) plain(argv[2], count, bytes, group);
    else sqlite(argv[2], count, bytes, group);
    return 0;
}
