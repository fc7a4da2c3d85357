/* Grants kept in an SQLite file, each committed with synchronous=FULL before the next: the peer of `ledger --journal`. Prints microseconds a grant.
   Build: see bench/journal.sh. */
#include <sqlite3.h>
#include <stdint.h>
#include <stdio.h>
#include <stdlib.h>
#include <time.h>

static sqlite3 *db;
static void must(int rc) {
    if (rc != SQLITE_OK && rc != SQLITE_DONE && rc != SQLITE_ROW) fprintf(stderr, "sqlite: %s\n", sqlite3_errmsg(db)), exit(1);
}
static double now(void) {
    struct timespec t;
    clock_gettime(CLOCK_MONOTONIC, &t);
    return t.tv_sec * 1e6 + t.tv_nsec / 1e3;
}

int main(int argc, char **argv) {
    if (argc != 4) return fprintf(stderr, "journal FILE delete|wal GRANTS\n"), 1;
    char mode[64];
    int grants = atoi(argv[3]);
    must(sqlite3_open(argv[1], &db));
    snprintf(mode, sizeof mode, "pragma journal_mode=%s; pragma synchronous=FULL", argv[2]);
    must(sqlite3_exec(db, mode, 0, 0, 0));
    must(sqlite3_exec(db, "create table held (address integer primary key, board blob unique)", 0, 0, 0));
    sqlite3_stmt *own, *hold;
    must(sqlite3_prepare_v2(db, "select address from held where board = ?", -1, &own, 0));
    must(sqlite3_prepare_v2(db, "insert into held (board) values (?)", -1, &hold, 0));
    double t = now();
    for (int i = 0; i < grants; i++) {
        uint8_t board[8] = {0x00, 0x12, 0x4b, 0x00, 0x14, 0xb5, (uint8_t)(i >> 8), (uint8_t)i};
        must(sqlite3_bind_blob(own, 1, board, 8, SQLITE_STATIC)), must(sqlite3_step(own)), sqlite3_reset(own);
        must(sqlite3_bind_blob(hold, 1, board, 8, SQLITE_STATIC)), must(sqlite3_step(hold)), sqlite3_reset(hold);
    }
    printf("%.0f\n", (now() - t) / grants);
    return sqlite3_finalize(own), sqlite3_finalize(hold), sqlite3_close(db);
}
