/* The address ledger beside an SQLite table in memory with the same two rules (a board that holds an address gets it again, else the lowest free one):
   the same script of calls on both, in one run. Build: see bench/ledger.sh. */
#include <sqlite3.h>
#include <stdint.h>
#include <stdio.h>
#include <stdlib.h>
#include <string.h>
#include <time.h>

extern uint64_t ledger_play(size_t first, size_t size, uint8_t *memory, size_t memory_len, const uint8_t *script, size_t script_len);
#ifdef OTHER
/* another build of the same library, such as an earlier one */
extern uint64_t other_play(size_t first, size_t size, uint8_t *memory, size_t memory_len, const uint8_t *script, size_t script_len);
#endif

enum { FIRST = 4096, MOST = 4096, ROUNDS = 7 };
static uint8_t memory[9 * MOST], script[9 * 8 * MOST];
/* how many calls the script has, and how many of them are made before the clock starts */
static size_t calls, before;
static uint64_t seed = 13;

static uint64_t draw(uint64_t below) {
    seed ^= seed << 13, seed ^= seed >> 7, seed ^= seed << 17;
    return seed % below;
}
static double now(void) {
    struct timespec t;
    clock_gettime(CLOCK_MONOTONIC, &t);
    return t.tv_sec * 1e9 + t.tv_nsec;
}
static void board_of(size_t number, uint8_t *board) {
    /* the EUI-64s of one maker: only the last two bytes differ */
    const uint8_t maker[8] = {0x00, 0x12, 0x4b, 0x00, 0x14, 0xb5, (uint8_t)(number >> 8), (uint8_t)number};
    memcpy(board, maker, 8);
}
static void call(uint8_t kind, size_t number) {
    script[9 * calls] = kind;
    board_of(number, script + 9 * calls + 1);
    calls++;
}
static void shuffle(size_t *order, size_t n) {
    for (size_t i = 0; i < n; i++) order[i] = i;
    for (size_t i = n; i > 1; i--) {
        size_t j = draw(i), t = order[i - 1];
        order[i - 1] = order[j], order[j] = t;
    }
}
/* A shift: every board asks, in random order; then half of them give back and ask again; then all give back. With `asked` the free count after each call. */
static void shift(size_t boards, int asked) {
    static size_t order[MOST];
    calls = before = 0;
    shuffle(order, boards);
    for (size_t i = 0; i < boards; i++) {
        call(0, order[i]);
        if (asked) call(2, 0);
    }
    for (size_t i = 0; i < boards / 2; i++) {
        size_t n = draw(boards);
        call(1, n), call(0, n);
        if (asked) call(2, 0);
    }
    shuffle(order, boards);
    for (size_t i = 0; i < boards; i++) {
        call(1, order[i]);
        if (asked) call(2, 0);
    }
}
/* New boards only, in a range that is full before the clock starts: one place at its end is given back and granted to another board, over and over. */
static void nearly_full(size_t boards) {
    calls = 0, before = boards;
    for (size_t i = 0; i < boards; i++) call(0, i);
    for (size_t i = 0; i < boards; i++) call(1, boards - 1 + (i ? i : 0)), call(0, boards + i);
}

static sqlite3 *db;
static sqlite3_stmt *own, *lowest, *hold, *release, *count;
static void must(int rc) {
    if (rc != SQLITE_OK && rc != SQLITE_DONE && rc != SQLITE_ROW) fprintf(stderr, "sqlite: %s\n", sqlite3_errmsg(db)), exit(1);
}
static void open_table(size_t size) {
    must(sqlite3_open(":memory:", &db));
    must(sqlite3_exec(db, "create table place (address integer primary key, mark integer not null, board blob);"
                          "create index by_board on place (board) where mark = 1;"
                          "create index by_mark on place (address) where mark = 0; begin", 0, 0, 0));
    sqlite3_stmt *fill;
    must(sqlite3_prepare_v2(db, "insert into place values (?, 0, null)", -1, &fill, 0));
    for (size_t i = 0; i < size; i++) must(sqlite3_bind_int64(fill, 1, FIRST + i)), must(sqlite3_step(fill)), must(sqlite3_reset(fill));
    sqlite3_finalize(fill);
    must(sqlite3_prepare_v2(db, "select address from place where board = ? and mark = 1", -1, &own, 0));
    must(sqlite3_prepare_v2(db, "select min(address) from place where mark = 0", -1, &lowest, 0));
    must(sqlite3_prepare_v2(db, "update place set mark = 1, board = ? where address = ?", -1, &hold, 0));
    must(sqlite3_prepare_v2(db, "update place set mark = 0 where address = ?", -1, &release, 0));
    must(sqlite3_prepare_v2(db, "select count(*) from place where mark = 0", -1, &count, 0));
}
static void close_table(void) {
    sqlite3_finalize(own), sqlite3_finalize(lowest), sqlite3_finalize(hold), sqlite3_finalize(release), sqlite3_finalize(count), sqlite3_close(db);
}
static int64_t one(sqlite3_stmt *s, int64_t none) {
    int64_t v = none;
    if (sqlite3_step(s) == SQLITE_ROW && sqlite3_column_type(s, 0) != SQLITE_NULL) v = sqlite3_column_int64(s, 0);
    sqlite3_reset(s);
    return v;
}
static uint64_t table_play(size_t from, size_t to) {
    uint64_t sum = 0;
    for (size_t i = from; i < to; i++) {
        const uint8_t *c = script + 9 * i;
        if (c[0] == 2) {
            sum += one(count, 0);
            continue;
        }
        sqlite3_bind_blob(own, 1, c + 1, 8, SQLITE_STATIC);
        int64_t a = one(own, -1);
        if (c[0] == 1 && a >= 0) sqlite3_bind_int64(release, 1, a), must(sqlite3_step(release)), sqlite3_reset(release);
        if (c[0] == 0 && a < 0) {
            a = one(lowest, -1);
            if (a >= 0)
                sqlite3_bind_blob(hold, 1, c + 1, 8, SQLITE_STATIC), sqlite3_bind_int64(hold, 2, a), must(sqlite3_step(hold)), sqlite3_reset(hold);
        }
        sum += a < 0 ? 70000 : (uint64_t)a;
    }
    return sum;
}
typedef uint64_t play(size_t, size_t, uint8_t *, size_t, const uint8_t *, size_t);
/* The least time so far, with this round's. What is answered goes to `said`. */
static double timed(play *by, size_t size, double least, uint64_t *said) {
    memset(memory, 0, sizeof memory);
    by(FIRST, size, memory, 9 * size, script, 9 * before);
    double t = now();
    *said = by(FIRST, size, memory, 9 * size, script + 9 * before, 9 * (calls - before));
    t = now() - t;
    return t < least ? t : least;
}
static void measure(const char *name, size_t size) {
    double ours = 1e18, theirs = 1e18, others = 1e18;
    uint64_t said = 0, told = 0, other = 0;
    for (int r = 0; r < ROUNDS; r++) {
        ours = timed(ledger_play, size, ours, &said);
#ifdef OTHER
        others = timed(other_play, size, others, &other);
#else
        other = said;
#endif
        open_table(size);
        table_play(0, before);
        double t = now();
        told = table_play(before, calls);
        t = now() - t;
        if (t < theirs) theirs = t;
        close_table();
    }
    size_t n = calls - before;
    printf("| %s | %zu | %.0f | ", name, n, ours / n);
    if (others < 1e18) printf("%.0f | ", others / n);
    printf("%.0f | %.2f |%s\n", theirs / n, ours / theirs, said == told && said == other ? "" : " ANSWERS DIFFER");
}
int main(void) {
#ifdef OTHER
    printf("| script | calls | ledger, ns a call | the other build | SQLite, ns a call | ratio |\n|---|---|---|---|---|---|\n");
#else
    printf("| script | calls | ledger, ns a call | SQLite, ns a call | ratio |\n|---|---|---|---|---|\n");
#endif
    shift(600, 0), measure("a shift of 600 boards", 600);
    shift(600, 1), measure("the same, asked after every board", 600);
    shift(4096, 0), measure("4,096 boards", 4096);
    shift(4096, 1), measure("the same, asked after every board", 4096);
    nearly_full(4096), measure("new boards, 4,096 nearly full", 4096);
    return 0;
}
