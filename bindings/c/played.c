/* Plays recorded calls: rust/compare writes a file of random calls with the answers of a second implementation, and this program makes each
 * of them and compares the number, every byte of what is lent, and guard bytes before each slice. Every slice ends at a page that may not
 * be touched. It runs on machines that have no Rust, as the emulated chip of chip.sh. Use: played FILE. Prints `N passed, M failed`. */
#include "test.h"

#define GUARD 16
#define MOST 16384 /* bytes of a slice */

struct slice { uint8_t *room, *at, after[MOST]; uint64_t len; };
static struct slice slices[4]; /* those that are read, then those that may be written */
static uint64_t numbers[4];
static FILE *file;

static uint64_t number(int bytes) {
    uint64_t n = 0;
    while (bytes--) n = n << 8 | (uint8_t)getc(file);
    return n;
}

/* A slice behind guard bytes; what must be in it afterwards is what is in it, or follows in the file. */
static void slice(struct slice *s, int written) {
    s->len = number(4);
    if (s->len > MOST) { fprintf(stderr, "played: a slice of %lu bytes\n", (unsigned long)s->len); exit(1); }
    if (!s->room) s->room = lent(NULL, MOST + GUARD);
    s->at = s->room + GUARD + MOST - s->len;
    memset(s->at - GUARD, 0xA5, GUARD);
    if (fread(s->at, 1, s->len, file) != s->len) exit(1);
    if (!written) memcpy(s->after, s->at, s->len);
    else if (fread(s->after, 1, s->len, file) != s->len) exit(1);
}

static int as_it_must(const struct slice *s) {
    return all(s->at - GUARD, GUARD, 0xA5) && !memcmp(s->at, s->after, s->len);
}

#define R(i) slices[i].at, slices[i].len
#define W(i) slices[reads + (i)].at, slices[reads + (i)].len

/* The functions in the order of rust/lend.rs. */
static uint32_t call(int function, int reads, uint64_t *length, uint32_t *word) {
    switch (function) {
    case 0: return pothatch_request_read(numbers[0], numbers[1], R(0), W(0));
    case 1: return pothatch_configuration_read(numbers[0], numbers[1], R(0), W(0));
    case 2: return pothatch_request_write(numbers[0], R(0), W(0), length);
    case 3: return pothatch_configuration_write(numbers[0], R(0), W(0), length);
    case 4: return pothatch_configuration_merge(R(0), R(1), W(0));
    case 5: return pothatch_node_make(numbers[0], numbers[1], numbers[2], R(0), W(0));
    case 6: return pothatch_node_start(W(0), numbers[0], numbers[1], W(1), length);
    case 7: return pothatch_node_poll(W(0), numbers[0], word);
    case 8: return pothatch_node_answer(W(0), numbers[0], R(0), W(1));
    case 9: return pothatch_node_update(W(0), numbers[0], R(0), W(1));
    case 10: return pothatch_node_holds(R(0), numbers[0], word);
    case 11: return pothatch_node_send(W(0), numbers[0], W(1));
    case 12: return pothatch_node_receive(R(0), numbers[0], numbers[1], W(0));
    case 13: return pothatch_node_verified(W(0), numbers[0], numbers[1], word);
    case 14: return pothatch_serial_reset(W(0));
    case 15: return pothatch_serial_part(W(0), W(1), R(0));
    case 16: return pothatch_serial_end_request(W(0), R(0), numbers[0], numbers[1], W(1));
    case 17: return pothatch_serial_end_configuration(W(0), R(0), numbers[0], numbers[1], W(1));
    case 18: return pothatch_replay(R(0), W(0), W(1));
    default: fprintf(stderr, "played: no function %d\n", function); exit(1);
    }
}

/* Whether the call that is next in the file leaves what the file says. */
static int play(int function) {
    int counts[3], good = 1;
    for (int i = 0; i < 3; i++) counts[i] = getc(file);
    for (int i = 0; i < counts[0]; i++) numbers[i] = number(8);
    for (int i = 0; i < counts[1] + counts[2]; i++) slice(&slices[i], i >= counts[1]);
    uint64_t want_told = number(8), length = 0x5A5A5A5A;
    uint32_t want = (uint32_t)number(4), word = 0x5A5A5A5A;
    int tells_word = function == 7 || function == 10 || function == 13;
    uint32_t got = call(function, counts[1], &length, &word);
    for (int i = 0; i < counts[1] + counts[2]; i++) good &= as_it_must(&slices[i]);
    return good && got == want && (tells_word ? word : length) == want_told;
}

int main(int argc, char **argv) {
    int function;
    file = argc == 2 ? fopen(argv[1], "rb") : NULL;
    if (!file) { fprintf(stderr, "use: played FILE\n"); return 1; }
    while ((function = getc(file)) != EOF) {
        if (play(function)) { passed++; continue; }
        if (failed++ < 3) printf("differs: call %d, function %d\n", passed + failed, function);
    }
    return summary();
}
