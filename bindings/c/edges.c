/* The library from C: published vectors, marked examples, refusals, damaged images. Every slice ends at a page that may not be touched, so
 * that a read or write past its end stops the program. Prints `N passed, M failed`. */
#include "test.h"

static void library(void) {
    static const char *names[] = {"CUT", "FORM", "DEEP", "EXTRA", "TYPE", "TWICE", "KEYS", "ROLE", "OWED", "CLASH", "CLOCK", "ROOM",
                                  "RANGE",
                                  "SILENT", "LONG", "PHASE", "FULL", "UNKNOWN", "LOOSE", "SEAL", "SPENT", "STALE"};
    uint32_t size = 7;
    check("layout", pothatch_layout() == POTHATCH_LAYOUT);
    check("size of a ledger", pothatch_size('L', &size) == 0 && size == sizeof(struct pothatch_ledger));
    check("size of a proxy", pothatch_size('P', &size) == 0 && size == sizeof(struct pothatch_proxy));
    check("size of a pledge", pothatch_size('G', &size) == 0 && size == sizeof(struct pothatch_pledge));
    check("size of a request", pothatch_size('Q', &size) == 0 && size == sizeof(struct pothatch_request));
    check("size of a configuration", pothatch_size('C', &size) == 0 && size == sizeof(struct pothatch_configuration));
    check("size of reports", pothatch_size('R', &size) == 0 && size == sizeof(struct pothatch_reports));
    check("size of a frame key", pothatch_size('K', &size) == 0 && size == sizeof(struct pothatch_frame_key));
    check("size of a node", pothatch_size('N', &size) == 0 && size == sizeof(struct pothatch_node));
    check("size of a serial image", pothatch_size('S', &size) == 0 && size == sizeof(struct pothatch_serial));
    check("size of a replay's report", pothatch_size('T', &size) == 0 && size == sizeof(struct pothatch_replayed));
    check("no such kind", pothatch_size('X', &size) == POTHATCH_RANGE && size == 0);
    for (uint32_t n = 1; n <= 22; n++) {
        uint8_t *name = lent("........", 8), want[8] = {0};
        memcpy(want, names[n - 1], strlen(names[n - 1]));
        check(names[n - 1], pothatch_refusal_name(n, name, 8) == 0 && !memcmp(name, want, 8));
    }
    uint8_t *name = lent("........", 8);
    check("no name for 0", pothatch_refusal_name(0, name, 8) == POTHATCH_RANGE && all_zero(name, 8));
    name = lent("........", 8);
    check("no name for 23", pothatch_refusal_name(23, name, 8) == POTHATCH_RANGE && all_zero(name, 8));
    name = lent(".......", 7);
    check("a name's length", pothatch_refusal_name(13, name, 7) == POTHATCH_RANGE && !memcmp(name, ".......", 7));
}

/* RFC 3610, section 8, packet vector 1 */
static void cipher(void) {
    static const uint8_t key[] = {0xC0, 0xC1, 0xC2, 0xC3, 0xC4, 0xC5, 0xC6, 0xC7, 0xC8, 0xC9, 0xCA, 0xCB, 0xCC, 0xCD, 0xCE, 0xCF};
    static const uint8_t nonce[] = {0x00, 0x00, 0x00, 0x03, 0x02, 0x01, 0x00, 0xA0, 0xA1, 0xA2, 0xA3, 0xA4, 0xA5};
    static const uint8_t data[] = {0x00, 0x01, 0x02, 0x03, 0x04, 0x05, 0x06, 0x07};
    static const uint8_t text[] = {0x08, 0x09, 0x0A, 0x0B, 0x0C, 0x0D, 0x0E, 0x0F, 0x10, 0x11, 0x12, 0x13,
                                   0x14, 0x15, 0x16, 0x17, 0x18, 0x19, 0x1A, 0x1B, 0x1C, 0x1D, 0x1E};
    static const uint8_t want[] = {0x58, 0x8C, 0x97, 0x9A, 0x61, 0xC6, 0x63, 0xD2, 0xF0, 0x66, 0xD0, 0xC2, 0xC0, 0xF9, 0x89, 0x80,
                                   0x6D, 0x5F, 0x6B, 0x61, 0xDA, 0xC3, 0x84, 0x17, 0xE8, 0xD1, 0x2C, 0xFD, 0xF9, 0x26, 0xE0};
    uint8_t *k = lent(key, 16), *n = lent(nonce, 13), *a = lent(data, 8), *m = lent(text, 23), *dst = lent(NULL, 31), was[31];
    uint64_t length = 99;
    check("RFC 3610 vector 1", pothatch_seal(k, 16, n, 13, a, 8, m, 23, dst, 31, &length) == 0 && length == 31 && !memcmp(dst, want, 31));
    uint8_t *plain = lent(NULL, 23);
    check("it opens", pothatch_unseal(k, 16, n, 13, a, 8, dst, 31, plain, 23, &length) == 0 && length == 23 && !memcmp(plain, text, 23));
    memset(plain, 0xEE, 23);
    memcpy(was, plain, 23);
    for (int i = 0; i < 31; i++) {
        dst[i] ^= 1;
        length = 99;
        check("damaged", pothatch_unseal(k, 16, n, 13, a, 8, dst, 31, plain, 23, &length) == POTHATCH_SEAL && length == 0 &&
              !memcmp(plain, was, 23));
        dst[i] ^= 1;
    }
    memset(dst, 0xEE, 31);
    memcpy(was, dst, 31);
    length = 99;
    check("key of 15", pothatch_seal(k, 15, n, 13, a, 8, m, 23, dst, 31, &length) == POTHATCH_RANGE && length == 0 && !memcmp(dst, was,
          31));
    length = 99;
    check("nonce of 12", pothatch_seal(k, 16, n, 12, a, 8, m, 23, dst, 31, &length) == POTHATCH_RANGE && length == 0 && !memcmp(dst,
          was, 31));
    length = 99;
    check("no room", pothatch_seal(k, 16, n, 13, a, 8, m, 23, dst, 30, &length) == POTHATCH_ROOM && length == 0 && !memcmp(dst, was, 31));
    check("nothing, from NULL", pothatch_seal(k, 16, n, 13, NULL, 0, NULL, 0, dst, 31, &length) == 0 && length == 8);
}

static void ledger(void) {
    uint8_t *memory = lent(NULL, 27), *l = lent(NULL, 16), board[8] = {0, 0, 0, 0, 0, 0, 0, 1}, was[16], held[27];
    uint16_t address = 0;
    uint64_t count = 99;
    check("open", pothatch_ledger_open(0x1000, 3, memory, 27, l, 16) == 0 && l[0] == 'L' && l[1] == 1);
    check("first, size, left", pothatch_u16(l + 2) == 0x1000 && pothatch_u16(l + 4) == 3 && pothatch_u16(l + 6) == 3);
    for (uint16_t i = 0; i < 3; i++) {
        board[7] = (uint8_t)i;
        check("grant", pothatch_ledger_grant(l, 16, memory, 27, board, 8, &address) == 0 && address == 0x1000 + i);
    }
    board[7] = 1;
    check("the same again", pothatch_ledger_grant(l, 16, memory, 27, board, 8, &address) == 0 && address == 0x1001);
    check("none is free", pothatch_ledger_free(l, 16, &count) == 0 && count == 0);
    memcpy(was, l, 16);
    memcpy(held, memory, 27);
    board[7] = 9;
    address = 7;
    check("FULL", pothatch_ledger_grant(l, 16, memory, 27, board, 8, &address) == POTHATCH_FULL && address == 0);
    address = 7;
    check("UNKNOWN", pothatch_ledger_give_back(l, 16, memory, 27, board, 8, &address) == POTHATCH_UNKNOWN && address == 0);
    address = 7;
    check("ROOM", pothatch_ledger_grant(l, 16, memory, 26, board, 8, &address) == POTHATCH_ROOM && address == 0);
    address = 7;
    check("board of 7", pothatch_ledger_grant(l, 16, memory, 27, board, 7, &address) == POTHATCH_RANGE && address == 0);
    address = 7;
    check("struct of 15", pothatch_ledger_grant(l, 15, memory, 27, board, 8, &address) == POTHATCH_RANGE && address == 0);
    check("nothing changed", !memcmp(l, was, 16) && !memcmp(memory, held, 27));
    for (int i = 0; i < 2; i++) {
        l[i] ^= 3;
        check("other kind or layout", pothatch_ledger_grant(l, 16, memory, 27, board, 8, &address) == POTHATCH_RANGE);
        check("not counted either", pothatch_ledger_free(l, 16, &count) == POTHATCH_RANGE && count == 0);
        l[i] ^= 3;
    }
    board[7] = 0;
    check("give back", pothatch_ledger_give_back(l, 16, memory, 27, board, 8, &address) == 0 && address == 0x1000);
    check("one is free", pothatch_ledger_free(l, 16, &count) == 0 && count == 1);
    board[7] = 9;
    check("granted again", pothatch_ledger_grant(l, 16, memory, 27, board, 8, &address) == 0 && address == 0x1000);
    check("size 0", pothatch_ledger_open(0x1000, 0, memory, 27, l, 16) == POTHATCH_RANGE && all_zero(l, 16));
    check("an emptied ledger", pothatch_ledger_grant(l, 16, memory, 27, board, 8, &address) == POTHATCH_RANGE);
    memset(l, 0xEE, 16);
    memcpy(was, l, 16);
    check("no struct to open", pothatch_ledger_open(0x1000, 3, memory, 27, l, 15) == POTHATCH_RANGE && !memcmp(l, was, 16));
}

static void proxy(void) {
    static const uint8_t key[] = {0, 1, 2, 3, 4, 5, 6, 7, 8, 9, 10, 11, 12, 13, 14, 15}, interface[] = {0x02, 0x11, 0x22, 0x33, 0x44,
        0x55, 0x66, 0x77};
    static const uint8_t token[] = {0xca, 0xfe, 0, 0, 0, 0, 0, 0, 0};
    /* docs/TOOLS.md, proxy: the body that two implementations agree on */
    static const uint8_t want[] = {0x00, 0x00, 0x00, 0x00, 0x7d, 0xf7, 0xc5, 0xc9, 0x2f, 0x52, 0x99, 0x6e, 0x1b, 0x92, 0x76, 0x0d,
                                   0x29, 0xc9, 0xf3, 0x62, 0x4c, 0xbd, 0xd9, 0x45, 0x48, 0xf2, 0x3c, 0xd4, 0x58, 0xe6, 0xb3};
    uint8_t *p = lent(NULL, 26), *k = lent(key, 16), *i = lent(interface, 8), *t = lent(token, 9), *dst = lent(NULL, 31), *w =
        lent(NULL, 21);
    uint8_t was[26], held[31];
    check("make", pothatch_proxy_make(k, 16, p, 26) == 0 && p[0] == 'P' && p[1] == 1 && !memcmp(p + 2, key, 16) && all_zero(p + 18, 8));
    check("the key in use", pothatch_proxy_set_key(p, 26, k, 16) == POTHATCH_RANGE);
    check("issue", pothatch_proxy_issue(p, 26, i, 8, 5683, t, 2, dst, 31) == 0 && !memcmp(dst, want, 31) && pothatch_u64(p + 18) == 1);
    check("judge", pothatch_proxy_judge(p, 26, dst, 31, w, 21) == 0 && w[0] == 'G' && w[1] == 1 && !memcmp(w + 2, interface, 8));
    check("port and token", pothatch_u16(w + 10) == 5683 && w[12] == 2 && w[13] == 0xca && w[14] == 0xfe && all_zero(w + 15, 6));
    memcpy(was, p, 26);
    memcpy(held, dst, 31);
    check("token of 9", pothatch_proxy_issue(p, 26, i, 8, 5683, t, 9, dst, 31) == POTHATCH_RANGE);
    check("no room", pothatch_proxy_issue(p, 26, i, 8, 5683, t, 2, dst, 30) == POTHATCH_ROOM);
    check("interface of 7", pothatch_proxy_issue(p, 26, i, 7, 5683, t, 2, dst, 31) == POTHATCH_RANGE);
    check("nothing changed", !memcmp(p, was, 26) && !memcmp(dst, held, 31));
    dst[30] ^= 1;
    check("SEAL", pothatch_proxy_judge(p, 26, dst, 31, w, 21) == POTHATCH_SEAL && all_zero(w, 21));
    memset(w, 0xEE, 21);
    check("TYPE", pothatch_proxy_judge(p, 26, dst, 30, w, 21) == POTHATCH_TYPE && all_zero(w, 21));
    memset(w, 0xEE, 21);
    check("no struct to judge into", pothatch_proxy_judge(p, 26, dst, 31, w, 20) == POTHATCH_RANGE && w[0] == 0xEE && w[20] == 0xEE);
    dst[30] ^= 1;
    p[25] = 65;
    check("STALE", pothatch_proxy_judge(p, 26, dst, 31, w, 21) == POTHATCH_STALE && all_zero(w, 21));
    memset(p + 18, 0, 8);
    p[21] = 1; /* 4294967296 */
    check("SPENT", pothatch_proxy_issue(p, 26, i, 8, 5683, t, 2, dst, 31) == POTHATCH_SPENT);
    p[25] = 1;
    check("more than all", pothatch_proxy_issue(p, 26, i, 8, 5683, t, 2, dst, 31) == POTHATCH_RANGE);
    check("key of 15", pothatch_proxy_make(k, 15, p, 26) == POTHATCH_RANGE && all_zero(p, 26));
    check("an emptied proxy", pothatch_proxy_judge(p, 26, dst, 31, w, 21) == POTHATCH_RANGE);
}

/* What a reading answers: the number, and the struct filled or all 0. */
static uint32_t read_as(int request, uint8_t form, uint8_t reading, const char *digits, struct pothatch_configuration *c) {
    uint64_t n, size = request ? sizeof(struct pothatch_request) : sizeof *c;
    uint8_t *payload = hex(digits, &n), *out = lent(NULL, size);
    memset(out, 0xEE, size);
    uint32_t r = request ? pothatch_request_read(form, reading, payload, n, out, size)
                         : pothatch_configuration_read(form, reading, payload, n, out, size);
    check(digits, r ? all_zero(out, size) : out[0] == (request ? 'Q' : 'C') && out[1] == 1);
    if (!request && c) memcpy(c, out, size);
    return r;
}

static void marked_examples(void) {
    static const struct { int request; uint8_t form, reading; const char *digits; uint32_t number; } marked[] = {
        {1, 0, 0, "A1 05 42 CA FE", 0}, {1, 0, 0, "B8 01 05 42 CA FE", 0}, {1, 0, 1, "B8 01 05 42 CA FE", POTHATCH_LOOSE},
        {1, 0, 0, "A0", POTHATCH_OWED}, {1, 0, 0, "A1 01 01", 0}, {1, 1, 0, "A1 01 01", POTHATCH_OWED},
        {1, 0, 0, "A1 01 02", POTHATCH_ROLE},
        {1, 0, 0, "", POTHATCH_CUT}, {1, 0, 0, "A1 05 42 CA FE 00", POTHATCH_EXTRA}, {1, 0, 0, "BF 05 42 CA FE FF", POTHATCH_FORM},
        {1, 0, 0, "A2 05 42 CA FE 05 42 CA FE", POTHATCH_TWICE}, {0, 0, 0, "A0", 0}, {0, 0, 0, "A1 03 82 42 12 34 19 0E 10", 0},
        {0, 0, 0, "A1 03 81 41 12", 0}, {0, 0, 0, "A1 02 80", POTHATCH_KEYS}, {0, 1, 0, "A1 02 80", 0},
        {0, 0, 0, "A1 02 81 01", POTHATCH_TYPE},
        {0, 0, 0, "A1 18 63 F6", 0}, {0, 0, 0, "A1 18 63 81 81 81 81 81 81 00", 0},
        {0, 0, 0, "A1 18 63 81 81 81 81 81 81 81 00", POTHATCH_DEEP}, {0, 2, 0, "A0", POTHATCH_RANGE}, {0, 0, 2, "A0", POTHATCH_RANGE},
    };
    for (size_t i = 0; i < sizeof marked / sizeof *marked; i++)
        check(marked[i].digits,
              read_as(marked[i].request, marked[i].form, marked[i].reading, marked[i].digits, NULL) == marked[i].number);
    struct pothatch_configuration c;
    uint8_t *out = lent(NULL, sizeof c), longest[300] = {0xA0};
    memset(out, 0xEE, sizeof c);
    check("LONG", pothatch_configuration_read(0, 0, longest, 257, out, sizeof c) == POTHATCH_LONG && all_zero(out, sizeof c));
    memset(out, 0xEE, sizeof c);
    check("another struct's size", pothatch_configuration_read(0, 0, longest, 1, out, sizeof c - 1) == POTHATCH_RANGE);
    check("not touched", all(out, sizeof c, 0xEE));
}

/* Configurations are written and merged. */
static void configurations(void) {
    struct pothatch_configuration c, d;
    uint8_t *out = lent(NULL, sizeof c), *dst = lent(NULL, 9), was[sizeof c];
    uint64_t length = 7;
    read_as(0, 0, 0, "A1 03 82 42 12 34 19 0E 10", &c);
    check("address", c.address.report == POTHATCH_TAKEN && c.address.bytes[0] == 0x12 && pothatch_u64(c.address.lease) == 3600);
    memcpy(was, &c, sizeof was);
    memset(dst, 0xEE, 9);
    check("written", pothatch_configuration_write(0, POTHATCH_LEND_IN(&c), dst, 9, &length) == 0 && length == 9);
    check("as it was read", !memcmp(dst, "\xA1\x03\x82\x42\x12\x34\x19\x0E\x10", 9) && !memcmp(was, &c, sizeof was));
    memset(dst, 0xEE, 9);
    length = 7;
    check("no room", pothatch_configuration_write(0, POTHATCH_LEND_IN(&c), dst, 8, &length) == POTHATCH_ROOM);
    check("destination as it was", length == 0 && all(dst, 9, 0xEE));
    c.address.report = 3;
    length = 7;
    check("no report", pothatch_configuration_write(0, POTHATCH_LEND_IN(&c), dst, 9, &length) == POTHATCH_RANGE && length == 0);
    c.address.report = POTHATCH_TAKEN;
    c.address.bytes[0] = c.address.bytes[1] = 0xFF;
    length = 7;
    check("no address", pothatch_configuration_write(0, POTHATCH_LEND_IN(&c), dst, 9, &length) == POTHATCH_RANGE && all(dst, 9, 0xEE));
    memset(&c, 0, sizeof c);
    check("an emptied object", pothatch_configuration_write(0, POTHATCH_LEND_IN(&c), dst, 9, &length) == POTHATCH_RANGE);
    read_as(0, 0, 0, "A2 03 81 42 12 34 05 42 CA FE", &c);
    read_as(0, 0, 0, "A1 03 82 42 56 78 0A", &d);
    check("merged", pothatch_configuration_merge(POTHATCH_LEND_IN(&c), POTHATCH_LEND_IN(&d), out, sizeof c) == 0);
    memcpy(&c, out, sizeof c);
    check("the later address", c.address.bytes[0] == 0x56 && pothatch_u64(c.address.lease) == 10 && c.network.bytes[1] == 0xFE);
    read_as(0, 1, 0, "A1 03 82 42 12 34 01", &d);
    check("an hour is no second", pothatch_configuration_merge(POTHATCH_LEND_IN(&c), POTHATCH_LEND_IN(&d), out, sizeof c) == POTHATCH_RANGE);
    d.layout = 2;
    check("another layout", pothatch_configuration_merge(POTHATCH_LEND_IN(&c), POTHATCH_LEND_IN(&d), out, sizeof c) == POTHATCH_RANGE);
    check("nothing is left", all_zero(out, sizeof c));
}

/* Whether the call on the node that was refused left it and its results as it must. */
static void kept(const char *what, uint32_t number, uint32_t want, const uint8_t *node, const uint8_t *was) {
    check(what, number == want && !memcmp(node, was, sizeof(struct pothatch_node)));
}

#define NODE sizeof(struct pothatch_node)
#define ANSWER "A2 02 82 01 50 000102030405060708090A0B0C0D0E0F 03 82 42 12 34 01"
#define UPDATE "A1 02 83 02 03 50 101112131415161718191A1B1C1D1E1F"

/* Starts of a new node into 4 bytes, into 7, and again while it waits: a refusal changes no byte, a success those of the request alone. */
static void starts(uint8_t version) {
    uint8_t was[NODE], *n = lent(NULL, NODE), *dst = lent(NULL, 7), *network = lent("\xCA\xFE", 2);
    uint64_t length = 7;
    check("make", pothatch_node_make(version, 0, 1, network, 2, n, NODE) == 0);
    memcpy(was, n, NODE);
    memset(dst, 0xEE, 7);
    kept("no room", pothatch_node_start(n, NODE, 1000, 10000, dst + 3, 4, &length), POTHATCH_ROOM, n, was);
    check("destination as it was", length == 0 && all(dst, 7, 0xEE));
    check("start", pothatch_node_start(n, NODE, 1000, 10000, dst, 7, &length) == 0 && length == 5);
    check("the request and two bytes as they were", !memcmp(dst, "\xA1\x05\x42\xCA\xFE\xEE\xEE", 7));
    memcpy(was, n, NODE);
    memset(dst, 0xEE, 7);
    kept("start while waiting", pothatch_node_start(n, NODE, 2000, 10000, dst, 7, &length), POTHATCH_PHASE, n, was);
    check("destination as it was", length == 0 && all(dst, 7, 0xEE));
}

/* From the making to the join answer. */
static void joining(uint8_t *n) {
    uint8_t was[NODE], *dst = lent(NULL, 5), *r = lent(NULL, 17), *network = lent("\xCA\xFE", 2), *answer;
    uint32_t told = 7;
    uint64_t length = 7, len;
    answer = hex(ANSWER, &len);
    check("make", pothatch_node_make(0, 0, 1, network, 2, n, NODE) == 0 && n[0] == 'N' && n[1] == 1);
    memcpy(was, n, NODE);
    kept("poll of an idle node", pothatch_node_poll(n, NODE, 5, &told), POTHATCH_PHASE, n, was);
    check("no answer", told == 0);
    kept("a short timeout", pothatch_node_start(n, NODE, 5, 9999, dst, 5, &length), POTHATCH_RANGE, n, was);
    check("start", pothatch_node_start(n, NODE, 5, 10000, dst, 5, &length) == 0 && length == 5);
    check("the request", !memcmp(dst, "\xA1\x05\x42\xCA\xFE", 5));
    memcpy(was, n, NODE);
    memset(r, 0xEE, 17);
    kept("time goes back", pothatch_node_answer(n, NODE, 4, answer, len, r, 17), POTHATCH_CLOCK, n, was);
    check("no reports", all_zero(r, 17));
    memset(r, 0xEE, 17);
    kept("cut", pothatch_node_answer(n, NODE, 6, answer, len - 1, r, 17), POTHATCH_CUT, n, was);
    check("no reports", all_zero(r, 17));
    memset(r, 0xEE, 17);
    kept("another struct's size", pothatch_node_answer(n, NODE, 6, answer, len, r, 16), POTHATCH_RANGE, n, was);
    check("not touched", all(r, 17, 0xEE));
    kept("an update", pothatch_node_update(n, NODE, 6, answer, len, r, 17), POTHATCH_PHASE, n, was);
    check("answer", pothatch_node_answer(n, NODE, 6, answer, len, r, 17) == 0 && r[0] == 'R' && r[2] == POTHATCH_TAKEN);
    check("holds", pothatch_node_holds(n, NODE, 1005, &told) == 0 && told == POTHATCH_HOLDS);
    check("lapsed", pothatch_node_holds(n, NODE, 1006, &told) == 0 && told == POTHATCH_LAPSED);
}

/* The keys of the answer, and those of an update. */
static void frames(uint8_t *n) {
    uint8_t was[NODE], *k = lent(NULL, 33), *r = lent(NULL, 17), *update;
    uint32_t told = 7;
    uint64_t len;
    update = hex(UPDATE, &len);
    memcpy(was, n, NODE);
    memset(k, 0xEE, 33);
    kept("pending", pothatch_node_send(n, NODE, POTHATCH_DATA, k, 33), POTHATCH_SILENT, n, was);
    check("no key", all_zero(k, 33));
    memset(k, 0xEE, 33);
    kept("type 2", pothatch_node_receive(n, NODE, 2, 1, k, 33), POTHATCH_RANGE, n, was);
    check("no key", all_zero(k, 33));
    kept("identifier 0", pothatch_node_verified(n, NODE, POTHATCH_DATA, 0, &told), POTHATCH_RANGE, n, was);
    check("receive", pothatch_node_receive(n, NODE, POTHATCH_DATA, 1, k, 33) == 0 && k[0] == 'K' && k[2] == 1 && all_zero(k + 29, 4));
    check("switched", pothatch_node_verified(n, NODE, POTHATCH_DATA, 1, &told) == 0 && told == POTHATCH_SWITCHED);
    check("kept", pothatch_node_verified(n, NODE, POTHATCH_DATA, 1, &told) == 0 && told == POTHATCH_KEPT);
    check("send", pothatch_node_send(n, NODE, POTHATCH_DATA, k, 33) == 0 && pothatch_u32(k + 29) == 0);
    check("send again", pothatch_node_send(n, NODE, POTHATCH_BEACON, k, 33) == 0 && pothatch_u32(k + 29) == 1);
    check("update", pothatch_node_update(n, NODE, 2000, update, len, r, 17) == 0);
    memcpy(was, n, NODE);
    update[3] = 1;
    kept("shares an identifier", pothatch_node_update(n, NODE, 2000, update, len, r, 17), POTHATCH_CLASH, n, was);
}

/* Buffers that are no images, nodes that no call may be handed, and a making that is refused. */
static void misfits(uint8_t *n) {
    struct pothatch_node *p = (struct pothatch_node *)(void *)n;
    uint8_t *network = lent("\xCA\xFE", 2);
    uint32_t told = 7;
    for (size_t i = 0; i < 2; i++) {
        n[i] ^= 3;
        check("other kind or layout", pothatch_node_poll(n, NODE, 3000, &told) == POTHATCH_RANGE);
        n[i] ^= 3;
    }
    check("a byte short", pothatch_node_poll(n, NODE - 1, 3000, &told) == POTHATCH_RANGE);
    p->attempt.phase = 4;
    check("no phase", pothatch_node_holds(n, NODE, 3000, &told) == POTHATCH_RANGE && told == 0);
    p->attempt.phase = POTHATCH_JOINED;
    p->attempt.count = 5;
    check("a node that no call may be handed", pothatch_node_holds(n, NODE, 3000, &told) == POTHATCH_RANGE);
    memset(n, 0xEE, NODE);
    check("role 2", pothatch_node_make(0, 2, 1, network, 2, n, NODE) == POTHATCH_RANGE && all_zero(n, NODE));
    check("an emptied node", pothatch_node_poll(n, NODE, 0, &told) == POTHATCH_RANGE);
    check("no network, from NULL", pothatch_node_make(1, 1, 0, NULL, 0, n, NODE) == 0);
    check("none is read", pothatch_node_make(1, 1, 0, network, 2, n, NODE) == 0 && all_zero((const uint8_t *)&p->network, 18));
}

static void serial(void) {
    uint8_t *s = lent(NULL, 6), *store = lent(NULL, 256), *part = lent("\xA1\x05\x42\xCA\xFE", 5), *out = lent(NULL, 296), was[256];
    memset(s, 0xEE, 6);
    check("a byte short", pothatch_serial_reset(s, 5) == POTHATCH_RANGE && all(s, 6, 0xEE));
    check("reset", pothatch_serial_reset(s, 6) == 0 && s[0] == 'S' && s[1] == 1 && all_zero(s + 2, 4));
    check("a short store", pothatch_serial_part(s, 6, store + 1, 255, part, 2) == POTHATCH_RANGE && all_zero(s + 2, 4));
    check("a part", pothatch_serial_part(s, 6, store, 256, part, 2) == 0 && pothatch_u16(s + 2) == 2);
    check("nothing, from NULL", pothatch_serial_part(s, 6, store, 256, NULL, 0) == 0 && pothatch_u16(s + 2) == 2);
    check("the rest", pothatch_serial_part(s, 6, store, 256, part + 2, 3) == 0 && !memcmp(store, part, 5) && all_zero(store + 5, 251));
    check("end", pothatch_serial_end_request(s, 6, store, 256, 0, 0, out, 296) == 0 && out[0] == 'Q' && s[5] == 1);
    check("PHASE", pothatch_serial_end_request(s, 6, store, 256, 0, 0, out, 296) == POTHATCH_PHASE && all_zero(out, 296));
    check("reset again", pothatch_serial_reset(s, 6) == 0 && all_zero(s + 2, 4));
    memset(out, 0xEE, 296);
    check("nothing came", pothatch_serial_end_request(s, 6, store, 256, 0, 0, out, 296) == POTHATCH_CUT && all_zero(out, 296));
    check("the end's mark stays", s[5] == 1);
    pothatch_serial_reset(s, 6);
    for (int i = 0; i < 51; i++) pothatch_serial_part(s, 6, store, 256, part, 5);
    memcpy(was, store, 256);
    check("LONG", pothatch_serial_part(s, 6, store, 256, part, 2) == POTHATCH_LONG && !memcmp(store, was, 256));
    check("marked, not counted", s[4] == 1 && pothatch_u16(s + 2) == 255);
    check("LONG until a reset", pothatch_serial_part(s, 6, store, 256, NULL, 0) == POTHATCH_LONG);
    s[4] = 2;
    check("no mark", pothatch_serial_part(s, 6, store, 256, part, 5) == POTHATCH_RANGE);
}

static void replays(void) {
    uint64_t n;
    uint8_t *trace = hex("01 00 02 CAFE 0000000000000000000000000000 02 0000000000000000 00002710 06 0000000000002710 05 01 01 05 01", &n);
    uint8_t *node = lent(NULL, 878), *out = lent(NULL, 251);
    memset(node, 0xEE, 878);
    memset(out, 0xEE, 251);
    check("replay", pothatch_replay(trace, n, node, 878, out, 251) == 0 && node[0] == 'N' && out[0] == 'T');
    struct pothatch_replayed *r = (struct pothatch_replayed *)(void *)out;
    check("stopped at 44", r->stopped == 1 && pothatch_u64(r->place) == 44);
    check("records", pothatch_u64(r->kinds[0]) == 1 && pothatch_u64(r->kinds[4]) == 1);
    check("refusals", pothatch_u64(r->refusals[POTHATCH_SILENT - 1]) == 1);
    memset(node, 0xEE, 878);
    check("no node", pothatch_replay(NULL, 0, node, 878, out, 251) == 0 && all_zero(node, 878) && r->stopped == 0);
    memset(out, 0xEE, 251);
    check("another struct's size", pothatch_replay(trace, n, node, 878, out, 250) == POTHATCH_RANGE && all(out, 251, 0xEE));
}

int main(void) {
    library();
    cipher();
    ledger();
    proxy();
    marked_examples();
    configurations();
    starts(POTHATCH_DRAFT);
    starts(POTHATCH_PUBLISHED);
    uint8_t *node = lent(NULL, NODE);
    joining(node);
    frames(node);
    misfits(node);
    serial();
    replays();
    return summary();
}
