/* Every member of each struct gets, through the library, a value that is nowhere else in it, and is read by its C name: so the header's
 * places are the library's. A member of one byte is found by two answers that differ in it alone. Prints `N passed, M failed`. */
#include "test.h"

/* The member holds these bytes, and they are at no other place of the struct. */
static void at(const char *name, const void *all_of, size_t size, const uint8_t *member, const char *digits) {
    const uint8_t *whole = all_of;
    uint8_t want[64];
    size_t n = unhex(digits, want), places = 0;
    for (size_t i = 0; i + n <= size; i++) places += !memcmp(whole + i, want, n);
    check(name, places == 1 && !memcmp(member, want, n));
}

/* The two structs differ in this member alone, which holds the two values. */
static void alone(const char *name, const void *a, const void *b, size_t size, const uint8_t *in_a, uint8_t before, uint8_t after) {
    const uint8_t *x = a, *y = b;
    size_t differ = 0, place = (size_t)(in_a - x);
    for (size_t i = 0; i < size; i++) differ += x[i] != y[i];
    check(name, differ == 1 && x[place] == before && y[place] == after);
}

#define AT(s, member, digits) at(#member, &(s), sizeof(s), (const uint8_t *)&(s).member, digits)
#define ALONE(a, b, member, before, after) alone(#member, &(a), &(b), sizeof(a), (const uint8_t *)&(a).member, before, after)

static struct pothatch_request request(uint8_t form, const char *digits) {
    struct pothatch_request q;
    uint8_t payload[256];
    size_t n = unhex(digits, payload);
    check(digits, pothatch_request_read(form, POTHATCH_READ_ANY, payload, n, POTHATCH_LEND(&q)) == 0);
    return q;
}

static struct pothatch_configuration configuration(uint8_t form, const char *digits) {
    struct pothatch_configuration c;
    uint8_t payload[256];
    size_t n = unhex(digits, payload);
    check(digits, pothatch_configuration_read(form, POTHATCH_READ_ANY, payload, n, POTHATCH_LEND(&c)) == 0);
    return c;
}

static struct pothatch_node node(uint8_t form, uint8_t role, const char *network) {
    struct pothatch_node n;
    uint8_t bytes[16];
    size_t len = unhex(network, bytes);
    check("make", pothatch_node_make(form, role, 1, bytes, len, POTHATCH_LEND(&n)) == 0);
    return n;
}

static struct pothatch_reports deliver(struct pothatch_node *n, int joining, uint64_t time, const char *digits) {
    struct pothatch_reports r;
    uint8_t payload[256];
    size_t len = unhex(digits, payload);
    uint32_t number = joining ? pothatch_node_answer(POTHATCH_LEND(n), time, payload, len, POTHATCH_LEND(&r))
                              : pothatch_node_update(POTHATCH_LEND(n), time, payload, len, POTHATCH_LEND(&r));
    check(digits, number == 0);
    return r;
}

static void start(struct pothatch_node *n, uint64_t time, uint64_t timeout) {
    uint8_t dst[38];
    uint64_t length;
    check("start", pothatch_node_start(POTHATCH_LEND(n), time, timeout, dst, sizeof dst, &length) == 0);
}

static void requests(void) {
    struct pothatch_request none = request(0, "A1 01 01"), q = request(0, "A3 01 01 05 43 A1A2A3 20 00"), p, o;
    AT(q, network.bytes, "A1A2A3");
    AT(q, passed, "0000000000000001");
    check("network", q.network.report == POTHATCH_TAKEN && q.network.len == 3 && none.network.report == POTHATCH_ABSENT);
    p = request(0, "A2 01 01 05 40");
    o = request(0, "A1 05 40");
    ALONE(p, o, role, 1, 0);
    ALONE(none, p, network.report, 0, 1);
    p = request(1, "A3 05 43 A1A2A3 08 86 18 B1 18 B2 F6 18 B3 18 B4 00 01 02");
    AT(p, unsupported.bytes, "18B118B2F618B318B4F6");
    check("unsupported", p.unsupported.report == 1 && p.unsupported.count == 6 && p.unsupported.len == 10 && p.faults.count == 1);
    o = request(1, "A3 05 43 A1A2A3 08 00 01 60");
    AT(o, faults.count, "0201080101");
    check("a bad list", o.unsupported.report == POTHATCH_DISCARDED && o.faults.entry[0][1] == 8 && o.faults.entry[1][1] == 1);
}

static void configurations(void) {
    struct pothatch_configuration none = configuration(0, "A0"), c, d, e;
    c = configuration(0, "A7 03 82 42 A1A2 1B B1B2B3B4B5B6B7B8 04 50 C1C2C3C4C5C6C7C8C9CACBCCCDCECFC0 05 42 D1D2 06 43 E1E2E3"
                         "20 00 21 00 22 00");
    AT(c, address.bytes, "A1A2");
    AT(c, address.lease, "B1B2B3B4B5B6B7B8");
    AT(c, jrc.bytes, "C1C2C3C4C5C6C7C8C9CACBCCCDCECFC0");
    AT(c, network.bytes, "D1D2");
    AT(c, prefix.bytes, "E1E2E3");
    AT(c, passed, "0000000000000003");
    check("lengths", c.jrc.len == 16 && c.network.len == 2 && c.prefix.len == 3 && c.address.leased == 1);
    d = configuration(0, "A1 03 81 41 00");
    ALONE(none, d, address.report, 0, 2);
    d = configuration(0, "A1 04 40");
    ALONE(none, d, jrc.report, 0, 2);
    d = configuration(0, "A1 05 40");
    ALONE(none, d, network.report, 0, 1);
    d = configuration(0, "A1 06 40");
    ALONE(none, d, prefix.report, 0, 1);
    d = configuration(0, "A1 03 81 42 0000");
    e = configuration(0, "A1 03 82 42 0000 00");
    ALONE(d, e, address.leased, 0, 1);
    c = configuration(1, "A3 02 88 18 F1 01 50 101112131415161718191A1B1C1D1E1F 48 2122232425262728"
                         "18 F2 02 50 303132333435363738393A3B3C3D3E3F 44 41424344 07 1B 5152535455565758 06 82 42 6162 41 63");
    AT(c, keys.keys[0].identifier, "F101");
    AT(c, keys.keys[0].value, "101112131415161718191A1B1C1D1E1F");
    AT(c, keys.keys[0].info_len, "082122232425262728");
    AT(c, keys.keys[1].identifier, "F202");
    AT(c, keys.keys[1].value, "303132333435363738393A3B3C3D3E3F");
    AT(c, keys.keys[1].info, "41424344");
    AT(c, rate.value, "5152535455565758");
    AT(c, blacklist.bytes, "4261624163");
    AT(c, came.entry[0], "010201070106");
    check("counts", c.keys.count == 2 && c.blacklist.count == 2 && c.blacklist.len == 5 && c.came.count == 3 && c.keys_report == 1);
    check("usage, reports", c.keys.keys[1].usage == 2 && c.rate.report == 1 && c.blacklist.report == 1 && c.keys.keys[1].info_len == 4);
    d = configuration(1, "A1 02 00");
    check("bad keys", d.keys_report == POTHATCH_DISCARDED && d.came.entry[0][1] == 2);
}

/* Key 1, then keys 2 and 1, and so on: each set's first key sends once more than the one before it. */
static void counted(struct pothatch_node *n) {
    struct pothatch_frame_key k;
    for (unsigned count = 1; count <= 8; count++) {
        uint8_t payload[200] = {0xA1, 0x02, (uint8_t)(0x80 + 2 * count)}, *p = payload + 3;
        struct pothatch_reports r;
        for (unsigned i = count; i >= 1; i--) {
            *p++ = (uint8_t)i;
            *p++ = 0x50;
            memset(p, (int)(0x40 + i), 16);
            p += 16;
        }
        uint64_t len = (uint64_t)(p - payload);
        check("a set", pothatch_node_update(POTHATCH_LEND(n), 0x7172737475767778, payload, len, POTHATCH_LEND(&r)) == 0);
        for (unsigned i = 0; i < 0x60 + count; i++) pothatch_node_send(POTHATCH_LEND(n), POTHATCH_DATA, POTHATCH_LEND(&k));
        check("its key", k.key.identifier == count && pothatch_u32(k.counter) == 0x60 + count - 1);
    }
}

static void nodes(void) {
    struct pothatch_node n = node(0, 1, "A1A2A3"), m, o;
    uint32_t due;
    start(&n, 0x5152535455565758, 12345);
    m = n;
    check("poll", pothatch_node_poll(POTHATCH_LEND(&m), 0x5152535455565758 + 12345, &due) == 0 && due == POTHATCH_DUE_SEND);
    check("attempt", m.attempt.count == 1 && pothatch_u64(m.attempt.timeout) == 24690 && m.attempt.phase == POTHATCH_WAITING);
    deliver(&n, 1, 0x6162636465666768, "A4 03 82 42 B1B2 1B B3B4B5B6B7B8B9BA 04 50 C1C2C3C4C5C6C7C8C9CACBCCCDCECFC0 05 42 D1D2"
                                       "06 43 E1E2E3");
    counted(&n);
    AT(n, received, "6162636465666768");
    AT(n, attempt.clock, "7172737475767778");
    AT(n, attempt.sent, "5152535455565758");
    AT(n, attempt.timeout, "0000000000003039");
    AT(n, address.bytes, "B1B2");
    AT(n, address.lease, "B3B4B5B6B7B8B9BA");
    AT(n, jrc.bytes, "C1C2C3C4C5C6C7C8C9CACBCCCDCECFC0");
    AT(n, network.bytes, "D1D2");
    AT(n, prefix.bytes, "E1E2E3");
    check("lengths", n.network.len == 2 && n.prefix.len == 3 && n.jrc.len == 16 && n.address.leased == 1 && n.address.report == 1);
    check("held", n.jrc.report == 1 && n.network.report == 1 && n.prefix.report == 1 && n.attempt.phase == POTHATCH_JOINED);
    for (unsigned i = 0; i < 8; i++) {
        char value[40] = "";
        for (int j = 0; j < 16; j++) sprintf(value + 2 * j, "%02X", 0x48 - i);
        AT(n, active.set.keys[i].value, value);
        check("identifier", n.active.set.keys[i].identifier == 8 - i);
        sprintf(value, "000000%02X", 0x68 - i);
        AT(n, active.counters[i], value);
    }
    check("active", n.active.set.count == 8 && n.pending.set.count == 0);
    m = node(0, 0, "A1A2A3");
    o = node(0, 1, "A1A2A3");
    ALONE(m, o, role, 0, 1);
    o = node(1, 0, "A1A2A3");
    ALONE(m, o, form, 0, 1);
    start(&o, 0, 10000);
    m = o;
    deliver(&m, 1, 0, "A0");
    ALONE(o, m, attempt.phase, 1, 2);
    deliver(&o, 1, 0, "A5 02 84 18 F1 01 50 101112131415161718191A1B1C1D1E1F 48 2122232425262728 07 1B 5152535455565758 06 82 42 6162"
                      "41 63 04 00 03 00");
    AT(o, pending.set.keys[0].identifier, "F101");
    AT(o, pending.set.keys[0].value, "101112131415161718191A1B1C1D1E1F");
    AT(o, pending.set.keys[0].info_len, "082122232425262728");
    AT(o, rate.value, "5152535455565758");
    AT(o, blacklist.bytes, "4261624163");
    AT(o, faults.entry[0], "01040103");
    check("counts", o.pending.set.count == 1 && o.blacklist.count == 2 && o.blacklist.len == 5 && o.faults.count == 2);
    check("held", o.rate.report == 1 && o.blacklist.report == 1 && o.active.set.count == 0);
}

static void reports(void) {
    struct pothatch_node n = node(1, 1, "A1"), d = node(0, 1, "A1");
    struct pothatch_reports none, r;
    start(&n, 0, 10000);
    start(&d, 0, 10000);
    none = deliver(&n, 1, 0, "A0");
    deliver(&d, 1, 0, "A0");
    r = deliver(&n, 0, 0, "A1 02 00");
    ALONE(none, r, keys, 0, 2);
    r = deliver(&n, 0, 0, "A1 03 00");
    ALONE(none, r, address, 0, 2);
    r = deliver(&n, 0, 0, "A1 04 00");
    ALONE(none, r, jrc, 0, 2);
    r = deliver(&d, 0, 0, "A1 05 40");
    ALONE(none, r, network, 0, 1);
    r = deliver(&d, 0, 0, "A1 06 40");
    ALONE(none, r, prefix, 0, 1);
    r = deliver(&n, 0, 0, "A1 06 80");
    ALONE(none, r, blacklist, 0, 1);
    r = deliver(&n, 0, 0, "A1 07 00");
    ALONE(none, r, rate, 0, 1);
    r = deliver(&n, 0, 0, "A1 20 00");
    ALONE(none, r, passed[7], 0, 1);
    struct pothatch_frame_key k;
    deliver(&n, 0, 0, "A1 02 84 18 F1 05 50 101112131415161718191A1B1C1D1E1F 48 2122232425262728");
    for (int i = 0; i < 4; i++) check("send", pothatch_node_send(POTHATCH_LEND(&n), POTHATCH_DATA, POTHATCH_LEND(&k)) == 0);
    AT(k, key.identifier, "F1");
    AT(k, key.usage, "05");
    AT(k, key.value, "101112131415161718191A1B1C1D1E1F");
    AT(k, key.info_len, "08");
    AT(k, key.info, "2122232425262728");
    AT(k, counter, "00000003");
}

/* A trace with one record of kind 1, two of kind 2 and so on to six of kind 6, and refusals of several numbers. */
static void others(void) {
    static uint8_t trace[4096];
    struct pothatch_replayed t;
    struct pothatch_node n;
    size_t len = unhex("01 00 01 CA 000000000000000000000000000000 02 0000000000000000 00002710 02 0000000000000000 00002710", trace);
    static const char *const payloads[] = {"01", "01", "A1 02 82 01 50 00000000000000000000000000000000"};
    for (int i = 0; i < 3; i++) {
        uint8_t body[256] = {0};
        size_t size = unhex(payloads[i], body);
        if (i < 2) body[0] = 0xA1;
        trace[len++] = 3;
        pothatch_put64(trace + len, 0x0123);
        pothatch_put16(trace + len + 8, (uint16_t)size);
        memcpy(trace + len + 10, body, 256);
        len += 266;
    }
    for (int i = 0; i < 4; i++) {
        trace[len++] = 4;
        pothatch_put64(trace + len, 0x0123);
        memset(trace + len + 8, 0, 258);
        len += 266;
    }
    for (int i = 0; i < 5; i++) len += unhex(i == 0 ? "05 01 01" : "05 01 00", trace + len);
    for (int i = 0; i < 6; i++) len += unhex("06 0000000000000000", trace + len);
    trace[len] = 9;
    check("replay", pothatch_replay(trace, len + 1, POTHATCH_LEND(&n), POTHATCH_LEND(&t)) == 0);
    for (unsigned i = 0; i < 6; i++) check("kinds", pothatch_u64(t.kinds[i]) == i + 1);
    for (unsigned i = 1; i <= 22; i++) {
        uint64_t want = i == POTHATCH_CUT ? 6 : i == POTHATCH_PHASE ? 1 : i == POTHATCH_RANGE ? 4 : i == POTHATCH_CLOCK ? 6 : 0;
        check("refusals", pothatch_u64(t.refusals[i - 1]) == want);
    }
    check("switches, longest", pothatch_u64(t.switches) == 1 && pothatch_u64(t.longest) == 0x0123);
    check("place", t.stopped == 1 && pothatch_u64(t.place) == len);
    uint8_t store[256], part[200] = {0};
    struct pothatch_serial s, e;
    check("reset", pothatch_serial_reset(POTHATCH_LEND(&s)) == 0);
    e = s;
    check("part", pothatch_serial_part(POTHATCH_LEND(&s), store, sizeof store, part, 171) == 0);
    ALONE(e, s, arrived[1], 0, 171);
    e = s;
    check("overrun", pothatch_serial_part(POTHATCH_LEND(&s), store, sizeof store, part, 200) == POTHATCH_LONG);
    ALONE(e, s, overrun, 0, 1);
    struct pothatch_request q;
    s = e;
    check("end", pothatch_serial_end_request(POTHATCH_LEND(&s), store, sizeof store, 0, 0, POTHATCH_LEND(&q)) != 0);
    ALONE(e, s, ended, 0, 1);
}

/* Ledger, proxy and pledge. */
static void states(void) {
    static uint8_t memory[300 * POTHATCH_PLACE];
    struct pothatch_ledger l;
    const uint8_t board[8] = {1}, id[8] = {0xA1, 0xA2, 0xA3, 0xA4, 0xA5, 0xA6, 0xA7, 0xA8}, token[3] = {0xC1, 0xC2, 0xC3};
    uint8_t key[16], body[POTHATCH_BODY];
    uint16_t address;
    check("open", pothatch_ledger_open(0x0321, 0x0105, memory, sizeof memory, POTHATCH_LEND(&l)) == 0);
    check("grant", pothatch_ledger_grant(POTHATCH_LEND(&l), memory, sizeof memory, board, 8, &address) == 0 && address == 0x0321);
    AT(l, first, "0321");
    AT(l, size, "0105");
    AT(l, left, "0104");
    AT(l, marks, "000000000000001F");
    struct pothatch_proxy p;
    struct pothatch_pledge g;
    unhex("101112131415161718191A1B1C1D1E1F", key);
    check("make", pothatch_proxy_make(key, 16, POTHATCH_LEND(&p)) == 0);
    for (int i = 0; i < 3; i++) check("issue", pothatch_proxy_issue(POTHATCH_LEND(&p), id, 8, 0xB1B2, token, 3, body, sizeof body) == 0);
    AT(p, key, "101112131415161718191A1B1C1D1E1F");
    AT(p, issued, "0000000000000003");
    check("judge", pothatch_proxy_judge(POTHATCH_LEND_IN(&p), body, sizeof body, POTHATCH_LEND(&g)) == 0);
    AT(g, interface_id, "A1A2A3A4A5A6A7A8");
    AT(g, port, "B1B2");
    AT(g, token_len, "03");
    AT(g, token, "C1C2C30000000000");
    check("heads", l.kind == 'L' && l.layout == 1 && p.kind == 'P' && p.layout == 1 && g.kind == 'G' && g.layout == 1);
}

/* The first two members of the other structs. */
static void heads(void) {
    struct pothatch_request q = request(0, "A1 01 01");
    struct pothatch_configuration c = configuration(0, "A0");
    struct pothatch_node n = node(0, 1, "A1");
    struct pothatch_serial s;
    start(&n, 0, 10000);
    struct pothatch_reports r = deliver(&n, 1, 0, "A1 02 82 01 50 00000000000000000000000000000000");
    struct pothatch_frame_key k;
    struct pothatch_replayed t;
    struct pothatch_node none;
    check("send", pothatch_node_send(POTHATCH_LEND(&n), POTHATCH_DATA, POTHATCH_LEND(&k)) == 0);
    check("reset", pothatch_serial_reset(POTHATCH_LEND(&s)) == 0);
    check("replay", pothatch_replay(NULL, 0, POTHATCH_LEND(&none), POTHATCH_LEND(&t)) == 0);
    check("objects", q.kind == 'Q' && q.layout == 1 && c.kind == 'C' && c.layout == 1 && r.kind == 'R' && r.layout == 1);
    check("states", n.kind == 'N' && n.layout == 1 && s.kind == 'S' && s.layout == 1);
    check("results", k.kind == 'K' && k.layout == 1 && t.kind == 'T' && t.layout == 1);
}

int main(void) {
    requests();
    configurations();
    nodes();
    reports();
    others();
    states();
    heads();
    return summary();
}
