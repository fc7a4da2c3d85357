/* Numbers that no byte, or no two bytes, hold: none is cut off on the way, through the typed functions of pothatch_inline.h. What is
 * allowed of NULL and of overlap is tried too. Prints `N passed, M failed`. */
#include "test.h"
#include "pothatch_inline.h"

#define BEYOND(code) {(code) + (UINT64_C(1) << 8), (code) + (UINT64_C(1) << 16), (code) + (UINT64_C(1) << 32), (code) + (UINT64_C(1) << 63)}

static const uint64_t zeros[] = BEYOND(0), ones[] = BEYOND(1);

static void payloads(uint64_t wide) {
    const uint8_t payload[] = {0xA1, 0x05, 0x42, 0xCA, 0xFE};
    struct pothatch_request q = POTHATCH_REQUEST_INIT;
    struct pothatch_configuration c = POTHATCH_CONFIGURATION_INIT;
    struct pothatch_serial s = POTHATCH_SERIAL_INIT;
    uint8_t store[POTHATCH_PAYLOAD_MOST], dst[POTHATCH_PAYLOAD_MOST];
    uint64_t length = 7;
    check("write", ph_request_write(wide, &q, dst, sizeof dst, &length) == POTHATCH_RANGE && length == 0);
    check("write", ph_configuration_write(wide, &c, dst, sizeof dst, &length) == POTHATCH_RANGE);
    check("form", ph_request_read(wide, 0, payload, sizeof payload, &q) == POTHATCH_RANGE && q.kind == 0);
    check("reading", ph_request_read(0, wide, payload, sizeof payload, &q) == POTHATCH_RANGE);
    check("form", ph_configuration_read(wide, 0, payload, sizeof payload, &c) == POTHATCH_RANGE && c.kind == 0);
    check("reading", ph_configuration_read(0, wide, payload, sizeof payload, &c) == POTHATCH_RANGE);
    check("reset", ph_serial_reset(&s) == 0 && ph_serial_part(&s, store, sizeof store, payload, sizeof payload) == 0);
    check("end", ph_serial_end_request(&s, store, sizeof store, wide, 0, &q) == POTHATCH_RANGE && s.ended == 0);
    check("end", ph_serial_end_request(&s, store, sizeof store, 0, wide, &q) == POTHATCH_RANGE && s.ended == 0);
    check("end", ph_serial_end_configuration(&s, store, sizeof store, wide, 0, &c) == POTHATCH_RANGE && s.ended == 0);
    check("end", ph_serial_end_configuration(&s, store, sizeof store, 0, wide, &c) == POTHATCH_RANGE && s.ended == 0);
    check("the end itself", ph_serial_end_request(&s, store, sizeof store, 0, 0, &q) == 0 && q.network.len == 2);
}

/* A node that joined with a key of identifier 1. */
static struct pothatch_node joined(void) {
    const uint8_t network[] = {0xCA, 0xFE}, answer[21] = {0xA1, 0x02, 0x82, 0x01, 0x50};
    struct pothatch_node n = POTHATCH_NODE_INIT;
    struct pothatch_reports r;
    uint8_t request[POTHATCH_REQUEST_MOST];
    uint64_t length;
    uint32_t change;
    check("make", ph_node_make(POTHATCH_DRAFT, POTHATCH_NODE, 1, network, sizeof network, &n) == 0);
    check("start", ph_node_start(&n, 0, 10000, request, sizeof request, &length) == 0);
    check("answer", ph_node_answer(&n, 1, answer, sizeof answer, &r) == 0);
    check("verified", ph_node_verified(&n, POTHATCH_DATA, 1, &change) == 0 && change == POTHATCH_SWITCHED);
    return n;
}

static void nodes(uint64_t wide) {
    struct pothatch_node n = joined(), was = n, m;
    struct pothatch_frame_key k;
    uint32_t change;
    check("form", ph_node_make(wide, 0, 0, NULL, 0, &m) == POTHATCH_RANGE && m.kind == 0);
    check("role", ph_node_make(0, wide, 0, NULL, 0, &m) == POTHATCH_RANGE);
    check("has_network", ph_node_make(0, 0, wide, NULL, 0, &m) == POTHATCH_RANGE);
    check("send", ph_node_send(&n, wide, &k) == POTHATCH_RANGE && k.kind == 0);
    check("receive", ph_node_receive(&n, wide, 1, &k) == POTHATCH_RANGE);
    check("identifier", ph_node_receive(&n, 1, wide, &k) == POTHATCH_RANGE);
    check("verified", ph_node_verified(&n, wide, 1, &change) == POTHATCH_RANGE && change == 0);
    check("identifier", ph_node_verified(&n, 1, wide, &change) == POTHATCH_RANGE);
    check("the node stays", !memcmp(&n, &was, sizeof n));
    check("send", ph_node_send(&n, 1, &k) == 0 && k.key.identifier == 1);
}

static void ledgers(void) {
    static uint8_t memory[4096 * POTHATCH_PLACE];
    struct pothatch_ledger l = POTHATCH_LEDGER_INIT;
    static const uint64_t firsts[] = BEYOND(0x1000), sizes[] = BEYOND(3);
    for (int i = 1; i < 4; i++) {
        check("first", ph_ledger_open(firsts[i], 3, memory, sizeof memory, &l) == POTHATCH_RANGE && l.kind == 0);
        check("size", ph_ledger_open(0x1000, sizes[i], memory, sizeof memory, &l) == POTHATCH_RANGE);
    }
    check("the sum", ph_ledger_open(UINT64_MAX, UINT64_MAX, memory, sizeof memory, &l) == POTHATCH_RANGE);
    check("the last address", ph_ledger_open(0xFFFF, 1, memory, sizeof memory, &l) == 0);
    check("one more", ph_ledger_open(0xFFFF, 2, memory, sizeof memory, &l) == POTHATCH_RANGE);
}

static void proxies(void) {
    static const uint64_t ports[] = BEYOND(5683);
    const uint8_t key[16] = {1}, id[8] = {2};
    uint8_t body[POTHATCH_BODY] = {0};
    struct pothatch_proxy p = POTHATCH_PROXY_INIT, was;
    check("make", ph_proxy_make(key, &p) == 0);
    was = p;
    for (int i = 1; i < 4; i++) check("port", ph_proxy_issue(&p, id, ports[i], NULL, 0, body, sizeof body) == POTHATCH_RANGE);
    check("the proxy stays", !memcmp(&p, &was, sizeof p) && all_zero(body, sizeof body));
    check("the last port", ph_proxy_issue(&p, id, 65535, NULL, 0, body, sizeof body) == 0);
}

static void library(void) {
    static const uint64_t kinds[] = BEYOND('L'), numbers[] = BEYOND(13), usages[] = BEYOND(4);
    uint32_t size, encrypted, mic;
    uint8_t name[8];
    for (int i = 0; i < 4; i++) {
        check("kind", ph_size(kinds[i], &size) == POTHATCH_RANGE && size == 0);
        check("refusal", ph_refusal_name(numbers[i], name) == POTHATCH_RANGE && all_zero(name, 8));
        check("usage", ph_key_usage(usages[i], &encrypted, &mic) == POTHATCH_RANGE && encrypted == 0 && mic == 0);
    }
    for (uint64_t usage = 0; usage < 256; usage++) {
        uint32_t number = ph_key_usage(usage, &encrypted, &mic);
        if (usage > 14) check("no usage", number == POTHATCH_RANGE && encrypted == 0 && mic == 0);
        else check("usage", number == 0 && encrypted == (usage < 3 || usage > 11) && mic == 4u << usage % 3);
    }
    for (uint32_t i = 1; i <= 22; i++) {
        const char *text = pothatch_strerror(i);
        check("name", ph_refusal_name(i, name) == 0 && !strncmp(text, (const char *)name, strcspn(text, ":")) && text[strcspn(text, ":")]);
    }
    check("strerror", !strcmp(pothatch_strerror(0), "OK") && !strcmp(pothatch_strerror(23), "not a refusal"));
}

/* What is only read may overlap, and with length 0 a pointer may be NULL. */
static void allowed(void) {
    const uint8_t key[16] = {1};
    uint8_t sealed[24], opened[16];
    uint64_t length;
    check("one buffer, read four times", ph_seal(key, key, key, 16, key, 16, sealed, sizeof sealed, &length) == 0 && length == 24);
    check("opened", ph_unseal(key, key, key, 16, sealed, 24, opened, sizeof opened, &length) == 0 && !memcmp(opened, key, 16));
    check("nothing, from NULL", ph_seal(key, key, NULL, 0, NULL, 0, sealed, 8, &length) == 0 && length == 8);
    check("nothing, into NULL", ph_unseal(key, key, NULL, 0, sealed, 8, NULL, 0, &length) == 0 && length == 0);
    check("no room, at NULL", ph_seal(key, key, NULL, 0, NULL, 0, NULL, 0, &length) == POTHATCH_ROOM && length == 0);
    struct pothatch_configuration c = POTHATCH_CONFIGURATION_INIT, merged;
    check("one configuration twice", ph_configuration_merge(&c, &c, &merged) == 0 && !memcmp(&c, &merged, sizeof c));
    check("an empty payload at NULL", ph_configuration_read(0, 0, NULL, 0, &c) == POTHATCH_CUT);
    struct pothatch_replayed r;
    struct pothatch_node n;
    check("an empty trace at NULL", ph_replay(NULL, 0, &n, &r) == 0 && n.kind == 0 && r.stopped == 0);
    struct pothatch_ledger l;
    check("no memory, at NULL", ph_ledger_open(1, 1, NULL, 0, &l) == POTHATCH_ROOM);
}

int main(void) {
    for (int i = 0; i < 4; i++) {
        payloads(zeros[i]);
        payloads(ones[i]);
        nodes(zeros[i]);
        nodes(ones[i]);
    }
    ledgers();
    proxies();
    library();
    allowed();
    return summary();
}
