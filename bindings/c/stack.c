/* The greatest stack depth of each call, found by painting the stack before it. The calls are given what takes them far: full key sets,
 * large payloads. Prints a line for each call: its name, the bytes, and the number that it answered. */
#define POTHATCH_MAY_IGNORE
#include "pothatch.h"
#include <stdio.h>
#include <string.h>

#define ROOM 65536
static uintptr_t low;
static volatile uint32_t answered;

__attribute__((noinline)) static void paint(void) {
    volatile uint8_t area[ROOM];
    for (int i = 0; i < ROOM; i++) area[i] = 0xA7;
    low = (uintptr_t)area;
}

__attribute__((noinline)) static long used(void) {
    const uint8_t *top = __builtin_frame_address(0), *p = (const uint8_t *)low;
    while (p < top && *p == 0xA7) p++;
    return (long)(top - p);
}

static void tell(const char *call, long bytes) { printf("%-28s %6ld  answer %u\n", call, bytes, (unsigned)answered); }

#define DEPTH(name, call) do { paint(); answered = (call); tell(name, used()); } while (0)

static struct pothatch_node node, border;
static struct pothatch_configuration c, d, e;
static struct pothatch_request q;
static struct pothatch_reports reports;
static struct pothatch_frame_key key;
static struct pothatch_replayed replayed;
static struct pothatch_serial serial;
static struct pothatch_ledger ledger;
static struct pothatch_proxy proxy;
static struct pothatch_pledge pledge;
static uint8_t payload[256], dst[264], store[256], memory[9 * 4096], trace[4096], body[31], name[8];
static uint64_t length;
static uint32_t word;
static uint16_t half;

/* A configuration with eight keys, in the published form with additional information. */
static uint64_t eight_keys(uint8_t form, uint8_t first) {
    uint8_t *p = payload;
    *p++ = 0xA1, *p++ = 0x02, *p++ = 0x98, *p++ = form ? 32 : 24;
    for (uint8_t i = 0; i < 8; i++) {
        *p++ = (uint8_t)(first + i), *p++ = 5, *p++ = 0x50;
        memset(p, first + i, 16);
        p += 16;
        if (!form) continue;
        *p++ = 0x48;
        memset(p, 7, 8);
        p += 8;
    }
    return (uint64_t)(p - payload);
}

static void payloads(void) {
    uint64_t n = eight_keys(1, 1);
    DEPTH("configuration_read", pothatch_configuration_read(1, 1, payload, n, POTHATCH_LEND(&c)));
    DEPTH("configuration_write", pothatch_configuration_write(1, POTHATCH_LEND_IN(&c), dst, 256, &length));
    DEPTH("request_read", pothatch_request_read(1, 1, (const uint8_t *)"\xA2\x05\x42\xCA\xFE\x08\x83\x01\x03\xF6", 10, POTHATCH_LEND(&q)));
    DEPTH("request_write", pothatch_request_write(1, POTHATCH_LEND_IN(&q), dst, 256, &length));
    pothatch_configuration_read(0, 0, (const uint8_t *)"\xA1\x03\x81\x42\x12\x34", 6, POTHATCH_LEND(&c));
    d = c;
    DEPTH("configuration_merge", pothatch_configuration_merge(POTHATCH_LEND_IN(&c), POTHATCH_LEND_IN(&d), POTHATCH_LEND(&e)));
    DEPTH("serial_reset", pothatch_serial_reset(POTHATCH_LEND(&serial)));
    DEPTH("serial_part", pothatch_serial_part(POTHATCH_LEND(&serial), store, 256, payload, n));
    DEPTH("serial_end_configuration", pothatch_serial_end_configuration(POTHATCH_LEND(&serial), store, 256, 1, 1, POTHATCH_LEND(&c)));
    pothatch_serial_reset(POTHATCH_LEND(&serial));
    pothatch_serial_part(POTHATCH_LEND(&serial), store, 256, (const uint8_t *)"\xA1\x05\x42\xCA\xFE", 5);
    DEPTH("serial_end_request", pothatch_serial_end_request(POTHATCH_LEND(&serial), store, 256, 1, 1, POTHATCH_LEND(&q)));
}

static void nodes(void) {
    uint64_t n = eight_keys(1, 1);
    DEPTH("node_make", pothatch_node_make(1, 0, 1, (const uint8_t *)"\xCA\xFE", 2, POTHATCH_LEND(&node)));
    DEPTH("node_start", pothatch_node_start(POTHATCH_LEND(&node), 0, 10000, dst, 38, &length));
    DEPTH("node_poll", pothatch_node_poll(POTHATCH_LEND(&node), 10000, &word));
    DEPTH("node_answer", pothatch_node_answer(POTHATCH_LEND(&node), 12000, payload, n, POTHATCH_LEND(&reports)));
    DEPTH("node_receive", pothatch_node_receive(POTHATCH_LEND_IN(&node), 1, 8, POTHATCH_LEND(&key)));
    DEPTH("node_verified", pothatch_node_verified(POTHATCH_LEND(&node), 1, 8, &word));
    DEPTH("node_send", pothatch_node_send(POTHATCH_LEND(&node), 1, POTHATCH_LEND(&key)));
    DEPTH("node_holds", pothatch_node_holds(POTHATCH_LEND_IN(&node), 12000, &word));
    n = eight_keys(1, 9);
    DEPTH("node_update", pothatch_node_update(POTHATCH_LEND(&node), 13000, payload, n, POTHATCH_LEND(&reports)));
    pothatch_node_make(1, 1, 1, (const uint8_t *)"\xCA\xFE", 2, POTHATCH_LEND(&border));
    pothatch_node_start(POTHATCH_LEND(&border), 0, 10000, dst, 38, &length);
    pothatch_node_answer(POTHATCH_LEND(&border), 1, payload, n, POTHATCH_LEND(&reports));
    DEPTH("node_update, border", pothatch_node_update(POTHATCH_LEND(&border), 2, payload, n, POTHATCH_LEND(&reports)));
    uint8_t *p = trace;
    static const uint8_t made[] = {1, 0, 2, 0xCA, 0xFE}, start[] = {2, 0, 0, 0, 0, 0, 0, 0, 0, 0, 0, 0x27, 0x10};
    static const uint8_t answer[] = {3, 0, 0, 0, 0, 0, 0, 0, 1};
    n = eight_keys(0, 1);
    memcpy(p, made, sizeof made), p += 19;
    memcpy(p, start, sizeof start), p += sizeof start;
    memcpy(p, answer, sizeof answer), p += sizeof answer;
    p[1] = (uint8_t)n, memcpy(p + 2, payload, n), p += 258;
    DEPTH("replay", pothatch_replay(trace, (uint64_t)(p - trace), POTHATCH_LEND(&node), POTHATCH_LEND(&replayed)));
}

static void others(void) {
    static const uint8_t sixteen[16] = {1}, nonce[13], board[8] = {1};
    DEPTH("ledger_open", pothatch_ledger_open(0x1000, 4096, memory, sizeof memory, POTHATCH_LEND(&ledger)));
    DEPTH("ledger_grant", pothatch_ledger_grant(POTHATCH_LEND(&ledger), memory, sizeof memory, board, 8, &half));
    DEPTH("ledger_give_back", pothatch_ledger_give_back(POTHATCH_LEND(&ledger), memory, sizeof memory, board, 8, &half));
    DEPTH("ledger_free", pothatch_ledger_free(POTHATCH_LEND_IN(&ledger), &length));
    DEPTH("seal", pothatch_seal(sixteen, 16, nonce, 13, board, 8, payload, 256, dst, 264, &length));
    DEPTH("unseal", pothatch_unseal(sixteen, 16, nonce, 13, board, 8, dst, 264, payload, 256, &length));
    DEPTH("proxy_make", pothatch_proxy_make(sixteen, 16, POTHATCH_LEND(&proxy)));
    DEPTH("proxy_issue", pothatch_proxy_issue(POTHATCH_LEND(&proxy), board, 8, 5683, board, 8, body, 31));
    DEPTH("proxy_judge", pothatch_proxy_judge(POTHATCH_LEND_IN(&proxy), body, 31, POTHATCH_LEND(&pledge)));
    DEPTH("proxy_set_key", pothatch_proxy_set_key(POTHATCH_LEND(&proxy), payload, 16));
    DEPTH("refusal_name", pothatch_refusal_name(13, name, 8));
    DEPTH("size", pothatch_size('N', &word));
    DEPTH("layout", pothatch_layout());
}

int main(void) {
    payloads();
    nodes();
    others();
    return 0;
}
