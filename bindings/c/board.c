/* A board's join and rekey with the library: it makes its node, asks to join, polls until it must send again, gets the answer, checks its
 * address, gets new keys and switches to them at the first verified frame. Each step writes what it was answered, as the desk tool
 * `simulate` does: in the sources, bindings/c/board.txt is the same story for it. */
#include "pothatch_inline.h"
#include <stdio.h>

static struct pothatch_node node = POTHATCH_NODE_INIT;

static void bytes(const uint8_t *p, size_t n) {
    printf("h'");
    while (n--) printf("%02x", *p++);
    printf("'");
}

/* Writes a refusal by number and name; whether there was one. */
static int refused(uint32_t number) {
    uint8_t name[9] = {0};
    if (number == POTHATCH_OK) return 0;
    if (ph_refusal_name(number, name) == POTHATCH_OK) printf("refused %u %s\n", (unsigned)number, (const char *)name);
    return 1;
}

static void start(uint64_t time, uint64_t timeout) {
    uint8_t request[POTHATCH_REQUEST_MOST];
    uint64_t length;
    if (refused(ph_node_start(&node, time, timeout, request, sizeof request, &length))) return;
    printf("sent ");
    bytes(request, length);
    printf("\n");
}

static void poll(uint64_t time) {
    static const char *const words[] = {"", "not yet", "send again", "gave up"};
    uint32_t due;
    if (!refused(ph_node_poll(&node, time, &due))) printf("%s\n", words[due]);
}

/* An answer to the join request, or an update. */
static void deliver(int joining, uint64_t time, const uint8_t *payload, uint64_t payload_len) {
    static const char *const words[] = {"absent", "taken", "discarded"};
    struct pothatch_reports r;
    if (refused(joining ? ph_node_answer(&node, time, payload, payload_len, &r) : ph_node_update(&node, time, payload, payload_len, &r)))
        return;
    printf("accepted keys=%s address=%s jrc=%s network=%s prefix=%s passed=%u\n", words[r.keys], words[r.address], words[r.jrc],
           words[r.network], words[r.prefix], (unsigned)pothatch_u64(r.passed));
}

static void holds(uint64_t time) {
    uint32_t holds;
    if (!refused(ph_node_holds(&node, time, &holds))) printf("%s\n", holds == POTHATCH_HOLDS ? "yes" : "no");
}

/* The key that the next data frame is sent with. */
static void send(void) {
    struct pothatch_frame_key k;
    if (refused(ph_node_send(&node, POTHATCH_DATA, &k))) return;
    printf("key %u/%u/", k.key.identifier, k.key.usage);
    bytes(k.key.value, sizeof k.key.value);
    printf(" counter=%u\n", (unsigned)pothatch_u32(k.counter));
}

/* The radio verified a data frame under the key with this identifier. */
static void verified(uint8_t identifier) {
    uint32_t change;
    if (!refused(ph_node_verified(&node, POTHATCH_DATA, identifier, &change)))
        printf("%s\n", change == POTHATCH_SWITCHED ? "switched" : "kept");
}

int main(void) {
    static const uint8_t network[] = {0xca, 0xfe};
    /* key 1, address 1234 for an hour */
    static const uint8_t answer[] = {0xa2, 0x02, 0x82, 0x01, 0x50, 0xe6, 0xbf, 0x42, 0x87, 0xc2, 0xd7, 0x61, 0x8d, 0x6a, 0x96, 0x87, 0x44,
                                     0x5f, 0xfd, 0x33, 0xe6, 0x03, 0x82, 0x42, 0x12, 0x34, 0x19, 0x0e, 0x10};
    /* key 2 */
    static const uint8_t update[] = {0xa1, 0x02, 0x82, 0x02, 0x50, 0x00, 0x01, 0x02, 0x03, 0x04, 0x05, 0x06, 0x07, 0x08, 0x09, 0x0a, 0x0b,
                                     0x0c, 0x0d, 0x0e, 0x0f};
    if (refused(ph_node_make(POTHATCH_DRAFT, POTHATCH_NODE, 1, network, sizeof network, &node))) return 1;
    printf("made\n");
    poll(0); /* nothing was sent yet: PHASE */
    start(0, 10000);
    poll(9999);
    poll(10000);
    deliver(1, 12000, answer, sizeof answer - 1); /* a byte is missing: CUT, and the node stays as it is */
    deliver(1, 12000, answer, sizeof answer);
    holds(12000);
    send(); /* the new key waits until a frame under it is verified: SILENT */
    verified(1);
    send();
    deliver(0, 60000, update, sizeof update);
    send(); /* still under key 1 */
    verified(2);
    send(); /* under key 2 */
    verified(1); /* key 1 is gone: SILENT */
    holds(3611999);
    holds(3612000);
    return 0;
}
