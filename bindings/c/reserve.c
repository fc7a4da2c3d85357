/* A board that stores its node once for many frames and is cut off at any moment: no key sends two frames with one counter. A rekey comes
 * between, and is stored before the next frame. Prints `N passed, M failed`. */
#include "test.h"
#include "pothatch_inline.h"

enum { KEYS = 8, COUNTERS = 20000 };
static uint8_t used[KEYS][COUNTERS];
static struct pothatch_node node, flash;
static uint64_t seed = 0x9E3779B97F4A7C15, time_now, left;

static uint64_t below(uint64_t n) {
    seed ^= seed << 13;
    seed ^= seed >> 7;
    seed ^= seed << 17;
    return seed % n;
}

/* A frame leaves the board: its key and counter were not used before. */
static void sent(const struct pothatch_frame_key *k) {
    uint32_t counter = pothatch_u32(k->counter);
    check("one frame for a counter", k->key.identifier < KEYS && counter < COUNTERS && !used[k->key.identifier][counter]++);
}

static void reserve(uint64_t frame_type) {
    left = 1 + below(40);
    check("reserve", ph_node_reserve(&node, frame_type, left, &flash) == POTHATCH_OK);
}

/* The next key arrives, and a frame under it is verified: the pending set becomes active. */
static void rekey(uint8_t identifier, int joining) {
    uint8_t payload[21] = {0xA1, 0x02, 0x82, identifier, 0x50, identifier};
    struct pothatch_reports r;
    uint32_t change;
    time_now++;
    check("delivered", (joining ? ph_node_answer(&node, time_now, payload, sizeof payload, &r)
                                : ph_node_update(&node, time_now, payload, sizeof payload, &r)) == 0 && r.keys == POTHATCH_TAKEN);
    check("switched", ph_node_verified(&node, POTHATCH_DATA, identifier, &change) == 0 && change == POTHATCH_SWITCHED);
}

int main(void) {
    const uint8_t network[] = {0xCA, 0xFE};
    uint8_t request[POTHATCH_REQUEST_MOST];
    uint64_t length, type = POTHATCH_DATA;
    struct pothatch_frame_key key;
    check("make", ph_node_make(POTHATCH_DRAFT, POTHATCH_NODE, 1, network, sizeof network, &node) == 0);
    check("start", ph_node_start(&node, 0, 10000, request, sizeof request, &length) == 0);
    for (uint8_t identifier = 1; identifier < KEYS; identifier++) {
        rekey(identifier, identifier == 1);
        reserve(type);
        for (int i = 0; i < 300; i++) {
            uint64_t next = below(2);
            if (left == 0 || next != type) reserve(type = next);
            check("send", ph_node_send(&node, type, &key) == 0);
            left--;
            sent(&key);
            if (below(10) == 0) {
                node = flash; /* a restart */
                left = 0;
            }
        }
    }
    struct pothatch_node full = node;
    pothatch_put32(full.active.counters[0], UINT32_C(4294967290));
    check("the last counters", ph_node_reserve(&full, type, 5, &flash) == 0);
    check("one more", ph_node_reserve(&full, type, 6, &flash) == POTHATCH_SILENT && all_zero((const uint8_t *)&flash, sizeof flash));
    check("no frames", ph_node_reserve(&node, type, 0, &flash) == 0 && !memcmp(&flash, &node, sizeof node));
    check("no such type", ph_node_reserve(&node, 257, 1, &flash) == POTHATCH_RANGE);
    check("no such type, no frames", ph_node_reserve(&node, 2, 0, &flash) == POTHATCH_RANGE);
    check("zeroed", all_zero((const uint8_t *)&flash, sizeof flash));
    check("the most frames", ph_node_reserve(&node, type, POTHATCH_RESERVE_MOST, &flash) == 0);
    check("one over the most", ph_node_reserve(&node, type, POTHATCH_RESERVE_MOST + 1, &flash) == POTHATCH_RANGE);
    check("-1 frames", ph_node_reserve(&node, type, (uint64_t)-1, &flash) == POTHATCH_RANGE);
    check("zeroed", all_zero((const uint8_t *)&flash, sizeof flash));
    full = node;
    check("into itself", ph_node_reserve(&node, type, 1, &node) == POTHATCH_RANGE && !memcmp(&full, &node, sizeof node));
    full.kind = 'L';
    check("not a node, no frames", ph_node_reserve(&full, type, 0, &flash) == POTHATCH_RANGE);
    check("a fresh node", ph_node_make(POTHATCH_DRAFT, POTHATCH_NODE, 1, network, sizeof network, &full) == 0);
    check("no key, no frames", ph_node_reserve(&full, type, 0, &flash) == 0 && !memcmp(&flash, &full, sizeof full));
    check("no key", ph_node_reserve(&full, type, 1, &flash) == POTHATCH_SILENT);
    return summary();
}
