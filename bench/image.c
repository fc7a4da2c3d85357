/* What the image costs: a node's calls through the library's image (pothatch.h) beside the same calls on the value itself (crate
   bench), in nanoseconds a call, the least of many batches, which take turns. The node has 8 active keys. Reading likewise. It judges
   nothing. */
#include "payloads.h"
#include "../bindings/pothatch.h"
#include <stdio.h>
#include <stdlib.h>
#include <time.h>

uint64_t bench_configuration(const uint8_t *, size_t);
typedef uint64_t node_call(uint8_t *, size_t, const uint8_t *, size_t, uint8_t, uint64_t);
node_call bench_poll, bench_sending, bench_receiving, bench_verified;
uint64_t bench_update(uint8_t *, size_t, const uint8_t *, size_t, const uint8_t *, size_t, uint8_t, uint64_t);

enum { BATCHES = 4000, CALLS = 100, FIRST_ID = 200 };
static volatile uint64_t sink;
static uint8_t big[256], dst[256];
static size_t big_len;
static struct pothatch_node joined, waiting, node;
static struct pothatch_frame_key key;
static struct pothatch_reports reports;
static struct pothatch_configuration configuration;
static uint32_t word;
static uint64_t length;

static double now(void)
{
    struct timespec t;
    clock_gettime(CLOCK_MONOTONIC, &t);
    return t.tv_sec * 1e9 + t.tv_nsec;
}

/* ---- that many calls through the image; the node is as it was at first, so that each batch has the same work */
typedef uint64_t image_calls(uint64_t n);

static uint64_t polls(uint64_t n)
{
    node = waiting;
    for (uint64_t i = 0; i < n; i++)
        sink += pothatch_node_poll(POTHATCH_LEND(&node), 3 + i, &word);
    return word;
}

static uint64_t refused_polls(uint64_t n)
{
    node = joined;
    for (uint64_t i = 0; i < n; i++)
        sink += pothatch_node_poll(POTHATCH_LEND(&node), 3 + i, &word);
    return word;
}

static uint64_t sends(uint64_t n)
{
    node = joined;
    for (uint64_t i = 0; i < n; i++)
        sink += pothatch_node_send(POTHATCH_LEND(&node), POTHATCH_DATA, POTHATCH_LEND(&key));
    return key.counter[3];
}

static uint64_t receives(uint64_t n)
{
    for (uint64_t i = 0; i < n; i++)
        sink += pothatch_node_receive(POTHATCH_LEND_IN(&joined), POTHATCH_DATA, FIRST_ID, POTHATCH_LEND(&key));
    return key.key.identifier;
}

static uint64_t verifieds(uint64_t n)
{
    node = joined;
    for (uint64_t i = 0; i < n; i++)
        sink += pothatch_node_verified(POTHATCH_LEND(&node), POTHATCH_DATA, FIRST_ID, &word);
    return word;
}

static uint64_t holds(uint64_t n)
{
    for (uint64_t i = 0; i < n; i++)
        sink += pothatch_node_holds(POTHATCH_LEND_IN(&joined), 1000, &word);
    return word;
}

static uint64_t updates(uint64_t n)
{
    node = joined;
    for (uint64_t i = 0; i < n; i++)
        sink += pothatch_node_update(POTHATCH_LEND(&node), 3 + i, m8, sizeof m8, POTHATCH_LEND(&reports));
    return reports.address;
}

static uint64_t reads(uint64_t n)
{
    for (uint64_t i = 0; i < n; i++)
        sink += pothatch_configuration_read(POTHATCH_DRAFT, POTHATCH_READ_ANY, big, big_len, POTHATCH_LEND(&configuration));
    return configuration.keys.count;
}

static uint64_t writes(uint64_t n)
{
    for (uint64_t i = 0; i < n; i++)
        sink += pothatch_configuration_write(POTHATCH_DRAFT, POTHATCH_LEND_IN(&configuration), dst, sizeof dst, &length);
    return length;
}

/* ---- the same on the value */
static uint64_t plain_update(uint8_t *d, size_t n, const uint8_t *p, size_t len, uint8_t id, uint64_t times)
{
    return bench_update(d, n, p, len, m8, sizeof m8, id, times);
}

static uint64_t plain_read(uint8_t *d, size_t n, const uint8_t *p, size_t len, uint8_t id, uint64_t times)
{
    (void)d, (void)n, (void)id;
    uint64_t sum = 0;
    while (times--)
        sum += bench_configuration(p, len);
    return sum;
}

struct row {
    const char *name;
    image_calls *image;
    node_call *plain;
    double image_least, plain_none, plain_some;
};

static void batch(struct row *r)
{
    double begun = now();
    sink += r->image(CALLS);
    double ended = now();
    if ((ended - begun) / CALLS < r->image_least)
        r->image_least = (ended - begun) / CALLS;
    if (!r->plain)
        return;
    begun = now();
    sink += r->plain(dst, sizeof dst, big, big_len, FIRST_ID, 0);
    double between = now();
    sink += r->plain(dst, sizeof dst, big, big_len, FIRST_ID, CALLS);
    ended = now();
    if (between - begun < r->plain_none)
        r->plain_none = between - begun;
    if (ended - between < r->plain_some)
        r->plain_some = ended - between;
}

static void must(uint32_t number)
{
    if (number) {
        fprintf(stderr, "image: refused %u\n", number);
        exit(1);
    }
}

/* A node that waits, and one that has joined and switched to its keys. */
static void make(void)
{
    must(pothatch_node_make(POTHATCH_DRAFT, POTHATCH_NODE, 1, (const uint8_t *)"\xca\xfe", 2, POTHATCH_LEND(&node)));
    must(pothatch_node_start(POTHATCH_LEND(&node), 1, 10000, dst, sizeof dst, &length));
    must(pothatch_node_answer(POTHATCH_LEND(&node), 2, big, big_len, POTHATCH_LEND(&reports)));
    must(pothatch_node_verified(POTHATCH_LEND(&node), POTHATCH_DATA, FIRST_ID, &word));
    joined = waiting = node;
    must(pothatch_node_start(POTHATCH_LEND(&waiting), 2, 10000, dst, sizeof dst, &length));
}

int main(void)
{
    static struct row rows[] = {
        {"poll, not yet due", polls, 0, 1e18, 1e18, 1e18},        {"poll, refused", refused_polls, bench_poll, 1e18, 1e18, 1e18},
        {"send", sends, bench_sending, 1e18, 1e18, 1e18},         {"receive", receives, bench_receiving, 1e18, 1e18, 1e18},
        {"verified, kept", verifieds, bench_verified, 1e18, 1e18, 1e18}, {"holds", holds, 0, 1e18, 1e18, 1e18},
        {"update, M8", updates, plain_update, 1e18, 1e18, 1e18},  {"read, 232 bytes", reads, plain_read, 1e18, 1e18, 1e18},
        {"write, 232 bytes", writes, 0, 1e18, 1e18, 1e18}};
    enum { KINDS = sizeof rows / sizeof *rows };
    big_len = longest(big, FIRST_ID);
    make();
    must((uint32_t)(reads(1) == 0));
    for (int i = 0; i < BATCHES; i++)
        for (int k = 0; k < KINDS; k++)
            batch(&rows[k]);
    printf("%-24s%12s%12s%12s\n", "ns a call", "by image", "the call", "more");
    for (int k = 0; k < KINDS; k++) {
        double plain = (rows[k].plain_some - rows[k].plain_none) / CALLS;
        printf("%-24s%12.0f", rows[k].name, rows[k].image_least);
        if (rows[k].plain)
            printf("%12.0f%12.0f\n", plain, rows[k].image_least - plain);
        else
            printf("%12s%12s\n", "-", "-");
    }
    return 0;
}
