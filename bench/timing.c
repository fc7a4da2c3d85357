/* The program of bench/run. `timing compare N` compares our reader with reference_reader.c on N damaged payloads; `timing` alone prints tables of times, the least
   of many batches, which take turns, in nanoseconds a call; `timing stack` prints how many bytes of stack calls use, the stack being painted before;
   `timing copies` (linked with memcpy and memset wrapped) prints how many block copies reads and a node's calls make. It judges nothing. */
#include "reference_reader.h"
#include "payloads.h"
#include <alloca.h>
#include <stdio.h>
#include <stdlib.h>
#include <time.h>
#ifdef WITH_LIBCBOR
#include <cbor.h>
#endif

uint64_t bench_configuration(const uint8_t *, size_t);
uint64_t bench_request(const uint8_t *, size_t);
uint64_t bench_configuration_number(const uint8_t *, size_t, uint8_t);
size_t bench_rewrite_configuration(uint8_t *, size_t, const uint8_t *, size_t);
size_t bench_rewrite_request(uint8_t *, size_t, const uint8_t *, size_t);
uint64_t bench_update(uint8_t *, size_t, const uint8_t *, size_t, const uint8_t *, size_t, uint8_t, uint64_t);
typedef uint64_t node_call(uint8_t *, size_t, const uint8_t *, size_t, uint8_t, uint64_t);
node_call bench_poll, bench_sending, bench_receiving, bench_verified;

enum { BATCHES = 4096, CALLS = 100, FIRST_ID = 200, OTHER_ID = 100 };
static volatile uint64_t sink;
static uint8_t big[256], other[256], dst[256];
static size_t big_len, other_len;

/* ---- one read each, looked at in few places */
typedef uint64_t reading(const uint8_t *, size_t);

static uint64_t look(int refused, const struct configuration *o) { return refused ? 0 : o->count ^ o->lease ^ o->passed; }
static uint64_t look_request(int refused, const struct request *o) { return refused ? 0 : o->role ^ o->passed; }

static uint64_t by_gcc(const uint8_t *p, size_t n) { struct configuration o; return look(gcc_configuration(p, n, &o), &o); }
static uint64_t request_by_gcc(const uint8_t *p, size_t n) { struct request o; return look_request(gcc_request(p, n, &o), &o); }
#ifdef WITH_CLANG
static uint64_t by_clang(const uint8_t *p, size_t n) { struct configuration o; return look(clang_configuration(p, n, &o), &o); }
static uint64_t request_by_clang(const uint8_t *p, size_t n) { struct request o; return look_request(clang_request(p, n, &o), &o); }
#else
#define by_clang 0
#define request_by_clang 0
#endif

/* libcbor gives the tree; from it the values of labels are taken, and none of document 01's rules is asked. */
#ifdef WITH_LIBCBOR
static uint64_t taken(const cbor_item_t *item)
{
    if (cbor_isa_uint(item))
        return cbor_get_int(item);
    if (cbor_isa_bytestring(item))
        return cbor_bytestring_length(item);
    uint64_t sum = 0;
    if (cbor_isa_array(item))
        for (size_t i = 0; i < cbor_array_size(item); i++)
            sum += taken(cbor_array_handle(item)[i]);
    return sum;
}

static uint64_t by_libcbor(const uint8_t *p, size_t n)
{
    struct cbor_load_result r;
    uint64_t sum = 0;
    cbor_item_t *map = cbor_load(p, n, &r);
    if (!map)
        return 1;
    if (r.read == n && cbor_isa_map(map))
        for (size_t i = 0; i < cbor_map_size(map); i++)
            sum += taken(cbor_map_handle(map)[i].key) ^ taken(cbor_map_handle(map)[i].value);
    cbor_decref(&map);
    return sum;
}
#else
#define by_libcbor 0
#endif

/* ---- times
   Each round is at another place of the stack, 16 bytes apart over a page: with one place for a whole run, the rows of short calls moved
   by a fifth and more from run to run. */
enum { PLACES = 256 };
static volatile uint8_t *lowest;
#define LOWER(round) (lowest = alloca(16 + 16 * ((round) % PLACES)), lowest[0] = 0)

static double now(void)
{
    struct timespec t;
    clock_gettime(CLOCK_MONOTONIC, &t);
    return t.tv_sec * 1e9 + t.tv_nsec;
}

__attribute__((noinline)) static void batch(double *least, int round, reading *f, const uint8_t *p, size_t n)
{
    if (!f)
        return;
    LOWER(round);
    double begun = now();
    for (int i = 0; i < CALLS; i++)
        sink += f(p, n);
    double each = (now() - begun) / CALLS;
    if (each < *least)
        *least = each;
}

static void cell(int is_there, double value, const char *format)
{
    if (is_there)
        printf(format, value);
    else
        printf("%10s", "-");
}

static void read_row(const char *name, const uint8_t *p, size_t n, reading *ours, reading *gcc, reading *clang, reading *libcbor)
{
    double o = 1e18, g = 1e18, c = 1e18, l = 1e18;
    for (int i = 0; i < BATCHES; i++) {
        batch(&o, i, ours, p, n);
        batch(&g, i, gcc, p, n);
        batch(&c, i, clang, p, n);
        if (i / PLACES % 8 == 0)
            batch(&l, i, libcbor, p, n);
    }
    printf("%-28s%10.0f%10.0f", name, o, g);
    cell(clang != 0, c, "%10.0f");
    cell(libcbor != 0, l, "%10.0f");
    printf("%10.2f", o / g);
    cell(clang != 0, o / c, "%10.2f");
    cell(libcbor != 0, l / o, "%10.1f");
    puts("");
}

static void reads(void)
{
    printf("%-28s%10s%10s%10s%10s%10s%10s%10s\n", "read, ns", "ours", "C gcc", "C clang", "libcbor", "ours/gcc", "/clang", "libcbor/");
    read_row("configuration, 232 bytes", big, big_len, bench_configuration, by_gcc, by_clang, by_libcbor);
    read_row("configuration, 26 bytes", appendix, sizeof appendix, bench_configuration, by_gcc, by_clang, by_libcbor);
    read_row("configuration, M8", m8, sizeof m8, bench_configuration, by_gcc, by_clang, by_libcbor);
    read_row("join request, M1", m1, sizeof m1, bench_request, request_by_gcc, request_by_clang, by_libcbor);
}

/* A writing takes what reading and writing again takes, less the reading. */
static uint64_t rewrite(const uint8_t *p, size_t n) { return bench_rewrite_configuration(dst, sizeof dst, p, n); }
static uint64_t rewrite_request(const uint8_t *p, size_t n) { return bench_rewrite_request(dst, sizeof dst, p, n); }

static void write_row(const char *name, const uint8_t *p, size_t n, reading *reads, reading *rewrites)
{
    double r = 1e18, w = 1e18;
    for (int i = 0; i < BATCHES; i++) {
        batch(&r, i, reads, p, n);
        batch(&w, i, rewrites, p, n);
    }
    printf("%-28s%10.0f%20.3f\n", name, w - r, (w - r) / r);
}

static void writes(void)
{
    printf("\n%-28s%10s%20s\n", "write, ns", "ours", "to reading it");
    write_row("configuration, 232 bytes", big, big_len, bench_configuration, rewrite);
    write_row("configuration, M8", m8, sizeof m8, bench_configuration, rewrite);
    write_row("join request, M1", m1, sizeof m1, bench_request, rewrite_request);
}

/* A call that is made n times on one node, which is made first: the time of n calls less that of none. */
struct repeated {
    const char *name;
    node_call *call;
    const uint8_t *update;
    size_t len;
    double none, some;
};

__attribute__((noinline)) static void repeat(const struct repeated *r, int round, uint64_t n)
{
    LOWER(round);
    if (r->call)
        sink += r->call(dst, sizeof dst, big, big_len, FIRST_ID, n);
    else
        sink += bench_update(dst, sizeof dst, big, big_len, r->update, r->len, FIRST_ID, n);
}

static void calls(void)
{
    struct repeated r[] = {
        {"update, 232 bytes", 0, other, other_len, 1e18, 1e18}, {"update, M8", 0, m8, sizeof m8, 1e18, 1e18},
        {"poll", bench_poll, 0, 0, 1e18, 1e18},                 {"sending key", bench_sending, 0, 0, 1e18, 1e18},
        {"receiving key", bench_receiving, 0, 0, 1e18, 1e18},   {"verified", bench_verified, 0, 0, 1e18, 1e18}};
    enum { KINDS = sizeof r / sizeof *r };
    for (int i = 0; i < BATCHES; i++)
        for (int k = 0; k < KINDS; k++) {
            double begun = now();
            repeat(&r[k], i, 0);
            double between = now();
            repeat(&r[k], i, CALLS);
            double ended = now();
            if (between - begun < r[k].none)
                r[k].none = between - begun;
            if (ended - between < r[k].some)
                r[k].some = ended - between;
        }
    double update = (r[0].some - r[0].none) / CALLS;
    printf("\n%-28s%10s%20s\n", "node with 8 active keys, ns", "ours", "to update of 232");
    for (int k = 0; k < KINDS; k++) {
        double each = (r[k].some - r[k].none) / CALLS;
        printf("%-28s%10.0f%20.3f\n", r[k].name, each, each / update);
    }
}

/* ---- our reader beside reference_reader.c on damaged payloads */
static uint64_t state = 88172645463325252ull;
static uint32_t random_number(void)
{
    state ^= state << 13, state ^= state >> 7, state ^= state << 17;
    return state >> 16;
}

static size_t seed(uint8_t *b)
{
    static const uint8_t unknown[] = {0xA1, 0x18, 0x63, 0xF6}, nested[] = {0xA3, 3, 0x81, 0x42, 1, 2, 4, 0x41, 0, 0x20, 0x82, 1, 0xC1, 0xA1, 1, 2};
    static const uint8_t strings[] = {0xA3, 5, 0x42, 0xCA, 0xFE, 6, 0x43, 1, 2, 3, 10, 0x81, 0x81, 0x40}, no_keys[] = {0xA1, 2, 0x80};
    const struct {
        const uint8_t *p;
        size_t n;
    } seeds[] = {{big, big_len}, {appendix, sizeof appendix}, {m8, sizeof m8}, {unknown, sizeof unknown}, {nested, sizeof nested}, {strings, sizeof strings}, {no_keys, sizeof no_keys}};
    uint32_t k = random_number() % (sizeof seeds / sizeof *seeds);
    memcpy(b, seeds[k].p, seeds[k].n);
    return seeds[k].n;
}

static size_t damage(uint8_t *b, size_t n)
{
    static const uint8_t likely[] = {0x80, 0x81, 0xA1, 0x18, 0x50, 0x42, 2, 3, 4, 5, 6, 0xC1, 0x9F, 0x1B, 0x20, 0xF6};
    size_t at = random_number() % n;
    switch (random_number() % 5) {
    case 0:
        b[at] = random_number();
        break;
    case 1:
        b[at] ^= 1 << random_number() % 8;
        break;
    case 2:
        b[at] = likely[random_number() % sizeof likely];
        break;
    case 3:
        return n > 1 ? n - 1 : n;
    default:
        if (n < 258)
            b[n++] = random_number();
    }
    return n;
}

static uint64_t number(int refusal, const struct configuration *o, uint8_t pick)
{
    const struct key *k = &o->keys[pick % 8];
    return ((uint64_t)refusal * 256) ^ k->identifier ^ k->usage ^ k->value[pick % 16] ^ o->count ^ o->lease ^ o->address[pick % 2]
        ^ o->jrc.bytes[pick % 16] ^ o->network.bytes[pick % 16] ^ o->prefix.bytes[pick % 16] ^ o->passed;
}

static int compare(long payloads)
{
    uint8_t b[300];
    long accepted = 0, differ = 0;
    for (long i = 0; i < payloads; i++) {
        size_t n = seed(b);
        for (uint32_t k = random_number() % 4; k; k--)
            n = damage(b, n);
        struct configuration o;
        int refusal = gcc_configuration(b, n, &o);
        accepted += !refusal;
        for (uint8_t pick = 0; pick < 16; pick++)
            if (bench_configuration_number(b, n, pick) != number(refusal, &o, pick)) {
                differ++;
                break;
            }
    }
    printf("%ld damaged payloads, %ld accepted: %ld answers differ from reference_reader.c's\n", payloads, accepted, differ);
    return differ != 0;
}

/* ---- stack: what lies below is painted, the call runs, and the lowest byte that changed is looked for */
enum { ROOM = 65536, PAINT = 0xA7 };
static uint8_t *low;

__attribute__((noinline)) static void paint(void)
{
    volatile uint8_t a[ROOM];
    for (int i = 0; i < ROOM; i++)
        a[i] = PAINT;
    low = (uint8_t *)(uintptr_t)a;
}

__attribute__((noinline)) static long used(void)
{
    uint8_t *top = __builtin_frame_address(0), *p = low;
    while (p < top && *p == PAINT)
        p++;
    return top - p;
}

#define STACK(name, call) (sink += (uint64_t)(call), paint(), sink += (uint64_t)(call), printf("%-44s%8ld\n", name, used()))

static void stack(void)
{
    static const uint8_t deep[] = {0xA1, 0x18, 0x63, 0x81, 0x81, 0x81, 0x81, 0x81, 0x81, 0x81, 0};
    printf("%-44s%8s\n", "stack, bytes", "");
    STACK("read a configuration, 232 bytes", bench_configuration(big, big_len));
    STACK("read a configuration, nine levels (DEEP)", bench_configuration(deep, sizeof deep));
    STACK("read a join request, M1", bench_request(m1, sizeof m1));
    STACK("join, verified, update, 232 bytes", bench_update(dst, sizeof dst, big, big_len, other, other_len, FIRST_ID, 1));
    STACK("join, verified, update, nine levels (DEEP)", bench_update(dst, sizeof dst, big, big_len, deep, sizeof deep, FIRST_ID, 1));
    STACK("reference_reader.c, configuration, 232 bytes", by_gcc(big, big_len));
    STACK("reference_reader.c, configuration, nine levels (DEEP)", by_gcc(deep, sizeof deep));
}

/* ---- block copies */
#ifdef WRAPPED
static long blocks, bytes;
void *__real_memcpy(void *, const void *, size_t);
void *__real_memset(void *, int, size_t);
void *__wrap_memcpy(void *d, const void *s, size_t n) { blocks++, bytes += n; return __real_memcpy(d, s, n); }
void *__wrap_memset(void *d, int v, size_t n) { blocks++, bytes += n; return __real_memset(d, v, n); }

static void copies(const char *name, reading *f, const uint8_t *p, size_t n)
{
    blocks = bytes = 0;
    sink += f(p, n);
    printf("%-44s%8ld%8ld\n", name, blocks, bytes);
}

/* what one call of a node copies: eleven calls less one, by ten */
static void node_copies(const char *name, node_call *call, const uint8_t *update, size_t len)
{
    struct repeated r = {name, call, update, len, 0, 0};
    repeat(&r, 0, 1);
    blocks = bytes = 0;
    repeat(&r, 0, 1);
    long blocks_of_1 = blocks, bytes_of_1 = bytes;
    blocks = bytes = 0;
    repeat(&r, 0, 11);
    printf("%-44s%8ld%8ld\n", name, (blocks - blocks_of_1) / 10, (bytes - bytes_of_1) / 10);
}

static void all_copies(void)
{
    printf("%-44s%8s%8s\n", "block copies", "", "bytes");
    copies("read a configuration, 232 bytes", bench_configuration, big, big_len);
    copies("read a configuration, 26 bytes", bench_configuration, appendix, sizeof appendix);
    copies("read a configuration, M8", bench_configuration, m8, sizeof m8);
    copies("read a join request, M1", bench_request, m1, sizeof m1);
    node_copies("update, 232 bytes", 0, other, other_len);
    node_copies("update, M8", 0, m8, sizeof m8);
    node_copies("poll", bench_poll, 0, 0);
    node_copies("sending key", bench_sending, 0, 0);
    node_copies("receiving key", bench_receiving, 0, 0);
    node_copies("verified", bench_verified, 0, 0);
}
#else
static void all_copies(void) {}
#endif

int main(int argc, char **argv)
{
    const char *what = argc > 1 ? argv[1] : "";
    big_len = longest(big, FIRST_ID), other_len = longest(other, OTHER_ID);
    if (!strcmp(what, "compare"))
        return compare(argc > 2 ? atol(argv[2]) : 1000000);
    if (!strcmp(what, "stack"))
        return stack(), 0;
    if (!strcmp(what, "copies"))
        return all_copies(), 0;
    reads();
    writes();
    calls();
    return 0;
}
