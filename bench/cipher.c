// AES-CCM-16-64-128 beside libtomcrypt's portable AES-CCM, in one run: the key is expanded in every call, rounds of the two go in turn, and the
// least time of each counts. First both are given the same random inputs, whole and damaged, empty texts among them, and must
// say the same: the exit status is 1 where they do not.
#include <stdio.h>
#include <stdlib.h>
#include <string.h>
#include <time.h>
#include <tomcrypt.h>

typedef unsigned char u8;
#define REFUSED ((size_t)-1)
typedef size_t call(const u8 *, size_t, const u8 *, size_t, const u8 *, size_t, const u8 *, size_t, u8 *, size_t);
call bench_seal, bench_open;

static int aes;

static size_t peer_seal(const u8 *k, size_t kn, const u8 *n, size_t nn, const u8 *a, size_t an, const u8 *m, size_t mn, u8 *d, size_t dn) {
    unsigned long tag = 8;
    (void)dn;
    return ccm_memory(aes, k, kn, NULL, n, nn, a, an, (u8 *)m, mn, d, d + mn, &tag, CCM_ENCRYPT) == CRYPT_OK ? mn + 8 : REFUSED;
}

static size_t peer_open(const u8 *k, size_t kn, const u8 *n, size_t nn, const u8 *a, size_t an, const u8 *c, size_t cn, u8 *d, size_t dn) {
    unsigned long len = 8;
    u8 tag[8];
    (void)dn;
    memcpy(tag, c + cn - 8, 8);
    return ccm_memory(aes, k, kn, NULL, n, nn, a, an, d, cn - 8, (u8 *)c, tag, &len, CCM_DECRYPT) == CRYPT_OK ? cn - 8 : REFUSED;
}

static u8 key[16], nonce[13], data[64], text[256];

static void fill(u8 *p, size_t n) {
    while (n--) *p++ = rand();
}

// How many of so many random inputs the two answer differently.
static long differences(int inputs) {
    long found = 0;
    for (int i = 0; i < inputs; i++) {
        size_t an = rand() % 65, mn = i % 16 == 0 ? 0 : rand() % 257;
        u8 ours[264], theirs[264], opened[264], kept[264];
        fill(key, 16), fill(nonce, 13), fill(data, 64), fill(text, 256);
        found += bench_seal(key, 16, nonce, 13, data, an, text, mn, ours, 264) != mn + 8;
        found += peer_seal(key, 16, nonce, 13, data, an, text, mn, theirs, 264) != mn + 8;
        found += memcmp(ours, theirs, mn + 8) != 0;
        found += bench_open(key, 16, nonce, 13, data, an, theirs, mn + 8, opened, 264) != mn || memcmp(opened, text, mn) != 0;
        theirs[rand() % (mn + 8)] ^= 1 << rand() % 8;
        fill(opened, 264), memcpy(kept, opened, 264);
        found += bench_open(key, 16, nonce, 13, data, an, theirs, mn + 8, opened, 264) != REFUSED || memcmp(opened, kept, 264) != 0;
        found += peer_open(key, 16, nonce, 13, data, an, theirs, mn + 8, opened, 264) != REFUSED;
    }
    return found;
}

// Nanoseconds for a call.
static double timed(call *f, size_t an, const u8 *in, size_t n, u8 *out) {
    enum { CALLS = 300 };
    struct timespec a, b;
    clock_gettime(CLOCK_MONOTONIC, &a);
    for (int i = 0; i < CALLS; i++) f(key, 16, nonce, 13, data, an, in, n, out, 264);
    clock_gettime(CLOCK_MONOTONIC, &b);
    return ((b.tv_sec - a.tv_sec) * 1e9 + (b.tv_nsec - a.tv_nsec)) / CALLS;
}

static double less(double a, double b) { return a < b ? a : b; }

int main(void) {
    static const struct { size_t text, data; } sizes[] = {{256, 64}, {23, 0}, {0, 0}};
    aes = register_cipher(&aes_desc);
    long differ = differences(3000);
    printf("answers that differ, of 3000 random inputs: %ld\n", differ);
    printf("text data   libtomcrypt seal, open (ns)   ours seal, open (ns)   ratio\n");
    for (int z = 0; z < 3; z++) {
        u8 sealed[264], out[264];
        size_t mn = sizes[z].text, an = sizes[z].data;
        double s[2] = {1e18, 1e18}, o[2] = {1e18, 1e18};
        bench_seal(key, 16, nonce, 13, data, an, text, mn, sealed, 264);
        for (int r = 0; r < 100; r++) {
            s[0] = less(s[0], timed(peer_seal, an, text, mn, out));
            s[1] = less(s[1], timed(bench_seal, an, text, mn, out));
            o[0] = less(o[0], timed(peer_open, an, sealed, mn + 8, out));
            o[1] = less(o[1], timed(bench_open, an, sealed, mn + 8, out));
        }
        printf("%4zu %4zu %16.0f %8.0f %20.0f %8.0f %12.2f %.2f\n", mn, an, s[0], o[0], s[1], o[1], s[1] / s[0], o[1] / o[0]);
    }
    return differ != 0;
}
