/* What the C tests share: counted checks, slices that end before an unmapped page, bytes from hexadecimal digits. */
#ifndef TEST_H
#define TEST_H
#define POTHATCH_MAY_IGNORE
#include "pothatch.h"
#include <stdio.h>
#include <stdlib.h>
#include <string.h>
#include <sys/mman.h>
#include <unistd.h>

static int passed, failed;

static inline void check(const char *what, int holds) {
    if (holds) { passed++; return; }
    failed++;
    printf("differs: %s\n", what);
}

static inline int summary(void) {
    printf("%d passed, %d failed\n", passed, failed);
    return failed != 0;
}

/* n bytes, a copy of `from` or zeros, that end where an unmapped page begins. They stay for the program's life. */
static inline uint8_t *lent(const void *from, size_t n) {
    size_t page = (size_t)sysconf(_SC_PAGESIZE), pages = n / page + 1;
    uint8_t *p = mmap(NULL, (pages + 1) * page, PROT_READ | PROT_WRITE, MAP_PRIVATE | MAP_ANONYMOUS, -1, 0);
    if (p == MAP_FAILED || mprotect(p + pages * page, page, PROT_NONE)) { perror("lent"); exit(1); }
    p += pages * page - n;
    if (from && n) memcpy(p, from, n);
    return p;
}

static inline int all(const uint8_t *p, size_t n, uint8_t value) {
    while (n) if (p[--n] != value) return 0;
    return 1;
}

static inline int all_zero(const uint8_t *p, size_t n) { return all(p, n, 0); }

/* The bytes that the digits are, spaces between them left out; how many. */
static inline size_t unhex(const char *digits, uint8_t *to) {
    size_t n = 0;
    unsigned byte;
    int used;
    while (sscanf(digits, " %2x%n", &byte, &used) == 1) { to[n++] = (uint8_t)byte; digits += used; }
    return n;
}

/* The same as lent bytes. */
static inline uint8_t *hex(const char *digits, uint64_t *n) {
    uint8_t room[512];
    *n = unhex(digits, room);
    return lent(room, *n);
}
#endif
