/* What the readers of bench/reference_reader.c give. They answer document 01's number of a refusal, and 0 for accepted. */
#ifndef LIMIT_H
#define LIMIT_H
#include <stddef.h>
#include <stdint.h>

enum report { ABSENT, TAKEN, DISCARDED };
enum refusal { ACCEPTED, CUT, FORM, DEEP, EXTRA, TYPE, TWICE, KEYS, ROLE, OWED, LONG = 15 };

struct key {
    uint8_t identifier, usage, value[16];
};

struct octets {
    uint8_t report, len, bytes[16];
};

struct configuration {
    uint8_t keys_report, address_report, address[2], leased;
    uint32_t count;
    struct key keys[8];
    uint64_t lease;
    struct octets jrc, network, prefix;
    uint64_t passed;
};

struct request {
    uint8_t role;
    struct octets network;
    uint64_t passed;
};

typedef int configuration_reader(const uint8_t *payload, size_t len, struct configuration *into);
typedef int request_reader(const uint8_t *payload, size_t len, struct request *into);
configuration_reader gcc_configuration, clang_configuration;
request_reader gcc_request, clang_request;
#endif
