/* A reader of configurations and of join requests as a careful C engineer would write it, with document 01's rules: what ours is timed beside.
   It is compiled twice, by gcc -O2 and by clang -O3; BY distinguishes the two. */
#include "reference_reader.h"
#include <string.h>
#define NAME2(by, what) by##_##what
#define NAME1(by, what) NAME2(by, what)
#define NAME(what) NAME1(BY, what)

struct cursor {
    const uint8_t *at, *end;
};

static int head(struct cursor *c, uint8_t *major, uint64_t *argument)
{
    if (c->at == c->end)
        return CUT;
    uint8_t info = *c->at++;
    *major = info >> 5;
    info &= 31;
    if (info < 24) {
        *argument = info;
        return 0;
    }
    if (info > 27)
        return FORM;
    size_t n = (size_t)1 << (info - 24);
    if ((size_t)(c->end - c->at) < n)
        return CUT;
    uint64_t value = 0;
    while (n--)
        value = value << 8 | *c->at++;
    *argument = value;
    return 0;
}

static int skip(struct cursor *c, int levels)
{
    uint8_t major;
    uint64_t n;
    int r;
    if (!levels)
        return DEEP;
    if ((r = head(c, &major, &n)))
        return r;
    switch (major) {
    case 2:
    case 3:
        if ((uint64_t)(c->end - c->at) < n)
            return CUT;
        c->at += n;
        return 0;
    case 4:
        while (n--)
            if ((r = skip(c, levels - 1)))
                return r;
        return 0;
    case 5:
        while (n--)
            if ((r = skip(c, levels - 1)) || (r = skip(c, levels - 1)))
                return r;
        return 0;
    case 6:
        return skip(c, levels - 1);
    default:
        return 0;
    }
}

/* From here on every head is known to be there: the whole payload was scanned before. */
static int octets(struct cursor *c, struct octets *o, size_t least)
{
    uint8_t major;
    uint64_t n;
    if (o->report)
        return TWICE;
    head(c, &major, &n);
    if (major != 2)
        return TYPE;
    if (n < least || n > 16) {
        o->report = DISCARDED;
    } else {
        o->report = TAKEN;
        o->len = n;
        memcpy(o->bytes, c->at, n);
    }
    c->at += n;
    return 0;
}

static int key_set(struct cursor *c, struct configuration *o)
{
    uint8_t major;
    uint64_t left, n;
    uint32_t count = 0;
    if (o->keys_report)
        return TWICE;
    head(c, &major, &left);
    if (major != 4)
        return TYPE;
    int bad = left == 0;
    while (left) {
        uint64_t identifier, usage = 0;
        head(c, &major, &identifier);
        left--;
        if (major != 0 || !left)
            return TYPE;
        head(c, &major, &n);
        left--;
        if (major == 0) {
            usage = n;
            if (!left)
                return TYPE;
            head(c, &major, &n);
            left--;
        }
        if (major != 2)
            return TYPE;
        if (identifier < 1 || identifier > 255 || usage > 14 || n != 16 || count == 8)
            bad = 1;
        for (uint32_t i = 0; !bad && i < count; i++)
            if (o->keys[i].identifier == identifier)
                bad = 1;
        if (!bad) {
            o->keys[count].identifier = identifier;
            o->keys[count].usage = usage;
            memcpy(o->keys[count].value, c->at, 16);
            count++;
        }
        c->at += n;
    }
    if (bad)
        return KEYS;
    o->keys_report = TAKEN;
    o->count = count;
    return 0;
}

static int short_address(struct cursor *c, struct configuration *o)
{
    uint8_t major;
    uint64_t members, n, lease = 0;
    if (o->address_report)
        return TWICE;
    head(c, &major, &members);
    if (major != 4 || members < 1 || members > 2)
        return TYPE;
    head(c, &major, &n);
    if (major != 2)
        return TYPE;
    const uint8_t *bytes = c->at;
    c->at += n;
    if (members == 2) {
        head(c, &major, &lease);
        if (major != 0)
            return TYPE;
    }
    if (n != 2) {
        o->address_report = DISCARDED;
        return 0;
    }
    o->address_report = TAKEN;
    memcpy(o->address, bytes, 2);
    o->leased = members == 2;
    o->lease = lease;
    return 0;
}

/* The payload's length and the item scan, then the map: how many pairs it has. */
static int open_map(struct cursor *c, const uint8_t *payload, size_t len, uint64_t *pairs)
{
    uint8_t major;
    int r;
    if (len > 256)
        return LONG;
    *c = (struct cursor){payload, payload + len};
    if ((r = skip(c, 8)))
        return r;
    if (c->at != c->end)
        return EXTRA;
    c->at = payload;
    head(c, &major, pairs);
    return major == 5 ? 0 : TYPE;
}

/* A label's number; a negative one has the number 0, which no object knows. */
static int label(struct cursor *c, uint64_t *number)
{
    uint8_t major;
    head(c, &major, number);
    if (major == 1)
        *number = 0;
    return major > 1 ? TYPE : 0;
}

static int configuration_pair(struct cursor *c, struct configuration *o)
{
    uint64_t number;
    if (label(c, &number))
        return TYPE;
    switch (number) {
    case 2:
        return key_set(c, o);
    case 3:
        return short_address(c, o);
    case 4:
        return octets(c, &o->jrc, 16);
    case 5:
        return octets(c, &o->network, 0);
    case 6:
        return octets(c, &o->prefix, 0);
    default:
        o->passed++;
        return skip(c, 7);
    }
}

int NAME(configuration)(const uint8_t *payload, size_t len, struct configuration *o)
{
    struct cursor c;
    uint64_t pairs;
    memset(o, 0, sizeof *o);
    int r = open_map(&c, payload, len, &pairs);
    while (!r && pairs--)
        if ((r = configuration_pair(&c, o)))
            memset(o, 0, sizeof *o);
    return r;
}

static int request_pair(struct cursor *c, struct request *o, int *named)
{
    uint64_t number;
    uint8_t major;
    if (label(c, &number))
        return TYPE;
    switch (number) {
    case 1:
        if (*named)
            return TWICE;
        *named = 1;
        head(c, &major, &number);
        if (major != 0)
            return TYPE;
        o->role = number;
        return number > 1 ? ROLE : 0;
    case 5:
        return octets(c, &o->network, 0);
    default:
        o->passed++;
        return skip(c, 7);
    }
}

int NAME(request)(const uint8_t *payload, size_t len, struct request *o)
{
    struct cursor c;
    uint64_t pairs;
    int named = 0;
    memset(o, 0, sizeof *o);
    int r = open_map(&c, payload, len, &pairs);
    while (!r && pairs--)
        r = request_pair(&c, o, &named);
    if (!r && o->role == 0 && o->network.report != TAKEN)
        r = OWED;
    if (r)
        memset(o, 0, sizeof *o);
    return r;
}
