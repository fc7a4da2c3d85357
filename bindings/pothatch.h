/* pothatch.h: the proved join and rekey software of a 6TiSCH thermostat, for C. Layout 1.
 * Made by bindings/generate.py. Each function is the proved function of the same name in the sources' crate pothatch.
 *
 * RETURN VALUES. A call returns 0, or a refusal's number (POTHATCH_CUT to POTHATCH_STALE); pothatch_layout alone returns a layout
 *   number. A call never traps, blocks or allocates memory, and keeps no pointer. Every integer argument is 64 bits wide and is judged
 *   by the call: one that does not fit is refused, so the caller checks nothing first. Every time fits: a negative number that is passed
 *   as a time becomes one of the largest (-1 becomes 2^64 - 1) and is accepted, after which every smaller time is refused with CLOCK.
 *
 * LANGUAGE. C11 or later, or C++11 or later; <stdint.h> is the only header needed.
 *
 * PARAMETERS. Each pointer parameter is one of four kinds, named in brackets at each function:
 *   [in]     read, never written.
 *   [state]  an image (node, ledger, proxy, serial), the ledger's memory or the serial store. Accepted: changed as the rules say.
 *            Refused: no byte changes, except for the two marks of a serial image that pothatch_serial_part and pothatch_serial_end_
 *            describe.
 *   [dst]    a destination for bytes. Accepted: the first bytes are written, the others stay. Refused: no byte changes.
 *   [result] a struct or a number that the call returns. Accepted: every byte is written. Refused: every byte is 0. A zeroed struct is
 *            not an image: a call that is handed it returns RANGE. Its members read as an empty object, so nothing of an earlier board
 *            is left in it. If the length given is not the struct's size, the call returns RANGE and does not touch the struct.
 *
 * LENGTHS AND ALIGNMENT. A buffer is a pointer and its length in bytes. Buffers and structs need no alignment. With length 0 the pointer
 *   may be NULL. A pointer to a number (uint16_t, uint32_t, uint64_t) must be aligned for it and not NULL.
 *
 * ALIASING. No byte that a call may write ([state], [dst], [result]) may be passed to it twice; the proofs say nothing about such a
 *   call. Buffers that are only read may overlap.
 *
 * THREADS. The library has no variables of its own. Calls may run at the same time as long as no call writes bytes that another one
 *   uses.
 *
 * IMAGES are structs of bytes (alignment 1, no padding, the same on every machine). Numbers of several bytes are big-endian:
 *   pothatch_u16, _u32 and _u64 read them, pothatch_put16, _put32 and _put64 write them. A request or a configuration may be made by
 *   hand: clear the struct, then set kind, layout and members. A parameter is written only if its `report` (that of the keys is
 *   `keys_report`) is POTHATCH_TAKEN: otherwise its codes are judged, but it is left out. A lease is written only if `leased` is 1. The
 *   image of a state (node, ledger, proxy, serial) is made by its _make, _open or _reset call, a node's also by pothatch_replay, and
 *   changed by calls only; its members may be read. A buffer that is not a valid image (wrong length, kind or layout, undefined code)
 *   is refused with RANGE before any other check. There is no checksum: damage that gives another valid image is not noticed. Equal
 *   states have equal bytes, except for unused places such as the keys after the first `count`.
 *
 * STORING IMAGES. An image may be stored (a ledger's together with its memory) and used later by a library with the same layout number.
 *   A call that a reset interrupts may leave an image half written: keep two copies and switch after the call. A node's clock continues
 *   from its last time: after a restart pass times that do so too. Images of nodes and proxies, configurations, frame keys, payloads,
 *   serial stores and traces contain keys, and so does the stack after a call: protect and erase them as keys.
 *
 * COUNTERS AND NONCES. Let each call get the image that the call before it left. Then a node uses no counter twice under a key while
 *   that key, by identifier and value, stays in the active set, and a proxy issues no number twice under a key until a key is set. A
 *   link key that left the active set and comes back begins at counter 0 again, and so does the same value under another identifier: a
 *   node does not remember keys that it no longer holds. So a JRC must never hand out a key value again.
 *   Store the new image of a node or proxy BEFORE the frame or the option body leaves the board, and never return to an older image.
 *   The same holds for a ledger with its memory: store both before the address leaves, and never return to an older pair, which could
 *   grant an address to a second board. To store a node once for many frames, reserve their counters with ph_node_reserve
 *   (pothatch_inline.h), which says what to store when.
 *   Never make a proxy with a key, or set a key, that a proxy had before: keep its image across restarts. Never give a node that was
 *   made anew keys that it had before, and never send with a replayed node, whose counters are 0. pothatch_seal does not remember
 *   nonces: use each once under a key.
 *
 * SIDE CHANNELS. AES looks up tables of 256 entries by bytes that depend on the key, so it is not constant-time: on a processor with a
 *   data cache its time may depend on key and data. Comparing a tag or a proxy's key does not stop at the first byte that differs;
 *   comparing link keys does. No call promises anything about time.
 *
 * FURTHER. FIRMWARE.md (installed in share/pothatch, in the sources in docs) says what a board stores, and when. PERFORMANCE.md beside it
 *   has the stack that each call needs. */
#ifndef POTHATCH_H
#define POTHATCH_H
#include <stdint.h>
#ifdef __cplusplus
extern "C" {
#endif

/* ---- numbers */
#define POTHATCH_LAYOUT 1u

/* The papers' numbers for why a call was refused. */
enum pothatch_refusal {
    POTHATCH_OK = 0,
    POTHATCH_CUT = 1,            /* the payload ends inside a data item */
    POTHATCH_FORM = 2,           /* the payload has a CBOR head that is not supported */
    POTHATCH_DEEP = 3,           /* the payload nests over eight levels */
    POTHATCH_EXTRA = 4,          /* bytes follow the payload's data item */
    POTHATCH_TYPE = 5,           /* not a map, a label that is not an integer, or a value of another type */
    POTHATCH_TWICE = 6,          /* a parameter occurs twice */
    POTHATCH_KEYS = 7,           /* a key set outside its limits */
    POTHATCH_ROLE = 8,           /* an undefined role */
    POTHATCH_OWED = 9,           /* a network identifier is due and missing */
    POTHATCH_CLASH = 10,         /* a new key set shares identifiers with the active one */
    POTHATCH_CLOCK = 11,         /* a time before the last one */
    POTHATCH_ROOM = 12,          /* a destination or memory too short */
    POTHATCH_RANGE = 13,         /* an argument outside its limits */
    POTHATCH_SILENT = 14,        /* no key for the frame */
    POTHATCH_LONG = 15,          /* a payload over 256 bytes */
    POTHATCH_PHASE = 16,         /* not in this phase */
    POTHATCH_FULL = 17,          /* no free address */
    POTHATCH_UNKNOWN = 18,       /* the board holds no address */
    POTHATCH_LOOSE = 19,         /* a CBOR head that is not the shortest */
    POTHATCH_SEAL = 20,          /* the tag is wrong */
    POTHATCH_SPENT = 21,         /* all sequence numbers of the key are used */
    POTHATCH_STALE = 22          /* the option body is too old or was never issued */
};

/* Which document a payload or node follows. */
enum pothatch_version {
    POTHATCH_DRAFT = 0,          /* draft-ietf-6tisch-minimal-security-06 */
    POTHATCH_PUBLISHED = 1       /* RFC 9031 */
};

/* How strict a reading is. */
enum pothatch_reading {
    POTHATCH_READ_ANY = 0,       /* accepts any CBOR head */
    POTHATCH_READ_STRICT = 1     /* accepts shortest heads only, else LOOSE */
};

/* A node's role. */
enum pothatch_role {
    POTHATCH_NODE = 0,           /* ordinary node */
    POTHATCH_BORDER = 1          /* border router (6LBR) */
};

/* What became of a parameter. In a node's members: 0 none, 1 held. */
enum pothatch_report {
    POTHATCH_ABSENT = 0,         /* not in the payload */
    POTHATCH_TAKEN = 1,          /* taken */
    POTHATCH_DISCARDED = 2       /* discarded; in RFC 9031 malformed and reported */
};

/* Where a join attempt is. */
enum pothatch_phase {
    POTHATCH_IDLE = 0,           /* not started */
    POTHATCH_WAITING = 1,        /* waiting for the join answer */
    POTHATCH_JOINED = 2,         /* joined */
    POTHATCH_GAVE_UP = 3         /* given up */
};

/* The type of a frame; an acknowledgement counts as data. */
enum pothatch_frame_type {
    POTHATCH_BEACON = 0,         /* beacon */
    POTHATCH_DATA = 1            /* data or acknowledgement */
};

/* What pothatch_node_poll returns; 0 beside a refusal. */
enum pothatch_due {
    POTHATCH_DUE_NOT_YET = 1,    /* nothing */
    POTHATCH_DUE_SEND = 2,       /* send the join request again */
    POTHATCH_DUE_GAVE_UP = 3     /* the attempt was given up */
};

/* What pothatch_node_holds returns; 0 beside a refusal. Neither is 0: compare with HOLDS. */
enum pothatch_holds {
    POTHATCH_HOLDS = 1,          /* the short address holds */
    POTHATCH_LAPSED = 2          /* no short address, or its lease is over */
};

/* What pothatch_node_verified returns; 0 beside a refusal. */
enum pothatch_change {
    POTHATCH_KEPT = 1,           /* the keys stay */
    POTHATCH_SWITCHED = 2        /* the pending set became the active one */
};

/* Sizes that callers need. */
#define POTHATCH_PAYLOAD_MOST 256u /* bytes of a payload, and of a serial store */
#define POTHATCH_REQUEST_MOST 38u /* bytes that a start writes at most */
#define POTHATCH_BODY 31u /* bytes of a join proxy's option body */
#define POTHATCH_TAG 8u /* bytes that sealing adds to a text */
#define POTHATCH_PLACE 9u /* bytes of a ledger's memory for each address */

/* ---- structs of bytes */
/* One link-layer key. 27 bytes. */
struct pothatch_key {
    uint8_t identifier;              /* 1 to 255 */
    uint8_t usage;                   /* 0 to 14; pothatch_key_usage says what it means */
    uint8_t value[16];
    uint8_t info_len;                /* length of the additional information (RFC 9031): 0, 4 or 8 */
    uint8_t info[8];                 /* zeros after the first info_len */
};

/* A set of keys. 217 bytes. */
struct pothatch_key_set {
    uint8_t count;                   /* 1 to 8; 0: no set */
    struct pothatch_key keys[8];     /* those after the first count do not count, but their info is judged */
};

/* A JRC address, network identifier or prefix. 18 bytes. */
struct pothatch_octets {
    uint8_t report;                  /* written only if TAKEN */
    uint8_t len;                     /* 0 to 16, a JRC address 16; an empty one is not an absent one */
    uint8_t bytes[16];
};

/* A short address and its lease. 12 bytes. */
struct pothatch_address {
    uint8_t report;                  /* written only if TAKEN */
    uint8_t bytes[2];                /* FFFE and FFFF are not addresses */
    uint8_t leased;                  /* 0: no end, and `lease` is not written; 1: for `lease` */
    uint8_t lease[8];                /* seconds; in RFC 9031 hours. Ask pothatch_node_holds rather than converting it */
};

/* The members of a CBOR array, in shortest heads, one after another. 256 bytes. */
struct pothatch_list {
    uint8_t report;                  /* written only if TAKEN */
    uint8_t count;                   /* members */
    uint8_t len;                     /* bytes, 0 to 253 */
    uint8_t bytes[253];
};

/* A join rate. 9 bytes. */
struct pothatch_rate {
    uint8_t report;                  /* written only if TAKEN */
    uint8_t value[8];                /* bytes a second */
};

/* Error reports of parameters, in payload order. 11 bytes. */
struct pothatch_faults {
    uint8_t count;                   /* 0 to 5 */
    uint8_t entry[5][2];             /* error code (0 unsupported, 1 malformed), label */
};

/* A join request. A parameter is written only if its report is TAKEN. 296 bytes. */
struct pothatch_request {
    uint8_t kind;                    /* 'Q' */
    uint8_t layout;
    uint8_t role;
    struct pothatch_octets network;
    struct pothatch_list unsupported; /* label 8 (RFC 9031): for each report its code, its label and null */
    struct pothatch_faults faults;   /* what was bad in this request (RFC 9031) */
    uint8_t passed[8];               /* number of unknown labels */
};

/* A configuration. A parameter is written only if its report (keys_report) is TAKEN, a lease only if leased is 1. 570 bytes. */
struct pothatch_configuration {
    uint8_t kind;                    /* 'C' */
    uint8_t layout;
    uint8_t keys_report;             /* TAKEN: the keys are written */
    struct pothatch_key_set keys;
    struct pothatch_address address;
    struct pothatch_octets jrc;
    struct pothatch_octets network;  /* draft */
    struct pothatch_octets prefix;   /* draft */
    struct pothatch_list blacklist;  /* byte strings (RFC 9031) */
    struct pothatch_rate rate;       /* join rate (RFC 9031) */
    struct pothatch_faults came;     /* RFC 9031: each known label of the payload, good or bad, in payload order, with code 1 */
    uint8_t passed[8];               /* number of unknown labels */
};

/* What a node made of each parameter. 17 bytes. */
struct pothatch_reports {
    uint8_t kind;                    /* 'R' */
    uint8_t layout;
    uint8_t keys;
    uint8_t address;
    uint8_t jrc;
    uint8_t network;
    uint8_t prefix;
    uint8_t blacklist;
    uint8_t rate;
    uint8_t passed[8];               /* number of unknown labels */
};

/* The key for a frame. 33 bytes. */
struct pothatch_frame_key {
    uint8_t kind;                    /* 'K' */
    uint8_t layout;
    struct pothatch_key key;
    uint8_t counter[4];              /* the counter to send with; 0 for receiving */
};

/* A key set with the next frame counter of each key. 249 bytes. */
struct pothatch_counted_set {
    struct pothatch_key_set set;
    uint8_t counters[8][4];
};

/* A join attempt; times in milliseconds. 26 bytes. */
struct pothatch_attempt {
    uint8_t phase;
    uint8_t clock[8];                /* the last accepted time */
    uint8_t sent[8];                 /* when the request was last sent */
    uint8_t timeout[8];              /* how long after that the next step is due */
    uint8_t count;                   /* retransmissions made, 0 to 4 */
};

/* A node. 878 bytes. */
struct pothatch_node {
    uint8_t kind;                    /* 'N' */
    uint8_t layout;
    uint8_t role;
    struct pothatch_attempt attempt;
    struct pothatch_counted_set active;
    struct pothatch_counted_set pending;
    struct pothatch_address address;
    uint8_t received[8];             /* when the address was received */
    struct pothatch_octets jrc;
    struct pothatch_octets network;
    struct pothatch_octets prefix;
    uint8_t form;                    /* version, fixed when the node is made */
    struct pothatch_list blacklist;
    struct pothatch_rate rate;
    struct pothatch_faults faults;   /* what the next request lists */
};

/* A ledger; its addresses are in lent memory, nine bytes each. 16 bytes. */
struct pothatch_ledger {
    uint8_t kind;                    /* 'L' */
    uint8_t layout;
    uint8_t first[2];                /* lowest address of the range */
    uint8_t size[2];                 /* number of addresses */
    uint8_t left[2];                 /* free addresses */
    uint8_t marks[8];                /* a bit for each 64 addresses, the lowest in the last byte's lowest bit: whether one is free */
};

/* A join proxy. 26 bytes. */
struct pothatch_proxy {
    uint8_t kind;                    /* 'P' */
    uint8_t layout;
    uint8_t key[16];
    uint8_t issued[8];               /* numbers issued under this key, 0 to 4294967296 */
};

/* Where a join response goes. 21 bytes. */
struct pothatch_pledge {
    uint8_t kind;                    /* 'G' */
    uint8_t layout;
    uint8_t interface_id[8];
    uint8_t port[2];
    uint8_t token_len;
    uint8_t token[8];
};

/* A payload that arrives in parts; its bytes are in a lent store of 256. 6 bytes. */
struct pothatch_serial {
    uint8_t kind;                    /* 'S' */
    uint8_t layout;
    uint8_t arrived[2];              /* bytes that arrived, 0 to 256 */
    uint8_t overrun;                 /* 1: a part passed 256 */
    uint8_t ended;                   /* 1: the end was marked */
};

/* What a replay found. 251 bytes. */
struct pothatch_replayed {
    uint8_t kind;                    /* 'T' */
    uint8_t layout;
    uint8_t kinds[6][8];             /* records by kind, 1 first */
    uint8_t refusals[22][8];         /* refusals by number, 1 first */
    uint8_t switches[8];             /* from pending to active */
    uint8_t longest[8];              /* longest wait from an accepted start to its accepted join answer, ms */
    uint8_t stopped;                 /* 0: the whole trace was walked; 1: it stopped at `place` */
    uint8_t place[8];                /* offset of that record; else the trace's length */
};

/* A refusal must not be overlooked. Define POTHATCH_MAY_IGNORE before the include where that is not wanted. */
#if defined(__GNUC__) && !defined(POTHATCH_MAY_IGNORE)
#define POTHATCH_CHECKED __attribute__((warn_unused_result))
#else
#define POTHATCH_CHECKED
#endif

/* Passes a struct, or all of an array, as a pointer and its length: pothatch_node_poll(POTHATCH_LEND(&node), time, &due). An array needs
 * the & too: POTHATCH_LEND(&text). Without it, and for a pointer to bytes, the size would be 1, which does not compile; a single byte is
 * passed as a pointer and 1. The functions of pothatch_inline.h take typed pointers instead. */
#define POTHATCH_LENGTH(p) (sizeof *(p) * sizeof(char[sizeof *(p) > 1 ? 1 : -1]))
#define POTHATCH_LEND(p) ((uint8_t *)(void *)(p)), POTHATCH_LENGTH(p)
#define POTHATCH_LEND_IN(p) ((const uint8_t *)(const void *)(p)), POTHATCH_LENGTH(p)

/* ---- The library. */
/* The layout number of the images that the library was built with. */
uint32_t pothatch_layout(void);

/* The size of the struct of a kind, for instance 'L'. RANGE: an undefined kind. [result] size */
uint32_t pothatch_size(uint64_t kind, uint32_t *size) POTHATCH_CHECKED;

/* The refusal's name in ASCII, padded with zeros. RANGE: an undefined number. [result] name (8 bytes) */
uint32_t pothatch_refusal_name(uint64_t number, uint8_t *name, uint64_t name_len) POTHATCH_CHECKED;

/* What a key's usage means for the radio: whether data frames and acknowledgements are encrypted (1) or only authenticated (0), and the
 * length of a frame's MIC in bytes (4, 8 or 16). Beacons are never encrypted, whatever the usage. RANGE: a usage over 14. [result]
 * encrypted, mic_length */
uint32_t pothatch_key_usage(uint64_t usage, uint32_t *encrypted, uint32_t *mic_length) POTHATCH_CHECKED;

/* ---- Payloads. `form` is a version. */
/* Reads a join request. RANGE: an undefined form or reading; then as the papers order (LONG first; LOOSE in a strict reading). [in]
 * payload; [result] out: a struct pothatch_request */
uint32_t pothatch_request_read(uint64_t form, uint64_t reading, const uint8_t *payload, uint64_t payload_len, uint8_t *out,
    uint64_t out_len) POTHATCH_CHECKED;

/* Reads a configuration. Refused as pothatch_request_read is. [in] payload; [result] out: a struct pothatch_configuration */
uint32_t pothatch_configuration_read(uint64_t form, uint64_t reading, const uint8_t *payload, uint64_t payload_len, uint8_t *out,
    uint64_t out_len) POTHATCH_CHECKED;

/* Writes a join request: shortest heads, labels ascending. RANGE: an undefined form, not a request, outside its limits or over 256 bytes;
 * OWED; ROOM. [in] object: a struct pothatch_request; [dst] dst; [result] length */
uint32_t pothatch_request_write(uint64_t form, const uint8_t *object, uint64_t object_len, uint8_t *dst, uint64_t dst_len,
    uint64_t *length) POTHATCH_CHECKED;

/* Writes a configuration in the same way. RANGE, ROOM. [in] object: a struct pothatch_configuration; [dst] dst; [result] length */
uint32_t pothatch_configuration_write(uint64_t form, const uint8_t *object, uint64_t object_len, uint8_t *dst, uint64_t dst_len,
    uint64_t *length) POTHATCH_CHECKED;

/* Merges two configurations of the draft: each parameter from the second where it is taken there, else from the first. RANGE: not a
 * configuration, outside its limits, or read in RFC 9031's form with a known label (its lease is in hours). [in] first: a struct
 * pothatch_configuration, second: a struct pothatch_configuration; [result] out: a struct pothatch_configuration */
uint32_t pothatch_configuration_merge(const uint8_t *first, uint64_t first_len, const uint8_t *second, uint64_t second_len, uint8_t *out,
    uint64_t out_len) POTHATCH_CHECKED;

/* ---- The node. RANGE comes first: not an image, or the image of a node outside its limits. Times are milliseconds and never go back
 * (CLOCK). Authenticate a payload (OSCORE) before handing it in: the node believes it. */
/* Makes an idle node. has_network 0: it has no network identifier, and network is not read; then only a border router of the draft can
 * start. RANGE: an undefined form, role or has_network; with has_network 1 a network over 16 bytes. [in] network; [result] node: a struct
 * pothatch_node */
uint32_t pothatch_node_make(uint64_t form, uint64_t role, uint64_t has_network, const uint8_t *network, uint64_t network_len, uint8_t *node,
    uint64_t node_len) POTHATCH_CHECKED;

/* Starts a join attempt and writes the join request, at most 38 bytes. CLOCK; PHASE: while waiting; RANGE: a first timeout outside 10,000
 * to 15,000; OWED, ROOM. [state] node: a struct pothatch_node; [dst] dst; [result] length */
uint32_t pothatch_node_start(uint8_t *node, uint64_t node_len, uint64_t time, uint64_t timeout, uint8_t *dst, uint64_t dst_len,
    uint64_t *length) POTHATCH_CHECKED;

/* What is due in the join attempt, at most one step a call: a POTHATCH_DUE code. POTHATCH_DUE_SEND: send the bytes that the start wrote
 * again. CLOCK; PHASE: not waiting. [state] node: a struct pothatch_node; [result] due */
uint32_t pothatch_node_poll(uint8_t *node, uint64_t node_len, uint64_t time, uint32_t *due) POTHATCH_CHECKED;

/* Delivers a join answer, while waiting. LONG, CLOCK, PHASE; then as reading any heads in the node's version; OWED: a border router is left
 * without a network identifier; CLASH: draft (in RFC 9031 the set's report is 2). [in] payload; [state] node: a struct pothatch_node;
 * [result] reports: a struct pothatch_reports */
uint32_t pothatch_node_answer(uint8_t *node, uint64_t node_len, uint64_t time, const uint8_t *payload, uint64_t payload_len,
    uint8_t *reports, uint64_t reports_len) POTHATCH_CHECKED;

/* Delivers a parameter update, once joined. Refused as pothatch_node_answer is, without OWED. [in] payload; [state] node: a struct
 * pothatch_node; [result] reports: a struct pothatch_reports */
uint32_t pothatch_node_update(uint8_t *node, uint64_t node_len, uint64_t time, const uint8_t *payload, uint64_t payload_len,
    uint8_t *reports, uint64_t reports_len) POTHATCH_CHECKED;

/* Whether the short address holds: POTHATCH_HOLDS or POTHATCH_LAPSED. LAPSED is 2 and so true in an `if`: compare with POTHATCH_HOLDS.
 * CLOCK. [in] node: a struct pothatch_node; [result] holds */
uint32_t pothatch_node_holds(const uint8_t *node, uint64_t node_len, uint64_t time, uint32_t *holds) POTHATCH_CHECKED;

/* The key to send a frame with, and its counter, which rises by one in the node. RANGE: an undefined frame type; SILENT. [state] node: a
 * struct pothatch_node; [result] key: a struct pothatch_frame_key */
uint32_t pothatch_node_send(uint8_t *node, uint64_t node_len, uint64_t frame_type, uint8_t *key, uint64_t key_len) POTHATCH_CHECKED;

/* The key to receive a frame with. RANGE: an undefined frame type, an identifier outside 1 to 255; SILENT. [in] node: a struct
 * pothatch_node; [result] key: a struct pothatch_frame_key */
uint32_t pothatch_node_receive(const uint8_t *node, uint64_t node_len, uint64_t frame_type, uint64_t identifier, uint8_t *key,
    uint64_t key_len) POTHATCH_CHECKED;

/* The radio verified such a frame; under a pending key the pending set becomes active: POTHATCH_KEPT or POTHATCH_SWITCHED. Refused as
 * pothatch_node_receive is. [state] node: a struct pothatch_node; [result] change */
uint32_t pothatch_node_verified(uint8_t *node, uint64_t node_len, uint64_t frame_type, uint64_t identifier,
    uint32_t *change) POTHATCH_CHECKED;

/* ---- The ledger of short addresses. Only these calls may write its memory. FFFE and FFFF are never granted and never counted. */
/* Opens a ledger over memory that may hold earlier grants of the same range; for a fresh one fill the memory with 0 first. RANGE: a size
 * outside 1 to 4,096, a last address over FFFF; ROOM: memory under nine bytes an address. [in] memory; [result] ledger: a struct
 * pothatch_ledger */
uint32_t pothatch_ledger_open(uint64_t first, uint64_t size, const uint8_t *memory, uint64_t memory_len, uint8_t *ledger,
    uint64_t ledger_len) POTHATCH_CHECKED;

/* Grants the board the lowest free address, or the one that it holds. RANGE, ROOM; FULL. [in] board (8 bytes); [state] ledger: a struct
 * pothatch_ledger, memory; [result] address */
uint32_t pothatch_ledger_grant(uint8_t *ledger, uint64_t ledger_len, uint8_t *memory, uint64_t memory_len, const uint8_t *board,
    uint64_t board_len, uint16_t *address) POTHATCH_CHECKED;

/* Takes the board's address back. RANGE, ROOM; UNKNOWN. [in] board (8 bytes); [state] ledger: a struct pothatch_ledger, memory; [result]
 * address */
uint32_t pothatch_ledger_give_back(uint8_t *ledger, uint64_t ledger_len, uint8_t *memory, uint64_t memory_len, const uint8_t *board,
    uint64_t board_len, uint16_t *address) POTHATCH_CHECKED;

/* How many addresses are free. RANGE. [in] ledger: a struct pothatch_ledger; [result] count */
uint32_t pothatch_ledger_free(const uint8_t *ledger, uint64_t ledger_len, uint64_t *count) POTHATCH_CHECKED;

/* ---- AES-CCM-16-64-128: associated data to 64 bytes, text to 256. Input and dst may not overlap. */
/* Seals a text and appends the tag of 8 bytes. RANGE: lengths; ROOM. [in] key (16 bytes), nonce (13 bytes), associated, text; [dst] dst;
 * [result] length */
uint32_t pothatch_seal(const uint8_t *key, uint64_t key_len, const uint8_t *nonce, uint64_t nonce_len, const uint8_t *associated,
    uint64_t associated_len, const uint8_t *text, uint64_t text_len, uint8_t *dst, uint64_t dst_len, uint64_t *length) POTHATCH_CHECKED;

/* Opens a sealed text. RANGE: lengths; ROOM; SEAL. [in] key (16 bytes), nonce (13 bytes), associated, sealed; [dst] dst; [result] length */
uint32_t pothatch_unseal(const uint8_t *key, uint64_t key_len, const uint8_t *nonce, uint64_t nonce_len, const uint8_t *associated,
    uint64_t associated_len, const uint8_t *sealed, uint64_t sealed_len, uint8_t *dst, uint64_t dst_len, uint64_t *length) POTHATCH_CHECKED;

/* ---- The join proxy. */
/* Makes a proxy that has issued nothing. RANGE: the key's length. [in] key (16 bytes); [result] proxy: a struct pothatch_proxy */
uint32_t pothatch_proxy_make(const uint8_t *key, uint64_t key_len, uint8_t *proxy, uint64_t proxy_len) POTHATCH_CHECKED;

/* Sets a key; numbers begin at 0 again. RANGE: the key's length, or the key in use. [in] key (16 bytes); [state] proxy: a struct
 * pothatch_proxy */
uint32_t pothatch_proxy_set_key(uint8_t *proxy, uint64_t proxy_len, const uint8_t *key, uint64_t key_len) POTHATCH_CHECKED;

/* Issues an option body of 31 bytes. RANGE: the identifier's length, a port over 65,535, a token over 8 bytes; SPENT, ROOM. [in]
 * interface_id (8 bytes), token; [state] proxy: a struct pothatch_proxy; [dst] dst */
uint32_t pothatch_proxy_issue(uint8_t *proxy, uint64_t proxy_len, const uint8_t *interface_id, uint64_t interface_id_len, uint64_t port,
    const uint8_t *token, uint64_t token_len, uint8_t *dst, uint64_t dst_len) POTHATCH_CHECKED;

/* Whom a response with this body goes to. TYPE, SEAL, RANGE, STALE. [in] proxy: a struct pothatch_proxy, body; [result] pledge: a struct
 * pothatch_pledge */
uint32_t pothatch_proxy_judge(const uint8_t *proxy, uint64_t proxy_len, const uint8_t *body, uint64_t body_len, uint8_t *pledge,
    uint64_t pledge_len) POTHATCH_CHECKED;

/* ---- Payloads that arrive in parts, into a lent store. RANGE comes first: not an image, a store under 256 bytes. */
/* Begins anew, whatever the image holds. The store need not be cleared: its former bytes are never read. [result] serial: a struct
 * pothatch_serial */
uint32_t pothatch_serial_reset(uint8_t *serial, uint64_t serial_len) POTHATCH_CHECKED;

/* Takes one more part. LONG: over 256 bytes, now or before; nothing of the part is stored, and the overrun is marked in the image. PHASE:
 * after the end. [in] part; [state] serial: a struct pothatch_serial, store */
uint32_t pothatch_serial_part(uint8_t *serial, uint64_t serial_len, uint8_t *store, uint64_t store_len, const uint8_t *part,
    uint64_t part_len) POTHATCH_CHECKED;

/* Marks the end and reads what arrived as pothatch_request_read does. RANGE: an undefined form or reading; LONG, PHASE; then as the
 * reading. The end stays marked if the reading is refused. [in] store; [state] serial: a struct pothatch_serial; [result] out: a struct
 * pothatch_request */
uint32_t pothatch_serial_end_request(uint8_t *serial, uint64_t serial_len, const uint8_t *store, uint64_t store_len, uint64_t form,
    uint64_t reading, uint8_t *out, uint64_t out_len) POTHATCH_CHECKED;

/* The same for a configuration. [in] store; [state] serial: a struct pothatch_serial; [result] out: a struct pothatch_configuration */
uint32_t pothatch_serial_end_configuration(uint8_t *serial, uint64_t serial_len, const uint8_t *store, uint64_t store_len, uint64_t form,
    uint64_t reading, uint8_t *out, uint64_t out_len) POTHATCH_CHECKED;

/* ---- A recorded trace (draft). */
/* Replays a trace record by record. Returns 0 also if it stopped early: `out` says so. node: all 0 if the trace made none. RANGE: a
 * struct's length. [in] trace; [result] node: a struct pothatch_node, out: a struct pothatch_replayed */
uint32_t pothatch_replay(const uint8_t *trace, uint64_t trace_len, uint8_t *node, uint64_t node_len, uint8_t *out,
    uint64_t out_len) POTHATCH_CHECKED;

/* ---- numbers of several bytes in structs: big-endian */
static inline uint16_t pothatch_u16(const uint8_t p[2]) { return (uint16_t)((p[0] << 8) | p[1]); }
static inline uint32_t pothatch_u32(const uint8_t p[4]) { return ((uint32_t)pothatch_u16(p) << 16) | pothatch_u16(p + 2); }
static inline uint64_t pothatch_u64(const uint8_t p[8]) { return ((uint64_t)pothatch_u32(p) << 32) | pothatch_u32(p + 4); }
static inline void pothatch_put16(uint8_t p[2], uint16_t v) { p[0] = (uint8_t)(v >> 8); p[1] = (uint8_t)v; }
static inline void pothatch_put32(uint8_t p[4], uint32_t v) { pothatch_put16(p, (uint16_t)(v >> 16)); pothatch_put16(p + 2, (uint16_t)v); }
static inline void pothatch_put64(uint8_t p[8], uint64_t v) { pothatch_put32(p, (uint32_t)(v >> 32)); pothatch_put32(p + 4, (uint32_t)v); }

/* ---- a struct with padding is not an image: refuse to compile */
#if defined(__cplusplus)
#define POTHATCH_IS(t, n) static_assert(sizeof(struct t) == (n), #t)
#else
#define POTHATCH_IS(t, n) _Static_assert(sizeof(struct t) == (n), #t)
#endif
POTHATCH_IS(pothatch_key, 27);
POTHATCH_IS(pothatch_key_set, 217);
POTHATCH_IS(pothatch_octets, 18);
POTHATCH_IS(pothatch_address, 12);
POTHATCH_IS(pothatch_list, 256);
POTHATCH_IS(pothatch_rate, 9);
POTHATCH_IS(pothatch_faults, 11);
POTHATCH_IS(pothatch_request, 296);
POTHATCH_IS(pothatch_configuration, 570);
POTHATCH_IS(pothatch_reports, 17);
POTHATCH_IS(pothatch_frame_key, 33);
POTHATCH_IS(pothatch_counted_set, 249);
POTHATCH_IS(pothatch_attempt, 26);
POTHATCH_IS(pothatch_node, 878);
POTHATCH_IS(pothatch_ledger, 16);
POTHATCH_IS(pothatch_proxy, 26);
POTHATCH_IS(pothatch_pledge, 21);
POTHATCH_IS(pothatch_serial, 6);
POTHATCH_IS(pothatch_replayed, 251);
#undef POTHATCH_IS
#ifdef __cplusplus
}
#endif
#endif
