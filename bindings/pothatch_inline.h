/* pothatch_inline.h: pothatch.h with types. Each ph_NAME but ph_node_reserve calls pothatch_NAME and does nothing else: structs are passed
 * by pointers of their own type, buffers of a fixed length without a length, and a result that is not looked at is a warning.
 * ph_node_reserve is made of calls of ph_node_send. Passing a ledger where a node is due is an error in C++. In C it may be a warning only:
 * compile with -Werror=incompatible-pointer-types (and for gcc -Werror=discarded-qualifiers) to make it an error. The rules of pothatch.h
 * hold. Made by bindings/generate.py. */
#ifndef POTHATCH_INLINE_H
#define POTHATCH_INLINE_H
#include "pothatch.h"
#ifdef __cplusplus
extern "C" {
#endif

#if defined(__GNUC__)
#define PH_CALL static inline __attribute__((warn_unused_result, unused))
#else
#define PH_CALL static inline
#endif

/* What a struct holds before it is used: zeros, and for an object that is made by hand its kind and layout. */
#ifdef __cplusplus
#define POTHATCH_REQUEST_INIT { 'Q', POTHATCH_LAYOUT, 0, {}, {}, {}, {} }
#define POTHATCH_CONFIGURATION_INIT { 'C', POTHATCH_LAYOUT, 0, {}, {}, {}, {}, {}, {}, {}, {}, {} }
#define POTHATCH_REPORTS_INIT {}
#define POTHATCH_FRAME_KEY_INIT {}
#define POTHATCH_NODE_INIT {}
#define POTHATCH_LEDGER_INIT {}
#define POTHATCH_PROXY_INIT {}
#define POTHATCH_PLEDGE_INIT {}
#define POTHATCH_SERIAL_INIT {}
#define POTHATCH_REPLAYED_INIT {}
#else
#define POTHATCH_REQUEST_INIT { .kind = 'Q', .layout = POTHATCH_LAYOUT }
#define POTHATCH_CONFIGURATION_INIT { .kind = 'C', .layout = POTHATCH_LAYOUT }
#define POTHATCH_REPORTS_INIT { 0 }
#define POTHATCH_FRAME_KEY_INIT { 0 }
#define POTHATCH_NODE_INIT { 0 }
#define POTHATCH_LEDGER_INIT { 0 }
#define POTHATCH_PROXY_INIT { 0 }
#define POTHATCH_PLEDGE_INIT { 0 }
#define POTHATCH_SERIAL_INIT { 0 }
#define POTHATCH_REPLAYED_INIT { 0 }
#endif

/* The refusal's name and meaning, for logs. */
static inline const char *pothatch_strerror(uint32_t refusal) {
    switch (refusal) {
    case POTHATCH_OK: return "OK";
    case POTHATCH_CUT: return "CUT: the payload ends inside a data item";
    case POTHATCH_FORM: return "FORM: the payload has a CBOR head that is not supported";
    case POTHATCH_DEEP: return "DEEP: the payload nests over eight levels";
    case POTHATCH_EXTRA: return "EXTRA: bytes follow the payload's data item";
    case POTHATCH_TYPE: return "TYPE: not a map, a label that is not an integer, or a value of another type";
    case POTHATCH_TWICE: return "TWICE: a parameter occurs twice";
    case POTHATCH_KEYS: return "KEYS: a key set outside its limits";
    case POTHATCH_ROLE: return "ROLE: an undefined role";
    case POTHATCH_OWED: return "OWED: a network identifier is due and missing";
    case POTHATCH_CLASH: return "CLASH: a new key set shares identifiers with the active one";
    case POTHATCH_CLOCK: return "CLOCK: a time before the last one";
    case POTHATCH_ROOM: return "ROOM: a destination or memory too short";
    case POTHATCH_RANGE: return "RANGE: an argument outside its limits";
    case POTHATCH_SILENT: return "SILENT: no key for the frame";
    case POTHATCH_LONG: return "LONG: a payload over 256 bytes";
    case POTHATCH_PHASE: return "PHASE: not in this phase";
    case POTHATCH_FULL: return "FULL: no free address";
    case POTHATCH_UNKNOWN: return "UNKNOWN: the board holds no address";
    case POTHATCH_LOOSE: return "LOOSE: a CBOR head that is not the shortest";
    case POTHATCH_SEAL: return "SEAL: the tag is wrong";
    case POTHATCH_SPENT: return "SPENT: all sequence numbers of the key are used";
    case POTHATCH_STALE: return "STALE: the option body is too old or was never issued";
    default: return "not a refusal";
    }
}

PH_CALL uint32_t ph_size(uint64_t kind, uint32_t *size) {
    return pothatch_size(kind, size);
}

PH_CALL uint32_t ph_refusal_name(uint64_t number, uint8_t name[8]) {
    return pothatch_refusal_name(number, name, 8);
}

PH_CALL uint32_t ph_key_usage(uint64_t usage, uint32_t *encrypted, uint32_t *mic_length) {
    return pothatch_key_usage(usage, encrypted, mic_length);
}

PH_CALL uint32_t ph_request_read(uint64_t form, uint64_t reading, const uint8_t *payload, uint64_t payload_len,
    struct pothatch_request *out) {
    return pothatch_request_read(form, reading, payload, payload_len, (uint8_t *)out, sizeof *out);
}

PH_CALL uint32_t ph_configuration_read(uint64_t form, uint64_t reading, const uint8_t *payload, uint64_t payload_len,
    struct pothatch_configuration *out) {
    return pothatch_configuration_read(form, reading, payload, payload_len, (uint8_t *)out, sizeof *out);
}

PH_CALL uint32_t ph_request_write(uint64_t form, const struct pothatch_request *object, uint8_t *dst, uint64_t dst_len, uint64_t *length) {
    return pothatch_request_write(form, (const uint8_t *)object, sizeof *object, dst, dst_len, length);
}

PH_CALL uint32_t ph_configuration_write(uint64_t form, const struct pothatch_configuration *object, uint8_t *dst, uint64_t dst_len,
    uint64_t *length) {
    return pothatch_configuration_write(form, (const uint8_t *)object, sizeof *object, dst, dst_len, length);
}

PH_CALL uint32_t ph_configuration_merge(const struct pothatch_configuration *first, const struct pothatch_configuration *second,
    struct pothatch_configuration *out) {
    return pothatch_configuration_merge((const uint8_t *)first, sizeof *first, (const uint8_t *)second, sizeof *second, (uint8_t *)out,
        sizeof *out);
}

PH_CALL uint32_t ph_node_make(uint64_t form, uint64_t role, uint64_t has_network, const uint8_t *network, uint64_t network_len,
    struct pothatch_node *node) {
    return pothatch_node_make(form, role, has_network, network, network_len, (uint8_t *)node, sizeof *node);
}

PH_CALL uint32_t ph_node_start(struct pothatch_node *node, uint64_t time, uint64_t timeout, uint8_t *dst, uint64_t dst_len,
    uint64_t *length) {
    return pothatch_node_start((uint8_t *)node, sizeof *node, time, timeout, dst, dst_len, length);
}

PH_CALL uint32_t ph_node_poll(struct pothatch_node *node, uint64_t time, uint32_t *due) {
    return pothatch_node_poll((uint8_t *)node, sizeof *node, time, due);
}

PH_CALL uint32_t ph_node_answer(struct pothatch_node *node, uint64_t time, const uint8_t *payload, uint64_t payload_len,
    struct pothatch_reports *reports) {
    return pothatch_node_answer((uint8_t *)node, sizeof *node, time, payload, payload_len, (uint8_t *)reports, sizeof *reports);
}

PH_CALL uint32_t ph_node_update(struct pothatch_node *node, uint64_t time, const uint8_t *payload, uint64_t payload_len,
    struct pothatch_reports *reports) {
    return pothatch_node_update((uint8_t *)node, sizeof *node, time, payload, payload_len, (uint8_t *)reports, sizeof *reports);
}

PH_CALL uint32_t ph_node_holds(const struct pothatch_node *node, uint64_t time, uint32_t *holds) {
    return pothatch_node_holds((const uint8_t *)node, sizeof *node, time, holds);
}

PH_CALL uint32_t ph_node_send(struct pothatch_node *node, uint64_t frame_type, struct pothatch_frame_key *key) {
    return pothatch_node_send((uint8_t *)node, sizeof *node, frame_type, (uint8_t *)key, sizeof *key);
}

PH_CALL uint32_t ph_node_receive(const struct pothatch_node *node, uint64_t frame_type, uint64_t identifier,
    struct pothatch_frame_key *key) {
    return pothatch_node_receive((const uint8_t *)node, sizeof *node, frame_type, identifier, (uint8_t *)key, sizeof *key);
}

PH_CALL uint32_t ph_node_verified(struct pothatch_node *node, uint64_t frame_type, uint64_t identifier, uint32_t *change) {
    return pothatch_node_verified((uint8_t *)node, sizeof *node, frame_type, identifier, change);
}

PH_CALL uint32_t ph_ledger_open(uint64_t first, uint64_t size, const uint8_t *memory, uint64_t memory_len, struct pothatch_ledger *ledger) {
    return pothatch_ledger_open(first, size, memory, memory_len, (uint8_t *)ledger, sizeof *ledger);
}

PH_CALL uint32_t ph_ledger_grant(struct pothatch_ledger *ledger, uint8_t *memory, uint64_t memory_len, const uint8_t board[8],
    uint16_t *address) {
    return pothatch_ledger_grant((uint8_t *)ledger, sizeof *ledger, memory, memory_len, board, 8, address);
}

PH_CALL uint32_t ph_ledger_give_back(struct pothatch_ledger *ledger, uint8_t *memory, uint64_t memory_len, const uint8_t board[8],
    uint16_t *address) {
    return pothatch_ledger_give_back((uint8_t *)ledger, sizeof *ledger, memory, memory_len, board, 8, address);
}

PH_CALL uint32_t ph_ledger_free(const struct pothatch_ledger *ledger, uint64_t *count) {
    return pothatch_ledger_free((const uint8_t *)ledger, sizeof *ledger, count);
}

PH_CALL uint32_t ph_seal(const uint8_t key[16], const uint8_t nonce[13], const uint8_t *associated, uint64_t associated_len,
    const uint8_t *text, uint64_t text_len, uint8_t *dst, uint64_t dst_len, uint64_t *length) {
    return pothatch_seal(key, 16, nonce, 13, associated, associated_len, text, text_len, dst, dst_len, length);
}

PH_CALL uint32_t ph_unseal(const uint8_t key[16], const uint8_t nonce[13], const uint8_t *associated, uint64_t associated_len,
    const uint8_t *sealed, uint64_t sealed_len, uint8_t *dst, uint64_t dst_len, uint64_t *length) {
    return pothatch_unseal(key, 16, nonce, 13, associated, associated_len, sealed, sealed_len, dst, dst_len, length);
}

PH_CALL uint32_t ph_proxy_make(const uint8_t key[16], struct pothatch_proxy *proxy) {
    return pothatch_proxy_make(key, 16, (uint8_t *)proxy, sizeof *proxy);
}

PH_CALL uint32_t ph_proxy_set_key(struct pothatch_proxy *proxy, const uint8_t key[16]) {
    return pothatch_proxy_set_key((uint8_t *)proxy, sizeof *proxy, key, 16);
}

PH_CALL uint32_t ph_proxy_issue(struct pothatch_proxy *proxy, const uint8_t interface_id[8], uint64_t port, const uint8_t *token,
    uint64_t token_len, uint8_t *dst, uint64_t dst_len) {
    return pothatch_proxy_issue((uint8_t *)proxy, sizeof *proxy, interface_id, 8, port, token, token_len, dst, dst_len);
}

PH_CALL uint32_t ph_proxy_judge(const struct pothatch_proxy *proxy, const uint8_t *body, uint64_t body_len,
    struct pothatch_pledge *pledge) {
    return pothatch_proxy_judge((const uint8_t *)proxy, sizeof *proxy, body, body_len, (uint8_t *)pledge, sizeof *pledge);
}

PH_CALL uint32_t ph_serial_reset(struct pothatch_serial *serial) {
    return pothatch_serial_reset((uint8_t *)serial, sizeof *serial);
}

PH_CALL uint32_t ph_serial_part(struct pothatch_serial *serial, uint8_t *store, uint64_t store_len, const uint8_t *part,
    uint64_t part_len) {
    return pothatch_serial_part((uint8_t *)serial, sizeof *serial, store, store_len, part, part_len);
}

PH_CALL uint32_t ph_serial_end_request(struct pothatch_serial *serial, const uint8_t *store, uint64_t store_len, uint64_t form,
    uint64_t reading, struct pothatch_request *out) {
    return pothatch_serial_end_request((uint8_t *)serial, sizeof *serial, store, store_len, form, reading, (uint8_t *)out, sizeof *out);
}

PH_CALL uint32_t ph_serial_end_configuration(struct pothatch_serial *serial, const uint8_t *store, uint64_t store_len, uint64_t form,
    uint64_t reading, struct pothatch_configuration *out) {
    return pothatch_serial_end_configuration((uint8_t *)serial, sizeof *serial, store, store_len, form, reading, (uint8_t *)out,
        sizeof *out);
}

PH_CALL uint32_t ph_replay(const uint8_t *trace, uint64_t trace_len, struct pothatch_node *node, struct pothatch_replayed *out) {
    return pothatch_replay(trace, trace_len, (uint8_t *)node, sizeof *node, (uint8_t *)out, sizeof *out);
}

/* The most frames that one reservation covers: it takes a call of pothatch_node_send for each. */
#define POTHATCH_RESERVE_MOST 65536u

/* Reserves the counters of the next `count` frames of a type, so that the node is stored once for so many frames: `stored` becomes the node
 * as it is after these sendings, and `node` stays. It is no function of the library: it calls ph_node_send on `stored` for each frame.
 * Store `stored`; then send up to `count` frames of this type with `node`. After a restart continue with the stored node: it uses none of
 * these counters again (the law CountersReserved of the sources), while the key stays active. Reserve and store anew before the next frame
 * when the frames are used up, when a frame of the other type is due, and when an accepted start, answer, update or verified frame has
 * changed `node`. RANGE: not a node, an undefined frame type (both with count 0 too), a count over POTHATCH_RESERVE_MOST. SILENT: no key,
 * or not so many counters are left. Refused: `stored` is zeroed. RANGE also if `stored` is `node`, which then stays. The two may not
 * overlap otherwise. */
PH_CALL uint32_t ph_node_reserve(const struct pothatch_node *node, uint64_t frame_type, uint64_t count, struct pothatch_node *stored) {
    struct pothatch_frame_key key;
    uint32_t refusal = POTHATCH_RANGE;
    if (stored == node) return refusal;
    *stored = *node;
    if (count <= POTHATCH_RESERVE_MOST) refusal = ph_node_send(stored, frame_type, &key);
    if (count == 0 && refusal != POTHATCH_RANGE) { /* that was a trial */
        *stored = *node;
        refusal = POTHATCH_OK;
    }
    for (uint64_t i = 1; refusal == POTHATCH_OK && i < count; i++) refusal = ph_node_send(stored, frame_type, &key);
    for (uint64_t i = 0; refusal != POTHATCH_OK && i < sizeof *stored; i++) ((uint8_t *)stored)[i] = 0;
    for (uint64_t i = 0; i < sizeof key; i++) ((volatile uint8_t *)&key)[i] = 0;
    return refusal;
}

#ifdef __cplusplus
}
#endif
#endif
