/* The most frames that one reservation covers: it takes a call of pothatch_node_send for each. */
#define POTHATCH_RESERVE_MOST 65536u

/* Reserves the counters of the next `count` frames of a type, so that the node is stored once for so many frames: `stored` becomes the node
 * as it is after these sendings, and `node` stays. It is no function of the library: it calls ph_node_send on `stored` for each frame.
 * Store `stored`; then send up to `count` frames of this type with `node`. After a restart continue with the stored node: it uses none of
 * these counters again (the law CountersReserved of the sources), while the key stays active. Reserve and store anew before the next frame
 * when the frames are used up, when a frame of the other type is due, and when an accepted start, answer, update or verified frame has
 * changed `node`. RANGE: not a node, an undefined frame type (both with count 0 too), a count over POTHATCH_RESERVE_MOST. SILENT: no key,
 * or not so many counters are left. Refused: `stored` is zeroed. RANGE also if `stored` is `node`, which then stays. The two may not
 * overlap otherwise. */
PH_CALL uint32_t ph_node_reserve(const struct pothatch_node *node, uint64_t frame_type, uint64_t count, struct pothatch_node *stored) {
    struct pothatch_frame_key key;
    uint32_t refusal = POTHATCH_RANGE;
    if (stored == node) return refusal;
    *stored = *node;
    if (count <= POTHATCH_RESERVE_MOST) refusal = ph_node_send(stored, frame_type, &key);
    if (count == 0 && refusal != POTHATCH_RANGE) { /* that was a trial */
        *stored = *node;
        refusal = POTHATCH_OK;
    }
    for (uint64_t i = 1; refusal == POTHATCH_OK && i < count; i++) refusal = ph_node_send(stored, frame_type, &key);
    for (uint64_t i = 0; refusal != POTHATCH_OK && i < sizeof *stored; i++) ((uint8_t *)stored)[i] = 0;
    for (uint64_t i = 0; i < sizeof key; i++) ((volatile uint8_t *)&key)[i] = 0;
    return refusal;
}
