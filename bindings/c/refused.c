/* Lines that must not compile, one at a time: -DLINE=N. Without LINE it must compile. */
#include "pothatch_inline.h"

uint32_t lines(struct pothatch_node *node, const struct pothatch_node *kept, struct pothatch_ledger *ledger, uint32_t *word);
uint32_t lines(struct pothatch_node *node, const struct pothatch_node *kept, struct pothatch_ledger *ledger, uint32_t *word) {
    (void)kept, (void)ledger;
#if LINE == 1 /* a ledger where a node is due */
    return ph_node_poll(ledger, 0, word);
#elif LINE == 2 /* a call that changes the node, on one that may not change */
    return ph_node_poll(kept, 0, word);
#elif LINE == 3 /* a refusal that nobody looks at */
    ph_node_poll(node, 0, word);
    return 0;
#elif LINE == 4 /* the same of the function itself */
    pothatch_node_poll(POTHATCH_LEND(node), 0, word);
    return 0;
#elif LINE == 5 /* a number of another width for the result */
    uint64_t due;
    return ph_node_poll(node, 0, &due);
#elif LINE == 6 /* an array without its & */
    static const uint8_t trace[] = {1, 2, 3};
    return pothatch_replay(POTHATCH_LEND_IN(trace), POTHATCH_LEND(node), POTHATCH_LEND(ledger));
#elif LINE == 7 /* the same where the call writes */
    uint8_t name[8];
    return pothatch_refusal_name(1, POTHATCH_LEND(name));
#else
    uint8_t name[8];
    struct pothatch_configuration c = POTHATCH_CONFIGURATION_INIT;
    struct pothatch_request r = POTHATCH_REQUEST_INIT;
    struct pothatch_proxy p = POTHATCH_PROXY_INIT;
    return ph_node_poll(node, 0, word) + ph_node_holds(kept, 0, word) + pothatch_refusal_name(1, POTHATCH_LEND(&name)) + c.kind + r.layout
        + p.kind;
#endif
}
