/* Document 01, "Giving out slots", and with the setting on request 12 of document 02. A state stays as its numbers: the clock, then the slots that each node
 * has left. */
#include "inner.h"

#include <string.h>

enum { OFF = 0, ON = 1 };
enum { IDLE = 254, NOT_SUPPLIED = 255 };
enum { CLOCK = 0, LEFT = 1 };

/* A count must be one that a state can hold, for the nodes that the plan has not, too; beyond that only the nodes of the plan are looked at. */
static int state_is_fit(const struct plan *plan, const uint64_t *state)
{
    if (state[CLOCK] > LIMIT) return 0;
    for (uint32_t i = 0; i < MOST_NODES; i++) {
        if (state[LEFT + i] > 65535) return 0;
    }
    for (uint32_t i = 0; i < plan->node_count; i++) {
        if (state[LEFT + i] > plan->nodes[i].served.c) return 0;
    }
    return 1;
}

/* At a slot whose number is a multiple of a node's served T the node's left becomes its served C. */
static void refill(const struct plan *plan, uint64_t *state)
{
    for (uint32_t i = 0; i < plan->node_count; i++) {
        if (state[CLOCK] % plan->nodes[i].served.t == 0) state[LEFT + i] = plan->nodes[i].served.c;
    }
}

static int declines_slot(const struct plan *plan, uint64_t declines, uint32_t i)
{
    return plan->nodes[i].kind != HOST && (declines >> i & 1) == 1;
}

/* Among the parent's children with slots left, leaves that decline and hosts tried in vain (as bits) passed over, the one with the smallest served T, then the
 * lowest number; MOST_NODES where there is nobody to take. */
static uint32_t pick(const struct plan *plan, const uint64_t *state, uint64_t declines, uint64_t in_vain, uint32_t parent)
{
    uint32_t best = MOST_NODES;
    for (uint32_t i = 0; i < plan->node_count; i++) {
        if (plan->nodes[i].parent != parent || state[LEFT + i] == 0 || declines_slot(plan, declines, i) || (in_vain >> i & 1) == 1) continue;
        if (best == MOST_NODES || plan->nodes[i].served.t < plan->nodes[best].served.t) best = i;
    }
    return best;
}

/* Off: from the supply down through hosts, each one taken charged, to a leaf or to nobody. */
static uint8_t walk(const struct plan *plan, uint64_t *state, uint64_t declines, uint32_t supply)
{
    uint32_t parent = supply;
    for (;;) {
        uint32_t taken = pick(plan, state, declines, 0, parent);
        if (taken == MOST_NODES) return IDLE;
        state[LEFT + taken]--;
        if (plan->nodes[taken].kind != HOST) return (uint8_t)taken;
        parent = FIRST_NODE_BYTE + taken;
    }
}

/* On: the parent's children one after the other, and a host's own children in the same way, until somebody takes the slot. A host is charged when somebody
 * under it has taken the slot, and so not where it was tried in vain. */
static uint8_t try_children(const struct plan *plan, uint64_t *state, uint64_t declines, uint32_t parent)
{
    uint64_t in_vain = 0;
    for (;;) {
        uint32_t tried = pick(plan, state, declines, in_vain, parent);
        if (tried == MOST_NODES) return IDLE;
        uint8_t leaf = plan->nodes[tried].kind == HOST ? try_children(plan, state, declines, FIRST_NODE_BYTE + tried) : (uint8_t)tried;
        if (leaf != IDLE) {
            state[LEFT + tried]--;
            return leaf;
        }
        in_vain |= (uint64_t)1 << tried;
    }
}

/* The answer of one supplied core. */
static uint8_t grant(uint8_t setting, const struct plan *plan, uint64_t *state, uint64_t declines, uint32_t supply)
{
    return setting == ON ? try_children(plan, state, declines, supply) : walk(plan, state, declines, supply);
}

/* One slot: its answers, one for each supply, and the state after it. */
static void dispatch(uint8_t setting, const struct plan *plan, uint64_t *state, uint8_t supplied, uint64_t declines, uint8_t *answers)
{
    refill(plan, state);
    for (uint32_t i = 0; i < plan->supply_count; i++) {
        answers[i] = (supplied >> i & 1) == 1 ? grant(setting, plan, state, declines, i) : NOT_SUPPLIED;
    }
    state[CLOCK]++;
}

uint64_t model_fresh(const uint32_t *plan, size_t plan_len, uint64_t *state, size_t state_len)
{
    struct plan fields;
    if (plan_len != MODEL_PLAN || state_len != MODEL_STATE) return refusal(LENGTHS_DO_NOT_FIT, MODEL_NOWHERE);
    memset(state, 0, MODEL_STATE * sizeof *state);
    if (!model_fit_plan(plan, &fields)) return refusal(NOT_FIT, MODEL_NOWHERE);
    for (uint32_t i = 0; i < fields.node_count; i++) state[LEFT + i] = fields.nodes[i].served.c;
    return 0;
}

/* What refuses a step and a run alike once their lengths are right: the setting, then the plan value and the state. Otherwise 0, and the plan's fields. */
static uint64_t refused_before(uint8_t setting, const uint32_t *numbers, struct plan *plan, const uint64_t *state)
{
    if (setting != OFF && setting != ON) return refusal(KIND_UNKNOWN, MODEL_NOWHERE);
    if (!model_fit_plan(numbers, plan) || !state_is_fit(plan, state)) return refusal(NOT_FIT, MODEL_NOWHERE);
    return 0;
}

uint64_t model_step(uint8_t setting, const uint32_t *plan, size_t plan_len, uint64_t *state, size_t state_len, uint8_t supplied, uint64_t declines,
                    uint8_t *grants, size_t grants_len)
{
    struct plan fields;
    if (plan_len != MODEL_PLAN || state_len != MODEL_STATE || grants_len != MODEL_GRANTS) return refusal(LENGTHS_DO_NOT_FIT, MODEL_NOWHERE);
    memset(grants, NOT_SUPPLIED, MODEL_GRANTS);
    uint64_t refused = refused_before(setting, plan, &fields, state);
    if (refused) return refused;
    if (state[CLOCK] == LIMIT) return refusal(BEYOND_LIMIT, MODEL_NOWHERE);
    dispatch(setting, &fields, state, supplied, declines, grants);
    return 0;
}

uint64_t model_run(uint8_t setting, const uint32_t *plan, size_t plan_len, uint64_t *state, size_t state_len, const uint8_t *supplies, size_t supplies_len,
                   const uint64_t *declines, size_t declines_len, uint8_t *out, size_t out_len)
{
    struct plan fields;
    if (plan_len != MODEL_PLAN || state_len != MODEL_STATE) return refusal(LENGTHS_DO_NOT_FIT, MODEL_NOWHERE);
    uint64_t refused = refused_before(setting, plan, &fields, state);
    if (refused) return refused;
    if (supplies_len != declines_len || supplies_len > out_len / fields.supply_count) return refusal(LENGTHS_DO_NOT_FIT, MODEL_NOWHERE);
    if (supplies_len > LIMIT - state[CLOCK]) return refusal(BEYOND_LIMIT, MODEL_NOWHERE);
    for (size_t k = 0; k < supplies_len; k++) dispatch(setting, &fields, state, supplies[k], declines[k], out + k * fields.supply_count);
    return 0;
}
