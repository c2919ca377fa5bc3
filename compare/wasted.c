/* Who could take a slot, and who took it. */
#include "wasted.h"
#include "seen.h"

#include "../include/mettulos.h"

#include <inttypes.h>
#include <stdio.h>
#include <stdlib.h>
#include <string.h>

enum { NOBODY = 64, PARENTS = 256 };

/* One slot. Nodes are bits; taken is by the parent, as in a parent byte. */
struct slot {
    const uint32_t *plan;
    uint64_t clock;
    uint8_t supplied;
    uint64_t declines;
    uint64_t left[64];      /* after the refill */
    uint64_t reached;       /* have slots left, and so have all hosts above them */
    uint64_t able;          /* the leaves among those that do not decline, and the hosts above such */
    uint8_t taken[PARENTS]; /* the child that has the slot, or NOBODY */
    uint64_t charged;       /* those children */
};

static uint32_t number_of(const struct slot *slot, uint32_t i, uint32_t which)
{
    return mettulos_node(slot->plan, i)[which];
}

static uint32_t parent_of(const struct slot *slot, uint32_t i)
{
    return number_of(slot, i, METTULOS_NODE_PARENT);
}

static int is_host(const struct slot *slot, uint32_t i)
{
    return number_of(slot, i, METTULOS_NODE_KIND) == METTULOS_HOST;
}

static int has(uint64_t bits, uint32_t i)
{
    return bits >> i & 1;
}

static uint32_t node_count(const struct slot *slot)
{
    return slot->plan[METTULOS_PLAN_NODES];
}

/* The order of choice. */
static int is_sooner(const struct slot *slot, uint32_t i, uint32_t other)
{
    uint32_t t = number_of(slot, i, METTULOS_NODE_SERVED_T), other_t = number_of(slot, other, METTULOS_NODE_SERVED_T);
    return t < other_t || (t == other_t && i < other);
}

static void fail_at(const struct slot *slot, const char *what, uint32_t number)
{
    printf("NOT AS PROMISED: slot %" PRIu64 " with the setting on: %s %" PRIu32 "\n", slot->clock, what, number);
    printf("  supplied %u, declines %016" PRIx64 "\n", slot->supplied, slot->declines);
    for (uint32_t k = 0; k < node_count(slot); k++) {
        printf("  node %" PRIu32 ": kind %" PRIu32 ", parent %" PRIu32 ", served T %" PRIu32 ", left %" PRIu64 "%s%s\n", k,
               number_of(slot, k, METTULOS_NODE_KIND), parent_of(slot, k), number_of(slot, k, METTULOS_NODE_SERVED_T), slot->left[k],
               has(slot->able, k) ? ", could take it" : "", has(slot->charged, k) ? ", has it" : "");
    }
    fflush(stdout);
    exit(1);
}

static void refill(struct slot *slot)
{
    for (uint32_t i = 0; i < node_count(slot); i++) {
        if (slot->clock % number_of(slot, i, METTULOS_NODE_SERVED_T) == 0) slot->left[i] = number_of(slot, i, METTULOS_NODE_SERVED_C);
    }
}

/* Hosts come before what is below them. */
static void find_able(struct slot *slot)
{
    slot->reached = slot->able = 0;
    for (uint32_t i = 0; i < node_count(slot); i++) {
        uint32_t parent = parent_of(slot, i);
        if (slot->left[i] > 0 && (parent < METTULOS_PARENT_NODE || has(slot->reached, parent - METTULOS_PARENT_NODE))) slot->reached |= (uint64_t)1 << i;
    }
    for (uint32_t i = node_count(slot); i-- > 0;) {
        uint32_t parent = parent_of(slot, i);
        if (has(slot->reached, i) && !is_host(slot, i) && !has(slot->declines, i)) slot->able |= (uint64_t)1 << i;
        if (has(slot->able, i) && parent >= METTULOS_PARENT_NODE) slot->able |= (uint64_t)1 << (parent - METTULOS_PARENT_NODE);
    }
}

/* The leaf that a core answers takes the slot, and with it the hosts above. */
static void take(struct slot *slot, uint32_t core, uint32_t leaf)
{
    if (leaf >= node_count(slot) || is_host(slot, leaf) || !has(slot->able, leaf)) fail_at(slot, "it is given to one who cannot take it, node", leaf);
    uint32_t i = leaf;
    for (;;) {
        uint32_t parent = parent_of(slot, i);
        slot->taken[parent] = (uint8_t)i;
        slot->charged |= (uint64_t)1 << i;
        if (parent < METTULOS_PARENT_NODE) break;
        i = parent - METTULOS_PARENT_NODE;
    }
    if (parent_of(slot, i) != core) fail_at(slot, "it is given to a leaf of another core, node", leaf);
}

static void take_answers(struct slot *slot, const uint8_t *answers)
{
    memset(slot->taken, NOBODY, sizeof slot->taken);
    slot->charged = 0;
    for (uint32_t core = 0; core < slot->plan[METTULOS_PLAN_SUPPLIES]; core++) {
        int is_supplied = slot->supplied >> core & 1;
        if (is_supplied == (answers[core] == METTULOS_NOT_SUPPLIED)) fail_at(slot, "it is answered against its supply, core", core);
        if (is_supplied && answers[core] != METTULOS_IDLE) take(slot, core, answers[core]);
    }
}

/* Nobody who could take the slot of an idle core, and nobody who could take it sooner than the one who has it. */
static void hold_choice(const struct slot *slot)
{
    for (uint32_t i = 0; i < node_count(slot); i++) {
        uint32_t parent = parent_of(slot, i), taken = slot->taken[parent];
        int is_on_core = parent < METTULOS_PARENT_NODE && (slot->supplied >> parent & 1) == 1;
        if (!has(slot->able, i)) continue;
        if (taken == NOBODY && is_on_core) fail_at(slot, "it is idle, and could be taken by node", i);
        if (taken != NOBODY && is_sooner(slot, i, taken)) fail_at(slot, "it could be taken sooner by node", i);
    }
}

/* ---- who was passed in vain */

/* Why nobody below a host takes the slot. */
static enum reason reason_of(const struct slot *slot, uint32_t host)
{
    enum reason reason = WITHOUT_CHILDREN;
    for (uint32_t i = host + 1; i < node_count(slot); i++) {
        if (parent_of(slot, i) != METTULOS_PARENT_NODE + host) continue;
        if (slot->left[i] > 0) return is_host(slot, i) ? HOST_IN_VAIN : LEAF_DECLINES;
        reason = NOTHING_LEFT;
    }
    return reason;
}

/* Whether the choice was made among a parent's children. */
static int is_gone_into(const struct slot *slot, uint64_t in_vain, uint32_t parent)
{
    if (parent < METTULOS_PARENT_NODE) return slot->supplied >> parent & 1;
    return has(slot->charged | in_vain, parent - METTULOS_PARENT_NODE);
}

/* Hosts with slots left that were looked at before the one taken, and those below them. Answers the depths at which somebody has the slot after one. */
static uint32_t see_passed(const struct slot *slot)
{
    struct passed passed[METTULOS_MOST_SUPPLIES];
    uint64_t in_vain = 0;
    uint32_t depths = 0;
    uint8_t core[64], depth[64], levels[64], siblings[PARENTS] = {0};
    memset(passed, 0, sizeof passed);
    for (uint32_t i = 0; i < node_count(slot); i++) {
        uint32_t parent = parent_of(slot, i), taken = slot->taken[parent], host = parent - METTULOS_PARENT_NODE;
        int is_below = parent >= METTULOS_PARENT_NODE;
        core[i] = is_below ? core[host] : (uint8_t)parent;
        depth[i] = is_below ? (uint8_t)(depth[host] + 1) : 1;
        if (!is_host(slot, i) || !has(slot->reached & ~slot->able, i) || !is_gone_into(slot, in_vain, parent)) continue;
        if (taken != NOBODY && !is_sooner(slot, i, taken)) continue;
        struct passed *of_core = &passed[core[i]];
        in_vain |= (uint64_t)1 << i;
        levels[i] = is_below && has(in_vain, host) ? (uint8_t)(levels[host] + 1) : 1;
        siblings[parent]++;
        if (levels[i] > of_core->levels) of_core->levels = levels[i];
        if (siblings[parent] > of_core->siblings) of_core->siblings = siblings[parent];
        if (taken != NOBODY) of_core->depths |= 1u << depth[i];
        of_core->reasons |= 1u << reason_of(slot, i);
    }
    for (uint32_t k = 0; k < slot->plan[METTULOS_PLAN_SUPPLIES]; k++) {
        if (passed[k].levels > 0) seen_passed(slot->plan, &passed[k]);
        depths |= passed[k].depths;
    }
    return depths;
}

/* ---- the slots */

static void charge(struct slot *slot)
{
    for (uint32_t i = 0; i < node_count(slot); i++) slot->left[i] -= (uint64_t)has(slot->charged, i);
}

void nothing_wasted(const struct gone *gone)
{
    struct slot slot = {.plan = gone->plan};
    uint32_t gained = 0;
    memcpy(slot.left, gone->before + METTULOS_STATE_LEFT(0), sizeof slot.left);
    for (size_t k = 0; k < gone->slots; k++) {
        slot.clock = gone->before[METTULOS_STATE_CLOCK] + k;
        slot.supplied = gone->supplies[k];
        slot.declines = gone->declines[k];
        refill(&slot);
        find_able(&slot);
        take_answers(&slot, gone->answers + k * gone->plan[METTULOS_PLAN_SUPPLIES]);
        hold_choice(&slot);
        if (slot.reached != slot.able) gained |= see_passed(&slot);
        charge(&slot);
    }
    for (uint32_t i = 0; i < METTULOS_MOST_NODES; i++) {
        if (gone->after[METTULOS_STATE_LEFT(i)] != slot.left[i]) fail_at(&slot, "it is the last, and another count is left after it to node", i);
    }
    seen_gaining(gained);
}
