/* Plan values, states, settings, supplies and declines made by chance. */
#include "inputs.h"

#include "../include/mettulos.h"

/* ---- plan values */

/* One more than the greatest number that the field at this place of a plan value can hold; the place is that of a supply or of a node. */
static uint32_t bound_of(uint32_t at)
{
    if (at < METTULOS_PLAN_NODE(0)) return 65536;
    switch ((at - METTULOS_PLAN_NODE(0)) % (METTULOS_PLAN_NODE(1) - METTULOS_PLAN_NODE(0))) {
    case METTULOS_NODE_KIND: return 3;
    case METTULOS_NODE_PARENT: return 256;
    default: return 65536;
    }
}

int value_of(const struct draft *draft, uint32_t *plan)
{
    uint32_t filled = 0;
    draft_value(draft, plan);
    if (chance(50)) return 0;
    uint32_t supplies = METTULOS_PLAN_SUPPLY(plan[METTULOS_PLAN_SUPPLIES]), nodes = METTULOS_PLAN_NODE(plan[METTULOS_PLAN_NODES]);
    for (uint32_t at = supplies; at < METTULOS_PLAN_NODES; at++) filled |= plan[at] = (uint32_t)chance_below(bound_of(at));
    for (uint32_t at = nodes; at < METTULOS_PLAN; at++) filled |= plan[at] = (uint32_t)chance_below(bound_of(at));
    return filled != 0;
}

int sound_value(uint32_t *plan, uint32_t most_nodes)
{
    struct draft draft;
    draft_sound(&draft, most_nodes);
    return value_of(&draft, plan);
}

int break_unused(uint32_t *plan)
{
    uint32_t supplies = METTULOS_PLAN_SUPPLY(plan[METTULOS_PLAN_SUPPLIES]), nodes = METTULOS_PLAN_NODE(plan[METTULOS_PLAN_NODES]);
    int in_supplies = supplies < METTULOS_PLAN_NODES && (nodes == METTULOS_PLAN || chance(30));
    if (!in_supplies && nodes == METTULOS_PLAN) return 0;
    uint32_t first = in_supplies ? supplies : nodes, end = in_supplies ? METTULOS_PLAN_NODES : METTULOS_PLAN;
    uint32_t at = first + (uint32_t)chance_below(end - first);
    plan[at] = chance(60) ? bound_of(at) : chance(50) ? 0xFFFFFFFFu : bound_of(at) + (uint32_t)chance_below(100000);
    return 1;
}

uint32_t odd_value_number(uint32_t number)
{
    static const uint32_t edges[] = {0, 1, 2, 3, 127, 128, 255, 256, 1024, 1025, 4096, 4097, 65535, 65536, 1000000, 1000001, 0xFFFFFFFFu};
    switch (chance_below(4)) {
    case 0: return number + 1;
    case 1: return number - 1;
    case 2: return number + 65536;
    default: return edges[chance_below(sizeof edges / sizeof *edges)];
    }
}

/* ---- states */

static uint64_t odd_clock(void)
{
    switch (chance_below(4)) {
    case 0: return LAST - chance_below(300);
    case 1: return chance_below(5000);
    case 2: return chance_below(1000) * 27720;
    default: return chance_below(LAST + 1);
    }
}

static int is_host(const uint32_t *plan, uint32_t i)
{
    return mettulos_node(plan, i)[METTULOS_NODE_KIND] == METTULOS_HOST;
}

/* The host that a node hangs under, or NO_HOST. */
enum { NO_HOST = 64 };

static uint32_t host_of(const uint32_t *plan, uint32_t i)
{
    uint32_t parent = mettulos_node(plan, i)[METTULOS_NODE_PARENT];
    return parent >= 128 ? parent - 128 : NO_HOST;
}

void odd_state(const uint32_t *plan, uint64_t *state)
{
    uint64_t unused = chance(50) ? 65536 : 1, spent = chance(30) ? chance_bits() & chance_bits() : 0; /* the hosts whose children have nothing left, as bits */
    state[0] = odd_clock();
    for (uint32_t i = 0; i < 64; i++) {
        uint32_t served = mettulos_node(plan, i)[METTULOS_NODE_SERVED_C];
        if (i >= plan[METTULOS_PLAN_NODES]) state[1 + i] = chance_below(unused);
        else if (host_of(plan, i) != NO_HOST && (spent >> host_of(plan, i) & 1) == 1) state[1 + i] = 0;
        else state[1 + i] = chance(50) ? served : chance_below(served + 1u);
    }
}

/* ---- settings */

void inputs_settings(struct inputs *inputs, enum course course)
{
    uint8_t setting = course == ALL_ON || (course == MIXED && chance(50)) ? METTULOS_ON : METTULOS_OFF;
    uint64_t length = 2 + chance_below(inputs->slots / 4 + 1); /* of a stretch, on the average */
    for (size_t k = 0; k < inputs->slots + 8; k++) {
        if (course == MIXED && chance_below(length) == 0) setting = METTULOS_ON - setting;
        inputs->settings[k] = setting;
    }
}

size_t inputs_stretch(const struct inputs *inputs, size_t from, size_t most)
{
    size_t slots = 0;
    while (slots < most && inputs->settings[from + slots] == inputs->settings[from]) slots++;
    return slots;
}

uint8_t any_setting(void)
{
    static const uint8_t edges[] = {2, 3, 127, 128, 254, 255};
    if (chance(60)) return (uint8_t)chance_below(2);
    return chance(70) ? edges[chance_below(sizeof edges)] : (uint8_t)chance_bits();
}

/* ---- supplies and declines */

enum density { NONE, FEW, BY_CHANCE, MOST, ALL };

static uint64_t bits_of(enum density density)
{
    switch (density) {
    case NONE: return 0;
    case FEW: return chance_bits() & chance_bits() & chance_bits();
    case BY_CHANCE: return chance_bits();
    case MOST: return chance_bits() | chance_bits() | chance_bits();
    default: return UINT64_MAX;
    }
}

/* Most slots are to be given to somebody. */
static enum density supply_density(void)
{
    static const enum density all[] = {ALL, ALL, ALL, ALL, MOST, MOST, BY_CHANCE, FEW, NONE};
    return all[chance_below(sizeof all / sizeof *all)];
}

static enum density decline_density(void)
{
    static const enum density all[] = {NONE, NONE, NONE, NONE, FEW, FEW, BY_CHANCE, MOST, ALL};
    return all[chance_below(sizeof all / sizeof *all)];
}

/* Has all leaves below some hosts decline beside those that do. Which hosts these are changes now and then. */
static void decline_below_hosts(struct inputs *inputs, const uint32_t *plan)
{
    uint64_t below[NO_HOST + 1] = {0}, declining = 0; /* below each host its leaves */
    for (uint32_t i = plan[METTULOS_PLAN_NODES]; i-- > 0;) below[host_of(plan, i)] |= is_host(plan, i) ? below[i] : (uint64_t)1 << i;
    for (size_t k = 0; k < inputs->slots + 8; k++) {
        if (k == 0 || chance_below(8) == 0) {
            declining = 0;
            for (uint64_t hosts = 1 + chance_below(6); hosts > 0; hosts--) declining |= below[chance_below(plan[METTULOS_PLAN_NODES])];
        }
        inputs->declines[k] |= declining;
    }
}

void inputs_by_chance(struct inputs *inputs, const uint32_t *plan, size_t slots)
{
    enum density supplied = supply_density(), declined = decline_density();
    enum density idle_bits = (enum density)(2 * chance_below(3)); /* of those that name nothing */
    uint64_t cores = ((uint64_t)1 << plan[METTULOS_PLAN_SUPPLIES]) - 1, leaves = 0;
    for (uint32_t i = 0; i < plan[METTULOS_PLAN_NODES]; i++) leaves |= (uint64_t)!is_host(plan, i) << i;
    inputs->slots = slots;
    for (size_t k = 0; k < slots + 8; k++) {
        if (chance_below(200) == 0) supplied = supply_density();
        if (chance_below(200) == 0) declined = decline_density();
        inputs->supplies[k] = (uint8_t)(bits_of(supplied) & cores);
        inputs->supplies[k] |= (uint8_t)(bits_of(idle_bits) & ~cores);
        inputs->declines[k] = bits_of(declined) & leaves;
        inputs->declines[k] |= bits_of(idle_bits) & ~leaves;
    }
    if (chance(40)) decline_below_hosts(inputs, plan);
    inputs_settings(inputs, (enum course)chance_below(COURSES));
}

/* Supplies a core in at least C slots of each of its periods; where it is sparing, in no more. */
static void supply_in_keeping(struct inputs *inputs, uint32_t core, uint32_t c, uint32_t t)
{
    enum density density = supply_density();
    int sparing = chance(50);
    uint32_t owed = c;
    for (size_t k = 0; k < inputs->slots + 8; k++) {
        if (k % t == 0) {
            owed = c;
            if (chance(10)) density = supply_density();
            if (chance(10)) sparing = chance(50);
        }
        int must = owed == t - k % t, may = owed > 0 || !sparing;
        int supplied = must || (may && (bits_of(density) & 1) == 1);
        inputs->supplies[k] = (uint8_t)((inputs->supplies[k] & ~(1u << core)) | (uint32_t)supplied << core);
        if (supplied && owed > 0) owed--;
    }
}

void inputs_in_keeping(struct inputs *inputs, const uint32_t *plan, size_t slots)
{
    uint64_t never = bits_of((enum density)chance_below(5));
    inputs_by_chance(inputs, plan, slots);
    for (size_t k = 0; k < slots + 8; k++) inputs->declines[k] &= ~never;
    for (uint32_t core = 0; core < plan[METTULOS_PLAN_SUPPLIES]; core++) {
        supply_in_keeping(inputs, core, mettulos_supply(plan, core)[METTULOS_SUPPLY_C], mettulos_supply(plan, core)[METTULOS_SUPPLY_T]);
    }
}
