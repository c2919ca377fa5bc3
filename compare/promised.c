/* Windows and served periods, slot by slot. */
#include "promised.h"
#include "inputs.h"
#include "seen.h"

#include "../include/mettulos.h"

#include <stdio.h>
#include <stdlib.h>

struct node {
    uint32_t kind, parent, wanted_c, wanted_t, d, w, served_c, served_t;
};

static struct node node_of(const uint32_t *plan, uint32_t i)
{
    const uint32_t *at = mettulos_node(plan, i);
    return (struct node){at[METTULOS_NODE_KIND], at[METTULOS_NODE_PARENT], at[METTULOS_NODE_WANTED_C], at[METTULOS_NODE_WANTED_T],
                         at[METTULOS_NODE_D],    at[METTULOS_NODE_W],      at[METTULOS_NODE_SERVED_C], at[METTULOS_NODE_SERVED_T]};
}

static void fail_at(const struct given *given, uint32_t i, size_t from, uint32_t count, const char *what)
{
    const uint32_t *plan = given->plan;
    printf("NOT AS PROMISED: node %u has %u %s from slot %zu on\n", (unsigned)i, (unsigned)count, what, from);
    for (uint32_t k = 0; k < plan[METTULOS_PLAN_SUPPLIES]; k++) {
        printf("  supply %u: (%u,%u)\n", (unsigned)k, (unsigned)mettulos_supply(plan, k)[METTULOS_SUPPLY_C], (unsigned)mettulos_supply(plan, k)[METTULOS_SUPPLY_T]);
    }
    for (uint32_t k = 0; k < plan[METTULOS_PLAN_NODES]; k++) {
        struct node node = node_of(plan, k);
        printf("  node %u: kind %u, parent %u, wants (%u,%u) but for %u of %u, is served (%u,%u)\n", (unsigned)k, (unsigned)node.kind, (unsigned)node.parent,
               (unsigned)node.wanted_c, (unsigned)node.wanted_t, (unsigned)node.d, (unsigned)node.w, (unsigned)node.served_c, (unsigned)node.served_t);
    }
    fflush(stdout);
    exit(1);
}

/* Whether the core has had its C in each period of its T. Slots after the last given may all be supplied. */
static int keeps_its_type(const struct given *given, uint32_t core)
{
    uint32_t c = mettulos_supply(given->plan, core)[METTULOS_SUPPLY_C], t = mettulos_supply(given->plan, core)[METTULOS_SUPPLY_T];
    for (size_t from = 0; from < given->slots; from += t) {
        uint32_t supplied = 0;
        for (size_t k = from; k < from + t; k++) supplied += k >= given->slots || (given->supplies[k] >> core & 1) == 1;
        if (supplied < c) return 0;
    }
    return 1;
}

/* In how many of the slots before each the core gave to node i or to one below it, and in how many node i declined. */
static uint32_t granted_before[MOST_SLOTS + 1], declined_before[MOST_SLOTS + 1];

static void count_slots(const struct given *given, uint32_t i, uint32_t core)
{
    uint64_t counted = (uint64_t)1 << i; /* as bits */
    for (uint32_t k = i + 1; k < given->plan[METTULOS_PLAN_NODES]; k++) {
        uint32_t parent = node_of(given->plan, k).parent;
        if (parent >= 128 && (counted >> (parent - 128) & 1) == 1) counted |= (uint64_t)1 << k;
    }
    for (size_t slot = 0; slot < given->slots; slot++) {
        uint8_t leaf = given->answers[slot * given->plan[METTULOS_PLAN_SUPPLIES] + core];
        granted_before[slot + 1] = granted_before[slot] + (leaf < 64 && (counted >> leaf & 1) == 1);
        declined_before[slot + 1] = declined_before[slot] + (given->declines[slot] >> i & 1);
    }
}

static void hold_periods(const struct given *given, uint32_t i)
{
    struct node node = node_of(given->plan, i);
    for (size_t from = 0; from < given->slots; from += node.served_t) {
        size_t to = from + node.served_t < given->slots ? from + node.served_t : given->slots;
        uint32_t granted = granted_before[to] - granted_before[from];
        if (granted > node.served_c) fail_at(given, i, from, granted, "slots in the served period");
    }
}

static enum course course_of(const struct given *given)
{
    size_t on = 0;
    for (size_t slot = 0; slot < given->slots; slot++) on += given->settings[slot];
    return on == 0 ? ALL_OFF : on == given->slots ? ALL_ON : MIXED;
}

/* Whether the node declined in a slot of its served periods that touch those from `from` to before `to`. */
static int declined_near(const struct given *given, struct node node, size_t from, size_t to)
{
    size_t touched = from - from % node.served_t, untouched = (to + node.served_t - 1) / node.served_t * node.served_t;
    if (untouched > given->slots) untouched = given->slots;
    return declined_before[untouched] > declined_before[touched];
}

/* How many windows are short of the stretch from `from` to before `to`. */
static uint32_t count_short(struct node node, size_t from, size_t to)
{
    uint32_t count = 0;
    for (; from < to; from += node.wanted_t) count += granted_before[from + node.wanted_t] - granted_before[from] < node.wanted_c;
    return count;
}

static void hold_stretches(const struct given *given, uint32_t i, enum course course)
{
    struct node node = node_of(given->plan, i);
    size_t length = (size_t)node.w * node.wanted_t;
    uint64_t stretches = 0, just = 0; /* those with as many windows short as may be */
    for (size_t from = 0; from + length <= given->slots; from += length) {
        if (declined_near(given, node, from, from + length)) continue;
        uint32_t missed = count_short(node, from, from + length);
        if (missed > node.d) fail_at(given, i, from, missed, "short windows in the stretch");
        stretches++;
        just += missed == node.d;
    }
    seen_stretches(given->plan, i, course, stretches, just);
}

static void hold_windows(const struct given *given, uint32_t i, enum course course)
{
    struct node node = node_of(given->plan, i);
    size_t apart = node.kind == METTULOS_ALIGNED_LEAF ? node.wanted_t : 1;
    uint64_t windows = 0, just = 0; /* those with what is wanted and no more */
    for (size_t from = 0; from + node.wanted_t <= given->slots; from += apart) {
        size_t to = from + node.wanted_t;
        if (declined_near(given, node, from, to)) continue;
        uint32_t granted = granted_before[to] - granted_before[from];
        if (granted < node.wanted_c) fail_at(given, i, from, granted, "slots in the wanted window");
        windows++;
        just += granted == node.wanted_c;
    }
    if (node.wanted_c > 0) seen_windows(given->plan, i, course, windows, just);
}

void promised(const struct given *given)
{
    uint32_t core_of[64], keeping = 0; /* bit i where core i keeps its type */
    enum course course = course_of(given);
    for (uint32_t core = 0; core < given->plan[METTULOS_PLAN_SUPPLIES]; core++) keeping |= (uint32_t)keeps_its_type(given, core) << core;
    for (uint32_t i = 0; i < given->plan[METTULOS_PLAN_NODES]; i++) {
        struct node node = node_of(given->plan, i);
        core_of[i] = node.parent < 128 ? node.parent : core_of[node.parent - 128];
        count_slots(given, i, core_of[i]);
        hold_periods(given, i);
        if (node.kind == METTULOS_HOST || (keeping >> core_of[i] & 1) == 0) continue;
        if (node.d > 0) hold_stretches(given, i, course);
        else hold_windows(given, i, course);
    }
    seen_case();
}
