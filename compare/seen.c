/* The counts. */
#include "seen.h"
#include "check.h"

#include "../include/mettulos.h"

#include <inttypes.h>
#include <stdio.h>
#include <string.h>

/* ---- how often is enough */

/* A thousand of each: a fault that shows in one of a hundred cases of a sort, each by itself, is then missed once in 23,000 times (0.99 to the 1,000th). With
 * fewer rounds than the thousand of the gate nothing is asked, since chance has too large a part in small counts. A hundred, with which a fault that shows in
 * one of ten is missed once in 37,000 times, are enough where what is counted is long or split finely: a run of a thousand slots or more, whose slots count by
 * themselves; a rule broken at one depth, where each rule has its thousand over all depths; calls that grant at one depth under one number of cores, or at one
 * depth to leaves of odd periods, or after a host beside was passed in vain, whose grants have their thousand (those of one call are much alike, which is why
 * the calls are counted too); whole hosts of one depth; leaves that had just what they want in some window, among a thousand that were held to it; a slice that
 * is NULL, where little but what goes with it is left to chance. */
enum { ENOUGH = 1000, ENOUGH_OF_A_PART = 100 };

static uint64_t rounds_made;
static int too_seldom;

static void want(const char *what, const char *of, uint64_t count, uint64_t enough)
{
    uint64_t least = rounds_made < ENOUGH ? 0 : enough;
    if (count >= least) return;
    printf("TOO SELDOM: %s%s%s came up %" PRIu64 " times, and %" PRIu64 " are enough\n", what, *of ? " " : "", of, count, least);
    too_seldom++;
}

/* Prints a row of counts under their numbers. */
static void print_row(const char *what, const uint64_t *counts, int first, int last)
{
    printf("%s:", what);
    for (int i = first; i <= last; i++) printf(" %d: %" PRIu64 "%s", i, counts[i], i < last ? "," : "\n");
}

static void want_row(const char *what, const uint64_t *counts, int first, int last, uint64_t enough)
{
    char of[16];
    for (int i = first; i <= last; i++) {
        snprintf(of, sizeof of, "%d", i);
        want(what, of, counts[i], enough);
    }
}

/* ---- cases and calls */

enum { REFUSALS = 21, MOST_KINDS = 80, MOST_SLICES = 5 };

static const char *const call_names[CALLS] = {"decide", "read", "name", "fresh", "step", "run", "start", "minute", "slot"};

/* What each call may answer: bit n for refusal n, and bit 0 for no refusal. */
#define BIT(n) (1u << (n))
static const uint32_t answers_of[CALLS] = {
    BIT(0) | BIT(4) | BIT(5) | BIT(17),
    0x7FFF | BIT(17) | BIT(19) | BIT(20), /* 0 to 14 and these */
    BIT(0) | BIT(17),
    BIT(0) | BIT(16) | BIT(17),
    BIT(0) | BIT(5) | BIT(15) | BIT(16) | BIT(17),
    BIT(0) | BIT(5) | BIT(15) | BIT(16) | BIT(17),
    BIT(0) | BIT(15) | BIT(16) | BIT(17),
    BIT(0) | BIT(15) | BIT(16) | BIT(17),
    BIT(0) | BIT(15) | BIT(16) | BIT(17),
};

static uint64_t by_call[CALLS][REFUSALS];
static const char *null_names[CALLS][MOST_SLICES];
static uint64_t by_null[CALLS][MOST_SLICES];

static const char *kind_names[MOST_KINDS];
static uint64_t by_kind[MOST_KINDS];
static int kinds;

const char *seen_call_name(enum call call)
{
    return call_names[call];
}

void seen_kind(const char *kind)
{
    if (kinds == MOST_KINDS) check_fail("more kinds of case than there is room to count");
    kind_names[kinds++] = kind;
}

const char *seen_kind_name(void)
{
    return kind_names[kinds - 1];
}

void seen_case(void)
{
    by_kind[kinds - 1]++;
}

int seen_call(enum call call, uint64_t answer)
{
    uint32_t number = METTULOS_NUMBER(answer);
    if (number >= REFUSALS || (answer != 0 && number == 0) || (answers_of[call] >> number & 1) == 0) return 0;
    by_call[call][number]++;
    seen_case();
    return 1;
}

void seen_null(enum call call, int slice, const char *name)
{
    null_names[call][slice] = name;
    by_null[call][slice]++;
}

static void report_cases(void)
{
    uint64_t cases = 0;
    for (int kind = 0; kind < kinds; kind++) {
        printf("%10" PRIu64 "  %s\n", by_kind[kind], kind_names[kind]);
        cases += by_kind[kind];
    }
    printf("%10" PRIu64 "  cases in all\n", cases);
}

static void report_calls(void)
{
    for (int call = 0; call < CALLS; call++) {
        uint64_t sum = 0;
        for (int number = 0; number < REFUSALS; number++) sum += by_call[call][number];
        printf("%s: %" PRIu64 " calls, %" PRIu64 " not refused", call_names[call], sum, by_call[call][0]);
        for (int number = 1; number < REFUSALS; number++) {
            if (by_call[call][number] > 0) printf(", refused by %d %" PRIu64, number, by_call[call][number]);
        }
        printf("\n");
        printf("  NULL for");
        for (int slice = 0; slice < MOST_SLICES; slice++) {
            if (null_names[call][slice]) printf(" %s: %" PRIu64 ";", null_names[call][slice], by_null[call][slice]);
        }
        printf("\n");
    }
}

static void want_calls(void)
{
    static const int slices[CALLS] = {2, 2, 2, 2, 3, 5, 1, 1, 1};
    char of[80];
    for (int call = 0; call < CALLS; call++) {
        for (int number = 0; number < REFUSALS; number++) {
            if ((answers_of[call] >> number & 1) == 0) continue;
            snprintf(of, sizeof of, "of %s", call_names[call]);
            if (number > 0) snprintf(of, sizeof of, "%d of %s", number, call_names[call]);
            want(number > 0 ? "refusal" : "no refusal", of, by_call[call][number], ENOUGH);
        }
        for (int slice = 0; slice < slices[call]; slice++) {
            snprintf(of, sizeof of, "of %s (%s)", call_names[call], null_names[call][slice] ? null_names[call][slice] : "never");
            want("NULL for a slice", of, by_null[call][slice], ENOUGH_OF_A_PART);
        }
    }
}

/* ---- plans */

enum { LONG_RUN = 1000 };

static uint64_t plans_by_cores[9], plans_by_depth[9], plans_of_64;
static uint64_t plans_odd[2];       /* with a child of an odd period under a supply, and under a host */
static uint64_t plans_whole[9];     /* with a whole host that has children, by its depth */
static uint64_t plans_whole_beside; /* with one that has siblings too */
static uint64_t plans_by_edition[3];
static uint64_t broken[5][9]; /* rules 11 to 14, and 20 */
static uint64_t things[THINGS];

static uint32_t kind_of(const uint32_t *plan, uint32_t i)
{
    return mettulos_node(plan, i)[METTULOS_NODE_KIND];
}

static uint32_t parent_of(const uint32_t *plan, uint32_t i)
{
    return mettulos_node(plan, i)[METTULOS_NODE_PARENT];
}

/* Of each node of an accepted plan the depth, the supply that it hangs under, whether its served period is odd, which is no multiple of its parent's, and
 * whether that of a host above it is. */
struct places {
    uint8_t depth[64], supply[64], odd[64], below_odd[64];
};

static void find_places(const uint32_t *plan, struct places *places)
{
    for (uint32_t i = 0; i < plan[METTULOS_PLAN_NODES]; i++) {
        uint32_t parent = parent_of(plan, i), host = parent - 128;
        int hosted = parent >= 128;
        places->depth[i] = hosted ? (uint8_t)(places->depth[host] + 1) : 1;
        places->supply[i] = hosted ? places->supply[host] : (uint8_t)parent;
        uint32_t own_t = hosted ? mettulos_node(plan, host)[METTULOS_NODE_WANTED_T] : mettulos_supply(plan, parent)[METTULOS_SUPPLY_T];
        places->odd[i] = mettulos_node(plan, i)[METTULOS_NODE_SERVED_T] % own_t != 0;
        places->below_odd[i] = hosted && (places->odd[host] || places->below_odd[host]);
    }
}

/* The plan's whole hosts that have children, and its children of odd periods. */
static void see_whole(const uint32_t *plan, const struct places *places)
{
    uint32_t children[256] = {0}, depths = 0, odd = 0, beside = 0; /* depths, and the sorts of parent, as bits */
    for (uint32_t i = 0; i < plan[METTULOS_PLAN_NODES]; i++) children[parent_of(plan, i)]++;
    for (uint32_t i = 0; i < plan[METTULOS_PLAN_NODES]; i++) {
        const uint32_t *node = mettulos_node(plan, i);
        if (places->odd[i]) odd |= BIT(parent_of(plan, i) >= 128);
        if (kind_of(plan, i) != METTULOS_HOST || node[METTULOS_NODE_WANTED_C] != node[METTULOS_NODE_WANTED_T] || children[128 + i] == 0) continue;
        depths |= BIT(places->depth[i]);
        beside |= children[parent_of(plan, i)] > 1;
    }
    for (uint32_t depth = 1; depth <= 7; depth++) plans_whole[depth] += depths >> depth & 1;
    for (uint32_t k = 0; k < 2; k++) plans_odd[k] += odd >> k & 1;
    plans_whole_beside += beside;
}

/* Soft leaves at the edges of what they may be. */
enum edge {
    ONE_WINDOW,      /* W is 1 */
    MOST_WINDOWS,    /* or 1,024 */
    ALL_MAY_MISS,    /* D is W */
    ONE_MAY_MISS,    /* or 1, of more windows */
    SAME_PERIODS,    /* T is T' */
    SHORTER_WINDOWS, /* T is K T', with K above 1 */
    LONGER_WINDOWS,  /* T divides T' and is shorter */
    NOTHING_WANTED,  /* C' is 0 */
    ALL_CAN_MISS,    /* u is K, above 1: every window of a served period can miss */
    NO_MULTIPLE,     /* W is no multiple of K, which is above 1 */
    EDGES
};

static const char *const edge_names[EDGES] = {"W = 1", "W = 1,024", "D = W",  "D = 1 < W",           "T = T'",
                                              "T' divides T", "T divides T'", "C' = 0", "u = K, which is above 1", "W no multiple of K"};

static uint64_t plans_soft[EDGES];

/* The edges at which the leaf is, as bits. */
static uint32_t edges_of(const uint32_t *node)
{
    uint32_t c = node[METTULOS_NODE_SERVED_C], t = node[METTULOS_NODE_SERVED_T], wanted_c = node[METTULOS_NODE_WANTED_C], wanted_t = node[METTULOS_NODE_WANTED_T];
    uint32_t d = node[METTULOS_NODE_D], w = node[METTULOS_NODE_W], k = t / wanted_t, edges = 0;
    if (w == 1) edges |= BIT(ONE_WINDOW);
    if (w == 1024) edges |= BIT(MOST_WINDOWS);
    if (d == w) edges |= BIT(ALL_MAY_MISS);
    if (d == 1 && w > 1) edges |= BIT(ONE_MAY_MISS);
    if (wanted_c == 0) edges |= BIT(NOTHING_WANTED);
    if (k <= 1) return edges | BIT(k == 1 ? SAME_PERIODS : LONGER_WINDOWS);
    if (wanted_c > 0 && k * (wanted_c - 1) >= c) edges |= BIT(ALL_CAN_MISS);
    if (w % k != 0) edges |= BIT(NO_MULTIPLE);
    return edges | BIT(SHORTER_WINDOWS);
}

static void see_soft(const uint32_t *plan)
{
    uint32_t edges = 0;
    for (uint32_t i = 0; i < plan[METTULOS_PLAN_NODES]; i++) {
        if (mettulos_node(plan, i)[METTULOS_NODE_D] > 0) edges |= edges_of(mettulos_node(plan, i));
    }
    for (uint32_t edge = 0; edge < EDGES; edge++) plans_soft[edge] += edges >> edge & 1;
}

void seen_plan(const uint32_t *plan)
{
    struct places places;
    uint32_t deepest = 0;
    find_places(plan, &places);
    for (uint32_t i = 0; i < plan[METTULOS_PLAN_NODES]; i++) {
        if (places.depth[i] > deepest) deepest = places.depth[i];
    }
    plans_by_cores[plan[METTULOS_PLAN_SUPPLIES]]++;
    plans_by_depth[deepest]++;
    plans_of_64 += plan[METTULOS_PLAN_NODES] == 64;
    plans_by_edition[plan[METTULOS_PLAN_EDITION]]++;
    see_whole(plan, &places);
    see_soft(plan);
}

void seen_broken(uint32_t rule, uint32_t depth)
{
    broken[rule == 20 ? 4 : rule - 11][depth]++;
}

void seen(enum thing thing)
{
    things[thing]++;
}

/* ---- slots */

static uint64_t slots_given[2], slots_past_half, long_runs, odd_counts_kept; /* slots by the setting */
static uint64_t granted[9][9];      /* by the number of cores and the depth of the leaf */
static uint64_t granting[9][9];     /* the calls with such a grant */
static uint64_t granted_kind[2][9]; /* by the kind of the leaf and its depth */
static uint64_t granted_soft[9];    /* to a soft leaf, by its depth */
static uint64_t granted_odd[9];     /* to a leaf of an odd period, or below a host of one, by the leaf's depth */
static uint64_t granting_odd[9];    /* the calls with a grant to a leaf of an odd period, by its depth */
static uint64_t granted_core[8], granted_leaf[64], granted_scarce[2];
static uint64_t idle_core[8], missing_core[8];
static uint64_t idle_below[9]; /* with the setting off: by the depth of the last host that was charged, 0 where none was */
static uint64_t idle_without_children;

/* The answers of some slots, and what stands past the last node. */
static void see_answers(uint8_t setting, const uint32_t *plan, const struct places *places, const uint64_t *before, size_t slots, const uint8_t *out)
{
    uint32_t cores = plan[METTULOS_PLAN_SUPPLIES], depths = 0, odd = 0; /* bit d where a leaf of depth d, and one of an odd period, was granted something */
    for (size_t k = 0; k < slots * cores; k++) {
        uint32_t core = (uint32_t)(k % cores), leaf = out[k];
        if (leaf == METTULOS_IDLE) idle_core[core]++;
        else if (leaf == METTULOS_NOT_SUPPLIED) missing_core[core]++;
        else {
            depths |= BIT(places->depth[leaf]);
            granted[cores][places->depth[leaf]]++;
            granted_kind[kind_of(plan, leaf) & 1][places->depth[leaf]]++;
            granted_soft[places->depth[leaf]] += mettulos_node(plan, leaf)[METTULOS_NODE_D] > 0;
            granted_odd[places->depth[leaf]] += places->odd[leaf] || places->below_odd[leaf];
            if (places->odd[leaf]) odd |= BIT(places->depth[leaf]);
            granted_core[core]++;
            granted_leaf[leaf]++;
            granted_scarce[mettulos_supply(plan, core)[METTULOS_SUPPLY_C] < mettulos_supply(plan, core)[METTULOS_SUPPLY_T]]++;
        }
    }
    for (uint32_t depth = 1; depth <= 8; depth++) {
        granting[cores][depth] += depths >> depth & 1;
        granting_odd[depth] += odd >> depth & 1;
    }
    slots_given[setting] += slots;
    if (before[0] >= (uint64_t)1 << 39) slots_past_half += slots;
    for (uint32_t i = plan[METTULOS_PLAN_NODES]; i < 64; i++) {
        if (before[1 + i] == 0) continue;
        odd_counts_kept++;
        break;
    }
}

void seen_run(uint8_t setting, const uint32_t *plan, const uint64_t *before, size_t slots, const uint8_t *out)
{
    struct places places;
    find_places(plan, &places);
    see_answers(setting, plan, &places, before, slots, out);
    long_runs += slots >= LONG_RUN;
}

static int has_children(const uint32_t *plan, uint32_t i)
{
    for (uint32_t k = i + 1; k < plan[METTULOS_PLAN_NODES]; k++) {
        if (parent_of(plan, k) == 128 + i) return 1;
    }
    return 0;
}

/* Whether the slot took one from what the node had, after any refill. */
static int was_charged(const uint32_t *plan, const uint64_t *before, const uint64_t *after, uint32_t i)
{
    const uint32_t *node = mettulos_node(plan, i);
    uint64_t left = before[0] % node[METTULOS_NODE_SERVED_T] == 0 ? node[METTULOS_NODE_SERVED_C] : before[1 + i];
    return after[1 + i] < left;
}

static void see_idle(const uint32_t *plan, const struct places *places, const uint64_t *before, const uint64_t *after, const uint8_t *grants)
{
    uint32_t last[8], depth[8] = {0};
    for (uint32_t i = 0; i < plan[METTULOS_PLAN_NODES]; i++) {
        uint32_t core = places->supply[i];
        if (!was_charged(plan, before, after, i) || places->depth[i] <= depth[core]) continue;
        last[core] = i;
        depth[core] = places->depth[i];
    }
    for (uint32_t core = 0; core < plan[METTULOS_PLAN_SUPPLIES]; core++) {
        if (grants[core] != METTULOS_IDLE) continue;
        idle_below[depth[core]]++;
        if (depth[core] > 0) idle_without_children += !has_children(plan, last[core]);
    }
}

void seen_step(uint8_t setting, const uint32_t *plan, const uint64_t *before, const uint64_t *after, const uint8_t *grants)
{
    struct places places;
    find_places(plan, &places);
    see_answers(setting, plan, &places, before, 1, grants);
    if (setting == METTULOS_OFF) see_idle(plan, &places, before, after, grants);
}

/* Answers with the setting on for which hosts were passed in vain: those where somebody has the slot then, by the number of cores and by the depth at which it
 * went on beside a host; those where it is idle; and all by the most hosts of one parent (three or more in one), the most one below the other, and reasons. */
static uint64_t gained_cores[9], gained_depth[9], idle_in_vain, passed_siblings[4], passed_levels[9], passed_reasons[REASONS];
/* The calls with such a grant, by that depth. */
static uint64_t gaining[9];

void seen_passed(const uint32_t *plan, const struct passed *passed)
{
    gained_cores[plan[METTULOS_PLAN_SUPPLIES]] += passed->depths != 0;
    idle_in_vain += passed->depths == 0;
    for (uint32_t depth = 1; depth <= 8; depth++) gained_depth[depth] += passed->depths >> depth & 1;
    passed_siblings[passed->siblings < 3 ? passed->siblings : 3]++;
    passed_levels[passed->levels]++;
    for (uint32_t reason = 0; reason < REASONS; reason++) passed_reasons[reason] += passed->reasons >> reason & 1;
}

void seen_gaining(uint32_t depths)
{
    for (uint32_t depth = 1; depth <= 8; depth++) gaining[depth] += depths >> depth & 1;
}

/* By the kind of the leaf; in the second row those of odd periods, and those below hosts of odd periods. The leaves are counted once for each run, since the
 * windows of one leaf are much alike. */
static uint64_t windows_held[2][2], leaves_held[2][2], leaves_just[2][2];
/* By the settings. */
static uint64_t windows_in[COURSES], leaves_in[COURSES], leaves_just_in[COURSES];

void seen_windows(const uint32_t *plan, uint32_t leaf, enum course course, uint64_t windows, uint64_t just)
{
    struct places places;
    find_places(plan, &places);
    uint32_t odd = places.odd[leaf] || places.below_odd[leaf], kind = kind_of(plan, leaf);
    windows_held[odd][kind] += windows;
    leaves_held[odd][kind] += windows > 0;
    leaves_just[odd][kind] += just > 0;
    windows_in[course] += windows;
    leaves_in[course] += windows > 0;
    leaves_just_in[course] += just > 0;
}

/* Soft leaves, by the settings. */
static uint64_t stretches_in[COURSES], soft_in[COURSES], soft_just_in[COURSES];

void seen_stretches(const uint32_t *plan, uint32_t leaf, enum course course, uint64_t stretches, uint64_t just)
{
    int misses_all = mettulos_node(plan, leaf)[METTULOS_NODE_D] == mettulos_node(plan, leaf)[METTULOS_NODE_W];
    if (misses_all) return; /* nothing is promised then */
    stretches_in[course] += stretches;
    soft_in[course] += stretches > 0;
    soft_just_in[course] += just > 0;
}

/* ---- the report */

static void report_plans(void)
{
    static const char *const names[] = {"rule 11 broken at depth", "rule 12 broken at depth", "rule 13 broken at depth", "rule 14 broken at depth",
                                        "a soft leaf not made as it must be at depth"};
    print_row("accepted plans by cores", plans_by_cores, 1, 8);
    print_row("accepted plans by depth", plans_by_depth, 1, 8);
    printf("accepted plans of 64 nodes: %" PRIu64 "\n", plans_of_64);
    print_row("accepted plans with an odd period under a whole supply (0) or host (1)", plans_odd, 0, 1);
    print_row("accepted plans with a whole host that has children by its depth", plans_whole, 1, 7);
    printf("accepted plans with a whole host that has children and siblings: %" PRIu64 "\n", plans_whole_beside);
    print_row("accepted plans by edition", plans_by_edition, 1, 2);
    for (int rule = 0; rule < 5; rule++) print_row(names[rule], broken[rule], 1, 8);
    want_row("an accepted plan with cores", plans_by_cores, 1, 8, ENOUGH);
    want_row("an accepted plan of depth", plans_by_depth, 1, 8, ENOUGH);
    want("an accepted plan of 64 nodes", "", plans_of_64, ENOUGH);
    want_row("an accepted plan with an odd period under a whole supply (0) or host (1):", plans_odd, 0, 1, ENOUGH);
    want_row("an accepted plan with a whole host that has children, of depth", plans_whole, 1, 7, ENOUGH_OF_A_PART);
    want("an accepted plan with a whole host that has children and siblings", "", plans_whole_beside, ENOUGH);
    want_row("an accepted plan of edition", plans_by_edition, 1, 2, ENOUGH);
    for (int rule = 0; rule < 5; rule++) want_row(names[rule], broken[rule], 1, 8, ENOUGH_OF_A_PART);
}

static void report_soft(void)
{
    for (int edge = 0; edge < EDGES; edge++) {
        printf("accepted plans with a soft leaf with %s: %" PRIu64 "\n", edge_names[edge], plans_soft[edge]);
        want("an accepted plan with a soft leaf with", edge_names[edge], plans_soft[edge], ENOUGH);
    }
    print_row("grants to soft leaves by depth", granted_soft, 1, 8);
    want_row("a grant to a soft leaf of depth", granted_soft, 1, 8, ENOUGH);
    print_row("stretches of soft leaves with D < W, by the settings of their slots (0 off, 1 on, 2 both)", stretches_in, 0, 2);
    print_row("soft leaves with such stretches", soft_in, 0, 2);
    print_row("soft leaves with such stretches that had as many windows short as may be", soft_just_in, 0, 2);
    want_row("stretches of soft leaves, by the settings (0 off, 1 on, 2 both):", stretches_in, 0, 2, ENOUGH);
    want_row("soft leaves with stretches, by the settings (0 off, 1 on, 2 both):", soft_in, 0, 2, ENOUGH);
    want_row("soft leaves with stretches that had as many windows short as may be, by the settings (0 off, 1 on, 2 both):", soft_just_in, 0, 2, ENOUGH_OF_A_PART);
}

static void report_grants(void)
{
    char what[60];
    for (int cores = 1; cores <= 8; cores++) {
        snprintf(what, sizeof what, "grants under %d core%s by depth", cores, cores > 1 ? "s" : "");
        print_row(what, granted[cores], 1, 8);
        want_row(what, granted[cores], 1, 8, ENOUGH);
        snprintf(what, sizeof what, "calls that grant under %d core%s by depth", cores, cores > 1 ? "s" : "");
        print_row(what, granting[cores], 1, 8);
        want_row(what, granting[cores], 1, 8, ENOUGH_OF_A_PART);
    }
    print_row("grants to aligned leaves by depth", granted_kind[0], 1, 8);
    print_row("grants to sliding leaves by depth", granted_kind[1], 1, 8);
    print_row("grants to leaves of odd periods, or below hosts of such, by depth", granted_odd, 1, 8);
    print_row("calls that grant to leaves of odd periods by depth", granting_odd, 1, 8);
    print_row("grants by core", granted_core, 0, 7);
    print_row("grants by leaf", granted_leaf, 0, 63);
    print_row("grants where the supply is whole (0) or has C < T (1)", granted_scarce, 0, 1);
    want_row("a grant to an aligned leaf of depth", granted_kind[0], 1, 8, ENOUGH);
    want_row("a grant to a sliding leaf of depth", granted_kind[1], 1, 8, ENOUGH);
    want_row("a grant to a leaf of an odd period, or below a host of one, of depth", granted_odd, 1, 8, ENOUGH);
    want_row("a call that grants to a leaf of an odd period of depth", granting_odd, 1, 8, ENOUGH_OF_A_PART);
    want_row("a grant of core", granted_core, 0, 7, ENOUGH);
    want_row("a grant to leaf", granted_leaf, 0, 63, ENOUGH);
    want_row("a grant where the supply is whole (0) or has C < T (1):", granted_scarce, 0, 1, ENOUGH);
}

static void report_idle(void)
{
    print_row("idle answers by core", idle_core, 0, 7);
    print_row("answers of no supply by core", missing_core, 0, 7);
    print_row("idle answers of steps with the setting off by the depth of the last host charged (0: none)", idle_below, 0, 8);
    printf("idle answers of steps with the setting off below a host without children: %" PRIu64 "\n", idle_without_children);
    want_row("an idle answer of core", idle_core, 0, 7, ENOUGH);
    want_row("an answer of no supply of core", missing_core, 0, 7, ENOUGH);
    want_row("an idle step whose last charged host has depth", idle_below, 0, 8, ENOUGH);
    want("an idle step below a host without children", "", idle_without_children, ENOUGH);
}

static void report_passed(void)
{
    print_row("grants after hosts passed in vain by cores", gained_cores, 1, 8);
    print_row("grants after hosts passed in vain by the depth at which the choice went on", gained_depth, 1, 8);
    print_row("calls with such grants by that depth", gaining, 1, 8);
    printf("idle answers after hosts passed in vain: %" PRIu64 "\n", idle_in_vain);
    print_row("answers with hosts passed in vain by how many of one parent (3: or more)", passed_siblings, 1, 3);
    print_row("answers with hosts passed in vain by how many one below the other", passed_levels, 1, 8);
    print_row("answers with hosts passed in vain: no children (0), nothing left (1), a leaf declines (2), a host in vain (3)", passed_reasons, 0, 3);
    want_row("a grant after hosts passed in vain under cores", gained_cores, 1, 8, ENOUGH);
    want_row("a grant after a host beside it was passed in vain at depth", gained_depth, 1, 8, ENOUGH);
    want_row("a call with such a grant at depth", gaining, 1, 8, ENOUGH_OF_A_PART);
    want("an idle answer after hosts passed in vain", "", idle_in_vain, ENOUGH);
    want_row("an answer with hosts of one parent passed in vain, so many:", passed_siblings, 1, 3, ENOUGH);
    want_row("an answer with hosts one below the other passed in vain, so many:", passed_levels, 1, 8, ENOUGH);
    want_row("an answer with a host passed in vain for this reason:", passed_reasons, 0, 3, ENOUGH);
}

static void report_windows(void)
{
    static const char *const sorts[] = {"(0 aligned, 1 sliding)", "at or below odd periods (0 aligned, 1 sliding)"};
    char what[120];
    for (int odd = 0; odd < 2; odd++) {
        snprintf(what, sizeof what, "windows held to what leaves want, %s", sorts[odd]);
        print_row(what, windows_held[odd], 0, 1);
        want_row(what, windows_held[odd], 0, 1, ENOUGH);
        snprintf(what, sizeof what, "leaves with such windows, %s", sorts[odd]);
        print_row(what, leaves_held[odd], 0, 1);
        want_row(what, leaves_held[odd], 0, 1, ENOUGH);
        snprintf(what, sizeof what, "leaves with such windows that had just what is wanted, %s", sorts[odd]);
        print_row(what, leaves_just[odd], 0, 1);
        want_row(what, leaves_just[odd], 0, 1, ENOUGH_OF_A_PART);
    }
    print_row("windows by the settings of their slots (0 off, 1 on, 2 both)", windows_in, 0, 2);
    print_row("leaves with such windows", leaves_in, 0, 2);
    print_row("leaves with such windows that had just what is wanted", leaves_just_in, 0, 2);
    want_row("windows held to what leaves want, by the settings (0 off, 1 on, 2 both):", windows_in, 0, 2, ENOUGH);
    want_row("leaves with such windows, by the settings (0 off, 1 on, 2 both):", leaves_in, 0, 2, ENOUGH);
    want_row("leaves with such windows that had just what is wanted, by the settings (0 off, 1 on, 2 both):", leaves_just_in, 0, 2, ENOUGH_OF_A_PART);
}

static void report_things(void)
{
    static const char *const names[THINGS] = {
        "a plan value with odd unused entries, accepted", "a plan value refused for a number beyond its field in an unused entry",
        "a run that goes on from a step",                 "a step that goes on from a run",
        "runs and steps in turn that gave what one run gives", "a sum that just meets the parent's side, accepted",
        "a supply one slot short of whole, with a child of an odd period, refused by 12",
        "a host one slot short of whole, but served whole, with a child of an odd period, refused by 12",
        "a whole supply overfull by one, refused by 14",  "a whole host overfull by one, refused by 14",
        "a parent of no slots with a child of an odd period, refused by 12",
        "a parent of no slots with a child that is served some, refused by 14",
        "a call that goes on from one with the other setting",
        "slots that are given out otherwise with the setting on than off", "slots of a plan with hosts that are given out alike with the setting on and off",
        "a setting that is none where the plan value or the state is not fit, refused by 5", "a setting that is none where a length is wrong, refused by 17",
        "a soft leaf that allows just what a stretch can lose, accepted, and with one miss less refused",
        "a spare byte that is not 0, refused by 3", "a plan that ends among the spare bytes, refused by 1", "a plan that ends in D or W, refused by 1",
        "D or W out of range, or a host with D above 0, refused by 19", "a plan value of an edition that is neither 1 nor 2, refused",
        "a plan value of edition 1 with a D that is not 0 or a W that is not 1, refused"};
    printf("slots: %" PRIu64 " with the setting off, %" PRIu64 " with it on, at 2^39 or later %" PRIu64 "; runs of %d slots or more: %" PRIu64 "\n",
           slots_given[0], slots_given[1], slots_past_half, LONG_RUN, long_runs);
    printf("runs and steps with counts past the last node: %" PRIu64 "\n", odd_counts_kept);
    want("a slot at 2^39 or later", "", slots_past_half, ENOUGH);
    want("a run of 1,000 slots or more", "", long_runs, ENOUGH_OF_A_PART);
    want("a run or a step with counts past the last node", "", odd_counts_kept, ENOUGH);
    for (int thing = 0; thing < THINGS; thing++) {
        printf("%s: %" PRIu64 "\n", names[thing], things[thing]);
        want(names[thing], "", things[thing], ENOUGH);
    }
}

int seen_report(uint64_t rounds)
{
    rounds_made = rounds;
    report_cases();
    report_calls();
    report_plans();
    report_grants();
    report_idle();
    report_passed();
    report_windows();
    report_soft();
    report_things();
    want_calls();
    return too_seldom;
}
