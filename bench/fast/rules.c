/* Whether a plan value is fit: what document 01 asks of its fields, 2 to 7, and its "Rules beyond the bytes", 11 to 14, with whole parents as document 02 has
 * them in request 2; and with misses what request 6 asks, 19 and 20. */
#include "inner.h"

#include <string.h>

/* ---- 2 to 7 and 19 */

static uint64_t two_numbers(const uint32_t *numbers)
{
    uint64_t word;
    memcpy(&word, numbers, sizeof word);
    return word;
}

/* Whether the nodes that are not used are zeros, as they nearly always are. */
static int unused_are_zeros(const struct plan *plan)
{
    uint64_t any = 0;
    for (const struct node *node = plan->nodes + plan->node_count; node < plan->nodes + MOST_NODES; node++) {
        any |= two_numbers(&node->kind) | two_numbers(&node->wanted.c) | two_numbers(&node->misses.d) | two_numbers(&node->served.c);
    }
    return any == 0;
}

/* Whether the entries that are not used, and are ignored, are at least entries: their numbers are within their fields. */
static int unused_are_within_fields(const struct plan *plan)
{
    uint32_t over = 0;
    for (uint32_t i = plan->supply_count; i < MOST_SUPPLIES; i++) over |= (plan->supplies[i].c | plan->supplies[i].t) >> 16;
    if (unused_are_zeros(plan)) return over == 0;
    for (uint32_t i = plan->node_count; i < MOST_NODES; i++) {
        const struct node *node = &plan->nodes[i];
        over |= (node->wanted.c | node->wanted.t | node->misses.d | node->misses.w | node->served.c | node->served.t) >> 16;
        over |= node->parent >> 8 | (node->kind > HOST);
    }
    return over == 0;
}

/* The depth of node i, or 0 where its parent is not allowed. */
static uint32_t depth_of(const struct plan *plan, uint32_t i, const uint8_t *depths)
{
    uint32_t parent = plan->nodes[i].parent;
    if (parent < FIRST_NODE_BYTE) return parent < plan->supply_count;
    uint32_t host = parent - FIRST_NODE_BYTE;
    return host < i && plan->nodes[host].kind == HOST ? depths[host] + 1u : 0;
}

/* A node of edition 1 has D 0 and W 1. */
static int misses_are_of_the_edition(const struct plan *plan, const struct node *node)
{
    if (plan->edition == FIRST_EDITION) return node->misses.d == 0 && node->misses.w == 1;
    return misses_are_sound(node);
}

static int is_sound(const struct plan *plan)
{
    uint8_t depths[MOST_NODES];
    if (plan->edition != FIRST_EDITION && plan->edition != SECOND_EDITION) return 0;
    if (!tick_is_sound(plan->p) || !tick_is_sound(plan->q)) return 0;
    if (plan->supply_count - 1 >= MOST_SUPPLIES || plan->node_count - 1 >= MOST_NODES) return 0;
    for (uint32_t i = 0; i < plan->supply_count; i++) {
        if (!type_is_sound(plan->supplies[i])) return 0;
    }
    for (uint32_t i = 0; i < plan->node_count; i++) {
        const struct node *node = &plan->nodes[i];
        uint32_t depth = depth_of(plan, i, depths);
        if (node->kind > HOST || depth - 1 >= MOST_DEPTH || !type_is_sound(node->wanted) || !type_is_sound(node->served)) return 0;
        if (!misses_are_of_the_edition(plan, node)) return 0;
        depths[i] = (uint8_t)depth;
    }
    return unused_are_within_fields(plan);
}

/* ---- 11 to 14 and 20 */

/* Hosts have D 0. */
static int is_soft(const struct node *node)
{
    return node->misses.d > 0;
}

/* T / T', where that is exact, and otherwise 0. Nearly always T is T'. */
static uint32_t windows_of_a_period(const struct node *node)
{
    uint32_t t = node->served.t, wanted_t = node->wanted.t;
    if (t == wanted_t) return 1;
    return t % wanted_t == 0 ? t / wanted_t : 0;
}

static int is_so_made(const struct node *node)
{
    return node->kind != SLIDING_LEAF && (windows_of_a_period(node) > 0 || node->wanted.t % node->served.t == 0);
}

/* Where T is K T', windows take the place of slots: of each K at least K - u are met, and any choice of u may be missed; so at most D of W are missed where
 * (K - u, K) stands in for (W - D, W). A window is missed where it has C' - 1, which leaves T' - (C' - 1) of the T - C slots that need not be given. Where T
 * divides T', all windows can miss or none. */
static int soft_stands_in(const struct node *node)
{
    uint32_t d = node->misses.d, w = node->misses.w, k = windows_of_a_period(node);
    if (d == w || node->wanted.c == 0) return 1;
    if (k == 0) return node->wanted.t / node->served.t * node->served.c >= node->wanted.c;
    uint32_t u = (node->served.t - node->served.c) / (node->wanted.t - (node->wanted.c - 1));
    return u < k && fast_least_ones(0, (struct type){k - u, k}, 0, w) >= w - d;
}

/* What 20 and 11 ask of a node. */
static int stands_in(const struct node *node)
{
    if (is_soft(node)) return is_so_made(node) && soft_stands_in(node);
    return fast_least_ones(0, node->served, node->kind == SLIDING_LEAF, node->wanted.t) >= node->wanted.c;
}

/* Puts node i into its class, before which no class of its parent has a longer period. */
static void add_child(struct families *families, const struct node *node, uint32_t i)
{
    uint32_t period = node->served.t, before = NO_CLASS;
    uint32_t at = families->first[parent_number(node->parent)];
    while (at != NO_CLASS && families->classes[at].period < period) {
        before = at;
        at = families->classes[at].next;
    }
    if (at == NO_CLASS || families->classes[at].period != period) {
        uint32_t made = families->class_count++;
        families->classes[made] = (struct class){0, period, 0, at};
        if (before == NO_CLASS) families->first[parent_number(node->parent)] = (uint8_t)made;
        else families->classes[before].next = made;
        at = made;
    }
    families->classes[at].members |= (uint64_t)1 << i;
    families->classes[at].served += node->served.c;
}

/* A parent with C = T gives all slots, and its children are asked what those of (1,1) are: every period is a multiple of 1, and M slots have M. */
static struct type as_parent(struct type own)
{
    return own.c == own.t ? (struct type){1, 1} : own;
}

/* Rules 12 to 14 at one parent: each period is a multiple of the one before, the first of the parent's; and what is served, counted in the longest period, is
 * at most what the parent has. */
static int is_within_parent(const struct families *families, uint32_t parent, struct type own)
{
    struct type gives = as_parent(own);
    uint32_t period = gives.t, has = gives.c, served = 0;
    for (uint32_t at = families->first[parent]; at != NO_CLASS; at = families->classes[at].next) {
        const struct class *class = &families->classes[at];
        uint32_t times = class->period / period;
        if (times * period != class->period) return 0;
        has *= times;
        served = served * times + class->served;
        period = class->period;
    }
    return served <= has;
}

int fast_keeps_rules(const struct plan *plan, struct families *families)
{
    families->hosts = 0;
    families->class_count = 0;
    memset(families->first, NO_CLASS, sizeof families->first);
    for (uint32_t i = 0; i < plan->node_count; i++) {
        const struct node *node = &plan->nodes[i];
        if (!stands_in(node)) return 0;
        families->hosts |= (uint64_t)(node->kind == HOST) << i;
        add_child(families, node, i);
    }
    for (uint32_t i = 0; i < plan->supply_count; i++) {
        if (!is_within_parent(families, i, plan->supplies[i])) return 0;
    }
    for (uint32_t i = 0; i < plan->node_count; i++) {
        if (!is_within_parent(families, MOST_SUPPLIES + i, plan->nodes[i].wanted)) return 0;
    }
    return 1;
}

int fast_is_fit(const struct plan *plan, struct families *families)
{
    return is_sound(plan) && fast_keeps_rules(plan, families);
}

/* ---- which rule is broken first, for a plan that breaks one */

static int one_divides_the_other(uint32_t period, uint32_t other)
{
    return period % other == 0 || other % period == 0;
}

static uint64_t first_at_odds(const struct plan *plan, uint32_t parent)
{
    for (uint32_t i = 0; i < plan->node_count; i++) {
        if (plan->nodes[i].parent != parent) continue;
        for (uint32_t k = 0; k < i; k++) {
            if (plan->nodes[k].parent != parent) continue;
            if (!one_divides_the_other(plan->nodes[i].served.t, plan->nodes[k].served.t)) return refusal(PERIODS_AT_ODDS, i);
        }
    }
    return 0;
}

static uint64_t first_at(const struct plan *plan, uint32_t parent, struct type own)
{
    struct type gives = as_parent(own);
    uint32_t longest = 0, served = 0;
    for (uint32_t i = 0; i < plan->node_count; i++) {
        const struct node *node = &plan->nodes[i];
        if (node->parent != parent) continue;
        if (node->served.t % gives.t != 0) return refusal(NOT_A_MULTIPLE, i);
        if (node->served.t > longest) longest = node->served.t;
    }
    uint64_t at_odds = first_at_odds(plan, parent);
    if (at_odds) return at_odds;
    for (uint32_t i = 0; i < plan->node_count; i++) {
        const struct node *node = &plan->nodes[i];
        if (node->parent != parent) continue;
        served += node->served.c * (longest / node->served.t);
        if (served > gives.c * (longest / gives.t)) return refusal(TOO_MUCH_SERVED, i);
    }
    return 0;
}

uint64_t fast_first_broken(const struct plan *plan)
{
    uint64_t refused = 0;
    for (uint32_t i = 0; i < plan->node_count; i++) {
        const struct node *node = &plan->nodes[i];
        if (!stands_in(node)) return refusal(is_soft(node) && !is_so_made(node) ? SOFT_LEAF_NOT_SO_MADE : DOES_NOT_STAND_IN, i);
    }
    for (uint32_t i = 0; !refused && i < plan->supply_count; i++) refused = first_at(plan, i, plan->supplies[i]);
    for (uint32_t i = 0; !refused && i < plan->node_count; i++) {
        if (plan->nodes[i].kind == HOST) refused = first_at(plan, FIRST_NODE_BYTE + i, plan->nodes[i].wanted);
    }
    return refused;
}
