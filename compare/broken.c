/* Sound plans changed so that one rule is broken, or just kept. */
#include "deep.h"

#include <string.h>

enum { SLIDING_LEAF = 1, HOST = 2, DEPTH = 8 };

uint32_t draft_depth(const struct draft *draft, uint32_t i)
{
    uint32_t depth = 1;
    for (; draft->nodes[i].parent >= 128; i = draft->nodes[i].parent - 128u) depth++;
    return depth;
}

/* A node of this depth, or the number of nodes where there is none. */
static uint32_t node_at_depth(const struct draft *draft, uint32_t depth)
{
    uint32_t found[64], count = 0;
    for (uint32_t i = 0; i < draft->node_count; i++) {
        if (draft_depth(draft, i) == depth) found[count++] = i;
    }
    return count > 0 ? found[chance_below(count)] : draft->node_count;
}

/* Serves the node in another period, and has it want what that gives, so that rule 11 holds. */
static void serve_in(struct drafted_node *node, uint32_t t)
{
    node->served.t = (uint16_t)t;
    if (node->served.c > t) node->served.c = (uint16_t)t;
    if (node->kind == SLIDING_LEAF) node->wanted.c = 0;
    else node->wanted = node->served;
}

/* The node, of depth 8, becomes a host, and a later one hangs below it. */
static int break_depth(struct draft *draft, uint32_t i)
{
    if (i + 1u >= draft->node_count) return 0;
    draft->nodes[i].kind = HOST;
    draft->nodes[i].misses.d = 0;
    draft->nodes[i + 1 + chance_below(draft->node_count - i - 1u)].parent = (uint8_t)(128 + i);
    return 1;
}

static int break_name(struct draft *draft, uint32_t i)
{
    if (i == 0) return 0;
    const struct drafted_node *other = &draft->nodes[chance_below(i)];
    draft->nodes[i].name_length = other->name_length;
    memcpy(draft->nodes[i].name, other->name, sizeof other->name);
    return 1;
}

/* A soft leaf allows fewer misses than a stretch can lose. */
static int break_eleven_soft(struct drafted_node *node)
{
    uint32_t lost = draft_most_lost(node->served, node->wanted, node->misses.w);
    if (lost == 0) return 0;
    node->misses.d = (uint16_t)(chance(60) ? lost - 1 : chance_below(lost));
    return 1;
}

static int break_eleven(struct drafted_node *node)
{
    if (draft_is_soft(node)) return break_eleven_soft(node);
    uint32_t most = draft_most_wanted(node->served, node->kind, node->wanted.t);
    if (most >= node->wanted.t) return 0;
    node->wanted.c = (uint16_t)(most + 1 + (chance(50) ? 0 : chance_below(node->wanted.t - most)));
    return 1;
}

/* A soft leaf slides, or wants a type whose period neither divides the served one nor is a multiple of it; half the time rule 11 is kept all the same. */
static int break_twenty(struct drafted_node *node)
{
    uint32_t t = 1 + (uint32_t)chance_below(chance(80) ? 2u * node->served.t : 4096);
    if (!draft_is_soft(node)) return 0;
    if (chance(50)) node->misses.d = node->misses.w;
    if (chance(40)) {
        node->kind = SLIDING_LEAF;
        return 1;
    }
    if (t > 4096 || t % node->served.t == 0 || node->served.t % t == 0) return 0;
    node->wanted = (struct drafted_type){(uint16_t)(chance(30) ? 0 : chance_below(t + 1)), (uint16_t)t};
    return 1;
}

static int break_twelve(const struct draft *draft, struct drafted_node *node)
{
    struct drafted_type own = draft_own_type(draft, node->parent);
    if (own.t == 1 || draft_is_whole(own)) return 0;
    uint32_t t = own.t * (uint32_t)chance_below(4) + 1 + (uint32_t)chance_below(own.t - 1u);
    if (t > 4096) return 0;
    serve_in(node, t);
    return 1;
}

/* Two children with periods of twice and three times the parent's. */
static int break_thirteen(struct draft *draft, uint32_t i)
{
    uint32_t own = draft_own_type(draft, draft->nodes[i].parent).t, siblings[64], count = 0;
    for (uint32_t k = 0; k < draft->node_count; k++) {
        if (k != i && draft->nodes[k].parent == draft->nodes[i].parent) siblings[count++] = k;
    }
    if (count == 0 || own * 3 > 4096) return 0;
    serve_in(&draft->nodes[i], own * 2);
    serve_in(&draft->nodes[siblings[chance_below(count)]], own * 3);
    return 1;
}

/* The longest served period among the parent's children. */
static uint32_t longest_period(const struct draft *draft, uint8_t parent)
{
    uint32_t longest = 0;
    for (uint32_t k = 0; k < draft->node_count; k++) {
        if (draft->nodes[k].parent == parent && draft->nodes[k].served.t > longest) longest = draft->nodes[k].served.t;
    }
    return longest;
}

/* Serves a node all that its parent can still owe, and so many slots more. */
static int serve_to_the_edge(struct draft *draft, uint32_t i, uint32_t more)
{
    struct drafted_node *node = &draft->nodes[i];
    struct drafted_type own = draft_own_type(draft, node->parent);
    uint32_t longest = longest_period(draft, node->parent), sum = 0;
    for (uint32_t k = 0; k < draft->node_count; k++) {
        if (draft->nodes[k].parent == node->parent) sum += draft->nodes[k].served.c * (longest / draft->nodes[k].served.t);
    }
    uint32_t side = draft_is_whole(own) ? longest : own.c * (longest / own.t);
    uint32_t free = side - sum, each = longest / node->served.t, c = node->served.c + free / each + more;
    if (c > node->served.t || (more == 0 && free % each != 0)) return 0;
    node->served.c = (uint16_t)c;
    return 1;
}

int draft_fill(struct draft *draft)
{
    return serve_to_the_edge(draft, (uint32_t)chance_below(draft->node_count), 0);
}

int draft_break(struct draft *draft, uint32_t number, uint32_t depth)
{
    uint32_t i = node_at_depth(draft, number == 7 ? DEPTH : depth);
    if (i == draft->node_count) return 0;
    switch (number) {
    case 7: return break_depth(draft, i);
    case 9: return break_name(draft, i);
    case 11: return break_eleven(&draft->nodes[i]);
    case 12: return break_twelve(draft, &draft->nodes[i]);
    case 13: return break_thirteen(draft, i);
    case 20: return break_twenty(&draft->nodes[i]);
    default: return serve_to_the_edge(draft, i, 1);
    }
}

/* ---- whole parents and empty ones */

static void set_own_c(struct draft *draft, uint8_t parent, uint32_t c)
{
    if (parent < 128) draft->supplies[parent].c = (uint16_t)c;
    else draft->nodes[parent - 128].wanted.c = (uint16_t)c;
}

static int is_child_of_a(const struct draft *draft, uint32_t i, int host)
{
    return (draft->nodes[i].parent >= 128) == (host != 0);
}

static uint32_t lowest_odd_child(const struct draft *draft, uint8_t parent)
{
    for (uint32_t k = 0; k < draft->node_count; k++) {
        if (draft->nodes[k].parent == parent && draft_is_odd(draft, k)) return k;
    }
    return NO_NODE;
}

uint32_t draft_shorten(struct draft *draft, int at_host)
{
    uint32_t found[64], count = 0;
    for (uint32_t i = 0; i < draft->node_count; i++) {
        if (is_child_of_a(draft, i, at_host) && draft_is_odd(draft, i)) found[count++] = i;
    }
    if (count == 0) return NO_NODE;
    uint8_t parent = draft->nodes[found[chance_below(count)]].parent;
    set_own_c(draft, parent, draft_own_type(draft, parent).t - 1u);
    return lowest_odd_child(draft, parent);
}

/* One more of the longest period makes the sum pass by one, and that at the last child that is served anything. */
uint32_t draft_overfill(struct draft *draft, int at_host)
{
    uint32_t i = (uint32_t)chance_below(draft->node_count), last = i;
    uint8_t parent = draft->nodes[i].parent;
    if (!is_child_of_a(draft, i, at_host) || !draft_is_whole(draft_own_type(draft, parent))) return NO_NODE;
    if (draft->nodes[i].served.t < longest_period(draft, parent) || !serve_to_the_edge(draft, i, 1)) return NO_NODE;
    for (uint32_t k = i; k < draft->node_count; k++) {
        if (draft->nodes[k].parent == parent && draft->nodes[k].served.c > 0) last = k;
    }
    return last;
}

uint32_t draft_empty(struct draft *draft, int at_host, uint32_t number)
{
    uint32_t i = (uint32_t)chance_below(draft->node_count);
    uint8_t parent = draft->nodes[i].parent;
    if (!is_child_of_a(draft, i, at_host) || draft->nodes[i].served.c == 0) return NO_NODE;
    uint32_t odd = lowest_odd_child(draft, parent);
    if ((odd == NO_NODE) != (number == 14)) return NO_NODE;
    set_own_c(draft, parent, 0);
    if (number == 12) return odd;
    for (uint32_t k = 0; k < i; k++) {
        if (draft->nodes[k].parent == parent && draft->nodes[k].served.c > 0) return k;
    }
    return i;
}
