/* Plans that are served at every depth: first a tree, then from the supplies down what each parent serves its children, within what rules 11 to 14 let it owe,
 * then the nodes in some order in which parents come first. */
#include "deep.h"

#include <string.h>

enum { NODES = 64, CORES = 8, DEPTH = 8, HOST = 2 };

/* ---- the tree */

/* Parents are given as in a parent byte, and come before their children. */
struct tree {
    uint32_t cores, count, deepest;
    int whole; /* whether it is to have whole cores and hosts */
    uint8_t parent[NODES], depth[NODES], kind[NODES];
    uint8_t is_end[NODES]; /* whether the node has no child */
    uint32_t ends[NODES];  /* how many nodes at or below it have none */
};

static uint8_t leaf_kind(void)
{
    return (uint8_t)chance_below(2);
}

static void hang(struct tree *tree, uint8_t parent, uint8_t depth, uint8_t kind)
{
    uint32_t i = tree->count++;
    tree->parent[i] = parent;
    tree->depth[i] = depth;
    tree->kind[i] = kind;
}

/* Hosts one below the other, and at the bottom a leaf, or now and then a host without children. */
static void hang_spine(struct tree *tree, uint8_t core, uint32_t depth, uint32_t most)
{
    uint8_t parent = core;
    for (uint32_t d = 1; d <= depth && tree->count < most; d++) {
        int ends = d == depth;
        hang(tree, parent, (uint8_t)d, ends && !chance(30) ? leaf_kind() : HOST);
        parent = (uint8_t)(127 + tree->count);
    }
}

/* A node under any core or any host that may have children, mostly the deepest of three. */
static void hang_anywhere(struct tree *tree)
{
    uint8_t parents[CORES + NODES], depths[CORES + NODES];
    uint32_t count = 0;
    for (uint32_t i = 0; i < tree->cores; i++) {
        parents[count] = (uint8_t)i;
        depths[count++] = 0;
    }
    for (uint32_t i = 0; i < tree->count; i++) {
        if (tree->kind[i] != HOST || tree->depth[i] == tree->deepest) continue;
        parents[count] = (uint8_t)(128 + i);
        depths[count++] = tree->depth[i];
    }
    uint32_t taken = (uint32_t)chance_below(count);
    for (int k = 0; k < 2; k++) {
        uint32_t other = (uint32_t)chance_below(count);
        if (depths[other] > depths[taken] && chance(80)) taken = other;
    }
    uint32_t depth = depths[taken] + 1u;
    hang(tree, parents[taken], (uint8_t)depth, chance(depth == tree->deepest ? 40 : 20) ? HOST : leaf_kind());
}

/* Deeper ones more often, but no deeper than the tree is to be. */
static uint32_t depth_of_spine(const struct tree *tree)
{
    uint32_t one = 1 + (uint32_t)chance_below(tree->deepest), other = 1 + (uint32_t)chance_below(tree->deepest);
    return one > other ? one : other;
}

static void grow(struct tree *tree, uint32_t most_nodes)
{
    uint32_t most = chance(50) ? most_nodes : 1 + (uint32_t)chance_below(most_nodes), first;
    int alike = chance(40);
    tree->whole = chance(30);
    tree->deepest = chance(20) ? DEPTH : 1 + (uint32_t)chance_below(DEPTH);
    tree->count = 0;
    tree->cores = 1 + (uint32_t)chance_below(chance(15) ? 2 : CORES);
    first = (uint32_t)chance_below(tree->cores);
    for (uint32_t i = 0; i < tree->cores; i++) {
        hang_spine(tree, (uint8_t)((first + i) % tree->cores), alike ? tree->deepest : depth_of_spine(tree), most);
    }
    while (tree->count < most) hang_anywhere(tree);
    memset(tree->ends, 0, sizeof tree->ends);
    for (uint32_t i = tree->count; i-- > 0;) {
        tree->is_end[i] = tree->ends[i] == 0;
        if (tree->is_end[i]) tree->ends[i] = 1;
        if (tree->parent[i] >= 128) tree->ends[tree->parent[i] - 128] += tree->ends[i];
    }
}

/* ---- what is served */

/* The periods that a parent's children may have, each dividing the next; and what it owes in the last of them. */
struct periods {
    uint16_t of[12];
    uint32_t count, room;
};

/* Longer ones are made until each end below has a slot, as far as periods go, and some more by chance. */
static struct periods make_periods(struct drafted_type own, uint32_t ends)
{
    static const uint16_t factors[] = {2, 2, 2, 3, 3, 4, 5, 7};
    struct periods periods = {{draft_first_period(own)}, 1, own.c};
    if (draft_is_whole(own)) periods.room = periods.of[0];
    while (periods.count < 12) {
        uint32_t last = periods.of[periods.count - 1], factor = factors[chance_below(8)];
        int needed = own.c > 0 && periods.room < ends;
        if (!needed && (last * factor > 96 || !chance(25))) break;
        if (last * factor > 4096) factor = 2;
        if (last * factor > 4096) break;
        periods.of[periods.count++] = (uint16_t)(last * factor);
        periods.room *= factor;
    }
    return periods;
}

/* A type within so many slots of the last period. */
static struct drafted_type take_type(const struct periods *periods, uint32_t share)
{
    uint16_t last = periods->of[periods->count - 1], t = periods->of[chance_below(periods->count)];
    uint32_t each = last / t;
    if (share / each == 0) return (struct drafted_type){(uint16_t)share, last};
    return (struct drafted_type){(uint16_t)(share / each), t};
}

/* What a host wants of its served type: often just that, or some of its periods at once, or less, or another period that leaves it something; where it is
 * served all slots, all of them in any period. */
static struct drafted_type host_wants(struct drafted_type served)
{
    uint32_t many = 2 + (uint32_t)chance_below(3);
    if (draft_is_whole(served) && chance(40)) {
        uint16_t t = (uint16_t)(1 + chance_below(12));
        return (struct drafted_type){t, t};
    }
    switch (chance_below(8)) {
    case 0:
        if (served.t * many <= 4096) return (struct drafted_type){(uint16_t)(served.c * many), (uint16_t)(served.t * many)};
        return served;
    case 1:
        if (served.c > 4) return (struct drafted_type){(uint16_t)(served.c - chance_below(3)), served.t};
        return served;
    case 2: {
        struct drafted_type wanted = draft_wanted(served, HOST);
        return wanted.c > 0 ? wanted : served;
    }
    default: return served;
    }
}

/* How much of what is left a child gets that has so many ends below it: one for each at least, where there is enough, and as much for the children after it. A
 * node without children gets little more, so that what is deeper gets something too. */
static uint32_t take_share(uint32_t left, uint32_t ends, uint32_t ends_after, int is_end)
{
    uint32_t most = left > ends_after ? left - ends_after : left > 0;
    if (chance(2)) return 0;
    if (most <= ends || (ends_after == 0 && chance(is_end ? 20 : 50))) return most;
    uint32_t more = (uint32_t)chance_below(most - ends + 1);
    return ends + (is_end ? more / 8 : chance(85) ? most - ends - more / 8 : more);
}

/* The one child to which a whole parent leaves all that it has: a host, and then whole itself. NODES where there is none. */
static uint32_t take_heir(const struct tree *tree, uint8_t parent, struct drafted_type own)
{
    uint32_t hosts[NODES], count = 0;
    if (!draft_is_whole(own) || !chance(tree->whole ? 80 : 5)) return NODES;
    for (uint32_t i = 0; i < tree->count; i++) {
        if (tree->parent[i] == parent && tree->kind[i] == HOST && !tree->is_end[i]) hosts[count++] = i;
    }
    return count > 0 ? hosts[chance_below(count)] : NODES;
}

/* Serves the parent's children, none of them more than is left, all of them something where there is enough and no heir. */
static void serve_children(struct draft *draft, const struct tree *tree, uint8_t parent, struct drafted_type own)
{
    uint32_t ends = 0, heir = take_heir(tree, parent, own), left;
    for (uint32_t i = 0; i < tree->count; i++) ends += tree->parent[i] == parent ? tree->ends[i] : 0;
    if (ends == 0) return;
    struct periods periods = make_periods(own, ends);
    left = periods.room;
    for (uint32_t i = 0; i < tree->count; i++) {
        struct drafted_node *node = &draft->nodes[i];
        if (tree->parent[i] != parent) continue;
        ends -= tree->ends[i];
        uint32_t share = take_share(left, tree->ends[i], ends, tree->is_end[i]);
        if (heir < NODES) share = i == heir ? left : 0;
        left -= share;
        node->kind = tree->kind[i];
        node->served = take_type(&periods, share);
        node->wanted = node->kind == HOST ? host_wants(node->served) : draft_wanted(node->served, node->kind);
        draft_misses(draft->edition, node);
    }
}

static struct drafted_type deep_supply(int whole)
{
    static const uint16_t periods[] = {1, 1, 2, 3, 4, 5, 6, 8, 10, 12, 16, 20, 24, 32, 60, 100};
    uint16_t t = periods[chance_below(16)];
    return (struct drafted_type){chance(whole ? 90 : 50) ? t : (uint16_t)(t - chance_below(t < 3 ? t : t / 2 + 1)), t};
}

/* ---- the order of the nodes */

/* Moves the nodes into an order by chance in which each comes after its parent. */
static void shuffle(struct draft *draft, const struct tree *tree)
{
    struct drafted_node nodes[NODES];
    uint8_t moved[NODES]; /* where each node has gone, or NODES */
    memcpy(nodes, draft->nodes, sizeof nodes);
    memset(moved, NODES, sizeof moved);
    for (uint32_t to = 0; to < tree->count; to++) {
        uint32_t ready[NODES], count = 0;
        for (uint32_t i = 0; i < tree->count; i++) {
            if (moved[i] == NODES && (tree->parent[i] < 128 || moved[tree->parent[i] - 128] < NODES)) ready[count++] = i;
        }
        uint32_t taken = ready[chance_below(count)];
        moved[taken] = (uint8_t)to;
        draft->nodes[to] = nodes[taken];
        draft->nodes[to].parent = tree->parent[taken] < 128 ? tree->parent[taken] : (uint8_t)(128 + moved[tree->parent[taken] - 128]);
    }
}

void draft_deep(struct draft *draft, uint32_t most_nodes)
{
    struct tree tree;
    grow(&tree, most_nodes);
    memset(draft, 0, sizeof *draft);
    draft->edition = (uint8_t)(1 + chance_below(2));
    draft->p = draft_tick();
    draft->q = draft_tick();
    draft->supply_count = (uint8_t)tree.cores;
    draft->node_count = (uint8_t)tree.count;
    for (uint8_t i = 0; i < draft->supply_count; i++) {
        draft->supplies[i] = deep_supply(tree.whole);
        serve_children(draft, &tree, i, draft->supplies[i]);
    }
    for (uint8_t i = 0; i < draft->node_count; i++) {
        if (tree.kind[i] == HOST) serve_children(draft, &tree, (uint8_t)(128 + i), draft->nodes[i].wanted);
    }
    shuffle(draft, &tree);
    for (uint32_t i = 0; i < draft->node_count; i++) draft_name(draft, i);
}
