/* Soft leaves and plans of edition 2 (document 02, request 6). */
#include "cases.h"
#include "check.h"
#include "courses.h"
#include "deep.h"
#include "inputs.h"
#include "seen.h"
#include "told.h"

#include "../include/mettulos.h"

static uint8_t bytes[MOST_BYTES];
static uint32_t plan[METTULOS_PLAN];

/* ---- plans that are told one by one */

enum { ALIGNED = 0, SLIDING = 1, HOSTING = 2 };

/* Where a plan of edition 2 with one supply has the wanted type, D and the served type of its first node, and D of its second. */
enum { FIRST_WANTED = 25, FIRST_D = 29, FIRST_SERVED = 33, SECOND_D = 43 };

#define SOFT(wanted_c, wanted_t, d, w, served_c, served_t) MISSING(ALIGNED, 0, wanted_c, wanted_t, d, w, served_c, served_t)

static const struct told told[] = {
    /* the example of the document: K 3, u 2; and its other stretches, of which the first is not always the worst */
    {{1, 1}, 1, {SOFT(3, 4, 2, 3, 7, 12)}, 0, 0},
    {{1, 1}, 1, {SOFT(3, 4, 1, 3, 7, 12)}, 11, 0},
    {{1, 1}, 1, {SOFT(3, 4, 0, 3, 7, 12)}, 11, 0},
    {{1, 1}, 1, {SOFT(3, 4, 1, 1, 7, 12)}, 0, 0},
    {{1, 1}, 1, {SOFT(3, 4, 1, 2, 7, 12)}, 11, 0},
    {{1, 1}, 1, {SOFT(3, 4, 3, 4, 7, 12)}, 11, 0},
    {{1, 1}, 1, {SOFT(3, 4, 4, 5, 7, 12)}, 0, 0},
    {{1, 1}, 1, {SOFT(3, 4, 3, 5, 7, 12)}, 11, 0},
    {{1, 1}, 1, {SOFT(3, 4, 684, 1024, 7, 12)}, 0, 0},
    {{1, 1}, 1, {SOFT(3, 4, 683, 1024, 7, 12)}, 11, 0},
    /* K 6, u 1, W 4: the second stretch loses more than the first; K 4, u 3, W 6: a period that is covered in part loses what is covered */
    {{1, 1}, 1, {SOFT(2, 2, 2, 4, 11, 12)}, 0, 0},
    {{1, 1}, 1, {SOFT(2, 2, 1, 4, 11, 12)}, 11, 0},
    {{1, 1}, 1, {SOFT(1, 1, 5, 6, 1, 4)}, 0, 0},
    {{1, 1}, 1, {SOFT(1, 1, 4, 6, 1, 4)}, 11, 0},
    /* T = T' */
    {{1, 1}, 1, {SOFT(3, 4, 1, 1024, 3, 4)}, 0, 0},
    {{1, 1}, 1, {SOFT(3, 4, 1, 2, 2, 4)}, 11, 0},
    {{1, 1}, 1, {SOFT(3, 4, 2, 2, 2, 4)}, 0, 0},
    /* T divides T': no window can miss, or all can */
    {{1, 1}, 1, {SOFT(2, 4, 1, 1024, 1, 2)}, 0, 0},
    {{1, 1}, 1, {SOFT(3, 4, 1023, 1024, 1, 2)}, 11, 0},
    {{1, 1}, 1, {SOFT(3, 4, 1024, 1024, 1, 2)}, 0, 0},
    /* nothing is wanted; nothing is served, and u is K */
    {{1, 1}, 1, {SOFT(0, 4, 1, 1024, 0, 12)}, 0, 0},
    {{1, 1}, 1, {SOFT(1, 2, 1, 2, 0, 4)}, 11, 0},
    {{1, 1}, 1, {SOFT(1, 2, 2, 2, 0, 4)}, 0, 0},
    /* the longest period, of 4,096 windows */
    {{1, 1}, 1, {SOFT(1, 1, 1, 1024, 4095, 4096)}, 0, 0},
    {{1, 1}, 1, {SOFT(1, 1, 1, 1024, 4094, 4096)}, 11, 0},
    {{1, 1}, 1, {SOFT(1, 1, 2, 1024, 4094, 4096)}, 0, 0},
    /* a soft leaf is aligned, and its periods divide, even where all may miss or nothing is wanted; a hard one has any W */
    {{1, 1}, 1, {MISSING(SLIDING, 0, 2, 4, 1, 2, 4, 4)}, 20, 0},
    {{1, 1}, 1, {MISSING(SLIDING, 0, 0, 4, 2, 2, 4, 4)}, 20, 0},
    {{1, 1}, 1, {MISSING(SLIDING, 0, 2, 4, 0, 1024, 4, 4)}, 0, 0},
    {{1, 1}, 1, {SOFT(4, 4, 1, 1, 6, 6)}, 20, 0},
    {{1, 1}, 1, {SOFT(0, 4, 1, 1, 6, 6)}, 20, 0},
    {{1, 1}, 1, {SOFT(4, 4, 0, 1024, 6, 6)}, 0, 0},
    {{1, 1}, 2, {MISSING(HOSTING, 0, 4, 4, 0, 1024, 6, 6), MISSING(ALIGNED, BELOW_FIRST, 3, 4, 2, 3, 7, 12)}, 0, 0},
    /* 20 comes just before the node's 11, and node by node; and before 12 to 14 */
    {{1, 1}, 1, {SOFT(4, 4, 1, 2, 0, 6)}, 20, 0},
    {{1, 1}, 2, {SOFT(3, 4, 1, 3, 7, 12), SOFT(4, 4, 1, 1, 0, 6)}, 11, 0},
    {{1, 1}, 2, {MISSING(ALIGNED, 0, 3, 4, 0, 1, 2, 4), SOFT(4, 4, 1, 1, 0, 6)}, 11, 0},
    {{1, 1}, 2, {SOFT(0, 4, 1, 1, 0, 6), MISSING(ALIGNED, 0, 3, 4, 0, 1, 2, 4)}, 20, 0},
    {{1, 1}, 2, {MISSING(ALIGNED, 0, 1, 1, 0, 1, 1, 1), SOFT(0, 4, 1, 1, 6, 6)}, 20, 1},
    {{3, 4}, 2, {MISSING(ALIGNED, 0, 1, 6, 0, 1, 1, 6), SOFT(0, 4, 1, 1, 0, 6)}, 20, 1},
    {{3, 4}, 1, {SOFT(1, 3, 2, 2, 1, 6)}, 12, 0},
    {{1, 1}, 2, {SOFT(3, 4, 2, 3, 7, 12), SOFT(3, 4, 2, 3, 7, 12)}, 14, 1},
    /* D and W out of range, and a host that misses; after its wanted type, before its served one and all that comes later */
    {{1, 1}, 1, {SOFT(1, 1, 0, 0, 1, 1)}, 19, FIRST_D},
    {{1, 1}, 1, {SOFT(1, 1, 1, 0, 1, 1)}, 19, FIRST_D},
    {{1, 1}, 1, {SOFT(1, 1, 0, 1025, 1, 1)}, 19, FIRST_D},
    {{1, 1}, 1, {SOFT(1, 1, 1025, 1024, 1, 1)}, 19, FIRST_D},
    {{1, 1}, 1, {SOFT(1, 1, 1024, 1024, 1, 1)}, 0, 0},
    {{1, 1}, 1, {SOFT(1, 1, 3, 2, 1, 1)}, 19, FIRST_D},
    {{1, 1}, 1, {SOFT(1, 1, 0, 65535, 1, 1)}, 19, FIRST_D},
    {{1, 1}, 1, {SOFT(1, 1, 256, 1, 1, 1)}, 19, FIRST_D},
    {{1, 1}, 1, {MISSING(HOSTING, 0, 1, 1, 1, 1, 1, 1)}, 19, FIRST_D},
    {{1, 1}, 1, {MISSING(HOSTING, 0, 1, 1, 1, 1024, 1, 1)}, 19, FIRST_D},
    {{1, 1}, 2, {SOFT(1, 1, 1, 1, 1, 1), MISSING(SLIDING, 0, 0, 1, 0, 1025, 0, 1)}, 19, SECOND_D},
    {{1, 1}, 2, {SOFT(1, 1, 2, 1, 1, 1), MISSING(3, 0, 0, 1, 0, 1025, 0, 1)}, 19, FIRST_D},
    {{1, 1}, 1, {SOFT(2, 1, 2, 1, 1, 1)}, 4, FIRST_WANTED},
    {{1, 1}, 1, {SOFT(1, 1, 2, 1, 2, 1)}, 19, FIRST_D},
    {{1, 1}, 1, {SOFT(1, 1, 1, 1, 2, 1)}, 4, FIRST_SERVED},
};

static void plans_told(void)
{
    struct draft draft;
    seen_kind("plans with soft leaves that are told one by one");
    for (size_t k = 0; k < sizeof told / sizeof *told; k++) {
        draft_told(&draft, &told[k]);
        draft.edition = 2;
        check_told(&draft, told[k].number, told[k].place, plan);
        for (int run = 0; run < 5 && told[k].number == 0; run++) check_promised(plan, 100);
    }
    seen_kind("every cut and every single-byte change of a plan with a soft leaf");
    draft_told(&draft, &(struct told){{4, 4}, 2, {MISSING(HOSTING, 0, 4, 4, 0, 2, 4, 4), MISSING(ALIGNED, BELOW_FIRST, 3, 4, 2, 3, 7, 12)}, 0, 0});
    draft.edition = 2;
    check_every_change(bytes, draft_bytes(&draft, bytes));
}

/* ---- soft leaves by chance */

/* One leaf alone on a core, with any periods there are. */
static struct told soft_by_chance(void)
{
    static const uint16_t periods[] = {12, 24, 60, 360, 1024, 2520, 4095, 4096};
    struct told one = {{1, 1}, 1, {SOFT(0, 1, 0, 1, 0, 1)}, 0, 0};
    struct drafted_node *leaf = &one.nodes[0];
    leaf->served.t = chance(50) ? periods[chance_below(8)] : (uint16_t)(1 + chance_below(100));
    leaf->served.c = (uint16_t)(chance(50) ? leaf->served.t - chance_below(leaf->served.t / 4u + 1) : chance_below(leaf->served.t + 1u));
    leaf->wanted = draft_soft_wanted(leaf->served);
    leaf->misses.w = draft_windows();
    return one;
}

/* What a stretch can lose is allowed, and one miss less is not, which makes a hard leaf of one that loses 1. */
static void soft_at_the_edge(uint64_t rounds)
{
    struct draft draft;
    seen_kind("soft leaves that may miss what can be missed, and one window less");
    for (uint64_t round = 0; round < rounds; round++) {
        struct told one = soft_by_chance();
        struct drafted_node *leaf = &one.nodes[0];
        uint16_t lost = draft_most_lost(leaf->served, leaf->wanted, leaf->misses.w);
        leaf->misses.d = lost > 0 ? lost : 1;
        draft_told(&draft, &one);
        draft.edition = 2;
        check_told(&draft, 0, 0, plan);
        if (lost == 0) continue;
        draft.nodes[0].misses.d = (uint16_t)(lost - 1);
        check_told(&draft, 11, 0, plan);
        seen(SOFT_AT_THE_EDGE);
    }
}

/* Some stretches of the leaf, or 0 where one has more than fifty slots. */
static size_t slots_of_stretches(const struct drafted_node *leaf)
{
    size_t stretch = (size_t)leaf->misses.w * leaf->wanted.t;
    return stretch > 50 ? 0 : 100 / stretch * stretch;
}

/* A core of this type, half the time with a host on it that is served all that it owes, and two leaves that share this: one soft, and a hard one that is served
 * the rest. */
static struct told told_shared(struct drafted_type own, struct drafted_node soft, uint16_t rest)
{
    uint8_t hosts = (uint8_t)chance_below(2), first = (uint8_t)chance_below(2);
    struct told one = {own, (uint8_t)(hosts + 2), {MISSING(HOSTING, 0, own.c, own.t, 0, 1, own.c, own.t)}, 0, 0};
    soft.parent = hosts > 0 ? BELOW_FIRST : 0;
    one.nodes[hosts + first] = soft;
    one.nodes[hosts + 1 - first] = (struct drafted_node)LEAF(soft.parent, rest, soft.served.t);
    return one;
}

/* Such a plan, with short periods. Answers how many slots are some stretches of the soft leaf; 0 where they are too long, or can lose nothing or all. */
static size_t draft_shared(struct draft *draft)
{
    uint16_t t = (uint16_t)(1 + chance_below(6)), times = (uint16_t)(1 + chance_below(24u / t));
    struct drafted_type own = {(uint16_t)(t - chance_below(chance(50) ? 1 : t)), t};
    uint16_t rest = (uint16_t)chance_below(own.c * times / 2u + 1), w = (uint16_t)(2 + chance_below(5));
    struct drafted_type served = {(uint16_t)(own.c * times - rest), (uint16_t)(t * times)}, wanted = draft_soft_wanted(served);
    struct drafted_node soft = SOFT(wanted.c, wanted.t, draft_most_lost(served, wanted, w), w, served.c, served.t);
    struct told one = told_shared(own, soft, rest);
    draft_told(draft, &one);
    draft->edition = 2;
    return soft.misses.d == 0 || soft.misses.d == w ? 0 : slots_of_stretches(&soft);
}

static void stretches(uint64_t rounds)
{
    struct draft draft;
    seen_kind("runs with stretches of soft leaves, supplied as the types say");
    for (uint64_t round = 0; round < rounds;) {
        size_t slots = draft_shared(&draft);
        if (slots == 0) continue;
        check_told(&draft, 0, 0, plan);
        check_promised(plan, slots);
        round++;
    }
}

/* ---- faults of the bytes */

/* Where a plan of edition 2 has the D of node i. */
static uint32_t place_of_d(const struct draft *draft, uint32_t i)
{
    return 1 + 16 + 1 + 4u * draft->supply_count + 1 + 14 * i + 6;
}

static void expect_cut(size_t len, uint32_t place, enum thing thing)
{
    uint64_t refused = check_read(bytes, len, plan, METTULOS_PLAN);
    if (METTULOS_NUMBER(refused) != 1 || METTULOS_PLACE(refused) != place) check_fail("a plan of edition 2 that is cut short is not refused by 1 at the field");
    seen(thing);
}

/* Each spare byte, and D and W of a node, not all there. */
static void cut_files(const struct draft *draft)
{
    uint32_t d = place_of_d(draft, (uint32_t)chance_below(draft->node_count));
    draft_bytes(draft, bytes);
    for (uint32_t k = 0; k < 8; k++) expect_cut(9 + k, 9 + k, CUT_IN_SPARE_BYTES);
    for (uint32_t k = 0; k < 4; k++) expect_cut(d + k, d + k / 2 * 2, CUT_IN_MISSES);
}

/* One spare byte that is not 0, and more behind it. */
static void spoil_spare(struct draft draft)
{
    uint32_t k = (uint32_t)chance_below(8);
    draft.spare[k] = (uint8_t)(1 + chance_below(255));
    for (uint32_t behind = k + 1; behind < 8 && chance(50); behind++) draft.spare[behind] = (uint8_t)chance_bits();
    uint64_t refused = check_read(bytes, draft_bytes(&draft, bytes), plan, METTULOS_PLAN);
    if (METTULOS_NUMBER(refused) != 3 || METTULOS_PLACE(refused) != 9 + k) check_fail("a spare byte that is not 0 is not refused by 3 at its place");
    seen(SPARE_BYTE);
}

static void spoil_misses(struct draft draft)
{
    uint32_t i = (uint32_t)chance_below(draft.node_count);
    struct drafted_misses *misses = &draft.nodes[i].misses;
    switch (chance_below(4)) {
    case 0: misses->w = 0; break;
    case 1: misses->w = (uint16_t)(chance(60) ? 1025 : 1025 + chance_below(65535 - 1024)); break;
    case 2: misses->d = (uint16_t)(misses->w + (chance(60) ? 1 : 1 + chance_below(65535u - misses->w))); break;
    default:
        if (draft.nodes[i].kind != HOSTING) return;
        misses->d = (uint16_t)(1 + chance_below(misses->w));
        break;
    }
    check_told(&draft, 19, place_of_d(&draft, i), plan);
    seen(BAD_MISSES);
}

static void spoil_edition(struct draft draft)
{
    static const uint8_t editions[] = {0, 3, 4, 128, 255};
    draft.edition = chance(80) ? editions[chance_below(5)] : (uint8_t)(3 + chance_below(253));
    check_told(&draft, 2, 0, plan);
}

static void faulty_files(uint64_t rounds)
{
    struct draft draft;
    seen_kind("plans of edition 2 with one fault in their bytes");
    for (uint64_t round = 0; round < rounds; round++) {
        do draft_sound(&draft, chance(80) ? 12 : 64);
        while (draft.edition != 2);
        if (round % 4 == 0) cut_files(&draft);
        spoil_spare(draft);
        for (int k = 0; k < 2; k++) spoil_misses(draft);
        spoil_edition(draft);
    }
}

/* ---- plan values */

static void expect_unfit(enum thing thing)
{
    uint64_t state[METTULOS_STATE];
    if (METTULOS_NUMBER(check_fresh(plan, METTULOS_PLAN, state, METTULOS_STATE)) != 16) check_fail("a plan value is fit against its edition");
    seen(thing);
}

/* An edition that is none, in a value of either. */
static void bad_edition(const struct draft *draft)
{
    static const uint32_t editions[] = {0, 3, 255, 256, 257, 258, 65537, 65538, 0x80000001u, 0xFFFFFFFFu};
    value_of(draft, plan);
    plan[METTULOS_PLAN_EDITION] = editions[chance_below(sizeof editions / sizeof *editions)];
    expect_unfit(BAD_EDITION);
}

/* D and W that edition 2 would let a leaf have, and W 0. */
static void misses_in_first(const struct draft *draft)
{
    value_of(draft, plan);
    plan[METTULOS_PLAN_EDITION] = 1;
    uint32_t at = METTULOS_PLAN_NODE((uint32_t)chance_below(draft->node_count));
    for (uint32_t i = 0; i < draft->node_count; i++) {
        plan[METTULOS_PLAN_NODE(i) + METTULOS_NODE_D] = 0;
        plan[METTULOS_PLAN_NODE(i) + METTULOS_NODE_W] = 1;
    }
    if (chance(50)) plan[at + METTULOS_NODE_D] = 1;
    else plan[at + METTULOS_NODE_W] = chance(60) ? 2 : chance(50) ? 0 : 1024;
    expect_unfit(MISSES_IN_FIRST);
}

static void values_against_editions(uint64_t rounds)
{
    struct draft draft;
    seen_kind("plan values against their edition");
    for (uint64_t round = 0; round < rounds; round++) {
        draft_sound(&draft, chance(80) ? 12 : 64);
        bad_edition(&draft);
        misses_in_first(&draft);
    }
}

void cases_of_soft_leaves(uint64_t rounds)
{
    plans_told();
    soft_at_the_edge(4 * rounds);
    stretches(2 * rounds);
    faulty_files(rounds);
    values_against_editions(rounds);
}
