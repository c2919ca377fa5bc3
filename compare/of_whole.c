/* Parents that give all slots (document 02, request 2), and those that nearly do. */
#include "cases.h"
#include "check.h"
#include "courses.h"
#include "deep.h"
#include "seen.h"
#include "told.h"

#include "../include/mettulos.h"

static uint8_t bytes[MOST_BYTES];
static uint32_t plan[METTULOS_PLAN];

/* ---- plans that are told one by one */

static const struct told told[] = {
    /* a core of (4,4), all of whose slots may be served in another period; and one of (3,4) */
    {{4, 4}, 1, {LEAF(0, 6, 6)}, 0, 0},
    {{4, 4}, 2, {LEAF(0, 2, 6), LEAF(0, 1, 3)}, 0, 0},
    {{3, 4}, 2, {LEAF(0, 2, 6), LEAF(0, 1, 3)}, 12, 0},
    {{3, 4}, 2, {LEAF(0, 1, 8), LEAF(0, 1, 6)}, 12, 1},
    {{4, 4}, 2, {LEAF(0, 1, 8), LEAF(0, 1, 6)}, 13, 1},
    /* periods that divide the core's */
    {{4, 4}, 1, {LEAF(0, 1, 2)}, 0, 0},
    {{3, 4}, 1, {LEAF(0, 1, 2)}, 12, 0},
    {{4, 4}, 2, {LEAF(0, 1, 2), LEAF(0, 1, 2)}, 0, 0},
    {{4, 4}, 2, {LEAF(0, 2, 2), LEAF(0, 1, 2)}, 14, 1},
    {{4, 4}, 2, {LEAF(0, 1, 1), LEAF(0, 1, 3)}, 14, 1},
    /* one slot too many, of 6 and of 12 */
    {{4, 4}, 3, {LEAF(0, 3, 6), LEAF(0, 2, 6), LEAF(0, 2, 6)}, 14, 2},
    {{4, 4}, 3, {LEAF(0, 4, 6), LEAF(0, 3, 6), LEAF(0, 1, 6)}, 14, 1},
    {{4, 4}, 4, {LEAF(0, 3, 6), LEAF(0, 4, 6), LEAF(0, 0, 6), LEAF(0, 0, 3)}, 14, 1},
    {{4, 4}, 3, {LEAF(0, 2, 3), LEAF(0, 1, 6), LEAF(0, 3, 12)}, 14, 2},
    {{4, 4}, 3, {LEAF(0, 2, 3), LEAF(0, 1, 6), LEAF(0, 2, 12)}, 0, 0},
    /* a whole host, by what it wants and in whatever period; with (3,4) or (5,6) it is not, though it is served all */
    {{4, 4}, 3, {HOST(0, 4, 4, 4, 4), LEAF(BELOW_FIRST, 1, 3), LEAF(BELOW_FIRST, 4, 6)}, 0, 0},
    {{4, 4}, 3, {HOST(0, 4, 4, 4, 4), LEAF(BELOW_FIRST, 1, 3), LEAF(BELOW_FIRST, 5, 6)}, 14, 2},
    {{4, 4}, 3, {HOST(0, 3, 4, 4, 4), LEAF(BELOW_FIRST, 1, 3), LEAF(BELOW_FIRST, 2, 6)}, 12, 1},
    {{4, 4}, 3, {HOST(0, 5, 5, 6, 6), LEAF(BELOW_FIRST, 1, 3), LEAF(BELOW_FIRST, 4, 6)}, 0, 0},
    {{4, 4}, 2, {HOST(0, 5, 6, 6, 6), LEAF(BELOW_FIRST, 1, 4)}, 12, 1},
    {{4, 4}, 2, {HOST(0, 6, 6, 6, 6), LEAF(BELOW_FIRST, 4, 4)}, 0, 0},
    {{4, 4}, 2, {HOST(0, 5, 6, 6, 6), LEAF(BELOW_FIRST, 10, 12)}, 0, 0},
    {{4, 4}, 2, {HOST(0, 5, 6, 6, 6), LEAF(BELOW_FIRST, 11, 12)}, 14, 1},
    {{3, 4}, 2, {HOST(0, 4, 4, 4, 4), LEAF(BELOW_FIRST, 1, 3)}, 14, 0},
    /* its siblings are served nothing */
    {{4, 4}, 3, {LEAF(0, 0, 6), HOST(0, 6, 6, 6, 6), LEAF(BELOW_SECOND, 1, 4)}, 0, 0},
    {{4, 4}, 3, {LEAF(0, 1, 6), HOST(0, 6, 6, 6, 6), LEAF(BELOW_SECOND, 1, 4)}, 14, 1},
    {{4, 4}, 3, {HOST(0, 6, 6, 6, 6), LEAF(BELOW_FIRST, 1, 4), LEAF(0, 1, 12)}, 14, 2},
    /* (0,T) is not whole */
    {{0, 4}, 1, {LEAF(0, 0, 6)}, 12, 0},
    {{0, 4}, 1, {LEAF(0, 0, 2)}, 12, 0},
    {{0, 4}, 1, {LEAF(0, 0, 8)}, 0, 0},
    {{0, 4}, 2, {LEAF(0, 0, 4), LEAF(0, 1, 4)}, 14, 1},
    {{0, 1}, 1, {LEAF(0, 0, 3)}, 0, 0},
    {{0, 1}, 1, {LEAF(0, 1, 3)}, 14, 0},
    {{4, 4}, 2, {HOST(0, 0, 4, 4, 4), LEAF(BELOW_FIRST, 0, 6)}, 12, 1},
    {{4, 4}, 2, {HOST(0, 0, 4, 4, 4), LEAF(BELOW_FIRST, 1, 4)}, 14, 1},
    /* the longest periods */
    {{4096, 4096}, 1, {LEAF(0, 4095, 4095)}, 0, 0},
    {{4095, 4096}, 1, {LEAF(0, 1, 4095)}, 12, 0},
    {{4095, 4095}, 1, {LEAF(0, 4096, 4096)}, 0, 0},
    {{4095, 4095}, 2, {LEAF(0, 4095, 4096), LEAF(0, 1, 2048)}, 14, 1},
};

static void plans_told(void)
{
    struct draft draft;
    seen_kind("plans with whole parents that are told one by one");
    for (size_t k = 0; k < sizeof told / sizeof *told; k++) {
        draft_told(&draft, &told[k]);
        check_told(&draft, told[k].number, told[k].place, plan);
        for (int run = 0; run < 5 && told[k].number == 0; run++) check_promised(plan, 100);
    }
    seen_kind("every cut and every single-byte change of a plan with whole parents");
    draft_told(&draft, &(struct told){{4, 4}, 3, {HOST(0, 4, 4, 4, 4), LEAF(BELOW_FIRST, 1, 3), LEAF(BELOW_FIRST, 4, 6)}, 0, 0});
    check_every_change(bytes, draft_bytes(&draft, bytes));
}

/* Twelve slots of three plans, worked out by hand: every core supplied, nobody declining. The shorter period goes first, and no host is passed in vain, so that
 * the setting makes no difference. */
static void slots_told(void)
{
    static const struct {
        struct told plan;
        uint8_t slots[12];
    } listed[] = {
        {{{4, 4}, 1, {LEAF(0, 6, 6)}, 0, 0}, {0, 0, 0, 0, 0, 0, 0, 0, 0, 0, 0, 0}},
        {{{4, 4}, 2, {LEAF(0, 2, 6), LEAF(0, 1, 3)}, 0, 0}, {1, 0, 0, 1, 254, 254, 1, 0, 0, 1, 254, 254}},
        {{{4, 4}, 3, {HOST(0, 4, 4, 4, 4), LEAF(BELOW_FIRST, 1, 3), LEAF(BELOW_FIRST, 4, 6)}, 0, 0}, {1, 2, 2, 1, 2, 2, 1, 2, 2, 1, 2, 2}},
    };
    static const uint8_t supplies[12] = {1, 1, 1, 1, 1, 1, 1, 1, 1, 1, 1, 1};
    static const uint64_t declines[12];
    uint64_t state[METTULOS_STATE];
    uint8_t answers[12];
    struct draft draft;
    seen_kind("listed slots under whole parents");
    for (size_t k = 0; k < sizeof listed / sizeof *listed; k++) {
        draft_told(&draft, &listed[k].plan);
        check_told(&draft, 0, 0, plan);
        for (uint8_t setting = METTULOS_OFF; setting <= METTULOS_ON; setting++) {
            check_fresh(plan, METTULOS_PLAN, state, METTULOS_STATE);
            check_run(setting, plan, METTULOS_PLAN, state, METTULOS_STATE, supplies, 12, declines, 12, answers, 12);
            check_bytes("the slots under a whole parent are not those worked out by hand", answers, listed[k].slots, 12);
        }
    }
}

/* ---- deep plans that are refused by one thing */

/* What is changed at the parent. */
enum change { SHORTEN, OVERFILL, EMPTY_ODD, EMPTY_SERVING, CHANGES };

static uint32_t change_plan(struct draft *draft, enum change change, int at_host)
{
    switch (change) {
    case SHORTEN: return draft_shorten(draft, at_host);
    case OVERFILL: return draft_overfill(draft, at_host);
    default: return draft_empty(draft, at_host, change == EMPTY_ODD ? 12 : 14);
    }
}

/* Makes such a plan from sound ones, of which the last is kept, and answers where it is refused. */
static uint32_t make_refused(struct draft *draft, enum change change, int at_host)
{
    static struct draft sound;
    for (uint32_t tries = 0; tries < 100000; tries++) {
        if (sound.node_count == 0 || tries % 8 == 7) draft_deep(&sound, chance(40) ? 64 : 20);
        *draft = sound;
        uint32_t place = change_plan(draft, change, at_host);
        if (place != NO_NODE) return place;
    }
    check_fail("no deep plan can be changed in this way");
    return NO_NODE;
}

static void plans_refused(uint64_t rounds)
{
    static const enum thing things[CHANGES][2] = {{SUPPLY_SHORT_OF_WHOLE, HOST_SHORT_OF_WHOLE},
                                                  {SUPPLY_OVERFULL, HOST_OVERFULL},
                                                  {EMPTY_AND_ODD, EMPTY_AND_ODD},
                                                  {EMPTY_AND_SERVING, EMPTY_AND_SERVING}};
    struct draft draft;
    seen_kind("deep plans refused for one slot at a parent that is whole, or for a parent of none");
    for (uint64_t round = 0; round < rounds; round++) {
        for (int change = 0; change < CHANGES; change++) {
            for (int at_host = 0; at_host < 2; at_host++) {
                uint32_t place = make_refused(&draft, (enum change)change, at_host);
                check_told(&draft, change == SHORTEN || change == EMPTY_ODD ? 12 : 14, place, plan);
                seen(things[change][at_host]);
            }
        }
    }
}

void cases_of_whole_parents(uint64_t rounds)
{
    plans_told();
    slots_told();
    plans_refused(rounds);
}
