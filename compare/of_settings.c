/* Slots with the setting off and on (document 02, request 12), and settings that are none. */
#include "cases.h"
#include "check.h"
#include "courses.h"
#include "deep.h"
#include "seen.h"
#include "told.h"

#include "../include/mettulos.h"

#include <string.h>

static uint32_t plan[METTULOS_PLAN];
static struct inputs inputs;

/* ---- slots that are worked out by hand */

enum { BELOW_THIRD = 130, BELOW_FIFTH = 132, SLOTS = 8 };

/* A host with leaf 1, and leaves 2 and 3 beside it; the same with a longer period for leaf 2; a host with leaf 3 and a host with leaf 2 in it, and leaf 4
 * beside it; three hosts, with leaves 1, 3 and 5; a host without children, and leaf 1 beside it. */
static const struct told beside = {{1, 1}, 4, {HOST(0, 1, 4, 1, 4), LEAF(BELOW_FIRST, 1, 4), LEAF(0, 1, 4), LEAF(0, 1, 4)}, 0, 0};
static const struct told longer = {{1, 1}, 4, {HOST(0, 1, 4, 1, 4), LEAF(BELOW_FIRST, 1, 4), LEAF(0, 2, 8), LEAF(0, 1, 4)}, 0, 0};
static const struct told nested = {
    {1, 1}, 5, {HOST(0, 2, 4, 2, 4), HOST(BELOW_FIRST, 1, 4, 1, 4), LEAF(BELOW_SECOND, 1, 4), LEAF(BELOW_FIRST, 1, 4), LEAF(0, 2, 4)}, 0, 0};
static const struct told three = {
    {1, 1},
    6,
    {HOST(0, 1, 4, 1, 4), LEAF(BELOW_FIRST, 1, 4), HOST(0, 1, 4, 1, 4), LEAF(BELOW_THIRD, 1, 4), HOST(0, 1, 4, 1, 4), LEAF(BELOW_FIFTH, 1, 4)},
    0,
    0};
static const struct told childless = {{1, 1}, 2, {HOST(0, 1, 2, 1, 2), LEAF(0, 1, 2)}, 0, 0};

/* Its slots from a fresh start, all supplied, by their settings and decline words. */
static const struct {
    const struct told *plan;
    size_t slots;
    uint8_t settings[SLOTS];
    uint64_t declines[SLOTS];
    uint8_t answers[SLOTS];
} listed[] = {
    /* leaf 1 declines, then leaf 2 */
    {&beside, 4, {0, 0, 0, 0}, {2, 4, 0, 0}, {254, 3, 2, 254}},
    {&beside, 4, {1, 1, 1, 1}, {2, 4, 0, 0}, {2, 1, 3, 254}},
    /* all leaves decline */
    {&beside, 4, {0, 0, 0, 0}, {14, 14, 0, 0}, {254, 254, 2, 3}},
    {&beside, 4, {1, 1, 1, 1}, {14, 14, 0, 0}, {254, 254, 1, 2}},
    /* the host's own bit */
    {&beside, 4, {0, 0, 0, 0}, {1, 1, 1, 1}, {1, 2, 3, 254}},
    {&beside, 4, {1, 1, 1, 1}, {1, 1, 1, 1}, {1, 2, 3, 254}},
    /* the next sibling by its period, not by its number */
    {&longer, 8, {0, 0, 0, 0, 0, 0, 0, 0}, {2, 2, 2, 2, 0, 0, 0, 0}, {254, 3, 2, 2, 1, 3, 254, 254}},
    {&longer, 8, {1, 1, 1, 1, 1, 1, 1, 1}, {2, 2, 2, 2, 0, 0, 0, 0}, {3, 2, 2, 254, 1, 3, 254, 254}},
    /* back by one level, and then by two */
    {&nested, 4, {0, 0, 0, 0}, {4, 4, 0, 0}, {254, 3, 4, 4}},
    {&nested, 4, {1, 1, 1, 1}, {4, 4, 0, 0}, {3, 4, 2, 4}},
    {&nested, 4, {1, 0, 1, 0}, {4, 4, 0, 0}, {3, 254, 4, 4}},
    {&nested, 4, {0, 1, 0, 1}, {4, 4, 0, 0}, {254, 3, 4, 4}},
    /* two hosts in vain */
    {&three, 4, {0, 0, 0, 0}, {10, 10, 2, 0}, {254, 254, 5, 254}},
    {&three, 4, {1, 1, 1, 1}, {10, 10, 2, 0}, {5, 254, 3, 1}},
    /* nobody to decline */
    {&childless, 4, {0, 0, 0, 0}, {0, 0, 0, 0}, {254, 1, 254, 1}},
    {&childless, 4, {1, 1, 1, 1}, {0, 0, 0, 0}, {1, 254, 1, 254}},
};

static void slots_listed(void)
{
    uint64_t state[METTULOS_STATE];
    uint8_t answers[SLOTS], grants[8];
    struct draft draft;
    seen_kind("listed slots with the setting off and on");
    for (size_t k = 0; k < sizeof listed / sizeof *listed; k++) {
        inputs.slots = listed[k].slots;
        draft_told(&draft, listed[k].plan);
        draft_value(&draft, plan);
        memset(inputs.supplies, 255, SLOTS);
        memcpy(inputs.settings, listed[k].settings, sizeof listed[k].settings);
        memcpy(inputs.declines, listed[k].declines, sizeof listed[k].declines);
        check_fresh(plan, METTULOS_PLAN, state, METTULOS_STATE);
        course_run(plan, state, &inputs, inputs.slots, answers);
        check_bytes("the slots of runs are not those worked out by hand", answers, listed[k].answers, inputs.slots);
        check_fresh(plan, METTULOS_PLAN, state, METTULOS_STATE);
        for (size_t slot = 0; slot < inputs.slots; slot++) {
            check_step(inputs.settings[slot], plan, METTULOS_PLAN, state, METTULOS_STATE, 255, inputs.declines[slot], grants, 8);
            answers[slot] = grants[0];
        }
        check_bytes("the slots of steps are not those worked out by hand", answers, listed[k].answers, inputs.slots);
    }
}

/* ---- one slot with both settings */

/* From each state a step with the setting off and one with it on; it goes on from one of them. */
static void steps_with_both(uint64_t rounds)
{
    uint64_t state[METTULOS_STATE], after[2][METTULOS_STATE];
    uint8_t grants[2][8];
    struct draft draft;
    seen_kind("steps with both settings from the same state");
    for (uint64_t round = 0; round < rounds; round++) {
        draft_deep(&draft, chance(50) ? 64 : 20);
        value_of(&draft, plan);
        check_fresh(plan, METTULOS_PLAN, state, METTULOS_STATE);
        if (chance(60)) odd_state(plan, state);
        inputs_by_chance(&inputs, plan, 12);
        for (size_t slot = 0; slot < inputs.slots && state[0] < LAST; slot++) {
            for (uint8_t setting = METTULOS_OFF; setting <= METTULOS_ON; setting++) {
                memcpy(after[setting], state, sizeof state);
                check_step(setting, plan, METTULOS_PLAN, after[setting], METTULOS_STATE, inputs.supplies[slot], inputs.declines[slot], grants[setting], 8);
            }
            course_see(plan, 1, grants[METTULOS_OFF], grants[METTULOS_ON]);
            memcpy(state, after[inputs.settings[slot]], sizeof state);
        }
    }
}

/* ---- settings that are none */

/* Makes the plan value or the state unfit. */
static void spoil(uint64_t *state)
{
    switch (chance_below(3)) {
    case 0: plan[METTULOS_PLAN_P] = 0; break;
    case 1: state[METTULOS_STATE_LEFT(0)] = 65536; break;
    default: state[METTULOS_STATE_CLOCK] = LAST + 1; break;
    }
}

static void expect(uint64_t refused, uint32_t number)
{
    if (METTULOS_NUMBER(refused) != number || METTULOS_PLACE(refused) != METTULOS_NOWHERE) check_fail("a setting that is none is not refused as it should be");
}

/* By 5 and with no place, whatever else is wrong with the plan value, the state, and a run's inputs and room; but by 17 where the plan, the state or the grants
 * have a wrong length. That nothing is written, but 255 in a step's grants, is seen in every refusal. */
static void bad_setting(uint8_t setting)
{
    uint64_t state[METTULOS_STATE + 1];
    uint8_t grants[9], answers[64];
    size_t slots = chance_below(8), declines = chance(70) ? slots : chance_below(8), room = chance(70) ? 8 * slots : chance_below(8);
    sound_value(plan, 12);
    odd_state(plan, state);
    inputs_by_chance(&inputs, plan, 8);
    int is_spoilt = chance(50);
    if (is_spoilt) spoil(state);
    expect(check_step(setting, plan, METTULOS_PLAN, state, METTULOS_STATE, inputs.supplies[0], inputs.declines[0], grants, 8), 5);
    expect(check_run(setting, plan, METTULOS_PLAN, state, METTULOS_STATE, inputs.supplies, slots, inputs.declines, declines, answers, room), 5);
    if (is_spoilt) seen(BAD_SETTING_FIRST);
    size_t plan_len = METTULOS_PLAN, state_len = METTULOS_STATE, grants_len = METTULOS_GRANTS;
    if (chance(50)) plan_len--;
    else state_len += chance(50) ? 1 : (size_t)-1;
    expect(check_run(setting, plan, plan_len, state, state_len, inputs.supplies, slots, inputs.declines, declines, answers, room), 17);
    if (chance(50)) grants_len++;
    expect(check_step(setting, plan, plan_len, state, state_len, inputs.supplies[0], inputs.declines[0], grants, grants_len), 17);
    seen(BAD_SETTING_LAST);
}

static void bad_settings(uint64_t rounds)
{
    seen_kind("settings that are none");
    for (uint32_t setting = 2; setting <= 255; setting++) bad_setting((uint8_t)setting);
    for (uint64_t round = 0; round < 2 * rounds; round++) bad_setting((uint8_t)(chance(40) ? 2 : chance(60) ? 255 : 2 + chance_below(254)));
}

void cases_of_settings(uint64_t rounds)
{
    slots_listed();
    steps_with_both(rounds);
    bad_settings(rounds);
}
