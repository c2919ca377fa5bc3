/* Slots given out under plans that are served at every depth: long runs, and runs and steps in turn over the same state. */
#include "cases.h"
#include "check.h"
#include "courses.h"
#include "deep.h"
#include "promised.h"
#include "seen.h"

#include "../include/mettulos.h"

#include <string.h>

static struct inputs inputs;
static uint8_t in_pieces[8 * MOST_SLOTS], whole[8 * MOST_SLOTS + 8];
static uint32_t plan[METTULOS_PLAN];

/* A deep plan and a state from which so many slots can be given, fresh or odd. */
static void deep_plan(uint64_t *state, size_t slots)
{
    struct draft draft;
    draft_deep(&draft, 64);
    value_of(&draft, plan);
    if (check_fresh(plan, METTULOS_PLAN, state, METTULOS_STATE) != 0) check_fail("a deep plan value that should be sound is refused");
    if (chance(60)) return;
    odd_state(plan, state);
    if (state[0] > LAST - slots) state[0] = LAST - slots - chance_below(2);
}

/* With the setting of the first slot. */
static uint64_t run(uint64_t *state, size_t from, size_t slots, uint8_t *out, size_t room)
{
    return check_run(inputs.settings[from], plan, METTULOS_PLAN, state, METTULOS_STATE, inputs.supplies + from, slots, inputs.declines + from, slots, out,
                     room);
}

static void step(uint64_t *state, size_t at)
{
    uint8_t grants[8];
    if (check_step(inputs.settings[at], plan, METTULOS_PLAN, state, METTULOS_STATE, inputs.supplies[at], inputs.declines[at], grants, 8) != 0)
        check_fail("a step that should go through is refused");
    memcpy(in_pieces + at * plan[METTULOS_PLAN_SUPPLIES], grants, plan[METTULOS_PLAN_SUPPLIES]);
}

/* All slots of the inputs, each with its setting, a run and some steps in turn. */
static void go_in_turns(uint64_t *state)
{
    size_t at = 0;
    int stepped = chance(50);
    while (at < inputs.slots) {
        size_t left = inputs.slots - at, slots = inputs_stretch(&inputs, at, chance_below(left < 16 || chance(50) ? left + 1 : left / 8));
        uint64_t refused = run(state, at, slots, in_pieces + at * plan[METTULOS_PLAN_SUPPLIES], slots * plan[METTULOS_PLAN_SUPPLIES]);
        if (refused != 0) check_fail("a run that should go through is refused");
        if (at > 0 && slots > 0 && stepped) seen(RUN_AFTER_STEP);
        at += slots;
        stepped = 0;
        for (uint64_t k = chance_below(8); k > 0 && at < inputs.slots; k--) {
            step(state, at++);
            if (!stepped && slots > 0) seen(STEP_AFTER_RUN);
            stepped = 1;
        }
    }
}

/* How many slots a round has. Thousands in one of ten; after as many rounds as the gate has, in one of sixty-four, because they take most of the time. */
static size_t slots_of_round(uint64_t round)
{
    if (round % (round < 1000 ? 10 : 64) != 0) return 1 + chance_below(300);
    return 1000 + chance_below(chance(20) ? MOST_SLOTS - 999 : 1000);
}

/* Whether nothing has been given out before. */
static int is_fresh(const uint64_t *state)
{
    int full = 1;
    for (uint32_t i = 0; i < plan[METTULOS_PLAN_NODES]; i++) full = full && state[1 + i] == mettulos_node(plan, i)[METTULOS_NODE_SERVED_C];
    return full && state[0] == 0;
}

/* The answers, to which the inputs lead from a fresh start, are as promised. */
static void hold_fresh(const uint64_t *state, const uint8_t *answers)
{
    if (is_fresh(state)) promised(&(struct given){plan, inputs.slots, inputs.settings, inputs.supplies, inputs.declines, answers});
}

/* Runs and steps in turn, and as few runs as there can be over all their slots: the same answers and the same state. From a fresh start the answers are as
 * promised. Where all have one setting, so are those with the other. */
static void turns(uint64_t rounds)
{
    uint64_t start[METTULOS_STATE], by_turns[METTULOS_STATE], by_run[METTULOS_STATE];
    seen_kind("runs and steps in turn under deep plans, and as few runs as can be over all of it");
    for (uint64_t round = 0; round < rounds; round++) {
        size_t slots = slots_of_round(round);
        enum course course = (enum course)(round % COURSES);
        deep_plan(start, slots);
        memcpy(by_turns, start, sizeof start);
        memcpy(by_run, start, sizeof start);
        if (is_fresh(start) && chance(70)) inputs_in_keeping(&inputs, plan, slots);
        else inputs_by_chance(&inputs, plan, slots);
        inputs_settings(&inputs, course);
        go_in_turns(by_turns);
        course_run(plan, by_run, &inputs, slots, whole);
        check_bytes("the state after a run is not the state after its pieces", by_run, by_turns, sizeof by_run);
        check_bytes("the answers of a run are not those of its pieces", whole, in_pieces, slots * plan[METTULOS_PLAN_SUPPLIES]);
        seen(PIECES_AS_A_WHOLE);
        hold_fresh(start, whole);
        if (course == MIXED) continue;
        memcpy(by_run, start, sizeof start);
        inputs_settings(&inputs, course == ALL_OFF ? ALL_ON : ALL_OFF);
        course_run(plan, by_run, &inputs, slots, in_pieces);
        course_see(plan, slots, whole, in_pieces);
        hold_fresh(start, in_pieces);
    }
}

/* What is promised to node i in one piece: a window, or a stretch of a soft leaf; 0 to a host. */
static uint32_t slots_promised(uint32_t i)
{
    const uint32_t *node = mettulos_node(plan, i);
    if (node[METTULOS_NODE_KIND] == METTULOS_HOST) return 0;
    return node[METTULOS_NODE_WANTED_T] * (node[METTULOS_NODE_D] > 0 ? node[METTULOS_NODE_W] : 1);
}

/* Twice the longest window or stretch of a leaf, but no more than a hundred slots. */
static size_t slots_of_windows(void)
{
    uint32_t longest = 1;
    for (uint32_t i = 0; i < plan[METTULOS_PLAN_NODES]; i++) {
        if (slots_promised(i) > longest) longest = slots_promised(i);
    }
    return longest <= 50 ? 2 * longest : 100;
}

/* Runs that are supplied as the types say, under plans of few nodes, whose periods are short. */
static void runs_in_keeping(uint64_t rounds)
{
    struct draft draft;
    seen_kind("runs under deep plans of few nodes, supplied as the types say");
    for (uint64_t round = 0; round < rounds; round++) {
        draft_deep(&draft, 16);
        value_of(&draft, plan);
        check_promised(plan, slots_of_windows());
    }
}

/* Steps alone, from any state. */
static void deep_steps(uint64_t rounds)
{
    uint64_t state[METTULOS_STATE];
    seen_kind("steps under deep plans");
    for (uint64_t round = 0; round < rounds; round++) {
        deep_plan(state, 10);
        inputs_by_chance(&inputs, plan, 10);
        for (size_t at = 0; at < 10; at++) step(state, at);
    }
}

/* Up to the last slot and beyond it. */
static void last_slots(uint64_t rounds)
{
    uint64_t state[METTULOS_STATE];
    uint8_t grants[8];
    seen_kind("the last slots under deep plans");
    for (uint64_t round = 0; round < rounds; round++) {
        size_t slots = 1 + chance_below(20);
        deep_plan(state, slots);
        state[0] = LAST - slots;
        inputs_by_chance(&inputs, plan, slots);
        if (METTULOS_NUMBER(run(state, 0, slots + 1, whole, (slots + 1) * plan[METTULOS_PLAN_SUPPLIES])) != 15) check_fail("a run goes past 2^40");
        if (run(state, 0, slots, whole, slots * plan[METTULOS_PLAN_SUPPLIES]) != 0) check_fail("a run up to 2^40 is refused");
        uint64_t of_step = check_step(inputs.settings[0], plan, METTULOS_PLAN, state, METTULOS_STATE, 255, 0, grants, 8);
        if (METTULOS_NUMBER(of_step) != 15) check_fail("a step goes past 2^40");
        if (run(state, 0, 0, whole, 0) != 0) check_fail("a run of nothing at 2^40 is refused");
    }
}

/* A node with one slot more left than it is served, and room for one answer less than there are. */
static void refused_turns(uint64_t rounds)
{
    uint64_t state[METTULOS_STATE];
    uint8_t grants[8];
    seen_kind("runs and steps that deep plans refuse");
    for (uint64_t round = 0; round < rounds; round++) {
        size_t slots = 1 + chance_below(20);
        deep_plan(state, slots);
        inputs_by_chance(&inputs, plan, slots);
        if (METTULOS_NUMBER(run(state, 0, slots, whole, slots * plan[METTULOS_PLAN_SUPPLIES] - 1)) != 17) check_fail("a run has too little room and goes on");
        uint32_t i = chance(20) ? plan[METTULOS_PLAN_NODES] - 1 : (uint32_t)chance_below(plan[METTULOS_PLAN_NODES]);
        state[1 + i] = mettulos_node(plan, i)[METTULOS_NODE_SERVED_C] + 1 + (chance(70) ? 0 : chance_bits() >> 32);
        uint64_t of_run = run(state, 0, slots, whole, slots * plan[METTULOS_PLAN_SUPPLIES]);
        uint64_t of_step = check_step(inputs.settings[0], plan, METTULOS_PLAN, state, METTULOS_STATE, 255, 0, grants, 8);
        if (METTULOS_NUMBER(of_run) != 16 || of_step != of_run) check_fail("a node has more left than it is served, and a slot is given");
    }
}

void cases_of_turns(uint64_t rounds)
{
    turns(rounds);
    runs_in_keeping(5 * rounds);
    deep_steps(rounds);
    last_slots(rounds);
    refused_turns(rounds);
}
