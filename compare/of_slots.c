/* Slots given out under small plans. */
#include "cases.h"
#include "check.h"
#include "generate.h"
#include "inputs.h"
#include "promised.h"
#include "seen.h"

#include "../include/mettulos.h"

#include <string.h>

static uint8_t answers[8 * (MOST_SLOTS + 8)];

/* All slots of the inputs with the setting of the first. */
static uint64_t run(const uint32_t *plan, uint64_t *state, const struct inputs *inputs, size_t room)
{
    return check_run(inputs->settings[0], plan, METTULOS_PLAN, state, METTULOS_STATE, inputs->supplies, inputs->slots, inputs->declines, inputs->slots,
                     answers, room);
}

static void runs(uint64_t rounds)
{
    static struct inputs inputs;
    uint32_t plan[METTULOS_PLAN];
    uint64_t state[METTULOS_STATE];
    seen_kind("runs from a fresh state, one after the other");
    for (uint64_t round = 0; round < rounds; round++) {
        sound_value(plan, chance(80) ? 12 : 64);
        check_fresh(plan, METTULOS_PLAN, state, METTULOS_STATE);
        for (uint64_t k = 0; k <= chance_below(4); k++) {
            size_t slots = chance_below(chance(90) ? 100 : 601);
            if (k == 0 && chance(70)) inputs_in_keeping(&inputs, plan, slots);
            else inputs_by_chance(&inputs, plan, slots);
            inputs_settings(&inputs, chance(50) ? ALL_OFF : ALL_ON);
            if (run(plan, state, &inputs, slots * plan[METTULOS_PLAN_SUPPLIES] + chance_below(3)) != 0) check_fail("a run that should go through is refused");
            if (k == 0) promised(&(struct given){plan, slots, inputs.settings, inputs.supplies, inputs.declines, answers});
        }
    }
    seen_kind("runs from odd states");
    for (uint64_t round = 0; round < rounds; round++) {
        sound_value(plan, chance(80) ? 12 : 64);
        odd_state(plan, state);
        inputs_by_chance(&inputs, plan, chance_below(100));
        run(plan, state, &inputs, inputs.slots * plan[METTULOS_PLAN_SUPPLIES]);
    }
}

/* A step for each slot of a run, and the run: the same answers and the same state. */
static void steps_against_runs(uint64_t rounds)
{
    static struct inputs inputs;
    uint32_t plan[METTULOS_PLAN];
    uint64_t by_run[METTULOS_STATE], by_steps[METTULOS_STATE];
    uint8_t grants[8], of_steps[8 * 40];
    seen_kind("steps against runs");
    for (uint64_t round = 0; round < rounds; round++) {
        sound_value(plan, chance(80) ? 12 : 64);
        if (chance(50)) check_fresh(plan, METTULOS_PLAN, by_run, METTULOS_STATE);
        else odd_state(plan, by_run);
        memcpy(by_steps, by_run, sizeof by_run);
        inputs_by_chance(&inputs, plan, chance_below(41));
        if (run(plan, by_run, &inputs, inputs.slots * plan[METTULOS_PLAN_SUPPLIES]) != 0) inputs.slots = (size_t)(LAST - by_run[0]);
        for (size_t k = 0; k < inputs.slots; k++) {
            uint64_t refused = check_step(inputs.settings[0], plan, METTULOS_PLAN, by_steps, METTULOS_STATE, inputs.supplies[k], inputs.declines[k], grants, 8);
            if (refused != 0) check_fail("a step is refused that a run makes");
            memcpy(of_steps + k * plan[METTULOS_PLAN_SUPPLIES], grants, plan[METTULOS_PLAN_SUPPLIES]);
        }
        if (by_run[0] != by_steps[0]) run(plan, by_run, &inputs, inputs.slots * plan[METTULOS_PLAN_SUPPLIES]);
        check_bytes("the state after a run is not the state after its steps", by_run, by_steps, sizeof by_run);
        check_bytes("the answers of a run are not those of its steps", answers, of_steps, inputs.slots * plan[METTULOS_PLAN_SUPPLIES]);
        if (by_steps[0] == LAST) check_step(inputs.settings[0], plan, METTULOS_PLAN, by_steps, METTULOS_STATE, 255, 0, grants, 8);
    }
}

/* The eight slots that document 01 lists of its plan. With the setting on the log's host is passed in vain where they are idle. */
static void slots_of_the_document(void)
{
    static const uint8_t listed[] = {1, 254, 2, 2, 1, 254, 2, 2}, listed_on[] = {1, 2, 2, 254, 1, 2, 2, 254};
    static struct inputs inputs;
    uint32_t plan[METTULOS_PLAN];
    uint64_t state[METTULOS_STATE];
    seen_kind("the listed slots of the document's plan");
    check_read(plan_of_the_document, sizeof plan_of_the_document, plan, METTULOS_PLAN);
    inputs.slots = 8;
    memset(inputs.supplies, 255, sizeof inputs.supplies);
    check_fresh(plan, METTULOS_PLAN, state, METTULOS_STATE);
    inputs_settings(&inputs, ALL_OFF);
    run(plan, state, &inputs, 8);
    check_bytes("the slots are not the ones that the document lists", answers, listed, sizeof listed);
    check_fresh(plan, METTULOS_PLAN, state, METTULOS_STATE);
    inputs_settings(&inputs, ALL_ON);
    run(plan, state, &inputs, 8);
    check_bytes("the slots with the setting on are not the ones worked out by hand", answers, listed_on, sizeof listed_on);
}

/* One or two things wrong with a run, so that the order of its refusals shows too. */
static void refused_runs(uint64_t rounds)
{
    static struct inputs inputs;
    uint32_t plan[METTULOS_PLAN];
    uint64_t state[METTULOS_STATE], kept[METTULOS_STATE];
    uint8_t grants[8];
    seen_kind("runs and steps with something wrong");
    for (uint64_t round = 0; round < rounds; round++) {
        sound_value(plan, 12);
        odd_state(plan, state);
        uint32_t nodes = plan[METTULOS_PLAN_NODES]; /* as many as there are, whatever is done to the plan below */
        size_t slots = chance_below(30), declines, room = slots * plan[METTULOS_PLAN_SUPPLIES];
        inputs_by_chance(&inputs, plan, slots);
        uint8_t setting = inputs.settings[0];
        declines = slots;
        for (uint64_t k = 0; k <= chance_below(2); k++) {
            uint64_t at = chance_below(64);
            switch (chance_below(9)) {
            case 0: state[0] = LAST - chance_below(30); break;
            case 1: state[0] = chance(50) ? LAST + 1 + chance_below(3) : chance_bits(); break;
            case 2: state[1 + at] = 65535 + chance_below(3); break;
            case 3: state[1 + chance_below(nodes)] += 1; break;
            case 4: state[1 + at] = chance_bits(); break;
            case 5: declines = slots + 1 - 2 * (slots > 0 && chance(50)); break;
            case 6: room = room > 0 && chance(70) ? room - 1 : chance_below(room + 1); break;
            case 7: setting = any_setting(); break;
            default: at = chance_below(METTULOS_PLAN); plan[at] = odd_value_number(plan[at]); break;
            }
        }
        memcpy(kept, state, sizeof state);
        check_run(setting, plan, METTULOS_PLAN, state, METTULOS_STATE, inputs.supplies, slots, inputs.declines, declines, answers, room);
        check_step(setting, plan, METTULOS_PLAN, kept, METTULOS_STATE, inputs.supplies[0], inputs.declines[0], grants, 8);
    }
}

void cases_of_slots(uint64_t rounds)
{
    slots_of_the_document();
    runs(rounds);
    steps_against_runs(rounds);
    refused_runs(2 * rounds);
}
