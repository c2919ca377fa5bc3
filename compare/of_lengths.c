/* Slices of wrong lengths, and slices of none. */
#include "cases.h"
#include "check.h"
#include "generate.h"
#include "inputs.h"
#include "seen.h"

#include "../include/mettulos.h"

enum { MOST_LENGTH = 1105 };

static struct inputs inputs;
static uint32_t plan[MOST_LENGTH], numbers[4];
static uint64_t state[MOST_LENGTH];
static uint8_t grants[MOST_LENGTH], answers[64 * 8];

/* Every length of a slice but the one that it must have, up to some more. */
static size_t but(size_t exact, size_t len)
{
    return len == exact ? 0 : len;
}

static void wrong_lengths_of_answers(void)
{
    for (size_t len = 0; len < MOST_LENGTH; len++) {
        check_decide((struct pair){(uint8_t)chance_below(3), 1, 4, 0, 1, 5}, 8, but(4, len), numbers);
        check_decide((struct pair){0, 1, (uint16_t)chance_below(2), 0, 1, 8}, 7, but(4, len), numbers);
        check_name(plan_of_the_document, DOCUMENT_BYTES, chance_below(4), but(2, len));
        check_times((uint32_t)chance_below(3), 1, chance(50) ? 5 : UINT64_MAX, but(1, len));
        check_step(any_setting(), plan, METTULOS_PLAN, state, METTULOS_STATE, 255, 0, grants, but(8, len));
    }
}

static void wrong_lengths_of_plans_and_states(void)
{
    for (size_t len = 0; len < MOST_LENGTH; len++) {
        check_read(plan_of_the_document, DOCUMENT_BYTES - chance_below(2), plan, but(METTULOS_PLAN, len));
        check_fresh(plan, but(METTULOS_PLAN, len), state, METTULOS_STATE);
        check_step(any_setting(), plan, but(METTULOS_PLAN, len), state, METTULOS_STATE, 255, 0, grants, 8);
        check_run(any_setting(), plan, but(METTULOS_PLAN, len), state, METTULOS_STATE, inputs.supplies, 4, inputs.declines, 4, answers, 4);
        check_fresh(plan, METTULOS_PLAN, state, but(METTULOS_STATE, len));
        check_step(any_setting(), plan, METTULOS_PLAN, state, but(METTULOS_STATE, len), 255, 0, grants, 8);
        check_run(any_setting(), plan, METTULOS_PLAN, state, but(METTULOS_STATE, len), inputs.supplies, 4, inputs.declines, 4, answers, 4);
    }
}

static void wrong_lengths(void)
{
    seen_kind("slices of wrong lengths");
    check_read(plan_of_the_document, DOCUMENT_BYTES, plan, METTULOS_PLAN);
    check_fresh(plan, METTULOS_PLAN, state, METTULOS_STATE);
    inputs_by_chance(&inputs, plan, 4);
    wrong_lengths_of_answers();
    wrong_lengths_of_plans_and_states();
    check_fresh(plan, METTULOS_PLAN, state, METTULOS_STATE);
    for (size_t supplies = 0; supplies < 8; supplies++) {
        for (size_t declines = 0; declines < 8; declines++) {
            for (size_t room = 0; room < 10; room++) {
                check_run(any_setting(), plan, METTULOS_PLAN, state, METTULOS_STATE, inputs.supplies, supplies, inputs.declines, declines, answers, room);
            }
        }
    }
}

static size_t or_none(size_t len)
{
    return chance(50) ? 0 : len;
}

/* Any of the slices of a call empty, and half of those NULL. */
static void empty_slices(uint64_t rounds)
{
    seen_kind("empty slices, NULL among them");
    for (uint64_t round = 0; round < rounds; round++) {
        size_t slots = chance_below(20), all = slots;
        sound_value(plan, 12);
        odd_state(plan, state);
        inputs_by_chance(&inputs, plan, slots);
        if (chance(50)) all = 0;
        check_run(any_setting(), plan, METTULOS_PLAN, state, METTULOS_STATE, inputs.supplies, all, inputs.declines, all, answers,
                  or_none(all * plan[METTULOS_PLAN_SUPPLIES]));
        check_run(any_setting(), plan, METTULOS_PLAN, state, METTULOS_STATE, inputs.supplies, or_none(slots), inputs.declines, or_none(slots), answers,
                  or_none(8 * slots));
        check_run(any_setting(), plan, or_none(METTULOS_PLAN), state, or_none(METTULOS_STATE), inputs.supplies, or_none(slots), inputs.declines,
                  or_none(slots), answers, or_none(8 * slots));
        check_step(any_setting(), plan, or_none(METTULOS_PLAN), state, or_none(METTULOS_STATE), 255, 0, grants, or_none(8));
        check_fresh(plan, or_none(METTULOS_PLAN), state, or_none(METTULOS_STATE));
        check_read(plan_of_the_document, or_none(DOCUMENT_BYTES), plan, or_none(METTULOS_PLAN));
        check_name(plan_of_the_document, or_none(DOCUMENT_BYTES), 0, or_none(2));
        check_decide((struct pair){(uint8_t)chance_below(2), 1, 4, 0, (uint16_t)chance_below(3), 5}, or_none(12), or_none(4), numbers);
        check_times(1000, 3, chance_below(1000), or_none(1));
    }
}

void cases_of_lengths(uint64_t rounds)
{
    wrong_lengths();
    empty_slices(rounds);
}
