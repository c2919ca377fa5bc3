/* Plans that are served at every depth, as bytes and as values, and with one rule broken. */
#include "cases.h"
#include "check.h"
#include "deep.h"
#include "inputs.h"
#include "seen.h"

#include "../include/mettulos.h"

/* Whole, cut short, with bytes too many, and damaged. */
static void deep_files(uint64_t rounds)
{
    static uint8_t bytes[MOST_BYTES];
    uint32_t plan[METTULOS_PLAN];
    struct draft draft;
    seen_kind("deep plans as files");
    for (uint64_t round = 0; round < rounds; round++) {
        draft_deep(&draft, 64);
        size_t len = draft_bytes(&draft, bytes);
        if (check_file(bytes, len) != 0) check_fail("a deep plan that should be sound is refused");
        if (METTULOS_NUMBER(check_read(bytes, chance_below(len), plan, METTULOS_PLAN)) != 1) check_fail("a plan cut short is not refused by 1");
        bytes[len] = (uint8_t)chance_bits();
        if (METTULOS_NUMBER(check_read(bytes, len + 1, plan, METTULOS_PLAN)) != 10) check_fail("a plan with a byte too many is not refused by 10");
        check_file(bytes, damage_bytes(bytes, len));
    }
}

/* With any numbers in the unused entries, and then with one there that its field cannot hold. */
static void deep_values(uint64_t rounds)
{
    uint32_t plan[METTULOS_PLAN];
    uint64_t state[METTULOS_STATE];
    uint8_t grants[8];
    struct draft draft;
    seen_kind("deep plans as values");
    for (uint64_t round = 0; round < 2 * rounds; round++) {
        draft_deep(&draft, 64);
        int filled = value_of(&draft, plan);
        if (check_fresh(plan, METTULOS_PLAN, state, METTULOS_STATE) != 0) check_fail("a deep plan value that should be sound is refused");
        if (filled) seen(UNUSED_JUNK_IGNORED);
        if (!break_unused(plan)) continue;
        uint8_t setting = (uint8_t)chance_below(2);
        uint64_t of_step = check_step(setting, plan, METTULOS_PLAN, state, METTULOS_STATE, 255, 0, grants, 8);
        uint64_t of_run = check_run(setting, plan, METTULOS_PLAN, state, METTULOS_STATE, NULL, 0, NULL, 0, grants, 0);
        uint64_t of_fresh = check_fresh(plan, METTULOS_PLAN, state, METTULOS_STATE);
        if (METTULOS_NUMBER(of_step) != 16 || of_run != of_step || of_fresh != of_step) check_fail("a number beyond its field is taken");
        seen(UNUSED_BEYOND_FIELD);
    }
}

/* A plan that is as full as rule 14 lets it be. */
static void deep_plans_filled(uint64_t rounds)
{
    static uint8_t bytes[MOST_BYTES];
    uint32_t plan[METTULOS_PLAN];
    struct draft draft;
    seen_kind("deep plans that just keep rule 14");
    for (uint64_t round = 0; round < 2 * rounds; round++) {
        draft_deep(&draft, 64);
        if (!draft_fill(&draft)) continue;
        if (check_read(bytes, draft_bytes(&draft, bytes), plan, METTULOS_PLAN) != 0) check_fail("a plan that just keeps rule 14 is refused");
        seen(RIGHT_AT_THE_ROOM);
    }
}

/* Makes a plan that is refused by this number at this depth, from sound ones of which the last is kept. */
static void make_broken(struct draft *draft, uint32_t number, uint32_t depth)
{
    static struct draft sound;
    for (uint32_t tries = 0; tries < 100000; tries++) {
        if (sound.node_count == 0 || tries % 3 == 2) draft_deep(&sound, 64);
        *draft = sound;
        if (draft_break(draft, number, depth)) return;
    }
    check_fail("no deep plan can be broken in this way");
}

static void break_plan(uint32_t number, uint32_t depth)
{
    static uint8_t bytes[MOST_BYTES];
    uint32_t plan[METTULOS_PLAN];
    uint64_t state[METTULOS_STATE];
    struct draft draft;
    make_broken(&draft, number, depth);
    size_t len = draft_bytes(&draft, bytes);
    uint64_t refused = check_read(bytes, len, plan, METTULOS_PLAN);
    if (METTULOS_NUMBER(refused) != number) check_fail("a deep plan that breaks one rule is not refused by its number");
    if (number >= 11) seen_broken(number, draft_depth(&draft, METTULOS_PLACE(refused)));
    check_name(bytes, len, chance_below(draft.node_count), 2);
    value_of(&draft, plan);
    refused = check_fresh(plan, METTULOS_PLAN, state, METTULOS_STATE);
    if ((refused == 0) != (number == 9)) check_fail("a deep plan value that breaks one rule is fit");
}

/* Each rule at two depths in a round, and at all depths in four rounds. */
static void deep_plans_broken(uint64_t rounds)
{
    seen_kind("deep plans with one rule broken");
    for (uint64_t round = 0; round < rounds; round++) {
        break_plan(7, 8);
        for (uint32_t depth = 1 + (uint32_t)(round % 4); depth <= 8; depth += 4) {
            break_plan(9, depth);
            for (uint32_t rule = 11; rule <= 14; rule++) break_plan(rule, depth);
            break_plan(20, depth);
        }
    }
}

void cases_of_deep_plans(uint64_t rounds)
{
    deep_files(rounds);
    deep_values(rounds);
    deep_plans_filled(rounds);
    deep_plans_broken(rounds);
}
