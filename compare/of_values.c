/* Plan values. */
#include "cases.h"
#include "check.h"
#include "generate.h"
#include "inputs.h"
#include "seen.h"

#include "../include/mettulos.h"

#include <string.h>

static void each_number_changed(const uint32_t *plan)
{
    uint32_t changed[METTULOS_PLAN];
    uint64_t state[METTULOS_STATE];
    memcpy(changed, plan, sizeof changed);
    for (uint32_t at = 0; at < METTULOS_PLAN; at++) {
        static const uint32_t edges[] = {0, 1, 2, 3, 64, 65, 127, 128, 255, 256, 1024, 1025, 65535, 65536, 0xFFFFFFFFu};
        for (size_t k = 0; k < sizeof edges / sizeof *edges + 2; k++) {
            changed[at] = k < sizeof edges / sizeof *edges ? edges[k] : k == sizeof edges / sizeof *edges ? plan[at] + 1 : plan[at] - 1;
            check_fresh(changed, METTULOS_PLAN, state, METTULOS_STATE);
        }
        changed[at] = plan[at];
    }
}

void cases_of_values(uint64_t rounds)
{
    uint32_t plan[METTULOS_PLAN];
    uint64_t state[METTULOS_STATE];
    struct draft draft;
    seen_kind("plan values that are sound");
    for (uint64_t round = 0; round < rounds; round++) {
        int filled = sound_value(plan, chance(80) ? 12 : 64);
        if (check_fresh(plan, METTULOS_PLAN, state, METTULOS_STATE) != 0) check_fail("a plan value that should be sound is refused");
        if (filled) seen(UNUSED_JUNK_IGNORED);
    }
    seen_kind("plan values with each number changed");
    for (uint64_t i = 0; i < 1 + rounds / 500; i++) {
        sound_value(plan, 6);
        each_number_changed(plan);
    }
    seen_kind("plan values that are damaged");
    for (uint64_t round = 0; round < rounds; round++) {
        draft_sound(&draft, chance(80) ? 12 : 64);
        draft_damage(&draft);
        draft_value(&draft, plan);
        if (chance(50)) {
            uint64_t at = chance_below(METTULOS_PLAN);
            plan[at] = odd_value_number(plan[at]);
        }
        check_fresh(plan, METTULOS_PLAN, state, METTULOS_STATE);
    }
}
