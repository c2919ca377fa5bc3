/* Runs with the setting off, on, and changing from one to the next. */
#include "courses.h"
#include "check.h"
#include "promised.h"
#include "seen.h"

#include "../include/mettulos.h"

#include <string.h>

void course_run(const uint32_t *plan, uint64_t *state, const struct inputs *inputs, size_t slots, uint8_t *out)
{
    for (size_t from = 0, stretch; from < slots; from += stretch) {
        stretch = inputs_stretch(inputs, from, slots - from);
        uint64_t refused = check_run(inputs->settings[from], plan, METTULOS_PLAN, state, METTULOS_STATE, inputs->supplies + from, stretch,
                                     inputs->declines + from, stretch, out + from * plan[METTULOS_PLAN_SUPPLIES], stretch * plan[METTULOS_PLAN_SUPPLIES]);
        if (refused != 0) check_fail("a run that should go through is refused");
        if (from > 0) seen(SETTING_AFTER_OTHER);
    }
}

void course_see(const uint32_t *plan, size_t slots, const uint8_t *off, const uint8_t *on)
{
    int has_hosts = 0;
    for (uint32_t i = 0; i < plan[METTULOS_PLAN_NODES]; i++) has_hosts |= mettulos_node(plan, i)[METTULOS_NODE_KIND] == METTULOS_HOST;
    if (memcmp(off, on, slots * plan[METTULOS_PLAN_SUPPLIES]) != 0) seen(SETTINGS_DIFFER);
    else if (has_hosts) seen(SETTINGS_AGREE);
}

void check_promised(const uint32_t *fit, size_t slots)
{
    static struct inputs inputs;
    static uint8_t answers[COURSES][8 * MOST_SLOTS];
    uint64_t state[METTULOS_STATE];
    inputs_in_keeping(&inputs, fit, slots);
    for (int course = ALL_OFF; course < COURSES; course++) {
        inputs_settings(&inputs, (enum course)course);
        check_fresh(fit, METTULOS_PLAN, state, METTULOS_STATE);
        course_run(fit, state, &inputs, slots, answers[course]);
        promised(&(struct given){fit, slots, inputs.settings, inputs.supplies, inputs.declines, answers[course]});
    }
    course_see(fit, slots, answers[ALL_OFF], answers[ALL_ON]);
}
