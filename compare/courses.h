/* Slots given out by runs, each with the setting of its slots. */
#ifndef COMPARE_COURSES_H
#define COMPARE_COURSES_H

#include "inputs.h"

/* So many slots of the inputs, by as few runs as their settings let. */
void course_run(const uint32_t *plan, uint64_t *state, const struct inputs *inputs, size_t slots, uint8_t *out);

/* Counts whether the answers of the same slots, given out with the setting off and on, are alike. */
void course_see(const uint32_t *plan, size_t slots, const uint8_t *off, const uint8_t *on);

/* Slots of a plan that is fit, from a fresh start and supplied as its types say, with the setting off, on and changing, held to what is promised. */
void check_promised(const uint32_t *fit, size_t slots);

#endif
