/* What is promised of slots that are given out with the setting on, from any state (document 02, request 12), looked at slot by slot and with no word of going
 * back. */
#ifndef COMPARE_WASTED_H
#define COMPARE_WASTED_H

#include <stddef.h>
#include <stdint.h>

/* Slots that were given out with the setting on: what was supplied and declined, the answers, and the states before and after. */
struct gone {
    const uint32_t *plan;
    size_t slots;
    const uint8_t *supplies;
    const uint64_t *declines;
    const uint8_t *answers;
    const uint64_t *before, *after;
};

/* Ends the program unless all is as promised. Nothing is wasted: a supplied core is idle exactly where each leaf under it declines, has nothing left, or stands
 * under a host that has nothing left, by the counts after the refill. A leaf that has the slot is none of these, and no sibling of it or of a host above it
 * that is sooner in the order of choice could take it. Nobody else is charged: what is left after the slots is what was left before them, with the refills,
 * less one for each leaf that had a slot and for each host above it. */
void nothing_wasted(const struct gone *gone);

#endif
