/* What is promised of the slots that an accepted plan gives out from a fresh start (demand 3), looked at slot by slot in the answers. */
#ifndef COMPARE_PROMISED_H
#define COMPARE_PROMISED_H

#include <stddef.h>
#include <stdint.h>

/* Slots from the first on, all given out: the settings, what was supplied and declined, and the answers. */
struct given {
    const uint32_t *plan;
    size_t slots; /* at most MOST_SLOTS of inputs.h */
    const uint8_t *settings;
    const uint8_t *supplies;
    const uint64_t *declines;
    const uint8_t *answers;
};

/* Ends the program unless all is as promised, whatever the settings. A partition has its wanted C in each of its windows among these slots, where its core has
 * had C of T in each of its periods, or can still have them in the last, and it declined in no slot of its served periods that touch the window. A soft one has
 * at most D windows without in each of its stretches among these slots, where it declined in no slot of its served periods that touch the stretch. And
 * whatever was supplied, neither a partition nor all those below a host have more than the served C in one served period. */
void promised(const struct given *given);

#endif
