/* What came up among the cases, how often, and whether that is often enough: a set of inputs that leaves something out must not pass for a comparison. */
#ifndef COMPARE_SEEN_H
#define COMPARE_SEEN_H

#include "inputs.h"

enum call { DECIDE, READ, NAME, FRESH, STEP, RUN, START, MINUTE, SLOT, CALLS };

const char *seen_call_name(enum call call);

/* The cases from here on count under this kind. */
void seen_kind(const char *kind);
const char *seen_kind_name(void);

/* Counts a case that is no pair of calls. */
void seen_case(void);

/* Counts a case that is one, by what both calls answered; 0 where that is no refusal that document 01 has for the call. */
int seen_call(enum call call, uint64_t answer);

/* A slice of the call, by its place among the slices, was NULL. */
void seen_null(enum call call, int slice, const char *name);

/* A plan value that was accepted. */
void seen_plan(const uint32_t *plan);

/* A step and a run that were not refused: the setting, the states before and after, the answers. */
void seen_step(uint8_t setting, const uint32_t *plan, const uint64_t *before, const uint64_t *after, const uint8_t *grants);
void seen_run(uint8_t setting, const uint32_t *plan, const uint64_t *before, size_t slots, const uint8_t *out);

/* Why a host with slots left was passed in vain: it has no children; none of them has slots left; the first that has is a leaf, which declines, or a host,
 * which was passed in vain itself. */
enum reason { WITHOUT_CHILDREN, NOTHING_LEFT, LEAF_DECLINES, HOST_IN_VAIN, REASONS };

/* The hosts that were passed in vain for one core in a slot with the setting on. */
struct passed {
    uint32_t siblings; /* the most of one parent */
    uint32_t levels;   /* the most one below the other */
    uint32_t depths;   /* bit d where a node of depth d has the slot and was looked at after a host beside it; 0 where the slot is idle */
    uint32_t reasons;  /* as bits */
};
void seen_passed(const uint32_t *plan, const struct passed *passed);
/* And in all slots of a call together: the depths. */
void seen_gaining(uint32_t depths);

/* A leaf, among the slots that were given out from a fresh start with such settings: how many of its windows were held to what it wants, and how many of them
 * had just that. */
void seen_windows(const uint32_t *plan, uint32_t leaf, enum course course, uint64_t windows, uint64_t just);

/* The same of a soft leaf: how many of its stretches, and how many of them had as many windows short as may be. */
void seen_stretches(const uint32_t *plan, uint32_t leaf, enum course course, uint64_t stretches, uint64_t just);

/* A plan that one of the rules 11 to 14, or 20, refused at a node of this depth. */
void seen_broken(uint32_t rule, uint32_t depth);

/* Other things that must come up. */
enum thing {
    UNUSED_JUNK_IGNORED,   /* a plan value with numbers in unused entries that no field has reason to hold, accepted */
    UNUSED_BEYOND_FIELD,   /* a plan value refused because of a number beyond its field in an unused entry */
    RUN_AFTER_STEP,        /* a run of a slot or more that goes on from where a step ended */
    STEP_AFTER_RUN,        /* and the other way round */
    PIECES_AS_A_WHOLE,     /* runs and steps in turn that gave what one run over all their slots gives */
    RIGHT_AT_THE_ROOM,     /* a rule 14 sum that just meets the parent's side, accepted */
    SUPPLY_SHORT_OF_WHOLE, /* a supply with C = T - 1 whose child has an odd period, refused by 12 */
    HOST_SHORT_OF_WHOLE,   /* and a host that wants so much and is served all slots */
    SUPPLY_OVERFULL,       /* a whole supply whose children are served one slot too many, refused by 14 */
    HOST_OVERFULL,         /* and a whole host */
    EMPTY_AND_ODD,         /* a parent of (0,T) whose child has an odd period, refused by 12 */
    EMPTY_AND_SERVING,     /* and one whose child is served something, refused by 14 */
    SETTING_AFTER_OTHER,   /* a call that goes on from one with the other setting */
    SETTINGS_DIFFER,       /* slots that were given out twice, with the setting off and on, and not to the same */
    SETTINGS_AGREE,        /* and to the same, hosts among the nodes */
    BAD_SETTING_FIRST,     /* a setting that is none, refused by 5 where the plan value or the state is not fit either */
    BAD_SETTING_LAST,      /* and refused by 17 where a length is wrong too */
    SOFT_AT_THE_EDGE,      /* a soft leaf that allows just what a stretch can lose, accepted, and refused by 11 with one miss less */
    SPARE_BYTE,            /* a plan refused by 3 for a spare byte */
    CUT_IN_SPARE_BYTES,    /* and by 1 for one that is not there */
    CUT_IN_MISSES,         /* and for a D or W that is not all there */
    BAD_MISSES,            /* a plan refused by 19 */
    BAD_EDITION,           /* a plan value of an edition that is neither 1 nor 2, refused */
    MISSES_IN_FIRST,       /* a plan value of edition 1 with a D that is not 0 or a W that is not 1, refused */
    THINGS
};
void seen(enum thing thing);

/* Prints all counts, and a line for each that was too low at so many rounds; answers how many those are. */
int seen_report(uint64_t rounds);

#endif
