/* Plan values, states, settings, supplies and declines made by chance. */
#ifndef COMPARE_INPUTS_H
#define COMPARE_INPUTS_H

#include "generate.h"

/* The last slot and the last time. */
#define LAST ((uint64_t)1 << 40)

/* A plan as its value; half the time with numbers in the unused entries that their fields can hold. Answers whether there are such. */
int value_of(const struct draft *draft, uint32_t *plan);

/* The same of a sound plan with at most so many nodes. */
int sound_value(uint32_t *plan, uint32_t most_nodes);

/* Puts a number into an unused entry that its field cannot hold; 0 where no entry is unused. */
int break_unused(uint32_t *plan);

/* A number changed in some way that often matters. */
uint32_t odd_value_number(uint32_t number);

/* Any state that is fit for the plan, with the clock anywhere, at the last slots there are, or where many periods begin. Half of them have counts past the last
 * node, and some have hosts whose children have nothing left. */
void odd_state(const uint32_t *plan, uint64_t *state);

enum { MOST_SLOTS = 8000 };

/* The setting, the supply and the declines of each slot, and of eight slots more. */
struct inputs {
    size_t slots;
    uint8_t settings[MOST_SLOTS + 8];
    uint8_t supplies[MOST_SLOTS + 8];
    uint64_t declines[MOST_SLOTS + 8];
};

/* All cores supplied, none, most, few or by chance, and the same of the leaves that decline; which of these it is changes now and then. Often all leaves below
 * some hosts decline too. Bits that name no supply or no leaf of the plan are clear, set or set by chance. */
void inputs_by_chance(struct inputs *inputs, const uint32_t *plan, size_t slots);

/* The same for a run from the first slot on, with every core supplied as its type says, early, late or by chance in each of its periods, and some of the leaves
 * never declining. */
void inputs_in_keeping(struct inputs *inputs, const uint32_t *plan, size_t slots);

/* What settings the slots have: off, on, or both, changing now and then. Those above have each of these equally often; here they are set anew. */
enum course { ALL_OFF, ALL_ON, MIXED, COURSES };
void inputs_settings(struct inputs *inputs, enum course course);

/* How many slots from this one on, at most so many, have one setting. */
size_t inputs_stretch(const struct inputs *inputs, size_t from, size_t most);

/* A number that a call may be given as its setting: 0, 1, or one that is none. */
uint8_t any_setting(void);

#endif
