/* The cases, in groups. More rounds give more of those that are made by chance. */
#ifndef COMPARE_CASES_H
#define COMPARE_CASES_H

#include <stddef.h>
#include <stdint.h>

/* of_pairs.c */
void cases_of_pairs(uint64_t rounds);
/* of_small.c: plans of few nodes and short periods, all of them */
void cases_of_small_plans(void);
/* of_files.c, and the plan of document 01, section "Decisions to check against" */
void cases_of_files(uint64_t rounds);
enum { DOCUMENT_BYTES = 60 };
extern const uint8_t plan_of_the_document[DOCUMENT_BYTES];
/* A plan, and the names of nodes there and not there; answers what the read answers. */
uint64_t check_file(const uint8_t *bytes, size_t len);
/* Every cut of a plan, and every change of one of its bytes. */
void check_every_change(const uint8_t *bytes, size_t len);
/* of_values.c */
void cases_of_values(uint64_t rounds);
/* of_slots.c */
void cases_of_slots(uint64_t rounds);
/* of_deep.c: plans that are served at every depth, as bytes, as values and in damage; of_turns.c: their slots */
void cases_of_deep_plans(uint64_t rounds);
void cases_of_turns(uint64_t rounds);
/* of_whole.c: whole parents, and those that are nearly so */
void cases_of_whole_parents(uint64_t rounds);
/* of_soft.c: soft leaves and plans of edition 2 */
void cases_of_soft_leaves(uint64_t rounds);
/* of_settings.c: slots with the setting off and on, and settings that are none */
void cases_of_settings(uint64_t rounds);
/* of_times.c */
void cases_of_times(uint64_t rounds);
/* of_lengths.c: slices of wrong lengths, and of none */
void cases_of_lengths(uint64_t rounds);

#endif
