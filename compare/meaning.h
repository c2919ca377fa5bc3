/* Types by their meaning alone, for the model to be held to: allocations looked at slot by slot, and all of them searched where the periods are small. */
#ifndef COMPARE_MEANING_H
#define COMPARE_MEANING_H

#include "check.h"

/* Ends the program unless the allocation of a failure honours the giver, has the stated ones in the wanted window, and is all ones outside it. */
void meaning_of_failure(struct pair pair, const uint32_t *answer, const uint8_t *allocation);

/* Holds the model's decision on every pair with T at most 6 and T' at most 7 to a search over all allocations that honour the giver. */
void meaning_of_small_pairs(void);

/* Holds reads of plans of one aligned leaf with D and W, all with T and T' at most 6 and W at most 5 and all with T 8, 9, 10 and 12, a T' that divides it and W at
 * most 7, to a search over all allocations that honour the served type. */
void meaning_of_small_misses(void);

#endif
