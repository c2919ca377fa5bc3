/* Plans that break no rule and whose leaves are served, however deep, and plans that break one rule at a chosen depth. */
#ifndef COMPARE_DEEP_H
#define COMPARE_DEEP_H

#include "generate.h"

/* Any number of cores from 1 to 8, any depth from 1 to 8, half the time as many nodes as there may be; of either edition. */
void draft_deep(struct draft *draft, uint32_t most_nodes);

/* The depth of a node of a plan that is sound. */
uint32_t draft_depth(const struct draft *draft, uint32_t i);

/* Changes a sound plan so that it is refused by this number, one of 7, 9, 11 to 14, and 20; by a rule at a node of this depth. 0 where the plan has no node at which
 * that can be done; it may be changed then too. */
int draft_break(struct draft *draft, uint32_t number, uint32_t depth);

/* Changes a sound plan so that the sum of rule 14 just meets a parent's side. 0 where that cannot be done at the node that is tried. */
int draft_fill(struct draft *draft);

/* Each changes a sound plan at one parent, a host or a supply as is asked, so that it is refused, and answers the node at which; NO_NODE where it cannot be done
 * at the parent that is tried, and then the plan stays. */
enum { NO_NODE = 64 };
/* A whole parent with a child of an odd period gets one slot less than all: 12. */
uint32_t draft_shorten(struct draft *draft, int at_host);
/* The children of a whole parent are served one slot more than there is: 14. */
uint32_t draft_overfill(struct draft *draft, int at_host);
/* A parent gets no slot, (0,T): 12 or 14, as is asked. */
uint32_t draft_empty(struct draft *draft, int at_host, uint32_t number);

#endif
