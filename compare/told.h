/* Plans that are told one by one. */
#ifndef COMPARE_TOLD_H
#define COMPARE_TOLD_H

#include "generate.h"

/* A leaf that wants what it is served, a host, and a node with any D and W. */
#define LEAF(parent, c, t) {0, parent, {c, t}, NO_MISSES, {c, t}, 0, {0}}
#define HOST(parent, wanted_c, wanted_t, served_c, served_t) {2, parent, {wanted_c, wanted_t}, NO_MISSES, {served_c, served_t}, 0, {0}}
#define MISSING(kind, parent, wanted_c, wanted_t, d, w, served_c, served_t) {kind, parent, {wanted_c, wanted_t}, {d, w}, {served_c, served_t}, 0, {0}}
enum { BELOW_FIRST = 128, BELOW_SECOND = 129 }; /* as parents */

/* One core with some nodes, and by which number and where the plan is refused. */
struct told {
    struct drafted_type supply;
    uint8_t node_count;
    struct drafted_node nodes[6];
    uint32_t number, place;
};

/* Of edition 1. */
void draft_told(struct draft *draft, const struct told *one);

/* The plan is refused so, or not at all where the number is 0; as a value, which it leaves in `plan`, it is fit or not, accordingly. */
void check_told(const struct draft *draft, uint32_t number, uint32_t place, uint32_t *plan);

#endif
