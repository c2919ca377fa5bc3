/* What the parts of the model share: refusals, types, and a plan as its fields. */
#ifndef MODEL_INNER_H
#define MODEL_INNER_H

#include "model.h"

/* The numbers of document 01, "Refusal numbers", and of request 6 of document 02. */
enum {
    BYTES_MISSING = 1,
    COUNT_OUT_OF_RANGE = 2,
    TICK_OUT_OF_RANGE = 3,
    TYPE_MALFORMED = 4,
    KIND_UNKNOWN = 5,
    PARENT_NOT_ALLOWED = 6,
    TOO_DEEP = 7,
    NAME_BAD = 8,
    NAME_TWICE = 9,
    BYTES_LEFT_OVER = 10,
    DOES_NOT_STAND_IN = 11,
    NOT_A_MULTIPLE = 12,
    PERIODS_AT_ODDS = 13,
    TOO_MUCH_SERVED = 14,
    BEYOND_LIMIT = 15,
    NOT_FIT = 16,
    LENGTHS_DO_NOT_FIT = 17,
    MISSES_OUT_OF_RANGE = 19,
    SOFT_LEAF_NOT_SO_MADE = 20
};

enum { ALIGNED_LEAF = 0, SLIDING_LEAF = 1, HOST = 2 };
enum { FIRST_EDITION = 1, SECOND_EDITION = 2 };
enum { MOST_SUPPLIES = 8, MOST_NODES = 64, MOST_DEPTH = 8, MOST_WINDOWS = 1024, FIRST_NODE_BYTE = 128 };

/* No slot, time or answer lies beyond this. */
#define LIMIT ((uint64_t)1 << 40)

/* C slots in T. */
struct type {
    uint32_t c, t;
};

/* D of W windows may miss. */
struct misses {
    uint32_t d, w;
};

struct node {
    uint32_t kind;
    uint32_t parent; /* as the parent byte: a supply, or FIRST_NODE_BYTE + a node */
    struct type wanted;
    struct misses misses;
    struct type served;
};

struct plan {
    uint32_t edition;
    uint32_t p, q;
    uint32_t supply_count;
    struct type supplies[MOST_SUPPLIES];
    uint32_t node_count;
    struct node nodes[MOST_NODES];
};

/* What a pair decision comes to: the least ones of any wanted window where it holds; otherwise the first failing window's start, the least ones there, and
 * the length of the stretch. */
struct decision {
    int holds;
    uint32_t least;
    uint32_t start, ones, length;
};

static inline uint64_t refusal(uint32_t number, uint32_t place)
{
    return (uint64_t)place << 32 | number;
}

/* pairs.c */
int model_type_is_sound(struct type type);
struct decision model_decision(int giver_slides, struct type giver, int wanted_slides, struct type wanted);

/* plan.c: whether one field of a plan is as sections 1 to 3 of a plan file ask. Nodes before node i are taken to be sound. */
int model_tick_is_sound(uint32_t p_or_q);
int model_parent_is_allowed(const struct plan *plan, uint32_t i);
uint32_t model_depth(const struct plan *plan, uint32_t i);

/* plan.c: the fields of a plan value; 0 where it is not fit, which is 16. */
int model_fit_plan(const uint32_t *numbers, struct plan *plan);

/* soft.c: whether a leaf may miss windows at all; whether such a leaf is made as it must be; and whether no stretch can lose more windows than it may. */
int model_is_soft(const struct node *node);
int model_soft_is_so_made(const struct node *node);
int model_soft_stands_in(const struct node *node);

/* rules.c: the first refusal by rules 11 to 14 and by 20, or 0. */
uint64_t model_rules(const struct plan *plan);

#endif
