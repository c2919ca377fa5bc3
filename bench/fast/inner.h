/* What the parts of fast share: refusals, the numbers of a plan value under names, and the children of each parent in the order in which they are picked. */
#ifndef FAST_INNER_H
#define FAST_INNER_H

#include "fast.h"

enum {
    BYTES_MISSING = 1,
    COUNT_OUT_OF_RANGE = 2,
    TICK_OUT_OF_RANGE = 3,
    TYPE_MALFORMED = 4,
    KIND_UNKNOWN = 5,
    PARENT_NOT_ALLOWED = 6,
    TOO_DEEP = 7,
    NAME_BAD = 8,
    NAME_TWICE = 9,
    BYTES_LEFT_OVER = 10,
    DOES_NOT_STAND_IN = 11,
    NOT_A_MULTIPLE = 12,
    PERIODS_AT_ODDS = 13,
    TOO_MUCH_SERVED = 14,
    BEYOND_LIMIT = 15,
    NOT_FIT = 16,
    LENGTHS_DO_NOT_FIT = 17,
    MISSES_OUT_OF_RANGE = 19,
    SOFT_LEAF_NOT_SO_MADE = 20
};

#define NOWHERE 0xFFFFFFFFu

static inline uint64_t refusal(uint32_t number, size_t place)
{
    return (uint64_t)place << 32 | number;
}

enum { SLIDING_LEAF = 1, HOST = 2 };
enum { FIRST_EDITION = 1, SECOND_EDITION = 2 };
enum { MOST_SUPPLIES = 8, MOST_NODES = 64, MOST_DEPTH = 8, FIRST_NODE_BYTE = 128 };

struct type {
    uint32_t c, t;
};

struct misses {
    uint32_t d, w;
};

struct node {
    uint32_t kind, parent;
    struct type wanted;
    struct misses misses;
    struct type served;
};

/* The numbers of a plan value, and of a state, lie one after the other as here, so that a lent slice of the right length is looked at in place. */
struct plan {
    uint32_t edition;
    uint32_t p, q;
    uint32_t supply_count;
    struct type supplies[MOST_SUPPLIES];
    uint32_t node_count;
    struct node nodes[MOST_NODES];
};

struct state {
    uint64_t clock;
    uint64_t left[MOST_NODES];
};

enum { PLAN_NUMBERS = sizeof(struct plan) / sizeof(uint32_t), STATE_NUMBERS = sizeof(struct state) / sizeof(uint64_t) };

static inline int tick_is_sound(uint32_t p_or_q)
{
    return p_or_q - 1 < 1000000;
}

static inline int type_is_sound(struct type type)
{
    return type.t - 1 < 4096 && type.c <= type.t;
}

/* W is 1 to 1,024 and D at most W, and 0 for a host. */
static inline int misses_are_sound(const struct node *node)
{
    return node->misses.w - 1 < 1024 && node->misses.d <= (node->kind == HOST ? 0 : node->misses.w);
}

/* The children of one parent that have one served period. */
struct class {
    uint64_t members; /* bit i for node i */
    uint32_t period;
    uint32_t served; /* the sum of their served C */
    uint32_t next;   /* the parent's class with the next longer period, or NO_CLASS */
};

enum { NO_CLASS = 255, PARENTS = MOST_SUPPLIES + MOST_NODES };

/* For each parent its classes, shortest period first: the first of them with a taker has the child to pick, which is its lowest taker. */
struct families {
    uint64_t hosts;
    uint8_t first[PARENTS]; /* supplies, then nodes */
    uint32_t class_count;
    struct class classes[MOST_NODES];
};

static inline uint32_t parent_number(uint32_t parent_byte)
{
    return parent_byte < FIRST_NODE_BYTE ? parent_byte : parent_byte - FIRST_NODE_BYTE + MOST_SUPPLIES;
}

/* pairs.c: the least ones of any wanted window of so many slots. */
uint32_t fast_least_ones(int giver_slides, struct type giver, int wanted_slides, uint32_t length);

/* rules.c: whether a plan value breaks none of 2 to 7, 11 to 14, 19 and 20; whether a plan that breaks none of 2 to 7 and 19 breaks none of 11 to 14 and 20; and
 * which of these it breaks first. The first two lay out the families. */
int fast_is_fit(const struct plan *plan, struct families *families);
int fast_keeps_rules(const struct plan *plan, struct families *families);
uint64_t fast_first_broken(const struct plan *plan);

#endif
