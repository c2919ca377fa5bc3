/* Inputs made by chance from a seed: numbers, plans that are sound, and damage. */
#ifndef COMPARE_GENERATE_H
#define COMPARE_GENERATE_H

#include <stddef.h>
#include <stdint.h>

/* Starts the numbers anew: the same seed gives the same inputs. */
void chance_seed(uint64_t seed);
uint64_t chance_bits(void);
/* Below the bound, which is at least 1. */
uint64_t chance_below(uint64_t bound);
/* True in so many of a hundred. */
int chance(uint32_t percent);

struct drafted_type {
    uint16_t c, t;
};

struct drafted_misses {
    uint16_t d, w;
};

struct drafted_node {
    uint8_t kind, parent;
    struct drafted_type wanted;
    struct drafted_misses misses;
    struct drafted_type served;
    uint8_t name_length;
    uint8_t name[32];
};

/* D and W of a node of edition 1. */
#define NO_MISSES {0, 1}

/* A plan before it is written as bytes or as numbers. */
struct draft {
    uint8_t edition;
    uint32_t p, q;
    uint8_t spare[8]; /* the second record of the tick, in edition 2 */
    uint8_t supply_count;
    struct drafted_type supplies[8];
    uint8_t node_count;
    struct drafted_node nodes[64];
};

/* The type of a parent, given as in a parent byte: the supply's, or what the host wants. */
struct drafted_type draft_own_type(const struct draft *draft, uint8_t parent);

/* Whether a parent of this type gives all slots. Only its children may have an odd period, which is one that is no multiple of the parent's. */
int draft_is_whole(struct drafted_type own);
int draft_is_odd(const struct draft *draft, uint32_t i);

/* A plan with at most so many nodes that breaks no rule, of either edition. */
void draft_sound(struct draft *draft, uint32_t most_nodes);

/* Parts of a plan: a P or a Q; the shortest period among the children of such a parent; what a node of this kind may want of its served type; the most that a
 * wanted type of period t may ask of it; and for node i a name of its own, sometimes one that differs little from an earlier one. */
uint32_t draft_tick(void);
uint16_t draft_first_period(struct drafted_type own);
struct drafted_type draft_wanted(struct drafted_type served, uint8_t kind);
uint16_t draft_most_wanted(struct drafted_type served, uint8_t kind, uint16_t t);
void draft_name(struct draft *draft, uint32_t i);

/* Gives a node whose types are drafted its D and W: none in edition 1; in edition 2 half of the aligned leaves become soft, and want another type then. */
void draft_misses(uint8_t edition, struct drafted_node *node);

/* Whether a node is a soft leaf, and what makes one: a type whose period divides the served one, or is a multiple of it, and of which some windows can mostly be
 * missed; and the most that a stretch of w of its windows can lose. */
int draft_is_soft(const struct drafted_node *node);
struct drafted_type draft_soft_wanted(struct drafted_type served);
uint16_t draft_most_lost(struct drafted_type served, struct drafted_type wanted, uint16_t w);
uint16_t draft_windows(void);

/* One change in what the plan says. The result may still be sound. */
void draft_damage(struct draft *draft);

enum { MOST_BYTES = 4096 };

/* The plan's bytes, of which there are at most 3,060, and its value. */
size_t draft_bytes(const struct draft *draft, uint8_t *bytes);
void draft_value(const struct draft *draft, uint32_t *numbers);

/* One change in the bytes, by which they get at most 32 longer; answers their new number. */
size_t damage_bytes(uint8_t *bytes, size_t len);

#endif
