/* Document 01, "Giving out slots", and with the setting on request 12 of document 02: on the lent state itself, once setting, plan value, state and lengths
 * have been found fit. */
#include "inner.h"

#include <string.h>

enum { ON = 1 };
enum { GRANTS = 8, IDLE = 254, NOT_SUPPLIED = 255 };

#define LIMIT ((uint64_t)1 << 40)

static int state_is_fit(const struct plan *plan, const struct state *state)
{
    uint64_t unused = 0;
    for (uint32_t i = 0; i < plan->node_count; i++) {
        if (state->left[i] > plan->nodes[i].served.c) return 0;
    }
    for (uint32_t i = plan->node_count; i < MOST_NODES; i++) unused |= state->left[i];
    return unused <= 65535 && state->clock <= LIMIT;
}

static uint32_t lowest_bit(uint64_t word)
{
    return (uint32_t)__builtin_ctzll(word);
}

/* A course of slots: who has slots left, and when each class is refilled next. */
struct course {
    const struct plan *plan;
    const struct families *families;
    struct state *state;
    uint64_t ready;   /* bit i for a node with slots left */
    uint64_t soonest; /* the first slot at which a class is refilled */
    uint64_t due[MOST_NODES];
    uint64_t *below; /* with the setting on: of each host the leaves below it, as bits */
};

static void begin(struct course *course)
{
    const struct families *families = course->families;
    uint64_t clock = course->state->clock, due = clock;
    uint32_t period = 1;
    course->ready = 0;
    course->soonest = UINT64_MAX;
    for (uint32_t i = 0; i < course->plan->node_count; i++) course->ready |= (uint64_t)(course->state->left[i] > 0) << i;
    for (uint32_t k = 0; k < families->class_count; k++) {
        if (families->classes[k].period != period) {
            period = families->classes[k].period;
            due = (clock + period - 1) / period * period;
        }
        course->due[k] = due;
        if (due < course->soonest) course->soonest = due;
    }
}

static void find_leaves_below(struct course *course)
{
    const struct plan *plan = course->plan;
    memset(course->below, 0, plan->node_count * sizeof *course->below);
    for (uint32_t i = plan->node_count; i-- > 0;) {
        uint64_t leaves = plan->nodes[i].kind == HOST ? course->below[i] : (uint64_t)1 << i;
        if (plan->nodes[i].parent >= FIRST_NODE_BYTE) course->below[plan->nodes[i].parent - FIRST_NODE_BYTE] |= leaves;
    }
}

static void refill(struct course *course, uint64_t clock)
{
    course->soonest = UINT64_MAX;
    for (uint32_t k = 0; k < course->families->class_count; k++) {
        const struct class *class = &course->families->classes[k];
        if (course->due[k] == clock) {
            for (uint64_t members = class->members; members != 0; members &= members - 1) {
                uint32_t i = lowest_bit(members), c = course->plan->nodes[i].served.c;
                course->state->left[i] = c;
                course->ready |= (uint64_t)(c > 0) << i;
            }
            course->due[k] += class->period;
        }
        if (course->due[k] < course->soonest) course->soonest = course->due[k];
    }
}

/* The answer of one supplied core with the setting off, where `open` has the nodes that do not decline. */
static uint8_t grant_off(struct course *course, uint64_t open, uint32_t supply)
{
    const struct families *families = course->families;
    uint32_t at = families->first[supply];
    while (at != NO_CLASS) {
        uint64_t takers = families->classes[at].members & course->ready & open;
        if (takers == 0) {
            at = families->classes[at].next;
            continue;
        }
        uint32_t taken = lowest_bit(takers);
        uint64_t bit = takers & (0 - takers);
        if (--course->state->left[taken] == 0) course->ready &= ~bit;
        if (!(families->hosts & bit)) return (uint8_t)taken;
        at = families->first[MOST_SUPPLIES + taken];
    }
    return IDLE;
}

/* Charges a leaf, the last of a path, and the hosts on the way to it. */
static uint8_t charge(struct course *course, const uint32_t *path, uint32_t length)
{
    for (uint32_t k = 0; k < length; k++) {
        if (--course->state->left[path[k]] == 0) course->ready &= ~((uint64_t)1 << path[k]);
    }
    return (uint8_t)path[length - 1];
}

/* The answer with the setting on: nobody is charged before a leaf is found. A host is not gone into where no leaf below it has slots left and takes one; where
 * hosts in between have none left it is gone into in vain, and left out on the way back. */
static uint8_t grant_on(struct course *course, uint64_t open, uint32_t supply)
{
    const struct families *families = course->families;
    uint64_t to_try = course->ready & open, leaves = to_try & ~families->hosts;
    uint32_t path[MOST_DEPTH], length = 0, at = families->first[supply];
    for (;;) {
        while (at != NO_CLASS && (families->classes[at].members & to_try) == 0) at = families->classes[at].next;
        if (at == NO_CLASS) {
            if (length == 0) return IDLE;
            to_try &= ~((uint64_t)1 << path[--length]);
            at = families->first[length == 0 ? supply : MOST_SUPPLIES + path[length - 1]];
            continue;
        }
        uint32_t next = lowest_bit(families->classes[at].members & to_try);
        int is_host = families->hosts >> next & 1;
        if (is_host && (course->below[next] & leaves) == 0) {
            to_try &= ~((uint64_t)1 << next);
            continue;
        }
        path[length++] = next;
        if (!is_host) return charge(course, path, length);
        at = families->first[MOST_SUPPLIES + next];
    }
}

/* The slots of a run that has been found fit. */
static void give(uint8_t setting, const struct plan *plan, const struct families *families, struct state *state, const uint8_t *supplies,
                 const uint64_t *declines, size_t slots, uint8_t *restrict out)
{
    uint64_t below[MOST_NODES];
    struct course course = {.plan = plan, .families = families, .state = state, .below = below};
    uint32_t count = plan->supply_count;
    uint64_t clock = state->clock;
    begin(&course);
    if (setting == ON) find_leaves_below(&course);
    for (size_t k = 0; k < slots; k++, clock++, out += count) {
        uint64_t open = ~declines[k] | families->hosts;
        if (clock == course.soonest) refill(&course, clock);
        for (uint32_t i = 0; i < count; i++) {
            if ((supplies[k] >> i & 1) == 0) out[i] = NOT_SUPPLIED;
            else out[i] = setting == ON ? grant_on(&course, open, i) : grant_off(&course, open, i);
        }
    }
    state->clock = clock;
}

uint64_t fast_fresh(const uint32_t *plan, size_t plan_len, uint64_t *state, size_t state_len)
{
    const struct plan *value = (const struct plan *)plan;
    struct state *made = (struct state *)state;
    struct families families;
    if (plan_len != PLAN_NUMBERS || state_len != STATE_NUMBERS) return refusal(LENGTHS_DO_NOT_FIT, NOWHERE);
    memset(made, 0, sizeof *made);
    if (!fast_is_fit(value, &families)) return refusal(NOT_FIT, NOWHERE);
    for (uint32_t i = 0; i < value->node_count; i++) made->left[i] = value->nodes[i].served.c;
    return 0;
}

uint64_t fast_step(uint8_t setting, const uint32_t *plan, size_t plan_len, uint64_t *state, size_t state_len, uint8_t supplied, uint64_t declines,
                   uint8_t *grants, size_t grants_len)
{
    const struct plan *value = (const struct plan *)plan;
    struct state *going = (struct state *)state;
    struct families families;
    if (plan_len != PLAN_NUMBERS || state_len != STATE_NUMBERS || grants_len != GRANTS) return refusal(LENGTHS_DO_NOT_FIT, NOWHERE);
    memset(grants, NOT_SUPPLIED, GRANTS);
    if (setting > ON) return refusal(KIND_UNKNOWN, NOWHERE);
    if (!fast_is_fit(value, &families) || !state_is_fit(value, going)) return refusal(NOT_FIT, NOWHERE);
    if (going->clock == LIMIT) return refusal(BEYOND_LIMIT, NOWHERE);
    give(setting, value, &families, going, &supplied, &declines, 1, grants);
    return 0;
}

uint64_t fast_run(uint8_t setting, const uint32_t *plan, size_t plan_len, uint64_t *state, size_t state_len, const uint8_t *supplies, size_t supplies_len,
                  const uint64_t *declines, size_t declines_len, uint8_t *out, size_t out_len)
{
    const struct plan *value = (const struct plan *)plan;
    struct state *going = (struct state *)state;
    struct families families;
    if (plan_len != PLAN_NUMBERS || state_len != STATE_NUMBERS) return refusal(LENGTHS_DO_NOT_FIT, NOWHERE);
    if (setting > ON) return refusal(KIND_UNKNOWN, NOWHERE);
    if (!fast_is_fit(value, &families) || !state_is_fit(value, going)) return refusal(NOT_FIT, NOWHERE);
    if (supplies_len != declines_len || supplies_len > out_len / value->supply_count) return refusal(LENGTHS_DO_NOT_FIT, NOWHERE);
    if (supplies_len > LIMIT - going->clock) return refusal(BEYOND_LIMIT, NOWHERE);
    give(setting, value, &families, going, supplies, declines, supplies_len, out);
    return 0;
}
