/* Document 01, "Types and what they mean": the decision on a pair of types, by search over the starts of wanted windows and the giver's blocks in each. */
#include "inner.h"

int model_type_is_sound(struct type type)
{
    return 1 <= type.t && type.t <= 4096 && type.c <= type.t;
}

/* How many slots the block of t slots from `block` has in the window of `length` slots from `start`. */
static uint32_t slots_inside(uint32_t block, uint32_t t, uint32_t start, uint32_t length)
{
    uint32_t from = block > start ? block : start;
    uint32_t to = block + t < start + length ? block + t : start + length;
    return from < to ? to - from : 0;
}

/* The least ones that an allocation which honours the giver can have in the window of `length` slots from `start`.
 *
 * An aligned giver owes C ones to each block of T slots from a multiple of T, and to nothing else; so each block may have its T - C zeros wherever they
 * hurt the window most, and what the block leaves to the window is the slots that it has inside, less those zeros. A sliding giver owes C ones to every
 * block, among them the ones that follow each other from the window's own start; and it owes no more than those, because the allocation in which each of them
 * begins with its zeros honours it. */
static uint32_t least_ones(int giver_slides, struct type giver, uint32_t start, uint32_t length)
{
    uint32_t ones = 0;
    uint32_t block = giver_slides ? start : start - start % giver.t;
    for (; block < start + length; block += giver.t) {
        uint32_t inside = slots_inside(block, giver.t, start, length);
        uint32_t zeros = giver.t - giver.c;
        ones += inside > zeros ? inside - zeros : 0;
    }
    return ones;
}

/* The multiple of t at or below the slot, and the first at or above it. */
static uint32_t multiple_below(uint32_t slot, uint32_t t)
{
    return slot - slot % t;
}

static uint32_t multiple_above(uint32_t slot, uint32_t t)
{
    return multiple_below(slot + t - 1, t);
}

/* The starts are tried in order. After T of them each place in the giver's blocks at which a wanted window can start has been met, and the rest repeat. */
struct decision model_decision(int giver_slides, struct type giver, int wanted_slides, struct type wanted)
{
    struct decision decision = {1, UINT32_MAX, 0, 0, 0};
    uint32_t apart = wanted_slides ? 1 : wanted.t;
    for (uint32_t k = 0; k < giver.t; k++) {
        uint32_t start = k * apart;
        uint32_t ones = least_ones(giver_slides, giver, start, wanted.t);
        if (ones < wanted.c) {
            uint32_t length = multiple_above(start + wanted.t, giver.t) - multiple_below(start, giver.t);
            return (struct decision){0, 0, start, ones, length};
        }
        if (ones < decision.least) decision.least = ones;
    }
    return decision;
}

/* Writes the stretch's allocation: in each of its blocks the earliest slots inside the window are 0, at most T - C of them, and the rest are 1. */
static void write_allocation(struct type giver, struct type wanted, struct decision decision, uint8_t *out)
{
    uint32_t first = multiple_below(decision.start, giver.t);
    uint32_t zeros = 0;
    for (uint32_t i = 0; i < decision.length; i++) {
        uint32_t slot = first + i;
        int inside = decision.start <= slot && slot < decision.start + wanted.t;
        if (slot % giver.t == 0) zeros = giver.t - giver.c;
        if (inside && zeros > 0) {
            out[i] = 0;
            zeros--;
        } else {
            out[i] = 1;
        }
    }
}

static void write_numbers(uint32_t *answer, uint32_t holds, uint32_t second, uint32_t third, uint32_t fourth)
{
    answer[0] = holds;
    answer[1] = second;
    answer[2] = third;
    answer[3] = fourth;
}

uint64_t model_decide(uint8_t gives, uint16_t giver_c, uint16_t giver_t, uint8_t wants, uint16_t wanted_c, uint16_t wanted_t, uint8_t *out,
                      size_t out_len, uint32_t *answer, size_t answer_len)
{
    struct type giver = {giver_c, giver_t};
    struct type wanted = {wanted_c, wanted_t};
    if (answer_len != 4) return refusal(LENGTHS_DO_NOT_FIT, MODEL_NOWHERE);
    if (gives > 1) return refusal(KIND_UNKNOWN, 0);
    if (wants > 1) return refusal(KIND_UNKNOWN, 1);
    if (!model_type_is_sound(giver)) return refusal(TYPE_MALFORMED, 0);
    if (!model_type_is_sound(wanted)) return refusal(TYPE_MALFORMED, 1);
    struct decision decision = model_decision(gives == 1, giver, wants == 1, wanted);
    if (decision.holds) {
        write_numbers(answer, 1, decision.least, 0, 0);
        return 0;
    }
    if (decision.length > out_len) return refusal(LENGTHS_DO_NOT_FIT, MODEL_NOWHERE);
    write_allocation(giver, wanted, decision, out);
    write_numbers(answer, 0, decision.start, decision.ones, decision.length);
    return 0;
}
