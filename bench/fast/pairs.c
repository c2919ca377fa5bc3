/* Document 01, "Types and what they mean": the decision on a pair of types. */
#include "inner.h"

#include <string.h>

static inline uint32_t beyond(uint32_t slots, uint32_t zeros)
{
    return slots > zeros ? slots - zeros : 0;
}

/* The ones that an aligned giver owes to a window of `length` slots that begins so far into one of its blocks: each block has its T - C zeros in the window. */
static inline uint32_t ones_at(struct type giver, uint32_t offset, uint32_t length)
{
    uint32_t zeros = giver.t - giver.c, head = giver.t - offset;
    if (head >= length) return beyond(length, zeros);
    uint32_t rest = length - head, ones = beyond(head, zeros);
    if (rest < giver.t) return ones + beyond(rest, zeros);
    return ones + rest / giver.t * giver.c + beyond(rest % giver.t, zeros);
}

static uint32_t common_divisor(uint32_t a, uint32_t b)
{
    while (b != 0) {
        uint32_t rest = a % b;
        a = b;
        b = rest;
    }
    return a;
}

/* A window one slot later loses a slot of its first block, which costs it a one where the offset is below C and nothing from there on; and the slot that it
 * gains at its end brings it a one or nothing. So over the offsets the ones only fall, or stay, up to C and only rise, or stay, from C to T. The offsets that
 * occur are the multiples of a divisor of T, and of these the last up to C or the first beyond it has the least. A sliding giver owes every window what an
 * aligned one owes at offset 0. */
uint32_t fast_least_ones(int giver_slides, struct type giver, int wanted_slides, uint32_t length)
{
    if (giver_slides) return ones_at(giver, 0, length);
    if (wanted_slides) return ones_at(giver, giver.c, length);
    uint32_t apart = common_divisor(giver.t, length);
    if (apart == giver.t) return length / giver.t * giver.c;
    uint32_t low = giver.c - giver.c % apart;
    uint32_t ones = ones_at(giver, low, length);
    if (low == giver.c) return ones;
    uint32_t other = ones_at(giver, low + apart, length);
    return other < ones ? other : ones;
}

/* The first offset at which a window falls short, where the one at 0 does not and some does. Up to C each offset more costs a one, unless the slot gained at
 * the end lies past the zeros of its block and makes up for it. The first slot gained is slot length mod T of its block. If it lies past the zeros, so do those
 * after it up to the block's end, and the ones fall from there; otherwise they fall at once, and far enough before such slots come. */
static uint32_t first_short(struct type giver, struct type wanted)
{
    uint32_t falls = ones_at(giver, 0, wanted.t) - wanted.c + 1, gained = wanted.t % giver.t;
    return gained < giver.t - giver.c ? falls : giver.t - gained + falls;
}

/* The last such offset: seen backwards, the window at `first` starts there. */
static uint32_t last_short(struct type giver, struct type wanted, uint32_t first)
{
    return giver.t - (first + wanted.t) % giver.t;
}

/* The least k for which k * step mod t lies from low to high, where there is one and 0 < low <= high < t.
 *
 * Going down in steps of t - step is going up in steps of step, so let the step be at most half of t. Where a multiple of step lies from low to high, the first
 * is k's. Where none does, k * step must lie so after w times t are taken off, which w does if w * -t mod step lies from low mod step to high mod step; the
 * least w gives the least k. Each time t is at least halved. */
static uint32_t first_turn(uint32_t step, uint32_t t, uint32_t low, uint32_t high)
{
    if (2 * step > t) {
        uint32_t mirrored = t - high;
        high = t - low;
        low = mirrored;
        step = t - step;
    }
    uint32_t k = (low + step - 1) / step;
    if (k * step <= high) return k;
    uint32_t w = first_turn(step - t % step, step, low % step, high % step);
    return (low + w * t + step - 1) / step;
}

/* The start of the first wanted window that falls short, where one does. A sliding giver is short at 0 or nowhere. */
static uint32_t first_failing(int giver_slides, struct type giver, int wanted_slides, struct type wanted)
{
    if (giver_slides || ones_at(giver, 0, wanted.t) < wanted.c) return 0;
    uint32_t low = first_short(giver, wanted);
    if (wanted_slides) return low;
    return first_turn(wanted.t % giver.t, giver.t, low, last_short(giver, wanted, low)) * wanted.t;
}

/* All ones, and in each block the earliest slots inside the window 0, at most T - C of them. */
static void write_allocation(struct type giver, uint32_t start, uint32_t end, uint32_t first, uint32_t length, uint8_t *out)
{
    memset(out, 1, length);
    for (uint32_t block = first; block < end; block += giver.t) {
        uint32_t from = block > start ? block : start;
        uint32_t to = block + giver.t < end ? block + giver.t : end;
        uint32_t zeros = to - from < giver.t - giver.c ? to - from : giver.t - giver.c;
        memset(out + (from - first), 0, zeros);
    }
}

static void write_numbers(uint32_t *answer, uint32_t holds, uint32_t second, uint32_t third, uint32_t fourth)
{
    answer[0] = holds;
    answer[1] = second;
    answer[2] = third;
    answer[3] = fourth;
}

/* The answer for a pair that fails. */
static uint64_t tell_failing(int giver_slides, struct type giver, int wanted_slides, struct type wanted, uint8_t *out, size_t out_len, uint32_t *answer)
{
    uint32_t start = first_failing(giver_slides, giver, wanted_slides, wanted), end = start + wanted.t;
    uint32_t offset = start % giver.t, first = start - offset;
    uint32_t last = end + giver.t - 1, length = last - last % giver.t - first;
    if (length > out_len) return refusal(LENGTHS_DO_NOT_FIT, NOWHERE);
    write_allocation(giver, start, end, first, length, out);
    write_numbers(answer, 0, start, ones_at(giver, offset, wanted.t), length);
    return 0;
}

uint64_t fast_decide(uint8_t gives, uint16_t giver_c, uint16_t giver_t, uint8_t wants, uint16_t wanted_c, uint16_t wanted_t, uint8_t *out, size_t out_len,
                     uint32_t *answer, size_t answer_len)
{
    struct type giver = {giver_c, giver_t}, wanted = {wanted_c, wanted_t};
    if (answer_len != 4) return refusal(LENGTHS_DO_NOT_FIT, NOWHERE);
    if (gives > 1) return refusal(KIND_UNKNOWN, 0);
    if (wants > 1) return refusal(KIND_UNKNOWN, 1);
    if (!type_is_sound(giver)) return refusal(TYPE_MALFORMED, 0);
    if (!type_is_sound(wanted)) return refusal(TYPE_MALFORMED, 1);
    uint32_t least = fast_least_ones(gives, giver, wants, wanted.t);
    if (least < wanted.c) return tell_failing(gives, giver, wants, wanted, out, out_len, answer);
    write_numbers(answer, 1, least, 0, 0);
    return 0;
}
