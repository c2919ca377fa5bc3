/* Document 01, "Slot times", from the exact fraction. No product here passes (2^40 + 1) 1,000,000, which 64 bits hold. */
#include "inner.h"

static const uint64_t microseconds_of_a_minute = 60000000;

static uint64_t begins_at(uint32_t p, uint32_t q, uint64_t n)
{
    return n * p / q;
}

/* The greatest slot that begins at or before t, by halving between slot 0, which does, and a slot beyond all that are asked for. LIMIT + 1 stands for every
 * slot beyond the limit. */
static uint64_t last_slot_by(uint32_t p, uint32_t q, uint64_t t)
{
    uint64_t does = 0, does_not = LIMIT + 2;
    while (does_not - does > 1) {
        uint64_t middle = does + (does_not - does) / 2;
        if (begins_at(p, q, middle) <= t) does = middle;
        else does_not = middle;
    }
    return does;
}

/* What refuses a call: its slices, then its tick, then the number that it is asked about. */
static uint64_t refused_before(uint32_t p, uint32_t q, uint64_t number, size_t answer_len)
{
    if (answer_len != 1) return refusal(LENGTHS_DO_NOT_FIT, MODEL_NOWHERE);
    if (!model_tick_is_sound(p) || !model_tick_is_sound(q)) return refusal(NOT_FIT, MODEL_NOWHERE);
    return number > LIMIT ? refusal(BEYOND_LIMIT, MODEL_NOWHERE) : 0;
}

uint64_t model_start(uint32_t p, uint32_t q, uint64_t n, uint64_t *answer, size_t answer_len)
{
    uint64_t refused = refused_before(p, q, n, answer_len);
    if (refused) return refused;
    if (begins_at(p, q, n) > LIMIT) return refusal(BEYOND_LIMIT, MODEL_NOWHERE);
    *answer = begins_at(p, q, n);
    return 0;
}

uint64_t model_minute(uint32_t p, uint32_t q, uint64_t n, uint64_t *answer, size_t answer_len)
{
    uint64_t start = 0;
    uint64_t refused = model_start(p, q, n, &start, answer_len);
    if (!refused) *answer = start / microseconds_of_a_minute;
    return refused;
}

uint64_t model_slot(uint32_t p, uint32_t q, uint64_t t, uint64_t *answer, size_t answer_len)
{
    uint64_t refused = refused_before(p, q, t, answer_len);
    if (refused) return refused;
    if (last_slot_by(p, q, t) > LIMIT) return refusal(BEYOND_LIMIT, MODEL_NOWHERE);
    *answer = last_slot_by(p, q, t);
    return 0;
}
