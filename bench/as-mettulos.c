/* Fast under the library's names, so that the comparison compares it with the model. The calls that fast has not are the model's own. */
#include "../include/mettulos.h"
#include "../model/model.h"
#include "fast/fast.h"

uint64_t mettulos_decide(uint8_t gives, uint16_t giver_c, uint16_t giver_t, uint8_t wants, uint16_t wanted_c, uint16_t wanted_t, uint8_t *out, size_t out_len,
                         uint32_t *answer, size_t answer_len)
{
    return fast_decide(gives, giver_c, giver_t, wants, wanted_c, wanted_t, out, out_len, answer, answer_len);
}

uint64_t mettulos_read(const uint8_t *bytes, size_t len, uint32_t *plan, size_t plan_len)
{
    return fast_read(bytes, len, plan, plan_len);
}

uint64_t mettulos_fresh(const uint32_t *plan, size_t plan_len, uint64_t *state, size_t state_len)
{
    return fast_fresh(plan, plan_len, state, state_len);
}

uint64_t mettulos_step(uint8_t setting, const uint32_t *plan, size_t plan_len, uint64_t *state, size_t state_len, uint8_t supplied, uint64_t declines,
                       uint8_t *grants, size_t grants_len)
{
    return fast_step(setting, plan, plan_len, state, state_len, supplied, declines, grants, grants_len);
}

uint64_t mettulos_run(uint8_t setting, const uint32_t *plan, size_t plan_len, uint64_t *state, size_t state_len, const uint8_t *supplies,
                      size_t supplies_len, const uint64_t *declines, size_t declines_len, uint8_t *out, size_t out_len)
{
    return fast_run(setting, plan, plan_len, state, state_len, supplies, supplies_len, declines, declines_len, out, out_len);
}

uint64_t mettulos_name(const uint8_t *bytes, size_t len, size_t i, uint64_t *answer, size_t answer_len)
{
    return model_name(bytes, len, i, answer, answer_len);
}

uint64_t mettulos_start(uint32_t p, uint32_t q, uint64_t n, uint64_t *answer, size_t answer_len)
{
    return model_start(p, q, n, answer, answer_len);
}

uint64_t mettulos_minute(uint32_t p, uint32_t q, uint64_t n, uint64_t *answer, size_t answer_len)
{
    return model_minute(p, q, n, answer, answer_len);
}

uint64_t mettulos_slot(uint32_t p, uint32_t q, uint64_t t, uint64_t *answer, size_t answer_len)
{
    return model_slot(p, q, t, answer, answer_len);
}
