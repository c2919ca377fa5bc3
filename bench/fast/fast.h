/* The model made fast: the calls of include/mettulos.h that the bench times, in plain C by pointers on the lent slices, with the same arguments, answers and
 * bytes written. It trusts no caller: every step and every run checks the whole plan value and the state. */
#ifndef FAST_H
#define FAST_H

#include <stddef.h>
#include <stdint.h>

uint64_t fast_decide(uint8_t gives, uint16_t giver_c, uint16_t giver_t, uint8_t wants, uint16_t wanted_c, uint16_t wanted_t, uint8_t *out, size_t out_len,
                     uint32_t *answer, size_t answer_len);

uint64_t fast_read(const uint8_t *bytes, size_t len, uint32_t *plan, size_t plan_len);

uint64_t fast_fresh(const uint32_t *plan, size_t plan_len, uint64_t *state, size_t state_len);

uint64_t fast_step(uint8_t setting, const uint32_t *plan, size_t plan_len, uint64_t *state, size_t state_len, uint8_t supplied, uint64_t declines,
                   uint8_t *grants, size_t grants_len);

uint64_t fast_run(uint8_t setting, const uint32_t *plan, size_t plan_len, uint64_t *state, size_t state_len, const uint8_t *supplies, size_t supplies_len,
                  const uint64_t *declines, size_t declines_len, uint8_t *out, size_t out_len);

#endif
