/* The model: document 01, and requests 2, 6 and 12 of document 02, in plain C, written from their sentences and from nothing of crates/, so that the proved
 * library has something independent to be compared with. It follows the meaning by plain search, simple before fast, and leans on nothing but the language.
 *
 * The calls are those of include/mettulos.h under another prefix: the same arguments, the same numbers for plan values and states, the same refusals, and
 * the same bytes written and left alone. What they mean is said there and is not said again here. */
#ifndef MODEL_H
#define MODEL_H

#include <stddef.h>
#include <stdint.h>

#define MODEL_NOWHERE 0xFFFFFFFFu
#define MODEL_PLAN 533
#define MODEL_STATE 65
#define MODEL_GRANTS 8

uint64_t model_decide(uint8_t gives, uint16_t giver_c, uint16_t giver_t, uint8_t wants, uint16_t wanted_c, uint16_t wanted_t, uint8_t *out,
                      size_t out_len, uint32_t *answer, size_t answer_len);

uint64_t model_read(const uint8_t *bytes, size_t len, uint32_t *plan, size_t plan_len);

uint64_t model_name(const uint8_t *bytes, size_t len, size_t i, uint64_t *answer, size_t answer_len);

uint64_t model_fresh(const uint32_t *plan, size_t plan_len, uint64_t *state, size_t state_len);

uint64_t model_step(uint8_t setting, const uint32_t *plan, size_t plan_len, uint64_t *state, size_t state_len, uint8_t supplied, uint64_t declines,
                    uint8_t *grants, size_t grants_len);

uint64_t model_run(uint8_t setting, const uint32_t *plan, size_t plan_len, uint64_t *state, size_t state_len, const uint8_t *supplies, size_t supplies_len,
                   const uint64_t *declines, size_t declines_len, uint8_t *out, size_t out_len);

uint64_t model_start(uint32_t p, uint32_t q, uint64_t n, uint64_t *answer, size_t answer_len);
uint64_t model_minute(uint32_t p, uint32_t q, uint64_t n, uint64_t *answer, size_t answer_len);
uint64_t model_slot(uint32_t p, uint32_t q, uint64_t t, uint64_t *answer, size_t answer_len);

#endif
