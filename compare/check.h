/* Each call made twice on the same input, once in the proved library and once in the model, and the two held to each other: what is answered, and every byte of
 * every slice afterwards, with some bytes on one side of it. On the other side of each slice lies a page that may not be touched; an empty slice is NULL half
 * the time. The first disagreement is printed with its input in hex and ends the program with status 1. */
#ifndef COMPARE_CHECK_H
#define COMPARE_CHECK_H

#include <stddef.h>
#include <stdint.h>

/* Before any call is made. */
void check_start(void);

/* Prints what is not as it should be and ends the program with status 1. */
void check_fail(const char *what);

/* Ends the program in the same way unless the bytes are the ones expected. */
void check_bytes(const char *what, const void *got, const void *expected, size_t size);

/* Each answers what both calls answered. What both left in a state, in grants and in a run's answers is copied back; in an answer of numbers only where the
 * call is not refused; in a plan only where it has the length of one. Slices have at most 65,536 bytes. A refused step or run must have left all as it was, but
 * for answers of 255 of a step whose slices have the right lengths; slots that are given out with the setting on are held to wasted.h. */
struct pair {
    uint8_t gives;
    uint16_t giver_c, giver_t;
    uint8_t wants;
    uint16_t wanted_c, wanted_t;
};

uint64_t check_decide(struct pair pair, size_t out_len, size_t answer_len, uint32_t *answer);
uint64_t check_read(const uint8_t *bytes, size_t len, uint32_t *plan, size_t plan_len);
uint64_t check_name(const uint8_t *bytes, size_t len, size_t i, size_t answer_len);
uint64_t check_fresh(const uint32_t *plan, size_t plan_len, uint64_t *state, size_t state_len);
uint64_t check_step(uint8_t setting, const uint32_t *plan, size_t plan_len, uint64_t *state, size_t state_len, uint8_t supplied, uint64_t declines,
                    uint8_t *grants, size_t grants_len);
uint64_t check_run(uint8_t setting, const uint32_t *plan, size_t plan_len, uint64_t *state, size_t state_len, const uint8_t *supplies, size_t supplies_len,
                   const uint64_t *declines, size_t declines_len, uint8_t *out, size_t out_len);
/* The start of a slot, its minute and the slot of a time, each asked about the same number. */
void check_times(uint32_t p, uint32_t q, uint64_t number, size_t answer_len);

#endif
