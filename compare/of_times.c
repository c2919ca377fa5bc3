/* Slot times. */
#include "cases.h"
#include "check.h"
#include "generate.h"
#include "inputs.h"
#include "seen.h"

void cases_of_times(uint64_t rounds)
{
    static const uint32_t ticks[] = {0, 1, 2, 3, 7, 1000, 59999999, 60000000, 999999, 1000000, 1000001, 0x80000000u, 0xFFFFFFFFu};
    static const uint64_t numbers[] = {0, 1, 2, 3, 999, 1000, 59999999, 60000000, 60000001, ((uint64_t)1 << 40) - 1, (uint64_t)1 << 40,
                                       ((uint64_t)1 << 40) + 1, (uint64_t)1 << 63, UINT64_MAX - 1, UINT64_MAX};
    size_t tick_count = sizeof ticks / sizeof *ticks, number_count = sizeof numbers / sizeof *numbers;
    seen_kind("times at the edges of ticks and numbers");
    for (size_t p = 0; p < tick_count; p++) {
        for (size_t q = 0; q < tick_count; q++) {
            for (size_t n = 0; n < number_count; n++) check_times(ticks[p], ticks[q], numbers[n], 1);
        }
    }
    seen_kind("times around where answers pass 2^40 or a minute begins");
    for (uint64_t round = 0; round < 2 * rounds; round++) {
        uint64_t p = 1 + chance_below(chance(50) ? 1000000 : 50), q = 1 + chance_below(chance(50) ? 1000000 : 50);
        uint64_t time = chance(50) ? LAST + 1 : chance_below(10000) * 60000000;
        uint64_t slot = time * q / p, late = LAST * p / q;
        for (uint64_t off = 0; off < 4; off++) {
            if (slot + off >= 1) check_times((uint32_t)p, (uint32_t)q, slot + off - 1, 1);
            if (late + off >= 1) check_times((uint32_t)p, (uint32_t)q, late + off - 1, 1);
        }
    }
    seen_kind("times by chance");
    for (uint64_t round = 0; round < 8 * rounds; round++) {
        check_times((uint32_t)chance_below(1000002), (uint32_t)chance_below(1000002), chance_bits() >> (23 + chance_below(41)), 1);
    }
}
