/* Allocations slot by slot. */
#include "meaning.h"
#include "seen.h"
#include "told.h"

#include "../include/mettulos.h"
#include "../model/model.h"

#include <stdio.h>
#include <stdlib.h>

static void fail_at(struct pair pair, const char *what)
{
    printf("NOT AS THE MEANING HAS IT: %s\n  gives, giver C, giver T, wants, wanted C, wanted T: %u %u %u %u %u %u\n", what, pair.gives, pair.giver_c,
           pair.giver_t, pair.wants, pair.wanted_c, pair.wanted_t);
    fflush(stdout);
    exit(1);
}

/* How many zeros a stretch has among its first i slots, for each i. Slots outside the stretch are ones. */
static uint32_t zeros_before[16384];

static uint32_t zeros_between(uint32_t first, uint32_t length, uint32_t from, uint32_t to)
{
    uint32_t low = from > first ? from - first : 0, high = to > first ? to - first : 0;
    if (low > length) low = length;
    if (high > length) high = length;
    return zeros_before[high] - zeros_before[low];
}

void meaning_of_failure(struct pair pair, const uint32_t *answer, const uint8_t *allocation)
{
    uint32_t t = pair.giver_t, start = answer[1], ones = answer[2], length = answer[3], first = start - start % t;
    for (uint32_t i = 0; i < length; i++) {
        if (allocation[i] > 1) fail_at(pair, "a byte of the allocation is neither 0 nor 1");
        zeros_before[i + 1] = zeros_before[i] + (allocation[i] == 0);
    }
    if (pair.wants == 0 && start % pair.wanted_t != 0) fail_at(pair, "the window of an aligned type starts at no multiple of T'");
    if (first + length < start + pair.wanted_t || length % t != 0) fail_at(pair, "the stretch is no run of blocks around the window");
    if (ones >= pair.wanted_c) fail_at(pair, "the window has the ones that are wanted");
    if (zeros_between(first, length, start, start + pair.wanted_t) != pair.wanted_t - ones) fail_at(pair, "the window has other ones than are stated");
    if (zeros_before[length] != pair.wanted_t - ones) fail_at(pair, "there are zeros outside the window");
    for (uint32_t window = first > t ? first - t : 0; window < first + length; window++) {
        if (pair.gives == 0 && window % t != 0) continue;
        if (zeros_between(first, length, window, window + t) > t - (uint32_t)pair.giver_c) fail_at(pair, "the allocation does not honour the giver");
    }
}

enum { MOST_GIVER_T = 6, MOST_WANTED_T = 7, NONE = 1000 };

static uint32_t count_ones(uint32_t bits)
{
    uint32_t ones = 0;
    for (; bits > 0; bits >>= 1) ones += bits & 1;
    return ones;
}

/* The least ones in the window over all allocations that honour the giver. What is known of an allocation up to a slot is its last T slots, as bits, and the
 * ones that it has had in the window; for each such history the least is kept. After the window every slot may be 1. */
static uint32_t least_by_search(int slides, uint32_t c, uint32_t t, uint32_t start, uint32_t length)
{
    uint32_t histories = 1u << t, least[1 << MOST_GIVER_T], next[1 << MOST_GIVER_T], answer = NONE;
    for (uint32_t history = 0; history < histories; history++) least[history] = history == 0 ? 0 : NONE;
    for (uint32_t slot = 0; slot < start + length + t; slot++) {
        int ends_a_window = slot + 1 >= t && (slides || (slot + 1) % t == 0);
        int inside = start <= slot && slot < start + length;
        for (uint32_t history = 0; history < histories; history++) next[history] = NONE;
        for (uint32_t history = 0; history < histories; history++) {
            for (uint32_t bit = slot < start + length ? 0 : 1; bit <= 1; bit++) {
                uint32_t after = (history << 1 | bit) & (histories - 1);
                uint32_t ones = least[history] + (inside ? bit : 0);
                if (least[history] == NONE || (ends_a_window && count_ones(after) < c)) continue;
                if (ones < next[after]) next[after] = ones;
            }
        }
        for (uint32_t history = 0; history < histories; history++) least[history] = next[history];
    }
    for (uint32_t history = 0; history < histories; history++) {
        if (least[history] < answer) answer = least[history];
    }
    return answer;
}

/* Holds the model to the least ones of each start below `starts`, for one pair. */
static void hold_to_search(struct pair pair, const uint32_t *least_at, uint32_t starts)
{
    uint8_t out[64];
    uint32_t answer[4], least = NONE;
    uint32_t apart = pair.wants == 1 ? 1 : pair.wanted_t;
    if (model_decide(pair.gives, pair.giver_c, pair.giver_t, pair.wants, pair.wanted_c, pair.wanted_t, out, sizeof out, answer, 4) != 0)
        fail_at(pair, "a sound pair is refused");
    seen_case();
    for (uint32_t start = 0; start < starts; start += apart) {
        if (least_at[start] < pair.wanted_c) {
            if (answer[0] != 0 || answer[1] != start || answer[2] != least_at[start]) fail_at(pair, "the search finds another first failure");
            return;
        }
        if (least_at[start] < least) least = least_at[start];
    }
    if (answer[0] != 1 || answer[1] != least) fail_at(pair, "the search finds no failure, or other least ones");
}

void meaning_of_small_pairs(void)
{
    for (uint16_t t = 1; t <= MOST_GIVER_T; t++) {
        for (uint16_t c = 0; c <= t; c++) {
            for (uint8_t gives = 0; gives <= 1; gives++) {
                for (uint16_t wanted_t = 1; wanted_t <= MOST_WANTED_T; wanted_t++) {
                    uint32_t least_at[MOST_GIVER_T * MOST_WANTED_T], starts = (uint32_t)t * wanted_t;
                    for (uint32_t start = 0; start < starts; start++) least_at[start] = least_by_search(gives, c, t, start, wanted_t);
                    for (uint16_t wanted_c = 0; wanted_c <= wanted_t; wanted_c++) {
                        hold_to_search((struct pair){gives, c, t, 0, wanted_c, wanted_t}, least_at, starts);
                        hold_to_search((struct pair){gives, c, t, 1, wanted_c, wanted_t}, least_at, starts);
                    }
                }
            }
        }
    }
}

/* ---- misses */

enum { MOST_T = 12, UNREACHED = -1 };

/* What an allocation that honours the served type has missed so far, at most, by the ones that it has had in its served period and in its wanted window. */
struct missed {
    int most[MOST_T + 1][MOST_T + 1];
};

static void forget(struct missed *missed)
{
    for (int ones = 0; ones <= MOST_T; ones++) {
        for (int of_window = 0; of_window <= MOST_T; of_window++) missed->most[ones][of_window] = UNREACHED;
    }
}

static void reach(struct missed *missed, uint32_t ones, uint32_t of_window, int count)
{
    if (count > missed->most[ones][of_window]) missed->most[ones][of_window] = count;
}

/* The slot is 0 or 1 in each allocation. One that ends its served period with too few ones does not honour the type; a window that ends with too few misses. */
static void take_slot(const struct missed *before, struct missed *after, const struct drafted_node *leaf, int ends_period, int inside, int ends_window)
{
    forget(after);
    for (uint32_t ones = 0; ones < leaf->served.t; ones++) {
        for (uint32_t of_window = 0; of_window < leaf->wanted.t; of_window++) {
            for (uint32_t bit = 0; bit <= 1 && before->most[ones][of_window] != UNREACHED; bit++) {
                uint32_t in_period = ones + bit, in_window = inside ? of_window + bit : 0;
                if (ends_period && in_period < leaf->served.c) continue;
                int misses = inside && ends_window && in_window < leaf->wanted.c;
                reach(after, ends_period ? 0 : in_period, ends_window ? 0 : in_window, before->most[ones][of_window] + misses);
            }
        }
    }
}

/* The most windows that an allocation which honours the served type misses among those of the stretch from `start` on, by a search over all of them, from the
 * served period in which the stretch starts to the one in which it ends. */
static int missed_by_search(const struct drafted_node *leaf, uint32_t start)
{
    struct missed now, next;
    uint32_t t = leaf->served.t, wanted_t = leaf->wanted.t, end = start + leaf->misses.w * wanted_t, last = (end + t - 1) / t * t;
    forget(&now);
    reach(&now, 0, 0, 0);
    for (uint32_t slot = start - start % t; slot < last; slot++) {
        take_slot(&now, &next, leaf, (slot + 1) % t == 0, start <= slot && slot < end, (slot + 1) % wanted_t == 0);
        now = next;
    }
    return now.most[0][0];
}

/* The most of any stretch. From the first one on that starts with a served period, as stretch 0 does, they are as those before. */
static int most_missed(const struct drafted_node *leaf)
{
    int most = 0;
    uint32_t start = 0, length = leaf->misses.w * (uint32_t)leaf->wanted.t;
    do {
        int missed = missed_by_search(leaf, start);
        if (missed > most) most = missed;
        start += length;
    } while (start % leaf->served.t != 0);
    return most;
}

/* With each D: refused by 20 where the leaf is soft and neither period divides the other, by 11 where more can be missed, and otherwise not. */
static void hold_misses(struct drafted_type served, struct drafted_type wanted, uint16_t w)
{
    static uint8_t bytes[MOST_BYTES];
    uint32_t plan[METTULOS_PLAN];
    struct told told = {{1, 1}, 1, {{0, 0, wanted, {0, w}, served, 0, {0}}}, 0, 0};
    struct draft draft;
    int is_so_made = served.t % wanted.t == 0 || wanted.t % served.t == 0, most = most_missed(&told.nodes[0]);
    for (uint16_t d = 0; d <= w; d++) {
        told.nodes[0].misses.d = d;
        draft_told(&draft, &told);
        draft.edition = 2;
        uint32_t number = d > 0 && !is_so_made ? 20 : most > d ? 11 : 0;
        if (METTULOS_NUMBER(check_read(bytes, draft_bytes(&draft, bytes), plan, METTULOS_PLAN)) == number) continue;
        printf("NOT AS THE MEANING HAS IT: served (%u,%u) for (%u,%u), of which %u in %u may miss and %d can, is not answered by %u\n", served.c, served.t,
               wanted.c, wanted.t, d, w, most, (unsigned)number);
        fflush(stdout);
        exit(1);
    }
}

static void hold_periods(uint16_t t, uint16_t wanted_t, uint16_t most_w)
{
    for (uint16_t c = 0; c <= t; c++) {
        for (uint16_t wanted_c = 0; wanted_c <= wanted_t; wanted_c++) {
            for (uint16_t w = 1; w <= most_w; w++) hold_misses((struct drafted_type){c, t}, (struct drafted_type){wanted_c, wanted_t}, w);
        }
    }
}

void meaning_of_small_misses(void)
{
    static const uint16_t longer[] = {8, 9, 10, MOST_T};
    for (uint16_t t = 1; t <= 6; t++) {
        for (uint16_t wanted_t = 1; wanted_t <= 6; wanted_t++) hold_periods(t, wanted_t, 5);
    }
    for (size_t k = 0; k < sizeof longer / sizeof *longer; k++) {
        for (uint16_t wanted_t = 1; wanted_t <= longer[k]; wanted_t++) {
            if (longer[k] % wanted_t == 0) hold_periods(longer[k], wanted_t, 7);
        }
    }
}
