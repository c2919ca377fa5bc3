/* Request 6 of document 02: soft leaves, which may miss D of W wanted windows, by the document's own sentences. */
#include "inner.h"

/* Leaves with D = 0 and all hosts are hard. */
int model_is_soft(const struct node *node)
{
    return node->kind != HOST && node->misses.d > 0;
}

/* A soft leaf must be aligned, and one of its served T and T' must divide the other. */
int model_soft_is_so_made(const struct node *node)
{
    uint32_t t = node->served.t, wanted_t = node->wanted.t;
    return node->kind == ALIGNED_LEAF && (t % wanted_t == 0 || wanted_t % t == 0);
}

/* Where T = K T': the windows that a served period can lose, the greatest u with u <= K and u (C' - 1) + (K - u) T' >= C; none if C' = 0. */
static uint32_t lost_in_a_period(const struct node *node, uint32_t k)
{
    if (node->wanted.c == 0) return 0;
    uint32_t greatest = 0;
    for (uint32_t u = 0; u <= k; u++) {
        if (u * (node->wanted.c - 1) + (k - u) * node->wanted.t >= node->served.c) greatest = u;
    }
    return greatest;
}

/* How many of the windows from `first` to before `end` lie in the served period that has the k windows from `period` on. */
static uint32_t windows_covered(uint32_t period, uint32_t k, uint32_t first, uint32_t end)
{
    uint32_t from = period > first ? period : first;
    uint32_t to = period + k < end ? period + k : end;
    return from < to ? to - from : 0;
}

/* What the stretch of the windows from `first` to before `end` loses: in each served period that it covers wholly or in part the smaller of u and the windows
 * covered. */
static uint32_t lost_in_a_stretch(uint32_t k, uint32_t u, uint32_t first, uint32_t end)
{
    uint32_t lost = 0;
    for (uint32_t period = first - first % k; period < end; period += k) {
        uint32_t covered = windows_covered(period, k, first, end);
        lost += u < covered ? u : covered;
    }
    return lost;
}

/* The most that a stretch can lose. Stretches start at multiples of W windows; after K of them each place in a served period at which one can start has been met,
 * and the rest repeat. */
static uint32_t most_lost(uint32_t k, uint32_t u, uint32_t w)
{
    uint32_t most = 0;
    for (uint32_t stretch = 0; stretch < k; stretch++) {
        uint32_t lost = lost_in_a_stretch(k, u, stretch * w, stretch * w + w);
        if (lost > most) most = lost;
    }
    return most;
}

/* Where T divides T', either no window can miss or all can: each has T'/T served periods, which may have C and no more. */
static uint32_t lost_of_longer_windows(const struct node *node)
{
    uint32_t least = node->wanted.t / node->served.t * node->served.c;
    return least < node->wanted.c ? node->misses.w : 0;
}

/* Rule 11 of a soft leaf that is so made: no stretch can lose more than D. */
int model_soft_stands_in(const struct node *node)
{
    if (node->served.t % node->wanted.t != 0) return lost_of_longer_windows(node) <= node->misses.d;
    uint32_t k = node->served.t / node->wanted.t;
    return most_lost(k, lost_in_a_period(node, k), node->misses.w) <= node->misses.d;
}
