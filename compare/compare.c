/* Compares the proved library with the model on many inputs.
 *
 *   compare [SEED [ROUNDS]]
 *
 * The same seed gives the same inputs; more rounds give more of those that are made by chance. It prints how many cases of each kind ran, how many calls got
 * each refusal, and what else came up how often. It ends with status 0 if the two agreed on every case and everything came up often enough; with 1 at the first
 * disagreement, which it prints, where an answer is not the one that the documents or the meaning of a type give, where slots are not given out as is promised,
 * and, after all cases, where something came up too seldom; with 2 where it is not called as it should be. */
#include "cases.h"
#include "check.h"
#include "generate.h"
#include "meaning.h"
#include "seen.h"

#include <inttypes.h>
#include <stdio.h>
#include <stdlib.h>

static uint64_t argument(int count, char **words, int i, uint64_t otherwise)
{
    char *end;
    if (i >= count) return otherwise;
    uint64_t number = strtoull(words[i], &end, 10);
    if (*words[i] < '0' || *words[i] > '9' || *end != 0) {
        fprintf(stderr, "usage: compare [SEED [ROUNDS]], both numbers\n");
        exit(2);
    }
    return number;
}

int main(int count, char **words)
{
    uint64_t seed = argument(count, words, 1, 1), rounds = argument(count, words, 2, 1000);
    printf("seed %" PRIu64 ", rounds %" PRIu64 "\n", seed, rounds);
    fflush(stdout);
    chance_seed(seed);
    check_start();
    seen_kind("the model's small decisions against all allocations");
    meaning_of_small_pairs();
    seen_kind("small leaves with D and W against all allocations");
    meaning_of_small_misses();
    cases_of_pairs(rounds);
    cases_of_small_plans();
    cases_of_files(rounds);
    cases_of_values(rounds);
    cases_of_slots(rounds);
    cases_of_deep_plans(rounds);
    cases_of_turns(rounds);
    cases_of_whole_parents(rounds);
    cases_of_soft_leaves(rounds);
    cases_of_settings(rounds);
    cases_of_times(rounds);
    cases_of_lengths(rounds);
    int seldom = seen_report(rounds);
    if (seldom > 0) printf("no disagreement, but %d things came up too seldom\n", seldom);
    else printf("no disagreement\n");
    return seldom > 0;
}
