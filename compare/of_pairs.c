/* Pairs of types. */
#include "cases.h"
#include "check.h"
#include "generate.h"
#include "seen.h"

enum { ALIGNED = 0, SLIDING = 1, LONGEST_STRETCH = 12282 };

struct decided {
    struct pair pair;
    uint32_t answer[4];
};

/* What documents give as decided: the starred ones, and two extremes. */
static const struct decided decided[] = {
    {{ALIGNED, 1, 4, ALIGNED, 1, 5}, {0, 5, 0, 8}},
    {{ALIGNED, 1, 4, ALIGNED, 2, 8}, {1, 2, 0, 0}},
    {{ALIGNED, 2, 4, SLIDING, 2, 8}, {1, 2, 0, 0}},
    {{ALIGNED, 2, 4, SLIDING, 3, 8}, {0, 2, 2, 12}},
    {{SLIDING, 2, 3, SLIDING, 3, 5}, {1, 3, 0, 0}},
    {{SLIDING, 2, 3, SLIDING, 4, 5}, {0, 0, 3, 6}},
    {{ALIGNED, 2, 3, ALIGNED, 2, 3}, {1, 2, 0, 0}},
    {{ALIGNED, 2, 4, ALIGNED, 1, 3}, {0, 3, 0, 8}},
    {{SLIDING, 2, 4, ALIGNED, 1, 3}, {1, 1, 0, 0}},
    {{SLIDING, 3, 4, SLIDING, 2, 3}, {1, 2, 0, 0}},
    {{ALIGNED, 0, 4, ALIGNED, 0, 3}, {1, 0, 0, 0}},
    {{ALIGNED, 0, 4, SLIDING, 0, 3}, {1, 0, 0, 0}},
    {{SLIDING, 0, 4, ALIGNED, 0, 3}, {1, 0, 0, 0}},
    {{SLIDING, 0, 4, SLIDING, 0, 3}, {1, 0, 0, 0}},
    {{ALIGNED, 2047, 4095, ALIGNED, 1, 4096}, {0, 8384512, 0, 8190}},
    {{ALIGNED, 4093, 4094, SLIDING, 4094, 4096}, {0, 4093, 4093, 12282}},
};

static void decisions_of_the_documents(void)
{
    uint32_t answer[4];
    seen_kind("decisions that the documents give");
    for (size_t i = 0; i < sizeof decided / sizeof *decided; i++) {
        if (check_decide(decided[i].pair, LONGEST_STRETCH, 4, answer) != 0) check_fail("a pair of the documents is refused");
        check_bytes("a decision is not the one that the documents give", answer, decided[i].answer, sizeof answer);
    }
}

/* A pair with ample room, and where it fails with room for just the stretch, for one byte less and for none. */
static void pair_in_all_rooms(struct pair pair)
{
    uint32_t answer[4];
    uint64_t refused = check_decide(pair, LONGEST_STRETCH + 1, 4, answer);
    if (refused != 0 || answer[0] == 1) {
        check_decide(pair, 0, 4, answer);
        return;
    }
    size_t length = answer[3];
    check_decide(pair, length, 4, answer);
    check_decide(pair, length + 1, 4, answer);
    if (check_decide(pair, length - 1, 4, answer) == 0) check_fail("a stretch is written where it has no room");
    check_decide(pair, 0, 4, answer);
}

static void all_small_pairs(void)
{
    seen_kind("pairs with T and T' at most 12, all");
    for (uint16_t t = 1; t <= 12; t++) {
        for (uint16_t wanted_t = 1; wanted_t <= 12; wanted_t++) {
            for (uint16_t c = 0; c <= t; c++) {
                for (uint16_t wanted_c = 0; wanted_c <= wanted_t; wanted_c++) {
                    for (uint8_t kinds = 0; kinds < 4; kinds++) {
                        struct pair pair = {kinds & 1, c, t, kinds >> 1, wanted_c, wanted_t};
                        uint32_t answer[4];
                        size_t room = 36;
                        if (check_decide(pair, room, 4, answer) != 0) check_fail("a small sound pair is refused");
                        if (answer[0] == 1) continue;
                        check_decide(pair, answer[3], 4, answer);
                        check_decide(pair, answer[3] - 1, 4, answer);
                    }
                }
            }
        }
    }
}

/* Kinds, periods and counts at and beyond their edges, each with each. */
static void pairs_at_the_edges(void)
{
    static const uint16_t types[][2] = {{0, 0}, {0, 1}, {1, 1}, {2, 1}, {0, 4096}, {1, 4096}, {4095, 4096}, {4096, 4096}, {4097, 4096}, {0, 4097}, {1, 4097},
                                        {4097, 4097}, {65535, 65535}, {65535, 1}, {0, 65535}, {3, 7}, {8, 7}};
    static const uint8_t kinds[] = {0, 1, 2, 255};
    size_t count = sizeof types / sizeof *types;
    seen_kind("pairs at the edges of kinds and types");
    for (size_t one = 0; one < count; one++) {
        for (size_t other = 0; other < count; other++) {
            for (int k = 0; k < 16; k++) pair_in_all_rooms((struct pair){kinds[k & 3], types[one][0], types[one][1], kinds[k >> 2], types[other][0], types[other][1]});
        }
    }
}

/* A pair whose wanted C lies at the edge between holding and failing, or anywhere. */
static struct pair pair_by_chance(void)
{
    uint32_t answer[4];
    uint16_t most = chance(50) ? 4096 : 100;
    struct pair pair = {(uint8_t)chance_below(2), 0, (uint16_t)(1 + chance_below(most)), (uint8_t)chance_below(2), 0, (uint16_t)(1 + chance_below(most))};
    pair.giver_c = (uint16_t)(chance(30) ? pair.giver_t - chance_below(pair.giver_t < 3 ? 1 : 3) : chance_below(pair.giver_t + 1u));
    check_decide(pair, 0, 4, answer);
    uint32_t wanted = chance(70) ? answer[1] + (uint32_t)chance_below(4) : (uint32_t)chance_below(pair.wanted_t + 1u);
    pair.wanted_c = (uint16_t)(wanted > pair.wanted_t ? pair.wanted_t : wanted);
    return pair;
}

static void pairs_of_any_size(uint64_t rounds)
{
    seen_kind("pairs of any size, by chance");
    for (uint64_t round = 0; round < rounds; round++) pair_in_all_rooms(pair_by_chance());
}

/* Types that are no types, and kinds that are none, among pairs that would do. */
static void malformed_pairs(uint64_t rounds)
{
    uint32_t answer[4];
    seen_kind("pairs with a malformed type or an unknown kind, by chance");
    for (uint64_t round = 0; round < rounds; round++) {
        struct pair pair = pair_by_chance();
        uint16_t wrong_t = (uint16_t)(chance(30) ? 0 : 4097 + chance_below(65536 - 4097));
        switch (chance_below(6)) {
        case 0: pair.giver_c = (uint16_t)(pair.giver_t + 1 + chance_below(65535u - pair.giver_t)); break;
        case 1: pair.wanted_c = (uint16_t)(pair.wanted_t + 1 + chance_below(65535u - pair.wanted_t)); break;
        case 2: pair.giver_t = wrong_t; break;
        case 3: pair.wanted_t = wrong_t; break;
        case 4: pair.gives = (uint8_t)(2 + chance_below(254)); break;
        default: pair.wants = (uint8_t)(2 + chance_below(254)); break;
        }
        if (check_decide(pair, chance_below(100), 4, answer) == 0) check_fail("a malformed pair is decided");
    }
}

void cases_of_pairs(uint64_t rounds)
{
    decisions_of_the_documents();
    all_small_pairs();
    pairs_at_the_edges();
    pairs_of_any_size(4 * rounds);
    malformed_pairs(rounds);
}
