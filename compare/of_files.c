/* Plan files. */
#include "cases.h"
#include "check.h"
#include "generate.h"
#include "seen.h"

#include "../include/mettulos.h"

#include <string.h>

const uint8_t plan_of_the_document[DOCUMENT_BYTES] = {
    0x01, 0xE8, 0x03, 0x00, 0x00, 0x03, 0x00, 0x00, 0x00, 0x01, 0x01, 0x00, 0x01, 0x00, 0x03, 0x02, 0x00, 0x02, 0x00, 0x04, 0x00, 0x02, 0x00, 0x04,
    0x00, 0x00, 0x80, 0x01, 0x00, 0x09, 0x00, 0x01, 0x00, 0x04, 0x00, 0x01, 0x00, 0x04, 0x00, 0x0A, 0x00, 0x02, 0x00, 0x04, 0x00, 0x03, 0x04, 0x62,
    0x6F, 0x64, 0x79, 0x03, 0x6C, 0x6F, 0x67, 0x04, 0x64, 0x6F, 0x6F, 0x72};

uint64_t check_file(const uint8_t *bytes, size_t len)
{
    uint32_t plan[METTULOS_PLAN];
    uint64_t refused = check_read(bytes, len, plan, METTULOS_PLAN);
    size_t nodes = plan[METTULOS_PLAN_NODES];
    check_name(bytes, len, 0, 2);
    check_name(bytes, len, nodes, 2);
    check_name(bytes, len, SIZE_MAX - chance_below(3), 2);
    if (nodes > 0) check_name(bytes, len, nodes - 1, 2);
    if (nodes > 0) check_name(bytes, len, chance_below(nodes), 2);
    return refused;
}

static void sound_files(uint64_t rounds)
{
    uint8_t bytes[MOST_BYTES];
    struct draft draft;
    seen_kind("plans that are sound");
    if (check_file(plan_of_the_document, sizeof plan_of_the_document) != 0) check_fail("the plan of the document is refused");
    for (uint64_t round = 0; round < rounds; round++) {
        draft_sound(&draft, chance(80) ? 12 : 64);
        if (check_file(bytes, draft_bytes(&draft, bytes)) != 0) check_fail("a plan that should be sound is refused");
    }
}

/* The plan of an edition with the most bytes there can be, with names that differ in their last byte, whole, cut short and with a byte too many. */
static void longest_file(uint8_t edition, size_t longest)
{
    uint8_t bytes[MOST_BYTES];
    struct draft draft;
    memset(&draft, 0, sizeof draft);
    draft.edition = edition;
    draft.p = draft.q = 1000000;
    draft.supply_count = 8;
    draft.node_count = 64;
    for (uint8_t i = 0; i < 8; i++) draft.supplies[i] = (struct drafted_type){4096, 4096};
    for (uint8_t i = 0; i < 64; i++) {
        struct drafted_type type = {512, 4096};
        draft.nodes[i] = (struct drafted_node){0, i % 8, type, NO_MISSES, type, 32, {0}};
        memset(draft.nodes[i].name, '!', 31);
        draft.nodes[i].name[31] = (uint8_t)(33 + i);
    }
    size_t len = draft_bytes(&draft, bytes);
    if (len != longest || check_file(bytes, len) != 0) check_fail("the longest plan is not taken");
    bytes[len] = 0;
    check_file(bytes, len + 1);
    check_file(bytes, len - 1);
    bytes[len - 1] = bytes[len - 34];
    check_file(bytes, len);
}

/* Hosts one below the other: eight are taken and nine are not. */
static void deepest_files(void)
{
    uint8_t bytes[MOST_BYTES];
    struct draft draft;
    seen_kind("plans that are as deep as can be, and deeper");
    memset(&draft, 0, sizeof draft);
    draft.edition = draft.p = draft.q = draft.supply_count = 1;
    draft.supplies[0] = (struct drafted_type){1, 1};
    for (uint8_t i = 0; i < 12; i++) {
        draft.nodes[i] = (struct drafted_node){2, i == 0 ? 0 : (uint8_t)(127 + i), {1, 1}, NO_MISSES, {1, 1}, 1, {(uint8_t)('a' + i)}};
        draft.node_count = i + 1;
        uint64_t refused = check_file(bytes, draft_bytes(&draft, bytes));
        if (METTULOS_NUMBER(refused) != (i < 8 ? 0 : 7)) check_fail("a plan is too deep too soon or too late");
    }
}

void check_every_change(const uint8_t *bytes, size_t len)
{
    uint8_t changed[MOST_BYTES];
    uint32_t plan[METTULOS_PLAN];
    for (size_t cut = 0; cut <= len; cut++) {
        check_read(bytes, cut, plan, METTULOS_PLAN);
        check_name(bytes, cut, 0, 2);
    }
    memcpy(changed, bytes, len);
    for (size_t at = 0; at < len; at++) {
        for (uint32_t byte = 0; byte < 256; byte++) {
            changed[at] = (uint8_t)byte;
            check_read(changed, len, plan, METTULOS_PLAN);
        }
        changed[at] = bytes[at];
    }
}

static void files_changed_everywhere(uint64_t plans)
{
    uint8_t bytes[MOST_BYTES];
    struct draft draft;
    seen_kind("every cut and every single-byte change of a plan");
    check_every_change(plan_of_the_document, sizeof plan_of_the_document);
    for (uint64_t i = 0; i < plans; i++) {
        draft_sound(&draft, 5);
        check_every_change(bytes, draft_bytes(&draft, bytes));
    }
}

static void damaged_files(uint64_t rounds)
{
    uint8_t bytes[MOST_BYTES];
    struct draft draft;
    seen_kind("plans damaged in what they say");
    for (uint64_t round = 0; round < rounds; round++) {
        draft_sound(&draft, chance(80) ? 12 : 64);
        for (uint64_t k = 0; k <= chance_below(3); k++) draft_damage(&draft);
        check_file(bytes, draft_bytes(&draft, bytes));
    }
    seen_kind("plans damaged in their bytes");
    for (uint64_t round = 0; round < rounds; round++) {
        draft_sound(&draft, chance(80) ? 12 : 64);
        size_t len = draft_bytes(&draft, bytes);
        for (uint64_t k = 0; k <= chance_below(4); k++) len = damage_bytes(bytes, len);
        check_file(bytes, len);
    }
    seen_kind("bytes that are no plan");
    for (uint64_t round = 0; round < rounds / 4; round++) {
        size_t len = chance_below(chance(50) ? 20 : 3100);
        for (size_t i = 0; i < len; i++) bytes[i] = (uint8_t)(chance(50) ? chance_below(4) : chance_bits());
        check_file(bytes, len);
    }
}

void cases_of_files(uint64_t rounds)
{
    sound_files(rounds);
    seen_kind("the longest plans of both editions");
    longest_file(1, 2796);
    longest_file(2, METTULOS_LONGEST_PLAN);
    deepest_files();
    files_changed_everywhere(1 + rounds / 250);
    damaged_files(4 * rounds);
}
