/* All plans of one core and two leaves with short periods, the leaves under the core, below a host, or one below a host and one beside it; those that are
 * accepted are held to what is promised. */
#include "cases.h"
#include "check.h"
#include "courses.h"
#include "generate.h"
#include "seen.h"

#include "../include/mettulos.h"

enum { MOST_OWN_T = 4, MOST_SERVED_T = 6, MOST_BESIDE_T = 4, SLOTS = 24, HOST = 2 };

static uint8_t bytes[MOST_BYTES];
static uint32_t plan[METTULOS_PLAN];

/* All types in the order of T and then C. */
static const struct drafted_type first_type = {0, 1};

static struct drafted_type next_type(struct drafted_type type)
{
    return type.c < type.t ? (struct drafted_type){(uint16_t)(type.c + 1), type.t} : (struct drafted_type){0, (uint16_t)(type.t + 1)};
}

static void small_plan(const struct draft *draft)
{
    uint64_t state[METTULOS_STATE];
    if (check_read(bytes, draft_bytes(draft, bytes), plan, METTULOS_PLAN) == 0) {
        check_promised(plan, SLOTS);
        return;
    }
    draft_value(draft, plan);
    if (check_fresh(plan, METTULOS_PLAN, state, METTULOS_STATE) == 0) check_fail("a small plan is refused, and its value is fit");
}

/* Each pair of leaves under the parent, both wanting what they are served. */
static void all_leaves(struct draft *draft, uint8_t parent)
{
    struct drafted_node *one = &draft->nodes[draft->node_count], *other = one + 1;
    draft->node_count += 2;
    *one = (struct drafted_node){0, parent, first_type, NO_MISSES, first_type, 1, {'x'}};
    *other = (struct drafted_node){0, parent, first_type, NO_MISSES, first_type, 1, {'y'}};
    for (one->served = first_type; one->served.t <= MOST_SERVED_T; one->served = next_type(one->served)) {
        for (other->served = first_type; other->served.t <= MOST_SERVED_T; other->served = next_type(other->served)) {
            one->wanted = one->served;
            other->wanted = other->served;
            small_plan(draft);
        }
    }
}

/* A host that wants what it is served, a leaf below it and a leaf beside it. */
static void all_beside(void)
{
    struct draft draft = {1, 1, 1, {0}, 1, {{1, 1}}, 3, {{HOST, 0, first_type, NO_MISSES, first_type, 1, {'h'}}}};
    struct drafted_node *host = &draft.nodes[0], *below = &draft.nodes[1], *beside = &draft.nodes[2];
    *below = (struct drafted_node){0, 128, first_type, NO_MISSES, first_type, 1, {'x'}};
    *beside = (struct drafted_node){0, 0, first_type, NO_MISSES, first_type, 1, {'y'}};
    for (host->served = first_type; host->served.t <= MOST_BESIDE_T; host->served = next_type(host->served)) {
        for (below->served = first_type; below->served.t <= MOST_BESIDE_T; below->served = next_type(below->served)) {
            for (beside->served = first_type; beside->served.t <= MOST_BESIDE_T; beside->served = next_type(beside->served)) {
                host->wanted = host->served;
                below->wanted = below->served;
                beside->wanted = beside->served;
                small_plan(&draft);
            }
        }
    }
}

void cases_of_small_plans(void)
{
    static const struct drafted_type served[] = {{4, 4}, {6, 6}};
    seen_kind("plans of a core with T at most 4 and two leaves with T at most 6, all");
    for (struct drafted_type own = first_type; own.t <= MOST_OWN_T; own = next_type(own)) {
        struct draft draft = {1, 1, 1, {0}, 1, {own}, 0, {{0}}};
        all_leaves(&draft, 0);
    }
    seen_kind("the same below a host that is served all slots of a core, all");
    for (size_t k = 0; k < sizeof served / sizeof *served; k++) {
        for (struct drafted_type own = first_type; own.t <= MOST_OWN_T; own = next_type(own)) {
            struct draft draft = {1, 1, 1, {0}, 1, {{4, 4}}, 1, {{HOST, 0, own, NO_MISSES, served[k], 1, {'h'}}}};
            all_leaves(&draft, 128);
        }
    }
    seen_kind("plans of a host, a leaf below it and a leaf beside it with T at most 4, all");
    all_beside();
}
