/* The jobs of the bench: plans of a given shape, inputs from a seed, and the calls on them. */
#include "bench.h"

#include "../model/model.h"
#include "fast/fast.h"

#include <stdio.h>
#include <stdlib.h>
#include <string.h>

const struct calls library = {mettulos_decide, mettulos_read, mettulos_fresh, mettulos_step, mettulos_run};
const struct calls fast = {fast_decide, fast_read, fast_fresh, fast_step, fast_run};
const struct calls model = {model_decide, model_read, model_fresh, model_step, model_run};

/* ---- plans */

enum { ALIGNED_LEAF = 0, SLIDING_LEAF = 1, HOST = 2, FIRST_NODE_BYTE = 128 };

/* Three quarters of the slots, shared by so many. */
static struct drafted_type share(uint16_t t, uint32_t sharers)
{
    uint32_t c = t * 3u / 4 / sharers;
    return (struct drafted_type){(uint16_t)(c > 0 ? c : 1), t};
}

/* A type of this period that asks of the served type all that it can. */
static struct drafted_type most_wanted(struct drafted_type served, uint8_t kind, uint16_t t)
{
    uint32_t answer[4];
    model_decide(0, served.c, served.t, kind == SLIDING_LEAF, 0, t, NULL, 0, answer, 4);
    return (struct drafted_type){(uint16_t)answer[1], t};
}

/* Leaves want in turn what they are served, a sliding type, and an aligned type of a period that has no divisor in common with the served one. */
static struct drafted_node leaf(uint8_t parent, struct drafted_type served, uint32_t turn)
{
    struct drafted_node node = {turn % 3 == 1 ? SLIDING_LEAF : ALIGNED_LEAF, parent, served, NO_MISSES, served, 0, {0}};
    if (turn % 3 == 1) node.wanted = most_wanted(served, SLIDING_LEAF, (uint16_t)(2 * served.t + 1));
    if (turn % 3 == 2) node.wanted = most_wanted(served, ALIGNED_LEAF, (uint16_t)(2 * served.t - 1));
    return node;
}

/* Soft leaves want in turn what they are served; of windows of an eighth of the served period more than each can have; and all that windows of four such periods
 * have. They allow just the misses that this can lead to, or one. */
static struct drafted_node soft_leaf(uint8_t parent, struct drafted_type served, uint32_t turn)
{
    uint32_t t = turn % 3 == 0 ? served.t : turn % 3 == 1 ? served.t / 8u : 4u * served.t;
    uint16_t w = turn % 2 == 0 ? 1021 : 10;
    struct drafted_type wanted = most_wanted(served, ALIGNED_LEAF, (uint16_t)t);
    if (turn % 3 == 1) wanted.c++;
    uint16_t lost = draft_most_lost(served, wanted, w);
    return (struct drafted_node){ALIGNED_LEAF, parent, wanted, {lost > 0 ? lost : 1, w}, served, 0, {0}};
}

/* Leaves alone, dealt out to the cores, with periods of 64, 128 and 256. */
static void draft_flat(struct draft *draft, struct shape shape)
{
    uint32_t sharers = (shape.nodes + shape.cores - 1u) / shape.cores;
    for (uint32_t i = 0; i < shape.nodes; i++) {
        uint16_t t = (uint16_t)(64 << i / shape.cores % 3);
        uint8_t core = (uint8_t)(i % shape.cores);
        draft->nodes[i] = shape.special == ALL_SOFT ? soft_leaf(core, share(t, sharers), i) : leaf(core, share(t, sharers), i);
    }
}

/* Chains, dealt out to the cores, of hosts below each other with a leaf at the end; periods of 64 in the upper half and 128 in the lower. */
static void draft_deep(struct draft *draft, struct shape shape)
{
    uint32_t chains = shape.nodes / shape.depth, sharers = (chains + shape.cores - 1u) / shape.cores;
    for (uint32_t i = 0; i < shape.nodes; i++) {
        uint32_t chain = i / shape.depth, level = i % shape.depth;
        uint8_t parent = (uint8_t)(level == 0 ? chain % shape.cores : FIRST_NODE_BYTE + i - 1);
        struct drafted_type served = share(level < shape.depth / 2u ? 64 : 128, sharers);
        if (level == shape.depth - 1u && shape.special != HOSTS_ALONE) draft->nodes[i] = leaf(parent, served, chain);
        else draft->nodes[i] = (struct drafted_node){HOST, parent, served, NO_MISSES, served, 0, {0}};
    }
}

/* On each core such a chain, which has one slot of 64, and a leaf beside it, which has the others; a node left over is such a leaf, on the last core. */
static void draft_in_vain(struct draft *draft, struct shape shape)
{
    static const struct drafted_type one = {1, 64}, others = {63, 64};
    uint32_t of_core = shape.depth + 1u;
    for (uint32_t i = 0; i < shape.nodes; i++) {
        uint32_t core = i / of_core, level = i % of_core;
        uint8_t parent = (uint8_t)(level == 0 ? core : FIRST_NODE_BYTE + i - 1);
        if (level == shape.depth || (core + 1) * of_core > shape.nodes) draft->nodes[i] = leaf((uint8_t)core, others, 0);
        else if (level == shape.depth - 1u) draft->nodes[i] = leaf(parent, one, 0);
        else draft->nodes[i] = (struct drafted_node){HOST, parent, one, NO_MISSES, one, 0, {0}};
    }
}

static void name_nodes(struct draft *draft, int alike)
{
    for (uint32_t i = 0; i < draft->node_count; i++) {
        struct drafted_node *node = &draft->nodes[i];
        char name[8];
        snprintf(name, sizeof name, "node-%02u", (unsigned)i % 100);
        memset(node->name, 'x', sizeof node->name);
        node->name_length = alike ? 32 : 7;
        if (alike) node->name[31] = (uint8_t)(33 + i);
        else memcpy(node->name, name, 7);
    }
}

/* ---- jobs */

void job_of_pair(struct job *job, struct pair pair, size_t room)
{
    memset(job, 0, sizeof *job);
    job->pair = pair;
    job->room = room;
}

/* By chance, but that where it is to be in vain all leaves below hosts decline, and nobody else. */
static void give_inputs(struct job *job, enum special special)
{
    uint64_t below = 0;
    for (uint32_t i = 0; i < job->plan[METTULOS_PLAN_NODES]; i++) {
        const uint32_t *node = mettulos_node(job->plan, i);
        below |= (uint64_t)(node[METTULOS_NODE_KIND] != HOST && node[METTULOS_NODE_PARENT] >= FIRST_NODE_BYTE) << i;
    }
    chance_seed(1);
    for (size_t k = 0; k < MOST_SLOTS; k++) {
        job->supplies[k] = (uint8_t)(chance_bits() | chance_bits());
        job->declines[k] = special == IN_VAIN ? below : chance_bits() & chance_bits();
    }
}

void job_of_plan(struct job *job, struct shape shape, uint8_t setting, size_t slots)
{
    struct draft draft;
    memset(job, 0, sizeof *job);
    memset(&draft, 0, sizeof draft);
    draft.edition = shape.special == ALL_SOFT ? 2 : 1;
    draft.p = 1000;
    draft.q = 3;
    draft.supply_count = shape.cores;
    draft.node_count = shape.nodes;
    for (uint32_t i = 0; i < shape.cores; i++) draft.supplies[i] = (struct drafted_type){1, 1};
    if (shape.special == IN_VAIN) draft_in_vain(&draft, shape);
    else if (shape.depth == 1) draft_flat(&draft, shape);
    else draft_deep(&draft, shape);
    name_nodes(&draft, shape.special == NAMES_ALIKE);
    job->len = draft_bytes(&draft, job->bytes);
    if (model_read(job->bytes, job->len, job->plan, METTULOS_PLAN) != 0 || model_fresh(job->plan, METTULOS_PLAN, job->state, METTULOS_STATE) != 0) {
        printf("a plan to be timed is refused\n");
        exit(1);
    }
    give_inputs(job, shape.special);
    job->setting = setting;
    job->slots = slots;
    job->room = slots * shape.cores;
}

/* ---- calls */

void repeat_decide(const struct calls *calls, struct job *job, uint64_t times)
{
    struct pair p = job->pair;
    for (uint64_t i = 0; i < times; i++) {
        job->answered += calls->decide(p.gives, p.giver_c, p.giver_t, p.wants, p.wanted_c, p.wanted_t, job->out, job->room, job->answer, 4);
    }
}

void repeat_read(const struct calls *calls, struct job *job, uint64_t times)
{
    for (uint64_t i = 0; i < times; i++) job->answered += calls->read(job->bytes, job->len, job->plan, METTULOS_PLAN);
}

void repeat_fresh(const struct calls *calls, struct job *job, uint64_t times)
{
    for (uint64_t i = 0; i < times; i++) job->answered += calls->fresh(job->plan, METTULOS_PLAN, job->state, METTULOS_STATE);
}

void repeat_step(const struct calls *calls, struct job *job, uint64_t times)
{
    for (uint64_t i = 0; i < times; i++) {
        size_t k = job->next_slot;
        job->answered += calls->step(job->setting, job->plan, METTULOS_PLAN, job->state, METTULOS_STATE, job->supplies[k], job->declines[k], job->grants, 8);
        job->next_slot = k + 1 < MOST_SLOTS ? k + 1 : 0;
    }
}

void repeat_run(const struct calls *calls, struct job *job, uint64_t times)
{
    for (uint64_t i = 0; i < times; i++) {
        job->answered += calls->run(job->setting, job->plan, METTULOS_PLAN, job->state, METTULOS_STATE, job->supplies, job->slots, job->declines, job->slots,
                                    job->out, job->room);
    }
}
