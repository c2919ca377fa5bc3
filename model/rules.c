/* Document 01, "Rules beyond the bytes", with whole parents and soft leaves as document 02 has them in requests 2 and 6, in the order in which a plan is refused
 * by them. The plan's fields are taken to be sound. */
#include "inner.h"

/* Rule 11: a node's served type, aligned, stands in for its wanted type; of a soft leaf, no stretch can lose more than its D. */
static int stands_in(const struct node *node)
{
    if (model_is_soft(node)) return model_soft_stands_in(node);
    return model_decision(0, node->served, node->kind == SLIDING_LEAF, node->wanted).holds;
}

/* Rule 11 at each node, and 20 at a soft leaf just before it. */
static uint64_t rule_eleven(const struct plan *plan)
{
    for (uint32_t i = 0; i < plan->node_count; i++) {
        const struct node *node = &plan->nodes[i];
        if (model_is_soft(node) && !model_soft_is_so_made(node)) return refusal(SOFT_LEAF_NOT_SO_MADE, i);
        if (!stands_in(node)) return refusal(DOES_NOT_STAND_IN, i);
    }
    return 0;
}

static int is_child(const struct plan *plan, uint32_t parent, uint32_t i)
{
    return plan->nodes[i].parent == parent;
}

/* Whether a parent, whose own type this is, gives all slots. */
static int is_whole(struct type own)
{
    return own.c == own.t;
}

/* Rule 12: a child's served T is a multiple of the parent's T. It does not apply to the children of a whole parent. */
static uint64_t rule_twelve(const struct plan *plan, uint32_t parent, struct type own)
{
    if (is_whole(own)) return 0;
    for (uint32_t i = 0; i < plan->node_count; i++) {
        if (is_child(plan, parent, i) && plan->nodes[i].served.t % own.t != 0) return refusal(NOT_A_MULTIPLE, i);
    }
    return 0;
}

static int one_divides_the_other(uint32_t period, uint32_t other)
{
    return period % other == 0 || other % period == 0;
}

/* Rule 13: of two children's served periods one divides the other. */
static uint64_t rule_thirteen(const struct plan *plan, uint32_t parent)
{
    for (uint32_t i = 0; i < plan->node_count; i++) {
        for (uint32_t earlier = 0; earlier < i; earlier++) {
            if (!is_child(plan, parent, i) || !is_child(plan, parent, earlier)) continue;
            if (!one_divides_the_other(plan->nodes[i].served.t, plan->nodes[earlier].served.t)) return refusal(PERIODS_AT_ODDS, i);
        }
    }
    return 0;
}

/* The largest served period among the children; 0 where there is no child. */
static uint32_t largest_period(const struct plan *plan, uint32_t parent)
{
    uint32_t largest = 0;
    for (uint32_t i = 0; i < plan->node_count; i++) {
        if (is_child(plan, parent, i) && plan->nodes[i].served.t > largest) largest = plan->nodes[i].served.t;
    }
    return largest;
}

/* The parent's side of rule 14: M where it is whole, and C (M/T) otherwise, which rule 12 makes exact. */
static uint64_t side_of(struct type own, uint32_t largest)
{
    return is_whole(own) ? largest : (uint64_t)own.c * (largest / own.t);
}

/* Rule 14: the sum of C (M/T) over the children's served types is at most the parent's side. Rule 13 makes each M/T exact. */
static uint64_t rule_fourteen(const struct plan *plan, uint32_t parent, struct type own)
{
    uint32_t largest = largest_period(plan, parent);
    uint64_t sum = 0, side = side_of(own, largest);
    for (uint32_t i = 0; i < plan->node_count; i++) {
        if (!is_child(plan, parent, i)) continue;
        sum += (uint64_t)plan->nodes[i].served.c * (largest / plan->nodes[i].served.t);
        if (sum > side) return refusal(TOO_MUCH_SERVED, i);
    }
    return 0;
}

/* Rules 12 to 14 at one parent, whose own type is given. */
static uint64_t rules_at(const struct plan *plan, uint32_t parent, struct type own)
{
    uint64_t refused = rule_twelve(plan, parent, own);
    if (!refused) refused = rule_thirteen(plan, parent);
    if (!refused) refused = rule_fourteen(plan, parent, own);
    return refused;
}

uint64_t model_rules(const struct plan *plan)
{
    uint64_t refused = rule_eleven(plan);
    for (uint32_t i = 0; !refused && i < plan->supply_count; i++) refused = rules_at(plan, i, plan->supplies[i]);
    for (uint32_t i = 0; !refused && i < plan->node_count; i++) {
        if (plan->nodes[i].kind == HOST) refused = rules_at(plan, FIRST_NODE_BYTE + i, plan->nodes[i].wanted);
    }
    return refused;
}
