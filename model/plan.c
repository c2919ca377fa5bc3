/* Document 01, "The plan file", and its edition 2, request 6 of document 02: the bytes of a plan from the front, each field tested when it has been read; names;
 * and plan values. */
#include "inner.h"

#include <string.h>

/* ---- what a field must be */

int model_tick_is_sound(uint32_t p_or_q)
{
    return 1 <= p_or_q && p_or_q <= 1000000;
}

static int edition_is_sound(uint32_t edition)
{
    return edition == FIRST_EDITION || edition == SECOND_EDITION;
}

/* W is 1 to 1,024 and D at most W; a host misses nothing. */
static int misses_are_sound(const struct node *node)
{
    if (node->misses.w < 1 || node->misses.w > MOST_WINDOWS || node->misses.d > node->misses.w) return 0;
    return node->kind != HOST || node->misses.d == 0;
}

static int supply_count_is_sound(uint32_t count)
{
    return 1 <= count && count <= MOST_SUPPLIES;
}

static int node_count_is_sound(uint32_t count)
{
    return 1 <= count && count <= MOST_NODES;
}

/* A parent is a supply of the plan, or an earlier node that is a host. */
int model_parent_is_allowed(const struct plan *plan, uint32_t i)
{
    uint32_t parent = plan->nodes[i].parent;
    if (parent < FIRST_NODE_BYTE) return parent < plan->supply_count;
    return parent - FIRST_NODE_BYTE < i && plan->nodes[parent - FIRST_NODE_BYTE].kind == HOST;
}

/* One more than the hosts above the node. */
uint32_t model_depth(const struct plan *plan, uint32_t i)
{
    uint32_t depth = 1;
    while (plan->nodes[i].parent >= FIRST_NODE_BYTE) {
        i = plan->nodes[i].parent - FIRST_NODE_BYTE;
        depth++;
    }
    return depth;
}

/* ---- the bytes */

/* Where the name of a node stands. */
struct part {
    uint32_t first, length;
};

struct reader {
    const uint8_t *bytes;
    size_t len;
    uint32_t at; /* the first byte not read; never beyond the longest plan */
    struct plan plan;
    struct part names[MOST_NODES];
};

/* Reads a field of so many bytes, the lowest first. */
static uint64_t read_field(struct reader *reader, uint32_t width, uint32_t *value)
{
    if (reader->len - reader->at < width) return refusal(BYTES_MISSING, reader->at);
    *value = 0;
    for (uint32_t k = 0; k < width; k++) *value |= (uint32_t)reader->bytes[reader->at + k] << (8 * k);
    reader->at += width;
    return 0;
}

static uint64_t read_tick_number(struct reader *reader, uint32_t *value)
{
    uint32_t place = reader->at;
    uint64_t refused = read_field(reader, 4, value);
    if (refused) return refused;
    return model_tick_is_sound(*value) ? 0 : refusal(TICK_OUT_OF_RANGE, place);
}

/* The second record of the tick, which is eight zero bytes, each a field. */
static uint64_t read_spare_bytes(struct reader *reader)
{
    for (uint32_t k = 0; k < 8; k++) {
        uint32_t place = reader->at, byte;
        uint64_t refused = read_field(reader, 1, &byte);
        if (refused) return refused;
        if (byte != 0) return refusal(TICK_OUT_OF_RANGE, place);
    }
    return 0;
}

/* The count of the tick is the edition. */
static uint64_t read_tick(struct reader *reader)
{
    struct plan *plan = &reader->plan;
    uint32_t place = reader->at;
    uint64_t refused = read_field(reader, 1, &plan->edition);
    if (refused) return refused;
    if (!edition_is_sound(plan->edition)) return refusal(COUNT_OUT_OF_RANGE, place);
    refused = read_tick_number(reader, &plan->p);
    if (refused) return refused;
    refused = read_tick_number(reader, &plan->q);
    if (refused) return refused;
    return plan->edition == SECOND_EDITION ? read_spare_bytes(reader) : 0;
}

/* C and T are a field each; the type is tested when both have been read. */
static uint64_t read_type(struct reader *reader, struct type *type)
{
    uint32_t place = reader->at;
    uint64_t refused = read_field(reader, 2, &type->c);
    if (refused) return refused;
    refused = read_field(reader, 2, &type->t);
    if (refused) return refused;
    return model_type_is_sound(*type) ? 0 : refusal(TYPE_MALFORMED, place);
}

/* D and W are a field each, and are tested when both have been read. A node of edition 1 has D 0 and W 1, and no bytes for them. */
static uint64_t read_misses(struct reader *reader, struct node *node)
{
    uint32_t place = reader->at;
    node->misses = (struct misses){0, 1};
    if (reader->plan.edition == FIRST_EDITION) return 0;
    uint64_t refused = read_field(reader, 2, &node->misses.d);
    if (refused) return refused;
    refused = read_field(reader, 2, &node->misses.w);
    if (refused) return refused;
    return misses_are_sound(node) ? 0 : refusal(MISSES_OUT_OF_RANGE, place);
}

static uint64_t read_supplies(struct reader *reader)
{
    struct plan *plan = &reader->plan;
    uint32_t place = reader->at;
    uint64_t refused = read_field(reader, 1, &plan->supply_count);
    if (refused) return refused;
    if (!supply_count_is_sound(plan->supply_count)) return refusal(COUNT_OUT_OF_RANGE, place);
    for (uint32_t i = 0; i < plan->supply_count; i++) {
        refused = read_type(reader, &plan->supplies[i]);
        if (refused) return refused;
    }
    return 0;
}

static uint64_t read_node(struct reader *reader, uint32_t i)
{
    struct plan *plan = &reader->plan;
    struct node *node = &plan->nodes[i];
    uint32_t place = reader->at;
    uint64_t refused = read_field(reader, 1, &node->kind);
    if (refused) return refused;
    if (node->kind > HOST) return refusal(KIND_UNKNOWN, place);
    place = reader->at;
    refused = read_field(reader, 1, &node->parent);
    if (refused) return refused;
    if (!model_parent_is_allowed(plan, i)) return refusal(PARENT_NOT_ALLOWED, place);
    if (model_depth(plan, i) > MOST_DEPTH) return refusal(TOO_DEEP, place);
    refused = read_type(reader, &node->wanted);
    if (refused) return refused;
    refused = read_misses(reader, node);
    if (refused) return refused;
    return read_type(reader, &node->served);
}

static uint64_t read_nodes(struct reader *reader)
{
    uint32_t place = reader->at;
    uint64_t refused = read_field(reader, 1, &reader->plan.node_count);
    if (refused) return refused;
    if (!node_count_is_sound(reader->plan.node_count)) return refusal(COUNT_OUT_OF_RANGE, place);
    for (uint32_t i = 0; i < reader->plan.node_count; i++) {
        refused = read_node(reader, i);
        if (refused) return refused;
    }
    return 0;
}

static int same_name(const struct reader *reader, struct part one, struct part other)
{
    return one.length == other.length && memcmp(reader->bytes + one.first, reader->bytes + other.first, one.length) == 0;
}

/* Reads the name of node i, each byte a field of its own, and then looks for it among the names before. */
static uint64_t read_name(struct reader *reader, uint32_t i)
{
    struct part *name = &reader->names[i];
    uint32_t length_byte = reader->at, byte;
    uint64_t refused = read_field(reader, 1, &name->length);
    if (refused) return refused;
    if (name->length < 1 || name->length > 32) return refusal(NAME_BAD, length_byte);
    name->first = reader->at;
    for (uint32_t k = 0; k < name->length; k++) {
        uint32_t place = reader->at;
        refused = read_field(reader, 1, &byte);
        if (refused) return refused;
        if (byte < 33 || byte > 126) return refusal(NAME_BAD, place);
    }
    for (uint32_t earlier = 0; earlier < i; earlier++) {
        if (same_name(reader, reader->names[earlier], *name)) return refusal(NAME_TWICE, length_byte);
    }
    return 0;
}

static uint64_t read_names(struct reader *reader)
{
    uint32_t place = reader->at, count;
    uint64_t refused = read_field(reader, 1, &count);
    if (refused) return refused;
    if (count != reader->plan.node_count) return refusal(COUNT_OUT_OF_RANGE, place);
    for (uint32_t i = 0; i < count; i++) {
        refused = read_name(reader, i);
        if (refused) return refused;
    }
    return 0;
}

/* Reads a whole plan: the four sections, nothing after them, and then the rules beyond the bytes. */
static uint64_t read_plan(struct reader *reader, const uint8_t *bytes, size_t len)
{
    memset(reader, 0, sizeof *reader);
    reader->bytes = bytes;
    reader->len = len;
    uint64_t refused = read_tick(reader);
    if (refused) return refused;
    refused = read_supplies(reader);
    if (refused) return refused;
    refused = read_nodes(reader);
    if (refused) return refused;
    refused = read_names(reader);
    if (refused) return refused;
    if (reader->at < len) return refusal(BYTES_LEFT_OVER, reader->at);
    return model_rules(&reader->plan);
}

/* ---- plan values as numbers */

/* The places of a plan value's numbers. */
enum { AT_EDITION = 0, AT_P = 1, AT_Q = 2, AT_SUPPLY_COUNT = 3, AT_SUPPLIES = 4, AT_NODE_COUNT = 20, AT_NODES = 21, NUMBERS_OF_A_NODE = 8 };

static void write_value(const struct plan *plan, uint32_t *numbers)
{
    numbers[AT_EDITION] = plan->edition;
    numbers[AT_P] = plan->p;
    numbers[AT_Q] = plan->q;
    numbers[AT_SUPPLY_COUNT] = plan->supply_count;
    for (uint32_t i = 0; i < MOST_SUPPLIES; i++) {
        numbers[AT_SUPPLIES + 2 * i] = plan->supplies[i].c;
        numbers[AT_SUPPLIES + 2 * i + 1] = plan->supplies[i].t;
    }
    numbers[AT_NODE_COUNT] = plan->node_count;
    for (uint32_t i = 0; i < MOST_NODES; i++) {
        const struct node *node = &plan->nodes[i];
        uint32_t *of_node = numbers + AT_NODES + NUMBERS_OF_A_NODE * i;
        of_node[0] = node->kind;
        of_node[1] = node->parent;
        of_node[2] = node->wanted.c;
        of_node[3] = node->wanted.t;
        of_node[4] = node->misses.d;
        of_node[5] = node->misses.w;
        of_node[6] = node->served.c;
        of_node[7] = node->served.t;
    }
}

static void read_value(const uint32_t *numbers, struct plan *plan)
{
    plan->edition = numbers[AT_EDITION];
    plan->p = numbers[AT_P];
    plan->q = numbers[AT_Q];
    plan->supply_count = numbers[AT_SUPPLY_COUNT];
    for (uint32_t i = 0; i < MOST_SUPPLIES; i++) {
        plan->supplies[i].c = numbers[AT_SUPPLIES + 2 * i];
        plan->supplies[i].t = numbers[AT_SUPPLIES + 2 * i + 1];
    }
    plan->node_count = numbers[AT_NODE_COUNT];
    for (uint32_t i = 0; i < MOST_NODES; i++) {
        struct node *node = &plan->nodes[i];
        const uint32_t *of_node = numbers + AT_NODES + NUMBERS_OF_A_NODE * i;
        node->kind = of_node[0];
        node->parent = of_node[1];
        node->wanted = (struct type){of_node[2], of_node[3]};
        node->misses = (struct misses){of_node[4], of_node[5]};
        node->served = (struct type){of_node[6], of_node[7]};
    }
}

static int is_within_fields(struct type type)
{
    return type.c <= 65535 && type.t <= 65535;
}

static int misses_are_within_fields(struct misses misses)
{
    return misses.d <= 65535 && misses.w <= 65535;
}

/* Whether every number is one that its field can hold, in the entries that are not used too: those are ignored as far as they are entries at all. */
static int numbers_are_within_fields(const struct plan *plan)
{
    for (uint32_t i = 0; i < MOST_SUPPLIES; i++) {
        if (!is_within_fields(plan->supplies[i])) return 0;
    }
    for (uint32_t i = 0; i < MOST_NODES; i++) {
        const struct node *node = &plan->nodes[i];
        if (node->kind > HOST || node->parent > 255 || !is_within_fields(node->wanted) || !is_within_fields(node->served)) return 0;
        if (!misses_are_within_fields(node->misses)) return 0;
    }
    return 1;
}

/* A node of edition 1 has D 0 and W 1. */
static int misses_are_of_the_edition(const struct plan *plan, const struct node *node)
{
    return plan->edition != FIRST_EDITION || (node->misses.d == 0 && node->misses.w == 1);
}

/* Whether node i breaks none of 4 to 7 and 19. */
static int node_is_sound(const struct plan *plan, uint32_t i)
{
    const struct node *node = &plan->nodes[i];
    if (!misses_are_sound(node) || !misses_are_of_the_edition(plan, node)) return 0;
    return node->kind <= HOST && model_parent_is_allowed(plan, i) && model_depth(plan, i) <= MOST_DEPTH && model_type_is_sound(node->wanted) &&
           model_type_is_sound(node->served);
}

/* A value is fit when it breaks none of 2 to 7, 11 to 14, 19 and 20. */
int model_fit_plan(const uint32_t *numbers, struct plan *plan)
{
    read_value(numbers, plan);
    if (!numbers_are_within_fields(plan)) return 0;
    if (!edition_is_sound(plan->edition)) return 0;
    if (!model_tick_is_sound(plan->p) || !model_tick_is_sound(plan->q)) return 0;
    if (!supply_count_is_sound(plan->supply_count) || !node_count_is_sound(plan->node_count)) return 0;
    for (uint32_t i = 0; i < plan->supply_count; i++) {
        if (!model_type_is_sound(plan->supplies[i])) return 0;
    }
    for (uint32_t i = 0; i < plan->node_count; i++) {
        if (!node_is_sound(plan, i)) return 0;
    }
    return model_rules(plan) == 0;
}

/* ---- the calls */

uint64_t model_read(const uint8_t *bytes, size_t len, uint32_t *plan, size_t plan_len)
{
    if (plan_len != MODEL_PLAN) return refusal(LENGTHS_DO_NOT_FIT, MODEL_NOWHERE);
    struct reader reader;
    uint64_t refused = read_plan(&reader, bytes, len);
    if (refused) memset(&reader.plan, 0, sizeof reader.plan);
    write_value(&reader.plan, plan);
    return refused;
}

uint64_t model_name(const uint8_t *bytes, size_t len, size_t i, uint64_t *answer, size_t answer_len)
{
    if (answer_len != 2) return refusal(LENGTHS_DO_NOT_FIT, MODEL_NOWHERE);
    struct reader reader;
    struct part name = {0, 0};
    if (read_plan(&reader, bytes, len) == 0 && i < reader.plan.node_count) name = reader.names[i];
    answer[0] = name.first;
    answer[1] = name.length;
    return 0;
}
