/* Inputs made by chance. */
#include "generate.h"

#include "../model/model.h"

#include <string.h>

/* ---- numbers */

static uint64_t chance_state;

void chance_seed(uint64_t seed)
{
    chance_state = seed;
}

/* splitmix64 */
uint64_t chance_bits(void)
{
    uint64_t bits = chance_state += 0x9E3779B97F4A7C15u;
    bits = (bits ^ bits >> 30) * 0xBF58476D1CE4E5B9u;
    bits = (bits ^ bits >> 27) * 0x94D049BB133111EBu;
    return bits ^ bits >> 31;
}

uint64_t chance_below(uint64_t bound)
{
    return chance_bits() % bound;
}

int chance(uint32_t percent)
{
    return chance_below(100) < percent;
}

static uint16_t one_of(const uint16_t *numbers, size_t count)
{
    return numbers[chance_below(count)];
}

#define ONE_OF(numbers) one_of(numbers, sizeof(numbers) / sizeof *(numbers))

/* ---- types of sound plans */

struct drafted_type draft_own_type(const struct draft *draft, uint8_t parent)
{
    return parent < 128 ? draft->supplies[parent] : draft->nodes[parent - 128].wanted;
}

int draft_is_whole(struct drafted_type own)
{
    return own.c == own.t;
}

int draft_is_odd(const struct draft *draft, uint32_t i)
{
    return draft->nodes[i].served.t % draft_own_type(draft, draft->nodes[i].parent).t != 0;
}

/* The parent's own T, or half the time any period where it is whole. */
uint16_t draft_first_period(struct drafted_type own)
{
    if (!draft_is_whole(own) || chance(50)) return own.t;
    return (uint16_t)(1 + chance_below(own.t < 30 ? 2u * own.t + 3 : own.t));
}

/* What the children of a parent may still take. Their periods come from a chain in which each divides the next; room is counted in slots of the last. */
struct parent {
    uint8_t byte;
    uint8_t depth; /* of its children */
    uint16_t periods[6];
    uint32_t period_count;
    uint32_t room;
};

static struct parent make_parent(uint8_t byte, uint8_t depth, struct drafted_type own)
{
    static const uint16_t factors[] = {1, 2, 2, 3, 4, 5, 7};
    struct parent parent = {byte, depth, {draft_first_period(own)}, 1, 0};
    while (parent.period_count < 6 && chance(70)) {
        uint32_t period = (uint32_t)parent.periods[parent.period_count - 1] * ONE_OF(factors);
        if (period > 4096) break;
        parent.periods[parent.period_count++] = (uint16_t)period;
    }
    uint32_t last = parent.periods[parent.period_count - 1];
    parent.room = draft_is_whole(own) ? last : own.c * (last / own.t);
    return parent;
}

static struct drafted_type take_served(struct parent *parent)
{
    uint16_t last = parent->periods[parent->period_count - 1];
    uint16_t t = parent->periods[chance_below(parent->period_count)];
    uint32_t each = last / t, most = parent->room / each;
    if (most > t) most = t;
    uint32_t c = chance(20) ? most : (uint32_t)chance_below(most / (chance(50) ? 3 : 1) + 1);
    parent->room -= c * each;
    return (struct drafted_type){(uint16_t)c, t};
}

uint16_t draft_most_wanted(struct drafted_type served, uint8_t kind, uint16_t t)
{
    uint32_t answer[4];
    model_decide(0, served.c, served.t, kind == 1, 0, t, NULL, 0, answer, 4);
    return (uint16_t)answer[1];
}

static uint16_t wanted_period(uint16_t served_t, int small)
{
    uint32_t t = served_t;
    switch (chance_below(small ? 4 : 7)) {
    case 0: t = served_t * (1 + (uint32_t)chance_below(4)); break;
    case 1: t = served_t % 2 == 0 ? served_t / 2 : served_t; break;
    case 2: t = served_t % 3 == 0 ? served_t / 3 : served_t; break;
    case 3: break;
    case 4: t = served_t + (uint32_t)chance_below(5); break;
    case 5: t = 1 + (uint32_t)chance_below(60); break;
    default: t = 1 + (uint32_t)chance_below(3u * served_t); break;
    }
    return (uint16_t)(t < 1 || t > 4096 ? served_t : t);
}

/* A leaf's window that is too short to have anything is mostly made longer. */
struct drafted_type draft_wanted(struct drafted_type served, uint8_t kind)
{
    uint16_t t = wanted_period(served.t, kind == 2);
    uint16_t most = draft_most_wanted(served, kind, t);
    if (kind < 2 && most == 0 && served.t <= 1000 && chance(80)) {
        t = (uint16_t)(served.t * (1 + chance_below(3)) + chance_below(served.t));
        most = draft_most_wanted(served, kind, t);
    }
    uint16_t c = chance(75) ? most : (uint16_t)chance_below(most + 1u);
    return (struct drafted_type){c, t};
}

/* ---- misses */

int draft_is_soft(const struct drafted_node *node)
{
    return node->kind < 2 && node->misses.d > 0;
}

/* A short period or a long one, by chance, of those that divide t. */
static uint16_t divisor_of(uint16_t t)
{
    uint16_t k;
    do k = (uint16_t)(1 + chance_below(t < 12 ? t : 12));
    while (t % k != 0);
    return chance(70) ? (uint16_t)(t / k) : k;
}

struct drafted_type draft_soft_wanted(struct drafted_type served)
{
    uint32_t t = chance(70) ? divisor_of(served.t) : served.t * (1 + (uint32_t)chance_below(4));
    if (t > 4096) t = served.t;
    uint32_t most = draft_most_wanted(served, 0, (uint16_t)t);
    uint32_t c = chance(75) ? most + 1 + (uint32_t)chance_below(3) : (uint32_t)chance_below(t + 1);
    return (struct drafted_type){(uint16_t)(c < t ? c : t), (uint16_t)t};
}

/* By the short way: windows take the place of slots, and of each K at least K - u are met. */
uint16_t draft_most_lost(struct drafted_type served, struct drafted_type wanted, uint16_t w)
{
    if (wanted.c == 0) return 0;
    if (served.t % wanted.t != 0) return wanted.t / served.t * served.c < wanted.c ? w : 0;
    uint32_t k = served.t / wanted.t, u = (served.t - (uint32_t)served.c) / (wanted.t + 1u - wanted.c);
    if (u > k) u = k;
    return (uint16_t)(w - draft_most_wanted((struct drafted_type){(uint16_t)(k - u), (uint16_t)k}, 0, w));
}

/* Mostly few, so that a run has whole stretches. */
uint16_t draft_windows(void)
{
    static const uint16_t few[] = {1, 1, 2, 2, 3, 3, 4, 5, 6, 7}, many[] = {8, 12, 100, 1023, 1024, 1024};
    if (chance(75)) return ONE_OF(few);
    return chance(70) ? ONE_OF(many) : (uint16_t)(1 + chance_below(1024));
}

/* Just what a stretch can lose, or more. */
static void soften(struct drafted_node *node)
{
    node->wanted = draft_soft_wanted(node->served);
    uint16_t w = node->misses.w, lost = draft_most_lost(node->served, node->wanted, w), least = lost > 0 ? lost : 1;
    node->misses.d = chance(70) ? least : (uint16_t)(least + chance_below(w - least + 1u));
}

void draft_misses(uint8_t edition, struct drafted_node *node)
{
    node->misses = (struct drafted_misses)NO_MISSES;
    if (edition == 1) return;
    node->misses.w = draft_windows();
    if (node->kind == 0 && chance(50)) soften(node);
}

/* ---- sound plans, of such parts */

static int name_occurs_before(const struct draft *draft, uint32_t i)
{
    const struct drafted_node *node = &draft->nodes[i];
    for (uint32_t k = 0; k < i; k++) {
        const struct drafted_node *other = &draft->nodes[k];
        if (node->name_length == other->name_length && memcmp(node->name, other->name, node->name_length) == 0) return 1;
    }
    return 0;
}

void draft_name(struct draft *draft, uint32_t i)
{
    struct drafted_node *node = &draft->nodes[i];
    do {
        const struct drafted_node *like = &draft->nodes[i > 0 ? chance_below(i) : 0];
        int near = i > 0 && chance(40);
        node->name_length = near ? like->name_length : (uint8_t)(1 + chance_below(chance(10) ? 32 : 6));
        for (uint32_t k = 0; k < 32; k++) node->name[k] = near ? like->name[k] : (uint8_t)(33 + chance_below(94));
        if (near && chance(50) && node->name_length < 32) node->name_length++;
        if (near) node->name[node->name_length - 1] = (uint8_t)(33 + chance_below(94));
    } while (name_occurs_before(draft, i));
}

static struct drafted_type supply_type(void)
{
    static const uint16_t periods[] = {1, 1, 2, 3, 4, 4, 5, 6, 8, 10, 12, 16, 20, 25, 60, 100};
    static const uint16_t large[] = {256, 1000, 1365, 2048, 4095, 4096};
    uint16_t t = chance(6) ? ONE_OF(large) : ONE_OF(periods);
    return (struct drafted_type){chance(60) ? t : (uint16_t)chance_below(t + 1u), t};
}

uint32_t draft_tick(void)
{
    static const uint32_t edges[] = {1, 2, 3, 999999, 1000000, 1000};
    return chance(30) ? edges[chance_below(6)] : 1 + (uint32_t)chance_below(1000000);
}

void draft_sound(struct draft *draft, uint32_t most_nodes)
{
    struct parent parents[8 + 64];
    uint32_t parent_count = 0;
    int deep = chance(25);
    memset(draft, 0, sizeof *draft);
    draft->edition = (uint8_t)(1 + chance_below(2));
    draft->p = draft_tick();
    draft->q = draft_tick();
    draft->supply_count = (uint8_t)(1 + chance_below(chance(50) ? 2 : 8));
    for (uint8_t i = 0; i < draft->supply_count; i++) {
        draft->supplies[i] = supply_type();
        parents[parent_count++] = make_parent(i, 1, draft->supplies[i]);
    }
    draft->node_count = (uint8_t)(1 + chance_below(most_nodes));
    for (uint32_t i = 0; i < draft->node_count; i++) {
        struct drafted_node *node = &draft->nodes[i];
        struct parent *parent = &parents[deep && chance(80) ? parent_count - 1 : chance_below(parent_count)];
        node->kind = (uint8_t)(deep && chance(70) ? 2 : chance_below(3));
        node->parent = parent->byte;
        node->served = take_served(parent);
        node->wanted = draft_wanted(node->served, node->kind);
        draft_misses(draft->edition, node);
        draft_name(draft, i);
        if (node->kind == 2 && parent->depth < 8) parents[parent_count++] = make_parent((uint8_t)(128 + i), parent->depth + 1, node->wanted);
    }
}

/* ---- damage */

static uint16_t odd_number(uint16_t number)
{
    static const uint16_t edges[] = {0, 1, 2, 4095, 4096, 4097, 32768, 65535};
    switch (chance_below(5)) {
    case 0: return (uint16_t)(number + 1);
    case 1: return (uint16_t)(number - 1);
    case 2: return (uint16_t)(number * 2);
    case 3: return ONE_OF(edges);
    default: return (uint16_t)chance_below(chance(50) ? 20 : 5000);
    }
}

static void damage_type(struct drafted_type *type)
{
    if (chance(50)) type->c = odd_number(type->c);
    else type->t = odd_number(type->t);
    if (chance(20)) type->c = (uint16_t)(type->t + chance_below(2));
}

static void damage_tick(struct draft *draft)
{
    static const uint32_t edges[] = {0, 1, 1000000, 1000001, 16777216, 0xFFFFFFFFu};
    if (chance(50)) draft->p = edges[chance_below(6)];
    else draft->q = edges[chance_below(6)];
}

/* D and W at and beyond their edges, of any node: a host or a sliding leaf with a D above 0, a leaf that allows less than it loses. */
static void damage_misses(struct drafted_misses *misses)
{
    static const uint16_t edges[] = {0, 1, 2, 1023, 1024, 1025, 32768, 65535};
    switch (chance_below(5)) {
    case 0: misses->d = ONE_OF(edges); break;
    case 1: misses->w = ONE_OF(edges); break;
    case 2: misses->d = (uint16_t)(misses->d + (chance(50) ? 1 : 65535)); break;
    case 3: misses->d = (uint16_t)(misses->w + chance_below(2)); break;
    default: *misses = (struct drafted_misses){misses->w, misses->d}; break;
    }
}

/* The edition alone, so that D and W come and go. */
static void damage_edition(struct draft *draft)
{
    static const uint16_t editions[] = {1, 1, 2, 2, 0, 3, 255};
    draft->edition = (uint8_t)ONE_OF(editions);
}

static uint8_t odd_parent(const struct draft *draft, uint32_t i)
{
    switch (chance_below(6)) {
    case 0: return draft->supply_count;
    case 1: return (uint8_t)(128 + i);
    case 2: return (uint8_t)(128 + chance_below(draft->node_count));
    case 3: return (uint8_t)chance_below(draft->supply_count);
    case 4: return (uint8_t)(128 + chance_below(i + 1));
    default: return (uint8_t)chance_bits();
    }
}

/* Hangs nodes under each other, from node i or from the first on, as far as they go; eight links make one too many. */
static void hang_in_a_chain(struct draft *draft, uint32_t i)
{
    uint32_t links = 6 + (uint32_t)chance_below(4);
    if (chance(50)) i = 0;
    for (uint32_t k = i; k + 1 < draft->node_count && k < i + links; k++) {
        draft->nodes[k].kind = 2;
        draft->nodes[k + 1].parent = (uint8_t)(128 + k);
    }
}

static uint16_t period_of_parent(const struct draft *draft, uint8_t parent)
{
    return parent < 128 ? draft->supplies[parent % 8].t : draft->nodes[parent % 64].wanted.t;
}

/* Gives the node another served period, mostly a multiple of its parent's, and has it want just that, so that only the rules among siblings can refuse it. */
static void change_period(const struct draft *draft, struct drafted_node *node)
{
    uint32_t t = (chance(80) ? period_of_parent(draft, node->parent) : 1) * (1 + (uint32_t)chance_below(12));
    if (t < 1 || t > 4096) t = 1;
    node->served.t = (uint16_t)t;
    if (node->served.c > t) node->served.c = (uint16_t)t;
    if (node->kind == 1) node->kind = 0;
    node->wanted = node->served;
}

/* Serves the node more and has it want what it did. */
static void serve_more(struct drafted_node *node)
{
    uint32_t more = node->served.c + 1 + (uint32_t)chance_below(3);
    node->served.c = more > node->served.t ? node->served.t : (uint16_t)more;
}

/* Makes a supply, or what the node wants, whole or one slot short of it. */
static void change_wholeness(struct draft *draft, struct drafted_node *node)
{
    struct drafted_type *own = chance(50) ? &draft->supplies[chance_below(draft->supply_count)] : &node->wanted;
    own->c = (uint16_t)(own->t - chance_below(2));
}

void draft_damage(struct draft *draft)
{
    uint32_t i = (uint32_t)chance_below(draft->node_count), other = (uint32_t)chance_below(draft->node_count);
    struct drafted_node *node = &draft->nodes[i];
    switch (chance_below(19)) {
    case 0: damage_tick(draft); break;
    case 1: damage_type(&draft->supplies[chance_below(draft->supply_count)]); break;
    case 2: node->kind = (uint8_t)chance_below(chance(80) ? 4 : 256); break;
    case 3: node->parent = odd_parent(draft, i); break;
    case 4: node->wanted.c++; break;
    case 5: damage_type(&node->wanted); break;
    case 6: damage_type(&node->served); break;
    case 7:
    case 8: change_period(draft, node); break;
    case 9:
    case 10: serve_more(node); break;
    case 11:
        node->name_length = draft->nodes[other].name_length;
        memcpy(node->name, draft->nodes[other].name, 32);
        break;
    case 12: hang_in_a_chain(draft, i); break;
    case 13: change_wholeness(draft, node); break;
    case 14:
    case 15: damage_misses(&node->misses); break;
    case 16: damage_edition(draft); break;
    case 17: draft->spare[chance_below(8)] = (uint8_t)chance_bits(); break;
    default: node->name[chance_below(node->name_length)] = (uint8_t)(chance(50) ? 32 : 127); break;
    }
}

/* ---- as bytes and as numbers */

static uint8_t *put(uint8_t *at, uint32_t number, uint32_t width)
{
    for (uint32_t k = 0; k < width; k++) *at++ = (uint8_t)(number >> (8 * k));
    return at;
}

static uint8_t *put_type(uint8_t *at, struct drafted_type type)
{
    return put(put(at, type.c, 2), type.t, 2);
}

/* Only edition 1 has no spare bytes, and no D and W. */
size_t draft_bytes(const struct draft *draft, uint8_t *bytes)
{
    uint8_t *at = put(bytes, draft->edition, 1);
    at = put(put(at, draft->p, 4), draft->q, 4);
    for (uint32_t k = 0; k < 8 && draft->edition != 1; k++) at = put(at, draft->spare[k], 1);
    at = put(at, draft->supply_count, 1);
    for (uint32_t i = 0; i < draft->supply_count; i++) at = put_type(at, draft->supplies[i]);
    at = put(at, draft->node_count, 1);
    for (uint32_t i = 0; i < draft->node_count; i++) {
        const struct drafted_node *node = &draft->nodes[i];
        at = put(put(at, node->kind, 1), node->parent, 1);
        at = put_type(at, node->wanted);
        if (draft->edition != 1) at = put(put(at, node->misses.d, 2), node->misses.w, 2);
        at = put_type(at, node->served);
    }
    at = put(at, draft->node_count, 1);
    for (uint32_t i = 0; i < draft->node_count; i++) {
        at = put(at, draft->nodes[i].name_length, 1);
        memcpy(at, draft->nodes[i].name, draft->nodes[i].name_length);
        at += draft->nodes[i].name_length;
    }
    return (size_t)(at - bytes);
}

void draft_value(const struct draft *draft, uint32_t *numbers)
{
    uint32_t *at = numbers;
    *at++ = draft->edition;
    *at++ = draft->p;
    *at++ = draft->q;
    *at++ = draft->supply_count;
    for (uint32_t i = 0; i < 8; i++) {
        *at++ = draft->supplies[i].c;
        *at++ = draft->supplies[i].t;
    }
    *at++ = draft->node_count;
    for (uint32_t i = 0; i < 64; i++) {
        const struct drafted_node *node = &draft->nodes[i];
        *at++ = node->kind;
        *at++ = node->parent;
        *at++ = node->wanted.c;
        *at++ = node->wanted.t;
        *at++ = node->misses.d;
        *at++ = node->misses.w;
        *at++ = node->served.c;
        *at++ = node->served.t;
    }
}

static size_t insert_bytes(uint8_t *bytes, size_t len, size_t at, size_t count)
{
    memmove(bytes + at + count, bytes + at, len - at);
    for (size_t k = 0; k < count; k++) bytes[at + k] = (uint8_t)chance_bits();
    return len + count;
}

static size_t remove_bytes(uint8_t *bytes, size_t len, size_t at, size_t count)
{
    if (count > len - at) count = len - at;
    memmove(bytes + at, bytes + at + count, len - at - count);
    return len - count;
}

size_t damage_bytes(uint8_t *bytes, size_t len)
{
    static const uint16_t edges[] = {0, 1, 2, 3, 8, 9, 32, 33, 64, 65, 126, 127, 128, 129, 254, 255};
    if (len == 0) return insert_bytes(bytes, 0, 0, 1);
    size_t at = chance_below(len);
    switch (chance_below(8)) {
    case 0: bytes[at] ^= (uint8_t)(1u << chance_below(8)); return len;
    case 1: bytes[at] = (uint8_t)chance_bits(); return len;
    case 2: bytes[at] = (uint8_t)ONE_OF(edges); return len;
    case 3: bytes[at] = (uint8_t)(bytes[at] + (chance(50) ? 1 : 255)); return len;
    case 4: return at;
    case 5: return insert_bytes(bytes, len, chance(50) ? len : at, 1 + chance_below(chance(70) ? 2 : 32));
    case 6: return remove_bytes(bytes, len, at, 1 + chance_below(chance(70) ? 2 : 32));
    default: bytes[at] = bytes[chance_below(len)]; return len;
    }
}
