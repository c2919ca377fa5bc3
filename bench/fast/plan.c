/* Document 01, "The plan file", and its edition 2, request 6 of document 02: the bytes from the front into the lent plan value, each field tested when it has
 * been read, and then the rules. */
#include "inner.h"

#include <string.h>

struct reader {
    const uint8_t *bytes;
    size_t len, at;
    struct plan *plan;
    uint8_t depths[MOST_NODES];
};

static uint32_t two_bytes(const uint8_t *bytes)
{
    return bytes[0] | (uint32_t)bytes[1] << 8;
}

static uint32_t four_bytes(const uint8_t *bytes)
{
    return two_bytes(bytes) | two_bytes(bytes + 2) << 16;
}

static uint64_t eight_bytes(const uint8_t *bytes)
{
    uint64_t word;
    memcpy(&word, bytes, sizeof word);
    return word;
}

/* ---- tick, supplies and nodes */

static uint64_t read_count(struct reader *reader, uint32_t least, uint32_t most, uint32_t *count)
{
    if (reader->at >= reader->len) return refusal(BYTES_MISSING, reader->at);
    *count = reader->bytes[reader->at];
    if (*count < least || *count > most) return refusal(COUNT_OUT_OF_RANGE, reader->at);
    reader->at++;
    return 0;
}

static uint64_t read_tick_number(struct reader *reader, uint32_t *number)
{
    if (reader->len - reader->at < 4) return refusal(BYTES_MISSING, reader->at);
    *number = four_bytes(reader->bytes + reader->at);
    if (!tick_is_sound(*number)) return refusal(TICK_OUT_OF_RANGE, reader->at);
    reader->at += 4;
    return 0;
}

/* Where the first of the eight bytes is that is not 0, or that is not there. */
static uint64_t bad_spare(const struct reader *reader)
{
    size_t at = reader->at;
    while (at < reader->len && reader->bytes[at] == 0) at++;
    return refusal(at < reader->len ? TICK_OUT_OF_RANGE : BYTES_MISSING, at);
}

static uint64_t read_spare(struct reader *reader)
{
    if (reader->len - reader->at < 8 || eight_bytes(reader->bytes + reader->at) != 0) return bad_spare(reader);
    reader->at += 8;
    return 0;
}

static uint64_t read_misses(struct reader *reader, struct node *node)
{
    size_t there = reader->len - reader->at;
    node->misses = (struct misses){0, 1};
    if (reader->plan->edition == FIRST_EDITION) return 0;
    if (there < 4) return refusal(BYTES_MISSING, there < 2 ? reader->at : reader->at + 2);
    node->misses.d = two_bytes(reader->bytes + reader->at);
    node->misses.w = two_bytes(reader->bytes + reader->at + 2);
    if (!misses_are_sound(node)) return refusal(MISSES_OUT_OF_RANGE, reader->at);
    reader->at += 4;
    return 0;
}

static uint64_t read_type(struct reader *reader, struct type *type)
{
    size_t there = reader->len - reader->at;
    if (there < 4) return refusal(BYTES_MISSING, there < 2 ? reader->at : reader->at + 2);
    type->c = two_bytes(reader->bytes + reader->at);
    type->t = two_bytes(reader->bytes + reader->at + 2);
    if (!type_is_sound(*type)) return refusal(TYPE_MALFORMED, reader->at);
    reader->at += 4;
    return 0;
}

static uint64_t read_parent(struct reader *reader, uint32_t i)
{
    const struct node *nodes = reader->plan->nodes;
    uint32_t parent = nodes[i].parent, depth = 1;
    if (parent < FIRST_NODE_BYTE) {
        if (parent >= reader->plan->supply_count) return refusal(PARENT_NOT_ALLOWED, reader->at);
    } else {
        uint32_t host = parent - FIRST_NODE_BYTE;
        if (host >= i || nodes[host].kind != HOST) return refusal(PARENT_NOT_ALLOWED, reader->at);
        depth = reader->depths[host] + 1u;
        if (depth > MOST_DEPTH) return refusal(TOO_DEEP, reader->at);
    }
    reader->depths[i] = (uint8_t)depth;
    reader->at++;
    return 0;
}

static uint64_t read_node(struct reader *reader, uint32_t i)
{
    struct node *node = &reader->plan->nodes[i];
    uint64_t refused;
    if (reader->at >= reader->len) return refusal(BYTES_MISSING, reader->at);
    node->kind = reader->bytes[reader->at];
    if (node->kind > HOST) return refusal(KIND_UNKNOWN, reader->at);
    reader->at++;
    if (reader->at >= reader->len) return refusal(BYTES_MISSING, reader->at);
    node->parent = reader->bytes[reader->at];
    if ((refused = read_parent(reader, i))) return refused;
    if ((refused = read_type(reader, &node->wanted))) return refused;
    if ((refused = read_misses(reader, node))) return refused;
    return read_type(reader, &node->served);
}

static uint64_t read_sections(struct reader *reader)
{
    struct plan *plan = reader->plan;
    uint64_t refused;
    if ((refused = read_count(reader, FIRST_EDITION, SECOND_EDITION, &plan->edition))) return refused;
    if ((refused = read_tick_number(reader, &plan->p))) return refused;
    if ((refused = read_tick_number(reader, &plan->q))) return refused;
    if (plan->edition == SECOND_EDITION && (refused = read_spare(reader))) return refused;
    if ((refused = read_count(reader, 1, MOST_SUPPLIES, &plan->supply_count))) return refused;
    for (uint32_t i = 0; i < plan->supply_count; i++) {
        if ((refused = read_type(reader, &plan->supplies[i]))) return refused;
    }
    if ((refused = read_count(reader, 1, MOST_NODES, &plan->node_count))) return refused;
    for (uint32_t i = 0; i < plan->node_count; i++) {
        if ((refused = read_node(reader, i))) return refused;
    }
    return 0;
}

/* ---- names */

#define EACH_BYTE(byte) (UINT64_C(0x0101010101010101) * (byte))

enum { BUCKETS = 128, BUCKET_BITS = 7 };

/* The names so far, found by a hash: a bucket has a name's number and one, or 0. */
struct names {
    uint8_t buckets[BUCKETS];
    uint64_t hashes[MOST_NODES];
    const uint8_t *starts[MOST_NODES];
};

/* Whether some byte of the word is below 33 or above 126. */
static int has_bad_letter(uint64_t word)
{
    return (((word - EACH_BYTE(33)) & ~word) | (word + EACH_BYTE(1)) | word) & EACH_BYTE(128) ? 1 : 0;
}

static uint64_t mixed(uint64_t hash, uint64_t word)
{
    hash = (hash ^ word) * UINT64_C(0x9E3779B97F4A7C15);
    return hash ^ hash >> 32;
}

/* A hash whose high bits depend on every byte, and whether a byte is bad. Eight bytes at a time, the last eight overlapping those before. */
static uint64_t hash_of(const uint8_t *name, uint32_t length, int *bad)
{
    uint64_t hash = length, word;
    *bad = 0;
    if (length < 8) {
        word = EACH_BYTE(33);
        for (uint32_t k = 0; k < length; k++) word = word << 8 | name[k];
        *bad = has_bad_letter(word);
        return mixed(hash, word) * UINT64_C(0x9E3779B97F4A7C15);
    }
    for (uint32_t k = 0; k + 8 < length; k += 8) {
        word = eight_bytes(name + k);
        *bad |= has_bad_letter(word);
        hash = mixed(hash, word);
    }
    word = eight_bytes(name + length - 8);
    *bad |= has_bad_letter(word);
    return mixed(hash, word) * UINT64_C(0x9E3779B97F4A7C15);
}

/* Where the name, of which so many bytes are there, has its first bad byte or ends too early. */
static uint64_t bad_name(const struct reader *reader, size_t there)
{
    for (size_t k = 0; k < there; k++) {
        uint8_t byte = reader->bytes[reader->at + k];
        if (byte < 33 || byte > 126) return refusal(NAME_BAD, reader->at + k);
    }
    return refusal(BYTES_MISSING, reader->at + there);
}

/* Whether the name is none of those before, among which it is put. Names stand with their length byte before them. */
static int is_new_name(struct names *names, uint32_t i, const uint8_t *start, uint64_t hash)
{
    uint32_t bucket = (uint32_t)(hash >> (64 - BUCKET_BITS));
    for (; names->buckets[bucket] != 0; bucket = (bucket + 1) % BUCKETS) {
        uint32_t other = names->buckets[bucket] - 1u;
        if (names->hashes[other] != hash || *names->starts[other] != *start) continue;
        if (memcmp(names->starts[other] + 1, start + 1, *start) == 0) return 0;
    }
    names->buckets[bucket] = (uint8_t)(i + 1);
    names->hashes[i] = hash;
    names->starts[i] = start;
    return 1;
}

static uint64_t read_names(struct reader *reader)
{
    struct names names;
    uint64_t refused;
    uint32_t count = reader->plan->node_count, length;
    if ((refused = read_count(reader, count, count, &count))) return refused;
    memset(names.buckets, 0, sizeof names.buckets);
    for (uint32_t i = 0; i < count; i++) {
        const uint8_t *start = reader->bytes + reader->at;
        int bad;
        if (reader->at >= reader->len) return refusal(BYTES_MISSING, reader->at);
        length = *start;
        if (length < 1 || length > 32) return refusal(NAME_BAD, reader->at);
        reader->at++;
        if (reader->len - reader->at < length) return bad_name(reader, reader->len - reader->at);
        uint64_t hash = hash_of(start + 1, length, &bad);
        if (bad) return bad_name(reader, length);
        if (!is_new_name(&names, i, start, hash)) return refusal(NAME_TWICE, reader->at - 1);
        reader->at += length;
    }
    return 0;
}

/* ---- all of it */

static uint64_t read_plan(struct reader *reader)
{
    struct families families;
    uint64_t refused = read_sections(reader);
    if (refused) return refused;
    refused = read_names(reader);
    if (refused) return refused;
    if (reader->at < reader->len) return refusal(BYTES_LEFT_OVER, reader->at);
    return fast_keeps_rules(reader->plan, &families) ? 0 : fast_first_broken(reader->plan);
}

uint64_t fast_read(const uint8_t *bytes, size_t len, uint32_t *plan, size_t plan_len)
{
    if (plan_len != PLAN_NUMBERS) return refusal(LENGTHS_DO_NOT_FIT, NOWHERE);
    struct reader reader = {.bytes = bytes, .len = len, .at = 0, .plan = (struct plan *)plan};
    memset(plan, 0, sizeof(struct plan));
    uint64_t refused = read_plan(&reader);
    if (refused) memset(plan, 0, sizeof(struct plan));
    return refused;
}
