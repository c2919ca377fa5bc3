/* A depot's night in C: reads a plan file, tells its soft leaves, and gives out its first eight slots, all cores supplied and nobody declining, with the setting
 * off; then slot 0 alone with the setting off and on, as it is where every leaf below a host declines.
 *
 *   depot FILE     prints a line for each leaf that may miss windows: its name, and how many of how many; then a line for each slot: its number, its start in
 *                  microseconds, and for each supply the name of the leaf that has the slot, or - where it is idle. A refused plan prints its refusal: number,
 *                  place and words. Ends with 0, with 1 where the plan is refused, and with 2 where the file cannot be read. */
#include "../../include/mettulos.h"

#include <stdio.h>

enum { SLOTS = 8 };

/* One byte more than the longest plan is read, so that a longer file is seen to be longer, and refused. */
static uint8_t bytes[METTULOS_LONGEST_PLAN + 1];
static size_t len;
static uint32_t plan[METTULOS_PLAN];
static uint64_t state[METTULOS_STATE];
static uint64_t names[METTULOS_MOST_NODES][METTULOS_NAME];

static int refused(uint64_t refusal)
{
    printf("refused %u", METTULOS_NUMBER(refusal));
    if (METTULOS_PLACE(refusal) != METTULOS_NOWHERE) printf(" %u", METTULOS_PLACE(refusal));
    printf(": %s\n", mettulos_words(METTULOS_NUMBER(refusal)));
    return 1;
}

/* Whether it could be read; a message says where not. */
static int read_file(const char *name)
{
    FILE *file = fopen(name, "rb");
    if (!file) {
        perror(name);
        return 0;
    }
    len = fread(bytes, 1, sizeof bytes, file);
    int failed = ferror(file);
    if (failed) perror(name);
    fclose(file);
    return !failed;
}

/* The names stand in the plan's own bytes. Each call reads the plan anew, so they are looked up once. */
static uint64_t find_names(void)
{
    for (size_t i = 0; i < plan[METTULOS_PLAN_NODES]; i++) {
        uint64_t refusal = mettulos_name(bytes, len, i, names[i], METTULOS_NAME);
        if (refusal) return refusal;
    }
    return METTULOS_DONE;
}

static void print_name(size_t i)
{
    printf("%.*s", (int)names[i][METTULOS_NAME_LENGTH], (const char *)bytes + names[i][METTULOS_NAME_FIRST]);
}

/* Only soft leaves have a D above 0. */
static void print_soft_leaves(void)
{
    for (size_t i = 0; i < plan[METTULOS_PLAN_NODES]; i++) {
        const uint32_t *node = mettulos_node(plan, i);
        if (node[METTULOS_NODE_D] == 0) continue;
        print_name(i);
        printf(" may miss %u of %u windows of %u slots\n", node[METTULOS_NODE_D], node[METTULOS_NODE_W], node[METTULOS_NODE_WANTED_T]);
    }
}

static void print_grant(uint8_t grant)
{
    printf(" ");
    if (grant == METTULOS_IDLE) printf("-");
    else if (grant == METTULOS_NOT_SUPPLIED) printf("x");
    else print_name(grant);
}

/* Answers the refusal of the start, if there is one, and prints nothing then. */
static uint64_t print_slot(const char *before, size_t n, const uint8_t *grants)
{
    uint64_t start, refusal = mettulos_start(plan[METTULOS_PLAN_P], plan[METTULOS_PLAN_Q], n, &start, METTULOS_TIME);
    if (refusal) return refusal;
    printf("%sslot %u %llu", before, (unsigned)n, (unsigned long long)start);
    for (size_t s = 0; s < plan[METTULOS_PLAN_SUPPLIES]; s++) print_grant(grants[s]);
    printf("\n");
    return METTULOS_DONE;
}

/* The slots by one run, with the setting off. Its answers stand slot by slot, one for each supply. */
static uint64_t print_slots(void)
{
    static const uint8_t supplies[SLOTS] = {255, 255, 255, 255, 255, 255, 255, 255};
    static const uint64_t declines[SLOTS];
    uint8_t grants[SLOTS * METTULOS_MOST_SUPPLIES];
    uint64_t refusal = mettulos_fresh(plan, METTULOS_PLAN, state, METTULOS_STATE);
    if (refusal) return refusal;
    refusal = mettulos_run(METTULOS_OFF, plan, METTULOS_PLAN, state, METTULOS_STATE, supplies, SLOTS, declines, SLOTS, grants, sizeof grants);
    for (size_t n = 0; n < SLOTS && !refusal; n++) refusal = print_slot("", n, grants + n * plan[METTULOS_PLAN_SUPPLIES]);
    return refusal;
}

/* Slot 0 by a step, in which every leaf below a host declines; the bits of hosts are ignored. With the setting off a host that is looked at first is charged in
 * vain; with it on the slot goes on to a sibling. */
static uint64_t print_first_slot(const char *before, uint8_t setting)
{
    uint8_t grants[METTULOS_GRANTS];
    uint64_t declines = 0, refusal = mettulos_fresh(plan, METTULOS_PLAN, state, METTULOS_STATE);
    if (refusal) return refusal;
    for (size_t i = 0; i < plan[METTULOS_PLAN_NODES]; i++) {
        if (mettulos_node(plan, i)[METTULOS_NODE_PARENT] >= METTULOS_PARENT_NODE) declines |= (uint64_t)1 << i;
    }
    refusal = mettulos_step(setting, plan, METTULOS_PLAN, state, METTULOS_STATE, 255, declines, grants, METTULOS_GRANTS);
    return refusal ? refusal : print_slot(before, 0, grants);
}

int main(int argc, char **argv)
{
    uint64_t refusal;

    if (argc != 2) {
        fprintf(stderr, "usage: depot FILE\n");
        return 2;
    }
    if (!read_file(argv[1])) return 2;
    if ((refusal = mettulos_read(bytes, len, plan, METTULOS_PLAN))) return refused(refusal);
    if ((refusal = find_names())) return refused(refusal);
    print_soft_leaves();
    if ((refusal = print_slots())) return refused(refusal);
    if ((refusal = print_first_slot("off: ", METTULOS_OFF))) return refused(refusal);
    if ((refusal = print_first_slot("on: ", METTULOS_ON))) return refused(refusal);
    return 0;
}
