/* The rows of the tables: what is called on what. */
#include "bench.h"

#include <stdio.h>
#include <stdlib.h>
#include <string.h>

enum { ALIGNED = 0, SLIDING = 1, OFF = METTULOS_OFF, ON = METTULOS_ON };

#define DECIDE(name, room, first, second, ...) {name, repeat_decide, {__VA_ARGS__}, room, {first, second}, {0, 0, 0, PLAIN}, 0, 0}
#define ON_PLAN(name, repeat, setting, slots, ...) {name, repeat, {0, 0, 0, 0, 0, 0}, 0, {0, 0}, {__VA_ARGS__}, setting, slots}
#define READ(name, ...) ON_PLAN("read, " name, repeat_read, 0, 0, __VA_ARGS__)
#define FRESH(name, ...) ON_PLAN("fresh, " name, repeat_fresh, 0, 0, __VA_ARGS__)
#define STEP(name, setting, ...) ON_PLAN("step, " name, repeat_step, setting, 0, __VA_ARGS__)
#define RUN(name, setting, ...) ON_PLAN("run per slot, " name, repeat_run, setting, MOST_SLOTS, __VA_ARGS__)

const struct row rows[] = {
    DECIDE("decide, small T, holds: aligned (2,4) for sliding (2,8)", MOST_OUT, 1, 2, ALIGNED, 2, 4, SLIDING, 2, 8),
    DECIDE("decide, small T, fails: aligned (1,4) for aligned (1,5)", MOST_OUT, 0, 5, ALIGNED, 1, 4, ALIGNED, 1, 5),
    DECIDE("decide, large T, holds: aligned (2048,4095) for aligned (2,4096)", MOST_OUT, 1, 2, ALIGNED, 2048, 4095, ALIGNED, 2, 4096),
    DECIDE("decide, large T, holds: aligned (2048,4095) for sliding (2,4096)", MOST_OUT, 1, 2, ALIGNED, 2048, 4095, SLIDING, 2, 4096),
    DECIDE("decide, large T, holds: sliding (2048,4095) for sliding (2048,4096)", MOST_OUT, 1, 2048, SLIDING, 2048, 4095, SLIDING, 2048, 4096),
    DECIDE("decide, large T, fails late: aligned (2047,4095) for aligned (1,4096)", MOST_OUT, 0, 8384512, ALIGNED, 2047, 4095, ALIGNED, 1, 4096),
    DECIDE("the same with no room for the allocation", 0, 0, 0, ALIGNED, 2047, 4095, ALIGNED, 1, 4096),
    DECIDE("decide, large T, fails late: aligned (4093,4094) for sliding (4094,4096)", MOST_OUT, 0, 4093, ALIGNED, 4093, 4094, SLIDING, 4094, 4096),
    DECIDE("the same with no room for the allocation", 0, 0, 0, ALIGNED, 4093, 4094, SLIDING, 4094, 4096),
    READ("1 node", 1, 1, 1, PLAIN),
    READ("8 nodes", 8, 1, 1, PLAIN),
    READ("64 nodes", 64, 8, 1, PLAIN),
    READ("64 nodes, names of 32 bytes alike but for the last", 64, 8, 1, NAMES_ALIKE),
    READ("64 nodes, all soft leaves", 64, 8, 1, ALL_SOFT),
    FRESH("1 node", 1, 1, 1, PLAIN),
    FRESH("8 nodes", 8, 1, 1, PLAIN),
    FRESH("64 nodes", 64, 8, 1, PLAIN),
    FRESH("64 nodes, all soft leaves", 64, 8, 1, ALL_SOFT),
    STEP("1 node, 1 core", OFF, 1, 1, 1, PLAIN),
    STEP("8 nodes, 1 core", OFF, 8, 1, 1, PLAIN),
    STEP("64 nodes, 8 cores", OFF, 64, 8, 1, PLAIN),
    STEP("64 nodes, 8 cores, on", ON, 64, 8, 1, PLAIN),
    STEP("64 nodes, 8 cores, depth 8", OFF, 64, 8, 8, PLAIN),
    STEP("64 nodes, 8 cores, depth 8, on", ON, 64, 8, 8, PLAIN),
    RUN("1 node, 1 core, depth 1", OFF, 1, 1, 1, PLAIN),
    RUN("1 node, 8 cores, depth 1", OFF, 1, 8, 1, PLAIN),
    RUN("8 nodes, 1 core, depth 1", OFF, 8, 1, 1, PLAIN),
    RUN("8 nodes, 8 cores, depth 1", OFF, 8, 8, 1, PLAIN),
    RUN("8 nodes, 1 core, depth 8", OFF, 8, 1, 8, PLAIN),
    RUN("8 nodes, 8 cores, depth 8", OFF, 8, 8, 8, PLAIN),
    RUN("64 nodes, 1 core, depth 1", OFF, 64, 1, 1, PLAIN),
    RUN("64 nodes, 1 core, depth 1, on", ON, 64, 1, 1, PLAIN),
    RUN("64 nodes, 8 cores, depth 1", OFF, 64, 8, 1, PLAIN),
    RUN("64 nodes, 8 cores, depth 1, on", ON, 64, 8, 1, PLAIN),
    RUN("64 nodes, 1 core, depth 8", OFF, 64, 1, 8, PLAIN),
    RUN("64 nodes, 1 core, depth 8, on", ON, 64, 1, 8, PLAIN),
    RUN("64 nodes, 8 cores, depth 8", OFF, 64, 8, 8, PLAIN),
    RUN("64 nodes, 8 cores, depth 8, on", ON, 64, 8, 8, PLAIN),
    RUN("64 nodes, 8 cores, depth 8, on, all hosts in vain", ON, 64, 8, 8, IN_VAIN),
};

const size_t row_count = sizeof rows / sizeof *rows;

void row_prepare(const struct row *row, struct job *job)
{
    if (row->repeat == repeat_decide) job_of_pair(job, row->pair, row->room);
    else job_of_plan(job, row->shape, row->setting, row->slots);
}

static void fail(const struct row *row, const char *what)
{
    printf("%s: %s\n", row->name, what);
    exit(1);
}

/* The first calls of fast and of another on the row's job: the same answers, and the same bytes in every buffer. */
static void agree_with(const struct row *row, const struct calls *other, struct job *of_fast)
{
    static struct job of_other;
    row_prepare(row, of_fast);
    memcpy(&of_other, of_fast, sizeof of_other);
    for (int i = 0; i < 3; i++) {
        row->repeat(&fast, of_fast, 1);
        row->repeat(other, &of_other, 1);
        if (memcmp(of_fast, &of_other, sizeof of_other) != 0) fail(row, "fast disagrees with the library or the model");
    }
}

/* Whether a run left no core idle. */
static int is_all_given(const struct job *job)
{
    for (size_t k = 0; k < job->room; k++) {
        if (job->out[k] == METTULOS_IDLE) return 0;
    }
    return 1;
}

/* Nothing is refused, but a decision that fails with no room. Where all hosts are passed in vain, the leaves beside them have every slot. */
void row_agree(const struct row *row)
{
    static struct job job;
    agree_with(row, &model, &job);
    agree_with(row, &library, &job);
    int has_no_room = row->repeat == repeat_decide && row->room == 0;
    if ((job.answered == 0) == has_no_room) fail(row, "refused, or not, against what the row says");
    if (row->repeat == repeat_decide && memcmp(job.answer, row->answer, sizeof row->answer) != 0) fail(row, "not the decision that the row says");
    if (row->shape.special == IN_VAIN && !is_all_given(&job)) fail(row, "a slot does not come back from the hosts in vain");
}
