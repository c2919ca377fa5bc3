/* Times the calls of the proved library and of fast beside each other, in one process and on the same jobs, and prints two tables in Markdown: times as ratios,
 * and stack. The model is timed too, for scale. Before anything is timed all are given each job, and what they answer and leave in it must be the same. */
#include "bench.h"

#include <stdio.h>
#include <stdlib.h>
#include <time.h>

enum { ROUNDS = 7 };

/* A sample takes at least so many seconds. */
static const double sample = 0.025;

/* ---- times */

static double seconds_of(const struct row *row, const struct calls *calls, uint64_t times)
{
    static struct job job;
    row_prepare(row, &job);
    clock_t began = clock();
    row->repeat(calls, &job, times);
    return (double)(clock() - began) / CLOCKS_PER_SEC;
}

/* How often a call must be made for a sample. */
static uint64_t enough(const struct row *row, const struct calls *calls)
{
    uint64_t times = 1;
    while (seconds_of(row, calls, times) < sample) times *= 2;
    return times;
}

static int by_size(const void *one, const void *other)
{
    double a = *(const double *)one, b = *(const double *)other;
    return (a > b) - (a < b);
}

/* The time of one call, or of one slot of a run, in nanoseconds. */
static double once(const struct row *row, const struct calls *calls, uint64_t times)
{
    return seconds_of(row, calls, times) * 1e9 / (double)times / (double)(row->slots > 0 ? row->slots : 1);
}

static void time_row(const struct row *row)
{
    double of_fast[ROUNDS], of_library[ROUNDS], of_model[ROUNDS];
    uint64_t fast_times = enough(row, &fast), library_times = enough(row, &library), model_times = enough(row, &model);
    for (int round = 0; round < ROUNDS; round++) {
        of_fast[round] = once(row, &fast, fast_times);
        of_library[round] = once(row, &library, library_times) / of_fast[round];
        of_model[round] = once(row, &model, model_times) / of_fast[round];
    }
    qsort(of_fast, ROUNDS, sizeof *of_fast, by_size);
    qsort(of_library, ROUNDS, sizeof *of_library, by_size);
    qsort(of_model, ROUNDS, sizeof *of_model, by_size);
    printf("| %s | %.0f | %.1f | %.1f to %.1f | %.1f |\n", row->name, of_fast[ROUNDS / 2], of_library[ROUNDS / 2], of_library[0], of_library[ROUNDS - 1],
           of_model[ROUNDS / 2]);
    fflush(stdout);
}

/* ---- stack */

static void stack_row(const char *name, repeat *one, uint8_t setting, struct shape shape)
{
    static struct job job;
    job_of_plan(&job, shape, setting, MOST_SLOTS);
    printf("| %s | %zu | %zu |\n", name, stack_of(one, &library, &job), stack_of(one, &fast, &job));
}

int main(void)
{
    static const struct shape small = {1, 1, 1, PLAIN}, deep = {64, 8, 8, PLAIN}, hosts = {64, 8, 8, HOSTS_ALONE}, wide = {64, 8, 1, PLAIN};
    static const struct shape in_vain = {64, 8, 8, IN_VAIN};
    for (size_t i = 0; i < row_count; i++) row_agree(&rows[i]);
    printf("| Call | fast, ns | library, times that | least to largest | model, times that |\n|---|---:|---:|---:|---:|\n");
    for (size_t i = 0; i < row_count; i++) time_row(&rows[i]);
    printf("\n| Call | library, bytes of stack | fast, bytes of stack |\n|---|---:|---:|\n");
    stack_row("step, 1 node, 1 core", repeat_step, METTULOS_OFF, small);
    stack_row("step, 64 nodes, 8 cores, depth 8", repeat_step, METTULOS_OFF, deep);
    stack_row("step, 64 nodes, 8 cores, depth 8, all hosts", repeat_step, METTULOS_OFF, hosts);
    stack_row("step, 64 nodes, 8 cores, depth 8, on", repeat_step, METTULOS_ON, deep);
    stack_row("step, 64 nodes, 8 cores, depth 8, all hosts, on", repeat_step, METTULOS_ON, hosts);
    stack_row("step, 64 nodes, 8 cores, depth 8, on, all hosts in vain", repeat_step, METTULOS_ON, in_vain);
    stack_row("run, 1 node, 1 core", repeat_run, METTULOS_OFF, small);
    stack_row("run, 64 nodes, 8 cores, depth 8", repeat_run, METTULOS_OFF, deep);
    stack_row("run, 64 nodes, 8 cores, depth 8, all hosts", repeat_run, METTULOS_OFF, hosts);
    stack_row("run, 64 nodes, 8 cores, depth 8, on", repeat_run, METTULOS_ON, deep);
    stack_row("run, 64 nodes, 8 cores, depth 8, all hosts, on", repeat_run, METTULOS_ON, hosts);
    stack_row("run, 64 nodes, 8 cores, depth 8, on, all hosts in vain", repeat_run, METTULOS_ON, in_vain);
    stack_row("fresh, 64 nodes", repeat_fresh, METTULOS_OFF, wide);
    stack_row("read, 64 nodes", repeat_read, METTULOS_OFF, wide);
    return 0;
}
