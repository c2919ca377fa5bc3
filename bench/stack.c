/* How much stack a call needs: it is made on a stack of its own that has been painted, and the lowest byte that has lost its paint tells. */
#define _XOPEN_SOURCE 700

#include "bench.h"

#include <stdio.h>
#include <stdlib.h>
#include <string.h>
#include <ucontext.h>

enum { STACK = 1 << 20 };

static uint8_t stack[STACK];
static ucontext_t here, there;

/* What is to be called there, and where the frame of the function that does it begins. */
static repeat *wanted_one;
static const struct calls *wanted_calls;
static struct job wanted_job;
static const uint8_t *frame;

static void call_there(void)
{
    frame = __builtin_frame_address(0);
    wanted_one(wanted_calls, &wanted_job, 1);
}

static size_t touched_with(uint8_t paint)
{
    memset(stack, paint, STACK);
    if (getcontext(&there) != 0) abort();
    there.uc_stack.ss_sp = stack;
    there.uc_stack.ss_size = STACK;
    there.uc_link = &here;
    makecontext(&there, call_there, 0);
    if (swapcontext(&here, &there) != 0) abort();
    const uint8_t *lowest = stack;
    while (*lowest == paint) lowest++;
    if (lowest == stack) {
        printf("a call needs more stack than the bench has for it\n");
        exit(1);
    }
    return (size_t)(frame - lowest);
}

/* Twice, with different paint, since a call may write what looks like paint. */
size_t stack_of(repeat *one, const struct calls *calls, const struct job *job)
{
    size_t most = 0;
    for (int paint = 0x55; paint <= 0xAA; paint += 0x55) {
        wanted_one = one;
        wanted_calls = calls;
        wanted_job = *job;
        size_t touched = touched_with((uint8_t)paint);
        if (touched > most) most = touched;
    }
    return most;
}
