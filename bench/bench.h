/* What the bench measures: the calls of the proved library, of fast and of the model, and the jobs that they are given. */
#ifndef BENCH_H
#define BENCH_H

#include "../compare/generate.h"
#include "../include/mettulos.h"

/* The calls of one of them. */
struct calls {
    uint64_t (*decide)(uint8_t, uint16_t, uint16_t, uint8_t, uint16_t, uint16_t, uint8_t *, size_t, uint32_t *, size_t);
    uint64_t (*read)(const uint8_t *, size_t, uint32_t *, size_t);
    uint64_t (*fresh)(const uint32_t *, size_t, uint64_t *, size_t);
    uint64_t (*step)(uint8_t, const uint32_t *, size_t, uint64_t *, size_t, uint8_t, uint64_t, uint8_t *, size_t);
    uint64_t (*run)(uint8_t, const uint32_t *, size_t, uint64_t *, size_t, const uint8_t *, size_t, const uint64_t *, size_t, uint8_t *, size_t);
};

extern const struct calls library, fast, model;

struct pair {
    uint8_t gives;
    uint16_t giver_c, giver_t;
    uint8_t wants;
    uint16_t wanted_c, wanted_t;
};

/* What a plan has beside its shape: names as long as can be and alike but for their last byte; hosts in the leaves' places; a leaf beside the hosts of each
 * core, all of whose leaves decline in every slot, so that with the setting on every slot comes back from them to that leaf; edition 2, and all leaves soft. */
enum special { PLAIN, NAMES_ALIKE, HOSTS_ALONE, IN_VAIN, ALL_SOFT };

/* A plan with so many nodes, spread over so many cores, each leaf at this depth. */
struct shape {
    uint8_t nodes, cores, depth;
    enum special special;
};

enum { MOST_SLOTS = 1000, MOST_OUT = 12282 };

/* What a call works on, and what it leaves there. */
struct job {
    struct pair pair;
    uint8_t bytes[MOST_BYTES];
    size_t len;
    uint32_t plan[METTULOS_PLAN];
    uint64_t state[METTULOS_STATE];
    uint8_t setting;
    uint8_t supplies[MOST_SLOTS];
    uint64_t declines[MOST_SLOTS];
    size_t slots;     /* of a run */
    size_t next_slot; /* of a step: which supply byte and decline word it takes */
    uint8_t out[MOST_OUT], grants[8];
    size_t room;
    uint32_t answer[4];
    uint64_t answered; /* the sum of what the calls answered */
};

/* jobs.c: a job on a pair, and one on a plan, which must be one that the model takes. */
void job_of_pair(struct job *job, struct pair pair, size_t room);
void job_of_plan(struct job *job, struct shape shape, uint8_t setting, size_t slots);

/* jobs.c: one call, so many times over. Steps and runs go on from the state that the one before left. */
typedef void repeat(const struct calls *calls, struct job *job, uint64_t times);
repeat repeat_decide, repeat_read, repeat_fresh, repeat_step, repeat_run;

/* A row of the tables. */
struct row {
    const char *name;
    repeat *repeat;
    struct pair pair;   /* of a decision, */
    size_t room;        /* with so many bytes for an allocation, */
    uint32_t answer[2]; /* whose first numbers are to be these */
    struct shape shape; /* of the plan of any other call */
    uint8_t setting;    /* of a step and a run */
    size_t slots;       /* of a run */
};

/* rows.c: all rows; the job of one; and the first calls on it, which end the program where they do not agree. */
extern const struct row rows[];
extern const size_t row_count;
void row_prepare(const struct row *row, struct job *job);
void row_agree(const struct row *row);

/* stack.c: the bytes of stack that one call touches, counted from the frame of the function that is asked to make it. */
size_t stack_of(repeat *one, const struct calls *calls, const struct job *job);

#endif
