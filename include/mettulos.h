/* Mettulos from C: partition plans read and checked, types decided on, slots given out, slot times. Each function is proved in Rattle to answer as is said
 * here, for every input; crates/exports/specs states it.
 *
 * The library is target/staticlib/libexports.a, which tools/c/library builds. It is for x86-64 alone (ELF, the calling convention of Linux; a processor of
 * x86-64-v2, which has SSE4.2) and asks for nothing but memcpy and memset beside it.
 *
 * What the words mean. A type is C slots in T, with T from 1 to 4,096 and C from 0 to T. Aligned: every window of T slots that starts at a multiple of T
 * holds at least C. Sliding: every window of T slots does. A giving type stands in for a wanted one when whatever honours the giver honours the wanted.
 * A plan has up to eight supplies, which are the cores and are of aligned types, and up to 64 nodes, each under a supply or under an earlier node that is a
 * virtual host; the other nodes are leaves, the partitions. Each node has the type that it wants (aligned for an aligned leaf and for a host, sliding for a
 * sliding leaf) and the type that it is served, which is aligned. A supply with C = T and a host that wants such a type are whole: they give all slots. A slot
 * lasts P/Q microseconds; slots and times count from 0.
 *
 * Misses. Plans have editions, 1 and 2. In edition 2 each node has D and W beside its wanted type, with W from 1 to 1,024 and D from 0 to W; in edition 1 they
 * are 0 and 1. A leaf with D above 0 is soft: of each W of its wanted windows in a row, a stretch, which starts at a multiple of W times its wanted T, at most D
 * may have less than its wanted C. It is an aligned leaf, and one of its served T and its wanted T divides the other. Of a soft leaf nothing is said about one
 * window by itself, nor about W windows in a row that are no stretch. A leaf with D = 0 is hard, whatever W is: each of its windows has its wanted C. Hosts have
 * D = 0. A served type stands in for what a soft leaf wants when no stretch can have more than D windows short: (7,12) for (3,4) with D 2 and W 3, but not with
 * D 1.
 *
 * What every function needs of its caller: a pointer and the length after it belong together (so many readable elements, and writable ones where the
 * pointer is not const, aligned as C has them), and no buffer that is written overlaps another argument. Nothing is kept after the call.
 *
 * NULL with length 0 is an empty buffer (tried for every pointer, not proved). It is of use for the bytes of a read and of a name, the out of a decision (a
 * pair that holds writes nothing), and the supplies, declines and out of a run (of no slots). A plan, a state, an answer or grants of length 0 are refused by
 * 17 like those of any other wrong length, NULL or not.
 *
 * What every function answers: 0 when it did what was asked, and otherwise a refusal, its number in the low half and its place in the high half
 * (METTULOS_NOWHERE where the refusal has none). A plan, a state, an answer or grants whose length is not the one named below is refused by 17 before
 * anything else, and then nothing is written. Any other refusal writes nothing either, but for the values of zeros that a refused read and a refused fresh
 * start give and the answers of 255 of a refused step.
 *
 * Threads: the functions share nothing and keep nothing, neither memory nor locks, so any number of threads may call them at once, each with buffers of its
 * own; what is only read (bytes, a plan value, supplies, declines) may be the same for all.
 *
 * Stack, in bytes, as measured on plans of 64 nodes in eight levels and rounded up, not proved: a step takes 8,500, a run 7,400, a read 9,200, a name 8,100, a
 * fresh start 6,200, a decision 330 (docs/PERFORMANCE.md says how it is measured); a slot time takes too little to show. No function takes memory in any other
 * way.
 *
 * What a call costs: every name reads and checks the whole plan anew, as a read does, so keep what it answers. Every fresh start, step and run checks the whole
 * plan value anew. For all but the smallest plans that is most of a step, and a run does it once for all its slots: give out many slots by one run where
 * their supplies and declines are known. With the setting on, each slot looks at all nodes once more. A decision that holds takes no search; one that fails
 * tries starts one by one, at most 4,096 of them. */
#ifndef METTULOS_H
#define METTULOS_H

#include <stddef.h>
#include <stdint.h>

#ifdef __cplusplus
extern "C" {
#endif

/* The numbers of refusals. The place of a refused read is a byte for 1 to 10 and 19, counted from 0 (of a field of several bytes the first), and a node for 11 to
 * 14 and 20. The place of a refused decision is 0 for the giver and 1 for the wanted type. 15, 16 and 17 have no place, and neither has 5 of a setting. */
#define METTULOS_DONE 0 /* no refusal */
#define METTULOS_CUT_OFF 1 /* the bytes end before a field does; each byte of a name is a field */
#define METTULOS_BAD_COUNT 2 /* a count is out of its range: 1 tick or 2, 1 to 8 supplies, 1 to 64 nodes, as many names as nodes */
#define METTULOS_BAD_TICK 3 /* P or Q is not 1 to 1,000,000; or a spare byte of edition 2 is not 0, and the place is that byte */
#define METTULOS_BAD_TYPE 4 /* T is not 1 to 4,096, or C is over T; the place in a file is that of C */
#define METTULOS_BAD_KIND 5 /* a kind or a setting that is none of those below */
#define METTULOS_BAD_PARENT 6 /* a parent is neither a supply of the plan nor an earlier host */
#define METTULOS_TOO_DEEP 7 /* a node would be at depth 9; the place is its parent byte */
#define METTULOS_BAD_NAME 8 /* a name's length is not 1 to 32, or one of its bytes is not 33 to 126 */
#define METTULOS_SAME_NAME 9 /* an earlier node has the name; the place is the length byte of the later one */
#define METTULOS_LEFT_OVER 10 /* bytes follow the last name */
#define METTULOS_NO_STAND_IN 11 /* the type that a node is served does not stand in for what it wants, with the misses that a soft leaf allows */
#define METTULOS_NO_MULTIPLE 12 /* a node's served T is no multiple of that of its parent (the supply's, or the T that the host wants), which is not whole */
#define METTULOS_AT_ODDS 13 /* of a node's served T and that of an earlier node with the same parent, neither divides the other */
#define METTULOS_OVERFULL 14 /* up to and with this node, those with its parent are served more than it has, over the longest served T among all of them */
#define METTULOS_BEYOND 15 /* a slot, a time or an answer is over METTULOS_LAST_SLOT */
#define METTULOS_UNFIT 16 /* a plan value, a state or a tick that no call takes */
#define METTULOS_BAD_LENGTH 17 /* a buffer is not as long as it has to be, or a run's inputs are not equally long */
#define METTULOS_BAD_MISSES 19 /* W is not 1 to 1,024, or D is over W, or a host has D above 0; the place in a file is that of D */
#define METTULOS_BAD_SOFT 20 /* a soft leaf is sliding, or of its served T and its wanted T neither divides the other */

/* The place of a refusal that has none. */
#define METTULOS_NOWHERE 0xFFFFFFFFu

/* Kinds of types, for a decision. */
#define METTULOS_ALIGNED 0
#define METTULOS_SLIDING 1

/* Kinds of nodes. */
#define METTULOS_ALIGNED_LEAF 0
#define METTULOS_SLIDING_LEAF 1
#define METTULOS_HOST 2

/* Settings, for a step and a run. Both begin at the supply and look at a parent's children in the order of choice: those with slots left, the smaller served T
 * first, then the lower number, leaves that decline passed over. Who is charged has one slot less left.
 * Off: the first is taken and charged, and where it is a host the same is done among its children. Where there is nobody to take, the slot is idle, and the
 * hosts above stay charged.
 * On: a host under which nobody takes the slot is passed over too, at every level, and the choice goes to its next sibling. Charged are the leaf that takes
 * the slot and the hosts above it, and nobody else. The slot is idle exactly where no leaf under the supply can take it: each of them declines, has nothing
 * left, or stands under a host that has nothing left.
 * The setting is no part of a plan or a state: each call may have another one, and what a leaf is guaranteed (docs/MANUAL.md) it gets with any of them. */
#define METTULOS_OFF 0
#define METTULOS_ON 1

/* What is granted to a supply in a slot where it is not a leaf, which is below 64. */
#define METTULOS_IDLE 254 /* supplied, and nobody took it */
#define METTULOS_NOT_SUPPLIED 255

/* The most that there can be. */
#define METTULOS_MOST_SUPPLIES 8
#define METTULOS_MOST_NODES 64
#define METTULOS_MOST_DEPTH 8
#define METTULOS_LONGEST_NAME 32
#define METTULOS_LONGEST_PLAN 3060 /* bytes; of a longer file any 3,061 or more from the front are refused as the whole file is */
#define METTULOS_LONGEST_STRETCH 12282 /* bytes: an out of this length has room for the allocation of every pair that fails */
#define METTULOS_LAST_SLOT 0x10000000000u /* 2^40: no slot, no time and no clock is over it; so the last slot that is given out is the one before */

/* A plan value as 533 numbers: the edition, P, Q, the number of supplies, C and T of eight supplies, the number of nodes, and eight numbers for each of 64 nodes:
 * kind (0 aligned leaf, 1 sliding leaf, 2 virtual host), parent (as the parent byte of a plan file: below 128 a supply, 128 and up node number - 128), wanted C
 * and T, D and W, served C and T. Entries past the last supply and the last node are zeros after a read, and otherwise ignored. But numbers beyond their field
 * (a kind over 2, a parent over 255, a C, T, D or W over 65,535), in unused entries too, make the value unfit: 16. */
#define METTULOS_PLAN 533
#define METTULOS_PLAN_EDITION 0
#define METTULOS_PLAN_P 1
#define METTULOS_PLAN_Q 2
#define METTULOS_PLAN_SUPPLIES 3
#define METTULOS_PLAN_SUPPLY(i) (4 + 2 * (i)) /* where supply i begins */
#define METTULOS_PLAN_NODES 20
#define METTULOS_PLAN_NODE(i) (21 + 8 * (i)) /* where node i begins */

/* The two numbers of a supply, counted from where it begins. */
#define METTULOS_SUPPLY_C 0
#define METTULOS_SUPPLY_T 1

/* The eight numbers of a node, counted from where it begins. */
#define METTULOS_NODE_KIND 0
#define METTULOS_NODE_PARENT 1
#define METTULOS_NODE_WANTED_C 2
#define METTULOS_NODE_WANTED_T 3
#define METTULOS_NODE_D 4 /* how many of W wanted windows may be short; above 0 for a soft leaf alone */
#define METTULOS_NODE_W 5
#define METTULOS_NODE_SERVED_C 6
#define METTULOS_NODE_SERVED_T 7

/* The parent that is node 0; smaller ones are supplies. */
#define METTULOS_PARENT_NODE 128

/* A state as 65 numbers: the clock, which is the number of the next slot, and for each of 64 nodes the slots that it has left in its current served period. A
 * count past the last node is 0 in a fresh state, and otherwise ignored and handed back. A clock over METTULOS_LAST_SLOT or a count over the node's served C
 * makes the state unfit, and so does a count over 65,535, in unused entries too: 16. */
#define METTULOS_STATE 65
#define METTULOS_STATE_CLOCK 0
#define METTULOS_STATE_LEFT(i) (1 + (i)) /* where the slots left of node i stand */

/* The lengths of answers, and what stands where in them. */
#define METTULOS_DECISION 4
#define METTULOS_DECISION_HOLDS 0 /* 1 it holds, 0 it fails */
#define METTULOS_DECISION_LEAST 1 /* where it holds */
#define METTULOS_DECISION_START 1 /* where it fails, and so the next two */
#define METTULOS_DECISION_ONES 2
#define METTULOS_DECISION_STRETCH 3
#define METTULOS_NAME 2
#define METTULOS_NAME_FIRST 0
#define METTULOS_NAME_LENGTH 1
#define METTULOS_TIME 1
#define METTULOS_GRANTS 8

/* Whether a giving type stands in for a wanted one. Kinds: 0 aligned, 1 sliding; another is refused by 5, with place 0 for the giver's and 1 for the wanted
 * type's, before the types are looked at. answer has 4 numbers. It holds: 1, the least ones of any wanted window, 0, 0. It fails: 0, the window's start, the
 * ones there, the length of the stretch, whose allocation is at the front of out as bytes 0 and 1. The start is the least at which a wanted window can have too
 * few, and the ones are the fewest that it can have there. The stretch begins at the multiple of the giver's T at or below the start, so that byte i of out is
 * slot start - start % T + i, and ends with the giver's period in which the window ends; every slot outside it counts as 1. Bytes of out beyond the stretch
 * stay. Refused by 5, by 4 (place 0 or 1), and by 17 where it fails and the stretch exceeds out. */
uint64_t mettulos_decide(uint8_t gives, uint16_t giver_c, uint16_t giver_t, uint8_t wants, uint16_t wanted_c, uint16_t wanted_t,
                         uint8_t *out, size_t out_len, uint32_t *answer, size_t answer_len);

/* Reads a plan of any bytes. plan has METTULOS_PLAN numbers: the value, or zeros where the bytes are refused (1 to 14, 19 and 20, with the place).
 *
 * The bytes of a plan, numbers with the low byte first: the edition, a byte 1 or 2 (it counts the records of the tick), P and Q of four bytes each, and in
 * edition 2 eight spare bytes, which are 0; the number of supplies, 1 to 8, and for each C and T of two bytes each; the number of nodes, 1 to 64, and for each
 * a byte for the kind, a byte for the parent, wanted C and T, in edition 2 D and W, served C and T of two bytes each; the number of nodes again, and for each
 * its name, a byte for the length and so many bytes. They are tested from the front, each spare byte by itself, a type and D and W when both numbers are there;
 * then 20 and 11 node by node, 20 first; then 12, 13 and 14 for each supply and after them for each host. */
uint64_t mettulos_read(const uint8_t *bytes, size_t len, uint32_t *plan, size_t plan_len);

/* Where the name of node i stands in the bytes of a plan. answer has 2 numbers: its first byte and its length; 0 and 0 for a refused plan or a node not
 * there, which are answered by 0 like any other. */
uint64_t mettulos_name(const uint8_t *bytes, size_t len, size_t i, uint64_t *answer, size_t answer_len);

/* A fresh state of a plan value. state has METTULOS_STATE numbers; zeros where the plan value is refused (16): one that breaks any of 2 to 7, 11 to 14, 19 or 20,
 * whose edition is neither 1 nor 2, that is of edition 1 and has a node whose D is not 0 or whose W is not 1, or that has a number beyond its field. */
uint64_t mettulos_fresh(const uint32_t *plan, size_t plan_len, uint64_t *state, size_t state_len);

/* One slot: the state goes on by it, and grants has 8 answers: the leaf, 254 idle, 255 not supplied or no such supply. Setting: 0 off, 1 on. Bit i of
 * supplied set (1 << i) means that supply i has this slot to give; bit i of declines set means that node i, a leaf, does not want it. Bits that name no supply
 * or no leaf are ignored. Refused by 5 (another setting, with no place, before the plan value and the state are looked at), 16 and 15, in this order. */
uint64_t mettulos_step(uint8_t setting, const uint32_t *plan, size_t plan_len, uint64_t *state, size_t state_len, uint8_t supplied, uint64_t declines,
                       uint8_t *grants, size_t grants_len);

/* As many slots as there are supply bytes, all of one setting: the state goes on by them, and the answers stand at the front of out, slot by slot, one for
 * each supply of the plan: that of supply s in the run's slot k is out[k * plan[METTULOS_PLAN_SUPPLIES] + s]. Supply bytes and decline words are those of a
 * step, one for each slot. What out has beyond the answers stays. Refused by 5 (as a step), 16, 17 (unequal inputs, too little room) and 15 (the clock would
 * pass METTULOS_LAST_SLOT), in this order. */
uint64_t mettulos_run(uint8_t setting, const uint32_t *plan, size_t plan_len, uint64_t *state, size_t state_len, const uint8_t *supplies,
                      size_t supplies_len, const uint64_t *declines, size_t declines_len, uint8_t *out, size_t out_len);

/* Slot times at P/Q microseconds a slot; answer has 1 number: the start of slot n in microseconds, the minute in which it begins, the slot of time t. Starts
 * are rounded down, from the exact fraction: n * P / Q; the slot of a time is the last that begins at or before it. Refused by 16 (P or Q is not 1 to
 * 1,000,000) and 15 (what is given or the start or slot that comes out is over METTULOS_LAST_SLOT). */
uint64_t mettulos_start(uint32_t p, uint32_t q, uint64_t n, uint64_t *answer, size_t answer_len);
uint64_t mettulos_minute(uint32_t p, uint32_t q, uint64_t n, uint64_t *answer, size_t answer_len);
uint64_t mettulos_slot(uint32_t p, uint32_t q, uint64_t t, uint64_t *answer, size_t answer_len);

/* What follows is no part of the library, and nothing of it is proved: a few lines that every caller would write. */
#if defined(__cplusplus) || (defined(__STDC_VERSION__) && __STDC_VERSION__ >= 199901L)
#define METTULOS_INLINE static inline
#else
#define METTULOS_INLINE static __inline__
#endif

/* The number and the place of a refusal. */
METTULOS_INLINE uint32_t mettulos_number(uint64_t refusal)
{
    return refusal & 0xFFFFFFFFu;
}

METTULOS_INLINE uint32_t mettulos_place(uint64_t refusal)
{
    return mettulos_number(refusal >> 32);
}

#define METTULOS_NUMBER(refusal) mettulos_number(refusal)
#define METTULOS_PLACE(refusal) mettulos_place(refusal)

/* What a refusal's number says, in words. */
METTULOS_INLINE const char *mettulos_words(uint32_t number)
{
    switch (number) {
    case METTULOS_DONE: return "done";
    case METTULOS_CUT_OFF: return "the bytes end inside a field";
    case METTULOS_BAD_COUNT: return "a count is out of its range";
    case METTULOS_BAD_TICK: return "P or Q is out of its range, or a spare byte is not 0";
    case METTULOS_BAD_TYPE: return "a type is malformed";
    case METTULOS_BAD_KIND: return "a kind or a setting is unknown";
    case METTULOS_BAD_PARENT: return "a parent names nothing allowed";
    case METTULOS_TOO_DEEP: return "a node is too deep";
    case METTULOS_BAD_NAME: return "a name's length or byte is bad";
    case METTULOS_SAME_NAME: return "a name occurs before";
    case METTULOS_LEFT_OVER: return "bytes are left over";
    case METTULOS_NO_STAND_IN: return "the served type does not stand in for what is wanted";
    case METTULOS_NO_MULTIPLE: return "the served period is no multiple of the parent's";
    case METTULOS_AT_ODDS: return "the served period is at odds with an earlier sibling's";
    case METTULOS_OVERFULL: return "more is served than the parent has";
    case METTULOS_BEYOND: return "beyond 2^40";
    case METTULOS_UNFIT: return "a plan value, state or tick is not fit";
    case METTULOS_BAD_LENGTH: return "lengths do not fit";
    case METTULOS_BAD_MISSES: return "D or W is out of its range, or a host's D is not 0";
    case METTULOS_BAD_SOFT: return "a soft leaf is sliding, or neither of its periods divides the other";
    default: return "no refusal's number";
    }
}

/* The two numbers of supply i, which is below 8, and the eight of node i, which is below 64, in a plan value. */
METTULOS_INLINE const uint32_t *mettulos_supply(const uint32_t *plan, size_t i)
{
    return plan + METTULOS_PLAN_SUPPLY(i);
}

METTULOS_INLINE const uint32_t *mettulos_node(const uint32_t *plan, size_t i)
{
    return plan + METTULOS_PLAN_NODE(i);
}

/* The slot of the first byte of a stretch, by the start that a decision answered and the T of its giver. */
METTULOS_INLINE uint32_t mettulos_stretch_from(uint32_t start, uint16_t giver_t)
{
    return start - start % giver_t;
}

#ifdef __cplusplus
}
#endif
#endif
