/* The calls in pairs and the disagreements. */
#include "check.h"
#include "meaning.h"
#include "pages.h"
#include "seen.h"
#include "wasted.h"

#include "../include/mettulos.h"
#include "../model/model.h"

#include <inttypes.h>
#include <stdio.h>
#include <stdlib.h>
#include <string.h>

void check_fail(const char *what)
{
    printf("%s\n", what);
    fflush(stdout);
    exit(1);
}

static void print_bytes(const char *label, const void *bytes, size_t size)
{
    printf("  %s:", label);
    for (size_t i = 0; i < size; i++) printf("%s%02x", i % 32 == 0 ? "\n    " : " ", ((const uint8_t *)bytes)[i]);
    printf("\n");
}

void check_bytes(const char *what, const void *got, const void *expected, size_t size)
{
    if (memcmp(got, expected, size) == 0) return;
    print_bytes("got", got, size);
    print_bytes("expected", expected, size);
    check_fail(what);
}

/* ---- slices in two copies */

enum { GUARD = 16, ROOM = 65536 };

/* Where a slice lies: right before a page that may not be touched, right after one, or nowhere, being empty. */
enum placement { BEFORE_A_PAGE, AFTER_A_PAGE, AT_NULL };

/* The library's copy of a slice, the model's, and what both were before the call: the slice, and GUARD bytes on the side where no page is in the way. */
struct twin {
    const char *name;
    size_t size;
    enum placement placement;
    struct room library, model;
    uint8_t before[ROOM + GUARD];
};

static struct twin first_slice, second_slice, third_slice, fourth_slice, fifth_slice;

/* The first of the slice and its guard, and where the slice is in them. */
static uint8_t *copy_in(const struct twin *twin, struct room room)
{
    return twin->placement == BEFORE_A_PAGE ? room.end - twin->size - GUARD : room.first;
}

static size_t slice_at(const struct twin *twin)
{
    return twin->placement == BEFORE_A_PAGE ? GUARD : 0;
}

static void *slice_in(const struct twin *twin, struct room room)
{
    return twin->placement == AT_NULL ? NULL : copy_in(twin, room) + slice_at(twin);
}

static void *library_slice(struct twin *twin)
{
    return slice_in(twin, twin->library);
}

static void *model_slice(struct twin *twin)
{
    return slice_in(twin, twin->model);
}

static void copy_back(void *to, struct twin *twin)
{
    if (twin->size > 0) memcpy(to, model_slice(twin), twin->size);
}

/* Bytes from 64 to 253, other ones at each call: no slot's answer and no byte of an allocation is one of them. A number may have such a byte by chance, but
 * hardly at the next call too. */
static const uint8_t *pattern(void)
{
    static uint8_t bytes[ROOM + GUARD + 256];
    static size_t from;
    if (bytes[0] == 0) {
        for (size_t i = 0; i < sizeof bytes; i++) bytes[i] = (uint8_t)(64 + i * 37 % 251 % 190);
    }
    from = (from + 1) % 256;
    return bytes + from;
}

/* Three of four slices end right before a page, the others begin right after one; half of the empty ones are NULL. By a chance of its own, so that the inputs
 * do not depend on it. */
static enum placement next_placement(size_t size)
{
    static uint64_t turn;
    turn = turn * 6364136223846793005u + 1442695040888963407u;
    if (size == 0 && turn >> 63 == 1) return AT_NULL;
    return (turn >> 60 & 3) == 0 ? AFTER_A_PAGE : BEFORE_A_PAGE;
}

/* Makes both copies the given bytes, or the pattern alone where none are given. */
static void set_twin(struct twin *twin, const char *name, const void *bytes, size_t size)
{
    if (size > ROOM) check_fail("a slice is longer than there is room for");
    twin->name = name;
    twin->size = size;
    twin->placement = next_placement(size);
    memcpy(twin->before, pattern(), size + GUARD);
    if (bytes && size > 0) memcpy(twin->before + slice_at(twin), bytes, size);
    memcpy(copy_in(twin, twin->library), twin->before, size + GUARD);
    memcpy(copy_in(twin, twin->model), twin->before, size + GUARD);
}

static int guard_stands(const struct twin *twin, struct room room)
{
    size_t guard = twin->placement == BEFORE_A_PAGE ? 0 : twin->size;
    return memcmp(copy_in(twin, room) + guard, twin->before + guard, GUARD) == 0;
}

static int twin_agrees(const struct twin *twin)
{
    return memcmp(copy_in(twin, twin->library), copy_in(twin, twin->model), twin->size + GUARD) == 0 && guard_stands(twin, twin->library) &&
           guard_stands(twin, twin->model);
}

/* Whether the slice is what it was, in both copies where they agree. */
static int stands(const struct twin *twin)
{
    return memcmp(copy_in(twin, twin->model), twin->before, twin->size + GUARD) == 0;
}

/* ---- a pair of calls */

/* What a pair of calls was made with. */
struct made {
    enum call call;
    const char *number_names; /* of the numbers among the arguments, in order */
    uint64_t numbers[6];
    int number_count;
    struct twin *slices[5];
    int slice_count;
};

static void print_difference(const struct twin *twin)
{
    const uint8_t *library = copy_in(twin, twin->library), *model = copy_in(twin, twin->model);
    size_t i = 0, all = twin->size + GUARD;
    while (i < all && library[i] == model[i]) i++;
    long byte = (long)i - (long)slice_at(twin);
    if (i == all) printf("  %s: written before its first byte or after its last by both\n", twin->name);
    else printf("  %s: byte %ld of %zu is %02x in the library's and %02x in the model's\n", twin->name, byte, twin->size, library[i], model[i]);
    print_bytes("the library leaves", library + slice_at(twin), twin->size);
    print_bytes("the model leaves", model + slice_at(twin), twin->size);
}

static void print_answer(const char *whose, uint64_t answer)
{
    if (answer == 0) printf("  %s: not refused\n", whose);
    else if (METTULOS_PLACE(answer) == METTULOS_NOWHERE) printf("  %s: refused by %" PRIu32 ", no place\n", whose, METTULOS_NUMBER(answer));
    else printf("  %s: refused by %" PRIu32 " at %" PRIu32 "\n", whose, METTULOS_NUMBER(answer), METTULOS_PLACE(answer));
}

static void print_input(const struct made *made)
{
    static const char *const placements[] = {"before a page", "after a page", "NULL"};
    printf("DISAGREEMENT in %s, among: %s\n", seen_call_name(made->call), seen_kind_name());
    if (made->number_count > 0) printf("  %s:", made->number_names);
    for (int i = 0; i < made->number_count; i++) printf(" %" PRIu64, made->numbers[i]);
    if (made->number_count > 0) printf("\n");
    for (int i = 0; i < made->slice_count; i++) {
        const struct twin *twin = made->slices[i];
        printf("  %s, %s", twin->name, placements[twin->placement]);
        print_bytes("", twin->before + slice_at(twin), twin->size);
    }
}

static void disagree(const struct made *made, uint64_t library, uint64_t model)
{
    print_input(made);
    print_answer("the library", library);
    print_answer("the model", model);
    for (int i = 0; i < made->slice_count; i++) {
        if (!twin_agrees(made->slices[i])) print_difference(made->slices[i]);
    }
    fflush(stdout);
    exit(1);
}

/* The pair of calls that is being made, and whose is. */
static const struct made *making;
static const char *maker;

static void now_the_library(const struct made *made)
{
    making = made;
    maker = "the library";
}

static void now_the_model(void)
{
    maker = "the model";
}

static void page_was_touched(void)
{
    if (!making) check_fail("a page that may not be touched was touched outside a call");
    print_input(making);
    printf("  %s reads or writes beside a slice\n", maker);
    fflush(stdout);
    _Exit(1);
}

/* Holds the two calls to each other, counts them, and answers what both answered. */
static uint64_t agreed(const struct made *made, uint64_t library, uint64_t model)
{
    int agrees = library == model;
    making = NULL;
    for (int i = 0; i < made->slice_count; i++) agrees = agrees && twin_agrees(made->slices[i]);
    if (!agrees) disagree(made, library, model);
    if (!seen_call(made->call, model)) check_fail("both answer what is no refusal that document 01 has for the call");
    for (int i = 0; i < made->slice_count; i++) {
        if (made->slices[i]->placement == AT_NULL) seen_null(made->call, i, made->slices[i]->name);
    }
    return model;
}

uint64_t check_decide(struct pair pair, size_t out_len, size_t answer_len, uint32_t *answer)
{
    struct twin *out = &first_slice, *numbers = &second_slice;
    struct made made = {DECIDE,
                        "gives, giver C, giver T, wants, wanted C, wanted T",
                        {pair.gives, pair.giver_c, pair.giver_t, pair.wants, pair.wanted_c, pair.wanted_t},
                        6,
                        {out, numbers},
                        2};
    set_twin(out, "out", NULL, out_len);
    set_twin(numbers, "answer", NULL, answer_len * sizeof *answer);
    now_the_library(&made);
    uint64_t library = mettulos_decide(pair.gives, pair.giver_c, pair.giver_t, pair.wants, pair.wanted_c, pair.wanted_t, library_slice(out), out_len,
                                       library_slice(numbers), answer_len);
    now_the_model();
    uint64_t model = model_decide(pair.gives, pair.giver_c, pair.giver_t, pair.wants, pair.wanted_c, pair.wanted_t, model_slice(out), out_len,
                                  model_slice(numbers), answer_len);
    uint64_t both = agreed(&made, library, model);
    if (both == 0) {
        copy_back(answer, numbers);
        if (answer[0] == 0) meaning_of_failure(pair, answer, model_slice(out));
    }
    return both;
}

uint64_t check_read(const uint8_t *bytes, size_t len, uint32_t *plan, size_t plan_len)
{
    struct twin *input = &first_slice, *value = &second_slice;
    struct made made = {READ, "", {0}, 0, {input, value}, 2};
    set_twin(input, "bytes", bytes, len);
    set_twin(value, "plan", NULL, plan_len * sizeof *plan);
    now_the_library(&made);
    uint64_t library = mettulos_read(library_slice(input), len, library_slice(value), plan_len);
    now_the_model();
    uint64_t model = model_read(model_slice(input), len, model_slice(value), plan_len);
    agreed(&made, library, model);
    if (plan_len == METTULOS_PLAN) copy_back(plan, value);
    if (model == 0) seen_plan(plan);
    return model;
}

uint64_t check_name(const uint8_t *bytes, size_t len, size_t i, size_t answer_len)
{
    struct twin *input = &first_slice, *answer = &second_slice;
    struct made made = {NAME, "node", {i}, 1, {input, answer}, 2};
    set_twin(input, "bytes", bytes, len);
    set_twin(answer, "answer", NULL, answer_len * sizeof(uint64_t));
    now_the_library(&made);
    uint64_t library = mettulos_name(library_slice(input), len, i, library_slice(answer), answer_len);
    now_the_model();
    uint64_t model = model_name(model_slice(input), len, i, model_slice(answer), answer_len);
    return agreed(&made, library, model);
}

uint64_t check_fresh(const uint32_t *plan, size_t plan_len, uint64_t *state, size_t state_len)
{
    struct twin *value = &first_slice, *numbers = &second_slice;
    struct made made = {FRESH, "", {0}, 0, {value, numbers}, 2};
    set_twin(value, "plan", plan, plan_len * sizeof *plan);
    set_twin(numbers, "state", NULL, state_len * sizeof *state);
    now_the_library(&made);
    uint64_t library = mettulos_fresh(library_slice(value), plan_len, library_slice(numbers), state_len);
    now_the_model();
    uint64_t model = model_fresh(model_slice(value), plan_len, model_slice(numbers), state_len);
    agreed(&made, library, model);
    copy_back(state, numbers);
    if (model == 0) seen_plan(plan);
    return model;
}

/* What a refused step or run leaves, where both agree. */
static void hold_refused(const struct made *made, const struct twin *answers, int all_not_supplied)
{
    for (int i = 0; i < made->slice_count; i++) {
        if (made->slices[i] != answers && !stands(made->slices[i])) check_fail("both write to a slice in a refusal");
    }
    if (!all_not_supplied && !stands(answers)) check_fail("both write answers in a refusal");
    const uint8_t *bytes = slice_in(answers, answers->model);
    for (size_t i = 0; all_not_supplied && i < answers->size; i++) {
        if (bytes[i] != METTULOS_NOT_SUPPLIED) check_fail("an answer of a refused step is not 255");
    }
}

uint64_t check_step(uint8_t setting, const uint32_t *plan, size_t plan_len, uint64_t *state, size_t state_len, uint8_t supplied, uint64_t declines,
                    uint8_t *grants, size_t grants_len)
{
    struct twin *value = &first_slice, *numbers = &second_slice, *answers = &third_slice;
    struct made made = {STEP, "setting, supplied, declines", {setting, supplied, declines}, 3, {value, numbers, answers}, 3};
    set_twin(value, "plan", plan, plan_len * sizeof *plan);
    set_twin(numbers, "state", state, state_len * sizeof *state);
    set_twin(answers, "grants", NULL, grants_len);
    now_the_library(&made);
    uint64_t library =
        mettulos_step(setting, library_slice(value), plan_len, library_slice(numbers), state_len, supplied, declines, library_slice(answers), grants_len);
    now_the_model();
    uint64_t model = model_step(setting, model_slice(value), plan_len, model_slice(numbers), state_len, supplied, declines, model_slice(answers), grants_len);
    agreed(&made, library, model);
    if (model == 0) seen_step(setting, plan, state, model_slice(numbers), model_slice(answers));
    if (model == 0 && setting == METTULOS_ON)
        nothing_wasted(&(struct gone){plan, 1, &supplied, &declines, model_slice(answers), state, model_slice(numbers)});
    if (model != 0) hold_refused(&made, answers, METTULOS_NUMBER(model) != METTULOS_BAD_LENGTH);
    copy_back(state, numbers);
    copy_back(grants, answers);
    return model;
}

uint64_t check_run(uint8_t setting, const uint32_t *plan, size_t plan_len, uint64_t *state, size_t state_len, const uint8_t *supplies, size_t supplies_len,
                   const uint64_t *declines, size_t declines_len, uint8_t *out, size_t out_len)
{
    struct twin *value = &first_slice, *numbers = &second_slice, *answers = &third_slice, *supplied = &fourth_slice, *declined = &fifth_slice;
    struct made made = {RUN, "setting", {setting}, 1, {value, numbers, supplied, declined, answers}, 5};
    set_twin(value, "plan", plan, plan_len * sizeof *plan);
    set_twin(numbers, "state", state, state_len * sizeof *state);
    set_twin(supplied, "supplies", supplies, supplies_len);
    set_twin(declined, "declines", declines, declines_len * sizeof *declines);
    set_twin(answers, "out", NULL, out_len);
    now_the_library(&made);
    uint64_t library = mettulos_run(setting, library_slice(value), plan_len, library_slice(numbers), state_len, library_slice(supplied), supplies_len,
                                    library_slice(declined), declines_len, library_slice(answers), out_len);
    now_the_model();
    uint64_t model = model_run(setting, model_slice(value), plan_len, model_slice(numbers), state_len, model_slice(supplied), supplies_len,
                               model_slice(declined), declines_len, model_slice(answers), out_len);
    agreed(&made, library, model);
    if (model == 0) seen_run(setting, plan, state, supplies_len, model_slice(answers));
    if (model == 0 && setting == METTULOS_ON)
        nothing_wasted(&(struct gone){plan, supplies_len, supplies, declines, model_slice(answers), state, model_slice(numbers)});
    if (model != 0) hold_refused(&made, answers, 0);
    copy_back(state, numbers);
    copy_back(out, answers);
    return model;
}

typedef uint64_t time_call(uint32_t p, uint32_t q, uint64_t number, uint64_t *answer, size_t answer_len);

void check_times(uint32_t p, uint32_t q, uint64_t number, size_t answer_len)
{
    static time_call *const of_library[] = {mettulos_start, mettulos_minute, mettulos_slot};
    static time_call *const of_model[] = {model_start, model_minute, model_slot};
    for (int i = 0; i < 3; i++) {
        struct twin *answer = &first_slice;
        struct made made = {START + i, "P, Q, number", {p, q, number}, 3, {answer}, 1};
        set_twin(answer, "answer", NULL, answer_len * sizeof(uint64_t));
        now_the_library(&made);
        uint64_t library = of_library[i](p, q, number, library_slice(answer), answer_len);
        now_the_model();
        uint64_t model = of_model[i](p, q, number, model_slice(answer), answer_len);
        agreed(&made, library, model);
    }
}

void check_start(void)
{
    struct twin *const twins[] = {&first_slice, &second_slice, &third_slice, &fourth_slice, &fifth_slice};
    for (size_t i = 0; i < sizeof twins / sizeof *twins; i++) {
        twins[i]->library = pages_room(ROOM + GUARD);
        twins[i]->model = pages_room(ROOM + GUARD);
    }
    pages_watch(page_was_touched);
}
