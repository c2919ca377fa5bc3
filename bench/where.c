/* Says where the library's time goes, row by row: the bytes that memcpy copies in a call, or in a slot of a run, and for which functions; the share of the time
 * that this takes; and the functions that take most of the rest. The library is linked so that it calls __wrap_memcpy below. The time is sampled: the signal of
 * a timer finds the program in some function. */
#define _GNU_SOURCE

#include "bench.h"

#include <elf.h>
#include <signal.h>
#include <stdio.h>
#include <stdlib.h>
#include <string.h>
#include <sys/time.h>
#include <time.h>
#include <ucontext.h>

static void give_up(const char *what)
{
    printf("%s\n", what);
    exit(1);
}

/* ---- the functions of this program, from its own file */

enum { MOST_FILE = 1 << 23 };

static uint8_t file[MOST_FILE];
static const Elf64_Sym *symbols;
static size_t symbol_count;
static const char *names;

static void load_symbols(const char *path)
{
    FILE *from = fopen(path, "rb");
    if (from == NULL || fread(file, 1, MOST_FILE, from) == MOST_FILE || fclose(from) != 0) give_up("the program cannot read its own file");
    const Elf64_Ehdr *head = (const Elf64_Ehdr *)file;
    const Elf64_Shdr *sections = (const Elf64_Shdr *)(file + head->e_shoff);
    for (uint32_t i = 0; i < head->e_shnum; i++) {
        if (sections[i].sh_type != SHT_SYMTAB) continue;
        symbols = (const Elf64_Sym *)(file + sections[i].sh_offset);
        symbol_count = sections[i].sh_size / sizeof *symbols;
        names = (const char *)(file + sections[sections[i].sh_link].sh_offset);
    }
    if (symbol_count == 0) give_up("the program has no symbols");
}

/* Everything that copies counts as memcpy, and so do the jumps by which it is reached, which belong to no function. */
static const char *function_at(uint64_t address)
{
    for (size_t i = 0; i < symbol_count; i++) {
        const char *name = names + symbols[i].st_name;
        if (ELF64_ST_TYPE(symbols[i].st_info) != STT_FUNC || address - symbols[i].st_value >= symbols[i].st_size) continue;
        return strstr(name, "memcpy") != NULL || strstr(name, "memmove") != NULL ? "memcpy" : name;
    }
    return "memcpy";
}

/* ---- amounts by function */

enum { MOST_FUNCTIONS = 64, SHOWN = 2 };

struct amount {
    const char *function;
    uint64_t amount;
};

struct tally {
    struct amount amounts[MOST_FUNCTIONS];
    size_t count;
    uint64_t whole;
};

static void add(struct tally *tally, const char *function, uint64_t amount)
{
    size_t k = 0;
    while (k < tally->count && strcmp(tally->amounts[k].function, function) != 0) k++;
    if (k == MOST_FUNCTIONS) give_up("too many functions");
    if (k == tally->count) tally->amounts[tally->count++] = (struct amount){function, 0};
    tally->amounts[k].amount += amount;
    tally->whole += amount;
}

static double percent(const struct tally *tally, uint64_t amount)
{
    return tally->whole > 0 ? 100.0 * (double)amount / (double)tally->whole : 0;
}

static int by_amount(const void *one, const void *other)
{
    uint64_t a = ((const struct amount *)one)->amount, b = ((const struct amount *)other)->amount;
    return (a < b) - (a > b);
}

/* The functions with most, memcpy left out. */
static void print_most(struct tally *tally)
{
    int shown = 0;
    qsort(tally->amounts, tally->count, sizeof *tally->amounts, by_amount);
    for (size_t k = 0; k < tally->count && shown < SHOWN; k++) {
        double share = percent(tally, tally->amounts[k].amount);
        if (share < 1 || strcmp(tally->amounts[k].function, "memcpy") == 0) continue;
        printf("%s `%s` %.0f", shown++ > 0 ? "," : "", tally->amounts[k].function, share);
    }
    printf(" |");
}

/* ---- copies */

enum { MOST_SITES = 1024 };

/* The bytes copied for each place in the program from which it was asked, found by the address there. */
static struct site {
    uint64_t address, bytes;
} sites[MOST_SITES];
static int copies_count;

void *__real_memcpy(void *to, const void *from, size_t size);
void *__wrap_memcpy(void *to, const void *from, size_t size);

void *__wrap_memcpy(void *to, const void *from, size_t size)
{
    if (copies_count) {
        uint64_t address = (uint64_t)(uintptr_t)__builtin_return_address(0), k = address % MOST_SITES;
        while (sites[k].address != address && sites[k].address != 0) k = (k + 1) % MOST_SITES;
        sites[k].address = address;
        sites[k].bytes += size;
    }
    return __real_memcpy(to, from, size);
}

static void print_copies(const struct row *row)
{
    static struct job job;
    struct tally tally = {.count = 0, .whole = 0};
    uint64_t slots = row->slots > 0 ? row->slots : 1, calls = MOST_SLOTS / slots;
    row_prepare(row, &job);
    memset(sites, 0, sizeof sites);
    copies_count = 1;
    row->repeat(&library, &job, calls);
    copies_count = 0;
    for (size_t k = 0; k < MOST_SITES; k++) {
        if (sites[k].bytes > 0) add(&tally, function_at(sites[k].address), sites[k].bytes);
    }
    printf(" %.0f |", (double)tally.whole / (double)(calls * slots));
    print_most(&tally);
}

/* ---- samples */

enum { MOST_SAMPLES = 4096 };

static volatile uint64_t samples[MOST_SAMPLES];
static volatile size_t sample_count;

static void take_sample(int number, siginfo_t *info, void *context)
{
    (void)number, (void)info;
    if (sample_count < MOST_SAMPLES) samples[sample_count++] = (uint64_t)((ucontext_t *)context)->uc_mcontext.gregs[REG_RIP];
}

static void set_timer(long microseconds)
{
    struct itimerval every = {{0, microseconds}, {0, microseconds}};
    if (setitimer(ITIMER_PROF, &every, NULL) != 0) give_up("no timer");
}

/* How many calls take a tenth of a second. */
static uint64_t many(const struct row *row, struct job *job)
{
    for (uint64_t times = 1;; times *= 2) {
        clock_t began = clock();
        row->repeat(&library, job, times);
        if (clock() - began > CLOCKS_PER_SEC / 10) return times;
    }
}

static void print_shares(const struct row *row)
{
    static struct job job;
    struct tally tally = {.count = 0, .whole = 0};
    row_prepare(row, &job);
    uint64_t times = many(row, &job), copying = 0;
    sample_count = 0;
    set_timer(1000);
    for (clock_t began = clock(); clock() - began < CLOCKS_PER_SEC / 2;) row->repeat(&library, &job, times);
    set_timer(0);
    for (size_t i = 0; i < sample_count; i++) add(&tally, function_at(samples[i]), 1);
    for (size_t k = 0; k < tally.count; k++) {
        if (strcmp(tally.amounts[k].function, "memcpy") == 0) copying = tally.amounts[k].amount;
    }
    printf(" %.0f |", percent(&tally, copying));
    print_most(&tally);
}

int main(int count, char **words)
{
    struct sigaction action;
    if (count < 1) give_up("the program does not know its own file");
    load_symbols(words[0]);
    memset(&action, 0, sizeof action);
    action.sa_sigaction = take_sample;
    action.sa_flags = SA_SIGINFO | SA_RESTART;
    if (sigaction(SIGPROF, &action, NULL) != 0) give_up("no signal");
    printf("| Call | bytes copied | for, %% of them | time in that, %% | most of the rest, %% |\n|---|---:|---|---:|---|\n");
    for (size_t i = 0; i < row_count; i++) {
        printf("| %s |", rows[i].name);
        print_copies(&rows[i]);
        print_shares(&rows[i]);
        printf("\n");
        fflush(stdout);
    }
    return 0;
}
