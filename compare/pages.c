/* Pages that may not be touched. POSIX, and MAP_ANONYMOUS, which every system has that this runs on. */
#define _DEFAULT_SOURCE

#include "pages.h"
#include "check.h"

#include <signal.h>
#include <sys/mman.h>

/* The length of what may not be touched on each side, and what all starts at a multiple of: 64 KiB, a multiple of the page size of every common processor, so
 * that it is whole pages also where a program is emulated on a processor with larger ones. */
static const size_t unit = 65536;

struct room pages_room(size_t size)
{
    size_t inside = (size + unit - 1) / unit * unit, all = inside + 3 * unit;
    void *mapped = mmap(NULL, all, PROT_NONE, MAP_PRIVATE | MAP_ANONYMOUS, -1, 0);
    if (mapped == MAP_FAILED) check_fail("there is no memory for the slices");
    uint8_t *first = (uint8_t *)mapped + (unit - (uintptr_t)mapped % unit) % unit + unit;
    if (mprotect(first, inside, PROT_READ | PROT_WRITE) != 0) check_fail("the pages of the slices cannot be made usable");
    return (struct room){first, first + inside};
}

static void (*when_touched)(void);

static void on_fault(int number)
{
    signal(number, SIG_DFL);
    when_touched();
}

void pages_watch(void (*touched)(void))
{
    when_touched = touched;
    signal(SIGSEGV, on_fault);
}
