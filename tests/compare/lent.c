/* Chance, lent runs and what is said of a call that differs. */
#include "compare.h"

#include "report.h"

#include <signal.h>
#include <stdio.h>
#include <stdlib.h>
#include <string.h>
#include <sys/mman.h>
#include <unistd.h>

enum { GUARD = 64, MOST_LENT = 8, MOST_NUMBERS = 8, GUARD_BYTE = 0xC5 };

/* Chance: splitmix64. */
static uint64_t state;

void chance_from(uint64_t seed)
{
    state = seed;
}

uint32_t chance(void)
{
    uint64_t z = state += UINT64_C(0x9E3779B97F4A7C15);
    z = (z ^ (z >> 30)) * UINT64_C(0xBF58476D1CE4E5B9);
    z = (z ^ (z >> 27)) * UINT64_C(0x94D049BB133111EB);
    return (uint32_t)((z ^ (z >> 31)) >> 16);
}

uint32_t below(uint32_t bound)
{
    return chance() % bound;
}

uint32_t between(uint32_t low, uint32_t high)
{
    return low + below(high - low + 1);
}

int one_in(uint32_t n)
{
    return below(n) == 0;
}

void any_bytes(uint8_t *to, size_t count)
{
    while (count > 0) {
        uint32_t some = chance();
        size_t part = count < sizeof some ? count : sizeof some;
        memcpy(to, &some, part);
        to += part;
        count -= part;
    }
}

size_t about(size_t right, size_t most)
{
    switch (below(12)) {
    case 0: return right > 0 ? right - 1 : 0;
    case 1: return right + 1;
    case 2: return one_in(2) ? 0 : below((uint32_t)most + 1);
    case 3: return right + below(8);
    default: return right;
    }
}

/* The call at hand. */
static struct {
    struct face *face;
    size_t numbers, runs;
    struct {
        const char *name;
        uint32_t value;
    } number[MOST_NUMBERS];
    struct lent run[MOST_LENT];
} call;

/* Places for runs: MOST_RUN bytes between two fences, memory that cannot be touched. A fence is as large as the
 * largest pages of the machines that run this, and begins where such a page does. */
enum { FENCE = 1 << 16 };
static struct {
    uint8_t *ours, *second;
    uint8_t before[MOST_RUN];
} places[MOST_LENT];

static uint8_t *fenced(void)
{
    size_t bytes = MOST_RUN + 3 * (size_t)FENCE;
    uint8_t *all = mmap(NULL, bytes, PROT_READ | PROT_WRITE, MAP_PRIVATE | MAP_ANONYMOUS, -1, 0);
    if (all == MAP_FAILED) {
        perror("compare: no memory to lend");
        exit(2);
    }
    uint8_t *place = all + FENCE + (FENCE - (uintptr_t)all % FENCE) % FENCE;
    if (mprotect(place - FENCE, FENCE, PROT_NONE) != 0 || mprotect(place + MOST_RUN, FENCE, PROT_NONE) != 0) {
        perror("compare: no fence around what is lent");
        exit(2);
    }
    return place;
}

void calling(struct face *face)
{
    call.face = face;
    call.numbers = 0;
    call.runs = 0;
    face->calls++;
}

void number(const char *name, uint32_t value)
{
    call.number[call.numbers].name = name;
    call.number[call.numbers].value = value;
    call.numbers++;
}

/* A run of so many bytes at one end of a place, or at the other; the guard bytes lie on its open side. */
static uint8_t *laid(uint8_t *place, const void *holds, size_t bytes, int at_end)
{
    uint8_t *run = at_end ? place + MOST_RUN - bytes : place;
    memset(at_end ? run - GUARD : run + bytes, GUARD_BYTE, GUARD);
    memcpy(run, holds, bytes);
    return run;
}

static struct lent *lend_as(const char *name, const void *holds, size_t count, size_t width, int may_write)
{
    size_t i = call.runs++, bytes = count * width;
    int at_end = one_in(2);
    if (places[i].ours == NULL) {
        places[i].ours = fenced();
        places[i].second = fenced();
    }
    memcpy(places[i].before, holds, bytes);
    call.run[i] = (struct lent){name,
                                count,
                                width,
                                may_write,
                                laid(places[i].ours, holds, bytes, at_end),
                                laid(places[i].second, holds, bytes, at_end),
                                places[i].before};
    return &call.run[i];
}

struct lent *lend(const char *name, const void *holds, size_t count, size_t width)
{
    return lend_as(name, holds, count, width, 0);
}

struct lent *lend_out(const char *name, const void *holds, size_t count, size_t width)
{
    return lend_as(name, holds, count, width, 1);
}

struct lent *lend_room(const char *name, size_t count, size_t width)
{
    static uint8_t filled[MOST_RUN];
    memset(filled, (uint8_t)chance(), count * width);
    return lend_as(name, filled, count, width, 1);
}

/* What is said of a call */

static void print_run(const char *name, const char *what, const uint8_t *bytes, size_t count)
{
    printf("  %s %s:", name, what);
    for (size_t i = 0; i < count; i++)
        printf(" %02X", bytes[i]);
    printf("\n");
}

static void print_call(void)
{
    if (call.face == NULL)
        return;
    printf("  call: %s (number %llu of this run)\n", call.face->name, (unsigned long long)call.face->calls);
    for (size_t i = 0; i < call.numbers; i++)
        printf("  %s: %u (hex %X)\n", call.number[i].name, call.number[i].value, call.number[i].value);
    for (size_t i = 0; i < call.runs; i++) {
        const struct lent *run = &call.run[i];
        printf("  %s: %zu of %zu bytes\n", run->name, run->count, run->width);
        print_run(run->name, "before", run->before, run->count * run->width);
    }
}

static void print_after(void)
{
    for (size_t i = 0; i < call.runs; i++) {
        const struct lent *run = &call.run[i];
        size_t bytes = run->count * run->width;
        if (memcmp(run->ours, run->before, bytes) != 0)
            print_run(run->name, "after ours", run->ours, bytes);
        if (memcmp(run->second, run->before, bytes) != 0)
            print_run(run->name, "after the second program's", run->second, bytes);
    }
}

static void differs(const char *what)
{
    printf("differs: %s\n", what);
    print_call();
    print_after();
    print_origin();
    fflush(stdout);
    _Exit(1);
}

void holds(int right, const char *what)
{
    if (!right)
        differs(what);
}

/* A fault of memory, or no end: inside a call. */
static void stopped(int signal_number)
{
    int late = signal_number == SIGALRM;
    printf("differs: %s\n", late ? "the call has not ended" : "memory that was not lent is touched");
    print_call();
    print_origin();
    fflush(stdout);
    _Exit(1);
}

void watch(unsigned seconds)
{
    signal(SIGSEGV, stopped);
    signal(SIGBUS, stopped);
    signal(SIGALRM, stopped);
    alarm(seconds);
}

static int guarded(const struct lent *run, const uint8_t *place, const uint8_t *at)
{
    const uint8_t *guard = at == place ? at + run->count * run->width : at - GUARD;
    return guard[0] == GUARD_BYTE && memcmp(guard, guard + 1, GUARD - 1) == 0;
}

static void compare_run(size_t i, int refused)
{
    const struct lent *run = &call.run[i];
    size_t bytes = run->count * run->width;
    holds(guarded(run, places[i].ours, run->ours), "bytes beside a lent run are written");
    holds(guarded(run, places[i].second, run->second), "the second program writes beside a lent run");
    holds(memcmp(run->ours, run->second, bytes) == 0, "a lent run afterwards");
    if (refused || !run->may_write)
        holds(memcmp(run->ours, run->before, bytes) == 0, "a run that must stay is changed");
}

uint32_t answers(uint32_t ours, uint32_t second)
{
    if (ours != second)
        printf("ours answers %u, the second program %u\n", ours, second);
    holds(ours == second, "the answer");
    for (size_t i = 0; i < call.runs; i++)
        compare_run(i, MVB_REFUSED(ours));
    holds(MVB_NUMBER(ours) < MOST_REFUSALS, "the refusal's number");
    call.face->seen[MVB_NUMBER(ours)]++;
    return ours;
}
