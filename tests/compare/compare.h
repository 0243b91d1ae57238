/* Holds the library and the second program to each other, call by call. */
#ifndef COMPARE_H
#define COMPARE_H

#include "mvb.h"
#include "second.h"

#include <stddef.h>
#include <stdint.h>

/* Chance ----------------------------------------------------------------------------------------------------- */

/* A number of 32 bits, one below a bound, one from low to high, and a yes once in n times. All of it follows from
 * the seed. */
uint32_t chance(void);
uint32_t below(uint32_t bound);
uint32_t between(uint32_t low, uint32_t high);
int one_in(uint32_t n);
void any_bytes(uint8_t *to, size_t count);

/* A length that is right, or one short, one more, none or anything up to `most`. */
size_t about(size_t right, size_t most);

/* Calls ------------------------------------------------------------------------------------------------------ */

enum { MOST_REFUSALS = 20, MOST_RUN = 1 << 16 };

/* A function of the library: the refusals that it gives (bit n for refusal n, bit 0 for an accepted call), and what
 * was seen of it. */
struct face {
    const char *name;
    uint32_t answers;
    uint64_t calls;
    uint64_t seen[MOST_REFUSALS];
};

/* A run lent to a call, once for the library and once for the second program. Behind or before each lies memory that
 * cannot be touched at all, on its other side guard bytes. */
struct lent {
    const char *name;
    size_t count, width;
    int may_write;
    void *ours, *second;
    uint8_t *before;
};

/* Announces a call: its function, its numbers, its runs with what they hold. A run lasts until the next call is
 * announced. */
void calling(struct face *face);
void number(const char *name, uint32_t value);
struct lent *lend(const char *name, const void *holds, size_t count, size_t width);
struct lent *lend_out(const char *name, const void *holds, size_t count, size_t width);
struct lent *lend_room(const char *name, size_t count, size_t width);

/* Takes both answers, and compares them and every lent run. Returns the answer. */
uint32_t answers(uint32_t ours, uint32_t second);

/* Anything else that must hold of the last call. */
void holds(int right, const char *what);

/* Topics ----------------------------------------------------------------------------------------------------- */

struct topic {
    const char *name;
    struct face *faces;
    size_t face_count;
    void (*turn)(void);
    uint32_t gate_turns;
};

extern const struct topic frames_topic, timing_topic, rounds_topic, search_topic, lists_topic, ports_topic;

#endif
