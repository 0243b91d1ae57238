/* Sets of devices and lines that a seed decides. */
#include "seeded.h"

#include <string.h>

uint32_t random_next(uint32_t *x)
{
    *x ^= *x << 13;
    *x ^= *x >> 17;
    *x ^= *x << 5;
    return *x;
}

uint32_t random_below(uint32_t *x, uint32_t bound)
{
    return random_next(x) % bound;
}

uint32_t hash_start(void)
{
    return 2166136261u;
}

uint32_t hash_byte(uint32_t hash, unsigned byte)
{
    return (hash ^ byte) * 16777619u;
}

uint32_t hash_number(uint32_t hash, unsigned number)
{
    return hash_byte(hash_byte(hash, number / 256), number % 256);
}

static int has(const uint8_t set[512], unsigned address)
{
    return (set[address / 8] >> address % 8) & 1;
}

void seeded_set(uint8_t set[512], unsigned k, unsigned shared, uint32_t *x)
{
    unsigned step = 1u << shared;
    unsigned low = *x % step;
    memset(set, 0, 512);
    while (k > 0) {
        unsigned address = random_below(x, 4096 / step) * step + low;
        if (has(set, address))
            continue;
        set[address / 8] |= (uint8_t)(1u << address % 8);
        k--;
    }
}

/* The group that a request asks, taken from its word. */
static void asked(uint16_t word, unsigned *m, unsigned *c)
{
    *m = 12;
    *c = 0;
    if (word / 4096 == 14) {
        *m = 0;
        *c = word % 4096;
    } else if (word / 4096 == 13) {
        unsigned zero = 11;
        while ((word >> zero) & 1)
            zero--;
        *m = 12 - zero;
        *c = word % (1u << zero);
    }
}

static struct ref_answer reply(unsigned f_code, unsigned address)
{
    return (struct ref_answer){REF_REPLY, (uint16_t)(4096 * f_code + address)};
}

/* One of the group's addresses, the free bits by chance. */
static unsigned some_address(unsigned m, unsigned c, uint32_t x)
{
    unsigned common = 1u << (12 - m);
    return (x >> 16) % 4096 / common * common + c;
}

static struct ref_answer anything(uint16_t word, uint32_t x)
{
    unsigned m, c;
    asked(word, &m, &c);
    switch (x % 8) {
    case 0: return (struct ref_answer){REF_SILENCE, 0};
    case 1: return (struct ref_answer){REF_REPLY, (uint16_t)(x >> 16)};
    case 2:
    case 3: return reply(12, some_address(m, c, x));
    default: return (struct ref_answer){REF_COLLISION, 0};
    }
}

static struct ref_answer answer_to_read(uint32_t x)
{
    switch (x % 3) {
    case 0: return (struct ref_answer){REF_SILENCE, 0};
    case 1: return (struct ref_answer){REF_REPLY, (uint16_t)(x >> 16)};
    default: return (struct ref_answer){REF_COLLISION, 0};
    }
}

static struct ref_answer answer_to_request(const struct seeded_line *line, uint16_t word)
{
    unsigned m, c, count = 0, device = 0;
    asked(word, &m, &c);
    for (unsigned address = c; address < 4096; address += 1u << (12 - m))
        if (has(line->set, address)) {
            device = address;
            count++;
        }
    if (count > 1)
        return (struct ref_answer){REF_COLLISION, 0};
    if (count == 0 && line->kind == AFTER_SILENCE && line->x % 2 == 1)
        return reply(12, some_address(m, c, line->x));
    if (count == 0)
        return (struct ref_answer){REF_SILENCE, 0};
    if (line->kind == FROM_OUTSIDE && m < 12)
        return reply(12, device ^ 1u << line->x % (12 - m));
    if (line->kind == WRONG_F_CODE)
        return reply((line->x >> 16) % 16, device);
    return reply(12, device);
}

struct ref_answer seeded_answer(void *lent, uint16_t word)
{
    struct seeded_line *line = lent;
    line->hash = hash_number(line->hash, word);
    if (line->kind == ALWAYS_COLLISION)
        return (struct ref_answer){REF_COLLISION, 0};
    if (line->kind == ALWAYS_SILENCE)
        return (struct ref_answer){REF_SILENCE, 0};
    random_next(&line->x);
    if (line->kind == ANYTHING)
        return anything(word, line->x);
    return word / 4096 == 12 ? answer_to_read(line->x) : answer_to_request(line, word);
}
