/* Sets of devices and lines that a seed decides, so that two programs can play
 * the same round without sharing a word of it. README.md gives the rules. */
#ifndef SEEDED_H
#define SEEDED_H

#include "mvb_ref.h"

/* The generator xorshift32, all sums mod 2^32; its state is never 0. */
uint32_t random_next(uint32_t *x);

/* A number below `bound`. */
uint32_t random_below(uint32_t *x, uint32_t bound);

/* The hash FNV-1a of 32 bits: its start, and a byte or a 16-bit number, high
 * byte first, taken in. */
uint32_t hash_start(void);
uint32_t hash_byte(uint32_t hash, unsigned byte);
uint32_t hash_number(uint32_t hash, unsigned number);

enum line_kind {
    TRUTHFUL,
    ANYTHING,
    FROM_OUTSIDE,
    WRONG_F_CODE,
    AFTER_SILENCE,
    ALWAYS_COLLISION,
    ALWAYS_SILENCE,
    LINE_KINDS
};

/* A line: the devices with an event, the generator, and the hash of all words
 * that it was given. */
struct seeded_line {
    enum line_kind kind;
    uint32_t x;
    uint32_t hash;
    uint8_t set[512];
};

/* Puts k devices into the set, their low `shared` address bits alike, and
 * leaves the generator where it stands after them. The seed is not 0, k at most
 * 2^(12 - shared). */
void seeded_set(uint8_t set[512], unsigned k, unsigned shared, uint32_t *x);

/* What the line answers to a word: a `ref_line_of`. */
struct ref_answer seeded_answer(void *line, uint16_t word);

#endif
