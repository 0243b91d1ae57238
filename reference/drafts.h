/* Lists drafted as runs of numbers: good ones of every shape, to be written as
 * they are or damaged. */
#ifndef DRAFTS_H
#define DRAFTS_H

#include "seeded.h"

enum number_kind { HEADER, COUNT, WORD, SPLIT };

/* A list as its numbers, each with what it is. */
enum { MOST_NUMBERS = 8192 };
struct draft {
    size_t numbers;
    uint32_t number[MOST_NUMBERS];
    enum number_kind kind[MOST_NUMBERS];
};

/* What a list is to look like. */
struct shape {
    unsigned ms, gap, reserve;
    unsigned want[REF_CYCLES]; /* words of each cycle, as far as they fit */
    int f_code;                /* of all words, or below 0 any allowed one */
    int first_fit;             /* Subcycles in turn, not by chance */
    int overfull;              /* words are listed where they do not fit too */
    int tight;                 /* the reserve takes all that the words leave */
};

/* Drafts a list of that shape. */
void draft_list(struct draft *to, const struct shape *shape, uint32_t *x);

/* A word that stands in a Subcycle of the cycle 2^n. */
struct given {
    uint16_t word;
    unsigned n, subcycle;
};

/* Drafts a list of given words; of the shape only its header counts. */
void draft_given(struct draft *to, const struct shape *shape, const struct given *given,
                 size_t count);

/* Adds a number at the end. */
void draft_number(struct draft *to, enum number_kind kind, uint32_t number);

/* A number in shortest form, whatever its size; returns its bytes. */
size_t write_number(uint8_t *to, uint32_t number);

/* The draft as a list file; returns its bytes. */
size_t write_list(uint8_t *to, const struct draft *draft);

#endif
