/* Cases of event rounds: records of 24 bytes, each a start, one step of a round
 * made by hand, a whole round, or a search. */
#include "cases.h"
#include "seeded.h"

#include <string.h>

enum { RECORD = 24, DEVICES = 4096, LISTED = 4, UNTOUCHED = 0xA5A5 };

enum op { START, STEP, WHOLE, SEARCH };

static void number_at(uint8_t *record, size_t place, unsigned number)
{
    record[place] = (uint8_t)(number / 256);
    record[place + 1] = (uint8_t)(number % 256);
}

/* Starts and steps */

static void print_stepped(FILE *lines, int refusal, const struct ref_stepped *s)
{
    if (refusal != 0)
        fprintf(lines, "refused %d\n", refusal);
    else if (s->ended)
        fprintf(lines, "ends %u %u %u\n", s->round.requests, s->round.reads,
                s->round.unresolved);
    else
        fprintf(lines, "gives %u %u %u %u %u %u %u\n", s->round.phase, s->round.m, s->round.c,
                s->round.requests, s->round.reads, s->round.unresolved, s->word);
}

static void put_start(struct cases *to, unsigned params)
{
    uint8_t record[RECORD] = {START};
    struct ref_stepped stepped;
    number_at(record, 4, params);
    fwrite(record, 1, RECORD, to->records);
    print_stepped(to->lines, ref_round_start(params, &stepped), &stepped);
}

static void put_step(struct cases *to, struct ref_round round, struct ref_answer answer)
{
    uint8_t record[RECORD] = {STEP, (uint8_t)answer.line};
    struct ref_stepped stepped;
    number_at(record, 4, answer.word);
    number_at(record, 12, round.phase);
    number_at(record, 14, round.m);
    number_at(record, 16, round.c);
    number_at(record, 18, round.requests);
    number_at(record, 20, round.reads);
    number_at(record, 22, round.unresolved);
    fwrite(record, 1, RECORD, to->records);
    print_stepped(to->lines, ref_round_step(round, answer, &stepped), &stepped);
}

static void put_reply(struct cases *to, struct ref_round round, unsigned f_code, unsigned address)
{
    put_step(to, round, (struct ref_answer){REF_REPLY, (uint16_t)(4096 * f_code + address % 4096)});
}

/* Every kind of answer to a request: silence, collision, good replies from the
 * group's ends, a wrong F_code, and replies from outside where there is one. */
static void put_answers(struct cases *to, struct ref_round round, uint32_t *x)
{
    unsigned common = round.m <= 12 ? 1u << (12 - round.m) : 1;
    unsigned high = (random_next(x) >> 16) % 4096 / common * common;
    put_step(to, round, (struct ref_answer){REF_SILENCE, 0});
    put_step(to, round, (struct ref_answer){REF_COLLISION, 0});
    put_reply(to, round, 12, round.c);
    put_reply(to, round, 12, high + round.c);
    put_reply(to, round, (12 + 1 + random_below(x, 15)) % 16, high + round.c);
    if (common > 1) {
        put_reply(to, round, 12, (high + round.c) ^ 1);
        put_reply(to, round, 12, (high + round.c) ^ common / 2);
    }
}

/* Some answers where it must not matter which. */
static void put_any_answer(struct cases *to, struct ref_round round, uint32_t *x)
{
    static const enum ref_line lines[3] = {REF_SILENCE, REF_REPLY, REF_COLLISION};
    enum ref_line line = lines[random_below(x, 3)];
    uint16_t word = line == REF_REPLY ? (uint16_t)(random_next(x) >> 16) : 0;
    put_step(to, round, (struct ref_answer){line, word});
}

/* Counts at and past each bound of 18: requests, reads, unresolved. */
static const uint16_t COUNTS[][3] = {
    {0, 0, 0},          {0, 1, 0},          {0, 0, 1},         {0, 65535, 1},
    {0, 32768, 32768},  {1, 1, 0},          {1, 0, 1},         {1, 1, 1},
    {4096, 4096, 0},    {4096, 2048, 2049}, {8189, 4096, 4},   {8190, 0, 4096},
    {8190, 8190, 0},    {8190, 0, 8191},    {8191, 0, 0},      {8191, 4096, 4095},
    {8192, 1, 2},       {65535, 0, 0},      {65535, 65535, 0}, {65535, 32768, 32768}};

static void put_counts(struct cases *to, unsigned m, unsigned c, uint32_t *x)
{
    for (size_t i = 0; i < sizeof COUNTS / sizeof COUNTS[0]; i++) {
        struct ref_round round = {0, (uint16_t)m, (uint16_t)c,
                                  COUNTS[i][0], COUNTS[i][1], COUNTS[i][2]};
        put_answers(to, round, x);
        round.phase = 1;
        put_any_answer(to, round, x);
        put_any_answer(to, round, x);
        round.phase = 2;
        put_any_answer(to, round, x);
        round.phase = 65535;
        put_any_answer(to, round, x);
    }
}

static void put_grid(struct cases *to)
{
    uint32_t x = 0x11C0FFEE;
    for (unsigned m = 0; m <= 14; m++) {
        unsigned bound = m <= 12 ? 1u << (12 - m) : 1;
        unsigned c[8] = {0, 1, bound / 2, bound - 1, bound, bound + 1, 4096, 65535};
        for (int i = 0; i < 8; i++) {
            int again = 0;
            for (int j = 0; j < i; j++)
                again |= c[j] == c[i];
            if (!again)
                put_counts(to, m, c[i], &x);
        }
    }
}

/* Every group there is, in phase 1 and with one step of each answer: what
 * follows it. */
static void put_groups(struct cases *to)
{
    uint32_t x = 0x12C0FFEE;
    for (unsigned m = 0; m <= 12; m++)
        for (unsigned c = 0; c < 1u << (12 - m); c++) {
            struct ref_round round = {(uint16_t)random_below(&x, 2), (uint16_t)m,
                                      (uint16_t)c, 4000, 20, 30};
            put_any_answer(to, round, &x);
        }
}

/* Whole rounds and searches */

/* A set as a record tells it: from a seed, or for seed 0 the listed devices. */
struct told_set {
    unsigned k, shared;
    uint32_t seed;
    uint16_t listed[LISTED];
};

static void set_in_record(uint8_t *record, const struct told_set *told)
{
    record[2] = (uint8_t)told->shared;
    number_at(record, 6, told->k);
    number_at(record, 12, told->seed >> 16);
    number_at(record, 14, told->seed & 0xFFFF);
    for (size_t i = 0; i < LISTED; i++)
        number_at(record, 16 + 2 * i, told->listed[i]);
}

/* The set, and the generator behind it (from 1 where the devices are listed). */
static uint32_t make_set(uint8_t set[512], const struct told_set *told)
{
    uint32_t x = told->seed;
    if (told->seed != 0) {
        seeded_set(set, told->k, told->shared, &x);
        return x;
    }
    memset(set, 0, 512);
    for (size_t i = 0; i < told->k; i++)
        set[told->listed[i] / 8] |= (uint8_t)(1u << told->listed[i] % 8);
    return 1;
}

/* The same round played by steps. */
static struct ref_counts play_steps(unsigned params, struct seeded_line *line)
{
    struct ref_stepped s;
    must(ref_round_start(params, &s) == 0, "a start was refused");
    while (!s.ended)
        must(ref_round_step(s.round, seeded_answer(line, s.word), &s) == 0,
             "a round from a start was refused");
    return (struct ref_counts){s.round.requests, s.round.reads, s.round.unresolved};
}

static void put_whole(struct cases *to, enum line_kind kind, unsigned params,
                      const struct told_set *told)
{
    uint8_t record[RECORD] = {WHOLE, (uint8_t)kind};
    struct seeded_line line = {.kind = kind, .hash = hash_start()};
    struct ref_counts counts;
    number_at(record, 4, params);
    set_in_record(record, told);
    fwrite(record, 1, RECORD, to->records);

    line.x = make_set(line.set, told);
    struct seeded_line stepped = line;
    int refusal = ref_whole_round(params, seeded_answer, &line, &counts);
    if (refusal != 0) {
        fprintf(to->lines, "refused %d\n", refusal);
        return;
    }
    struct ref_counts by_steps = play_steps(params, &stepped);
    must(memcmp(&by_steps, &counts, sizeof counts) == 0 && stepped.hash == line.hash,
         "steps and stack differ");
    fprintf(to->lines, "gives %lu %lu %lu %lu\n", (unsigned long)counts.requests,
            (unsigned long)counts.reads, (unsigned long)counts.unresolved,
            (unsigned long)line.hash);
}

static void put_search(struct cases *to, unsigned len, unsigned places,
                       const struct told_set *told)
{
    uint8_t record[RECORD] = {SEARCH}, set[1024] = {0};
    uint16_t out[DEVICES + 8];
    struct ref_counts counts;
    number_at(record, 4, len);
    number_at(record, 8, places);
    set_in_record(record, told);
    fwrite(record, 1, RECORD, to->records);

    make_set(set, told);
    for (size_t i = 0; i < places; i++)
        out[i] = UNTOUCHED;
    int refusal = ref_search(set, len, out, places, &counts);
    uint32_t hash = hash_start();
    for (size_t i = 0; i < places; i++)
        hash = hash_number(hash, out[i]);
    if (refusal != 0)
        fprintf(to->lines, "refused %d %lu\n", refusal, (unsigned long)hash);
    else
        fprintf(to->lines, "gives %lu %lu %lu\n", (unsigned long)counts.requests,
                (unsigned long)counts.reads, (unsigned long)hash);
}

/* Document 01's lines: no device, {005}, {001, 002}, {F05, 805, 505},
 * {000, 800}; and the four ends of the addresses. */
static const struct told_set HAND[6] = {{0, 0, 0, {0}},
                                        {1, 0, 0, {0x005}},
                                        {2, 0, 0, {0x001, 0x002}},
                                        {3, 0, 0, {0xF05, 0x805, 0x505}},
                                        {2, 0, 0, {0x000, 0x800}},
                                        {4, 0, 0, {0x000, 0xFFF, 0x001, 0xFFE}}};

/* Sizes: each up to 160, then in growing steps, then each from 4,090 on. */
static unsigned size_after(unsigned k)
{
    if (k < 160 || k >= 4090)
        return k + 1;
    return k + k / 24 < 4090 ? k + k / 24 : 4090;
}

static void put_hand_sets(struct cases *to, enum op op)
{
    for (int i = 0; i < 6; i++)
        for (unsigned kind = 0; op == WHOLE && kind < LINE_KINDS; kind++)
            put_whole(to, (enum line_kind)kind, 0x100, &HAND[i]);
    for (int i = 0; i < 6; i++)
        for (unsigned places = 0; op == SEARCH && places < 6; places++)
            put_search(to, 512, places, &HAND[i]);
}

static void put_wholes(struct cases *to)
{
    uint32_t x = 0x13C0FFEE;
    put_hand_sets(to, WHOLE);
    put_whole(to, TRUTHFUL, 4095, &HAND[2]);
    put_whole(to, TRUTHFUL, 4096, &HAND[2]);
    put_whole(to, ALWAYS_SILENCE, 65535, &HAND[0]);
    for (unsigned k = 0; k <= DEVICES; k = size_after(k))
        for (unsigned kind = TRUTHFUL; kind <= AFTER_SILENCE; kind++)
            for (unsigned shared = 0; shared < 12 && k <= 4096u >> shared; shared += 3) {
                struct told_set told = {k, shared, random_next(&x), {0}};
                put_whole(to, (enum line_kind)kind, random_below(&x, DEVICES), &told);
            }
    for (unsigned i = 0; i < 2000; i++) {
        struct told_set told = {random_below(&x, 6), 0, 0, {0}};
        told.seed = random_next(&x);
        put_whole(to, i % 2 ? ANYTHING : TRUTHFUL, random_below(&x, DEVICES), &told);
    }
}

static void put_searches(struct cases *to)
{
    uint32_t x = 0x14C0FFEE;
    static const unsigned lengths[5] = {0, 1, 511, 513, 1024};
    put_hand_sets(to, SEARCH);
    for (int i = 0; i < 5; i++) {
        put_search(to, lengths[i], 8, &HAND[2]);
        put_search(to, lengths[i], 0, &HAND[2]);
    }
    for (unsigned k = 0; k <= DEVICES; k = size_after(k))
        for (unsigned shared = 0; shared < 12 && k <= 4096u >> shared; shared++) {
            struct told_set told = {k, shared, random_next(&x), {0}};
            put_search(to, 512, k, &told);
            put_search(to, 512, k + random_below(&x, 8), &told);
            if (k > 0)
                put_search(to, 512, k - 1, &told);
        }
}

void cases_rounds(struct cases *to)
{
    static const unsigned params[8] = {0, 1, 0x100, 0x110, 4095, 4096, 4097, 65535};
    for (int i = 0; i < 8; i++)
        put_start(to, params[i]);
    put_grid(to);
    put_groups(to);
    put_wholes(to);
    put_searches(to);
}
