/* Event rounds: whole ones step by step on lines of every kind, and single steps of rounds made by hand. */
#include "compare.h"

#include "mvb_ref.h"
#include "seeded.h"

#include <string.h>

enum { START, ANSWER, FACES };
enum { MOST_NUMBERS = 12, MOST_STEPS = 2 * 8191 + 2, LINE_BYTES = 48 };

static struct face faces[FACES] = {
    [START] = {.name = "mvb_round_start", .answers = 1u << 0 | 1u << 4 | 1u << 6},
    [ANSWER] = {.name = "mvb_round_answer", .answers = 1u << 0 | 1u << 4 | 1u << 18},
};

/* A round as it is lent. */
struct round {
    size_t count;
    uint16_t number[MOST_NUMBERS];
};

struct heard {
    size_t length;
    uint8_t bytes[LINE_BYTES];
};

static uint32_t start(struct round *round, uint16_t params)
{
    calling(&faces[START]);
    number("params", params);
    struct lent *lent = lend_out("round", round->number, round->count, 2);
    uint32_t answer = answers(mvb_round_start(params, lent->ours, round->count),
                              second_round_start(params, lent->second, round->count));
    memcpy(round->number, lent->ours, 2 * round->count);
    return answer;
}

static uint32_t step(struct round *round, const struct heard *heard)
{
    calling(&faces[ANSWER]);
    struct lent *lent = lend_out("round", round->number, round->count, 2);
    struct lent *bytes = lend("bytes", heard->bytes, heard->length, 1);
    uint32_t answer = answers(mvb_round_answer(lent->ours, round->count, bytes->ours, heard->length),
                              second_round_answer(lent->second, round->count, bytes->second, heard->length));
    memcpy(round->number, lent->ours, 2 * round->count);
    return answer;
}

static struct heard frame_of(uint16_t word)
{
    struct heard heard = {3, {(uint8_t)(word / 256), (uint8_t)(word % 256)}};
    heard.bytes[2] = ref_check_of(heard.bytes, 2);
    return heard;
}

/* What a collision leaves: a damaged frame, or any bytes of any length but none. */
static struct heard garbled(uint16_t word)
{
    struct heard heard = frame_of(word);
    if (one_in(2)) {
        heard.bytes[below(3)] ^= (uint8_t)(1u << below(8));
    } else {
        heard.length = between(1, LINE_BYTES);
        any_bytes(heard.bytes, heard.length);
    }
    if (heard.length == 3 && heard.bytes[2] == ref_check_of(heard.bytes, 2))
        heard.bytes[2] ^= 1;
    return heard;
}

static struct heard heard_of(struct ref_answer answer)
{
    switch (answer.line) {
    case REF_SILENCE: return (struct heard){0, {0}};
    case REF_REPLY: return frame_of(answer.word);
    default: return garbled((uint16_t)(49152 + below(4096)));
    }
}

/* Few devices mostly, and their low address bits often alike; one round in sixty-four may have any number. */
static void any_line(struct seeded_line *line)
{
    unsigned shared = one_in(3) ? below(12) : 0;
    unsigned most = 4096u >> shared;
    unsigned k = below(one_in(64) ? most + 1 : (most < 12 ? most : 12) + 1);
    line->x = chance() | 1;
    seeded_set(line->set, k, shared, &line->x);
    line->hash = hash_start();
    line->kind = (enum line_kind)below(LINE_KINDS);
    if (line->kind == ALWAYS_COLLISION && !one_in(200))
        line->kind = TRUTHFUL;
}

static void counts_agree(const struct round *round, const struct seeded_line *line, uint16_t params,
                         struct seeded_line *again)
{
    struct ref_counts counts = {0, 0, 0};
    ref_whole_round(params, seeded_answer, again, &counts);
    holds(round->number[MVB_ROUND_REQUESTS] == counts.requests && round->number[MVB_ROUND_READS] == counts.reads &&
              round->number[MVB_ROUND_UNRESOLVED] == counts.unresolved,
          "the counts of the whole round");
    holds(line->hash == again->hash, "the words that the whole round hands out");
}

static void whole_round(void)
{
    struct round round = {about(MVB_ROUND_NUMBERS, MOST_NUMBERS), {0}};
    uint16_t params = (uint16_t)(one_in(8) ? chance() : below(4096));
    struct seeded_line line, again;
    any_bytes((uint8_t *)round.number, sizeof round.number);
    if (round.count > MOST_NUMBERS)
        round.count = MOST_NUMBERS;
    uint32_t word = start(&round, params);
    if (MVB_REFUSED(word))
        return;
    any_line(&line);
    again = line;
    uint32_t steps = 0;
    while (word != MVB_END && steps++ < MOST_STEPS) {
        struct heard heard = heard_of(seeded_answer(&line, (uint16_t)word));
        word = step(&round, &heard);
    }
    holds(word == MVB_END, "a round from a start ends and is not refused");
    counts_agree(&round, &line, params, &again);
    struct heard more = heard_of((struct ref_answer){REF_REPLY, (uint16_t)chance()});
    holds(step(&round, &more) == MVB_END, "an ended round answers the end again");
}

/* Numbers that a round may hold, and numbers just beside them. */
static void any_round(struct round *round)
{
    uint16_t m = (uint16_t)below(one_in(16) ? 20 : 13);
    uint32_t bound = m <= 12 ? 1u << (12 - m) : 1;
    uint16_t requests = (uint16_t)(one_in(4) ? between(8188, 8194) : one_in(8) ? chance() : below(8191));
    uint16_t reads = (uint16_t)(one_in(16) ? chance() : below(requests + 1u));
    uint16_t left = (uint16_t)(requests - reads);
    round->count = about(MVB_ROUND_NUMBERS, MOST_NUMBERS);
    if (round->count > MOST_NUMBERS)
        round->count = MOST_NUMBERS;
    any_bytes((uint8_t *)round->number, sizeof round->number);
    round->number[MVB_ROUND_PHASE] = (uint16_t)(one_in(16) ? chance() : below(one_in(4) ? 3 : 2));
    round->number[MVB_ROUND_M] = one_in(64) ? (uint16_t)chance() : m;
    round->number[MVB_ROUND_C] = (uint16_t)(one_in(8) ? bound - 1 + below(3) : below(bound));
    round->number[MVB_ROUND_REQUESTS] = requests;
    round->number[MVB_ROUND_READS] = reads;
    round->number[MVB_ROUND_UNRESOLVED] = (uint16_t)(one_in(4) ? left - 1 + below(3) : below(left + 1u));
}

/* An answer that concerns the group, or any other. */
static struct heard any_heard(const struct round *round)
{
    unsigned m = round->number[MVB_ROUND_M] % 13;
    unsigned address = (below(4096) << (12 - m) | round->number[MVB_ROUND_C]) % 4096;
    switch (below(8)) {
    case 0: return (struct heard){0, {0}};
    case 1: return frame_of((uint16_t)chance());
    case 2: return garbled((uint16_t)(49152 + address));
    case 3: return frame_of((uint16_t)(4096 * below(16) + address));
    case 4: return frame_of((uint16_t)(49152 + (address ^ 1u << below(12))));
    default: return frame_of((uint16_t)(49152 + address));
    }
}

static void single_steps(void)
{
    for (unsigned i = 0; i < 16; i++) {
        struct round round;
        any_round(&round);
        struct heard heard = any_heard(&round);
        step(&round, &heard);
    }
}

static void turn(void)
{
    whole_round();
    single_steps();
}

/* A turn is a whole round and sixteen single steps. One start in six is refused. */
const struct topic rounds_topic = {"rounds", faces, FACES, turn, 14000};
