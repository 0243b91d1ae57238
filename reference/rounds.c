/* The event round, stepped and whole, and the search (document 01, "The event
 * round"; 001, 8.3.1 and 8.3.4). */
#include "mvb_ref.h"

enum { DEVICES = 4096, BITS = 12, SET_BYTES = 512, MOST_REQUESTS = 8190 };

/* Groups */

static unsigned power_of_2(unsigned n)
{
    return 1u << n;
}

int ref_in_group(unsigned m, unsigned c, unsigned address)
{
    return address % power_of_2(BITS - m) == c;
}

uint16_t ref_request_word(unsigned m, unsigned c, unsigned params)
{
    if (m == BITS)
        return (uint16_t)(9 * DEVICES + params);
    if (m == 0)
        return (uint16_t)(14 * DEVICES + c);
    unsigned word = 13;
    for (unsigned one = 0; one < m - 1; one++)
        word = 2 * word + 1;
    word = 2 * word;
    return (uint16_t)(word * power_of_2(BITS - m) + c);
}

/* A reply counts as good only with F_code 12 and an address in the group. */
static int good_reply(struct ref_answer answer, unsigned m, unsigned c)
{
    return answer.line == REF_REPLY && answer.word / DEVICES == 12 &&
           ref_in_group(m, c, answer.word % DEVICES);
}

/* The stepped round */

static unsigned reversed(unsigned address)
{
    unsigned turned = 0;
    for (int bit = 0; bit < BITS; bit++) {
        turned = 2 * turned + address % 2;
        address /= 2;
    }
    return turned;
}

/* The first place behind {M, C} when all devices stand in rising order of their
 * address bits taken lowest first: a group is then a run of 2^M places. At
 * 4,096 no group follows. */
static unsigned place_behind(unsigned m, unsigned c)
{
    return reversed(c) + power_of_2(m);
}

/* Goes on: what follows begins at the place behind, and is the largest group
 * that does. */
static void go_on(struct ref_round round, struct ref_stepped *to)
{
    unsigned place = place_behind(round.m, round.c);
    unsigned m = 0;
    while (place % power_of_2(m + 1) == 0)
        m++;
    to->round = round;
    to->ended = place == DEVICES;
    to->round.phase = to->ended ? 2 : 0;
    to->round.m = to->ended ? BITS : (uint16_t)m;
    to->round.c = to->ended ? 0 : (uint16_t)reversed(place);
    to->word = to->ended ? 0 : ref_request_word(m, to->round.c, 0);
}

static int impossible(struct ref_round round)
{
    if (round.m > BITS || round.c >= power_of_2(BITS - round.m))
        return 1;
    if ((uint32_t)round.reads + round.unresolved > round.requests)
        return 1;
    int to_answer = round.phase == 0;
    int to_ask = place_behind(round.m, round.c) < DEVICES;
    return round.requests > MOST_REQUESTS && (to_answer || to_ask);
}

int ref_round_start(unsigned params, struct ref_stepped *to)
{
    if (params >= DEVICES)
        return REF_RANGE;
    to->ended = 0;
    to->round = (struct ref_round){.phase = 0, .m = BITS};
    to->word = ref_request_word(BITS, 0, params);
    return REF_ACCEPTED;
}

/* The answer to the request for the group where the round stands. */
static void take_answer(struct ref_round round, struct ref_answer answer, struct ref_stepped *to)
{
    round.requests++;
    if (good_reply(answer, round.m, round.c)) {
        round.reads++;
        round.phase = 1;
        *to = (struct ref_stepped){0, answer.word, round};
    } else if (answer.line == REF_SILENCE) {
        go_on(round, to);
    } else if (round.m >= 1) {
        round.m--;
        *to = (struct ref_stepped){0, ref_request_word(round.m, round.c, 0), round};
    } else {
        round.unresolved++;
        go_on(round, to);
    }
}

int ref_round_step(struct ref_round old, struct ref_answer answer, struct ref_stepped *to)
{
    if (old.phase > 1) {
        *to = (struct ref_stepped){1, 0, old};
        return REF_ACCEPTED;
    }
    if (impossible(old))
        return REF_ROUND;
    if (old.phase == 0)
        take_answer(old, answer, to);
    else
        go_on(old, to);
    return REF_ACCEPTED;
}

/* The whole round */

int ref_whole_round(unsigned params, ref_line_of answer_of, void *line,
                    struct ref_counts *counts)
{
    struct {
        unsigned m, c;
    } to_ask[BITS + 1] = {{BITS, 0}};
    unsigned height = 1;
    if (params >= DEVICES)
        return REF_RANGE;
    *counts = (struct ref_counts){0, 0, 0};
    while (height > 0) {
        height--;
        unsigned m = to_ask[height].m, c = to_ask[height].c;
        struct ref_answer answer = answer_of(line, ref_request_word(m, c, params));
        counts->requests++;
        if (answer.line == REF_SILENCE)
            continue;
        if (good_reply(answer, m, c)) {
            answer_of(line, answer.word);
            counts->reads++;
        } else if (m == 0) {
            counts->unresolved++;
        } else {
            to_ask[height].m = to_ask[height + 1].m = m - 1;
            to_ask[height].c = c + power_of_2(BITS - m);
            to_ask[height + 1].c = c;
            height += 2;
        }
    }
    return REF_ACCEPTED;
}

/* The search */

struct search {
    uint32_t requests, reads;
    uint16_t *out;
};

/* Asks the group {M, C} whose devices with an event are these. */
static void ask(struct search *search, unsigned m, const uint16_t *devices, size_t count)
{
    uint16_t half[DEVICES];
    search->requests++;
    if (count == 1)
        search->out[search->reads++] = devices[0];
    if (count < 2)
        return;
    for (unsigned digit = 0; digit < 2; digit++) {
        size_t in_half = 0;
        for (size_t i = 0; i < count; i++)
            if (devices[i] / power_of_2(BITS - m) % 2 == digit)
                half[in_half++] = devices[i];
        ask(search, m - 1, half, in_half);
    }
}

int ref_search(const uint8_t *set, size_t len, uint16_t *out, size_t places,
               struct ref_counts *counts)
{
    uint16_t devices[DEVICES];
    size_t count = 0;
    if (len != SET_BYTES)
        return REF_WRONG_LENGTH;
    for (unsigned address = 0; address < DEVICES; address++)
        if (set[address / 8] / power_of_2(address % 8) % 2 == 1)
            devices[count++] = (uint16_t)address;
    if (places < count)
        return REF_TOO_SHORT;
    struct search search = {0, 0, out};
    ask(&search, BITS, devices, count);
    *counts = (struct ref_counts){search.requests, search.reads, 0};
    return REF_ACCEPTED;
}
