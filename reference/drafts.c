/* Lists drafted as runs of numbers. */
#include "drafts.h"

/* What the words drafted so far take. */
struct plan {
    const struct shape *shape;
    unsigned periods;
    uint32_t load[1024];
    uint8_t used[2][4096]; /* addresses of Process Data, of F_code 15 */
};

/* The words of one cycle, with their Subcycles. */
struct cycle_plan {
    size_t words;
    uint16_t word[REF_CYCLE_WORDS];
    unsigned subcycle[REF_CYCLE_WORDS];
};

void draft_number(struct draft *to, enum number_kind kind, uint32_t number)
{
    to->number[to->numbers] = number;
    to->kind[to->numbers] = kind;
    to->numbers++;
}

/* A word that is not listed yet. */
static uint16_t fresh_word(struct plan *plan, uint32_t *x)
{
    static const unsigned f_codes[6] = {0, 1, 2, 3, 4, 15};
    unsigned f_code = f_codes[random_below(x, 6)];
    if (plan->shape->f_code >= 0)
        f_code = (unsigned)plan->shape->f_code;
    unsigned address = random_below(x, 4096);
    while (plan->used[f_code == 15][address])
        address = (address + 1) % 4096;
    plan->used[f_code == 15][address] = 1;
    return (uint16_t)(4096 * f_code + address);
}

/* Adds a telegram to each Basic Period of a Subcycle, if all have room. */
static int add_telegram(struct plan *plan, unsigned n, unsigned subcycle, uint32_t bits)
{
    uint32_t room = 1500 * plan->shape->ms - plan->shape->reserve;
    for (unsigned j = subcycle; j < plan->periods; j += 1u << n)
        if (plan->load[j] + bits > room && !plan->shape->overfull)
            return 0;
    for (unsigned j = subcycle; j < plan->periods; j += 1u << n)
        plan->load[j] += bits;
    return 1;
}

/* Lists the word in some Subcycle where it fits; leaves it out if none has room. */
static void place_word(struct plan *plan, unsigned n, uint16_t word, unsigned from,
                       struct cycle_plan *cycle)
{
    uint32_t bits = 0;
    ref_telegram_bits(word / 4096, plan->shape->gap, &bits);
    for (unsigned tried = 0; tried < 1u << n; tried++) {
        unsigned subcycle = (from + tried) % (1u << n);
        if (!add_telegram(plan, n, subcycle, bits))
            continue;
        cycle->word[cycle->words] = word;
        cycle->subcycle[cycle->words] = subcycle;
        cycle->words++;
        return;
    }
}

static void draft_cycle(struct draft *to, unsigned n, const struct cycle_plan *cycle)
{
    unsigned split[REF_SUBCYCLES] = {0};
    draft_number(to, COUNT, (uint32_t)cycle->words);
    for (unsigned s = 0; s < 1u << n; s++)
        for (size_t i = 0; i < cycle->words; i++)
            if (cycle->subcycle[i] == s) {
                draft_number(to, WORD, cycle->word[i]);
                split[s]++;
            }
    for (unsigned s = 0; n >= 1 && cycle->words > 0 && s < 1u << n; s++)
        draft_number(to, SPLIT, split[s]);
}

static void draft_header(struct draft *to, const struct shape *shape)
{
    to->numbers = 0;
    draft_number(to, HEADER, 1);
    draft_number(to, HEADER, shape->ms);
    draft_number(to, HEADER, shape->gap);
    draft_number(to, HEADER, shape->reserve);
}

void draft_list(struct draft *to, const struct shape *shape, uint32_t *x)
{
    struct plan plan = {.shape = shape, .periods = shape->ms == 1 ? 1024 : 512};
    draft_header(to, shape);
    for (unsigned n = 0; n < (shape->ms == 1 ? 11 : 10); n++) {
        struct cycle_plan cycle = {.words = 0};
        unsigned next = 0;
        for (unsigned i = 0; i < shape->want[n]; i++) {
            unsigned from = shape->first_fit ? next : random_below(x, 1u << n);
            size_t words = cycle.words;
            place_word(&plan, n, fresh_word(&plan, x), from, &cycle);
            if (cycle.words > words)
                next = cycle.subcycle[words] + 1;
        }
        draft_cycle(to, n, &cycle);
    }
    uint32_t most = 0;
    for (unsigned j = 0; j < plan.periods; j++)
        most = plan.load[j] > most ? plan.load[j] : most;
    if (shape->tight)
        to->number[3] = 1500 * shape->ms - most;
}

void draft_given(struct draft *to, const struct shape *shape, const struct given *given,
                 size_t count)
{
    draft_header(to, shape);
    for (unsigned n = 0; n < (shape->ms == 1 ? 11 : 10); n++) {
        struct cycle_plan cycle = {.words = 0};
        for (size_t i = 0; i < count; i++)
            if (given[i].n == n) {
                cycle.word[cycle.words] = given[i].word;
                cycle.subcycle[cycle.words] = given[i].subcycle;
                cycle.words++;
            }
        draft_cycle(to, n, &cycle);
    }
}

size_t write_number(uint8_t *to, uint32_t number)
{
    size_t bytes = 0;
    while (number >= 128) {
        to[bytes++] = (uint8_t)(128 + number % 128);
        number /= 128;
    }
    to[bytes++] = (uint8_t)number;
    return bytes;
}

size_t write_list(uint8_t *to, const struct draft *draft)
{
    size_t bytes = 0;
    for (size_t i = 0; i < draft->numbers; i++)
        bytes += write_number(to + bytes, draft->number[i]);
    return bytes;
}
