/* The list file, what a Basic Period sends, and the list program's text
 * (document 01, "The list file" and "What a Basic Period sends"). */
#include "mvb_ref.h"

#include <stdio.h>
#include <string.h>

enum { MOST_WORDS = REF_CYCLES * REF_CYCLE_WORDS, MOST_FRAMES = 64 };

/* Numbers */

int ref_number_at(const uint8_t *list, size_t len, size_t place, uint16_t *number,
                  size_t *behind)
{
    size_t last = place;
    while (last < len && list[last] >= 128)
        last++;
    if (last >= len)
        return REF_NUMBER; /* cut off */
    if (last > place && list[last] == 0)
        return REF_NUMBER; /* not shortest */
    if (last - place > 2)
        return REF_NUMBER; /* four groups in shortest form: 2^21 or more */
    uint32_t value = 0;
    for (size_t i = last + 1; i > place; i--)
        value = 128 * value + list[i - 1] % 128;
    if (value > 65535)
        return REF_NUMBER;
    *number = (uint16_t)value;
    *behind = last + 1;
    return REF_ACCEPTED;
}

/* A fault: the refusal, and the number in the file at which it stands. */
struct fault {
    size_t at;
    int refusal;
};

/* Of two faults the one at the earlier number comes first, and at one number
 * the one that document 01 names first, which is the smaller: 5, 6, 7, 8, 9. */
static void note(struct fault *first, size_t at, int refusal)
{
    int earlier = at < first->at || (at == first->at && refusal < first->refusal);
    if (first->refusal == REF_ACCEPTED || earlier)
        *first = (struct fault){at, refusal};
}

/* The list while it is taken apart. */
struct reading {
    const uint8_t *list;
    size_t len, place;
    size_t numbers; /* how many were read */
    struct fault first;
};

/* Takes the next number, which must lie in its stated range. 0 where the list
 * cannot be read on. */
static int take(struct reading *r, unsigned low, unsigned high, uint16_t *number)
{
    int refusal = ref_number_at(r->list, r->len, r->place, number, &r->place);
    if (refusal == REF_ACCEPTED && (*number < low || *number > high))
        refusal = REF_RANGE;
    if (refusal != REF_ACCEPTED)
        note(&r->first, r->numbers, refusal);
    r->numbers++;
    return refusal == REF_ACCEPTED;
}

static int take_header(struct reading *r, struct ref_list *to)
{
    uint16_t version;
    return take(r, 1, 1, &version) && take(r, 1, 2, &to->ms) && take(r, 4, 128, &to->gap) &&
           take(r, 67u + to->gap, 1500u * to->ms, &to->reserve);
}

static size_t subcycles(unsigned n)
{
    return (size_t)1 << n;
}

static int take_cycle(struct reading *r, unsigned n, struct ref_cycle *cycle)
{
    uint16_t count;
    if (!take(r, 0, REF_CYCLE_WORDS, &count))
        return 0;
    cycle->count = count;
    while (cycle->words < cycle->count) {
        cycle->word_at[cycle->words] = r->numbers;
        if (!take(r, 0, 65535, &cycle->word[cycle->words]))
            return 0;
        cycle->words++;
    }
    while (n >= 1 && cycle->count > 0 && cycle->splits < subcycles(n)) {
        cycle->last_split_at = r->numbers;
        if (!take(r, 0, 256, &cycle->split[cycle->splits]))
            return 0;
        cycle->splits++;
    }
    return 1;
}

static void take_apart(struct reading *r, struct ref_list *to)
{
    if (!take_header(r, to))
        return;
    while (to->cycles < (to->ms == 1 ? 11 : 10)) {
        to->cycles++;
        if (!take_cycle(r, (unsigned)to->cycles - 1, &to->cycle[to->cycles - 1]))
            return;
    }
}

/* The rules on a list taken apart */

/* A listed word has F_code 0 to 4 or 15. */
static void find_not_allowed(const struct ref_list *list, struct fault *first)
{
    for (size_t n = 0; n < list->cycles; n++)
        for (size_t i = 0; i < list->cycle[n].words; i++) {
            unsigned f_code = list->cycle[n].word[i] / 4096;
            if (f_code > 4 && f_code != 15)
                note(first, list->cycle[n].word_at[i], REF_NOT_IN_LIST);
        }
}

/* No two listed Process Data words share an address; no word with F_code 15 is
 * listed twice. */
static int clash(unsigned a, unsigned b)
{
    if (a / 4096 <= 4 && b / 4096 <= 4)
        return a % 4096 == b % 4096;
    return a / 4096 == 15 && a == b;
}

/* Searches every pair of words; the fault stands at the later one. */
static void find_twice(const struct ref_list *list, struct fault *first)
{
    uint16_t word[MOST_WORDS];
    size_t at[MOST_WORDS], words = 0;
    for (size_t n = 0; n < list->cycles; n++)
        for (size_t i = 0; i < list->cycle[n].words; i++) {
            word[words] = list->cycle[n].word[i];
            at[words++] = list->cycle[n].word_at[i];
        }
    for (size_t later = 0; later < words; later++)
        for (size_t earlier = 0; earlier < later; earlier++)
            if (clash(word[earlier], word[later]))
                note(first, at[later], REF_TWICE);
}

/* Split numbers of a cycle add up to its count. */
static void find_split(const struct ref_list *list, struct fault *first)
{
    for (size_t n = 1; n < list->cycles; n++) {
        const struct ref_cycle *cycle = &list->cycle[n];
        size_t sum = 0;
        for (size_t s = 0; s < cycle->splits; s++)
            sum += cycle->split[s];
        if (cycle->splits == subcycles((unsigned)n) && sum != cycle->count)
            note(first, cycle->last_split_at, REF_SPLIT);
    }
}

/* Accepted lists */

size_t ref_list_words(const struct ref_list *list)
{
    size_t words = 0;
    for (size_t n = 0; n < list->cycles; n++)
        words += list->cycle[n].words;
    return words;
}

unsigned ref_list_periods(const struct ref_list *list)
{
    return list->ms == 1 ? 1024 : 512;
}

unsigned ref_list_subcycle(const struct ref_list *list, unsigned n, size_t i)
{
    const struct ref_cycle *cycle = &list->cycle[n];
    unsigned s = 0;
    size_t before = 0;
    while (s < cycle->splits && before + cycle->split[s] <= i) {
        before += cycle->split[s];
        s++;
    }
    return s;
}

size_t ref_list_sends(const struct ref_list *list, unsigned j, uint16_t *words)
{
    size_t count = 0;
    for (unsigned n = 0; n < list->cycles; n++) {
        const struct ref_cycle *cycle = &list->cycle[n];
        size_t subcycle = j % subcycles(n), from = 0, to = cycle->words;
        if (cycle->splits > 0) {
            for (size_t s = 0; s < subcycle; s++)
                from += cycle->split[s];
            to = from + cycle->split[subcycle];
        }
        for (size_t i = from; i < to; i++)
            words[count++] = cycle->word[i];
    }
    return count;
}

/* The bit times of all telegrams of a Basic Period. */
static uint32_t load(const struct ref_list *list, const uint16_t *words, size_t count)
{
    uint32_t sum = 0, bits = 0;
    for (size_t i = 0; i < count; i++) {
        ref_telegram_bits(words[i] / 4096, list->gap, &bits);
        sum += bits;
    }
    return sum;
}

/* Sums every Basic Period: 10 wherever it stands goes before 19. */
static int check_periods(const struct ref_list *list)
{
    uint16_t words[MOST_WORDS];
    int refusal = REF_ACCEPTED;
    for (unsigned j = 0; j < ref_list_periods(list); j++) {
        size_t count = ref_list_sends(list, j, words);
        if (load(list, words, count) + list->reserve > 1500u * list->ms)
            return REF_OVERFULL;
        if (count > MOST_FRAMES)
            refusal = REF_FRAMES;
    }
    return refusal;
}

int ref_list_read(const uint8_t *list, size_t len, struct ref_list *to)
{
    struct reading r = {.list = list, .len = len};
    if (len > REF_LIST_BYTES)
        return REF_WRONG_LENGTH;
    memset(to, 0, sizeof *to);
    take_apart(&r, to);
    find_not_allowed(to, &r.first);
    find_twice(to, &r.first);
    find_split(to, &r.first);
    if (r.first.refusal != REF_ACCEPTED)
        return r.first.refusal;
    if (r.place < len)
        return REF_BYTES_AFTER;
    return check_periods(to);
}

int ref_list_check(const uint8_t *list, size_t len, struct ref_summary *summary)
{
    struct ref_list to;
    int refusal = ref_list_read(list, len, &to);
    if (refusal == REF_ACCEPTED)
        *summary = (struct ref_summary){to.ms, to.gap, to.reserve, (uint16_t)ref_list_words(&to)};
    return refusal;
}

int ref_list_period(const struct ref_list *list, uint32_t j, uint16_t *out, size_t room,
                    size_t *count)
{
    uint16_t words[MOST_WORDS];
    if (j >= ref_list_periods(list))
        return REF_NO_PERIOD;
    size_t sent = ref_list_sends(list, j, words);
    if (room < sent)
        return REF_TOO_SHORT;
    memcpy(out, words, sent * sizeof *out);
    *count = sent;
    return REF_ACCEPTED;
}

int ref_basic_period(const uint8_t *list, size_t len, uint32_t j, uint16_t *out, size_t room,
                     size_t *count)
{
    struct ref_list to;
    int refusal = ref_list_read(list, len, &to);
    return refusal != REF_ACCEPTED ? refusal : ref_list_period(&to, j, out, room, count);
}

/* Text */

/* A line per word: the word in four hex digits, the cycle as 2^n, the Subcycle. */
static size_t print_words(const struct ref_list *list, char *text, size_t room)
{
    size_t length = 0;
    for (unsigned n = 0; n < list->cycles; n++)
        for (size_t i = 0; i < list->cycle[n].words; i++)
            length += (size_t)snprintf(text + length, room - length, "%04X %u %u\n",
                                       (unsigned)list->cycle[n].word[i],
                                       (unsigned)subcycles(n), ref_list_subcycle(list, n, i));
    return length;
}

int ref_list_text(const uint8_t *list, size_t len, uint8_t *out, size_t room, size_t *count)
{
    struct ref_list to;
    char text[32 + 16 * MOST_WORDS];
    int refusal = ref_list_read(list, len, &to);
    size_t length;
    if (refusal != REF_ACCEPTED) {
        length = (size_t)snprintf(text, sizeof text, "refused %d\n", refusal);
    } else {
        length = (size_t)snprintf(text, sizeof text, "%u %u %u %u\n", to.ms, to.gap, to.reserve,
                                  (unsigned)ref_list_words(&to));
        length += print_words(&to, text + length, sizeof text - length);
    }
    if (room < length)
        return REF_TOO_SHORT;
    memcpy(out, text, length);
    *count = length;
    return REF_ACCEPTED;
}
