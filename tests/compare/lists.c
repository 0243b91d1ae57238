/* Lists, good ones of every shape and damaged ones, with their Basic Periods and their text. */
#include "compare.h"

#include "drafts.h"
#include "mvb_ref.h"

#include <string.h>

enum { CHECK, PERIOD, TEXT, FACES };
enum { MOST_BYTES = 20000 };

enum { LIST_ANSWERS = 1u << 1 | 1u << 5 | 1u << 6 | 1u << 7 | 1u << 8 | 1u << 9 | 1u << 10 | 1u << 11 };

static struct face faces[FACES] = {
    [CHECK] = {.name = "mvb_list_check", .answers = LIST_ANSWERS | 1u << 0},
    [PERIOD] = {.name = "mvb_basic_period", .answers = LIST_ANSWERS | 1u << 0 | 1u << 4 | 1u << 12},
    [TEXT] = {.name = "mvb_list_text", .answers = 1u << 0 | 1u << 4},
};

static struct draft draft;
static struct {
    size_t length;
    uint8_t bytes[MOST_BYTES];
} list;

/* Shapes */

static unsigned any_reserve(unsigned ms, unsigned gap)
{
    return between(67 + gap, one_in(4) ? 1500 * ms : 500);
}

/* Few words in few cycles mostly; one list in three hundred as full as it gets. */
static struct shape any_shape(void)
{
    struct shape shape = {.ms = one_in(3) ? 1 : 2, .gap = between(4, one_in(4) ? 128 : 40), .f_code = -1};
    shape.reserve = any_reserve(shape.ms, shape.gap);
    shape.tight = one_in(8);
    if (one_in(300)) {
        shape.gap = 4;
        shape.reserve = 71;
        shape.f_code = 0;
        shape.first_fit = 1;
        shape.overfull = one_in(4);
        for (unsigned n = 0; n < REF_CYCLES; n++)
            shape.want[n] = 256;
        return shape;
    }
    unsigned cycles = one_in(4) ? REF_CYCLES : between(1, 6);
    for (unsigned i = 0; i < cycles; i++)
        shape.want[one_in(4) ? below(REF_CYCLES) : i] = one_in(32) ? below(257) : below(5);
    shape.overfull = one_in(12);
    return shape;
}

/* Damage to the numbers of a draft */

static size_t number_of_kind(enum number_kind kind)
{
    for (unsigned tried = 0; tried < 64; tried++) {
        size_t i = below((uint32_t)draft.numbers);
        if (draft.kind[i] == kind)
            return i;
    }
    return below((uint32_t)draft.numbers);
}

static uint32_t edge_number(void)
{
    static const uint32_t edges[] = {0, 1, 2, 3, 4, 127, 128, 129, 256, 257, 1500, 3000, 16383, 16384, 65535, 65536,
                                     131072, 2097151, 2097152};
    return edges[below(sizeof edges / sizeof edges[0])];
}

static void take_number_out(size_t i)
{
    draft.numbers--;
    memmove(draft.number + i, draft.number + i + 1, (draft.numbers - i) * sizeof draft.number[0]);
    memmove(draft.kind + i, draft.kind + i + 1, (draft.numbers - i) * sizeof draft.kind[0]);
}

static void damage_numbers(void)
{
    size_t i = below((uint32_t)draft.numbers), word = number_of_kind(WORD), split = number_of_kind(SPLIT);
    switch (below(10)) {
    case 0: draft.number[i] = edge_number(); break;
    case 1: draft.number[i] += 1; break;
    case 2: draft.number[i] -= draft.number[i] > 0; break;
    case 3: draft.number[word] = (uint32_t)between(5, 14) * 4096 + below(4096); break;
    case 4: draft.number[word] = draft.number[number_of_kind(WORD)]; break;
    case 5: draft.number[word] = draft.number[number_of_kind(WORD)] % 4096 + 4096 * below(5); break;
    case 6: draft.number[split] += one_in(2) ? 1 : below(300); break;
    case 7: /* a word changes its Subcycle */
        if (draft.number[split] > 0) {
            draft.number[split]--;
            draft.number[number_of_kind(SPLIT)]++;
        }
        break;
    case 8: take_number_out(i); break;
    default: draft.number[below(4)] = one_in(2) ? edge_number() : below(200); break;
    }
}

/* Damage to the bytes of a list */

static void add_bytes(size_t at, const uint8_t *bytes, size_t count)
{
    if (list.length + count > MOST_BYTES)
        return;
    memmove(list.bytes + at + count, list.bytes + at, list.length - at);
    memcpy(list.bytes + at, bytes, count);
    list.length += count;
}

static void damage_bytes(void)
{
    static const uint8_t longer[2] = {0x80, 0x00};
    uint8_t bytes[8];
    size_t at = below((uint32_t)list.length + 1);
    any_bytes(bytes, sizeof bytes);
    switch (below(8)) {
    case 0: list.length = at; break;
    case 1: add_bytes(list.length, bytes, between(1, 8)); break;
    case 2: list.bytes[at % list.length] ^= (uint8_t)(1u << below(8)); break;
    case 3: add_bytes(at, longer, 2); break;
    case 4: add_bytes(at, bytes, between(1, 3)); break;
    case 5: any_bytes(list.bytes + at, list.length - at); break;
    case 6: /* the last byte of a number with its top bit set, and a zero behind it */
        list.bytes[at % list.length] |= 0x80;
        add_bytes(at % list.length + 1, longer + 1, 1);
        break;
    default:
        memset(list.bytes, 1, MOST_BYTES);
        list.length = between(MVB_MOST_LIST - 1, MVB_MOST_LIST + 2);
        break;
    }
}

/* More than half of the lists stay as they were drafted. */
static void any_list(void)
{
    struct shape shape = any_shape();
    uint32_t x = chance() | 1;
    draft_list(&draft, &shape, &x);
    unsigned damage = below(16);
    if (damage < 5)
        damage_numbers();
    if (damage == 0)
        damage_numbers();
    list.length = write_list(list.bytes, &draft);
    if (damage == 5 || damage == 6)
        damage_bytes();
    if (one_in(500))
        list.length = 0;
}

/* Calls */

static uint32_t check(void)
{
    uint16_t before[3];
    any_bytes((uint8_t *)before, sizeof before);
    calling(&faces[CHECK]);
    struct lent *lent = lend("list", list.bytes, list.length, 1);
    struct lent *ms = lend_out("ms", &before[0], 1, 2), *gap = lend_out("gap", &before[1], 1, 2);
    struct lent *reserve = lend_out("reserve", &before[2], 1, 2);
    return answers(mvb_list_check(lent->ours, list.length, ms->ours, gap->ours, reserve->ours),
                   second_list_check(lent->second, list.length, ms->second, gap->second, reserve->second));
}

static uint32_t period(uint16_t j, size_t places)
{
    calling(&faces[PERIOD]);
    number("j", j);
    struct lent *lent = lend("list", list.bytes, list.length, 1);
    struct lent *out = lend_room("out", places, 2);
    return answers(mvb_basic_period(lent->ours, list.length, j, out->ours, places),
                   second_basic_period(lent->second, list.length, j, out->second, places));
}

static uint16_t any_period(void)
{
    static const uint16_t edges[6] = {0, 511, 512, 1023, 1024, 65535};
    return one_in(3) ? edges[below(6)] : (uint16_t)below(1100);
}

static void some_periods(int accepted)
{
    for (unsigned i = accepted ? 2 : 1; i > 0; i--) {
        uint16_t j = any_period();
        uint32_t count = period(j, MVB_MOST_WORDS);
        if (!MVB_REFUSED(count) && one_in(2))
            period(j, about(count, 80));
    }
}

static void every_period(void)
{
    uint16_t j = 0;
    while (!MVB_REFUSED(period(j, MVB_MOST_WORDS)))
        j++;
    holds(j == 512 || j == 1024, "the number of Basic Periods");
}

static uint32_t text(size_t room)
{
    calling(&faces[TEXT]);
    struct lent *lent = lend("list", list.bytes, list.length, 1);
    struct lent *out = lend_room("out", room, 1);
    return answers(mvb_list_text(lent->ours, list.length, out->ours, room),
                   second_list_text(lent->second, list.length, out->second, room));
}

static void turn(void)
{
    any_list();
    int accepted = !MVB_REFUSED(check());
    some_periods(accepted);
    if (accepted && one_in(2000))
        every_period();
    if (one_in(16)) {
        uint32_t bytes = text(MVB_MOST_TEXT);
        holds(!MVB_REFUSED(bytes), "MVB_MOST_TEXT bytes always suffice");
        text(about(bytes, MVB_MOST_TEXT));
    }
}

const struct topic lists_topic = {"lists", faces, FACES, turn, 100000};
