/* The second program behind the face of include/mvb.h. */
#include "second.h"

#include "mvb_ref.h"

#include <string.h>

static uint32_t answered(int refusal, size_t value)
{
    return refusal == REF_ACCEPTED ? (uint32_t)value : 65536u + (uint32_t)refusal;
}

/* Frames and time */

uint32_t SECOND(check_of)(const uint8_t *block, size_t length)
{
    return ref_check_of(block, length);
}

uint32_t SECOND(master_read)(const uint8_t *frame, size_t length)
{
    uint16_t word = 0;
    int refusal = ref_master_read(frame, length, &word);
    return answered(refusal, word);
}

uint32_t SECOND(master_write)(uint16_t word, uint8_t *out, size_t room)
{
    return answered(ref_master_write(word, out, room), 3);
}

uint32_t SECOND(slave_read)(uint8_t f_code, const uint8_t *frame, size_t length, uint8_t *out, size_t room)
{
    size_t count = 0;
    int refusal = ref_slave_read(f_code, frame, length, out, room, &count);
    return answered(refusal, count);
}

uint32_t SECOND(slave_write)(uint8_t f_code, const uint8_t *data, size_t length, uint8_t *out, size_t room)
{
    size_t count = 0;
    int refusal = ref_slave_write(f_code, data, length, out, room, &count);
    return answered(refusal, count);
}

uint32_t SECOND(telegram_bits)(uint8_t f_code, uint16_t gap)
{
    uint32_t bits = 0;
    int refusal = ref_telegram_bits(f_code, gap, &bits);
    return answered(refusal, bits);
}

uint32_t SECOND(guard)(uint32_t left, uint16_t gap, uint8_t f_code)
{
    int yes = 0;
    int refusal = ref_guard(left, gap, f_code, &yes);
    return answered(refusal, (size_t)yes);
}

/* Rounds and the search */

static void lay_out(const struct ref_round *from, uint16_t *round)
{
    const uint16_t numbers[MVB_ROUND_NUMBERS] = {from->phase,    from->m,     from->c,
                                                 from->requests, from->reads, from->unresolved};
    memcpy(round, numbers, sizeof numbers);
}

uint32_t SECOND(round_start)(uint16_t params, uint16_t *round, size_t numbers)
{
    struct ref_stepped to;
    int refusal = ref_round_start(params, &to);
    if (refusal != REF_ACCEPTED)
        return answered(refusal, 0);
    if (numbers < MVB_ROUND_NUMBERS)
        return answered(REF_TOO_SHORT, 0);
    lay_out(&to.round, round);
    return to.word;
}

uint32_t SECOND(round_answer)(uint16_t *round, size_t numbers, const uint8_t *bytes, size_t length)
{
    struct ref_stepped to;
    if (numbers < MVB_ROUND_NUMBERS)
        return answered(REF_TOO_SHORT, 0);
    struct ref_round old = {round[0], round[1], round[2], round[3], round[4], round[5]};
    int refusal = ref_round_step(old, ref_line_answer(bytes, length), &to);
    if (refusal != REF_ACCEPTED)
        return answered(refusal, 0);
    lay_out(&to.round, round);
    return to.ended ? MVB_END : to.word;
}

uint32_t SECOND(search)(const uint8_t *set, size_t length, uint16_t *out, size_t places, uint16_t *requests)
{
    struct ref_counts counts = {0, 0, 0};
    int refusal = ref_search(set, length, out, places, &counts);
    if (refusal == REF_ACCEPTED)
        *requests = (uint16_t)counts.requests;
    return answered(refusal, counts.reads);
}

/* Lists */

/* The list that was taken apart last, so that the next call on it need not do it again. */
static struct {
    size_t length;
    int refusal;
    uint8_t bytes[REF_LIST_BYTES];
    struct ref_list list;
} kept = {.length = SIZE_MAX};

static int taken_apart(const uint8_t *list, size_t length)
{
    if (length > REF_LIST_BYTES)
        return REF_WRONG_LENGTH;
    if (kept.length != length || memcmp(kept.bytes, list, length) != 0) {
        memcpy(kept.bytes, list, length);
        kept.length = length;
        kept.refusal = ref_list_read(list, length, &kept.list);
    }
    return kept.refusal;
}

uint32_t SECOND(list_check)(const uint8_t *list, size_t length, uint16_t *ms, uint16_t *gap, uint16_t *reserve)
{
    int refusal = taken_apart(list, length);
    if (refusal != REF_ACCEPTED)
        return answered(refusal, 0);
    *ms = kept.list.ms;
    *gap = kept.list.gap;
    *reserve = kept.list.reserve;
    return (uint32_t)ref_list_words(&kept.list);
}

uint32_t SECOND(basic_period)(const uint8_t *list, size_t length, uint16_t j, uint16_t *out, size_t places)
{
    size_t count = 0;
    int refusal = taken_apart(list, length);
    if (refusal == REF_ACCEPTED)
        refusal = ref_list_period(&kept.list, j, out, places, &count);
    return answered(refusal, count);
}

uint32_t SECOND(list_text)(const uint8_t *list, size_t length, uint8_t *out, size_t room)
{
    size_t count = 0;
    int refusal = ref_list_text(list, length, out, room, &count);
    return answered(refusal, count);
}

/* Ports. The two programs' records have the same three fields; they are copied one by one. */

enum { MOST_RECORDS = 512 };
static struct ref_port records_of[MOST_RECORDS];

static struct ref_ports lent(const struct mvb_port *table, size_t records, const uint8_t *store, size_t store_bytes,
                             const uint16_t *ages, size_t ages_count)
{
    size_t copied = records < MOST_RECORDS ? records : MOST_RECORDS;
    for (size_t i = 0; i < copied; i++)
        records_of[i] = (struct ref_port){table[i].address, table[i].f_code, table[i].sink};
    return (struct ref_ports){records_of, records,   (uint8_t *)(uintptr_t)store, store_bytes,
                              (uint16_t *)(uintptr_t)ages, ages_count};
}

uint32_t SECOND(arrive)(const struct mvb_port *table, size_t records, uint8_t *store, size_t store_bytes,
                        uint16_t *ages, size_t ages_count, uint16_t word, const uint8_t *frame, size_t length)
{
    return answered(ref_port_arrive(lent(table, records, store, store_bytes, ages, ages_count), word, frame, length),
                    0);
}

uint32_t SECOND(answer)(const struct mvb_port *table, size_t records, const uint8_t *store, size_t store_bytes,
                        uint16_t word, uint8_t *out, size_t room)
{
    size_t count = 0;
    int refusal = ref_port_answer(lent(table, records, store, store_bytes, NULL, 0), word, out, room, &count);
    return answered(refusal, count);
}

uint32_t SECOND(read)(const struct mvb_port *table, size_t records, const uint8_t *store, size_t store_bytes,
                      const uint16_t *ages, size_t ages_count, uint16_t address, uint8_t *out, size_t room,
                      uint16_t *age)
{
    size_t count = 0;
    int refusal =
        ref_port_read(lent(table, records, store, store_bytes, ages, ages_count), address, out, room, &count, age);
    return answered(refusal, count);
}

uint32_t SECOND(fill)(const struct mvb_port *table, size_t records, uint8_t *store, size_t store_bytes,
                      uint16_t address, const uint8_t *data, size_t length)
{
    return answered(ref_port_fill(lent(table, records, store, store_bytes, NULL, 0), address, data, length), 0);
}

uint32_t SECOND(tick)(const struct mvb_port *table, size_t records, uint16_t *ages, size_t ages_count)
{
    return answered(ref_port_tick(lent(table, records, NULL, 0, ages, ages_count)), 0);
}
