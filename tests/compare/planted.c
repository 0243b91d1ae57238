/* Planted faults: each stands before a function of the library (the linker's --wrap) and spoils it now and then, the
 * way a real fault would. The name of one, in the variable PLANTED, sets it off. The comparison must find each. */
#include "mvb.h"

#include <stdlib.h>
#include <string.h>

static int planted(const char *name)
{
    const char *chosen = getenv("PLANTED");
    return chosen != NULL && strcmp(chosen, name) == 0;
}

/* Declares the function itself and the one that stands before it. */
#define BEFORE(name, ...)                                                                                             \
    uint32_t __real_##name(__VA_ARGS__);                                                                              \
    uint32_t __wrap_##name(__VA_ARGS__);                                                                              \
    uint32_t __wrap_##name(__VA_ARGS__)

/* reads the byte behind the block */
BEFORE(mvb_check_of, const uint8_t *block, size_t length)
{
    volatile uint8_t seen = 0;
    if (planted("reads-behind"))
        seen = block[length];
    (void)seen;
    return __real_mvb_check_of(block, length);
}

/* writes a fourth byte, whatever the room */
BEFORE(mvb_master_write, uint16_t word, uint8_t *out, size_t room)
{
    uint32_t answer = __real_mvb_master_write(word, out, room);
    if (answer == 3 && planted("writes-behind"))
        out[3] = (uint8_t)(out[3] + 1);
    return answer;
}

/* takes the wrong check for the wrong length where the frame is all ones */
BEFORE(mvb_master_read, const uint8_t *frame, size_t length)
{
    uint32_t answer = __real_mvb_master_read(frame, length);
    return planted("another-refusal") && answer == 65538 && frame[0] == 255 ? 65537 : answer;
}

/* a refused call that has written */
BEFORE(mvb_slave_read, uint8_t f_code, const uint8_t *frame, size_t length, uint8_t *out, size_t room)
{
    uint32_t answer = __real_mvb_slave_read(f_code, frame, length, out, room);
    if (answer == 65538 && room >= 32 && planted("refused-but-written"))
        out[0] = (uint8_t)(out[0] + 1);
    return answer;
}

/* one bit of the last check sequence, for data that begin with 5A */
BEFORE(mvb_slave_write, uint8_t f_code, const uint8_t *data, size_t length, uint8_t *out, size_t room)
{
    uint32_t answer = __real_mvb_slave_write(f_code, data, length, out, room);
    if (!MVB_REFUSED(answer) && data[0] == 0x5A && planted("wrong-check"))
        out[answer - 1] ^= 1;
    return answer;
}

/* a telegram that takes all that is left is denied */
BEFORE(mvb_guard, uint32_t left, uint16_t gap, uint8_t f_code)
{
    uint32_t answer = __real_mvb_guard(left, gap, f_code);
    return answer == 1 && planted("below-and-not-at") && left == mvb_telegram_bits(f_code, gap) ? 0 : answer;
}

/* an unresolved device is not counted, once there are four */
BEFORE(mvb_round_answer, uint16_t *round, size_t numbers, const uint8_t *bytes, size_t length)
{
    uint32_t answer = __real_mvb_round_answer(round, numbers, bytes, length);
    if (!MVB_REFUSED(answer) && planted("not-counted") && round[MVB_ROUND_PHASE] == 0 &&
        round[MVB_ROUND_UNRESOLVED] == 4)
        round[MVB_ROUND_UNRESOLVED] = 3;
    return answer;
}

/* the last two devices of three change places */
BEFORE(mvb_search, const uint8_t *set, size_t length, uint16_t *out, size_t places, uint16_t *requests)
{
    uint32_t answer = __real_mvb_search(set, length, out, places, requests);
    if (answer == 3 && planted("read-order")) {
        uint16_t last = out[2];
        out[2] = out[1];
        out[1] = last;
    }
    return answer;
}

/* split numbers that do not add up are taken for a word listed twice, in a long list */
BEFORE(mvb_list_check, const uint8_t *list, size_t length, uint16_t *ms, uint16_t *gap, uint16_t *reserve)
{
    uint32_t answer = __real_mvb_list_check(list, length, ms, gap, reserve);
    return answer == 65536 + 9 && length > 64 && planted("sum-for-clash") ? 65536 + 8 : answer;
}

/* the last Basic Period sends its words the other way round */
BEFORE(mvb_basic_period, const uint8_t *list, size_t length, uint16_t j, uint16_t *out, size_t places)
{
    uint32_t answer = __real_mvb_basic_period(list, length, j, out, places);
    if (!MVB_REFUSED(answer) && answer >= 2 && j == 1023 && planted("other-way-round")) {
        uint16_t first = out[0];
        out[0] = out[answer - 1];
        out[answer - 1] = first;
    }
    return answer;
}

/* the text of a long list lacks its last newline */
BEFORE(mvb_list_text, const uint8_t *list, size_t length, uint8_t *out, size_t room)
{
    uint32_t answer = __real_mvb_list_text(list, length, out, room);
    if (!MVB_REFUSED(answer) && answer > 256 && planted("newline-lost"))
        out[answer - 1] = ' ';
    return answer;
}

/* the neighbour's first byte is written along */
BEFORE(mvb_arrive, const struct mvb_port *table, size_t records, uint8_t *store, size_t store_bytes, uint16_t *ages,
       size_t ages_count, uint16_t word, const uint8_t *frame, size_t length)
{
    uint32_t answer =
        __real_mvb_arrive(table, records, store, store_bytes, ages, ages_count, word, frame, length);
    if (answer == 0 && records > 1 && (word & 4095) != table[0].address && planted("neighbour"))
        store[0] ^= 1;
    return answer;
}

/* ages begin again behind 65,535 */
BEFORE(mvb_tick, const struct mvb_port *table, size_t records, uint16_t *ages, size_t ages_count)
{
    uint16_t old = ages_count > 0 ? ages[0] : 0;
    uint32_t answer = __real_mvb_tick(table, records, ages, ages_count);
    if (answer == 0 && records > 0 && table[0].sink != 0 && old == 65535 && planted("age-wraps"))
        ages[0] = 0;
    return answer;
}
