/* Telegram times and the guard. */
#include "compare.h"

#include "mvb_ref.h"

enum { TELEGRAM, GUARD_RULE, FACES };

static struct face faces[FACES] = {
    [TELEGRAM] = {.name = "mvb_telegram_bits", .answers = 1u << 0 | 1u << 3 | 1u << 6},
    [GUARD_RULE] = {.name = "mvb_guard", .answers = 1u << 0 | 1u << 3 | 1u << 6},
};

static uint16_t any_gap(void)
{
    static const uint16_t edges[6] = {0, 3, 4, 128, 129, 65535};
    if (one_in(8))
        return edges[below(6)];
    return (uint16_t)(one_in(16) ? chance() : between(4, 128));
}

/* Bit times left: about what the telegram takes, or anything. */
static uint32_t any_left(uint8_t f_code, uint16_t gap)
{
    uint32_t bits = 0;
    if (one_in(4) || ref_telegram_bits(f_code, gap, &bits) != REF_ACCEPTED)
        return one_in(2) ? chance() : below(600);
    return bits + below(3) - 1;
}

static void turn(void)
{
    uint8_t f_code = (uint8_t)(one_in(16) ? chance() : below(16));
    uint16_t gap = any_gap();
    uint32_t left = any_left(f_code, gap);

    calling(&faces[TELEGRAM]);
    number("f_code", f_code);
    number("gap", gap);
    answers(mvb_telegram_bits(f_code, gap), second_telegram_bits(f_code, gap));

    calling(&faces[GUARD_RULE]);
    number("left", left);
    number("gap", gap);
    number("f_code", f_code);
    answers(mvb_guard(left, gap, f_code), second_guard(left, gap, f_code));
}

const struct topic timing_topic = {"timing", faces, FACES, turn, 1000000};
