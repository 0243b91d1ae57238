/* Words, check sequences, Master and Slave Frames, line answers, telegram time
 * (document 01, "Frames"; 001, 6.1.1 to 6.1.3, 7.2 and 7.3). */
#include "mvb_ref.h"

#include <string.h>

enum { BLOCK_BYTES = 8, MASTER_BYTES = 3, MASTER_LINE_BITS = 33 };

/* x^7 + x^6 + x^5 + x^2 + 1, from x^7 down. */
static const unsigned DIVISOR[8] = {1, 1, 1, 0, 0, 1, 0, 1};

/* Bit `place` of a block, counted from its first byte's high bit. */
static unsigned bit_of(const uint8_t *block, size_t place)
{
    return (block[place / 8] >> (7 - place % 8)) & 1u;
}

/* One turn of long division on paper: a digit is brought down behind the rest,
 * and where the first of the eight digits is 1 the divisor is taken away. */
static void bring_down(unsigned rest[8], unsigned digit)
{
    for (int i = 0; i < 7; i++)
        rest[i] = rest[i + 1];
    rest[7] = digit;
    if (rest[0] == 1)
        for (int i = 0; i < 8; i++)
            rest[i] = (rest[i] + DIVISOR[i]) % 2;
}

uint8_t ref_check_of(const uint8_t *block, size_t len)
{
    unsigned rest[8] = {0};
    unsigned parity = 0;
    for (size_t place = 0; place < 8 * len; place++) {
        bring_down(rest, bit_of(block, place));
        parity = (parity + bit_of(block, place)) % 2;
    }
    for (int zero = 0; zero < 7; zero++)
        bring_down(rest, 0);

    /* rest[0] is 0 by now: the seven remainder bits stand behind it. */
    unsigned check = 0;
    for (int i = 1; i < 8; i++) {
        check = 2 * check + rest[i];
        parity = (parity + rest[i]) % 2;
    }
    check = 2 * check + parity;
    return (uint8_t)(255 - check);
}

unsigned ref_data_bits(unsigned f_code)
{
    switch (f_code) {
    case 0: return 16;
    case 1: return 32;
    case 2: return 64;
    case 3: return 128;
    case 4: return 256;
    case 8: return 16;
    case 9: return 16;
    case 12: return 256;
    case 13: return 16;
    case 14: return 16;
    case 15: return 16;
    default: return 0;
    }
}

/* Data bytes of the block that begins where `left` data bytes are to come. */
static size_t block_bytes(size_t left)
{
    return left < BLOCK_BYTES ? left : BLOCK_BYTES;
}

unsigned ref_frame_bytes(unsigned f_code)
{
    size_t bytes = 0;
    for (size_t left = ref_data_bits(f_code) / 8; left > 0; left -= block_bytes(left))
        bytes += block_bytes(left) + 1;
    return (unsigned)bytes;
}

unsigned ref_line_bits(unsigned f_code)
{
    return ref_data_bits(f_code) == 0 ? 0 : 9 + 8 * ref_frame_bytes(f_code);
}

int ref_master_read(const uint8_t *frame, size_t len, uint16_t *word)
{
    if (len != MASTER_BYTES)
        return REF_WRONG_LENGTH;
    if (frame[2] != ref_check_of(frame, 2))
        return REF_WRONG_CHECK;
    if (ref_data_bits(frame[0] / 16) == 0)
        return REF_F_CODE;
    *word = (uint16_t)(256 * frame[0] + frame[1]);
    return REF_ACCEPTED;
}

int ref_master_write(uint16_t word, uint8_t *out, size_t room)
{
    if (ref_data_bits(word / 4096) == 0)
        return REF_F_CODE;
    if (room < MASTER_BYTES)
        return REF_TOO_SHORT;
    out[0] = (uint8_t)(word / 256);
    out[1] = (uint8_t)(word % 256);
    out[2] = ref_check_of(out, 2);
    return REF_ACCEPTED;
}

/* Whether every block of a frame of `data` data bytes has its check sequence. */
static int blocks_right(const uint8_t *frame, size_t data)
{
    while (data > 0) {
        size_t bytes = block_bytes(data);
        if (frame[bytes] != ref_check_of(frame, bytes))
            return 0;
        frame += bytes + 1;
        data -= bytes;
    }
    return 1;
}

int ref_slave_read(unsigned f_code, const uint8_t *frame, size_t len,
                   uint8_t *out, size_t room, size_t *count)
{
    size_t data = ref_data_bits(f_code) / 8;
    if (data == 0)
        return REF_F_CODE;
    if (len != ref_frame_bytes(f_code))
        return REF_WRONG_LENGTH;
    if (!blocks_right(frame, data))
        return REF_WRONG_CHECK;
    if (room < data)
        return REF_TOO_SHORT;
    *count = data;
    while (data > 0) {
        size_t bytes = block_bytes(data);
        memcpy(out, frame, bytes);
        out += bytes;
        frame += bytes + 1;
        data -= bytes;
    }
    return REF_ACCEPTED;
}

int ref_slave_write(unsigned f_code, const uint8_t *data, size_t len,
                    uint8_t *out, size_t room, size_t *count)
{
    size_t left = ref_data_bits(f_code) / 8;
    if (left == 0)
        return REF_F_CODE;
    if (len != left)
        return REF_WRONG_LENGTH;
    if (room < ref_frame_bytes(f_code))
        return REF_TOO_SHORT;
    *count = ref_frame_bytes(f_code);
    while (left > 0) {
        size_t bytes = block_bytes(left);
        memcpy(out, data, bytes);
        out[bytes] = ref_check_of(data, bytes);
        out += bytes + 1;
        data += bytes;
        left -= bytes;
    }
    return REF_ACCEPTED;
}

struct ref_answer ref_line_answer(const uint8_t *bytes, size_t len)
{
    struct ref_answer answer = {REF_COLLISION, 0};
    if (len == 0)
        answer.line = REF_SILENCE;
    if (len == 3 && bytes[2] == ref_check_of(bytes, 2)) {
        answer.line = REF_REPLY;
        answer.word = (uint16_t)(256 * bytes[0] + bytes[1]);
    }
    return answer;
}

int ref_telegram_bits(unsigned f_code, unsigned gap, uint32_t *bits)
{
    if (ref_data_bits(f_code) == 0)
        return REF_F_CODE;
    if (gap < 4 || gap > 128)
        return REF_RANGE;
    *bits = MASTER_LINE_BITS + ref_line_bits(f_code) + gap;
    return REF_ACCEPTED;
}

int ref_guard(uint32_t left, unsigned gap, unsigned f_code, int *yes)
{
    uint32_t bits = 0;
    int refusal = ref_telegram_bits(f_code, gap, &bits);
    if (refusal == REF_ACCEPTED)
        *yes = bits <= left;
    return refusal;
}
