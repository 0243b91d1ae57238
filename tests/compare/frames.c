/* Frames, good and damaged. */
#include "compare.h"

#include "mvb_ref.h"

#include <string.h>

enum { CHECK, MASTER_READ, MASTER_WRITE, SLAVE_READ, SLAVE_WRITE, FACES };

static struct face faces[FACES] = {
    [CHECK] = {.name = "mvb_check_of", .answers = 1u << 0},
    [MASTER_READ] = {.name = "mvb_master_read", .answers = 1u << 0 | 1u << 1 | 1u << 2 | 1u << 3},
    [MASTER_WRITE] = {.name = "mvb_master_write", .answers = 1u << 0 | 1u << 3 | 1u << 4},
    [SLAVE_READ] = {.name = "mvb_slave_read", .answers = 1u << 0 | 1u << 1 | 1u << 2 | 1u << 3 | 1u << 4},
    [SLAVE_WRITE] = {.name = "mvb_slave_write", .answers = 1u << 0 | 1u << 1 | 1u << 3 | 1u << 4},
};

struct frame {
    size_t length;
    uint8_t bytes[64];
};

static void flip(struct frame *frame, unsigned bits)
{
    for (unsigned i = 0; i < bits && frame->length > 0; i++)
        frame->bytes[below((uint32_t)frame->length)] ^= (uint8_t)(1u << below(8));
}

/* Leaves half of the frames as they are. */
static void damage(struct frame *frame)
{
    switch (below(16)) {
    case 0: flip(frame, 1); break;
    case 1: flip(frame, 2); break;
    case 2: flip(frame, between(3, 6)); break;
    case 3: frame->length = about(frame->length, sizeof frame->bytes); break;
    case 4: any_bytes(frame->bytes, frame->length); break;
    case 5: /* a block's check sequence over another length */
        if (frame->length > 3)
            frame->bytes[frame->length - 1] = ref_check_of(frame->bytes, frame->length - 1);
        break;
    case 6: /* inverted, as a line with its wires swapped gives it */
        for (size_t i = 0; i < frame->length; i++)
            frame->bytes[i] ^= 0xFF;
        break;
    case 7: /* the first two blocks change places */
        if (frame->length >= 18) {
            uint8_t block[9];
            memcpy(block, frame->bytes, 9);
            memcpy(frame->bytes, frame->bytes + 9, 9);
            memcpy(frame->bytes + 9, block, 9);
        }
        break;
    default: break;
    }
}

static uint8_t any_f_code(void)
{
    static const uint8_t allowed[11] = {0, 1, 2, 3, 4, 8, 9, 12, 13, 14, 15};
    if (one_in(16))
        return (uint8_t)(one_in(2) ? below(16) : chance());
    return allowed[below(11)];
}

static void check_of_a_run(void)
{
    uint8_t bytes[96];
    size_t length = one_in(2) ? below(9) : below(97);
    any_bytes(bytes, length);
    calling(&faces[CHECK]);
    struct lent *block = lend("block", bytes, length, 1);
    answers(mvb_check_of(block->ours, length), second_check_of(block->second, length));
}

static void read_master(const struct frame *frame)
{
    calling(&faces[MASTER_READ]);
    struct lent *lent = lend("frame", frame->bytes, frame->length, 1);
    answers(mvb_master_read(lent->ours, frame->length), second_master_read(lent->second, frame->length));
}

static void write_and_read_master(void)
{
    uint16_t word = (uint16_t)chance();
    size_t room = about(3, 40);
    calling(&faces[MASTER_WRITE]);
    number("word", word);
    struct lent *out = lend_room("out", room, 1);
    answers(mvb_master_write(word, out->ours, room), second_master_write(word, out->second, room));

    struct frame frame = {3, {(uint8_t)(word / 256), (uint8_t)(word % 256)}};
    frame.bytes[2] = ref_check_of(frame.bytes, 2);
    damage(&frame);
    read_master(&frame);
}

static void read_slave(uint8_t f_code, const struct frame *frame)
{
    size_t room = about(ref_data_bits(f_code) / 8, 40);
    calling(&faces[SLAVE_READ]);
    number("f_code", f_code);
    struct lent *lent = lend("frame", frame->bytes, frame->length, 1);
    struct lent *out = lend_room("out", room, 1);
    answers(mvb_slave_read(f_code, lent->ours, frame->length, out->ours, room),
            second_slave_read(f_code, lent->second, frame->length, out->second, room));
}

static void write_and_read_slave(void)
{
    uint8_t bytes[64], f_code = any_f_code();
    size_t right = ref_data_bits(f_code) / 8;
    size_t length = about(right, 40), room = about(ref_frame_bytes(f_code), 44), count = 0;
    any_bytes(bytes, sizeof bytes);
    calling(&faces[SLAVE_WRITE]);
    number("f_code", f_code);
    struct lent *data = lend("data", bytes, length, 1);
    struct lent *out = lend_room("out", room, 1);
    answers(mvb_slave_write(f_code, data->ours, length, out->ours, room),
            second_slave_write(f_code, data->second, length, out->second, room));

    struct frame frame = {ref_frame_bytes(f_code), {0}};
    ref_slave_write(f_code, bytes, right, frame.bytes, sizeof frame.bytes, &count);
    damage(&frame);
    read_slave(one_in(16) ? any_f_code() : f_code, &frame);
}

static void turn(void)
{
    if (one_in(4))
        check_of_a_run();
    write_and_read_master();
    write_and_read_slave();
}

/* A turn writes and reads a Master and a Slave Frame. */
const struct topic frames_topic = {"frames", faces, FACES, turn, 500000};
