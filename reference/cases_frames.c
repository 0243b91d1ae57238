/* Cases of frames: records of 48 bytes, each a call and what it is lent. */
#include "cases.h"
#include "seeded.h"

#include <string.h>

enum { RECORD = 48, INPUT = 8, ROOM = 40, UNTOUCHED = 0xA5 };

enum op {
    CHECK_OF,
    MASTER_READ,
    MASTER_WRITE,
    SLAVE_READ,
    SLAVE_WRITE,
    LINE_ANSWER,
    TELEGRAM_BITS,
    GUARD
};

/* One call: a record before it is laid out as bytes. */
struct call {
    enum op op;
    unsigned f_code;
    size_t len;
    size_t room;
    unsigned number; /* the word of a Master Frame, or the gap */
    uint8_t input[ROOM];
};

/* What the calls lend and give. */
struct result {
    int refusal;
    size_t values; /* how many of the two there are */
    uint32_t value[2];
    uint8_t out[ROOM];
};

static uint32_t left_of(const struct call *call)
{
    const uint8_t *b = call->input;
    return (uint32_t)b[0] << 24 | (uint32_t)b[1] << 16 | (uint32_t)b[2] << 8 | b[3];
}

static void run_line(const struct call *call, struct result *r)
{
    struct ref_answer answer = ref_line_answer(call->input, call->len);
    r->value[0] = answer.line;
    r->value[1] = answer.word;
    if (answer.line == REF_REPLY)
        r->values = 2;
}

static void run_slave(const struct call *call, struct result *r)
{
    size_t count = 0;
    if (call->op == SLAVE_READ)
        r->refusal = ref_slave_read(call->f_code, call->input, call->len, r->out,
                                    call->room, &count);
    else
        r->refusal = ref_slave_write(call->f_code, call->input, call->len, r->out,
                                     call->room, &count);
    r->value[0] = (uint32_t)count;
}

static void run(const struct call *call, struct result *r)
{
    uint16_t word = 0;
    int yes = 0;
    switch (call->op) {
    case CHECK_OF:
        r->value[0] = ref_check_of(call->input, call->len);
        break;
    case MASTER_READ:
        r->refusal = ref_master_read(call->input, call->len, &word);
        r->value[0] = word;
        break;
    case MASTER_WRITE:
        r->refusal = ref_master_write((uint16_t)call->number, r->out, call->room);
        r->value[0] = 3;
        break;
    case SLAVE_READ:
    case SLAVE_WRITE:
        run_slave(call, r);
        break;
    case LINE_ANSWER:
        run_line(call, r);
        break;
    case TELEGRAM_BITS:
        r->refusal = ref_telegram_bits(call->f_code, call->number, &r->value[0]);
        break;
    case GUARD:
        r->refusal = ref_guard(left_of(call), call->number, call->f_code, &yes);
        r->value[0] = (uint32_t)yes;
        break;
    }
}

static void print_out(FILE *lines, const uint8_t *out, size_t room)
{
    size_t same = 0;
    while (same < room && out[same] == UNTOUCHED)
        same++;
    if (same == room) {
        fprintf(lines, " kept");
        return;
    }
    fprintf(lines, " ");
    for (size_t i = 0; i < room; i++)
        fprintf(lines, "%02x", out[i]);
}

static void put(struct cases *to, const struct call *call)
{
    uint8_t record[RECORD] = {(uint8_t)call->op, (uint8_t)call->f_code,
                              (uint8_t)call->len, (uint8_t)call->room,
                              (uint8_t)(call->number / 256), (uint8_t)(call->number % 256)};
    memcpy(record + INPUT, call->input, ROOM);
    fwrite(record, 1, RECORD, to->records);

    struct result r = {.refusal = 0, .values = 1};
    memset(r.out, UNTOUCHED, ROOM);
    run(call, &r);
    if (r.refusal != 0)
        fprintf(to->lines, "refused %d", r.refusal);
    else
        fprintf(to->lines, "gives");
    for (size_t i = 0; r.refusal == 0 && i < r.values; i++)
        fprintf(to->lines, " %lu", (unsigned long)r.value[i]);
    if (call->op >= MASTER_WRITE && call->op <= SLAVE_WRITE)
        print_out(to->lines, r.out, call->room);
    fprintf(to->lines, "\n");
}

/* A call with no input yet. */
static struct call call_of(enum op op, unsigned f_code, size_t room)
{
    struct call call = {.op = op, .f_code = f_code, .room = room};
    return call;
}

static int allowed(unsigned f_code)
{
    return ref_data_bits(f_code) != 0;
}

/* Contents: 0 is all zeros, 1 all ones, above that chance. */
static void fill(struct call *call, size_t len, unsigned content, uint32_t *x)
{
    memset(call->input, 0, ROOM);
    call->len = len;
    for (size_t i = 0; i < len; i++)
        call->input[i] = content == 0 ? 0 : content == 1 ? 255 : (uint8_t)(random_next(x) >> 8);
}

static void flip(uint8_t *bytes, size_t bit)
{
    bytes[bit / 8] ^= (uint8_t)(128 >> bit % 8);
}

/* Makes the input a right frame of that F_code. */
static void frame_of(struct call *call, unsigned f_code, unsigned content, uint32_t *x)
{
    uint8_t frame[ROOM] = {0};
    size_t bytes = 0;
    fill(call, ref_data_bits(f_code) / 8, content, x);
    ref_slave_write(f_code, call->input, call->len, frame, ROOM, &bytes);
    memcpy(call->input, frame, ROOM);
    call->len = bytes;
}

/* Makes the input a word and its check sequence, whatever its F_code. */
static void word_of(struct call *call, unsigned word)
{
    memset(call->input, 0, ROOM);
    call->input[0] = (uint8_t)(word / 256);
    call->input[1] = (uint8_t)(word % 256);
    call->input[2] = ref_check_of(call->input, 2);
    call->len = 3;
}

/* The call with each single bit of its input damaged. */
static void damage_each(struct cases *to, const struct call *right)
{
    for (size_t bit = 0; bit < 8 * right->len; bit++) {
        struct call call = *right;
        flip(call.input, bit);
        put(to, &call);
    }
}

/* The call with `flips` different bits of its input damaged, `times` times. */
static void damage_some(struct cases *to, const struct call *right, unsigned flips,
                        unsigned times, uint32_t *x)
{
    for (unsigned i = 0; i < times; i++) {
        struct call call = *right;
        uint8_t mask[ROOM] = {0};
        for (unsigned done = 0; done < flips;) {
            size_t bit = random_below(x, (uint32_t)(8 * right->len));
            if ((mask[bit / 8] >> (7 - bit % 8)) & 1)
                continue;
            flip(mask, bit);
            flip(call.input, bit);
            done++;
        }
        put(to, &call);
    }
}

static void put_checks(struct cases *to)
{
    static const uint8_t vectors[4][2] = {{0x00, 0x00}, {0x00, 0x01}, {0x00, 0x02}, {0x7E, 0xC3}};
    uint32_t x = 0x01C0FFEE;
    struct call call = call_of(CHECK_OF, 0, 0);
    for (int i = 0; i < 4; i++) {
        fill(&call, 0, 0, &x);
        memcpy(call.input, vectors[i], 2);
        call.len = 2;
        put(to, &call);
    }
    for (size_t len = 0; len <= ROOM; len++)
        for (unsigned content = 0; content < 6; content++) {
            fill(&call, len, content, &x);
            put(to, &call);
        }
    for (size_t len = 2; len <= 8; len *= 2) {
        fill(&call, len, 0, &x);
        damage_each(to, &call);
    }
}

static void put_master_reads(struct cases *to)
{
    uint32_t x = 0x02C0FFEE;
    struct call call = call_of(MASTER_READ, 0, 0);
    for (unsigned f_code = 0; f_code < 16; f_code++) {
        for (int i = 0; i < 8; i++) {
            unsigned address = i == 0 ? 0 : i == 1 ? 0xFFF : random_below(&x, 4096);
            word_of(&call, 4096 * f_code + address);
            put(to, &call);
        }
        damage_each(to, &call);
        damage_some(to, &call, 2, 20, &x);
        damage_some(to, &call, 3, 20, &x);
    }
    for (size_t len = 0; len <= ROOM; len++) {
        word_of(&call, 0x1234);
        call.len = len;
        if (len < 3)
            memset(call.input + len, 0, ROOM - len);
        put(to, &call);
        fill(&call, len, 2, &x);
        put(to, &call);
    }
}

static void put_master_writes(struct cases *to)
{
    static const size_t rooms[7] = {0, 1, 2, 3, 4, 5, ROOM};
    uint32_t x = 0x03C0FFEE;
    for (unsigned f_code = 0; f_code < 16; f_code++)
        for (int i = 0; i < 4; i++) {
            unsigned address = i == 0 ? 0 : i == 1 ? 0xFFF : random_below(&x, 4096);
            for (int r = 0; r < 7; r++) {
                struct call call = call_of(MASTER_WRITE, 0, rooms[r]);
                call.number = 4096 * f_code + address;
                put(to, &call);
            }
        }
}

/* Bytes of that length for any F_code: for a length of a Slave Frame right
 * blocks, so that a reserved F_code and a wrong length are told apart. */
static void bytes_of(struct call *call, size_t len, uint32_t *x)
{
    fill(call, len, 2, x);
    for (unsigned f_code = 0; f_code < 5; f_code++)
        if (call->op == SLAVE_READ && len == ref_frame_bytes(f_code))
            frame_of(call, f_code, 2, x);
}

/* Every F_code with every length; for the allowed ones with a right and a
 * short room, for the others with some room. */
static void put_lengths(struct cases *to, enum op op, uint32_t *x)
{
    for (unsigned f_code = 0; f_code < 256; f_code++)
        for (size_t len = 0; len <= ROOM; len++) {
            size_t need = op == SLAVE_READ ? ref_data_bits(f_code) / 8 : ref_frame_bytes(f_code);
            size_t room = allowed(f_code) ? need : random_below(x, ROOM + 1);
            struct call call = call_of(op, f_code, room);
            bytes_of(&call, len, x);
            put(to, &call);
            call.room = allowed(f_code) ? need - 1 : room;
            if (allowed(f_code))
                put(to, &call);
        }
}

/* The call with rooms from nothing to beyond what it needs. */
static void put_rooms(struct cases *to, struct call call, size_t need)
{
    size_t rooms[6] = {0, need / 2, need - 1, need, need + 1, ROOM};
    for (int r = 0; r < 6; r++) {
        call.room = rooms[r];
        put(to, &call);
    }
}

static void put_slave_reads(struct cases *to)
{
    uint32_t x = 0x04C0FFEE;
    put_lengths(to, SLAVE_READ, &x);
    for (unsigned f_code = 0; f_code < 16; f_code++) {
        if (!allowed(f_code))
            continue;
        size_t need = ref_data_bits(f_code) / 8;
        for (unsigned content = 0; content < 5; content++) {
            struct call call = call_of(SLAVE_READ, f_code, need);
            frame_of(&call, f_code, content, &x);
            put_rooms(to, call, need);
            if (content == 0 || content == 2)
                damage_each(to, &call);
            damage_some(to, &call, 2, 30, &x);
            damage_some(to, &call, 3, 30, &x);
            damage_some(to, &call, 4, 10, &x);
            flip(call.input, random_below(&x, (uint32_t)(8 * call.len)));
            put_rooms(to, call, need);
        }
    }
}

/* Frames of several blocks that are wrong as a whole: check sequences changed
 * over, and a check sequence over all data in the last place. */
static void put_wrong_blocks(struct cases *to)
{
    uint32_t x = 0x05C0FFEE;
    static const unsigned f_codes[3] = {3, 4, 12};
    for (int i = 0; i < 30; i++) {
        unsigned f_code = f_codes[i % 3];
        size_t bytes = ref_frame_bytes(f_code), data = ref_data_bits(f_code) / 8, count;
        uint8_t whole[ROOM];
        struct call call = call_of(SLAVE_READ, f_code, ROOM);
        frame_of(&call, f_code, 2, &x);
        ref_slave_read(f_code, call.input, bytes, whole, ROOM, &count);
        uint8_t last = call.input[bytes - 1];
        call.input[bytes - 1] = ref_check_of(whole, data);
        put(to, &call);
        call.input[bytes - 1] = call.input[8];
        call.input[8] = last;
        put(to, &call);
    }
}

static void put_slave_writes(struct cases *to)
{
    uint32_t x = 0x06C0FFEE;
    put_lengths(to, SLAVE_WRITE, &x);
    for (unsigned f_code = 0; f_code < 16; f_code++)
        for (unsigned content = 0; allowed(f_code) && content < 8; content++) {
            struct call call = call_of(SLAVE_WRITE, f_code, 0);
            fill(&call, ref_data_bits(f_code) / 8, content, &x);
            put_rooms(to, call, ref_frame_bytes(f_code));
        }
}

static void put_line_answers(struct cases *to)
{
    uint32_t x = 0x07C0FFEE;
    struct call call = call_of(LINE_ANSWER, 0, 0);
    for (size_t len = 0; len <= ROOM; len++)
        for (unsigned content = 0; content < 4; content++) {
            fill(&call, len, content, &x);
            if (content == 3 && len > 3)
                call.input[2] = ref_check_of(call.input, 2);
            put(to, &call);
        }
    for (unsigned f_code = 0; f_code < 16; f_code++) {
        for (int i = 0; i < 6; i++) {
            unsigned address = i == 0 ? 0 : i == 1 ? 0xFFF : random_below(&x, 4096);
            word_of(&call, 4096 * f_code + address);
            put(to, &call);
        }
        if (f_code % 3 == 0)
            damage_each(to, &call);
        damage_some(to, &call, 2, 10, &x);
        damage_some(to, &call, 3, 10, &x);
    }
}

static const unsigned GAPS[16] = {0,  1,  2,   3,   4,   5,   6,   64,
                                  70, 126, 127, 128, 129, 130, 131, 65535};

static void put_telegrams(struct cases *to)
{
    for (unsigned f_code = 0; f_code < 256; f_code++)
        for (int g = 0; g < 16; g++) {
            struct call call = call_of(TELEGRAM_BITS, f_code, 0);
            call.number = GAPS[g];
            put(to, &call);
        }
}

/* One question to the guard; its input is `left` in four bytes. */
static void put_guard(struct cases *to, unsigned f_code, unsigned gap, uint32_t left)
{
    struct call call = call_of(GUARD, f_code, 0);
    call.number = gap;
    call.len = 4;
    for (int i = 0; i < 4; i++)
        call.input[i] = (uint8_t)(left >> (24 - 8 * i));
    put(to, &call);
}

static void put_guards(struct cases *to)
{
    uint32_t x = 0x08C0FFEE;
    for (unsigned f_code = 0; f_code < 256; f_code++)
        for (int g = 0; g < 16; g++) {
            uint32_t bits = 33 + ref_line_bits(f_code) + GAPS[g];
            uint32_t lefts[5] = {bits - 1, bits, bits + 1, 0, 4294967295u};
            if (allowed(f_code))
                for (int i = 0; i < 5; i++)
                    put_guard(to, f_code, GAPS[g], lefts[i]);
            else
                put_guard(to, f_code, GAPS[g], lefts[random_below(&x, 5)]);
        }
}

void cases_frames(struct cases *to)
{
    put_checks(to);
    put_master_reads(to);
    put_master_writes(to);
    put_slave_reads(to);
    put_wrong_blocks(to);
    put_slave_writes(to);
    put_line_answers(to);
    put_telegrams(to);
    put_guards(to);
}
