/* Port calls on tables, good and bad: a table with its store and ages lives through many calls. */
#include "compare.h"

#include "mvb_ref.h"

#include <string.h>

enum { ARRIVE, ANSWER, READ, FILL, TICK, FACES };
enum { MOST_RECORDS = 300, MOST_STORE = 32 * 256 + 16, CALLS = 25 };

static struct face faces[FACES] = {
    [ARRIVE] = {.name = "mvb_arrive",
                .answers = 1u << 0 | 1u << 1 | 1u << 2 | 1u << 4 | 1u << 13 | 1u << 14 | 1u << 15 | 1u << 16 |
                           1u << 17},
    [ANSWER] = {.name = "mvb_answer",
                .answers = 1u << 0 | 1u << 4 | 1u << 13 | 1u << 14 | 1u << 15 | 1u << 16 | 1u << 17},
    [READ] = {.name = "mvb_read", .answers = 1u << 0 | 1u << 4 | 1u << 13 | 1u << 15 | 1u << 17},
    [FILL] = {.name = "mvb_fill", .answers = 1u << 0 | 1u << 1 | 1u << 4 | 1u << 13 | 1u << 15 | 1u << 17},
    [TICK] = {.name = "mvb_tick", .answers = 1u << 0 | 1u << 4 | 1u << 13},
};

/* What is lent. The lengths change from call to call, the contents stay. */
static struct {
    size_t records, store_bytes, ages_count;
    size_t store_right;
    struct mvb_port table[MOST_RECORDS];
    uint8_t store[MOST_STORE];
    uint16_t ages[MOST_RECORDS];
} bus;

static size_t port_bytes(uint8_t f_code)
{
    return ref_data_bits(f_code) / 8;
}

/* Records with addresses strictly rising, sinks of every byte. */
static void good_table(void)
{
    static const uint8_t sinks[6] = {0, 0, 0, 1, 2, 255};
    unsigned room = 4096, address = 0;
    bus.records = one_in(8) ? 256 : one_in(4) ? below(257) : below(12);
    for (size_t i = 0; i < bus.records; i++) {
        unsigned left = (unsigned)(bus.records - i);
        address += below(room / left < 2 ? 1 : 2 * (room / left) - 1);
        if (address > 4096 - left)
            address = 4096 - left;
        bus.table[i] = (struct mvb_port){(uint16_t)address, (uint8_t)below(5), sinks[below(6)]};
        address++;
        room = 4096 - address;
    }
}

/* The conformance bed (61375-3-2): a device of one source and one sink; ports of every size, sinks and sources apart;
 * the same in turn, from either side. */
static void bed_table(void)
{
    static const struct mvb_port device[] = {{3360, 0, 0}, {3368, 0, 1}};
    static const struct mvb_port every_size[] = {
        {1, 0, 1}, {2, 1, 1}, {3, 2, 1}, {4, 3, 1}, {5, 4, 1},  {6, 0, 0},
        {7, 1, 0}, {8, 2, 0}, {9, 3, 0}, {10, 4, 0}, {25, 3, 0}, {26, 2, 0},
    };
    static const struct mvb_port listed[] = {
        {10, 0, 1}, {11, 1, 1}, {12, 2, 1}, {13, 3, 1}, {14, 4, 1},
        {15, 0, 0}, {16, 1, 0}, {17, 2, 0}, {18, 3, 0}, {19, 4, 0},
    };
    unsigned kind = below(5);
    if (kind == 0) {
        bus.records = sizeof device / sizeof device[0];
        memcpy(bus.table, device, sizeof device);
    } else if (kind == 1) {
        bus.records = sizeof every_size / sizeof every_size[0];
        memcpy(bus.table, every_size, sizeof every_size);
    } else if (kind == 4) {
        bus.records = sizeof listed / sizeof listed[0];
        memcpy(bus.table, listed, sizeof listed);
    } else {
        bus.records = 10;
        for (unsigned i = 0; i < 10; i++)
            bus.table[i] = (struct mvb_port){(uint16_t)(i + 1), (uint8_t)(i / 2), i % 2 == kind % 2};
    }
}

static void spoil_table(void)
{
    size_t i = below((uint32_t)bus.records + 1) % MOST_RECORDS;
    switch (below(6)) {
    case 0: bus.table[i].address = (uint16_t)between(4096, 65535); break;
    case 1: bus.table[i].f_code = (uint8_t)between(5, 255); break;
    case 2: bus.records = between(257, MOST_RECORDS); break;
    case 3:
        if (i > 0)
            bus.table[i].address = bus.table[i - 1].address;
        break;
    case 4:
        if (i > 0)
            bus.table[i - 1].address = (uint16_t)(bus.table[i].address + 1);
        break;
    default: any_bytes((uint8_t *)bus.table, sizeof bus.table); break;
    }
}

static void new_bus(void)
{
    static const uint16_t old[3] = {65533, 65534, 65535};
    if (one_in(8))
        bed_table();
    else
        good_table();
    bus.store_right = 0;
    for (size_t i = 0; i < bus.records; i++)
        bus.store_right += port_bytes(bus.table[i].f_code);
    any_bytes(bus.store, sizeof bus.store);
    for (size_t i = 0; i < MOST_RECORDS; i++)
        bus.ages[i] = one_in(3) ? old[below(3)] : (uint16_t)chance();
    if (one_in(6))
        spoil_table();
}

/* Lengths of store and ages: mostly right, or more, or one short. */
static size_t length_about(size_t right, size_t most)
{
    size_t length = one_in(16) && right > 0 ? right - 1 : right + (one_in(2) ? below(9) : 0);
    return length < most ? length : most;
}

static struct mvb_port some_port(void)
{
    if (bus.records == 0 || one_in(12))
        return (struct mvb_port){(uint16_t)(one_in(4) ? chance() : below(4096)), (uint8_t)below(5), 0};
    return bus.table[below((uint32_t)bus.records) % MOST_RECORDS];
}

/* A port of the wanted kind, if chance meets one soon. */
static struct mvb_port port_for(int sink)
{
    struct mvb_port port = some_port();
    for (unsigned tried = 0; tried < 4 && (port.sink != 0) != sink; tried++)
        port = some_port();
    return port;
}

static uint16_t word_for(struct mvb_port port)
{
    unsigned f_code = one_in(10) ? below(16) : port.f_code;
    return (uint16_t)(4096 * f_code + port.address % 4096);
}

/* The runs of a call, for both programs. */
struct runs {
    struct lent *table, *store, *ages;
};

static struct runs lend_bus(int store, int ages)
{
    struct runs runs = {NULL, NULL, NULL};
    runs.table = lend("table", bus.table, bus.records, sizeof bus.table[0]);
    bus.store_bytes = length_about(bus.store_right, MOST_STORE);
    bus.ages_count = length_about(bus.records, MOST_RECORDS);
    if (store)
        runs.store = (store > 1 ? lend_out : lend)("store", bus.store, bus.store_bytes, 1);
    if (ages)
        runs.ages = (ages > 1 ? lend_out : lend)("ages", bus.ages, bus.ages_count, 2);
    return runs;
}

static void keep(const struct runs *runs)
{
    if (runs->store != NULL)
        memcpy(bus.store, runs->store->ours, bus.store_bytes);
    if (runs->ages != NULL)
        memcpy(bus.ages, runs->ages->ours, 2 * bus.ages_count);
}

static void arrive(void)
{
    struct mvb_port port = port_for(1);
    uint16_t word = word_for(port);
    uint8_t data[32], bytes[48];
    size_t length = 0;
    any_bytes(data, sizeof data);
    any_bytes(bytes, sizeof bytes);
    ref_slave_write(port.f_code, data, port_bytes(port.f_code), bytes, sizeof bytes, &length);
    if (one_in(4) && length > 0)
        bytes[below((uint32_t)length)] ^= (uint8_t)(1u << below(8));
    if (one_in(8))
        length = about(length, sizeof bytes);
    calling(&faces[ARRIVE]);
    number("word", word);
    struct runs runs = lend_bus(2, 2);
    struct lent *frame = lend("frame", bytes, length, 1);
    answers(mvb_arrive(runs.table->ours, bus.records, runs.store->ours, bus.store_bytes, runs.ages->ours,
                       bus.ages_count, word, frame->ours, length),
            second_arrive(runs.table->second, bus.records, runs.store->second, bus.store_bytes, runs.ages->second,
                          bus.ages_count, word, frame->second, length));
    keep(&runs);
}

static void answer(void)
{
    struct mvb_port port = port_for(0);
    uint16_t word = word_for(port);
    size_t room = about(ref_frame_bytes(port.f_code), 40);
    calling(&faces[ANSWER]);
    number("word", word);
    struct runs runs = lend_bus(1, 0);
    struct lent *out = lend_room("out", room, 1);
    answers(mvb_answer(runs.table->ours, bus.records, runs.store->ours, bus.store_bytes, word, out->ours, room),
            second_answer(runs.table->second, bus.records, runs.store->second, bus.store_bytes, word, out->second,
                          room));
}

static void read_sink(void)
{
    struct mvb_port port = port_for(1);
    size_t room = about(port_bytes(port.f_code), 40);
    uint16_t before = (uint16_t)chance();
    calling(&faces[READ]);
    number("address", port.address);
    struct runs runs = lend_bus(1, 1);
    struct lent *out = lend_room("out", room, 1);
    struct lent *age = lend_out("age", &before, 1, 2);
    answers(mvb_read(runs.table->ours, bus.records, runs.store->ours, bus.store_bytes, runs.ages->ours,
                     bus.ages_count, port.address, out->ours, room, age->ours),
            second_read(runs.table->second, bus.records, runs.store->second, bus.store_bytes, runs.ages->second,
                        bus.ages_count, port.address, out->second, room, age->second));
}

static void fill(void)
{
    struct mvb_port port = port_for(0);
    uint8_t bytes[48];
    size_t length = about(port_bytes(port.f_code), sizeof bytes);
    any_bytes(bytes, sizeof bytes);
    calling(&faces[FILL]);
    number("address", port.address);
    struct runs runs = lend_bus(2, 0);
    struct lent *data = lend("data", bytes, length, 1);
    answers(mvb_fill(runs.table->ours, bus.records, runs.store->ours, bus.store_bytes, port.address, data->ours,
                     length),
            second_fill(runs.table->second, bus.records, runs.store->second, bus.store_bytes, port.address,
                        data->second, length));
    keep(&runs);
}

static void tick(void)
{
    calling(&faces[TICK]);
    struct runs runs = lend_bus(0, 2);
    answers(mvb_tick(runs.table->ours, bus.records, runs.ages->ours, bus.ages_count),
            second_tick(runs.table->second, bus.records, runs.ages->second, bus.ages_count));
    keep(&runs);
}

static void turn(void)
{
    static void (*const calls[6])(void) = {arrive, arrive, answer, read_sink, fill, tick};
    new_bus();
    for (unsigned i = 0; i < CALLS; i++)
        calls[below(6)]();
}

const struct topic ports_topic = {"ports", faces, FACES, turn, 16000};
