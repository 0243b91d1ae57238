/* bench STACK-FILE LISTS: times the library beside the C peer and prints a table. Ours and the peer's runs alternate;
 * each time is the median of many short runs, each ratio the median over pairs of runs that stand beside each other.
 * STACK-FILE has a line for each function: its name and its bytes of stack. LISTS is a folder with the lists that the
 * second program writes from the papers. */
#include "boost.h"
#include "peer.h"

#include "mvb_ref.h"
#include "seeded.h"

#include <stdio.h>
#include <stdlib.h>
#include <string.h>
#include <time.h>

enum { RUNS = 401, RUN_NANOSECONDS = 20000, INPUTS = 64, SIDES = 3 };

/* The calls of the library, or of the peer. */
struct calls {
    uint32_t (*check_of)(const uint8_t *, size_t);
    uint32_t (*master_read)(const uint8_t *, size_t);
    uint32_t (*master_write)(uint16_t, uint8_t *, size_t);
    uint32_t (*slave_read)(uint8_t, const uint8_t *, size_t, uint8_t *, size_t);
    uint32_t (*slave_write)(uint8_t, const uint8_t *, size_t, uint8_t *, size_t);
    uint32_t (*telegram_bits)(uint8_t, uint16_t);
    uint32_t (*guard)(uint32_t, uint16_t, uint8_t);
    uint32_t (*round_start)(uint16_t, uint16_t *, size_t);
    uint32_t (*round_answer)(uint16_t *, size_t, const uint8_t *, size_t);
    uint32_t (*search)(const uint8_t *, size_t, uint16_t *, size_t, uint16_t *);
    uint32_t (*list_check)(const uint8_t *, size_t, uint16_t *, uint16_t *, uint16_t *);
    uint32_t (*basic_period)(const uint8_t *, size_t, uint16_t, uint16_t *, size_t);
    uint32_t (*list_text)(const uint8_t *, size_t, uint8_t *, size_t);
    uint32_t (*arrive)(const struct mvb_port *, size_t, uint8_t *, size_t, uint16_t *, size_t, uint16_t,
                       const uint8_t *, size_t);
    uint32_t (*answer)(const struct mvb_port *, size_t, const uint8_t *, size_t, uint16_t, uint8_t *, size_t);
    uint32_t (*read)(const struct mvb_port *, size_t, const uint8_t *, size_t, const uint16_t *, size_t, uint16_t,
                     uint8_t *, size_t, uint16_t *);
    uint32_t (*fill)(const struct mvb_port *, size_t, uint8_t *, size_t, uint16_t, const uint8_t *, size_t);
    uint32_t (*tick)(const struct mvb_port *, size_t, uint16_t *, size_t);
};

static const struct calls ours = {
    .check_of = mvb_check_of,
    .master_read = mvb_master_read,
    .master_write = mvb_master_write,
    .slave_read = mvb_slave_read,
    .slave_write = mvb_slave_write,
    .telegram_bits = mvb_telegram_bits,
    .guard = mvb_guard,
    .round_start = mvb_round_start,
    .round_answer = mvb_round_answer,
    .search = mvb_search,
    .list_check = mvb_list_check,
    .basic_period = mvb_basic_period,
    .list_text = mvb_list_text,
    .arrive = mvb_arrive,
    .answer = mvb_answer,
    .read = mvb_read,
    .fill = mvb_fill,
    .tick = mvb_tick,
};

static const struct calls peer = {
    .check_of = peer_check_of,
    .master_read = peer_master_read,
    .master_write = peer_master_write,
    .slave_read = peer_slave_read,
    .slave_write = peer_slave_write,
    .telegram_bits = peer_telegram_bits,
    .guard = peer_guard,
    .round_start = peer_round_start,
    .round_answer = peer_round_answer,
    .search = peer_search,
    .list_check = peer_list_check,
    .basic_period = peer_basic_period,
    .list_text = peer_list_text,
    .arrive = peer_arrive,
    .answer = peer_answer,
    .read = peer_read,
    .fill = peer_fill,
    .tick = peer_tick,
};

/* Others that know the check sequence alone. */
static const struct calls boost = {.check_of = boost_check_of};
static const struct calls eight_tables = {.check_of = peer_check_by_eight_tables};

/* Inputs ----------------------------------------------------------------------------------------------------- */

static uint32_t seed = 61375;
static uint8_t data[INPUTS][256], frame[5][INPUTS][MVB_MOST_FRAME], master[INPUTS][3];

static void make_frames(void)
{
    for (unsigned i = 0; i < INPUTS; i++) {
        size_t count;
        for (unsigned b = 0; b < sizeof data[i]; b++)
            data[i][b] = (uint8_t)(random_next(&seed) >> 8);
        for (unsigned f = 0; f < 5; f++)
            ref_slave_write(f, data[i], ref_data_bits(f) / 8, frame[f][i], MVB_MOST_FRAME, &count);
        ref_master_write((uint16_t)random_below(&seed, 5 * 4096), master[i], 3);
    }
}

/* A table of sinks and sources of every size in turn; its last sink has 256 bits, its last source 16. */
struct bus {
    size_t records, store_bytes;
    struct mvb_port table[MVB_MOST_PORTS];
    uint8_t store[32 * MVB_MOST_PORTS];
    uint16_t ages[MVB_MOST_PORTS];
};
static struct bus bus_1, bus_16, bus_64, bus_256;

static void make_bus(struct bus *bus, size_t records)
{
    bus->records = records;
    for (size_t i = 0; i < records; i++) {
        bus->table[i] = (struct mvb_port){(uint16_t)(7 * i + 3), (uint8_t)(i % 5), (uint8_t)(i % 2)};
        if (i + 1 == records)
            bus->table[i] = (struct mvb_port){(uint16_t)(7 * i + 3), 4, 1};
        bus->store_bytes += ref_data_bits(bus->table[i].f_code) / 8;
    }
}

struct list {
    size_t length;
    uint8_t bytes[MVB_MOST_LIST];
};
static struct list smallest, typical, largest;

/* Smallest: no words. Typical: the periodic schedule of a conformance test network. Largest: 1,604 words for 1 ms. */
static void read_list(struct list *list, const char *folder, const char *name)
{
    char path[512];
    snprintf(path, sizeof path, "%s/%s.list", folder, name);
    FILE *file = fopen(path, "rb");
    if (file != NULL) {
        list->length = fread(list->bytes, 1, sizeof list->bytes, file);
        fclose(file);
    }
    if (list->length == 0) {
        fprintf(stderr, "bench: there is no list in %s\n", path);
        exit(2);
    }
}

static void make_lists(const char *folder)
{
    static const uint8_t none[] = {1, 1, 70, 0x8D, 4, 0, 0, 0, 0, 0, 0, 0, 0, 0, 0, 0};
    smallest.length = sizeof none;
    memcpy(smallest.bytes, none, sizeof none);
    read_list(&typical, folder, "network");
    read_list(&largest, folder, "largest-1ms");
}

/* A set of k devices, and what a truthful line answers in its round, step by step. */
enum { MOST_STEPS = 2 * 8192 };
struct event {
    uint8_t set[MVB_SET_BYTES];
    unsigned steps;
    struct {
        uint8_t length, bytes[3];
    } heard[MOST_STEPS];
};
static struct event event_0, event_2, event_64, event_4096;

static void make_event(struct event *event, unsigned k)
{
    static struct seeded_line line;
    struct ref_stepped to;
    line.x = seed;
    seeded_set(line.set, k, 0, &line.x);
    line.kind = TRUTHFUL;
    memcpy(event->set, line.set, sizeof line.set);
    for (ref_round_start(0, &to); !to.ended;) {
        struct ref_answer answer = seeded_answer(&line, to.word);
        uint8_t bytes[3] = {(uint8_t)(answer.word >> 8), (uint8_t)answer.word, 0};
        bytes[2] = (uint8_t)(ref_check_of(bytes, 2) ^ (answer.line == REF_COLLISION));
        event->heard[event->steps].length = answer.line == REF_SILENCE ? 0 : 3;
        memcpy(event->heard[event->steps].bytes, bytes, 3);
        event->steps++;
        ref_round_step(to.round, answer, &to);
    }
}

static uint16_t rounds[INPUTS][MVB_ROUND_NUMBERS];

static void make_rounds(void)
{
    for (unsigned i = 0; i < INPUTS; i++) {
        const uint16_t round[MVB_ROUND_NUMBERS] = {0, (uint16_t)(i % 12 + 1), 0, 100, 40, 3};
        memcpy(rounds[i], round, sizeof round);
    }
}

static void make_inputs(const char *lists)
{
    make_rounds();
    make_frames();
    make_bus(&bus_1, 1);
    make_bus(&bus_16, 16);
    make_bus(&bus_64, 64);
    make_bus(&bus_256, 256);
    make_lists(lists);
    make_event(&event_0, 0);
    make_event(&event_2, 2);
    make_event(&event_64, 64);
    make_event(&event_4096, 4096);
}

/* What is measured ------------------------------------------------------------------------------------------- */

/* A row: so many calls on inputs of one size; the sum of all answers comes back. */
struct row {
    const char *what, *size, *function;
    uint32_t (*run)(const struct calls *calls, const struct row *row, unsigned times);
    size_t bytes;
    uint8_t f_code;
    void *input;
};

static uint8_t out[40000];
static uint16_t words[4096];

/* 0, but only once the answer is known: each call waits for the one before it, as a caller does. */
static inline size_t after(uint32_t answer)
{
    return answer >> 20;
}

static uint32_t run_check(const struct calls *c, const struct row *row, unsigned times)
{
    uint32_t sum = 0, last = 0;
    for (unsigned i = 0; i < times; i++)
        sum += last = c->check_of(data[i % INPUTS] + after(last), row->bytes);
    return sum;
}

static uint32_t run_master_read(const struct calls *c, const struct row *row, unsigned times)
{
    uint32_t sum = 0, last = 0;
    for (unsigned i = 0; i < times; i++)
        sum += last = c->master_read(master[i % INPUTS] + after(last), row->bytes);
    return sum;
}

static uint32_t run_master_write(const struct calls *c, const struct row *row, unsigned times)
{
    uint32_t sum = 0, last = 0;
    for (unsigned i = 0; i < times; i++) {
        last = c->master_write((uint16_t)((i + after(last)) % 20480), out, row->bytes) + out[2];
        sum += last;
    }
    return sum;
}

static uint32_t run_slave_read(const struct calls *c, const struct row *row, unsigned times)
{
    uint32_t sum = 0, last = 0;
    for (unsigned i = 0; i < times; i++) {
        const uint8_t *bytes = frame[row->f_code][i % INPUTS] + after(last);
        sum += last = c->slave_read(row->f_code, bytes, row->bytes, out, MVB_MOST_DATA) + out[1];
    }
    return sum;
}

static uint32_t run_slave_write(const struct calls *c, const struct row *row, unsigned times)
{
    uint32_t sum = 0, last = 0;
    for (unsigned i = 0; i < times; i++) {
        const uint8_t *bytes = data[i % INPUTS] + after(last);
        sum += last = c->slave_write(row->f_code, bytes, row->bytes, out, MVB_MOST_FRAME) + out[2];
    }
    return sum;
}

static uint32_t run_guard(const struct calls *c, const struct row *row, unsigned times)
{
    uint32_t sum = 0, last = 0;
    (void)row;
    for (unsigned i = 0; i < times; i++)
        sum += last = c->guard(300, (uint16_t)(70 + after(last)), (uint8_t)(i % 5));
    return sum;
}

static uint32_t run_arrive(const struct calls *c, const struct row *row, unsigned times)
{
    struct bus *bus = row->input;
    uint16_t word = (uint16_t)(4 * 4096 + bus->table[bus->records - 1].address);
    uint32_t sum = 0, last = 0;
    for (unsigned i = 0; i < times; i++) {
        last = c->arrive(bus->table + after(last), bus->records, bus->store, bus->store_bytes, bus->ages,
                         bus->records, word, frame[4][i % INPUTS], MVB_MOST_FRAME);
        sum += last + bus->store[bus->store_bytes - 1];
    }
    return sum;
}

static uint32_t run_answer(const struct calls *c, const struct row *row, unsigned times)
{
    struct bus *bus = row->input;
    struct mvb_port port = bus->table[bus->records - 2];
    uint16_t word = (uint16_t)(4096 * port.f_code + port.address);
    uint32_t sum = 0, last = 0;
    for (unsigned i = 0; i < times; i++)
        sum += last = c->answer(bus->table + after(last), bus->records, bus->store, bus->store_bytes, word, out,
                                MVB_MOST_FRAME);
    return sum;
}

static uint32_t run_read(const struct calls *c, const struct row *row, unsigned times)
{
    struct bus *bus = row->input;
    uint32_t sum = 0, last = 0;
    uint16_t age;
    for (unsigned i = 0; i < times; i++)
        sum += last = c->read(bus->table + after(last), bus->records, bus->store, bus->store_bytes, bus->ages,
                              bus->records, bus->table[bus->records - 1].address, out, MVB_MOST_DATA, &age);
    return sum;
}

static uint32_t run_fill(const struct calls *c, const struct row *row, unsigned times)
{
    struct bus *bus = row->input;
    struct mvb_port port = bus->table[bus->records - 2];
    uint32_t sum = 0, last = 0;
    for (unsigned i = 0; i < times; i++)
        sum += last = c->fill(bus->table + after(last), bus->records, bus->store, bus->store_bytes, port.address,
                              data[i % INPUTS], (size_t)2 << port.f_code);
    return sum;
}

static uint32_t run_tick(const struct calls *c, const struct row *row, unsigned times)
{
    struct bus *bus = row->input;
    uint32_t last = 0;
    memset(bus->ages, 0, sizeof bus->ages);
    for (unsigned i = 0; i < times; i++)
        last = c->tick(bus->table + after(last), bus->records, bus->ages, bus->records);
    return last + bus->ages[bus->records - 1];
}

static uint32_t run_list_check(const struct calls *c, const struct row *row, unsigned times)
{
    const struct list *list = row->input;
    uint16_t ms = 0, gap = 0, reserve = 0;
    uint32_t sum = 0, last = 0;
    for (unsigned i = 0; i < times; i++) {
        last = c->list_check(list->bytes + after(last), list->length, &ms, &gap, &reserve);
        sum += last + ms + gap + reserve;
    }
    return sum;
}

static uint32_t run_period(const struct calls *c, const struct row *row, unsigned times)
{
    const struct list *list = row->input;
    uint32_t sum = 0, last = 0;
    for (unsigned i = 0; i < times; i++) {
        uint16_t j = (uint16_t)(i * 37 % 1024);
        last = c->basic_period(list->bytes + after(last), list->length, j, words, MVB_MOST_WORDS);
        sum += last + words[0];
    }
    return sum;
}

static uint32_t run_text(const struct calls *c, const struct row *row, unsigned times)
{
    const struct list *list = row->input;
    uint32_t sum = 0, last = 0;
    for (unsigned i = 0; i < times; i++) {
        last = c->list_text(list->bytes + after(last), list->length, out, sizeof out);
        sum += last + out[5];
    }
    return sum;
}

/* One step: a collision at one group after another. The rounds were written a while ago, as on a bus. */
static uint32_t run_step(const struct calls *c, const struct row *row, unsigned times)
{
    static uint16_t round[INPUTS][MVB_ROUND_NUMBERS];
    uint32_t sum = 0, last = 0;
    (void)row;
    for (unsigned i = 0; i < times; i++) {
        if (i % INPUTS == 0)
            memcpy(round, rounds, sizeof round);
        sum += last = c->round_answer(round[i % INPUTS], MVB_ROUND_NUMBERS, data[i % INPUTS] + after(last), 4);
    }
    return sum;
}

static uint32_t run_round(const struct calls *c, const struct row *row, unsigned times)
{
    const struct event *event = row->input;
    uint32_t sum = 0, last = 0;
    for (unsigned i = 0; i < times; i++) {
        uint16_t round[MVB_ROUND_NUMBERS] = {0};
        sum += c->round_start(0, round, MVB_ROUND_NUMBERS);
        for (unsigned s = 0; s < event->steps; s++)
            sum += last = c->round_answer(round, MVB_ROUND_NUMBERS, event->heard[s].bytes + after(last),
                                          event->heard[s].length);
    }
    return sum;
}

static uint32_t run_search(const struct calls *c, const struct row *row, unsigned times)
{
    const struct event *event = row->input;
    uint16_t requests = 0;
    uint32_t sum = 0, last = 0;
    for (unsigned i = 0; i < times; i++) {
        last = c->search(event->set + after(last), MVB_SET_BYTES, words, 4096, &requests);
        sum += last + requests;
    }
    return sum;
}

/* A series of rows has one name and rising sizes. */
static const struct row rows[] = {
    {"check sequence", "2 bytes", "check_of", run_check, 2, 0, NULL},
    {"check sequence", "8 bytes", "check_of", run_check, 8, 0, NULL},
    {"check sequence", "64 bytes", "check_of", run_check, 64, 0, NULL},
    {"check sequence", "256 bytes", "check_of", run_check, 256, 0, NULL},
    {"Master Frame read", "", "master_read", run_master_read, 3, 0, NULL},
    {"Master Frame write", "", "master_write", run_master_write, 3, 0, NULL},
    {"Slave Frame read", "16 bits", "slave_read", run_slave_read, 3, 0, NULL},
    {"Slave Frame read", "64 bits", "slave_read", run_slave_read, 9, 2, NULL},
    {"Slave Frame read", "256 bits", "slave_read", run_slave_read, 36, 4, NULL},
    {"Slave Frame write", "16 bits", "slave_write", run_slave_write, 2, 0, NULL},
    {"Slave Frame write", "64 bits", "slave_write", run_slave_write, 8, 2, NULL},
    {"Slave Frame write", "256 bits", "slave_write", run_slave_write, 32, 4, NULL},
    {"guard", "", "guard", run_guard, 0, 0, NULL},
    {"arrival, 256 bits", "1 record", "arrive", run_arrive, 0, 0, &bus_1},
    {"arrival, 256 bits", "16 records", "arrive", run_arrive, 0, 0, &bus_16},
    {"arrival, 256 bits", "64 records", "arrive", run_arrive, 0, 0, &bus_64},
    {"arrival, 256 bits", "256 records", "arrive", run_arrive, 0, 0, &bus_256},
    {"source answers", "16 records", "answer", run_answer, 0, 0, &bus_16},
    {"source answers", "256 records", "answer", run_answer, 0, 0, &bus_256},
    {"sink read, 256 bits", "16 records", "read", run_read, 0, 0, &bus_16},
    {"sink read, 256 bits", "256 records", "read", run_read, 0, 0, &bus_256},
    {"source filled", "16 records", "fill", run_fill, 0, 0, &bus_16},
    {"source filled", "256 records", "fill", run_fill, 0, 0, &bus_256},
    {"tick", "16 records", "tick", run_tick, 0, 0, &bus_16},
    {"tick", "256 records", "tick", run_tick, 0, 0, &bus_256},
    {"list check", "smallest", "list_check", run_list_check, 0, 0, &smallest},
    {"list check", "typical", "list_check", run_list_check, 0, 0, &typical},
    {"list check", "largest", "list_check", run_list_check, 0, 0, &largest},
    {"Basic Period", "smallest", "basic_period", run_period, 0, 0, &smallest},
    {"Basic Period", "typical", "basic_period", run_period, 0, 0, &typical},
    {"Basic Period", "largest", "basic_period", run_period, 0, 0, &largest},
    {"list text", "smallest", "list_text", run_text, 0, 0, &smallest},
    {"list text", "typical", "list_text", run_text, 0, 0, &typical},
    {"list text", "largest", "list_text", run_text, 0, 0, &largest},
    {"round step", "a collision", "round_answer", run_step, 0, 0, NULL},
    {"whole round", "k = 0", "round_answer", run_round, 0, 0, &event_0},
    {"whole round", "k = 2", "round_answer", run_round, 0, 0, &event_2},
    {"whole round", "k = 64", "round_answer", run_round, 0, 0, &event_64},
    {"whole round", "k = 4,096", "round_answer", run_round, 0, 0, &event_4096},
    {"search", "k = 0", "search", run_search, 0, 0, &event_0},
    {"search", "k = 2", "search", run_search, 0, 0, &event_2},
    {"search", "k = 64", "search", run_search, 0, 0, &event_64},
    {"search", "k = 4,096", "search", run_search, 0, 0, &event_4096},
};

enum { ROWS = sizeof rows / sizeof rows[0] };

/* Measuring -------------------------------------------------------------------------------------------------- */

static volatile uint32_t kept;

static double nanoseconds(void)
{
    struct timespec t;
    clock_gettime(CLOCK_MONOTONIC, &t);
    return 1e9 * (double)t.tv_sec + (double)t.tv_nsec;
}

static double one_run(const struct row *row, const struct calls *calls, unsigned times)
{
    double start = nanoseconds();
    kept = row->run(calls, row, times);
    return (nanoseconds() - start) / times;
}

static int by_size(const void *a, const void *b)
{
    double x = *(const double *)a, y = *(const double *)b;
    return (x > y) - (x < y);
}

/* The median of many numbers, and how far apart its quarters lie. */
struct measured {
    double median, spread;
};

static struct measured middle(double numbers[RUNS])
{
    qsort(numbers, RUNS, sizeof numbers[0], by_size);
    double median = numbers[RUNS / 2];
    return (struct measured){median, (numbers[RUNS * 3 / 4] - numbers[RUNS / 4]) / median};
}

/* What a row shows of each side: its time, and for all but ours the ratio of ours to it, run by run. */
struct shown {
    struct measured time, ratio;
};

/* How many calls make a run long enough, by the quickest of some runs: others share the machine. */
static unsigned calls_in_a_run(const struct row *row, const struct calls *calls)
{
    unsigned times = 1;
    for (; times < 1u << 20; times *= 2) {
        double quickest = one_run(row, calls, times);
        for (unsigned tried = 0; tried < 8; tried++) {
            double again = one_run(row, calls, times);
            quickest = again < quickest ? again : quickest;
        }
        if (quickest * times >= RUN_NANOSECONDS)
            break;
    }
    return times;
}

static void measure(const struct row *row, const struct calls *const sides[SIDES], struct shown result[SIDES])
{
    static double runs[SIDES][RUNS], ratios[RUNS];
    unsigned times = calls_in_a_run(row, sides[0]);
    for (unsigned run = 0; run < RUNS; run++)
        for (unsigned side = 0; side < SIDES; side++)
            if (sides[side] != NULL)
                runs[side][run] = one_run(row, sides[side], times);
    for (unsigned side = SIDES; side-- > 0;) {
        if (sides[side] == NULL)
            continue;
        for (unsigned run = 0; run < RUNS; run++)
            ratios[run] = runs[0][run] / runs[side][run];
        result[side].ratio = middle(ratios);
        result[side].time = middle(runs[side]);
    }
}

static void must_agree(const struct row *row, const struct calls *a, const struct calls *b)
{
    if (row->run(a, row, 1000) == row->run(b, row, 1000))
        return;
    printf("%s, %s: the two answer otherwise\n", row->what, row->size);
    exit(1);
}

/* Printing --------------------------------------------------------------------------------------------------- */

/* The bytes of stack of a function, from the file; 0 where it does not stand there. */
static unsigned stack_of(const char *file, const char *side, const char *function)
{
    char name[64], wanted[64];
    unsigned bytes = 0, found = 0;
    FILE *lines = fopen(file, "r");
    snprintf(wanted, sizeof wanted, "%s_%s", side, function);
    while (lines != NULL && fscanf(lines, "%63s %u", name, &bytes) == 2)
        if (strcmp(name, wanted) == 0)
            found = bytes;
    if (lines != NULL)
        fclose(lines);
    return found;
}

static void print_row(const struct row *row, const struct shown s[SIDES], double first, const char *stacks,
                      int has_boost)
{
    char beside[48] = "";
    if (has_boost)
        snprintf(beside, sizeof beside, "%.1f (%.2f)", s[2].time.median, s[2].ratio.median);
    printf("| %-19s | %-11s | %10.1f | %10.1f | %5.2f | %4.0f %% | %-13s | %7.1f | %5u | %6u |\n", row->what, row->size,
           s[0].time.median, s[1].time.median, s[1].ratio.median, 100 * s[1].ratio.spread, beside,
           s[0].time.median / first, stack_of(stacks, "mvb", row->function), stack_of(stacks, "peer", row->function));
}

static void print_table(const char *stacks)
{
    double first = 1;
    unsigned behind = 0;
    printf("| call                | input       |    ours ns |    peer ns | ratio |  noise | Boost (ratio) |   grows |"
           " stack | peer's |\n|---|---|---|---|---|---|---|---|---|---|\n");
    for (const struct row *row = rows; row < rows + ROWS; row++) {
        int has_boost = row->run == run_check;
        const struct calls *sides[SIDES] = {&ours, &peer, has_boost ? &boost : NULL};
        struct shown shown[SIDES];
        must_agree(row, &ours, &peer);
        if (has_boost)
            must_agree(row, &ours, &boost);
        measure(row, sides, shown);
        if (row == rows || strcmp(row[-1].what, row->what) != 0)
            first = shown[0].time.median;
        print_row(row, shown, first, stacks, has_boost);
        behind += shown[1].ratio.median > 1;
        fflush(stdout);
    }
    printf("\n%u of %u rows are behind the peer.\n", behind, (unsigned)ROWS);
}

/* The check sequence of 8 bytes once more, beside eight tables of 256 bytes. */
static void print_eight_tables(void)
{
    const struct row *row = &rows[1];
    const struct calls *sides[SIDES] = {&ours, &eight_tables, NULL};
    struct shown shown[SIDES];
    must_agree(row, &ours, &eight_tables);
    measure(row, sides, shown);
    printf("Check sequence of 8 bytes by eight tables of 256 bytes: %.1f ns; ours %.1f ns, ratio %.2f.\n",
           shown[1].time.median, shown[0].time.median, shown[1].ratio.median);
}

int main(int argc, char **argv)
{
    if (argc != 3) {
        fprintf(stderr, "usage: bench STACK-FILE LISTS\n");
        return 2;
    }
    make_inputs(argv[2]);
    printf("Lists: smallest %zu bytes, typical %zu, largest %zu.\n\n", smallest.length, typical.length, largest.length);
    print_table(argv[1]);
    print_eight_tables();
    return 0;
}
