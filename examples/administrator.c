/* A bus administrator in a small control unit: it loads a list, runs the Basic Periods of a Macro_Cycle, keeps ports
 * and ages, and runs an event round in what each Basic Period leaves. Start from here; line.c is to be replaced by your
 * line chip, and main by your millisecond's interrupt.
 *
 * All memory is the program's own and is lent call by call. */
#include "line.h"
#include "mvb.h"

#include <stdio.h>
#include <string.h>

/* The list, as a laptop loads it: numbers in groups of seven bits, lowest group first. */
static const uint8_t list[] = {
    0x01,                         /* the number 1 */
    0x01,                         /* Basic Period: 1 ms */
    0x14,                         /* gap: 20 bit times */
    0xF2, 0x02,                   /* sporadic reserve: 370 bit times */
    0x01, 0x90, 0x20,             /* cycle 1: 1010, traction, 32 bits */
    0x02, 0xA0, 0x40, 0xC0, 0x20, /* cycle 2: 2020, brakes, 64 bits; 1040, our own control word, 32 bits */
    0x01, 0x01,                   /*   one in Subcycle 0, one in Subcycle 1 */
    0x00,                         /* cycle 4 */
    0x01, 0x30,                   /* cycle 8: 0030, doors, 16 bits */
    0x00, 0x00, 0x00, 0x01, 0x00, 0x00, 0x00, 0x00, /* in Subcycle 3 */
    0x01, 0xD0, 0x80, 0x01,       /* cycle 16: 4050, display, 256 bits */
    0x00, 0x00, 0x00, 0x00, 0x01, 0x00, 0x00, 0x00, 0x00, 0x00, 0x00, 0x00, 0x00, 0x00, 0x00, 0x00,
    0x00, 0x00, 0x00, 0x00, 0x00, 0x00, /* cycles 32 to 1,024 */
};

/* Our ports: addresses rising. They lie packed in the store, 4 + 8 + 2 + 4 + 32 bytes. */
enum { PORTS = 5, STORE = 4 + 8 + 2 + 4 + 32, TRACTION = 0x010, CONTROL = 0x040 };
static const struct mvb_port table[PORTS] = {
    {TRACTION, 1, 1}, {0x020, 2, 1}, {0x030, 0, 1}, {CONTROL, 1, 0}, {0x050, 4, 1},
};
static uint8_t store[STORE];
static uint16_t ages[PORTS];

/* What the list says. */
static uint16_t ms, gap, reserve;

/* The event round, and the word that it owes the line. */
static uint16_t event_round[MVB_ROUND_NUMBERS];
static uint32_t owed = MVB_END;

static unsigned telegrams, bad_frames;

static int load(const uint8_t *bytes, size_t length)
{
    uint32_t words = mvb_list_check(bytes, length, &ms, &gap, &reserve);
    if (MVB_REFUSED(words)) {
        printf("list of %zu bytes: refused %u\n", length, (unsigned)MVB_NUMBER(words));
        return 0;
    }
    printf("list of %zu bytes: %u ms, gap %u, reserve %u, %u words\n", length, ms, gap, reserve, (unsigned)words);
    return 1;
}

/* Sends a word as a Master Frame, and listens. The word comes from the library or from an accepted list, and there is
 * room for it: its Master Frame is not refused. */
static size_t ask(uint16_t word, uint8_t heard[LINE_ROOM])
{
    uint8_t master[3];
    telegrams++;
    return line_ask(master, mvb_master_write(word, master, sizeof master), heard);
}

/* The same for a source of our own, which answers itself. */
static void tell(uint16_t word, const uint8_t *slave, size_t length)
{
    uint8_t master[3];
    telegrams++;
    line_send(master, mvb_master_write(word, master, sizeof master), slave, length);
}

/* One telegram of the list: a source of ours answers, what a sink of ours hears is stored. */
static void poll_port(uint16_t word)
{
    uint8_t frame[LINE_ROOM];
    uint32_t answer = mvb_answer(table, PORTS, store, STORE, word, frame, sizeof frame);
    if (!MVB_REFUSED(answer)) {
        tell(word, frame, answer);
        return;
    }
    size_t length = ask(word, frame);
    if (MVB_NUMBER(answer) != MVB_WRONG_DIRECTION || length == 0)
        return; /* no port of ours; or silence, and the age tells */
    answer = mvb_arrive(table, PORTS, store, STORE, ages, PORTS, word, frame, length);
    if (MVB_REFUSED(answer)) {
        bad_frames++;
        printf("  %04X: frame refused %u\n", word, (unsigned)MVB_NUMBER(answer));
    }
}

/* The periodic phase of Basic Period j. Returns the bit times that it leaves. */
static uint32_t periodic_phase(uint16_t j)
{
    uint16_t words[MVB_MOST_WORDS];
    uint32_t count = mvb_basic_period(list, sizeof list, j, words, MVB_MOST_WORDS);
    uint32_t left = 1500u * ms;
    if (MVB_REFUSED(count))
        return 0; /* the list is not what it was when it was loaded: nothing more is sent */
    for (uint32_t i = 0; i < count; i++) {
        poll_port(words[i]);
        left -= mvb_telegram_bits((uint8_t)(words[i] >> 12), gap);
    }
    if (j < 4) {
        printf("Basic Period %u:", j);
        for (uint32_t i = 0; i < count; i++)
            printf(" %04X", words[i]);
        printf(", %u bit times left\n", (unsigned)left);
    }
    return left;
}

/* A message came: here it would go up to the message layer. */
static void take_message(uint16_t j, uint16_t word, const uint8_t *frame, size_t length)
{
    uint8_t data[MVB_MOST_DATA];
    uint32_t count = mvb_slave_read(12, frame, length, data, sizeof data);
    if (!MVB_REFUSED(count))
        printf("  Basic Period %u: message of device %03X, %u bytes, %02X %02X ..\n", j, word & 4095u, (unsigned)count,
               data[0], data[1]);
}

/* The sporadic phase: the round goes on for as long as the guard allows its next telegram. */
static void sporadic_phase(uint16_t j, uint32_t left)
{
    uint8_t heard[LINE_ROOM];
    while (owed != MVB_END && mvb_guard(left, gap, (uint8_t)(owed >> 12)) == 1) {
        uint16_t word = (uint16_t)owed;
        size_t length = ask(word, heard);
        left -= mvb_telegram_bits((uint8_t)(word >> 12), gap);
        if (event_round[MVB_ROUND_PHASE] == 1)
            take_message(j, word, heard, length);
        owed = mvb_round_answer(event_round, MVB_ROUND_NUMBERS, heard, length);
        if (owed == MVB_END)
            printf("  Basic Period %u: the round ends, %u requests, %u reads, %u unresolved\n", j,
                   event_round[MVB_ROUND_REQUESTS], event_round[MVB_ROUND_READS], event_round[MVB_ROUND_UNRESOLVED]);
    }
}

static void start_round(void)
{
    owed = mvb_round_start(0, event_round, MVB_ROUND_NUMBERS);
}

/* The application's part: it reads a sink, looks at its age, and fills our source. */
static void apply(uint16_t j)
{
    uint8_t data[4], control[4] = {0x43, 0x4F, (uint8_t)(j >> 8), (uint8_t)j};
    uint16_t age = 0;
    uint32_t count = mvb_read(table, PORTS, store, STORE, ages, PORTS, TRACTION, data, sizeof data, &age);
    if (!MVB_REFUSED(count) && age == 10)
        printf("  Basic Period %u: traction is stale, fallback value\n", j);
    mvb_fill(table, PORTS, store, STORE, CONTROL, control, sizeof control);
}

static void basic_period(uint16_t j)
{
    mvb_tick(table, PORTS, ages, PORTS);
    sporadic_phase(j, periodic_phase(j));
    apply(j);
}

static void print_ports(void)
{
    for (unsigned i = 0; i < PORTS; i++) {
        uint8_t data[MVB_MOST_DATA];
        uint16_t age = 0;
        uint32_t count = mvb_read(table, PORTS, store, STORE, ages, PORTS, table[i].address, data, sizeof data, &age);
        printf("port %03X:", table[i].address);
        if (MVB_REFUSED(count)) {
            printf(" a source, refused %u\n", (unsigned)MVB_NUMBER(count));
            continue;
        }
        for (uint32_t b = 0; b < count && b < 4; b++)
            printf(" %02X", data[b]);
        printf("%s age %u\n", count > 4 ? " ..," : ",", age);
    }
}

int main(void)
{
    load(list, sizeof list - 1); /* a byte was lost on the way */
    if (!load(list, sizeof list))
        return 1;
    line_event(0x805);
    line_event(0xF05);
    line_event(0x505);
    start_round();
    for (uint16_t j = 0; j < 1024 / ms; j++) {
        if (j == 900)
            line_silence(TRACTION);
        basic_period(j);
    }
    printf("Macro_Cycle: %u telegrams, %u of our own source, %u frames refused\n", telegrams, line_sent(), bad_frames);
    print_ports();
    return 0;
}
