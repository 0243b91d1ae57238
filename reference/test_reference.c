/* Unit tests of the second program: every hand line of document 01, its tables
 * as they stand there, and each way out of each function. */
#include "drafts.h"

#include <stdio.h>
#include <string.h>

static unsigned long passed, failed;

static void check(int holds, const char *what, int line)
{
    if (holds) {
        passed++;
        return;
    }
    failed++;
    printf("test_reference.c:%d: %s\n", line, what);
}

#define CHECK(holds) check((holds) != 0, #holds, __LINE__)

/* Frames ------------------------------------------------------------------ */

/* Document 01's table of rows: F_code, data, bytes, line. */
static const unsigned ROWS[11][4] = {
    {0, 16, 3, 33},    {1, 32, 5, 49},    {2, 64, 9, 81},  {3, 128, 18, 153},
    {4, 256, 36, 297}, {8, 16, 3, 33},    {9, 16, 3, 33},  {12, 256, 36, 297},
    {13, 16, 3, 33},   {14, 16, 3, 33},   {15, 16, 3, 33}};

static void test_check_vectors(void)
{
    CHECK(ref_check_of((const uint8_t *)"\x00\x00", 2) == 0xFF);
    CHECK(ref_check_of((const uint8_t *)"\x00\x01", 2) == 0x34);
    CHECK(ref_check_of((const uint8_t *)"\x00\x02", 2) == 0xA1);
    /* 001, 6.1.3, the example. */
    CHECK(ref_check_of((const uint8_t *)"\x7E\xC3", 2) == 0xDD);
    CHECK(ref_check_of((const uint8_t *)"", 0) == 0xFF);
}

/* The number of ones in a block and its check sequence is even: eight
 * inverted bits change it by an even number. */
static void test_check_parity(void)
{
    for (unsigned word = 0; word < 65536; word++) {
        uint8_t b[2] = {(uint8_t)(word / 256), (uint8_t)(word % 256)};
        unsigned all = word * 256 + ref_check_of(b, 2), ones = 0;
        for (; all > 0; all /= 2)
            ones += all % 2;
        CHECK(ones % 2 == 0);
    }
}

/* No block of zeros is still right with one, two or three bits damaged, in it
 * or in its check sequence. */
static void test_check_distance(size_t len)
{
    size_t bits = 8 * len + 8;
    unsigned long wrong = 0;
    for (size_t i = 0; i < bits; i++)
        for (size_t j = i; j < bits; j++)
            for (size_t k = j; k < bits; k++) {
                uint8_t b[9] = {0};
                b[len] = 0xFF;
                b[i / 8] ^= (uint8_t)(1u << i % 8);
                if (j > i)
                    b[j / 8] ^= (uint8_t)(1u << j % 8);
                if (k > j)
                    b[k / 8] ^= (uint8_t)(1u << k % 8);
                wrong += ref_check_of(b, len) == b[len];
            }
    CHECK(wrong == 0);
}

static void test_rows(void)
{
    for (unsigned f_code = 0; f_code < 300; f_code++) {
        const unsigned *row = NULL;
        for (int i = 0; i < 11; i++)
            if (ROWS[i][0] == f_code)
                row = ROWS[i];
        CHECK(ref_data_bits(f_code) == (row ? row[1] : 0));
        CHECK(ref_frame_bytes(f_code) == (row ? row[2] : 0));
        CHECK(ref_line_bits(f_code) == (row ? row[3] : 0));
    }
}

static void test_master_frames(void)
{
    uint8_t out[4] = {0xA5, 0xA5, 0xA5, 0xA5};
    uint16_t word = 7;
    CHECK(ref_master_write(0x7EC3, out, 4) == REF_F_CODE);
    CHECK(ref_master_write(0x7EC3, out, 0) == REF_F_CODE);
    CHECK(ref_master_write(0x0001, out, 2) == REF_TOO_SHORT);
    CHECK(memcmp(out, "\xA5\xA5\xA5\xA5", 4) == 0);
    CHECK(ref_master_write(0x0001, out, 4) == REF_ACCEPTED);
    CHECK(memcmp(out, "\x00\x01\x34\xA5", 4) == 0);
    CHECK(ref_master_read(out, 4, &word) == REF_WRONG_LENGTH);
    CHECK(ref_master_read(out, 2, &word) == REF_WRONG_LENGTH);
    CHECK(ref_master_read((const uint8_t *)"\x00\x01\x35", 3, &word) == REF_WRONG_CHECK);
    CHECK(ref_master_read((const uint8_t *)"\x7E\xC3\xDC", 3, &word) == REF_WRONG_CHECK);
    CHECK(ref_master_read((const uint8_t *)"\x7E\xC3\xDD", 3, &word) == REF_F_CODE);
    CHECK(word == 7);
    CHECK(ref_master_read(out, 3, &word) == REF_ACCEPTED && word == 1);
}

/* What is written is read back, and with any one bit damaged it is refused. */
static void test_slave_round_trip(void)
{
    for (int i = 0; i < 11; i++) {
        uint8_t data[32], frame[37], back[33];
        size_t count = 0, bytes = ROWS[i][2], need = ROWS[i][1] / 8;
        for (size_t k = 0; k < need; k++)
            data[k] = (uint8_t)(37 * k + 11 * (size_t)i + 5);
        memset(frame, 0xA5, sizeof frame);
        memset(back, 0xA5, sizeof back);
        CHECK(ref_slave_write(ROWS[i][0], data, need, frame, 37, &count) == 0);
        CHECK(count == bytes && frame[bytes] == 0xA5);
        CHECK(ref_slave_read(ROWS[i][0], frame, bytes, back, 33, &count) == 0);
        CHECK(count == need && memcmp(back, data, need) == 0 && back[need] == 0xA5);
        for (size_t bit = 0; bit < 8 * bytes; bit++) {
            uint8_t hurt[37];
            memcpy(hurt, frame, sizeof hurt);
            hurt[bit / 8] ^= (uint8_t)(1u << bit % 8);
            CHECK(ref_slave_read(ROWS[i][0], hurt, bytes, back, 33, &count) == REF_WRONG_CHECK);
        }
        CHECK(memcmp(back, data, need) == 0);
    }
}

static void test_slave_refusals(void)
{
    uint8_t out[36];
    size_t count = 99;
    memset(out, 0xA5, sizeof out);
    const uint8_t wrong[9] = {0};
    const uint8_t right[3] = {0, 1, 0x34};
    CHECK(ref_slave_read(5, right, 3, out, 0, &count) == REF_F_CODE);
    CHECK(ref_slave_read(16, right, 3, out, 0, &count) == REF_F_CODE);
    CHECK(ref_slave_read(255, right, 2, out, 0, &count) == REF_F_CODE);
    CHECK(ref_slave_read(0, wrong, 2, out, 0, &count) == REF_WRONG_LENGTH);
    CHECK(ref_slave_read(0, wrong, 3, out, 0, &count) == REF_WRONG_CHECK);
    CHECK(ref_slave_read(0, right, 3, out, 1, &count) == REF_TOO_SHORT);
    CHECK(ref_slave_write(11, wrong, 1, out, 0, &count) == REF_F_CODE);
    CHECK(ref_slave_write(64, wrong, 2, out, 36, &count) == REF_F_CODE);
    CHECK(ref_slave_write(2, wrong, 9, out, 0, &count) == REF_WRONG_LENGTH);
    CHECK(ref_slave_write(2, wrong, 8, out, 8, &count) == REF_TOO_SHORT);
    CHECK(count == 99);
    for (int i = 0; i < 36; i++)
        CHECK(out[i] == 0xA5);
}

/* One check sequence for each 64 bits, not one over all data. */
static void test_slave_blocks(void)
{
    uint8_t data[16] = {0}, frame[18];
    size_t count = 0;
    data[15] = 1;
    CHECK(ref_slave_write(3, data, 16, frame, 18, &count) == 0 && count == 18);
    CHECK(memcmp(frame, "\0\0\0\0\0\0\0\0\xFF\0\0\0\0\0\0\0\1\x34", 18) == 0);
}

static void test_line_answers(void)
{
    struct ref_answer a = ref_line_answer((const uint8_t *)"", 0);
    CHECK(a.line == REF_SILENCE && a.word == 0);
    a = ref_line_answer((const uint8_t *)"\x00\x01\x34", 3);
    CHECK(a.line == REF_REPLY && a.word == 1);
    /* A word with a reserved F_code is a reply too. */
    a = ref_line_answer((const uint8_t *)"\x7E\xC3\xDD", 3);
    CHECK(a.line == REF_REPLY && a.word == 0x7EC3);
    a = ref_line_answer((const uint8_t *)"\x00\x01\x35", 3);
    CHECK(a.line == REF_COLLISION && a.word == 0);
    a = ref_line_answer((const uint8_t *)"\x00\x01\x34\x00", 4);
    CHECK(a.line == REF_COLLISION);
    a = ref_line_answer((const uint8_t *)"\x00\x01", 2);
    CHECK(a.line == REF_COLLISION);
}

static void test_timing(void)
{
    uint32_t bits = 9;
    int yes = 9;
    CHECK(ref_telegram_bits(5, 3, &bits) == REF_F_CODE);
    CHECK(ref_telegram_bits(256, 70, &bits) == REF_F_CODE);
    CHECK(ref_telegram_bits(0, 3, &bits) == REF_RANGE);
    CHECK(ref_telegram_bits(0, 129, &bits) == REF_RANGE);
    CHECK(bits == 9);
    /* Seven words of F_code 0 at gap 70 take 952. */
    CHECK(ref_telegram_bits(0, 70, &bits) == 0 && 7 * bits == 952);
    CHECK(ref_telegram_bits(0, 4, &bits) == 0 && bits == 70);
    CHECK(ref_telegram_bits(12, 128, &bits) == 0 && bits == 458);
    CHECK(ref_guard(0, 131, 10, &yes) == REF_F_CODE);
    CHECK(ref_guard(0, 131, 9, &yes) == REF_RANGE && yes == 9);
    CHECK(ref_guard(457, 128, 12, &yes) == 0 && yes == 0);
    CHECK(ref_guard(458, 128, 12, &yes) == 0 && yes == 1);
    CHECK(ref_guard(4294967295u, 4, 15, &yes) == 0 && yes == 1);
}

/* The list file ----------------------------------------------------------- */

static int number_is(const char *bytes, size_t len, unsigned value)
{
    uint16_t number = 0;
    size_t behind = 99;
    int refusal = ref_number_at((const uint8_t *)bytes, len, 0, &number, &behind);
    return refusal == 0 && number == value && behind == len;
}

static void test_numbers(void)
{
    uint16_t number = 7;
    size_t behind = 8;
    CHECK(number_is("\xFF\xFF\x03", 3, 65535));
    CHECK(number_is("\x00", 1, 0) && number_is("\x7F", 1, 127));
    CHECK(number_is("\x80\x01", 2, 128) && number_is("\xFF\x7F", 2, 16383));
    CHECK(number_is("\x80\x80\x01", 3, 16384));
    CHECK(ref_number_at((const uint8_t *)"\x80\x80\x04", 3, 0, &number, &behind) == REF_NUMBER);
    CHECK(ref_number_at((const uint8_t *)"\x80\x00", 2, 0, &number, &behind) == REF_NUMBER);
    CHECK(ref_number_at((const uint8_t *)"\x81\x80\x00", 3, 0, &number, &behind) == REF_NUMBER);
    CHECK(ref_number_at((const uint8_t *)"\x80\x80\x80\x01", 4, 0, &number, &behind) == REF_NUMBER);
    CHECK(ref_number_at((const uint8_t *)"\x80\x80", 2, 0, &number, &behind) == REF_NUMBER);
    CHECK(ref_number_at((const uint8_t *)"", 0, 0, &number, &behind) == REF_NUMBER);
    CHECK(ref_number_at((const uint8_t *)"\x05", 1, 1, &number, &behind) == REF_NUMBER);
    CHECK(ref_number_at((const uint8_t *)"\x05", 1, 70, &number, &behind) == REF_NUMBER);
    CHECK(number == 7 && behind == 8);
    for (uint32_t value = 0; value < 70000; value++) {
        uint8_t bytes[8] = {0};
        size_t len = write_number(bytes, value);
        CHECK(number_is((const char *)bytes, len, value) == (value <= 65535));
    }
}

static const uint8_t EXAMPLE[21] = {0x01, 0x01, 0x46, 0x8D, 0x04, 0x01, 0x10,
                                    0x01, 0xA0, 0x20, 0x00, 0x01};
static const char EXAMPLE_TEXT[] = "1 70 525 2\n0010 1 0\n1020 2 1\n";

static void test_example_list(void)
{
    uint8_t text[64];
    size_t count = 9, need = sizeof EXAMPLE_TEXT - 1;
    uint16_t out[3] = {7, 7, 7};
    memset(text, 0xA5, sizeof text);
    CHECK(ref_list_text(EXAMPLE, 21, text, need - 1, &count) == REF_TOO_SHORT);
    CHECK(text[0] == 0xA5 && count == 9);
    CHECK(ref_list_text(EXAMPLE, 21, text, 64, &count) == 0 && count == need);
    CHECK(memcmp(text, EXAMPLE_TEXT, need) == 0 && text[need] == 0xA5);
    CHECK(ref_list_text(EXAMPLE, 20, text, 9, &count) == REF_TOO_SHORT && count == need);
    CHECK(ref_list_text(EXAMPLE, 20, text, 10, &count) == 0 && count == 10);
    CHECK(memcmp(text, "refused 5\n", 10) == 0);

    CHECK(ref_basic_period(EXAMPLE, 20, 9999, out, 0, &count) == REF_NUMBER);
    CHECK(ref_basic_period(EXAMPLE, 21, 1024, out, 0, &count) == REF_NO_PERIOD);
    CHECK(ref_basic_period(EXAMPLE, 21, 1, out, 1, &count) == REF_TOO_SHORT);
    CHECK(count == 10 && out[0] == 7);
    CHECK(ref_basic_period(EXAMPLE, 21, 0, out, 3, &count) == 0 && count == 1);
    CHECK(out[0] == 0x0010 && out[1] == 7);
    CHECK(ref_basic_period(EXAMPLE, 21, 1023, out, 3, &count) == 0 && count == 2);
    CHECK(out[0] == 0x0010 && out[1] == 0x1020 && out[2] == 7);
}

/* A list from its numbers: those given, then counts of 0 until it is whole. */
struct written {
    size_t len;
    uint8_t bytes[2 * REF_LIST_BYTES];
};

static struct written written(const uint32_t *numbers, size_t count, size_t zeros)
{
    struct written list = {.len = 0};
    for (size_t i = 0; i < count; i++)
        list.len += write_number(list.bytes + list.len, numbers[i]);
    list.len += zeros;
    return list;
}

static int checked(struct written list, struct ref_summary *summary)
{
    return ref_list_check(list.bytes, list.len, summary);
}

#define LIST(zeros, ...)                                                              \
    written((const uint32_t[]){__VA_ARGS__},                                          \
            sizeof((const uint32_t[]){__VA_ARGS__}) / sizeof(uint32_t), zeros)

static void test_hand_lists(void)
{
    struct ref_summary s = {9, 9, 9, 9};
    uint16_t out[8];
    size_t count;
    CHECK(checked(LIST(11, 1, 1, 70, 136), &s) == REF_RANGE && s.ms == 9 && s.words == 9);
    CHECK(checked(LIST(11, 1, 1, 70, 137), &s) == 0);
    CHECK(s.ms == 1 && s.gap == 70 && s.reserve == 137 && s.words == 0);
    CHECK(checked(LIST(10, 1, 1, 70, 525, 7, 1, 2, 3, 4, 5, 6, 7), &s) == 0 && s.words == 7);
    CHECK(checked(LIST(10, 1, 1, 70, 525, 8, 1, 2, 3, 4, 5, 6, 7, 8), &s) == REF_OVERFULL);
    /* 952 of 975: with a reserve of 548 it is full, with 549 too full. */
    CHECK(checked(LIST(10, 1, 1, 70, 548, 7, 1, 2, 3, 4, 5, 6, 7), &s) == 0);
    CHECK(checked(LIST(10, 1, 1, 70, 549, 7, 1, 2, 3, 4, 5, 6, 7), &s) == REF_OVERFULL);
    struct written one = LIST(11, 1, 1, 70, 137), two = LIST(10, 1, 2, 70, 137);
    CHECK(ref_basic_period(one.bytes, one.len, 1023, out, 0, &count) == 0 && count == 0);
    CHECK(ref_basic_period(one.bytes, one.len, 1024, out, 0, &count) == REF_NO_PERIOD);
    CHECK(ref_basic_period(two.bytes, two.len, 511, out, 0, &count) == 0);
    CHECK(ref_basic_period(two.bytes, two.len, 512, out, 0, &count) == REF_NO_PERIOD);
}

static void test_header_ranges(void)
{
    struct ref_summary s;
    CHECK(checked(LIST(0, 2), &s) == REF_RANGE && checked(LIST(0, 0), &s) == REF_RANGE);
    CHECK(checked(LIST(0, 1, 0), &s) == REF_RANGE && checked(LIST(0, 1, 3), &s) == REF_RANGE);
    CHECK(checked(LIST(0, 1, 1, 3), &s) == REF_RANGE);
    CHECK(checked(LIST(0, 1, 1, 129), &s) == REF_RANGE);
    CHECK(checked(LIST(11, 1, 1, 128, 194), &s) == REF_RANGE);
    CHECK(checked(LIST(11, 1, 1, 128, 195), &s) == 0);
    CHECK(checked(LIST(11, 1, 1, 4, 70), &s) == REF_RANGE);
    CHECK(checked(LIST(11, 1, 1, 4, 71), &s) == 0);
    CHECK(checked(LIST(11, 1, 1, 4, 1500), &s) == 0);
    CHECK(checked(LIST(11, 1, 1, 4, 1501), &s) == REF_RANGE);
    CHECK(checked(LIST(10, 1, 2, 4, 3000), &s) == 0);
    CHECK(checked(LIST(10, 1, 2, 4, 3001), &s) == REF_RANGE);
    CHECK(checked(LIST(0, 1, 1, 4, 71, 257), &s) == REF_RANGE);
    CHECK(checked(LIST(0, 1, 1, 4, 71, 0, 1, 5, 257), &s) == REF_RANGE);
    CHECK(checked(LIST(12, 1, 1, 4, 71), &s) == REF_BYTES_AFTER);
    CHECK(checked(LIST(11, 1, 2, 4, 71), &s) == REF_BYTES_AFTER);
    CHECK(checked(LIST(10, 1, 1, 4, 71), &s) == REF_NUMBER);
    CHECK(checked(LIST(REF_LIST_BYTES - 4, 1, 1, 4, 71), &s) == REF_BYTES_AFTER);
    CHECK(checked(LIST(REF_LIST_BYTES - 3, 1, 1, 4, 71), &s) == REF_WRONG_LENGTH);
}

/* The first number that fails a check decides, and at one number 5, 6, 7, 8. */
static void test_list_order(void)
{
    struct ref_summary s;
    /* F_codes 5 to 14 are not listed; 15 and the same address as 0 is. */
    CHECK(checked(LIST(10, 1, 1, 4, 71, 1, 0x5001), &s) == REF_NOT_IN_LIST);
    CHECK(checked(LIST(10, 1, 1, 4, 71, 1, 0xE001), &s) == REF_NOT_IN_LIST);
    CHECK(checked(LIST(10, 1, 1, 4, 71, 2, 0xF001, 0x0001), &s) == 0);
    CHECK(checked(LIST(10, 1, 1, 4, 71, 2, 0xF001, 0xF001), &s) == REF_TWICE);
    CHECK(checked(LIST(10, 1, 1, 4, 71, 2, 0x4001, 0x0001), &s) == REF_TWICE);
    /* A clash stands at its later word, across cycles too. */
    CHECK(checked(LIST(0, 1, 1, 4, 71, 3, 1, 0x1001, 0x5005), &s) == REF_TWICE);
    CHECK(checked(LIST(0, 1, 1, 4, 71, 3, 1, 0x5001, 1), &s) == REF_NOT_IN_LIST);
    CHECK(checked(LIST(9, 1, 1, 4, 71, 1, 1, 1, 1, 1, 0), &s) == REF_TWICE);
    /* Split numbers add up, or 9 before whatever follows. */
    CHECK(checked(LIST(9, 1, 1, 4, 71, 0, 2, 1, 2, 1, 1), &s) == 0);
    CHECK(checked(LIST(9, 1, 1, 4, 71, 0, 2, 1, 2, 1, 0), &s) == REF_SPLIT);
    CHECK(checked(LIST(0, 1, 1, 4, 71, 0, 2, 1, 2, 1, 0), &s) == REF_SPLIT);
    CHECK(checked(LIST(0, 1, 1, 4, 71, 0, 2, 1, 2, 256, 256, 257), &s) == REF_SPLIT);
    CHECK(checked(LIST(0, 1, 1, 4, 71, 0, 2, 1, 2, 256), &s) == REF_NUMBER);
    CHECK(checked(LIST(0, 1, 1, 4, 71, 0, 2, 1), &s) == REF_NUMBER);
    CHECK(checked(LIST(0, 1, 1, 4, 71, 0, 2, 1, 0x1001, 2, 0, 257), &s) == REF_TWICE);
    /* 11 before 10. */
    CHECK(checked(LIST(10, 1, 1, 4, 1500, 1, 1), &s) == REF_OVERFULL);
    CHECK(checked(LIST(11, 1, 1, 4, 1500, 1, 1), &s) == REF_BYTES_AFTER);
}

/* In an accepted list each word goes out once in any run as long as its cycle,
 * nothing else does, and it fits beside the reserve. */
static void test_sends(const struct ref_list *list)
{
    static uint16_t sent[1024][REF_CYCLES * REF_CYCLE_WORDS];
    static size_t count[1024];
    unsigned periods = ref_list_periods(list);
    size_t due = 0, went = 0;
    for (unsigned j = 0; j < periods; j++) {
        uint32_t sum = list->reserve, bits = 0;
        count[j] = ref_list_sends(list, j, sent[j]);
        for (size_t i = 0; i < count[j]; i++)
            sum += ref_telegram_bits(sent[j][i] / 4096, list->gap, &bits) == 0 ? bits : 99999;
        CHECK(sum <= 1500u * list->ms);
        went += count[j];
    }
    for (unsigned n = 0; n < list->cycles; n++)
        for (size_t i = 0; i < list->cycle[n].words; i++) {
            unsigned s = ref_list_subcycle(list, n, i), times = 0;
            for (unsigned j = s; j < periods; j += 1u << n)
                for (size_t k = 0; k < count[j]; k++)
                    times += sent[j][k] == list->cycle[n].word[i];
            CHECK(s < 1u << n && times == periods >> n);
            due += periods >> n;
        }
    CHECK(due == went);
}

static void test_drafted_lists(void)
{
    static struct draft draft;
    static struct written file;
    struct ref_list list;
    uint32_t x = 0x115EED;
    for (int i = 0; i < 100; i++) {
        struct shape shape = {1u + (unsigned)i % 2, 4 + random_below(&x, 125), 300, {0}, -1,
                              i % 3 == 0, 0, i % 5 == 0};
        for (int n = 0; n < REF_CYCLES; n++)
            shape.want[n] = random_below(&x, 20);
        draft_list(&draft, &shape, &x);
        file.len = write_list(file.bytes, &draft);
        CHECK(ref_list_read(file.bytes, file.len, &list) == 0);
        test_sends(&list);
    }
}

/* The largest good lists: 20 or 41 telegrams of 70 bit times everywhere. */
static void test_largest_lists(void)
{
    static struct draft draft;
    static struct written file;
    struct ref_list list;
    uint32_t x = 1;
    for (unsigned ms = 1; ms <= 2; ms++) {
        struct shape shape = {ms, 4, 71, {0}, 0, 1, 0, 0};
        shape.want[5 - ms] = ms == 1 ? 68 : 76;
        for (unsigned n = 6 - ms; n < 12 - ms; n++)
            shape.want[n] = 256;
        draft_list(&draft, &shape, &x);
        file.len = write_list(file.bytes, &draft);
        CHECK(ref_list_read(file.bytes, file.len, &list) == 0);
        CHECK(ref_list_words(&list) == (ms == 1 ? 1604 : 1612));
        test_sends(&list);
    }
}

/* Ports and ages ---------------------------------------------------------- */

/* Five ports of every size, sinks marked 1, 2 and 255, in a store of 62 bytes. */
static const struct ref_port TABLE[5] = {{0x001, 4, 1},
                                         {0x010, 0, 0},
                                         {0x123, 3, 2},
                                         {0x800, 2, 0},
                                         {0xFFF, 1, 255}};
enum { STORE = 32 + 2 + 16 + 8 + 4 };

/* A store and ages with known contents, and a byte behind the store. */
struct lent {
    uint8_t store[STORE + 1];
    uint16_t age[6];
    struct ref_ports ports;
};

static void lend(struct lent *to)
{
    for (size_t i = 0; i <= STORE; i++)
        to->store[i] = (uint8_t)(i + 1);
    for (uint16_t i = 0; i < 6; i++)
        to->age[i] = (uint16_t)(100 * i + 7);
    to->ports = (struct ref_ports){TABLE, 5, to->store, STORE, to->age, 5};
}

/* Whether store and ages are as lent, but for these bytes and this age. */
static int untouched(const struct lent *now, size_t from, size_t bytes, size_t age)
{
    struct lent fresh;
    int same = 1;
    lend(&fresh);
    for (size_t i = 0; i <= STORE; i++)
        same &= (i >= from && i < from + bytes) || now->store[i] == fresh.store[i];
    for (size_t i = 0; i < 6; i++)
        same &= i == age || now->age[i] == fresh.age[i];
    return same;
}

static int all_untouched(const struct lent *now)
{
    return untouched(now, 0, 0, 99);
}

static int good(const struct ref_port *table, size_t ports)
{
    uint8_t store[1] = {0};
    uint16_t ages[300] = {0};
    return ref_port_tick((struct ref_ports){table, ports, store, 0, ages, 300}) == 0;
}

static void test_tables(void)
{
    static struct ref_port many[257];
    for (uint16_t i = 0; i < 257; i++)
        many[i] = (struct ref_port){(uint16_t)(16 * i - (i == 256)), i % 5, (uint8_t)i};
    CHECK(good(many, 0) && good(many, 1) && good(many, 256) && good(TABLE, 5));
    CHECK(!good(many, 257));
    many[7].address = many[6].address;
    CHECK(good(many, 7) && !good(many, 8));
    many[7].address = (uint16_t)(many[6].address - 1);
    CHECK(!good(many, 8));
    many[7].address = (uint16_t)(many[6].address + 1);
    CHECK(good(many, 8));
    many[7].f_code = 5;
    CHECK(!good(many, 8));
    many[7].f_code = 12;
    CHECK(!good(many, 8));
    CHECK(good((const struct ref_port[]){{4095, 0, 0}}, 1));
    CHECK(!good((const struct ref_port[]){{4096, 0, 0}}, 1));
}

static void test_arrive(void)
{
    struct lent l;
    uint8_t data[16], frame[18];
    size_t count = 0;
    memset(data, 0xEE, sizeof data);
    CHECK(ref_slave_write(3, data, 16, frame, 18, &count) == 0);
    lend(&l);
    CHECK(ref_port_arrive(l.ports, 0x3123, frame, 18) == 0);
    CHECK(untouched(&l, 34, 16, 2) && l.age[2] == 0 && memcmp(l.store + 34, data, 16) == 0);

    lend(&l);
    CHECK(ref_port_arrive(l.ports, 0x5124, frame, 17) == REF_NOT_PROCESS_DATA);
    CHECK(ref_port_arrive(l.ports, 0xF123, frame, 17) == REF_NOT_PROCESS_DATA);
    CHECK(ref_port_arrive(l.ports, 0x3124, frame, 17) == REF_NO_PORT);
    CHECK(ref_port_arrive(l.ports, 0x1010, frame, 17) == REF_OTHER_F_CODE);
    CHECK(ref_port_arrive(l.ports, 0x0010, frame, 17) == REF_SINK_SOURCE);
    CHECK(ref_port_arrive(l.ports, 0x3123, frame, 17) == REF_WRONG_LENGTH);
    frame[17] ^= 1;
    CHECK(ref_port_arrive(l.ports, 0x3123, frame, 18) == REF_WRONG_CHECK);
    l.ports.ages = 4;
    CHECK(ref_port_arrive(l.ports, 0x5124, frame, 17) == REF_TOO_SHORT);
    l.ports.ages = 5;
    l.ports.store_bytes = STORE - 1;
    CHECK(ref_port_arrive(l.ports, 0x5124, frame, 17) == REF_TOO_SHORT);
    l.ports.port = (const struct ref_port[]){{2, 0, 0}, {1, 0, 0}};
    l.ports.ports = 2;
    l.ports.store_bytes = 0;
    CHECK(ref_port_arrive(l.ports, 0x5124, frame, 17) == REF_TABLE);
    CHECK(all_untouched(&l));
}

static void test_answer(void)
{
    struct lent l;
    uint8_t out[10];
    size_t count = 77;
    lend(&l);
    memset(out, 0xA5, sizeof out);
    l.ports.ages = 0; /* an answer takes no ages */
    CHECK(ref_port_answer(l.ports, 0x8800, out, 0, &count) == REF_NOT_PROCESS_DATA);
    CHECK(ref_port_answer(l.ports, 0x2801, out, 0, &count) == REF_NO_PORT);
    CHECK(ref_port_answer(l.ports, 0x3800, out, 0, &count) == REF_OTHER_F_CODE);
    CHECK(ref_port_answer(l.ports, 0x3001, out, 0, &count) == REF_OTHER_F_CODE);
    CHECK(ref_port_answer(l.ports, 0x4001, out, 0, &count) == REF_SINK_SOURCE);
    CHECK(ref_port_answer(l.ports, 0x2800, out, 8, &count) == REF_TOO_SHORT);
    CHECK(count == 77 && out[0] == 0xA5);
    CHECK(ref_port_answer(l.ports, 0x2800, out, 10, &count) == 0 && count == 9);
    CHECK(memcmp(out, l.store + 50, 8) == 0 && out[8] == ref_check_of(out, 8) && out[9] == 0xA5);
    l.ports.store_bytes = STORE - 1;
    CHECK(ref_port_answer(l.ports, 0x8800, out, 0, &count) == REF_TOO_SHORT);
    CHECK(all_untouched(&l));
}

static void test_read_and_fill(void)
{
    struct lent l;
    uint8_t out[5];
    size_t count = 77;
    uint16_t age = 66;
    lend(&l);
    memset(out, 0xA5, sizeof out);
    CHECK(ref_port_read(l.ports, 0x1FFF, out, 0, &count, &age) == REF_NO_PORT);
    CHECK(ref_port_read(l.ports, 0x800, out, 0, &count, &age) == REF_SINK_SOURCE);
    CHECK(ref_port_read(l.ports, 0xFFF, out, 3, &count, &age) == REF_TOO_SHORT);
    CHECK(count == 77 && age == 66 && out[0] == 0xA5);
    CHECK(ref_port_read(l.ports, 0xFFF, out, 5, &count, &age) == 0 && count == 4 && age == 407);
    CHECK(memcmp(out, l.store + 58, 4) == 0 && out[4] == 0xA5);
    l.ports.ages = 4;
    CHECK(ref_port_read(l.ports, 0x1FFF, out, 0, &count, &age) == REF_TOO_SHORT);
    /* Filling a source takes no ages. */
    CHECK(ref_port_fill(l.ports, 0x1800, out, 7) == REF_NO_PORT);
    CHECK(ref_port_fill(l.ports, 0xFFF, out, 7) == REF_SINK_SOURCE);
    CHECK(ref_port_fill(l.ports, 0x010, out, 3) == REF_WRONG_LENGTH);
    CHECK(all_untouched(&l));
    CHECK(ref_port_fill(l.ports, 0x010, (const uint8_t *)"\xAB\xCD", 2) == 0);
    CHECK(untouched(&l, 32, 2, 99) && l.store[32] == 0xAB && l.store[33] == 0xCD);
}

static void test_ticks(void)
{
    struct lent l;
    lend(&l);
    l.age[4] = 65534;
    l.ports.store_bytes = 0; /* a tick takes no store */
    CHECK(ref_port_tick(l.ports) == 0 && l.age[4] == 65535);
    CHECK(ref_port_tick(l.ports) == 0 && l.age[4] == 65535);
    CHECK(l.age[0] == 9 && l.age[1] == 107 && l.age[2] == 209 && l.age[3] == 307);
    CHECK(l.age[5] == 507 && memcmp(l.store, "\1\2\3", 3) == 0);
    l.ports.ages = 4;
    CHECK(ref_port_tick(l.ports) == REF_TOO_SHORT && l.age[0] == 9);
}

/* Filled, answered, arrived, read: the same data, age 0, then n after n ticks. */
static void test_port_trip(void)
{
    for (uint8_t f_code = 0; f_code < 5; f_code++) {
        struct ref_port source = {0x345, f_code, 0}, sink = {0x345, f_code, 1};
        uint8_t here[32] = {0}, there[32] = {0}, data[32], frame[36], back[32] = {0};
        uint16_t ages[1] = {9}, age = 9, word = (uint16_t)(4096 * f_code + 0x345);
        struct ref_ports from = {&source, 1, here, 32, ages, 0};
        struct ref_ports to = {&sink, 1, there, 32, ages, 1};
        size_t bytes = ref_data_bits(f_code) / 8, count = 0;
        for (size_t i = 0; i < 32; i++)
            data[i] = (uint8_t)(7 * i + f_code);
        CHECK(ref_port_fill(from, 0x345, data, bytes) == 0);
        CHECK(ref_port_answer(from, word, frame, 36, &count) == 0);
        CHECK(ref_port_arrive(to, word, frame, count) == 0);
        CHECK(ref_port_read(to, 0x345, back, 32, &count, &age) == 0 && age == 0);
        CHECK(count == bytes && memcmp(back, data, bytes) == 0);
        for (unsigned n = 1; n <= 70000; n++)
            ref_port_tick(to);
        CHECK(ref_port_read(to, 0x345, back, 32, &count, &age) == 0 && age == 65535);
        CHECK(memcmp(back, data, bytes) == 0);
    }
}

/* The event round --------------------------------------------------------- */

static void test_group_words(void)
{
    CHECK(ref_request_word(12, 0, 0x100) == 0x9100);
    CHECK(ref_request_word(11, 0, 0) == 0xDFFC);
    CHECK(ref_request_word(11, 1, 0) == 0xDFFD);
    /* 001, 8.3.4.2, the figure: five ones, a zero, the six bits of C. */
    CHECK(ref_request_word(6, 0x2A, 0) == 0xDF80 + 0x2A);
    CHECK(ref_request_word(2, 0x3FF, 0) == 0xDBFF);
    CHECK(ref_request_word(1, 0x7FF, 0) == 0xD7FF);
    CHECK(ref_request_word(0, 0xFFF, 0) == 0xEFFF);
    /* 001, 8.3.1, the example: {M = 4, C = 5}. */
    CHECK(ref_in_group(4, 5, 0xF05) && ref_in_group(4, 5, 0x805) && ref_in_group(4, 5, 0x505));
    CHECK(!ref_in_group(4, 5, 0xF04) && !ref_in_group(4, 5, 0xF85));
    CHECK(ref_in_group(12, 0, 0xABC) && ref_in_group(0, 0xABC, 0xABC));
}

/* A line with its history: every word, of which those of F_code 12 are reads. */
struct told_line {
    struct seeded_line line;
    unsigned requests, reads;
    uint16_t read[4096];
};

static struct ref_answer tell(void *lent, uint16_t word)
{
    struct told_line *told = lent;
    if (word / 4096 != 12)
        told->requests++;
    else if (told->reads < 4096)
        told->read[told->reads++] = word % 4096;
    return seeded_answer(&told->line, word);
}

static struct told_line line_of(enum line_kind kind, const uint16_t *devices, size_t k)
{
    struct told_line told = {.line = {.kind = kind, .x = 1, .hash = hash_start()}};
    for (size_t i = 0; i < k; i++)
        told.line.set[devices[i] / 8] |= (uint8_t)(1u << devices[i] % 8);
    return told;
}

/* Plays the round by steps. After each step the counts are those of the
 * history, the request that waits for its answer not among them. */
static struct ref_counts play(struct told_line *told)
{
    struct ref_stepped s;
    CHECK(ref_round_start(0x100, &s) == 0 && s.word == 0x9100 && !s.ended);
    while (!s.ended) {
        struct ref_answer answer = tell(told, s.word);
        CHECK(told->requests == s.round.requests + (s.round.phase == 0 ? 1u : 0u));
        CHECK(s.round.reads == told->reads);
        if (ref_round_step(s.round, answer, &s) != 0) {
            CHECK(!"a round from a start is refused");
            break;
        }
    }
    CHECK(s.round.requests == told->requests && s.round.m == 12 && s.round.c == 0);
    return (struct ref_counts){s.round.requests, s.round.reads, s.round.unresolved};
}

static int same_counts(struct ref_counts a, struct ref_counts b)
{
    return a.requests == b.requests && a.reads == b.reads && a.unresolved == b.unresolved;
}

/* The whole round and the stepped one on the same line agree word for word. */
static struct ref_counts play_both(const struct told_line *fresh, struct told_line *after)
{
    struct told_line stepped = *fresh;
    struct ref_counts counts;
    *after = *fresh;
    CHECK(ref_whole_round(0x100, tell, after, &counts) == 0);
    CHECK(same_counts(play(&stepped), counts));
    CHECK(stepped.line.hash == after->line.hash && stepped.reads == after->reads);
    CHECK(counts.requests == after->requests && counts.reads == after->reads);
    CHECK(counts.requests <= 8191 && counts.reads <= 4096);
    return counts;
}

static void hand_round(const uint16_t *devices, size_t k, uint32_t requests,
                       const uint16_t *order)
{
    struct told_line fresh = line_of(TRUTHFUL, devices, k), after;
    struct ref_counts counts = play_both(&fresh, &after), searched;
    uint16_t out[8];
    CHECK(counts.requests == requests && counts.reads == k && counts.unresolved == 0);
    CHECK(memcmp(after.read, order, k * sizeof *order) == 0);
    CHECK(ref_search(fresh.line.set, 512, out, k, &searched) == 0);
    CHECK(same_counts(searched, counts) && memcmp(out, order, k * sizeof *order) == 0);
}

static void test_hand_rounds(void)
{
    hand_round((const uint16_t[]){0}, 0, 1, (const uint16_t[]){0});
    hand_round((const uint16_t[]){0x005}, 1, 1, (const uint16_t[]){0x005});
    hand_round((const uint16_t[]){0x001, 0x002}, 2, 3, (const uint16_t[]){0x002, 0x001});
    hand_round((const uint16_t[]){0xF05, 0x805, 0x505}, 3, 21,
               (const uint16_t[]){0x805, 0x505, 0xF05});
    hand_round((const uint16_t[]){0x000, 0x800}, 2, 25, (const uint16_t[]){0x000, 0x800});

    struct told_line fresh = line_of(ALWAYS_COLLISION, NULL, 0), after;
    struct ref_counts counts = play_both(&fresh, &after);
    CHECK(same_counts(counts, (struct ref_counts){8191, 0, 4096}));
    fresh = line_of(ALWAYS_SILENCE, NULL, 0);
    counts = play_both(&fresh, &after);
    CHECK(same_counts(counts, (struct ref_counts){1, 0, 0}));
}

/* The twelve bits of an address, lowest first, as a number. */
static unsigned lowest_first(unsigned address)
{
    unsigned number = 0;
    for (unsigned bit = 0; bit < 12; bit++)
        number |= ((address >> bit) & 1) << (11 - bit);
    return number;
}

/* On a truthful line each device is read once, in its order, within the bound,
 * and the search agrees. */
static void truthful_round(unsigned k, unsigned shared, uint32_t seed)
{
    static uint16_t out[4096];
    struct told_line fresh = line_of(TRUTHFUL, NULL, 0), after;
    struct ref_counts searched;
    seeded_set(fresh.line.set, k, shared, &seed);
    fresh.line.x = seed;
    struct ref_counts counts = play_both(&fresh, &after);
    CHECK(counts.reads == k && counts.unresolved == 0);
    CHECK(counts.requests <= 1 + 24 * (k / 2));
    for (unsigned i = 0; i < k; i++) {
        CHECK(fresh.line.set[after.read[i] / 8] >> after.read[i] % 8 & 1);
        CHECK(i == 0 || lowest_first(after.read[i - 1]) < lowest_first(after.read[i]));
    }
    if (k > 0)
        CHECK(ref_search(fresh.line.set, 512, out, k - 1, &searched) == REF_TOO_SHORT);
    CHECK(ref_search(fresh.line.set, 512, out, k, &searched) == 0);
    CHECK(same_counts(searched, counts) && memcmp(out, after.read, 2 * k) == 0);
}

static void test_seeded_rounds(void)
{
    uint32_t x = 0x5EED;
    for (unsigned k = 0; k <= 4096; k += 1 + k / 16)
        for (unsigned shared = 0; shared < 12 && k <= 4096u >> shared; shared++)
            truthful_round(k, shared, random_next(&x));
    truthful_round(4096, 0, 1);
    for (unsigned kind = ANYTHING; kind <= AFTER_SILENCE; kind++)
        for (unsigned k = 0; k < 100; k++) {
            struct told_line fresh = line_of((enum line_kind)kind, NULL, 0), after;
            fresh.line.x = random_next(&x);
            seeded_set(fresh.line.set, k, 0, &fresh.line.x);
            play_both(&fresh, &after);
        }
}

/* One step of a round made by hand, on a collision. */
static int steps_to(struct ref_round old, struct ref_stepped *to)
{
    return ref_round_step(old, (struct ref_answer){REF_COLLISION, 0}, to);
}

static void test_impossible_rounds(void)
{
    struct ref_stepped s = {7, 7, {7, 7, 7, 7, 7, 7}};
    CHECK(ref_round_start(4096, &s) == REF_RANGE);
    CHECK(steps_to((struct ref_round){0, 13, 0, 0, 0, 0}, &s) == REF_ROUND);
    CHECK(steps_to((struct ref_round){0, 12, 1, 0, 0, 0}, &s) == REF_ROUND);
    CHECK(steps_to((struct ref_round){1, 4, 256, 0, 0, 0}, &s) == REF_ROUND);
    CHECK(steps_to((struct ref_round){0, 4, 5, 3, 2, 2}, &s) == REF_ROUND);
    CHECK(steps_to((struct ref_round){0, 4, 5, 0, 32768, 32768}, &s) == REF_ROUND);
    CHECK(steps_to((struct ref_round){0, 12, 0, 8191, 0, 0}, &s) == REF_ROUND);
    CHECK(steps_to((struct ref_round){1, 0, 0, 8191, 1, 0}, &s) == REF_ROUND);
    CHECK(s.ended == 7 && s.word == 7 && s.round.unresolved == 7 && s.round.phase == 7);
    /* No group follows {0, FFF} or {12, 0}: no request is still to be asked. */
    CHECK(steps_to((struct ref_round){1, 0, 4095, 8191, 1, 0}, &s) == 0 && s.ended);
    CHECK(steps_to((struct ref_round){1, 12, 0, 65535, 65535, 0}, &s) == 0 && s.ended);
    CHECK(s.round.requests == 65535 && s.round.reads == 65535);
    /* 8,190 requests are not too many, even where more than one is left. */
    CHECK(steps_to((struct ref_round){0, 12, 0, 8190, 0, 0}, &s) == 0 && !s.ended);
    CHECK(s.word == 0xDFFC && s.round.requests == 8191);
    /* A step on an ended round comes first, whatever else the round holds. */
    CHECK(steps_to((struct ref_round){2, 99, 9999, 1, 2, 3}, &s) == 0 && s.ended);
    CHECK(s.round.phase == 2 && s.round.m == 99 && s.round.c == 9999);
    CHECK(s.round.requests == 1 && s.round.reads == 2 && s.round.unresolved == 3);
}

static void test_replies(void)
{
    struct ref_round at = {0, 4, 5, 10, 1, 1};
    struct ref_stepped s;
    CHECK(ref_round_step(at, (struct ref_answer){REF_REPLY, 0xCF05}, &s) == 0);
    CHECK(s.word == 0xCF05 && s.round.phase == 1 && s.round.requests == 11 && s.round.reads == 2);
    CHECK(ref_round_step(s.round, (struct ref_answer){REF_REPLY, 0xCF05}, &s) == 0);
    /* {4, 05} is followed by {4, 85}: its highest common bit is 0. */
    CHECK(s.round.phase == 0 && s.round.m == 4 && s.round.c == 0x85 && s.round.reads == 2);
    CHECK(ref_round_step(at, (struct ref_answer){REF_REPLY, 0xCF04}, &s) == 0);
    CHECK(s.round.m == 3 && s.round.c == 5 && s.round.reads == 1);
    CHECK(ref_round_step(at, (struct ref_answer){REF_REPLY, 0xDF05}, &s) == 0);
    CHECK(s.round.m == 3 && s.round.c == 5 && s.round.requests == 11);
    at = (struct ref_round){0, 0, 0x7FF, 10, 1, 1};
    /* {0, 7FF} is followed by {0, FFF}, and that by nothing. */
    CHECK(ref_round_step(at, (struct ref_answer){REF_COLLISION, 0}, &s) == 0);
    CHECK(s.round.unresolved == 2 && s.word == 0xEFFF);
    CHECK(ref_round_step(s.round, (struct ref_answer){REF_SILENCE, 0}, &s) == 0);
    CHECK(s.ended && s.round.requests == 12 && s.round.unresolved == 2);
}

static void test_search_refusals(void)
{
    uint8_t set[513] = {3};
    uint16_t out[2] = {7, 7};
    struct ref_counts counts = {9, 9, 9};
    CHECK(ref_search(set, 511, out, 0, &counts) == REF_WRONG_LENGTH);
    CHECK(ref_search(set, 513, out, 2, &counts) == REF_WRONG_LENGTH);
    CHECK(ref_search(set, 512, out, 1, &counts) == REF_TOO_SHORT);
    CHECK(out[0] == 7 && out[1] == 7 && counts.requests == 9 && counts.reads == 9);
    CHECK(ref_search(set, 512, out, 2, &counts) == 0 && out[0] == 0 && out[1] == 1);
}

int main(void)
{
    test_check_vectors();
    test_check_parity();
    test_check_distance(2);
    test_check_distance(4);
    test_check_distance(8);
    test_rows();
    test_master_frames();
    test_slave_round_trip();
    test_slave_refusals();
    test_slave_blocks();
    test_line_answers();
    test_timing();
    test_numbers();
    test_example_list();
    test_hand_lists();
    test_header_ranges();
    test_list_order();
    test_drafted_lists();
    test_largest_lists();
    test_tables();
    test_arrive();
    test_answer();
    test_read_and_fill();
    test_ticks();
    test_port_trip();
    test_group_words();
    test_hand_rounds();
    test_seeded_rounds();
    test_impossible_rounds();
    test_replies();
    test_search_refusals();
    printf("reference: %lu checks passed, %lu failed\n", passed, failed);
    return failed == 0 ? 0 : 1;
}
