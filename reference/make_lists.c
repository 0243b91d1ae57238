/* make_lists DIR writes lists from the papers: DIR/NAME.list, the list file,
 * and DIR/NAME.txt, its text. Every run writes the same bytes. */
#include "drafts.h"

#include <stdio.h>

enum { BYTES = 16384, TEXT = 49152 };

static int write_file(const char *dir, const char *name, const char *ending,
                      const uint8_t *bytes, size_t len)
{
    char path[4096];
    int length = snprintf(path, sizeof path, "%s/%s.%s", dir, name, ending);
    if (length < 0 || (size_t)length >= sizeof path)
        return 1;
    FILE *file = fopen(path, "wb");
    if (file == NULL)
        return 1;
    size_t wrote = fwrite(bytes, 1, len, file);
    return (fclose(file) != 0) | (wrote != len);
}

/* Writes a good list and its text; 1 where that fails. */
static int write_pair(const char *dir, const char *name, const struct draft *draft)
{
    static uint8_t list[BYTES], text[TEXT];
    struct ref_summary summary;
    size_t length = 0, len = write_list(list, draft);
    int refusal = ref_list_check(list, len, &summary);
    if (refusal == 0)
        refusal = ref_list_text(list, len, text, sizeof text, &length);
    if (refusal != 0) {
        fprintf(stderr, "make_lists: %s is refused %d\n", name, refusal);
        return 1;
    }
    int failed = write_file(dir, name, "list", list, len);
    failed |= write_file(dir, name, "txt", text, length);
    if (failed)
        fprintf(stderr, "make_lists: cannot write %s/%s\n", dir, name);
    return failed;
}

/* Document 01, "Lines to check by hand". */
static const struct given EXAMPLE[] = {{0x0010, 0, 0}, {0x1020, 1, 1}};

/* Source document 004, the periodic schedule: two telegrams in each of eight
 * Basic Periods of 1 ms. */
static const struct given NETWORK[] = {
    {0x30FF, 6, 0},  {0x4302, 6, 0}, {0x3301, 6, 1}, {0x4206, 6, 1},
    {0x3205, 6, 2},  {0x4201, 8, 2}, {0x4203, 8, 3}, {0x4204, 8, 3},
    {0x4210, 8, 4},  {0x4211, 8, 4}, {0x4212, 8, 5}, {0x4213, 8, 5},
    {0x43A0, 9, 6},  {0x43A1, 9, 6}, {0x43A2, 9, 7}, {0x4202, 10, 7}};

/* Source document 000, table 20: two ports of each size, each every 8 ms. Which
 * Subcycle each is in is ours. */
static const struct given REPEATER[] = {
    {0x0001, 3, 0}, {0x0002, 3, 0}, {0x1003, 3, 1}, {0x1004, 3, 1}, {0x2005, 3, 2},
    {0x2006, 3, 3}, {0x3007, 3, 4}, {0x3008, 3, 5}, {0x4009, 3, 6}, {0x400A, 3, 7}};

static int write_given(const char *dir, const char *name, const struct given *given, size_t count)
{
    static struct draft draft;
    struct shape shape = {.ms = 1, .gap = 70, .reserve = 525};
    draft_given(&draft, &shape, given, count);
    return write_pair(dir, name, &draft);
}

/* 20 telegrams of 70 bit times in each Basic Period of 1 ms, 41 in each of 2 ms:
 * as many words as there can be in the slow cycles, the rest in the next one. */
static int write_largest(const char *dir, const char *name, unsigned ms)
{
    static struct draft draft;
    struct shape shape = {.ms = ms, .gap = 4, .reserve = 71, .f_code = 0, .first_fit = 1};
    uint32_t x = 0x31C0FFEE;
    shape.want[5 - ms] = ms == 1 ? 68 : 76;
    for (unsigned n = 6 - ms; n < 12 - ms; n++)
        shape.want[n] = REF_CYCLE_WORDS;
    draft_list(&draft, &shape, &x);
    return write_pair(dir, name, &draft);
}

int main(int argc, char **argv)
{
    if (argc != 2) {
        fprintf(stderr, "usage: make_lists DIR\n");
        return 2;
    }
    int failed = write_given(argv[1], "example", EXAMPLE, sizeof EXAMPLE / sizeof EXAMPLE[0]);
    failed |= write_given(argv[1], "network", NETWORK, sizeof NETWORK / sizeof NETWORK[0]);
    failed |= write_given(argv[1], "repeater", REPEATER, sizeof REPEATER / sizeof REPEATER[0]);
    failed |= write_largest(argv[1], "largest-1ms", 1);
    failed |= write_largest(argv[1], "largest-2ms", 2);
    return failed;
}
