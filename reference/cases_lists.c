/* Cases of lists: records of whole blocks of 64 bytes, each a list, the room
 * for its text, and the Basic Periods that are asked for. */
#include "cases.h"
#include "drafts.h"

#include <string.h>

enum { BLOCK = 64, HEAD = 8, QUERY = 4, MOST_QUERIES = 1026, MOST_PLACES = 128 };
enum { MOST_LIST = 16385, MOST_TEXT = 49152 };

/* A list file, with room for what is put behind it. */
struct file {
    size_t len;
    uint8_t bytes[MOST_NUMBERS * 5];
};

/* A Basic Period that is asked for, and the places of the lent output. */
struct query {
    unsigned j, places;
};

static void put_blocks(FILE *records, const uint8_t *head, const struct file *file,
                       const struct query *query, size_t queries)
{
    static const uint8_t zeros[BLOCK];
    fwrite(head, 1, HEAD, records);
    fwrite(file->bytes, 1, file->len, records);
    for (size_t i = 0; i < queries; i++) {
        uint8_t bytes[QUERY] = {(uint8_t)(query[i].j / 256), (uint8_t)(query[i].j % 256),
                                (uint8_t)(query[i].places / 256),
                                (uint8_t)(query[i].places % 256)};
        fwrite(bytes, 1, QUERY, records);
    }
    size_t used = (HEAD + file->len + QUERY * queries) % BLOCK;
    fwrite(zeros, 1, used == 0 ? 0 : BLOCK - used, records);
}

/* The end of a line: what was given or refused, and the hash of the output. */
static void print_rest(FILE *lines, int refusal, size_t count, uint32_t hash)
{
    if (refusal != 0)
        fprintf(lines, "refused %d %lu\n", refusal, (unsigned long)hash);
    else
        fprintf(lines, "gives %lu %lu\n", (unsigned long)count, (unsigned long)hash);
}

static void print_check(FILE *lines, const struct file *file)
{
    struct ref_summary s;
    int refusal = ref_list_check(file->bytes, file->len, &s);
    if (refusal != 0)
        fprintf(lines, "refused %d\n", refusal);
    else
        fprintf(lines, "gives %u %u %u %u\n", s.ms, s.gap, s.reserve, s.words);
}

static void print_text(FILE *lines, const struct file *file, size_t room)
{
    uint8_t out[MOST_TEXT];
    size_t count = 0;
    uint32_t hash = hash_start();
    memset(out, 0xA5, room);
    int refusal = ref_list_text(file->bytes, file->len, out, room, &count);
    for (size_t i = 0; i < room; i++)
        hash = hash_byte(hash, out[i]);
    print_rest(lines, refusal, count, hash);
}

static void print_period(FILE *lines, int list_refusal, const struct ref_list *list,
                         struct query query)
{
    uint16_t out[MOST_PLACES];
    size_t count = 0;
    uint32_t hash = hash_start();
    memset(out, 0xA5, sizeof out);
    int refusal = list_refusal;
    if (refusal == 0)
        refusal = ref_list_period(list, query.j, out, query.places, &count);
    for (size_t i = 0; i < query.places; i++)
        hash = hash_number(hash, out[i]);
    print_rest(lines, refusal, count, hash);
}

/* A room around what is needed: as much, less or more. */
static unsigned room_for(size_t need, uint32_t *x)
{
    switch (random_below(x, 4)) {
    case 0: return (unsigned)need + random_below(x, 6);
    case 1: return need > 0 ? (unsigned)need - 1 : 0;
    default: return (unsigned)need;
    }
}

static void put_list(struct cases *to, const struct file *file, const struct ref_list *list,
                     int refusal, const struct query *query, size_t queries, uint32_t *x)
{
    uint8_t out[MOST_TEXT];
    size_t text = 0;
    ref_list_text(file->bytes, file->len, out, sizeof out, &text);
    unsigned room = room_for(text, x);
    uint8_t head[HEAD] = {(uint8_t)(file->len / 256), (uint8_t)(file->len % 256),
                          (uint8_t)(queries / 256),   (uint8_t)(queries % 256),
                          (uint8_t)(room / 256),      (uint8_t)(room % 256)};
    put_blocks(to->records, head, file, query, queries);
    print_check(to->lines, file);
    print_text(to->lines, file, room);
    for (size_t i = 0; i < queries; i++)
        print_period(to->lines, refusal, list, query[i]);
}

/* Asks for Basic Period j of an accepted list, with a room around its need. */
static struct query ask(const struct ref_list *list, unsigned j, uint32_t *x)
{
    uint16_t words[REF_CYCLES * REF_CYCLE_WORDS];
    size_t need = j < ref_list_periods(list) ? ref_list_sends(list, j, words) : 3;
    return (struct query){j, room_for(need, x)};
}

/* A list with some of its Basic Periods: the ends, past the end, by chance. */
static void put_some(struct cases *to, const struct file *file, uint32_t *x)
{
    struct ref_list list;
    struct query query[5] = {{0}};
    query[0].j = random_below(x, 2048);
    query[0].places = random_below(x, 8);
    int refusal = ref_list_read(file->bytes, file->len, &list);
    if (refusal != 0) {
        put_list(to, file, &list, refusal, query, 1, x);
        return;
    }
    unsigned periods = ref_list_periods(&list);
    unsigned j[5] = {0, periods - 1, periods, 65535, random_below(x, periods)};
    for (int i = 0; i < 5; i++)
        query[i] = ask(&list, j[i], x);
    put_list(to, file, &list, refusal, query, 5, x);
}

/* An accepted list with every Basic Period it has, and two that it has not. */
static void put_every(struct cases *to, const struct draft *draft, uint32_t *x)
{
    struct ref_list list;
    struct query query[MOST_QUERIES];
    struct file file;
    file.len = write_list(file.bytes, draft);
    int refusal = ref_list_read(file.bytes, file.len, &list);
    must(refusal == 0, "a good list was refused");
    size_t queries = ref_list_periods(&list) + 2;
    for (unsigned j = 0; j < queries; j++)
        query[j] = ask(&list, j, x);
    put_list(to, &file, &list, refusal, query, queries, x);
}

static void put_draft(struct cases *to, const struct draft *draft, uint32_t *x)
{
    struct file file;
    file.len = write_list(file.bytes, draft);
    put_some(to, &file, x);
}

/* Damage */

/* How much of a draft is damaged: each place of it, or one in so many. */
static int chosen(unsigned one_in, uint32_t *x)
{
    return one_in <= 1 || random_below(x, one_in) == 0;
}

static void damage_bytes(struct cases *to, const struct draft *draft, unsigned one_in,
                         uint32_t *x)
{
    struct file file;
    file.len = write_list(file.bytes, draft);
    for (size_t i = 0; i < file.len; i++) {
        uint8_t right = file.bytes[i];
        uint8_t wrong[3] = {(uint8_t)(right ^ 128)};
        wrong[1] = (uint8_t)(right ^ 1u << random_below(x, 7));
        wrong[2] = (uint8_t)random_below(x, 256);
        for (int k = 0; chosen(one_in, x) && k < 3; k++) {
            file.bytes[i] = wrong[k];
            put_some(to, &file, x);
        }
        file.bytes[i] = right;
    }
}

static void cut(struct cases *to, const struct draft *draft, unsigned one_in, uint32_t *x)
{
    struct file file;
    for (file.len = write_list(file.bytes, draft); file.len-- > 0;)
        if (chosen(one_in, x))
            put_some(to, &file, x);
}

static void append(struct cases *to, const struct draft *draft, uint32_t *x)
{
    static const uint8_t behind[5][2] = {{0, 0}, {1, 0}, {0x80, 0}, {0x80, 1}, {0xFF, 0xFF}};
    struct file file;
    size_t len = write_list(file.bytes, draft);
    for (int i = 0; i < 5; i++)
        for (size_t more = 1; more <= 2; more++) {
            memcpy(file.bytes + len, behind[i], 2);
            file.len = len + more;
            put_some(to, &file, x);
        }
}

static void put_with(struct cases *to, struct draft *draft, size_t at, uint32_t number,
                     uint32_t *x)
{
    uint32_t right = draft->number[at];
    draft->number[at] = number;
    if (number != right)
        put_draft(to, draft, x);
    draft->number[at] = right;
}

/* One number replaced: by its neighbours, by the ends of the ranges, by 65,536. */
static void damage_numbers(struct cases *to, struct draft *draft, unsigned one_in, uint32_t *x)
{
    static const uint32_t ends[6] = {0, 256, 257, 65535, 65536, 2097152};
    for (size_t i = 0; i < draft->numbers; i++) {
        if (!chosen(one_in, x))
            continue;
        put_with(to, draft, i, draft->number[i] + 1, x);
        if (draft->number[i] > 0)
            put_with(to, draft, i, draft->number[i] - 1, x);
        put_with(to, draft, i, ends[random_below(x, 6)], x);
        if (draft->kind[i] == HEADER)
            for (int k = 0; k < 6; k++)
                put_with(to, draft, i, ends[k], x);
    }
}

/* One number with its last group repeated as nothing: not the shortest form. */
static void lengthen(struct cases *to, const struct draft *draft, unsigned one_in, uint32_t *x)
{
    struct file file;
    for (size_t i = 0; i < draft->numbers; i++) {
        if (!chosen(one_in, x))
            continue;
        file.len = 0;
        for (size_t k = 0; k < draft->numbers; k++) {
            file.len += write_number(file.bytes + file.len, draft->number[k]);
            if (k == i) {
                file.bytes[file.len - 1] |= 128;
                file.bytes[file.len++] = 0;
            }
        }
        put_some(to, &file, x);
    }
}

/* Some other word of the draft, or this one if there is none. */
static uint32_t other_word(const struct draft *draft, size_t at, uint32_t *x)
{
    size_t from = random_below(x, (uint32_t)draft->numbers);
    for (size_t i = 0; i < draft->numbers; i++) {
        size_t k = (from + i) % draft->numbers;
        if (draft->kind[k] == WORD && k != at)
            return draft->number[k];
    }
    return draft->number[at];
}

/* One word replaced: by another F_code over its address, by a listed word, by a
 * listed address under another F_code. */
static void damage_words(struct cases *to, struct draft *draft, unsigned one_in, uint32_t *x)
{
    for (size_t i = 0; i < draft->numbers; i++) {
        if (draft->kind[i] != WORD || !chosen(one_in, x))
            continue;
        for (uint32_t f_code = 0; f_code < 16; f_code++)
            if (one_in <= 1 || chosen(4, x))
                put_with(to, draft, i, 4096 * f_code + draft->number[i] % 4096, x);
        uint32_t other = other_word(draft, i, x);
        put_with(to, draft, i, other, x);
        put_with(to, draft, i, 4096 * random_below(x, 5) + other % 4096, x);
        put_with(to, draft, i, 4096 * 15 + other % 4096, x);
    }
}

/* One word moved from one split number to another of the same cycle, which is
 * no damage unless a Basic Period gets too full. */
static void move_splits(struct cases *to, struct draft *draft, unsigned one_in, uint32_t *x)
{
    for (size_t i = 0; i + 1 < draft->numbers; i++) {
        if (draft->kind[i] != SPLIT || draft->kind[i + 1] != SPLIT || !chosen(one_in, x))
            continue;
        size_t from = draft->number[i] > 0 ? i : i + 1;
        if (draft->number[from] == 0)
            continue;
        size_t into = from == i ? i + 1 : i;
        draft->number[from]--;
        draft->number[into]++;
        put_draft(to, draft, x);
        draft->number[from]++;
        draft->number[into]--;
    }
}

/* One number left out, one said twice, and two neighbours changed over. */
static void disorder(struct cases *to, const struct draft *draft, unsigned one_in, uint32_t *x)
{
    for (size_t i = 0; i < draft->numbers; i++) {
        struct draft wrong[3] = {{0}, {0}, {0}};
        if (!chosen(one_in, x))
            continue;
        for (size_t k = 0; k < draft->numbers; k++) {
            size_t turned = k == i && i > 0 ? k - 1 : k + 1 == i ? i : k;
            if (k != i)
                draft_number(&wrong[0], draft->kind[k], draft->number[k]);
            if (k == i)
                draft_number(&wrong[1], draft->kind[k], draft->number[k]);
            draft_number(&wrong[1], draft->kind[k], draft->number[k]);
            draft_number(&wrong[2], draft->kind[turned], draft->number[turned]);
        }
        for (int k = 0; k < 3; k++)
            put_draft(to, &wrong[k], x);
    }
}

/* Each place of a short draft damaged, of a long one some four in each way. */
static void put_damaged(struct cases *to, struct draft *draft, uint32_t *x)
{
    unsigned one_in = draft->numbers <= 60 ? 1 : (unsigned)draft->numbers / 4;
    put_draft(to, draft, x);
    cut(to, draft, one_in, x);
    append(to, draft, x);
    damage_bytes(to, draft, one_in, x);
    damage_numbers(to, draft, one_in, x);
    lengthen(to, draft, one_in, x);
    damage_words(to, draft, one_in, x);
    move_splits(to, draft, one_in, x);
    disorder(to, draft, one_in, x);
}

/* Shapes */

/* A shape by chance: cycles up to `most`, each with up to `words` words. */
static struct shape some_shape(unsigned most, unsigned words, uint32_t *x)
{
    static const int f_codes[8] = {-1, -1, -1, 0, 1, 3, 4, 15};
    struct shape shape = {.ms = 1 + random_below(x, 2)};
    shape.gap = 4 + random_below(x, 125);
    uint32_t least = 67 + shape.gap;
    shape.reserve = least;
    if (random_below(x, 2) == 0)
        shape.reserve += random_below(x, 1500 * shape.ms - least + 1);
    for (unsigned n = 0; n <= most; n++)
        shape.want[n] = random_below(x, 3) == 0 ? 0 : random_below(x, words + 1);
    shape.f_code = f_codes[random_below(x, 8)];
    shape.first_fit = random_below(x, 2) == 0;
    shape.tight = random_below(x, 3) == 0;
    return shape;
}

static void put_bytes(struct cases *to, const char *bytes, size_t len, uint32_t *x)
{
    struct file file = {.len = len};
    memcpy(file.bytes, bytes, len);
    put_some(to, &file, x);
}

/* Document 01's lines. */
static void put_hand_lists(struct cases *to, uint32_t *x)
{
    static struct draft draft;
    struct shape shape = {1, 70, 525, {7}, 0, 0, 0, 0};
    put_bytes(to, "\x01\x01\x46\x8D\x04\x01\x10\x01\xA0\x20\0\x01\0\0\0\0\0\0\0\0\0", 21, x);
    put_bytes(to, "", 0, x);
    put_bytes(to, "\x80\x00", 2, x);
    put_bytes(to, "\x80\x80\x04", 3, x);
    put_bytes(to, "\xFF\xFF\x03", 3, x);
    draft_list(&draft, &shape, x);
    put_every(to, &draft, x);
    shape.want[0] = 8;
    shape.overfull = 1;
    draft_list(&draft, &shape, x);
    put_draft(to, &draft, x);
    for (unsigned ms = 1; ms <= 2; ms++) {
        struct shape empty = {ms, 70, 137, {0}, -1, 0, 0, 0};
        draft_list(&draft, &empty, x);
        put_every(to, &draft, x);
        put_with(to, &draft, 3, 136, x);
        put_damaged(to, &draft, x);
    }
}

/* One word in one Subcycle of one cycle, for each cycle. */
static void put_single_words(struct cases *to, uint32_t *x)
{
    static struct draft draft;
    for (unsigned ms = 1; ms <= 2; ms++)
        for (unsigned n = 0; n < 12 - ms; n++)
            for (int i = 0; i < 6; i++) {
                static const int f_codes[6] = {0, 1, 2, 3, 4, 15};
                struct shape shape = {ms, 4, 71, {0}, f_codes[i], 0, 0, i % 2};
                shape.want[n] = 1;
                draft_list(&draft, &shape, x);
                if (n <= 3 && i == (int)n)
                    put_damaged(to, &draft, x);
                else
                    put_draft(to, &draft, x);
            }
}

static void put_shapes(struct cases *to, uint32_t *x)
{
    static struct draft draft;
    for (int i = 0; i < 20; i++) {
        struct shape shape = some_shape(1 + random_below(x, 4), 5, x);
        draft_list(&draft, &shape, x);
        put_damaged(to, &draft, x);
    }
    for (int i = 0; i < 30; i++) {
        unsigned words = 10u << random_below(x, 5);
        struct shape shape = some_shape(4 + random_below(x, 7), words, x);
        draft_list(&draft, &shape, x);
        put_damaged(to, &draft, x);
    }
    for (int i = 0; i < 300; i++) {
        unsigned words = 1u << random_below(x, 9);
        struct shape shape = some_shape(random_below(x, 11), words, x);
        draft_list(&draft, &shape, x);
        if (i % 8 == 0)
            put_every(to, &draft, x);
        else
            put_draft(to, &draft, x);
    }
}

/* The largest good lists: 20 telegrams of 70 bit times in each Basic Period of
 * 1 ms are 1,604 words, 41 in each of 2 ms are 1,612. */
static void put_largest(struct cases *to, uint32_t *x)
{
    static struct draft draft;
    for (int i = 0; i < 4; i++) {
        unsigned all = 256;
        struct shape one = {1, 4, 71, {0, 0, 0, 0, 68, all, all, all, all, all, all}, 0, 1, 0, 0};
        struct shape two = {2, 4, 71, {0, 0, 0, 76, all, all, all, all, all, all, 0}, 0, 1, 0, 0};
        struct shape *shape = i % 2 == 0 ? &one : &two;
        shape->f_code = i < 2 ? 0 : 15;
        draft_list(&draft, shape, x);
        put_every(to, &draft, x);
        put_with(to, &draft, 3, i % 2 == 0 ? 100 : 130, x);
        put_with(to, &draft, 3, i % 2 == 0 ? 101 : 131, x);
        put_with(to, &draft, draft.numbers - 1, draft.number[draft.numbers - 1] + 1, x);
    }
}

/* Eleven cycles of 256 words: refused after the last of them. */
static void put_worst(struct cases *to, uint32_t *x)
{
    static struct draft draft;
    static const int f_codes[3] = {-1, 4, 15};
    struct file file;
    for (int i = 0; i < 3; i++) {
        struct shape shape = {1, 128, 195, {0}, f_codes[i], i != 1, 1, 0};
        for (int n = 0; n < REF_CYCLES; n++)
            shape.want[n] = 256;
        draft_list(&draft, &shape, x);
        put_draft(to, &draft, x);
        size_t last = draft.numbers - REF_SUBCYCLES - 1;
        put_with(to, &draft, last, draft.number[5], x);
        put_with(to, &draft, draft.numbers - 1, draft.number[draft.numbers - 1] + 1, x);
        file.len = write_list(file.bytes, &draft);
        file.bytes[file.len++] = 0;
        put_some(to, &file, x);
    }
}

/* All words of each cycle in its first Subcycle: 117,248 bit times from each of
 * eleven cycles in Basic Period 0. */
static void put_heaviest(struct cases *to, uint32_t *x)
{
    static struct draft draft;
    struct shape shape = {1, 128, 195, {256, 0}, 4, 0, 1, 0};
    draft_list(&draft, &shape, x);
    draft.numbers = 4;
    uint32_t address = 0;
    for (unsigned n = 0; n < REF_CYCLES; n++) {
        draft_number(&draft, COUNT, 256);
        for (int i = 0; i < 256; i++)
            draft_number(&draft, WORD, 4 * 4096 + address++);
        for (unsigned s = 0; n > 0 && s < 1u << n; s++)
            draft_number(&draft, SPLIT, s == 0 ? 256 : 0);
    }
    put_draft(to, &draft, x);
}

/* Files at the limit of 16,384 bytes and past it: an accepted list with zeros
 * behind it, and top bits only. */
static void put_longest(struct cases *to, uint32_t *x)
{
    static struct draft draft;
    struct file file;
    struct shape shape = {2, 70, 137, {3, 2}, -1, 0, 0, 0};
    draft_list(&draft, &shape, x);
    for (size_t len = MOST_LIST - 2; len <= MOST_LIST; len++) {
        memset(file.bytes, 0, sizeof file.bytes);
        write_list(file.bytes, &draft);
        file.len = len;
        put_some(to, &file, x);
        memset(file.bytes, 0x80, sizeof file.bytes);
        put_some(to, &file, x);
    }
}

void cases_lists(struct cases *to)
{
    uint32_t x = 0x21C0FFEE;
    put_hand_lists(to, &x);
    put_single_words(to, &x);
    put_shapes(to, &x);
    put_largest(to, &x);
    put_worst(to, &x);
    put_heaviest(to, &x);
    put_longest(to, &x);
}
