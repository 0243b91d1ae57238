/* The C peer: the rules of document 01 written for speed, from the papers. Tables for the check sequence, whole blocks
 * copied at once, sets of bits, one pass over a list and over a port table. */
#include "peer.h"

#include <string.h>

enum { REFUSED = 65536 };

static uint32_t refused(enum mvb_refusal number)
{
    return REFUSED + (uint32_t)number;
}

/* Check sequences. `turned[b]` has what a byte leaves of remainder (seven bits, one place up) and of the parity of
 * byte and remainder; `far[i][b]` what a byte leaves that i bytes follow. */

static uint8_t turned[256], far[8][256];

static uint8_t parity_of(uint8_t byte)
{
    return (uint8_t)__builtin_parity(byte);
}

static uint8_t turn_byte(uint8_t byte)
{
    unsigned rest = byte;
    for (int bit = 0; bit < 8; bit++)
        rest = rest & 0x80 ? (rest << 1) ^ 0xCA : rest << 1;
    return (uint8_t)rest;
}

__attribute__((constructor)) static void make_tables(void)
{
    for (unsigned byte = 0; byte < 256; byte++) {
        uint8_t rest = turn_byte((uint8_t)byte);
        turned[byte] = rest | (parity_of((uint8_t)byte) ^ parity_of(rest));
        far[0][byte] = turned[byte];
    }
    for (unsigned i = 1; i < 8; i++)
        for (unsigned byte = 0; byte < 256; byte++)
            far[i][byte] = turned[far[i - 1][byte] & 0xFE] ^ (far[i - 1][byte] & 1);
}

static inline uint8_t check_of(const uint8_t *block, size_t length)
{
    uint8_t check = 0;
    for (size_t i = 0; i < length; i++)
        check = turned[(check & 0xFE) ^ block[i]] ^ (check & 1);
    return (uint8_t)~check;
}

uint32_t PEER(check_of)(const uint8_t *block, size_t length)
{
    return check_of(block, length);
}

uint32_t PEER(check_by_eight_tables)(const uint8_t *block, size_t length)
{
    (void)length;
    return (uint8_t) ~(far[7][block[0]] ^ far[6][block[1]] ^ far[5][block[2]] ^ far[4][block[3]] ^ far[3][block[4]] ^
                       far[2][block[5]] ^ far[1][block[6]] ^ far[0][block[7]]);
}

/* Frames. One row for each F_code; no data where it is not allowed. */

struct row {
    uint8_t data, bytes, blocks, block;
    uint16_t line;
};

#define ROW_16 {2, 3, 1, 2, 33}
#define ROW_256 {32, 36, 4, 8, 297}

static const struct row rows[16] = {
    [0] = ROW_16,          [1] = {4, 5, 1, 4, 49}, [2] = {8, 9, 1, 8, 81}, [3] = {16, 18, 2, 8, 153},
    [4] = ROW_256,         [8] = ROW_16,           [9] = ROW_16,           [12] = ROW_256,
    [13] = ROW_16,         [14] = ROW_16,          [15] = ROW_16,
};

static inline struct row row_of(unsigned f_code)
{
    static const struct row none;
    return f_code < 16 ? rows[f_code] : none;
}

uint32_t PEER(master_read)(const uint8_t *frame, size_t length)
{
    if (length != 3)
        return refused(MVB_WRONG_LENGTH);
    if (frame[2] != check_of(frame, 2))
        return refused(MVB_WRONG_CHECK);
    if (rows[frame[0] >> 4].data == 0)
        return refused(MVB_RESERVED_FCODE);
    return (uint32_t)frame[0] << 8 | frame[1];
}

uint32_t PEER(master_write)(uint16_t word, uint8_t *out, size_t room)
{
    if (rows[word >> 12].data == 0)
        return refused(MVB_RESERVED_FCODE);
    if (room < 3)
        return refused(MVB_TOO_SHORT);
    out[0] = (uint8_t)(word >> 8);
    out[1] = (uint8_t)word;
    out[2] = check_of(out, 2);
    return 3;
}

static inline int blocks_right(const uint8_t *frame, struct row row)
{
    for (unsigned i = 0; i < row.blocks; i++, frame += row.block + 1)
        if (frame[row.block] != check_of(frame, row.block))
            return 0;
    return 1;
}

static inline void unpack(uint8_t *to, const uint8_t *frame, struct row row)
{
    if (row.block < 8) {
        memcpy(to, frame, row.block);
        return;
    }
    for (unsigned i = 0; i < row.blocks; i++)
        memcpy(to + 8 * i, frame + 9 * i, 8);
}

static inline void pack(uint8_t *to, const uint8_t *data, struct row row)
{
    if (row.block < 8) {
        memcpy(to, data, row.block);
        to[row.block] = check_of(data, row.block);
        return;
    }
    for (unsigned i = 0; i < row.blocks; i++) {
        memcpy(to + 9 * i, data + 8 * i, 8);
        to[9 * i + 8] = check_of(data + 8 * i, 8);
    }
}

uint32_t PEER(slave_read)(uint8_t f_code, const uint8_t *frame, size_t length, uint8_t *out, size_t room)
{
    struct row row = row_of(f_code);
    if (row.data == 0)
        return refused(MVB_RESERVED_FCODE);
    if (length != row.bytes)
        return refused(MVB_WRONG_LENGTH);
    if (!blocks_right(frame, row))
        return refused(MVB_WRONG_CHECK);
    if (room < row.data)
        return refused(MVB_TOO_SHORT);
    unpack(out, frame, row);
    return row.data;
}

uint32_t PEER(slave_write)(uint8_t f_code, const uint8_t *data, size_t length, uint8_t *out, size_t room)
{
    struct row row = row_of(f_code);
    if (row.data == 0)
        return refused(MVB_RESERVED_FCODE);
    if (length != row.data)
        return refused(MVB_WRONG_LENGTH);
    if (room < row.bytes)
        return refused(MVB_TOO_SHORT);
    pack(out, data, row);
    return row.bytes;
}

/* Time */

uint32_t PEER(telegram_bits)(uint8_t f_code, uint16_t gap)
{
    struct row row = row_of(f_code);
    if (row.data == 0)
        return refused(MVB_RESERVED_FCODE);
    if (gap < 4 || gap > 128)
        return refused(MVB_OUT_OF_RANGE);
    return 33u + row.line + gap;
}

uint32_t PEER(guard)(uint32_t left, uint16_t gap, uint8_t f_code)
{
    uint32_t bits = PEER(telegram_bits)(f_code, gap);
    return bits >= REFUSED ? bits : bits <= left;
}

/* Rounds */

static uint32_t request_word(unsigned m, unsigned c)
{
    if (m == 0)
        return 0xE000 | c;
    return 0xD000 | (0xFFFu & ~((1u << (13 - m)) - 1)) | c;
}

/* Whether a group follows {M, C}, and then that group: C's leading ones lead up, the zero before them becomes one. */
static inline int follows(unsigned *m, unsigned *c)
{
    unsigned ones = (unsigned)__builtin_clz(~(*c << 20 << *m) | 1);
    if (*m + ones >= 12)
        return 0;
    *m += ones;
    *c = (*c & ((1u << (11 - *m)) - 1)) | 1u << (11 - *m);
    return 1;
}

uint32_t PEER(round_start)(uint16_t params, uint16_t *round, size_t numbers)
{
    if (params >= 4096)
        return refused(MVB_OUT_OF_RANGE);
    if (numbers < MVB_ROUND_NUMBERS)
        return refused(MVB_TOO_SHORT);
    memset(round, 0, MVB_ROUND_NUMBERS * sizeof *round);
    round[MVB_ROUND_M] = 12;
    return 0x9000u | params;
}

static uint32_t go_on(uint16_t *round, unsigned m, unsigned c, unsigned requests)
{
    if (!follows(&m, &c)) {
        round[MVB_ROUND_PHASE] = 2;
        round[MVB_ROUND_M] = 12;
        round[MVB_ROUND_C] = 0;
        return MVB_END;
    }
    if (requests > 8190)
        return refused(MVB_IMPOSSIBLE_ROUND);
    round[MVB_ROUND_PHASE] = 0;
    round[MVB_ROUND_M] = (uint16_t)m;
    round[MVB_ROUND_C] = (uint16_t)c;
    return request_word(m, c);
}

static uint32_t take_answer(uint16_t *round, unsigned m, unsigned c, const uint8_t *bytes, size_t length)
{
    unsigned requests = ++round[MVB_ROUND_REQUESTS];
    if (length == 0)
        return go_on(round, m, c, requests - 1);
    if (length == 3 && bytes[0] >> 4 == 12 && bytes[2] == check_of(bytes, 2)) {
        unsigned word = (unsigned)bytes[0] << 8 | bytes[1];
        if ((word & ((1u << (12 - m)) - 1)) == c) {
            round[MVB_ROUND_READS]++;
            round[MVB_ROUND_PHASE] = 1;
            return word;
        }
    }
    if (m == 0) {
        round[MVB_ROUND_UNRESOLVED]++;
        return go_on(round, m, c, requests - 1);
    }
    round[MVB_ROUND_M] = (uint16_t)(m - 1);
    return request_word(m - 1, c);
}

uint32_t PEER(round_answer)(uint16_t *round, size_t numbers, const uint8_t *bytes, size_t length)
{
    if (numbers < MVB_ROUND_NUMBERS)
        return refused(MVB_TOO_SHORT);
    unsigned phase = round[MVB_ROUND_PHASE], m = round[MVB_ROUND_M], c = round[MVB_ROUND_C];
    unsigned requests = round[MVB_ROUND_REQUESTS];
    if (phase > 1)
        return MVB_END;
    if (m > 12 || c >> (12 - m) != 0 || (unsigned)round[MVB_ROUND_READS] + round[MVB_ROUND_UNRESOLVED] > requests)
        return refused(MVB_IMPOSSIBLE_ROUND);
    if (phase == 1)
        return go_on(round, m, c, requests);
    if (requests > 8190)
        return refused(MVB_IMPOSSIBLE_ROUND);
    return take_answer(round, m, c, bytes, length);
}

/* The search. With address bits reversed a group is a run of 2^M devices, and rising order is the read order. */

struct searching {
    uint64_t set[64];    /* device by reversed address */
    uint16_t before[65]; /* devices in the words before */
    uint16_t *out;
    unsigned reads, requests;
};

static inline unsigned reversed(unsigned address)
{
    address = (address & 0x555) << 1 | (address >> 1 & 0x555);
    address = (address & 0x333) << 2 | (address >> 2 & 0x333);
    return (address & 0x00F) << 8 | (address & 0x0F0) | address >> 8;
}

static inline unsigned devices_in(const struct searching *s, unsigned place, unsigned m)
{
    if (m >= 6)
        return (unsigned)s->before[(place >> 6) + (1u << (m - 6))] - s->before[place >> 6];
    return (unsigned)__builtin_popcountll(s->set[place >> 6] >> (place & 63) & ((UINT64_C(1) << (1u << m)) - 1));
}

static void ask(struct searching *s, unsigned place, unsigned m)
{
    unsigned devices = devices_in(s, place, m);
    s->requests++;
    if (devices == 1) {
        unsigned word = place >> 6;
        while (m > 6 && s->set[word] == 0)
            word++;
        uint64_t bits = m >= 6 ? s->set[word] : s->set[word] >> (place & 63) << (place & 63);
        s->out[s->reads++] = (uint16_t)reversed(word << 6 | (unsigned)__builtin_ctzll(bits));
    } else if (devices > 1) {
        ask(s, place, m - 1);
        ask(s, place + (1u << (m - 1)), m - 1);
    }
}

static unsigned turn_set(struct searching *s, const uint8_t *set)
{
    memset(s->set, 0, sizeof s->set);
    for (unsigned i = 0; i < 64; i++) {
        uint64_t bits;
        memcpy(&bits, set + 8 * i, 8);
        for (; bits != 0; bits &= bits - 1) {
            unsigned place = reversed(64 * i + (unsigned)__builtin_ctzll(bits));
            s->set[place >> 6] |= UINT64_C(1) << (place & 63);
        }
    }
    s->before[0] = 0;
    for (unsigned i = 0; i < 64; i++)
        s->before[i + 1] = (uint16_t)(s->before[i] + (unsigned)__builtin_popcountll(s->set[i]));
    return s->before[64];
}

uint32_t PEER(search)(const uint8_t *set, size_t length, uint16_t *out, size_t places, uint16_t *requests)
{
    struct searching s;
    if (length != MVB_SET_BYTES)
        return refused(MVB_WRONG_LENGTH);
    if (places < turn_set(&s, set))
        return refused(MVB_TOO_SHORT);
    s.out = out;
    s.reads = s.requests = 0;
    ask(&s, 0, 12);
    *requests = (uint16_t)s.requests;
    return s.reads;
}

/* Lists. One pass reads, checks, adds up the load of every Basic Period and gathers the words of Basic Period j. */

struct reading {
    const uint8_t *at, *end;
    uint32_t refusal;
    unsigned ms, gap, reserve, words;
    uint64_t seen[2][64]; /* addresses of Process Data, of F_code 15 */
    uint32_t load[1024];  /* of the Basic Periods of the cycles read so far */
    uint16_t word[256];   /* of the cycle at hand */
    unsigned j, sent;
    uint16_t send[MVB_MOST_WORDS];
};

/* The next number, or 65,536 and refusal 5. */
static inline uint32_t next_number(struct reading *r)
{
    const uint8_t *at = r->at;
    size_t left = (size_t)(r->end - at);
    if (left >= 1 && at[0] < 128) {
        r->at = at + 1;
        return at[0];
    }
    if (left >= 2 && at[1] < 128 && at[1] != 0) {
        r->at = at + 2;
        return (at[0] & 127u) | (uint32_t)at[1] << 7;
    }
    if (left >= 3 && at[1] >= 128 && at[2] < 4 && at[2] != 0) {
        r->at = at + 3;
        return (at[0] & 127u) | (at[1] & 127u) << 7 | (uint32_t)at[2] << 14;
    }
    r->refusal = refused(MVB_BAD_NUMBER);
    return 65536;
}

static inline int number_in(struct reading *r, unsigned low, unsigned high, unsigned *number)
{
    *number = next_number(r);
    if (*number > 65535)
        return 0;
    if (*number < low || *number > high) {
        r->refusal = refused(MVB_OUT_OF_RANGE);
        return 0;
    }
    return 1;
}

static inline int allow(struct reading *r, unsigned word)
{
    unsigned f_code = word >> 12, address = word & 4095;
    uint64_t *seen = &r->seen[f_code == 15][address >> 6], bit = UINT64_C(1) << (address & 63);
    if (f_code > 4 && f_code != 15) {
        r->refusal = refused(MVB_FCODE_NOT_LISTABLE);
        return 0;
    }
    if (*seen & bit) {
        r->refusal = refused(MVB_LISTED_TWICE);
        return 0;
    }
    *seen |= bit;
    return 1;
}

static inline uint32_t load_of(const struct reading *r, const uint16_t *word, unsigned count)
{
    uint32_t load = 0;
    for (unsigned i = 0; i < count; i++)
        load += rows[word[i] >> 12].line;
    return load + count * (33 + r->gap);
}

static inline void gather(struct reading *r, unsigned from, unsigned count)
{
    if (count > MVB_MOST_WORDS - r->sent)
        count = MVB_MOST_WORDS - r->sent;
    memcpy(r->send + r->sent, r->word + from, count * sizeof r->word[0]);
    r->sent += count;
}

static int read_splits(struct reading *r, unsigned n, unsigned count)
{
    unsigned sum = 0, subcycles = 1u << n;
    for (unsigned s = 0; s < subcycles; s++) {
        unsigned split;
        if (!number_in(r, 0, 256, &split))
            return 0;
        unsigned fits = sum + split <= count ? split : 0;
        if (fits > 0)
            r->load[s] += load_of(r, r->word + sum, fits);
        if (s == (r->j & (subcycles - 1)))
            gather(r, sum, fits);
        sum += split;
    }
    if (sum != count)
        r->refusal = refused(MVB_SPLIT_SUM_WRONG);
    return sum == count;
}

static int read_cycle(struct reading *r, unsigned n)
{
    unsigned count;
    if (!number_in(r, 0, 256, &count))
        return 0;
    for (unsigned i = 0; i < count; i++) {
        unsigned word = next_number(r);
        if (word > 65535 || !allow(r, word))
            return 0;
        r->word[i] = (uint16_t)word;
    }
    r->words += count;
    if (n > 0)
        memcpy(r->load + (1u << (n - 1)), r->load, (sizeof r->load[0]) << (n - 1));
    if (n > 0)
        return count == 0 || read_splits(r, n, count);
    r->load[0] = load_of(r, r->word, count);
    gather(r, 0, count);
    return 1;
}

static uint32_t read_list(struct reading *r, const uint8_t *list, size_t length, unsigned j)
{
    unsigned one;
    if (length > MVB_MOST_LIST)
        return refused(MVB_WRONG_LENGTH);
    r->at = list;
    r->end = list + length;
    r->refusal = 0;
    r->words = r->sent = 0;
    r->j = j;
    memset(r->seen, 0, sizeof r->seen);
    if (!number_in(r, 1, 1, &one) || !number_in(r, 1, 2, &r->ms) || !number_in(r, 4, 128, &r->gap) ||
        !number_in(r, 67 + r->gap, 1500 * r->ms, &r->reserve))
        return r->refusal;
    unsigned cycles = r->ms == 1 ? 11 : 10;
    for (unsigned n = 0; n < cycles; n++)
        if (!read_cycle(r, n))
            return r->refusal;
    if (r->at != r->end)
        return refused(MVB_BYTES_AFTER_LIST);
    uint32_t most = 0;
    for (unsigned s = 0; s < 1u << (cycles - 1); s++)
        most = r->load[s] > most ? r->load[s] : most;
    /* A telegram takes at least 70 bit times, so what passes 10 never has more than 41 frames: 19 is never given. */
    return most + r->reserve > 1500 * r->ms ? refused(MVB_PERIOD_OVERFULL) : 0;
}

uint32_t PEER(list_check)(const uint8_t *list, size_t length, uint16_t *ms, uint16_t *gap, uint16_t *reserve)
{
    struct reading r;
    uint32_t refusal = read_list(&r, list, length, 0);
    if (refusal != 0)
        return refusal;
    *ms = (uint16_t)r.ms;
    *gap = (uint16_t)r.gap;
    *reserve = (uint16_t)r.reserve;
    return r.words;
}

uint32_t PEER(basic_period)(const uint8_t *list, size_t length, uint16_t j, uint16_t *out, size_t places)
{
    struct reading r;
    uint32_t refusal = read_list(&r, list, length, j);
    if (refusal != 0)
        return refusal;
    if (j >= 1024u / r.ms)
        return refused(MVB_NO_SUCH_PERIOD);
    if (places < r.sent)
        return refused(MVB_TOO_SHORT);
    memcpy(out, r.send, r.sent * sizeof *out);
    return r.sent;
}

/* Text. A second pass writes it, once the list is known to be good. */

static char *decimal(char *to, unsigned number)
{
    char digits[8];
    unsigned count = 0;
    do
        digits[count++] = (char)('0' + number % 10);
    while ((number /= 10) != 0);
    while (count > 0)
        *to++ = digits[--count];
    return to;
}

static char *word_line(char *to, unsigned word, unsigned n, unsigned subcycle)
{
    for (int shift = 12; shift >= 0; shift -= 4)
        *to++ = "0123456789ABCDEF"[word >> shift & 15];
    *to++ = ' ';
    to = decimal(to, 1u << n);
    *to++ = ' ';
    to = decimal(to, subcycle);
    *to++ = '\n';
    return to;
}

static char *cycle_lines(char *to, struct reading *r, unsigned n)
{
    unsigned count = next_number(r), written = 0;
    for (unsigned i = 0; i < count; i++)
        r->word[i] = (uint16_t)next_number(r);
    for (unsigned s = 0; count > 0 && s < 1u << n; s++)
        for (unsigned split = n > 0 ? next_number(r) : count; split > 0; split--)
            to = word_line(to, r->word[written++], n, s);
    return to;
}

uint32_t PEER(list_text)(const uint8_t *list, size_t length, uint8_t *out, size_t room)
{
    struct reading r;
    char text[32 + 15 * 11 * 256], *to = text;
    uint32_t refusal = read_list(&r, list, length, 0);
    if (refusal != 0) {
        memcpy(to, "refused ", 8);
        to = decimal(to + 8, refusal - REFUSED);
        *to++ = '\n';
    } else {
        const unsigned header[4] = {r.ms, r.gap, r.reserve, r.words};
        for (unsigned i = 0; i < 4; i++) {
            to = decimal(to, header[i]);
            *to++ = i < 3 ? ' ' : '\n';
        }
        r.at = list;
        for (unsigned i = 0; i < 4; i++)
            next_number(&r);
        for (unsigned n = 0; n < (r.ms == 1 ? 11 : 10); n++)
            to = cycle_lines(to, &r, n);
    }
    size_t bytes = (size_t)(to - text);
    if (room < bytes)
        return refused(MVB_TOO_SHORT);
    memcpy(out, text, bytes);
    return (uint32_t)bytes;
}

/* Ports. One pass over the table: is it good, how many bytes, where is the port. */

struct shown {
    int good, found;
    size_t bytes, at, offset;
    struct mvb_port port;
};

static inline struct shown look(const struct mvb_port *table, size_t records, unsigned address)
{
    struct shown shown = {records <= MVB_MOST_PORTS, 0, 0, 0, 0, {0, 0, 0}};
    int last = -1;
    for (size_t i = 0; shown.good && i < records; i++) {
        struct mvb_port port = table[i];
        if (port.address <= last || port.address > 4095 || port.f_code > 4) {
            shown.good = 0;
            break;
        }
        if (port.address == address) {
            shown.found = 1;
            shown.at = i;
            shown.offset = shown.bytes;
            shown.port = port;
        }
        last = port.address;
        shown.bytes += (size_t)2 << port.f_code;
    }
    return shown;
}

/* 14, 15, 16, 17 for a port that a word names. */
static inline uint32_t unfit(const struct shown *shown, uint16_t word, int sink)
{
    if (word >> 12 > 4)
        return refused(MVB_NOT_PROCESS_DATA);
    if (!shown->found)
        return refused(MVB_NO_SUCH_PORT);
    if (shown->port.f_code != word >> 12)
        return refused(MVB_FCODE_NOT_PORTS);
    return (shown->port.sink != 0) != sink ? refused(MVB_WRONG_DIRECTION) : 0;
}

uint32_t PEER(arrive)(const struct mvb_port *table, size_t records, uint8_t *store, size_t store_bytes,
                            uint16_t *ages, size_t ages_count, uint16_t word, const uint8_t *frame, size_t length)
{
    struct shown shown = look(table, records, word & 4095);
    if (!shown.good)
        return refused(MVB_TABLE_NOT_GOOD);
    if (store_bytes < shown.bytes || ages_count < records)
        return refused(MVB_TOO_SHORT);
    uint32_t refusal = unfit(&shown, word, 1);
    if (refusal != 0)
        return refusal;
    struct row row = rows[word >> 12];
    if (length != row.bytes)
        return refused(MVB_WRONG_LENGTH);
    if (!blocks_right(frame, row))
        return refused(MVB_WRONG_CHECK);
    unpack(store + shown.offset, frame, row);
    ages[shown.at] = 0;
    return 0;
}

uint32_t PEER(answer)(const struct mvb_port *table, size_t records, const uint8_t *store, size_t store_bytes,
                            uint16_t word, uint8_t *out, size_t room)
{
    struct shown shown = look(table, records, word & 4095);
    if (!shown.good)
        return refused(MVB_TABLE_NOT_GOOD);
    if (store_bytes < shown.bytes)
        return refused(MVB_TOO_SHORT);
    uint32_t refusal = unfit(&shown, word, 0);
    if (refusal != 0)
        return refusal;
    struct row row = rows[word >> 12];
    if (room < row.bytes)
        return refused(MVB_TOO_SHORT);
    pack(out, store + shown.offset, row);
    return row.bytes;
}

uint32_t PEER(read)(const struct mvb_port *table, size_t records, const uint8_t *store, size_t store_bytes,
                          const uint16_t *ages, size_t ages_count, uint16_t address, uint8_t *out, size_t room,
                          uint16_t *age)
{
    struct shown shown = look(table, records, address);
    if (!shown.good)
        return refused(MVB_TABLE_NOT_GOOD);
    if (store_bytes < shown.bytes || ages_count < records)
        return refused(MVB_TOO_SHORT);
    if (!shown.found)
        return refused(MVB_NO_SUCH_PORT);
    if (shown.port.sink == 0)
        return refused(MVB_WRONG_DIRECTION);
    size_t bytes = (size_t)2 << shown.port.f_code;
    if (room < bytes)
        return refused(MVB_TOO_SHORT);
    memcpy(out, store + shown.offset, bytes);
    *age = ages[shown.at];
    return (uint32_t)bytes;
}

uint32_t PEER(fill)(const struct mvb_port *table, size_t records, uint8_t *store, size_t store_bytes,
                          uint16_t address, const uint8_t *data, size_t length)
{
    struct shown shown = look(table, records, address);
    if (!shown.good)
        return refused(MVB_TABLE_NOT_GOOD);
    if (store_bytes < shown.bytes)
        return refused(MVB_TOO_SHORT);
    if (!shown.found)
        return refused(MVB_NO_SUCH_PORT);
    if (shown.port.sink != 0)
        return refused(MVB_WRONG_DIRECTION);
    size_t bytes = (size_t)2 << shown.port.f_code;
    if (length != bytes)
        return refused(MVB_WRONG_LENGTH);
    memcpy(store + shown.offset, data, bytes);
    return 0;
}

uint32_t PEER(tick)(const struct mvb_port *table, size_t records, uint16_t *ages, size_t ages_count)
{
    if (!look(table, records, 65535).good)
        return refused(MVB_TABLE_NOT_GOOD);
    if (ages_count < records)
        return refused(MVB_TOO_SHORT);
    for (size_t i = 0; i < records; i++)
        ages[i] = (uint16_t)(ages[i] + ((table[i].sink != 0) & (ages[i] != 65535)));
    return 0;
}
