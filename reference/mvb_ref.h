/* The second program: the rules of document 01 in plain C11, written from the
 * papers alone (document 01, and IEC 61375-3-1 where it is silent on a bit
 * position).
 *
 * A function that can refuse returns the refusal's number of document 01, and
 * 0 where it accepts; on a refusal every output stays as it was. Pointers are
 * never null, of an empty run either. Nothing here keeps a state of its own. */
#ifndef MVB_REF_H
#define MVB_REF_H

#include <stddef.h>
#include <stdint.h>

/* The refusal numbers, in the order of document 01's table. */
enum ref_refusal {
    REF_ACCEPTED = 0,
    REF_WRONG_LENGTH = 1,
    REF_WRONG_CHECK = 2,
    REF_F_CODE = 3,
    REF_TOO_SHORT = 4,
    REF_NUMBER = 5,
    REF_RANGE = 6,
    REF_NOT_IN_LIST = 7,
    REF_TWICE = 8,
    REF_SPLIT = 9,
    REF_OVERFULL = 10,
    REF_BYTES_AFTER = 11,
    REF_NO_PERIOD = 12,
    REF_TABLE = 13,
    REF_NOT_PROCESS_DATA = 14,
    REF_NO_PORT = 15,
    REF_OTHER_F_CODE = 16,
    REF_SINK_SOURCE = 17,
    REF_ROUND = 18,
    REF_FRAMES = 19
};

/* Frames ------------------------------------------------------------------ */

/* The check sequence of a block: its bits, high bit first, times x^7, divided
 * over two elements by x^7+x^6+x^5+x^2+1; seven remainder bits, high first;
 * one bit that makes the number of ones in block, remainder and itself even;
 * all eight inverted. A block of any length is taken. */
uint8_t ref_check_of(const uint8_t *block, size_t len);

/* Data bits of a Slave Frame; 0 for a reserved F_code and above 15. */
unsigned ref_data_bits(unsigned f_code);

/* Bytes of a Slave Frame: the data in blocks of at most 64 bits, each
 * followed by its check sequence; 0 where the F_code is not allowed. */
unsigned ref_frame_bytes(unsigned f_code);

/* Bits of a Slave Frame on the line, with 9 bits of start delimiter; 0 where
 * the F_code is not allowed. */
unsigned ref_line_bits(unsigned f_code);

/* A Master Frame read to its word: 1, 2, 3. */
int ref_master_read(const uint8_t *frame, size_t len, uint16_t *word);

/* A word written as a Master Frame of 3 bytes: 3, 4. */
int ref_master_write(uint16_t word, uint8_t *out, size_t room);

/* A Slave Frame read under the expected F_code, its data written to the lent
 * output and their number of bytes to `count`: 3, 1, 2, 4. */
int ref_slave_read(unsigned f_code, const uint8_t *frame, size_t len,
                   uint8_t *out, size_t room, size_t *count);

/* Data written as a Slave Frame, its number of bytes to `count`: 3, 1, 4. */
int ref_slave_write(unsigned f_code, const uint8_t *data, size_t len,
                    uint8_t *out, size_t room, size_t *count);

/* The line's answer: silence, a reply with its word, or a collision. */
enum ref_line { REF_SILENCE = 0, REF_REPLY = 1, REF_COLLISION = 2 };
struct ref_answer {
    enum ref_line line;
    uint16_t word; /* of a reply; 0 otherwise */
};

/* Made from bytes: none is silence; a right 3-byte frame is a reply; all else
 * is a collision. */
struct ref_answer ref_line_answer(const uint8_t *bytes, size_t len);

/* The bit times of a telegram, 33 + line bits of its Slave Frame + gap:
 * 3, then 6 for a gap outside 4 to 128. */
int ref_telegram_bits(unsigned f_code, unsigned gap, uint32_t *bits);

/* The guard: with `left` bit times left, yes (1) exactly if the telegram takes
 * at most that many, no (0) otherwise: 3, 6. */
int ref_guard(uint32_t left, unsigned gap, unsigned f_code, int *yes);

/* The list file ----------------------------------------------------------- */

/* The number that begins at a place of the list: groups of seven bits, lowest
 * group first, top bit set on every byte but its last, shortest form only, at
 * most 65,535; and the place behind it. 5, also at or past the end. */
int ref_number_at(const uint8_t *list, size_t len, size_t place, uint16_t *number,
                  size_t *behind);

enum { REF_CYCLES = 11, REF_CYCLE_WORDS = 256, REF_SUBCYCLES = 1024, REF_LIST_BYTES = 16384 };

/* The cycle 2^n of a list: its words and its split numbers, as far as they were
 * read, and for each word the number of its number in the file. */
struct ref_cycle {
    size_t count; /* as the list says */
    size_t words, splits; /* as many as were read */
    uint16_t word[REF_CYCLE_WORDS];
    size_t word_at[REF_CYCLE_WORDS];
    uint16_t split[REF_SUBCYCLES];
    size_t last_split_at;
};

/* A list taken apart. */
struct ref_list {
    uint16_t ms, gap, reserve;
    size_t cycles; /* as many as were begun */
    struct ref_cycle cycle[REF_CYCLES];
};

/* Reads a list and applies every check: 1 for the file; each at its number as
 * it is read 5, 6, 7, 8; 9 after a cycle's last split number; after the last
 * cycle 11, then 10, then 19. What a refused list leaves in `to` means nothing:
 * it is the caller's scratch and no output. */
int ref_list_read(const uint8_t *list, size_t len, struct ref_list *to);

/* The number of words of an accepted list. */
size_t ref_list_words(const struct ref_list *list);

/* The Basic Periods of a Macro_Cycle: 1,024 for 1 ms, 512 for 2 ms. */
unsigned ref_list_periods(const struct ref_list *list);

/* The Subcycle of word i of cycle 2^n of an accepted list. */
unsigned ref_list_subcycle(const struct ref_list *list, unsigned n, size_t i);

/* What Basic Period j of an accepted list sends: Subcycle j mod 2^n of each
 * cycle, cycles rising, words in list order; `words` has room for all words of
 * the list. Returns how many. */
size_t ref_list_sends(const struct ref_list *list, unsigned j, uint16_t *words);

/* The words of Basic Period j of an accepted list into a lent output, and how
 * many: 12, 4. */
int ref_list_period(const struct ref_list *list, uint32_t j, uint16_t *out, size_t room,
                    size_t *count);

/* An accepted list answers ms, gap, reserve and its number of words. */
struct ref_summary {
    uint16_t ms, gap, reserve, words;
};
int ref_list_check(const uint8_t *list, size_t len, struct ref_summary *summary);

/* The same from the list's bytes: all list refusals first, then 12, then 4. */
int ref_basic_period(const uint8_t *list, size_t len, uint32_t j, uint16_t *out, size_t room,
                     size_t *count);

/* The text of the list program, of a refused list too, into a lent output, and
 * its number of bytes: 4 exactly where it does not fit. */
int ref_list_text(const uint8_t *list, size_t len, uint8_t *out, size_t room, size_t *count);

/* Ports and ages ---------------------------------------------------------- */

/* A record of the port table: sink 0 is a source, anything else a sink. */
struct ref_port {
    uint16_t address;
    uint8_t f_code;
    uint8_t sink;
};

/* The table, the store and the ages that a call is lent. Ports lie packed in
 * the store in table order; ages are one number a record. */
struct ref_ports {
    const struct ref_port *port;
    size_t ports;
    uint8_t *store;
    size_t store_bytes;
    uint16_t *age;
    size_t ages;
};

/* Good means at most 256 records, addresses below 4,096 strictly rising,
 * F_codes 0 to 4. */
int ref_table_good(const struct ref_port *port, size_t ports);

/* A frame arrives for a sink: data replaced, age 0. 13; 4 for the store, then
 * for the ages; 14; 15; 16; 17; 1; 2. */
int ref_port_arrive(struct ref_ports lent, uint16_t word, const uint8_t *frame, size_t len);

/* A source answers a request: its frame written, the number of bytes to
 * `count`. 13; 4 for the store; 14; 15; 16; 17; 4 for the output. No ages. */
int ref_port_answer(struct ref_ports lent, uint16_t word, uint8_t *out, size_t room,
                    size_t *count);

/* The application reads a sink: data, their number of bytes, the age. 13; 4
 * for the store, then for the ages; 15; 17; 4 for the output. */
int ref_port_read(struct ref_ports lent, uint16_t address, uint8_t *out, size_t room,
                  size_t *count, uint16_t *age);

/* The application fills a source. 13; 4 for the store; 15; 17; 1. No ages. */
int ref_port_fill(struct ref_ports lent, uint16_t address, const uint8_t *data, size_t len);

/* A tick raises every sink's age by 1, staying at 65,535, and no source's. 13;
 * 4 for the ages. No store. */
int ref_port_tick(struct ref_ports lent);

/* The event round --------------------------------------------------------- */

/* Whether a device is of the group {M, C}: its low 12 - M address bits are C. */
int ref_in_group(unsigned m, unsigned c, unsigned address);

/* The request for {M, C}, M at most 12 and C below 2^(12-M): for M = 12
 * F_code 9 over the parameter bits; for M 1 to 11 F_code 13 over M - 1 ones, a
 * zero and the 12 - M bits of C; for M = 0 F_code 14 over the device address. */
uint16_t ref_request_word(unsigned m, unsigned c, unsigned params);

/* A round. Phase 0 waits for the answer to a request, 1 for the answer to a
 * read, anything else has ended. */
struct ref_round {
    uint16_t phase, m, c, requests, reads, unresolved;
};

/* What a step hands back: the new round with the next word, or its end, whose
 * counts are the round's. */
struct ref_stepped {
    int ended;
    uint16_t word; /* 0 at the end */
    struct ref_round round;
};

/* The start hands back the round and its first word: 6 for parameter bits of
 * 4,096 or more. */
int ref_round_start(unsigned params, struct ref_stepped *to);

/* A step takes the old round and the line's answer. A step on an ended round
 * answers the end again, the round unchanged; that comes first. 18 for rounds
 * that have not ended, and only for these: M above 12, C not below 2^(12-M),
 * reads plus unresolved above requests, more than 8,190 requests counted while
 * one is still to be asked or answered. */
int ref_round_step(struct ref_round old, struct ref_answer answer, struct ref_stepped *to);

/* A line: what it answers to a word that is handed out. */
typedef struct ref_answer (*ref_line_of)(void *line, uint16_t word);

/* The three counts of a round. */
struct ref_counts {
    uint32_t requests, reads, unresolved;
};

/* A whole round on a line, kept as a stack of the groups still to ask: 6. */
int ref_whole_round(unsigned params, ref_line_of answer_of, void *line,
                    struct ref_counts *counts);

/* The search as the rule reads, over a lent set of 512 bytes (address a is bit
 * a mod 8 of byte a div 8): ask, and on a collision ask both halves. The read
 * order goes to the lent output: 1 for a set of another length, 4 exactly if
 * there are fewer places than devices. `unresolved` of the counts is 0. */
int ref_search(const uint8_t *set, size_t len, uint16_t *out, size_t places,
               struct ref_counts *counts);

#endif
