/* The bus administrator of a train's Multifunction Vehicle Bus (IEC 61375-3-1).
 *
 * Link build/lib/libmvb.a (./mvb lib writes it). docs/EMBEDDING.md says how, how much stack each call needs
 * and what the proofs cover.
 *
 * Every function takes every number and every run of every length, and ends. Nothing has to be checked before a
 * call: what is bad is refused by its number, and a refused call changes not one byte that was lent to it.
 *
 * Answers. Each function answers one uint32_t:
 *   below 65,536        the value that the function's comment names;
 *   65,536 + n          refusal n (enum mvb_refusal);
 *   131,072 (MVB_END)   a round's end.
 * A second value goes to a lent single number.
 *
 * Lent runs. A run is lent as a pointer and, right behind it, its length in elements. It is lent until the call
 * returns; the library keeps no pointer and no state of its own. What is lent through a pointer to const is only
 * read. Of the caller this is asked, and a C compiler does not check it:
 *   - pointers are never null, of an empty run either (mvb_in, mvb_out, mvb_numbers and mvb_table below give a
 *     pointer for an empty run), and are aligned for their type;
 *   - a run that a call may write overlaps no other run of that call;
 *   - nobody else, no interrupt either, writes a lent run during the call, or reads one that the call may write.
 *
 * "4 for the output" is given where it has fewer elements than the call would write; what is behind the answer
 * stays unchanged. */
#ifndef MVB_H
#define MVB_H

#include <stddef.h>
#include <stdint.h>

#ifdef __cplusplus
#define MVB_STATIC_ASSERT static_assert
extern "C" {
#else
#define MVB_STATIC_ASSERT _Static_assert
#endif

/* The refusal numbers. */
enum mvb_refusal {
    MVB_WRONG_LENGTH = 1,       /* wrong length */
    MVB_WRONG_CHECK = 2,        /* a check sequence is wrong */
    MVB_RESERVED_FCODE = 3,     /* F_code reserved or above 15 */
    MVB_TOO_SHORT = 4,          /* lent store, ages or output too short */
    MVB_BAD_NUMBER = 5,         /* number cut off, not shortest, or above 65,535 */
    MVB_OUT_OF_RANGE = 6,       /* number outside its stated range */
    MVB_FCODE_NOT_LISTABLE = 7, /* F_code not allowed in a list */
    MVB_LISTED_TWICE = 8,       /* listed twice */
    MVB_SPLIT_SUM_WRONG = 9,    /* split numbers do not add up */
    MVB_PERIOD_OVERFULL = 10,   /* Basic Period overfull */
    MVB_BYTES_AFTER_LIST = 11,  /* bytes after the list */
    MVB_NO_SUCH_PERIOD = 12,    /* no such Basic Period */
    MVB_TABLE_NOT_GOOD = 13,    /* port table not good */
    MVB_NOT_PROCESS_DATA = 14,  /* word is not Process Data */
    MVB_NO_SUCH_PORT = 15,      /* no such port */
    MVB_FCODE_NOT_PORTS = 16,   /* F_code not the port's */
    MVB_WRONG_DIRECTION = 17,   /* sink for source, or source for sink */
    MVB_IMPOSSIBLE_ROUND = 18,  /* impossible round */
    MVB_TOO_MANY_FRAMES = 19    /* more than 64 frames in a Basic Period */
};

/* The answer of mvb_round_answer at a round's end. */
#define MVB_END UINT32_C(131072)

/* Whether an answer is a refusal, and its number (0 where it is none). */
static inline int mvb_is_refused(uint32_t answer)
{
    return answer / 65536u == 1;
}

static inline uint32_t mvb_number_of(uint32_t answer)
{
    return mvb_is_refused(answer) ? answer - 65536u : 0;
}

#define MVB_REFUSED(answer) mvb_is_refused(answer)
#define MVB_NUMBER(answer) mvb_number_of(answer)

/* A record of the port table. Sink 0 is a source, anything else a sink. */
struct mvb_port {
    uint16_t address; /* Logical_Address, below 4,096 */
    uint8_t f_code;   /* 0 to 4 */
    uint8_t sink;
};

MVB_STATIC_ASSERT(sizeof(struct mvb_port) == 4, "a record has 4 bytes");
MVB_STATIC_ASSERT(offsetof(struct mvb_port, address) == 0, "the address comes first");
MVB_STATIC_ASSERT(offsetof(struct mvb_port, f_code) == 2, "the F_code follows the address");
MVB_STATIC_ASSERT(offsetof(struct mvb_port, sink) == 3, "the sink byte comes last");

/* A round is lent as a run of six numbers, in this order. Phase 0 waits for the answer to a request, 1 for the
 * answer to a read, anything else has ended. The caller may keep the run and read its counts; numbers beyond the
 * six stay unchanged. */
enum mvb_round_place {
    MVB_ROUND_PHASE = 0,
    MVB_ROUND_M = 1,
    MVB_ROUND_C = 2,
    MVB_ROUND_REQUESTS = 3,
    MVB_ROUND_READS = 4,
    MVB_ROUND_UNRESOLVED = 5,
    MVB_ROUND_NUMBERS = 6
};

/* Enough for every input: data and bytes of the largest frame, bytes of an accepted list file, words of a Basic Period,
 * bytes of a list's text, records of a good port table, bytes of a set of devices. */
enum mvb_most {
    MVB_MOST_DATA = 32,
    MVB_MOST_FRAME = 36,
    MVB_MOST_LIST = 16384,
    MVB_MOST_WORDS = 64,
    MVB_MOST_TEXT = 42256,
    MVB_MOST_PORTS = 256,
    MVB_SET_BYTES = 512
};

/* Frames ----------------------------------------------------------------------------------------------------- */

/* The check sequence of a block of any length: the block's bits, high bit first, times x^7, divided over two
 * elements by x^7+x^6+x^5+x^2+1; seven remainder bits, high first; then one bit that makes the number of ones in
 * block, remainder and itself even; all eight inverted.
 * Answers the byte. Refuses nothing. */
uint32_t mvb_check_of(const uint8_t *block, size_t length);

/* Reads a Master Frame: one word, high byte first, and its check sequence, 3 bytes. The word's top four bits are
 * the F_code, the low twelve an address.
 * Answers the word. Order: 1, 2, 3. */
uint32_t mvb_master_read(const uint8_t *frame, size_t length);

/* Writes a word as a Master Frame to `out`.
 * Answers the frame's bytes, 3. Order: 3, 4 for the output. */
uint32_t mvb_master_write(uint16_t word, uint8_t *out, size_t room);

/* Reads a Slave Frame of the expected F_code and writes its data to `out`: data sent in blocks of at most 64 bits,
 * each followed by its check sequence.
 * Answers the number of data bytes. Order: 3, 1, 2, 4 for the output. */
uint32_t mvb_slave_read(uint8_t f_code, const uint8_t *frame, size_t length, uint8_t *out, size_t room);

/* Writes data as a Slave Frame of the F_code to `out`.
 * Answers the frame's bytes. Order: 3, 1 for the data's length, 4 for the output. */
uint32_t mvb_slave_write(uint8_t f_code, const uint8_t *data, size_t length, uint8_t *out, size_t room);

/* Time ------------------------------------------------------------------------------------------------------- */

/* How many bit times a telegram takes: 33 + line bits of its Slave Frame + gap.
 * Answers the bit times. Order: 3, then 6 for a gap outside 4 to 128. */
uint32_t mvb_telegram_bits(uint8_t f_code, uint16_t gap);

/* The guard: with `left` bit times left, a gap and an F_code, yes exactly if that telegram takes at most `left`.
 * The rule is the same in every Basic Period.
 * Answers 1 for yes, 0 for no. Order: 3, then 6 for a gap outside 4 to 128. */
uint32_t mvb_guard(uint32_t left, uint16_t gap, uint8_t f_code);

/* The event round -------------------------------------------------------------------------------------------- */

/* Starts a round over twelve parameter bits. The group {M, C} is the devices whose low 12 - M address bits are C.
 * `round` has MVB_ROUND_NUMBERS numbers; whatever they hold before is lost.
 * Answers the first word: F_code 9 over the parameter bits, to be sent as a Master Frame.
 * Order: 6 for parameter bits of 4,096 or more, 4 for a run of fewer than six numbers. */
uint32_t mvb_round_start(uint16_t params, uint16_t *round, size_t numbers);

/* Takes the line's answer, as the bytes that came, to the word that was handed out last: no bytes are silence, a
 * right 3-byte frame is a reply, all else is a collision. At {M, C}: silence, go on; a reply with F_code 12 and an
 * address in the group, send that word (the read), then go on whatever comes back; anything else, for M at least 1
 * ask {M-1, C} and all under it, then {M-1, C + 2^(12-M)}; for M = 0 count one unresolved device and go on.
 * Answers the next word, to be sent as a Master Frame, or MVB_END; the three counts then stand in `round`. A request
 * counts when its answer is taken, a read along with the good reply that brings it. On a round that has ended it
 * answers MVB_END again and changes nothing. A round ends after at most 8,191 requests, on any line.
 * Order: 4 for a run of fewer than six numbers; the end; 18 for a round that has not ended and has M above 12, C not
 * below 2^(12-M), reads plus unresolved above requests, or more than 8,190 requests counted while one is still to be
 * asked or answered. No round from a start is refused. */
uint32_t mvb_round_answer(uint16_t *round, size_t numbers, const uint8_t *bytes, size_t length);

/* The search as the rule reads, over a known set: ask, and on a collision ask both halves. Address a is bit a mod 8
 * of byte a div 8 of the set. Writes the devices to `out` in the order in which a round reads them.
 * Answers the number of reads, which is that of the set's devices; the number of requests goes to `requests`.
 * Order: 1 for a set of another length than 512, 4 for an output of fewer places than the set has devices. */
uint32_t mvb_search(const uint8_t *set, size_t length, uint16_t *out, size_t places, uint16_t *requests);

/* The list ----------------------------------------------------------------------------------------------------- */

/* Checks a list file: a run of numbers in groups of seven bits, lowest group first, top bit set on every byte but
 * its last, shortest form only, at most 65,535. In order: the number 1; the Basic Period in ms, 1 or 2; the gap, 4
 * to 128; the sporadic reserve, from 67 + gap to 1,500 x ms; then each cycle 2^n, n from 0 to 10 (to 9 for 2 ms): a
 * count 0 to 256 and that many words, and for n at least 1 and a count above 0 then 2^n split numbers, each 0 to
 * 256. Nothing follows. A listed word has F_code 0 to 4 or 15. No two listed Process Data words share an address,
 * whatever their F_codes; no word with F_code 15 is listed twice. Split numbers of a cycle add up to its count. The
 * telegrams of a Basic Period and the reserve take at most 1,500 x ms bit times.
 * Answers the number of words; the Basic Period in ms, the gap and the reserve go to the three single numbers.
 * Order: 1 for a file above 16,384 bytes; each at its number as it is read 5, 6, 7, 8; 9 after a cycle's last split
 * number; after the last cycle 11, then 10, then 19 (which, after 10, no list gets). */
uint32_t mvb_list_check(const uint8_t *list, size_t length, uint16_t *ms, uint16_t *gap, uint16_t *reserve);

/* The words that Basic Period j sends: Subcycle j mod 2^n of each cycle, cycles rising, words in list order. The first
 * words of a cycle, as many as split number 0 says, are in Subcycle 0, the next in Subcycle 1, and so on; all of cycle
 * 1 is in Subcycle 0. A Macro_Cycle has 1,024 Basic Periods for 1 ms, 512 for 2 ms, numbered from 0, and repeats.
 * Answers how many words were written to `out`. Order: all list refusals as mvb_list_check gives them, 12 for j,
 * 4 for the output. */
uint32_t mvb_basic_period(const uint8_t *list, size_t length, uint16_t j, uint16_t *out, size_t places);

/* The text of a list: "refused", a space and the number; or a header (ms, gap, reserve, words), then per word in file
 * order the word in four hex digits with capitals, the cycle as 2^n, the Subcycle. Fields stand one space apart, each
 * line ends with a newline. No zero byte is added.
 * Answers how many bytes were written to `out`; MVB_MOST_TEXT always suffice. Order: 4 for the output. A bad list is no
 * refusal here: its text says so. */
uint32_t mvb_list_text(const uint8_t *list, size_t length, uint8_t *out, size_t room);

/* Ports and ages ----------------------------------------------------------------------------------------------- */

/* The port table is lent as a run of records. Good means at most 256 records, addresses below 4,096 strictly rising,
 * F_codes 0 to 4. Ports lie packed in the lent store in table order (2, 4, 8, 16 or 32 bytes for F_code 0 to 4).
 * Ages are lent, one number a record. */

/* A frame arrives for the sink that the Master Frame's word names: its data is replaced and its age is 0. It touches
 * that port only.
 * Answers 0. Order: 13; 4 for the store, 4 for the ages; 14; 15; 16; 17; 1; 2. */
uint32_t mvb_arrive(const struct mvb_port *table, size_t records, uint8_t *store, size_t store_bytes, uint16_t *ages,
                    size_t ages_count, uint16_t word, const uint8_t *frame, size_t length);

/* A source answers the request of a Master Frame's word: its Slave Frame is written to `out`.
 * Answers the frame's bytes. Order: 13; 4 for the store; 14; 15; 16; 17; 4 for the output. */
uint32_t mvb_answer(const struct mvb_port *table, size_t records, const uint8_t *store, size_t store_bytes,
                    uint16_t word, uint8_t *out, size_t room);

/* The application reads a sink: its data goes to `out`, its age to `age`.
 * Answers the number of data bytes. Order: 13; 4 for the store, 4 for the ages; 15; 17; 4 for the output. */
uint32_t mvb_read(const struct mvb_port *table, size_t records, const uint8_t *store, size_t store_bytes,
                  const uint16_t *ages, size_t ages_count, uint16_t address, uint8_t *out, size_t room, uint16_t *age);

/* The application fills a source: its data is replaced.
 * Answers 0. Order: 13; 4 for the store; 15; 17; 1 for the data's length. */
uint32_t mvb_fill(const struct mvb_port *table, size_t records, uint8_t *store, size_t store_bytes, uint16_t address,
                  const uint8_t *data, size_t length);

/* A tick raises every sink's age by 1, staying at 65,535, and no source's.
 * Answers 0. Order: 13; 4 for the ages. */
uint32_t mvb_tick(const struct mvb_port *table, size_t records, uint16_t *ages, size_t ages_count);

/* Empty runs ----------------------------------------------------------------------------------------------------- */

/* The pointer itself, or for a null pointer one that may be lent with length 0. Nothing is ever read or written
 * through that. */
static const uint32_t mvb_nothing = 0;

static inline const uint8_t *mvb_in(const uint8_t *run)
{
    return run != NULL ? run : (const uint8_t *)&mvb_nothing;
}

static inline uint8_t *mvb_out(uint8_t *run)
{
    return run != NULL ? run : (uint8_t *)(uintptr_t)&mvb_nothing;
}

static inline uint16_t *mvb_numbers(uint16_t *run)
{
    return run != NULL ? run : (uint16_t *)(uintptr_t)&mvb_nothing;
}

static inline const struct mvb_port *mvb_table(const struct mvb_port *run)
{
    return run != NULL ? run : (const struct mvb_port *)(uintptr_t)&mvb_nothing;
}

#ifdef __cplusplus
}
#endif

#endif
