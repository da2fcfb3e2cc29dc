/*
 * Rakmolthi: a list of live IPv4 prefixes and two lookup tables of the DIR-24-8 kind. Every call of the library is proved.
 *
 * Most programs put what they lend and the territory into an rk_tables, once, and make the rk_tables_ calls at the end of this file:
 *
 *     if (rk_tables_clear(&t) != RK_OK) ..                     the memory lent has another size
 *     report = rk_tables_announce(&t, address, length, hop);   report.code, and how many cells changed
 *     number = rk_tables_look_up(&t, address);
 *     if (RK_CODE(number) == RK_OK) hop = RK_HOP(number), length = RK_LENGTH(number);
 *
 * These are C and hand the fields on to rk_announce and so on, where it is said what a call answers, writes and refuses.
 *
 * Memory. The library has none of its own: no heap, no state, no locks. The caller lends it on every call:
 *
 *   first        RK_FIRST_CELLS(base_length) cells of 32 bits, 2^(24 - base_length): one for each /24 block of the territory
 *   long_table   RK_LONG_CELLS(S) cells of 32 bits, 256 * S, S from 0 to 32,768: segment k is cells 256k to 256k + 255
 *   owners       S words of 32 bits, one for each segment
 *   rules        R words of 64 bits, R from 0 to 65,536, one for each live prefix
 *   octets       RK_WORDS words of 64 bits, one for each hop: what was carried; word 0 takes what has no route
 *   cents        RK_WORDS words of 64 bits, one for each hop: what it costs; word 0 is not read
 *   hops         RK_HOPS words of 32 bits: room for the cost sheet
 *
 * Each pointer is followed by how many elements are lent there. What is lent stays the caller's, and a call touches nothing else. A
 * pointer is aligned as its type asks and not null (also where 0 elements are lent), and the lent arrays of one call do not overlap.
 * What the words hold, and that a caller may read them, is said in the scope paper; a program that only makes these calls need not know.
 *
 * The territory is the prefix base / base_length: base_length 0 to 24, and no bit of base set after it. All lent memory belongs to one
 * territory from rk_clear on.
 *
 * Answers. 0, RK_OK, is success. Any other number is a refusal, and a refused call writes nothing and answers length 0, hop 0, cells 0, an
 * all-zero update:
 *
 *    1  RK_WRONG_SIZES         base_length above 24, base has bits after it, or a lent size is not as above      every call on lent words
 *    2  RK_WRONG_NUMBERS       length above 32, address bits set after the length, or a hop outside 1 to 32,767  updates, cost line
 *    3  RK_OUTSIDE             address not in the territory; prefix shorter than the territory or not inside it  look up, book, updates
 *    4  RK_DAMAGE              damage: the lent words contradict themselves where the call looks                 look up, book, updates
 *    5  RK_NOT_LIVE            prefix not live                                                                   withdraw, re-home
 *    6  RK_NO_RULE_WORD        prefix not live and no rule word is free                                          announce
 *    7  RK_NO_SEGMENT          a prefix longer than 24 needs a segment and none is free                          announce
 *    8  RK_NO_ROUTE            no route                                                                          look up
 *   20  RK_CUT_RECORD          fewer than 2 bytes, or the length field is right and there are fewer than 15      read
 *   21  RK_WRONG_LENGTH_FIELD  the length field is not 13                                                        read
 *   22  RK_WRONG_VERSION       the version is not 1                                                              read
 *   23  RK_WRONG_KIND          the kind is not 1, 2 or 3                                                         read, write
 *   24  RK_WRONG_SERIAL        the serial is not the expected one                                                read
 *   25  RK_WITHDRAW_WITH_HOP   a withdraw with a hop                                                             read, write
 *   26  RK_NO_RECORD_ROOM      fewer than 15 bytes of room                                                       write
 *   30  RK_TOO_MANY_OCTETS     a word of octets would pass 2^53 (book), or has passed it (cost line, cost sheet)
 *   31  RK_TOO_MANY_CENTS      a word of cents has passed 2^53                                                   cost line, cost sheet
 *
 * Where several hold, the first in the order of the tests is answered: 1, 2, 3, 4, 5, 6, 7, 8, 30, 31; 20, 21, 22, 23, 24, 25, with the
 * 15 bytes of 20 tested after 21; 26, 23, 25.
 *
 * The library is x86-64 code.
 *
 * At the same time. A call may run beside others that only read the same memory, as far as it only reads it: rk_look_up, rk_look_up_all,
 * rk_book and rk_book_all the tables, rk_cost_line and rk_cost_sheet the octets and cents. What a call writes it must have to itself.
 */
#ifndef RAKMOLTHI_H
#define RAKMOLTHI_H

#include <stddef.h>
#include <stdint.h>

#ifdef __cplusplus
extern "C" {
#endif

enum rk_code {
    RK_OK = 0,
    RK_WRONG_SIZES = 1,
    RK_WRONG_NUMBERS = 2,
    RK_OUTSIDE = 3,
    RK_DAMAGE = 4,
    RK_NOT_LIVE = 5,
    RK_NO_RULE_WORD = 6,
    RK_NO_SEGMENT = 7,
    RK_NO_ROUTE = 8,
    RK_CUT_RECORD = 20,
    RK_WRONG_LENGTH_FIELD = 21,
    RK_WRONG_VERSION = 22,
    RK_WRONG_KIND = 23,
    RK_WRONG_SERIAL = 24,
    RK_WITHDRAW_WITH_HOP = 25,
    RK_NO_RECORD_ROOM = 26,
    RK_TOO_MANY_OCTETS = 30,
    RK_TOO_MANY_CENTS = 31
};

/* What a record asks for. */
enum rk_kind {
    RK_ANNOUNCE = 1,
    RK_WITHDRAW = 2,
    RK_RE_HOME = 3
};

/* Sizes. */
#define RK_BLOCK_CELLS 256   /* the addresses of a block, and the cells of a segment */
#define RK_MOST_TERRITORY 24 /* the longest base_length */
#define RK_MOST_SEGMENTS 32768
#define RK_MOST_RULES 65536
#define RK_LAST_HOP 32767 /* the first is 1 */
#define RK_RECORD_BYTES 15
#define RK_WORDS 32768 /* of octets, and of cents: one for each hop, and word 0 */
#define RK_HOPS 32767  /* of a cost sheet */

/* How many cells a territory of this length, 0 to 24, has in the first table, and how many so many segments have in the long one. */
#define RK_FIRST_CELLS(base_length) ((size_t)1 << RK_MOST_TERRITORY >> (base_length))
#define RK_LONG_CELLS(segments) ((size_t)RK_BLOCK_CELLS * (segments))

/*
 * The parts of the number that rk_look_up answers, code * 2^22 + length * 2^16 + hop: 0 or a refusal, the length of the prefix that won,
 * and its hop. With a refusal length and hop are 0; a route of length 0 has code 0.
 */
#define RK_CODE(number) ((uint32_t)(number) >> 22)
#define RK_LENGTH(number) ((uint32_t)(number) >> 16 & 63)
#define RK_HOP(number) ((uint32_t)(number) & 65535)

/* An address cut to its first bits, 0 to 32 of them. The prefix that won is RK_CUT(address, RK_LENGTH(number)) / RK_LENGTH(number). */
#define RK_CUT(address, length) ((uint32_t)(address) & ~(uint32_t)((uint64_t)UINT32_MAX >> (length)))

/* What is lent for the tables, and the territory. The program fills it in, each field by its name; no call changes the fields. */
typedef struct {
    uint32_t *first;
    size_t first_cells;
    uint32_t *long_table;
    size_t long_cells;
    uint32_t *owners;
    size_t owner_words;
    uint64_t *rules;
    size_t rule_words;
    uint32_t base;
    uint32_t base_length;
} rk_tables;

/*
 * What an update answers: 0 and how many cells of the two tables it changed, or a refusal and 0. Where nothing but rk_clear and these calls
 * wrote the lent memory, that number is the update's price, which the live prefixes before and after it give; on other memory it is still
 * the number of cells that differ.
 */
typedef struct {
    uint32_t code;
    uint32_t cells;
} rk_report;

/* An update, as a record carries it. */
typedef struct {
    uint8_t kind; /* RK_ANNOUNCE, RK_WITHDRAW or RK_RE_HOME */
    uint32_t serial;
    uint32_t address;
    uint8_t length;
    uint16_t hop; /* 0 with a withdraw */
} rk_update;

/* What reading a record answers. */
typedef struct {
    uint32_t code;
    rk_update update;
} rk_reading;

/*
 * A line of the cost sheet. Code 0 and traffic 1: the rate holds, in cents for an octet. Code 0 and traffic 0: "no traffic", and rate 0 says
 * nothing. Another code is a refusal, with traffic 0 and rate 0.
 */
typedef struct {
    uint32_t code;
    uint32_t traffic;
    double rate;
} rk_line;

/* Sets all lent memory to 0: no prefix is live. Answers 0 or 1. */
uint32_t rk_clear(uint32_t *first, size_t first_cells, uint32_t *long_table, size_t long_cells, uint32_t *owners, size_t owner_words,
                  uint64_t *rules, size_t rule_words, uint32_t base, uint32_t base_length);

/* Makes address/length live with a hop; if it is live already, its hop is replaced. Refusals 1, 2, 3, 4, 6, 7. */
rk_report rk_announce(uint32_t *first, size_t first_cells, uint32_t *long_table, size_t long_cells, uint32_t *owners, size_t owner_words,
                      uint64_t *rules, size_t rule_words, uint32_t base, uint32_t base_length, uint32_t address, uint32_t length,
                      uint32_t hop);

/* Removes a live prefix: the routes that it covered come back. Refusals 1, 2, 3, 4, 5. */
rk_report rk_withdraw(uint32_t *first, size_t first_cells, uint32_t *long_table, size_t long_cells, uint32_t *owners, size_t owner_words,
                      uint64_t *rules, size_t rule_words, uint32_t base, uint32_t base_length, uint32_t address, uint32_t length);

/* Changes the hop of a live prefix. Refusals 1, 2, 3, 4, 5. */
rk_report rk_re_home(uint32_t *first, size_t first_cells, uint32_t *long_table, size_t long_cells, uint32_t *owners, size_t owner_words,
                     uint64_t *rules, size_t rule_words, uint32_t base, uint32_t base_length, uint32_t address, uint32_t length,
                     uint32_t hop);

/*
 * The hop and the length of the longest live prefix that contains the address, as the one number code * 2^22 + length * 2^16 + hop, which
 * RK_CODE, RK_LENGTH and RK_HOP take apart. The tables are passed as bytes, four to a cell, the lowest first, which is how rk_announce and
 * the others leave them on a little-endian machine; 1 also where a table is no whole number of cells. It reads one or two cells. Refusals
 * 1, 3, 4, 8.
 */
uint32_t rk_look_up(const uint8_t *first, size_t first_bytes, const uint8_t *long_table, size_t long_bytes, uint32_t base,
                    uint32_t base_length, uint32_t address);

/*
 * Looks many addresses up. Answers 1, and writes nothing, where rk_look_up would answer 1 or the two counts differ; else 0, and answers[i]
 * is rk_look_up's number for addresses[i]. For a buffer full of addresses it is faster than one call for each.
 */
uint32_t rk_look_up_all(const uint32_t *first, size_t first_cells, const uint32_t *long_table, size_t long_cells, uint32_t base,
                        uint32_t base_length, const uint32_t *addresses, size_t address_count, uint32_t *answers, size_t answer_count);

/*
 * Reads the update record in the first 15 bytes, under the serial that is expected; bytes after them are not looked at. After an accepted
 * record a stream expects the next serial, and 0 after 4294967295: in C, expected + 1 of a uint32_t. Refusals 20 to 25.
 */
rk_reading rk_read_record(const uint8_t *bytes, size_t count, uint32_t expected);

/* Writes the record of an update into the first 15 bytes of the room, and no other. Refusals 26, 23, 25. */
uint32_t rk_write_record(uint8_t *room, size_t count, rk_update update);

/* Sets the words of octets to 0. Answers 0, or 1 for another number of words. */
uint32_t rk_clear_octets(uint64_t *octets, size_t octet_words);

/*
 * Books a flow: looks the address up and adds the amount to the word of its hop, or to word 0 where there is no route. No word passes
 * 2^53: where it would, the record is refused with 30. Refusals 1, 3, 4, 30; a refused record changes nothing.
 */
uint32_t rk_book(const uint32_t *first, size_t first_cells, const uint32_t *long_table, size_t long_cells, uint64_t *octets,
                 size_t octet_words, uint32_t base, uint32_t base_length, uint32_t address, uint64_t amount);

/*
 * Books many flows, as rk_book would one after the other: codes[i] is its number for addresses[i] and amounts[i]. Answers 0; or 1, and
 * writes nothing, where rk_book would answer 1 or the three counts differ.
 */
uint32_t rk_book_all(const uint32_t *first, size_t first_cells, const uint32_t *long_table, size_t long_cells, uint64_t *octets,
                     size_t octet_words, uint32_t base, uint32_t base_length, const uint32_t *addresses, size_t address_count,
                     const uint64_t *amounts, size_t amount_count, uint32_t *codes, size_t code_count);

/*
 * The line of a hop: its cents divided by its octets, as the double nearest to that fraction, or "no traffic" for 0 octets. A rate is never
 * infinite and never not-a-number, at most 2^53, and 0 only for 0 cents. (The processor is to round to the nearest, as it does unless
 * fesetround was called.) Refusals 1, 2, 30, 31; 30 and 31 by the words of this hop alone.
 */
rk_line rk_cost_line(const uint64_t *octets, size_t octet_words, const uint64_t *cents, size_t cent_words, uint32_t hop);

/*
 * The cost sheet: fills the room with the hops 1 to 32,767, dearest first. First the hops with cents and no octets, the most cents first;
 * then those with octets, the highest rate first; then those with neither. A tie goes to the lower hop, and rates tie that are the same
 * double. Refusals 1, 30, 31; 30 for any word of octets, word 0 too, and 31 for any word of cents but word 0.
 */
uint32_t rk_cost_sheet(const uint64_t *octets, size_t octet_words, const uint64_t *cents, size_t cent_words, uint32_t *hops,
                       size_t hop_count);

/*
 * The calls on an rk_tables, each as the call above of the same name without tables_. Those that take a const rk_tables only read what is
 * lent for the tables.
 */
static inline uint32_t rk_tables_clear(rk_tables *t) {
    return rk_clear(t->first, t->first_cells, t->long_table, t->long_cells, t->owners, t->owner_words, t->rules, t->rule_words, t->base,
                    t->base_length);
}

static inline rk_report rk_tables_announce(rk_tables *t, uint32_t address, uint32_t length, uint32_t hop) {
    return rk_announce(t->first, t->first_cells, t->long_table, t->long_cells, t->owners, t->owner_words, t->rules, t->rule_words, t->base,
                       t->base_length, address, length, hop);
}

static inline rk_report rk_tables_withdraw(rk_tables *t, uint32_t address, uint32_t length) {
    return rk_withdraw(t->first, t->first_cells, t->long_table, t->long_cells, t->owners, t->owner_words, t->rules, t->rule_words, t->base,
                       t->base_length, address, length);
}

static inline rk_report rk_tables_re_home(rk_tables *t, uint32_t address, uint32_t length, uint32_t hop) {
    return rk_re_home(t->first, t->first_cells, t->long_table, t->long_cells, t->owners, t->owner_words, t->rules, t->rule_words, t->base,
                      t->base_length, address, length, hop);
}

/*
 * What an accepted record asks for: one of the three calls above, by the update's kind. An update that no accepted record carries is
 * refused as reading refuses its record, before anything else is looked at: with 23 for another kind, with 25 for a withdraw with a hop.
 */
static inline rk_report rk_tables_update(rk_tables *t, rk_update update) {
    rk_report refused = {RK_WRONG_KIND, 0};
    if (update.kind == RK_ANNOUNCE) return rk_tables_announce(t, update.address, update.length, update.hop);
    if (update.kind == RK_WITHDRAW && update.hop == 0) return rk_tables_withdraw(t, update.address, update.length);
    if (update.kind == RK_RE_HOME) return rk_tables_re_home(t, update.address, update.length, update.hop);
    if (update.kind == RK_WITHDRAW) refused.code = RK_WITHDRAW_WITH_HOP;
    return refused;
}

static inline uint32_t rk_tables_look_up(const rk_tables *t, uint32_t address) {
    return rk_look_up((const uint8_t *)t->first, t->first_cells * sizeof *t->first, (const uint8_t *)t->long_table,
                      t->long_cells * sizeof *t->long_table, t->base, t->base_length, address);
}

static inline uint32_t rk_tables_look_up_all(const rk_tables *t, const uint32_t *addresses, size_t address_count, uint32_t *answers,
                                             size_t answer_count) {
    return rk_look_up_all(t->first, t->first_cells, t->long_table, t->long_cells, t->base, t->base_length, addresses, address_count,
                          answers, answer_count);
}

static inline uint32_t rk_tables_book(const rk_tables *t, uint64_t *octets, size_t octet_words, uint32_t address, uint64_t amount) {
    return rk_book(t->first, t->first_cells, t->long_table, t->long_cells, octets, octet_words, t->base, t->base_length, address, amount);
}

static inline uint32_t rk_tables_book_all(const rk_tables *t, uint64_t *octets, size_t octet_words, const uint32_t *addresses,
                                          size_t address_count, const uint64_t *amounts, size_t amount_count, uint32_t *codes,
                                          size_t code_count) {
    return rk_book_all(t->first, t->first_cells, t->long_table, t->long_cells, octets, octet_words, t->base, t->base_length, addresses,
                       address_count, amounts, amount_count, codes, code_count);
}

#ifdef __cplusplus
}
#endif

#endif
