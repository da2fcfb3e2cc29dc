/* The driver of the check: it holds the lent memory of Rakmolthi, with guard bytes before and after every lent slice, takes
   commands on standard input, makes the calls and answers on standard output. check.py starts it and talks to it.

   All numbers on the wire are little-endian. A command is one letter and its numbers:

     M  which:1 shift:1 bytes:8 contents     lend slice `which` (0 first, 1 long, 2 owners, 3 rules, 4 octets, 5 cents,
                                             6 hops) with these contents, its start moved by `shift` bytes off a
                                             multiple of 16; no answer
     D  which:1                              the contents of a slice
     C  base:4 length:4 dump:1                                       clear
     A  base:4 length:4 address:4 length:4 hop:4 dump:1              announce
     W  base:4 length:4 address:4 length:4 dump:1                    withdraw
     H  base:4 length:4 address:4 length:4 hop:4 dump:1              re-home
     u  base:4 length:4 update dump:1                                what an update asks for
     L  base:4 length:4 count:4 addresses                            look up, one call for each address
     V  base:4 length:4 count:4 room:4 addresses                     look up all, one call
     R  expected:4 bytes:4 contents                                  read a record
     P  update bytes:4 contents                                      write a record into a room with these contents
     Z                                                               clear the octets
     B  base:4 length:4 address:4 amount:8                           book
     K  base:4 length:4 shift:1 x 3 count:4 x 3 addresses amounts    book all, one call: addresses, amounts:8, codes
     I  count:4 hops                                                 cost line, one call for each hop
     S                                                               cost sheet
     Q                                                               end

   where an update is kind:1 serial:4 address:4 length:1 hop:2. Each of C, A, W, H, L, V, B and K as a small letter is the same
   call on an rk_tables, and u is rk_tables_update. The answers are

     D         contents
     C A W H u code:4 cells:4 guards:2 differing:4 x 7, and with dump the contents of the first four slices
     L         guards:2 changed:2, and number:4 code:4 length:4 hop:4 prefix:4 for each address, the last four as RK_CODE,
               RK_LENGTH, RK_HOP and RK_CUT have them
     V         guards:2 changed:2 returned:4, and the same five for each place of the room
     R         guards:2 changed:2 code:4 update
     P         guards:2 changed:2 code:4 contents
     Z B       guards:2 changed:2 code:4 octets
     K         guards:2 changed:2 code:4 octets codes:4 x count
     I         guards:2 changed:2, and code:4 traffic:4 rate:8 for each hop, the rate as the bytes of the double
     S         guards:2 changed:2 code:4 hops:4 x lent

   `guards` is not 0 if a byte before or after some slice was written, `changed` if a byte was that a call only reads; bit k
   is slice k, and bits 7 to 9 what came with the call. `differing` is the number of elements of each slice that differ
   from before the call; `octets` says that number and then each of these words, place:4 and word:8, so that with those
   from before the call every word is known. */

#include "rakmolthi.h"

#include <stdio.h>
#include <stdlib.h>
#include <string.h>

/* ------------------------------------------------------------------------------------------------- the header's numbers */

/* The numbers are the paper's, and request [2]'s: where one is not, this does not compile. */
#define IS(name, number) typedef char name##_is_##number[(name) == (number) ? 1 : -1]

IS(RK_OK, 0);
IS(RK_WRONG_SIZES, 1);
IS(RK_WRONG_NUMBERS, 2);
IS(RK_OUTSIDE, 3);
IS(RK_DAMAGE, 4);
IS(RK_NOT_LIVE, 5);
IS(RK_NO_RULE_WORD, 6);
IS(RK_NO_SEGMENT, 7);
IS(RK_NO_ROUTE, 8);
IS(RK_CUT_RECORD, 20);
IS(RK_WRONG_LENGTH_FIELD, 21);
IS(RK_WRONG_VERSION, 22);
IS(RK_WRONG_KIND, 23);
IS(RK_WRONG_SERIAL, 24);
IS(RK_WITHDRAW_WITH_HOP, 25);
IS(RK_NO_RECORD_ROOM, 26);
IS(RK_TOO_MANY_OCTETS, 30);
IS(RK_TOO_MANY_CENTS, 31);
IS(RK_ANNOUNCE, 1);
IS(RK_WITHDRAW, 2);
IS(RK_RE_HOME, 3);
IS(RK_BLOCK_CELLS, 256);
IS(RK_MOST_TERRITORY, 24);
IS(RK_MOST_SEGMENTS, 32768);
IS(RK_MOST_RULES, 65536);
IS(RK_LAST_HOP, 32767);
IS(RK_RECORD_BYTES, 15);
IS(RK_WORDS, 32768);
IS(RK_HOPS, 32767);

/* Some arguments are such that a macro that left out its brackets would make another number of them. */
enum {
    CELLS_OF_0 = RK_FIRST_CELLS(0), CELLS_OF_12 = RK_FIRST_CELLS(8 | 4), CELLS_OF_24 = RK_FIRST_CELLS(RK_MOST_TERRITORY),
    CELLS_IN_0 = RK_LONG_CELLS(0), CELLS_IN_3 = RK_LONG_CELLS(2 + 1), CELLS_IN_ALL = RK_LONG_CELLS(RK_MOST_SEGMENTS),
    NUMBER = 8 << 22 | 24 << 16, CODE = RK_CODE(NUMBER | 7), LENGTH = RK_LENGTH(NUMBER | 7), HOP = RK_HOP(NUMBER | 7),
    CUT_TO_0 = RK_CUT(0x12345678, 0), CUT_TO_9 = RK_CUT(0x12340000 | 0x5678, 8 | 1), CUT_TO_32 = RK_CUT(0x12345678, 32)
};
IS(CELLS_OF_0, 16777216);
IS(CELLS_OF_12, 4096);
IS(CELLS_OF_24, 1);
IS(CELLS_IN_0, 0);
IS(CELLS_IN_3, 768);
IS(CELLS_IN_ALL, 8388608);
IS(CODE, 8);
IS(LENGTH, 24);
IS(HOP, 7);
IS(CUT_TO_0, 0);
IS(CUT_TO_9, 0x12000000);
IS(CUT_TO_32, 0x12345678);

/* ------------------------------------------------------------------------------------------------- what is lent */

enum { GUARD = 256, SLICES = 7, TABLES = 4, OCTETS = 4, CENTS = 5, SHEET = 6 };

typedef struct {
    uint8_t *room;      /* what malloc gave */
    uint8_t *start;     /* where the slice starts */
    uint8_t *copy;      /* the contents before the call */
    size_t bytes;
} slice;

static const size_t width[SLICES] = { 4, 4, 4, 8, 8, 8, 4 };
static slice lent[SLICES];

/* ------------------------------------------------------------------------------------------------- the wire */

static void take(void *to, size_t bytes)
{
    if (bytes && fread(to, 1, bytes, stdin) != bytes) {
        fprintf(stderr, "driver: the input stopped inside a command\n");
        exit(2);
    }
}

static uint8_t take8(void) { uint8_t b; take(&b, 1); return b; }
static uint16_t take16(void) { uint8_t b[2]; take(b, 2); return (uint16_t)(b[0] | b[1] << 8); }
static uint32_t take32(void)
{
    uint8_t b[4];
    take(b, 4);
    return b[0] | (uint32_t)b[1] << 8 | (uint32_t)b[2] << 16 | (uint32_t)b[3] << 24;
}
static uint64_t take64(void) { uint64_t low = take32(); return low | (uint64_t)take32() << 32; }

static void give(const void *from, size_t bytes) { if (bytes) fwrite(from, 1, bytes, stdout); }
static void give8(uint32_t v) { uint8_t b = (uint8_t)v; give(&b, 1); }
static void give16(uint32_t v) { give8(v); give8(v >> 8); }
static void give32(uint32_t v) { give16(v); give16(v >> 16); }

static rk_update take_update(void)
{
    rk_update update;
    memset(&update, 0xFF, sizeof update);      /* the gaps between the fields carry no news */
    update.kind = take8();
    update.serial = take32();
    update.address = take32();
    update.length = take8();
    update.hop = take16();
    return update;
}

static void give_answer(uint32_t address, uint32_t number)
{
    give32(number);
    give32(RK_CODE(number));
    give32(RK_LENGTH(number));
    give32(RK_HOP(number));
    give32(RK_CUT(address, RK_LENGTH(number)));
}

/* ------------------------------------------------------------------------------------------------- slices with guards */

static uint8_t guard_byte(size_t i) { return (uint8_t)(0xA5 ^ (i * 37)); }

static void *memory(size_t bytes)
{
    void *p = malloc(bytes ? bytes : 1);
    if (!p) { fprintf(stderr, "driver: no memory\n"); exit(2); }
    return p;
}

static void set_up(slice *s, size_t bytes, size_t shift)
{
    size_t i;
    free(s->room);
    free(s->copy);
    s->room = memory(GUARD + 16 + shift + bytes + GUARD);
    s->start = s->room + GUARD;
    s->start += (16 - (uintptr_t)s->start % 16) % 16 + shift;
    s->copy = memory(bytes);
    s->bytes = bytes;
    for (i = 0; i < GUARD; i++) {
        s->start[(ptrdiff_t)i - GUARD] = guard_byte(i);
        s->start[bytes + i] = guard_byte(i + 7);
    }
}

static void before_call(slice *s) { if (s->bytes) memcpy(s->copy, s->start, s->bytes); }

static int guards_broken(const slice *s)
{
    size_t i;
    for (i = 0; i < GUARD; i++)
        if (s->start[(ptrdiff_t)i - GUARD] != guard_byte(i) || s->start[s->bytes + i] != guard_byte(i + 7)) return 1;
    return 0;
}

static int changed(const slice *s) { return s->bytes != 0 && memcmp(s->copy, s->start, s->bytes) != 0; }

/* The first element from byte i on that differs from before the call, or the end; what is the same is passed in large steps. */
static size_t next_differing(const slice *s, size_t each, size_t i)
{
    while (i + each <= s->bytes && memcmp(s->copy + i, s->start + i, each) == 0) {
        int large = i % 4096 == 0 && i + 4096 <= s->bytes && memcmp(s->copy + i, s->start + i, 4096) == 0;
        i += large ? 4096 : each;
    }
    return i + each <= s->bytes ? i : s->bytes;
}

static uint32_t differing(const slice *s, size_t each)
{
    uint32_t count = 0;
    size_t i;
    for (i = next_differing(s, each, 0); i < s->bytes; i = next_differing(s, each, i + each)) count++;
    return count;
}

static void lent_before(void) { int k; for (k = 0; k < SLICES; k++) before_call(&lent[k]); }

static uint32_t lent_guards(void)
{
    uint32_t broken = 0;
    int k;
    for (k = 0; k < SLICES; k++) if (guards_broken(&lent[k])) broken |= 1u << k;
    return broken;
}

static uint32_t lent_changed(void)
{
    uint32_t mask = 0;
    int k;
    for (k = 0; k < SLICES; k++) if (changed(&lent[k])) mask |= 1u << k;
    return mask;
}

static void answer_update(rk_report report, int dump)
{
    int k;
    give32(report.code);
    give32(report.cells);
    give16(lent_guards());
    for (k = 0; k < SLICES; k++) give32(differing(&lent[k], width[k]));
    if (dump) for (k = 0; k < TABLES; k++) give(lent[k].start, lent[k].bytes);
}

/* Which slices changed, without one that the call may write. */
static uint32_t changed_but(int written) { return lent_changed() & ~(1u << written); }

static void give_octets(void)
{
    const slice *s = &lent[OCTETS];
    size_t i;
    give32(differing(s, 8));
    for (i = next_differing(s, 8, 0); i < s->bytes; i = next_differing(s, 8, i + 8)) {
        give32((uint32_t)(i / 8));
        give(s->start + i, 8);
    }
}

/* ------------------------------------------------------------------------------------------------- the calls */

#define FIRST  ((uint32_t *)(void *)lent[0].start), lent[0].bytes / 4
#define LONG   ((uint32_t *)(void *)lent[1].start), lent[1].bytes / 4
#define OWNERS ((uint32_t *)(void *)lent[2].start), lent[2].bytes / 4
#define RULES  ((uint64_t *)(void *)lent[3].start), lent[3].bytes / 8
#define FLOWN  ((uint64_t *)(void *)lent[OCTETS].start), lent[OCTETS].bytes / 8
#define PAID   ((uint64_t *)(void *)lent[CENTS].start), lent[CENTS].bytes / 8
#define HOPS   ((uint32_t *)(void *)lent[SHEET].start), lent[SHEET].bytes / 4

static rk_tables tables(uint32_t base, uint32_t base_length)
{
    rk_tables t = { FIRST, LONG, OWNERS, RULES, base, base_length };
    return t;
}

static void lend(void)
{
    uint8_t which = take8(), shift = take8();
    uint64_t bytes = take64();
    if (which >= SLICES) { fprintf(stderr, "driver: no slice %u\n", which); exit(2); }
    set_up(&lent[which], (size_t)bytes, shift);
    take(lent[which].start, (size_t)bytes);
}

static void show(void)
{
    uint8_t which = take8();
    if (which >= SLICES) { fprintf(stderr, "driver: no slice %u\n", which); exit(2); }
    give(lent[which].start, lent[which].bytes);
}

static void update(char call)
{
    uint32_t base = take32(), base_length = take32();
    uint32_t address = 0, length = 0, hop = 0;
    rk_tables t = tables(base, base_length);
    rk_report report = { 0, 0 };
    int dump;
    if (!strchr("Cc", call)) { address = take32(); length = take32(); }
    if (strchr("AaHh", call)) hop = take32();
    dump = take8();
    lent_before();
    switch (call) {
    case 'C': report.code = rk_clear(FIRST, LONG, OWNERS, RULES, base, base_length); break;
    case 'A': report = rk_announce(FIRST, LONG, OWNERS, RULES, base, base_length, address, length, hop); break;
    case 'W': report = rk_withdraw(FIRST, LONG, OWNERS, RULES, base, base_length, address, length); break;
    case 'H': report = rk_re_home(FIRST, LONG, OWNERS, RULES, base, base_length, address, length, hop); break;
    case 'c': report.code = rk_tables_clear(&t); break;
    case 'a': report = rk_tables_announce(&t, address, length, hop); break;
    case 'w': report = rk_tables_withdraw(&t, address, length); break;
    case 'h': report = rk_tables_re_home(&t, address, length, hop); break;
    }
    answer_update(report, dump);
}

static void update_of_a_record(void)
{
    uint32_t base = take32(), base_length = take32();
    rk_update update = take_update();
    int dump = take8();
    rk_tables t = tables(base, base_length);
    lent_before();
    answer_update(rk_tables_update(&t, update), dump);
}

static void look_up(int on_tables)
{
    uint32_t base = take32(), base_length = take32(), count = take32(), i;
    uint32_t *addresses = memory(4 * (size_t)count), *numbers = memory(4 * (size_t)count);
    const rk_tables t = tables(base, base_length);
    for (i = 0; i < count; i++) addresses[i] = take32();
    lent_before();
    for (i = 0; i < count; i++)
        numbers[i] = on_tables ? rk_tables_look_up(&t, addresses[i])
                               : rk_look_up(lent[0].start, lent[0].bytes, lent[1].start, lent[1].bytes, base, base_length,
                                            addresses[i]);
    give16(lent_guards());
    give16(lent_changed());
    for (i = 0; i < count; i++) give_answer(addresses[i], numbers[i]);
    free(addresses);
    free(numbers);
}

static void look_up_all(int on_tables)
{
    static slice addresses, answers;
    uint32_t base = take32(), base_length = take32(), count = take32(), room = take32(), returned, number, *a, *r;
    const rk_tables t = tables(base, base_length);
    size_t i;
    set_up(&addresses, 4 * (size_t)count, 0);
    set_up(&answers, 4 * (size_t)room, 0);
    for (i = 0; i < count; i++) { number = take32(); memcpy(addresses.start + 4 * i, &number, 4); }
    memset(answers.start, 0xEE, answers.bytes);
    lent_before();
    before_call(&addresses);
    a = (uint32_t *)(void *)addresses.start;
    r = (uint32_t *)(void *)answers.start;
    returned = on_tables ? rk_tables_look_up_all(&t, a, count, r, room)
                         : rk_look_up_all(FIRST, LONG, base, base_length, a, count, r, room);
    give16(lent_guards() | (uint32_t)guards_broken(&addresses) << 7 | (uint32_t)guards_broken(&answers) << 8);
    give16(lent_changed() | (uint32_t)changed(&addresses) << 7);
    give32(returned);
    for (i = 0; i < room; i++) { memcpy(&number, answers.start + 4 * i, 4); give_answer(i < count ? a[i] : 0, number); }
}

static void read_record(void)
{
    static slice record;
    uint32_t expected = take32(), bytes = take32();
    rk_reading reading;
    set_up(&record, bytes, 0);
    take(record.start, bytes);
    before_call(&record);
    lent_before();
    reading = rk_read_record(record.start, bytes, expected);
    give16(lent_guards() | (uint32_t)guards_broken(&record) << 7);
    give16(lent_changed() | (uint32_t)changed(&record) << 7);
    give32(reading.code);
    give8(reading.update.kind);
    give32(reading.update.serial);
    give32(reading.update.address);
    give8(reading.update.length);
    give16(reading.update.hop);
}

static void write_record(void)
{
    static slice room;
    rk_update update = take_update();
    uint32_t bytes = take32(), code;
    set_up(&room, bytes, 0);
    take(room.start, bytes);
    lent_before();
    code = rk_write_record(room.start, bytes, update);
    give16(lent_guards() | (uint32_t)guards_broken(&room) << 7);
    give16(lent_changed());
    give32(code);
    give(room.start, bytes);
}

static void clear_octets(void)
{
    uint32_t code;
    lent_before();
    code = rk_clear_octets(FLOWN);
    give16(lent_guards());
    give16(changed_but(OCTETS));
    give32(code);
    give_octets();
}

static void book(int on_tables)
{
    uint32_t base = take32(), base_length = take32(), address = take32(), code;
    uint64_t amount = take64();
    const rk_tables t = tables(base, base_length);
    lent_before();
    code = on_tables ? rk_tables_book(&t, FLOWN, address, amount)
                     : rk_book(FIRST, LONG, FLOWN, base, base_length, address, amount);
    give16(lent_guards());
    give16(changed_but(OCTETS));
    give32(code);
    give_octets();
}

static void book_all(int on_tables)
{
    static slice addresses, amounts, codes;
    uint32_t base = take32(), base_length = take32(), shift[3], count[3], returned, *a, *c;
    uint64_t *m;
    const rk_tables t = tables(base, base_length);
    int k;
    for (k = 0; k < 3; k++) shift[k] = take8();
    for (k = 0; k < 3; k++) count[k] = take32();
    set_up(&addresses, 4 * (size_t)count[0], shift[0]);
    set_up(&amounts, 8 * (size_t)count[1], shift[1]);
    set_up(&codes, 4 * (size_t)count[2], shift[2]);
    take(addresses.start, addresses.bytes);
    take(amounts.start, amounts.bytes);
    memset(codes.start, 0xEE, codes.bytes);
    lent_before();
    before_call(&addresses);
    before_call(&amounts);
    a = (uint32_t *)(void *)addresses.start;
    m = (uint64_t *)(void *)amounts.start;
    c = (uint32_t *)(void *)codes.start;
    returned = on_tables ? rk_tables_book_all(&t, FLOWN, a, count[0], m, count[1], c, count[2])
                         : rk_book_all(FIRST, LONG, FLOWN, base, base_length, a, count[0], m, count[1], c, count[2]);
    give16(lent_guards() | (uint32_t)guards_broken(&addresses) << 7 | (uint32_t)guards_broken(&amounts) << 8
           | (uint32_t)guards_broken(&codes) << 9);
    give16(changed_but(OCTETS) | (uint32_t)changed(&addresses) << 7 | (uint32_t)changed(&amounts) << 8);
    give32(returned);
    give_octets();
    give(codes.start, codes.bytes);
}

static void cost_lines(void)
{
    uint32_t count = take32(), i;
    uint32_t *hops = memory(4 * (size_t)count);
    rk_line *lines = memory(sizeof *lines * (size_t)count);
    for (i = 0; i < count; i++) hops[i] = take32();
    lent_before();
    for (i = 0; i < count; i++) lines[i] = rk_cost_line(FLOWN, PAID, hops[i]);
    give16(lent_guards());
    give16(lent_changed());
    for (i = 0; i < count; i++) {
        give32(lines[i].code);
        give32(lines[i].traffic);
        give(&lines[i].rate, 8);
    }
    free(hops);
    free(lines);
}

static void cost_sheet(void)
{
    uint32_t code;
    lent_before();
    code = rk_cost_sheet(FLOWN, PAID, HOPS);
    give16(lent_guards());
    give16(changed_but(SHEET));
    give32(code);
    give(lent[SHEET].start, lent[SHEET].bytes);
}

int main(void)
{
    int k, command;
    for (k = 0; k < SLICES; k++) set_up(&lent[k], 0, 0);
    while ((command = getchar()) != EOF && command != 'Q') {
        switch (command) {
        case 'M': lend(); continue;
        case 'C': case 'A': case 'W': case 'H':
        case 'c': case 'a': case 'w': case 'h': update((char)command); break;
        case 'u': update_of_a_record(); break;
        case 'L': case 'l': look_up(command == 'l'); break;
        case 'V': case 'v': look_up_all(command == 'v'); break;
        case 'R': read_record(); break;
        case 'P': write_record(); break;
        case 'D': show(); break;
        case 'Z': clear_octets(); break;
        case 'B': case 'b': book(command == 'b'); break;
        case 'K': case 'k': book_all(command == 'k'); break;
        case 'I': cost_lines(); break;
        case 'S': cost_sheet(); break;
        default: fprintf(stderr, "driver: no command %d\n", command); return 2;
        }
        fflush(stdout);
    }
    return 0;
}
