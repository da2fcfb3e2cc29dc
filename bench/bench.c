/* The bench: the library's calls beside plain C and DPDK's rte_lpm, as ratios of times taken in turn in one process. Words choose parts:
 * peer (the answers compared with DPDK's), look-up, costs (bookings and the cost sheet), tests, updates, hard; none means all of them. It
 * prints Markdown tables. With BEFORE another build of the library is in the process, each name with before_ in front. */
#define _GNU_SOURCE
#include <stdio.h>
#include <stdlib.h>
#include <string.h>
#include <sys/mman.h>
#include <time.h>
#include "plain.h"
#include "rakmolthi.h"
#ifdef DPDK
#include <rte_eal.h>
#include <rte_lpm.h>
#endif

#ifdef BEFORE
extern __typeof__(rk_look_up) before_rk_look_up;
extern __typeof__(rk_look_up_all) before_rk_look_up_all;
#endif

enum { BLOCKS = RK_FIRST_CELLS(0), RULES = RK_MOST_RULES, ROUNDS = 11 };
static const int sizes[] = {1000, 10000, 60000};

static double now(void) {
    struct timespec t;
    clock_gettime(CLOCK_MONOTONIC, &t);
    return t.tv_sec * 1e9 + t.tv_nsec;
}

static uint64_t seed;
static uint32_t rnd(void) {
    seed ^= seed << 13, seed ^= seed >> 7, seed ^= seed << 17;
    return seed >> 24;
}

static void fail(const char *what) {
    printf("ERROR: %s\n", what);
    exit(1);
}

/* Memory for a table, on 2 MB pages or on the usual small ones: for random reads that choice counts for more than the code does. */
static void *room(size_t bytes, int huge) {
    void *p = aligned_alloc(1 << 21, (bytes + (1 << 21) - 1) >> 21 << 21);
    if (!p) fail("no memory");
    madvise(p, bytes, huge ? MADV_HUGEPAGE : MADV_NOHUGEPAGE);
    return memset(p, 0, bytes);
}

/* ---- figures ---- */

static int by_value(const void *p, const void *q) {
    double x = *(const double *)p, y = *(const double *)q;
    return x < y ? -1 : x > y;
}

static double median(const double *values) {
    double sorted[ROUNDS];
    memcpy(sorted, values, sizeof sorted);
    qsort(sorted, ROUNDS, sizeof *sorted, by_value);
    return sorted[ROUNDS / 2];
}

static const char *time_text(double ns) {
    static char texts[8][32];
    static int k;
    char *s = texts[k++ % 8];
    if (ns < 1e3) sprintf(s, "%.1f ns", ns);
    else if (ns < 1e6) sprintf(s, "%.1f us", ns / 1e3);
    else sprintf(s, "%.1f ms", ns / 1e6);
    return s;
}

static void heading(const char *title, const char *counted) {
    printf("\n%s\n\n| call | %s | against | times | ratio | lowest..highest | bound | met |\n", title, counted);
    printf("|---|---|---|---|---|---|---|---|\n");
}

/* One row: the ratio of two series of times, round by round. A bound of 0 is none: the row is for information. */
static void row(const char *call, int counted, const char *against, const double *ours, const double *theirs, double bound) {
    double q[ROUNDS], low = 1e99, high = 0;
    for (int r = 0; r < ROUNDS; r++) {
        q[r] = ours[r] / theirs[r];
        if (q[r] < low) low = q[r];
        if (q[r] > high) high = q[r];
    }
    printf("| %s | %d | %s | %s, %s |", call, counted, against, time_text(median(ours)), time_text(median(theirs)));
    printf(" %.2f | %.2f..%.2f |", median(q), low, high);
    if (bound) printf(" %.2f | %s |\n", bound, median(q) <= bound ? "yes" : "NO");
    else printf(" | |\n");
    fflush(stdout);
}

/* ---- lent memory, and rules announced into it ---- */

struct memory {
    uint32_t *first, *lng, *owners;
    uint64_t *rules;
    size_t segments;
};

static struct memory lend(size_t segments) {
    struct memory m = {room(4ul * BLOCKS, 0), room(1024 * segments + 4, 0), room(4 * segments + 4, 0), room(8ul * RULES, 0), segments};
    if (rk_clear(m.first, BLOCKS, m.lng, 256 * segments, m.owners, segments, m.rules, RULES, 0, 0)) fail("clear");
    return m;
}

static void give_back(struct memory m) { free(m.first), free(m.lng), free(m.owners), free(m.rules); }

/* `words` of the rule words are lent: all, or just the live ones so that the list is full. */
static uint32_t announce(struct memory m, size_t words, uint32_t address, uint32_t length, uint32_t hop) {
    return rk_announce(m.first, BLOCKS, m.lng, 256 * m.segments, m.owners, m.segments, m.rules, words, 0, 0, address, length, hop).code;
}
static uint32_t withdraw(struct memory m, size_t words, uint32_t address, uint32_t length) {
    return rk_withdraw(m.first, BLOCKS, m.lng, 256 * m.segments, m.owners, m.segments, m.rules, words, 0, 0, address, length).code;
}

#ifdef DPDK
static struct rte_lpm *peer;
static void new_peer(void) {
    struct rte_lpm_config config = {.max_rules = 100000, .number_tbl8s = 32768};
    if (peer) rte_lpm_free(peer);
    if (!(peer = rte_lpm_create("bench", 0, &config))) fail("rte_lpm_create");
}
static int peer_add(uint32_t address, uint32_t length, uint32_t hop) { return rte_lpm_add(peer, address, length, hop); }
static int peer_delete(uint32_t address, uint32_t length) { return rte_lpm_delete(peer, address, length); }
/* No call of rte_lpm tells the length of the prefix that won, but its entries hold it; that of a group has its number for the hop. */
static uint32_t peer_length(uint32_t address) {
    struct rte_lpm_tbl_entry entry = peer->tbl24[address >> 8];
    return entry.valid_group ? peer->tbl8[entry.next_hop * 256 + address % 256].depth : entry.depth;
}
#else
static void new_peer(void) {}
static int peer_add(uint32_t address, uint32_t length, uint32_t hop) { return (void)address, (void)length, (void)hop, 0; }
#endif

/* More random rules, until `count` are live: every tenth longer than 24 if `longer`, and those in `spread` blocks at most (0: anywhere). */
static void grow(struct memory m, size_t count, int longer, int spread) {
    static uint32_t blocks[1024];
    static int chosen;
    for (; chosen < 1024; chosen++) blocks[chosen] = rnd() & 0xffffff00u;
    for (int i = 0; !m.rules[count - 1]; i++) {
        uint32_t length = 13 + rnd() % 12, address = rnd(), hop = 1 + rnd() % 32767;
        if (longer && i % 10 == 0) {
            length = 25 + rnd() % 8;
            if (spread) address = blocks[rnd() % spread] + rnd() % 256;
        }
        address = RK_CUT(address, length);
        if (announce(m, RULES, address, length, hop)) fail("announce");
        if (peer_add(address, length, hop)) fail("rte_lpm_add");
    }
}

/* ---- the answers beside DPDK's ---- */

#ifdef DPDK
/* Random lists with prefixes of every length that rte_lpm takes, 1 to 32, announced and withdrawn; then random addresses and addresses at
 * the edges of the prefixes. */
static void compare_with_peer(void) {
    enum { LISTS = 8, STEPS = 3000, ADDRESSES = 1 << 19 };
    static struct { uint32_t address, length; } seen[STEPS];
    uint32_t *addresses = malloc(4 * ADDRESSES), *answers = malloc(4 * ADDRESSES);
    struct memory m = lend(4096);
    size_t compared = 0, routed = 0, withdrawn = 0;
    for (int list = 0; list < LISTS; list++) {
        rk_clear(m.first, BLOCKS, m.lng, 256 * m.segments, m.owners, m.segments, m.rules, RULES, 0, 0);
        new_peer();
        for (int i = 0; i < STEPS; i++) {
            /* A third lie near an earlier one, so that prefixes nest; the shortest are few, since each paints half the table. */
            uint32_t length = i % 50 == 0 ? 1 + rnd() % 10 : 11 + rnd() % 22, hop = 1 + rnd() % 32767;
            uint32_t near = i && rnd() % 3 == 0 ? seen[rnd() % i].address ^ rnd() % 1024 : rnd();
            seen[i].address = RK_CUT(near, length), seen[i].length = length;
            if (announce(m, RULES, seen[i].address, length, hop)) fail("announce");
            if (peer_add(seen[i].address, length, hop)) fail("rte_lpm_add");
            if (i % 3 == 0) {
                int k = rnd() % (i + 1);
                uint32_t code = withdraw(m, RULES, seen[k].address, seen[k].length);
                int answer = peer_delete(seen[k].address, seen[k].length);
                if ((code == RK_OK) != (answer == 0) || (code != RK_OK && code != RK_NOT_LIVE)) fail("withdraw and rte_lpm_delete differ");
                withdrawn += code == RK_OK;
            }
        }
        for (int i = 0; i < ADDRESSES; i++) {
            int k = rnd() % STEPS;
            uint32_t last = seen[k].address + (uint32_t)((1ull << (32 - seen[k].length)) - 1);
            addresses[i] = i % 2 ? rnd() : rnd() % 2 ? last + rnd() % 3 - 1 : seen[k].address + rnd() % 3 - 1;
        }
        if (rk_look_up_all(m.first, BLOCKS, m.lng, 256 * m.segments, 0, 0, addresses, ADDRESSES, answers, ADDRESSES)) fail("look up");
        for (int i = 0; i < ADDRESSES; i++) {
            uint32_t hop, code = rte_lpm_lookup(peer, addresses[i], &hop) == 0 ? RK_OK : RK_NO_ROUTE;
            uint32_t one = rk_look_up((uint8_t *)m.first, 4ul * BLOCKS, (uint8_t *)m.lng, 1024 * m.segments, 0, 0, addresses[i]);
            if (answers[i] != one) fail("rk_look_up_all differs from rk_look_up");
            if (RK_CODE(one) != code || RK_HOP(one) != (code == RK_OK ? hop : 0)) fail("an answer differs from rte_lpm_lookup's");
            if (RK_LENGTH(one) != (code == RK_OK ? peer_length(addresses[i]) : 0)) fail("a length differs from rte_lpm's");
            compared++, routed += code == RK_OK;
        }
    }
    printf("\nThe same answers as rte_lpm: %zu addresses (%.0f%% routed) on %d random lists", compared, 100.0 * routed / compared, LISTS);
    printf(" of %d announcements, %zu withdrawals.\n", STEPS, withdrawn);
    fflush(stdout);
    give_back(m), free(addresses), free(answers);
}
#endif

/* ---- look up ---- */

enum { ADDRESSES = 1 << 22, TURN = 1 << 18, CALL = 1024, SEGMENTS = 8192 };
enum { PLAIN_ONE, RK_ONE, BEFORE_ONE, PLAIN_ALL, RK_ALL, BEFORE_ALL, PEER_ONE, PEER_ALL, WAYS };
static uint32_t *first, *lng;
#ifdef DPDK
static struct rte_lpm *mirror; /* its first table is `first`, its second `lng` */
#endif

/* Each way of looking CALL addresses up. */
typedef void way(const uint32_t *, uint32_t *);
static void plain_one(const uint32_t *a, uint32_t *r) {
    for (int i = 0; i < CALL; i++) r[i] = plain_look_up((uint8_t *)first, 4ul * BLOCKS, (uint8_t *)lng, 1024ul * SEGMENTS, 0, 0, a[i]);
}
static void rk_one(const uint32_t *a, uint32_t *r) {
    for (int i = 0; i < CALL; i++) r[i] = rk_look_up((uint8_t *)first, 4ul * BLOCKS, (uint8_t *)lng, 1024ul * SEGMENTS, 0, 0, a[i]);
}
static void plain_all(const uint32_t *a, uint32_t *r) { plain_look_up_all(first, lng, a, r, CALL); }
static void rk_all(const uint32_t *a, uint32_t *r) {
    if (rk_look_up_all(first, BLOCKS, lng, 256 * SEGMENTS, 0, 0, a, CALL, r, CALL)) fail("look up");
}
#ifdef BEFORE
static void before_one(const uint32_t *a, uint32_t *r) {
    for (int i = 0; i < CALL; i++)
        r[i] = before_rk_look_up((uint8_t *)first, 4ul * BLOCKS, (uint8_t *)lng, 1024ul * SEGMENTS, 0, 0, a[i]);
}
static void before_all(const uint32_t *a, uint32_t *r) {
    if (before_rk_look_up_all(first, BLOCKS, lng, 256 * SEGMENTS, 0, 0, a, CALL, r, CALL)) fail("look up before");
}
#endif
#ifdef DPDK
/* As rk_look_up answers, but with length 0. */
static void peer_one(const uint32_t *a, uint32_t *r) {
    for (int i = 0; i < CALL; i++) r[i] = rte_lpm_lookup(mirror, a[i], &r[i]) ? (uint32_t)RK_NO_ROUTE << 22 : r[i];
}
static int same_hops(const uint32_t *ours, const uint32_t *theirs) {
    int i = 0;
    while (i < CALL && RK_CODE(ours[i]) == RK_CODE(theirs[i]) && RK_HOP(ours[i]) == RK_HOP(theirs[i])) i++;
    return i == CALL;
}
static void peer_all(const uint32_t *a, uint32_t *r) { rte_lpm_lookup_bulk(mirror, a, r, CALL); }
#endif

/* All ways read the same memory, into which the tables of one kind are copied before its turns: so nobody has the better pages. */
static void load(const uint32_t *first_from, const uint32_t *long_from) {
    memcpy(first, first_from, 4ul * BLOCKS), memcpy(lng, long_from, 1024ul * SEGMENTS);
}

/* A round of the ways that read the tables as they are loaded. They have the addresses in short turns, each way once a turn, so that what else
 * the machine does meets all alike. Before a turn the first way has its addresses uncounted: else it alone would wait for memory where the
 * others find a cache filled. */
static void time_round(way *const *ways, int from, int to, const uint32_t *addresses, double (*t)[ROUNDS], int r) {
    uint32_t answers[CALL];
    for (int k = from; k < to; k++) t[k][r] = 0;
    for (int at = 0; at < ADDRESSES; at += TURN) {
        for (int i = at; i < at + TURN; i += CALL) ways[from](addresses + i, answers);
        for (int j = from; j < to; j++) {
            int k = at / TURN % 2 ? to - 1 - (j - from) : j;
            if (!ways[k]) continue;
            double start = now();
            for (int i = at; i < at + TURN; i += CALL) ways[k](addresses + i, answers);
            t[k][r] += (now() - start) / ADDRESSES;
        }
    }
}

static void time_ways(struct memory m, int rules, int huge, const uint32_t *addresses) {
    static way *const ways[WAYS] = {
        [PLAIN_ONE] = plain_one, [RK_ONE] = rk_one, [PLAIN_ALL] = plain_all, [RK_ALL] = rk_all,
#ifdef BEFORE
        [BEFORE_ONE] = before_one, [BEFORE_ALL] = before_all,
#endif
#ifdef DPDK
        [PEER_ONE] = peer_one, [PEER_ALL] = peer_all,
#endif
    };
    static double t[WAYS][ROUNDS];
    uint32_t answers[CALL], wanted[CALL];
#ifdef DPDK
    mirror = room(sizeof *mirror, huge), first = (uint32_t *)mirror->tbl24;
    lng = room(1024ul * SEGMENTS, huge), mirror->tbl8 = (struct rte_lpm_tbl_entry *)lng;
    uint32_t *theirs = malloc(4ul * ADDRESSES);
    load((uint32_t *)peer->tbl24, (uint32_t *)peer->tbl8);
    for (int i = 0; i < ADDRESSES; i += CALL) peer_one(addresses + i, theirs + i);
#else
    first = room(4ul * BLOCKS, huge), lng = room(1024ul * SEGMENTS, huge);
#endif
    load(m.first, m.lng);
    for (int i = 0; i < ADDRESSES; i += CALL) {
        plain_one(addresses + i, wanted);
#ifdef DPDK
        if (!same_hops(wanted, theirs + i)) fail("an answer differs from rte_lpm_lookup's");
#endif
        rk_one(addresses + i, answers);
        if (memcmp(wanted, answers, sizeof wanted)) fail("rk_look_up differs from plain C");
        rk_all(addresses + i, answers);
        if (memcmp(wanted, answers, sizeof wanted)) fail("rk_look_up_all differs from plain C");
    }
    for (int r = 0; r < ROUNDS; r++) {
        load(m.first, m.lng);
        time_round(ways, PLAIN_ONE, PEER_ONE, addresses, t, r);
#ifdef DPDK
        load((uint32_t *)peer->tbl24, (uint32_t *)peer->tbl8);
        time_round(ways, PEER_ONE, WAYS, addresses, t, r);
#endif
    }
    const char *one = huge ? "rk_look_up, 2 MB pages" : "rk_look_up, 4 KB pages";
    const char *all = huge ? "rk_look_up_all, 2 MB pages" : "rk_look_up_all, 4 KB pages";
    row(one, rules, "plain C, same tests", t[RK_ONE], t[PLAIN_ONE], 1.25);
    if (ways[BEFORE_ONE]) row(one, rules, "before", t[RK_ONE], t[BEFORE_ONE], 1.03);
    if (ways[PEER_ONE]) row(one, rules, "rte_lpm_lookup", t[RK_ONE], t[PEER_ONE], 0);
    if (ways[PEER_ALL]) row(all, rules, "rte_lpm_lookup_bulk", t[RK_ALL], t[PEER_ALL], 1.25);
    if (ways[BEFORE_ALL]) row(all, rules, "before", t[RK_ALL], t[BEFORE_ALL], 1.03);
    row(all, rules, "plain C, no tests", t[RK_ALL], t[PLAIN_ALL], 0);
    free(lng);
#ifdef DPDK
    free(mirror), free(theirs);
#else
    free(first);
#endif
}

static void time_look_up(void) {
    uint32_t *addresses = malloc(4ul * ADDRESSES);
    for (int i = 0; i < ADDRESSES; i++) addresses[i] = rnd();
    struct memory m = lend(SEGMENTS);
    new_peer();
    heading("Look up: random addresses, a time for each address; 1,024 addresses in each call of rk_look_up_all and rte_lpm_lookup_bulk.",
            "rules");
    for (int k = 0; k < 3; k++) {
        grow(m, sizes[k], 1, 0);
        for (int huge = 0; huge < 2; huge++) time_ways(m, sizes[k], huge, addresses);
    }
    give_back(m), free(addresses);
}

/* ---- bookings and the cost sheet ---- */

/* Each way of booking CALL flows into the same words. */
enum { FLOWS = 1 << 20 };
static uint64_t *words;
typedef void booking(const uint32_t *, const uint64_t *);
static void rk_booked(const uint32_t *a, const uint64_t *amounts) {
    uint32_t codes[CALL];
    if (rk_book_all(first, BLOCKS, lng, 256 * SEGMENTS, words, RK_WORDS, 0, 0, a, CALL, amounts, CALL, codes, CALL)) fail("book");
}
static void looked_up_and_added(const uint32_t *a, const uint64_t *amounts) {
    uint32_t answers[CALL];
    rk_all(a, answers);
    plain_add(answers, amounts, words, CALL);
}

static void time_bookings(struct memory m, int rules, int huge, const uint32_t *addresses, const uint64_t *amounts) {
    static booking *const ways[2] = {rk_booked, looked_up_and_added};
    static double t[2][ROUNDS];
    static uint64_t wanted[RK_WORDS];
    first = room(4ul * BLOCKS, huge), lng = room(1024ul * SEGMENTS, huge), words = room(8ul * RK_WORDS, huge);
    load(m.first, m.lng);
    for (int r = 0; r < ROUNDS; r++)
        for (int k = 0; k < 2; k++) {
            if (rk_clear_octets(words, RK_WORDS)) fail("clear the octets");
            for (int i = 0; i < FLOWS; i += CALL) ways[k](addresses + i, amounts + i);
            double start = now();
            for (int i = 0; i < FLOWS; i += CALL) ways[k](addresses + i, amounts + i);
            t[k][r] = (now() - start) / FLOWS;
            /* No record is refused, so the words are the same for all. */
            if (r == 0 && k == 0) memcpy(wanted, words, sizeof wanted);
            if (memcmp(wanted, words, sizeof wanted)) fail("rk_book_all differs from look up and plain additions");
        }
    uint64_t sum = 0, all = 0;
    for (int h = 0; h < RK_WORDS; h++) sum += words[h];
    for (int i = 0; i < FLOWS; i++) all += 2 * amounts[i];
    if (sum != all) fail("the words do not sum to the octets of the records");
    row(huge ? "rk_book_all, 2 MB pages" : "rk_book_all, 4 KB pages", rules, "rk_look_up_all, then plain C additions", t[0], t[1], 1.5);
    free(first), free(lng), free(words);
}

static uint64_t below(uint64_t end) { return ((uint64_t)rnd() << 32 | rnd()) % end; }

static void draw_lines(int kind, uint64_t *octets, uint64_t *cents) {
    for (int h = 0; h < RK_WORDS; h++) {
        octets[h] = 1 + below(1000000000000), cents[h] = below(100000000);
        if (kind == 1) octets[h] *= rnd() % 3 != 0, cents[h] *= rnd() % 3 != 0;
        if (kind == 2) octets[h] = 1 + rnd() % 8, cents[h] = rnd() % 8;
        if (kind == 3) octets[h] = 1000, cents[h] = RK_WORDS - h;
        if (kind == 4) octets[h] = 1000, cents[h] = h;
        if (kind == 5) octets[h] = 1000, cents[h] = 2 * RK_WORDS - h % 128 * 256 - h / 128;
        if (kind == 6 && h % 655 != 1) octets[h] = cents[h] = 0;
    }
    cents[0] = UINT64_MAX; /* not read */
}

static void time_sheets(void) {
    static const char *const kinds[] = {"rk_cost_sheet, random lines", "rk_cost_sheet, a third without octets, a third without cents",
                                        "rk_cost_sheet, many equal rates", "rk_cost_sheet, in order", "rk_cost_sheet, in opposite order",
                                        "rk_cost_sheet, falling 128 at a time", "rk_cost_sheet, 51 live lines"};
    enum { TURNS = 4 };
    static uint64_t octets[RK_WORDS], cents[RK_WORDS];
    static uint32_t ours[RK_HOPS], theirs[RK_HOPS];
    static double t[3][ROUNDS];
    for (int kind = 0; kind < 7; kind++) {
        for (int r = -1; r < ROUNDS; r++) {
            double sum[3] = {0};
            for (int i = 0; i < TURNS; i++) {
                draw_lines(kind, octets, cents);
                double a = now();
                if (rk_cost_sheet(octets, RK_WORDS, cents, RK_WORDS, ours, RK_HOPS)) fail("cost sheet");
                double b = now();
                plain_sheet(octets, cents, theirs);
                double c = now();
                if (memcmp(ours, theirs, sizeof ours)) fail("rk_cost_sheet differs from qsort");
                double d = now();
                plain_sheet_of_lines(octets, cents, theirs);
                double e = now();
                if (memcmp(ours, theirs, sizeof ours)) fail("rk_cost_sheet differs from qsort of lines");
                sum[0] += b - a, sum[1] += c - b, sum[2] += e - d;
            }
            if (r >= 0)
                for (int k = 0; k < 3; k++) t[k][r] = sum[k] / TURNS;
        }
        row(kinds[kind], RK_HOPS, "qsort, same comparison", t[0], t[1], kind == 6 ? 0 : 3);
        if (kind == 0) row(kinds[kind], RK_HOPS, "qsort of lines divided before", t[0], t[2], 0);
    }
}

static void time_costs(void) {
    heading("The cost sheet: a time for each sheet.", "lines");
    time_sheets();
    uint32_t *addresses = malloc(4ul * FLOWS);
    uint64_t *amounts = malloc(8ul * FLOWS);
    for (int i = 0; i < FLOWS; i++) addresses[i] = rnd(), amounts[i] = rnd() % 1000000;
    struct memory m = lend(SEGMENTS);
    new_peer();
    heading("Bookings: flows of random addresses, 1,024 in each call, a time for each flow.", "rules");
    for (int k = 0; k < 3; k++) {
        grow(m, sizes[k], 1, 0);
        for (int huge = 0; huge < 2; huge++) time_bookings(m, sizes[k], huge, addresses, amounts);
    }
    give_back(m), free(addresses), free(amounts);
}

/* ---- the tests of an update ---- */

/* The form test, through a withdrawal that is refused next: a /32 that is not live, in a closed block; one cell and a search are on top. */
static double time_form(struct memory m, int turns) {
    uint32_t block = 0;
    while (m.first[block] >= POINTER) block++;
    double start = now();
    for (int i = 0; i < turns; i++)
        if (withdraw(m, RULES, block * 256 + 77, 32) != RK_NOT_LIVE) fail("withdraw");
    return (now() - start) / turns;
}
static double time_plain_form(struct memory m, int turns) {
    double start = now();
    for (int i = 0; i < turns; i++)
        if (plain_form(m.rules, RULES, 0, 0) == SIZE_MAX) fail("form");
    return (now() - start) / turns;
}

static void time_tests(void) {
    static const int counts[] = {1000, 10000, 60000, RULES};
    static double ours[ROUNDS], plain[ROUNDS];
    struct memory m = lend(1024);
    new_peer();
    heading("The tests of an update, 65,536 rule words, 2^24 closed blocks.", "rules");
    for (int k = 0; k < 4; k++) {
        grow(m, counts[k], 0, 0);
        for (int r = -1; r < ROUNDS; r++) {
            double a = time_form(m, 64), b = time_plain_form(m, 64);
            if (r >= 0) ours[r] = a, plain[r] = b;
        }
        row("form test", counts[k], "plain C form loop", ours, plain, 3);
        /* Just the live words are lent, so the list is full, and /0 is refused with 6 once all cells were tested. */
        for (int r = -1; r < ROUNDS; r++) {
            double start = now();
            if (announce(m, counts[k], 0, 0, 1) != RK_NO_RULE_WORD) fail("announce");
            double a = now() - start;
            start = now();
            if (!plain_clean(m.first, BLOCKS)) fail("clean");
            double b = now() - start;
            if (r >= 0) ours[r] = a, plain[r] = b;
        }
        row("damage test (and form test)", counts[k], "plain C pass over the cells", ours, plain, 3);
    }
    give_back(m);
}

/* ---- updates ---- */

static void time_default_route(struct memory m, int rules, const char *over) {
    static double t[6][ROUNDS];
    uint32_t *copy = malloc(4ul * BLOCKS), *long_copy = malloc(1024 * m.segments);
    for (int r = -1; r < ROUNDS; r++) {
        double s[7];
        s[0] = now();
        if (announce(m, RULES, 0, 0, 9)) fail("announce");
        s[1] = now();
        if (r < 0) memcpy(copy, m.first, 4ul * BLOCKS), memcpy(long_copy, m.lng, 1024 * m.segments);
        double before = now();
        if (withdraw(m, RULES, 0, 0)) fail("withdraw");
        s[2] = now();
        plain_paint(m.first, BLOCKS, m.lng, 9 * 64, 0);
        s[3] = now();
        if (r < 0 && (memcmp(copy, m.first, 4ul * BLOCKS) || memcmp(long_copy, m.lng, 1024 * m.segments))) fail("plain C paints otherwise");
        double again = now();
        plain_unpaint(m.first, BLOCKS, m.lng, 0, 0);
        s[4] = now();
#ifdef DPDK
        if (peer_add(0, 1, 9) || peer_add(0x80000000u, 1, 9)) fail("rte_lpm_add");
        s[5] = now();
        if (peer_delete(0, 1) || peer_delete(0x80000000u, 1)) fail("rte_lpm_delete");
        s[6] = now();
#endif
        if (r < 0) continue;
        t[0][r] = s[1] - s[0], t[1][r] = s[2] - before, t[2][r] = s[3] - s[2], t[3][r] = s[4] - again;
#ifdef DPDK
        t[4][r] = s[5] - s[4], t[5][r] = s[6] - s[5];
#endif
    }
    char put[96], taken[96];
    sprintf(put, "announce 0.0.0.0/0%s", over), sprintf(taken, "withdraw 0.0.0.0/0%s", over);
    row(put, rules, "plain C repaint", t[0], t[2], 6);
    row(taken, rules, "plain C repaint", t[1], t[3], 3);
#ifdef DPDK
    row(put, rules, "rte_lpm_add of both /1", t[0], t[4], 0);
    row(taken, rules, "rte_lpm_delete of both /1", t[1], t[5], 0);
#endif
    free(copy), free(long_copy);
}

/* In each round the same /28s, each in a closed block: announced it opens a segment, withdrawn it closes that. */
static void time_long_prefix(struct memory m, int rules) {
    enum { TURNS = 64 };
    static double t[6][ROUNDS];
    for (int r = -1; r < ROUNDS; r++) {
        double sum[4] = {0};
        for (int i = 0; i < TURNS; i++) {
            uint32_t address = rnd() & 0xfffffff0u;
            while (m.first[address >> 8] >= POINTER) address += 256;
            double a = now();
            if (announce(m, RULES, address, 28, 9)) fail("announce");
            double b = now();
            if (withdraw(m, RULES, address, 28)) fail("withdraw");
            double c = now();
            sum[0] += b - a, sum[1] += c - b;
#ifdef DPDK
            a = now();
            if (peer_add(address, 28, 9)) fail("rte_lpm_add");
            b = now();
            if (peer_delete(address, 28)) fail("rte_lpm_delete");
            c = now();
            sum[2] += b - a, sum[3] += c - b;
#endif
        }
        double form = time_form(m, TURNS), plain = time_plain_form(m, TURNS);
        if (r < 0) continue;
        for (int k = 0; k < 4; k++) t[k][r] = sum[k] / TURNS;
        t[4][r] = form, t[5][r] = plain;
    }
    row("announce a /28", rules, "form test of the library", t[0], t[4], 3);
    row("withdraw a /28", rules, "form test of the library", t[1], t[4], 3);
    row("announce a /28", rules, "plain C form loop", t[0], t[5], 0);
    row("withdraw a /28", rules, "plain C form loop", t[1], t[5], 0);
#ifdef DPDK
    row("announce a /28", rules, "rte_lpm_add", t[0], t[2], 0);
    row("withdraw a /28", rules, "rte_lpm_delete", t[1], t[3], 0);
#endif
}

static void time_updates(void) {
    static const int counts[] = {1000, 10000, 60000, RULES - 1};
    struct memory m = lend(1024);
    new_peer();
    heading("Updates, 1,024 segments, 65,536 rule words; the rules beside the prefix are counted.", "rules");
    int open[4] = {0};
    for (int k = 0; k < 4; k++) {
        grow(m, counts[k], 1, 1000);
        for (size_t i = 0; i < m.segments; i++) open[k] += m.owners[i] != 0;
        time_default_route(m, counts[k], "");
        time_long_prefix(m, counts[k]);
    }
    printf("\nOpen segments: %d, %d, %d, %d.\n", open[0], open[1], open[2], open[3]);
    give_back(m);
}

/* Lists that make a withdrawal of /0 work as much as can be: each rule ends a run of cells that the /0 decides. In the first five, a search
 * from the end of each run would climb over the rules on its left, one step for each bit of the address that is 1 with a rule on its 0
 * side; in the others, runs are short, rules stand inside others, and several end together. */
static void hard_rule(struct memory m, uint32_t address, uint32_t length) {
    if (announce(m, RULES, address, length, 7) || peer_add(address, length, 7)) fail("announce");
}
static void spread_out(struct memory m) {
    for (uint32_t k = 0; k < RULES - 1; k++) hard_rule(m, k << 16, 24);
}
static void at_random(struct memory m) {
    while (!m.rules[RULES - 2]) hard_rule(m, rnd() & 0xffffff00u, 24);
}
static void many_ones(struct memory m) {
    for (uint32_t k = 0; k < 1u << 23; k++)
        if (__builtin_popcount(k) >= 18) hard_rule(m, k << 9, 24);
}
static void many_ones_long(struct memory m) {
    /* In up to 1,023 blocks of at most three zeros. Chance picks some of the rules, so that no processor learns the climbs. */
    int blocks = 0;
    for (uint32_t b = 0; b < BLOCKS && blocks < 1023; b++) {
        int zeros = 24 - __builtin_popcount(b);
        if (zeros > 3 || (zeros == 3 && rnd() % 64 > 22)) continue;
        blocks++;
        for (uint32_t k = 0; k < 128 && !m.rules[RULES - 2]; k++)
            if (__builtin_popcount(k) + rnd() % 3 >= 5) hard_rule(m, b * 256 + 2 * k, 32);
    }
}

/* With no bound on the segments the climbs can be longer still: addresses of at most five zeros in their first 31 bits. */
static void more_ones(struct memory m) {
    for (uint32_t k = 0; k < 1u << 31; k++) {
        int zeros = 31 - __builtin_popcount(k);
        if (zeros > 5 || (zeros == 5 && rnd() % 100 > 15) || m.rules[RULES - 2]) continue;
        hard_rule(m, 2 * k, 32);
    }
}

static void pairs(struct memory m) {
    for (uint32_t k = 0; k < RULES / 2 - 1; k++) hard_rule(m, (k << 17) + 1, 32), hard_rule(m, (k << 17) + 3, 32);
}
static void covered_pairs(struct memory m) {
    for (uint32_t k = 0; k < RULES / 2 - 1; k++) hard_rule(m, k << 17, 16), hard_rule(m, (k << 17) + 0x8001, 32);
}
static void half_covered(struct memory m) {
    for (uint32_t k = 0; k < RULES / 2; k++) hard_rule(m, k << 17, 16);
    for (uint32_t k = 0; k < RULES / 2 - 1; k++) hard_rule(m, (k << 17) + 0x18001, 32);
}
static void chains(struct memory m) {
    for (uint32_t k = 0; k < RULES / 16 - 1; k++)
        for (uint32_t length = 17; length <= 32; length++) hard_rule(m, k << 20, length);
}
static void every_second(struct memory m) {
    for (uint32_t k = 0; k < RULES - 1; k++) hard_rule(m, k << 9, 24);
}

static void time_hard_lists(void) {
    static const struct { const char *name; void (*fill)(struct memory); size_t segments; } lists[] = {
        {", /24s spread out", spread_out, 1024},
        {", /24s at random", at_random, 1024},
        {", /24s of many ones", many_ones, 1024},
        {", /32s of many ones", many_ones_long, 1024},
        {", /32s of more ones, 32,768 segments", more_ones, 32768},
        {", /32s in pairs, 32,768 segments", pairs, 32768},
        {", /16s with a /32 in each, 32,768 segments", covered_pairs, 32768},
        {", every second /16, a /32 in each other, 32,768 segments", half_covered, 32768},
        {", a /17 to a /32 in one another, 32,768 segments", chains, 32768},
        {", every second block", every_second, 1024}};
    heading("The default route over lists made to be hard for withdraw.", "rules");
    for (size_t k = 0; k < sizeof lists / sizeof *lists; k++) {
        struct memory m = lend(lists[k].segments);
        new_peer();
        lists[k].fill(m);
        int count = 0;
        while (count < RULES && m.rules[count]) count++;
        time_default_route(m, count, lists[k].name);
        give_back(m);
    }
}

int main(int argc, char **argv) {
#ifdef DPDK
    char *eal[] = {"bench", "--no-huge", "--no-pci", "--no-shconf", "--no-telemetry", "-m", "512", "--log-level=1", NULL};
    if (rte_eal_init(8, eal) < 0) fail("rte_eal_init");
#endif
    static const struct { const char *name; void (*part)(void); } parts[] = {
#ifdef DPDK
        {"peer", compare_with_peer},
#endif
        {"look-up", time_look_up}, {"costs", time_costs}, {"tests", time_tests}, {"updates", time_updates}, {"hard", time_hard_lists}};
    for (size_t k = 0; k < sizeof parts / sizeof *parts; k++) {
        int wanted = argc == 1;
        for (int i = 1; i < argc; i++) wanted |= !strcmp(argv[i], parts[k].name);
        seed = 88172645463325252u; /* a part run alone has the lists that it has in a whole run */
        if (wanted) parts[k].part();
    }
    return 0;
}
