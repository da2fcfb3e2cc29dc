/*
 * The word sheet: the month's cost sheet from update records, flows and cents. Look-ups, sums for a hop, rates and their order are the
 * library's; what it is lent, what it is fed and how its answers look on paper is here.
 */
#include <stdlib.h>
#include <string.h>

#include "rakmolthi.h"
#include "tables.h"
#include "text.h"
#include "words.h"

static const char help[] =
    "rakmolthi sheet --territory PREFIX --updates FILE --flows FILE --cents FILE [--csv] [--all]\n"
    "\n"
    "Prints the cost sheet: for each upstream with cost or traffic its hop, its name, the octets that it carried, its cents, and its\n"
    "rate in cents for an octet, or the words `no traffic`. The dearest is first: those with cents and no octets, the most cents\n"
    "first; then those with octets, the highest rate first; a tie goes to the lower hop. Then come the octets with no route, the\n"
    "octets refused with each number, and the sum: every octet of the input is in one of the lines above it.\n"
    "\n"
    TABLES_HELP
    "  --flows FILE        the traffic: lines `address octets`\n"
    "  --cents FILE        the cost: lines `hop cents name`, a hop in one line only; the name may be left out, or be -\n"
    "  --csv               the header `hop,name,octets,cents,rate` and the same lines; `no traffic` stands in the cell, a rate has the\n"
    "                      17 digits that read back to the same double; the closing lines have - for the hop and `no route`,\n"
    "                      `refused 3` and the like, `sum` for the name; no cell is empty: what has nothing to say is -\n"
    "  --all               a line for each of the hops 1 to 32767, not only those with cost or traffic\n"
    "\n"
    "FILE - is standard input, for one of the three. In a line of text a comma does as well as a blank between two fields, and a name\n"
    "may hold both; blank lines and lines that begin with # are passed over. Octets are a whole number of up to 64 bits, cents one of\n"
    "up to 2^53, a hop is 1 to 32767. A hop with traffic and no line of cents has the name - and 0 cents.\n"
    "\n"
    "An update that the tables refuse changes nothing; how many were refused, by number, is said on standard error, and the run goes\n"
    "on. A flow is refused with 3 outside the territory, and with 30 where the octets of its hop would pass 2^53. A line that can't be\n"
    "read is named with its file and number, a record that can't be read with its place in the stream; then there is no sheet. A last\n"
    "line that does not end can't be read either: its file may be cut.\n"
    "Where standard error is a terminal and the flows are many, a line there tells how many were read.\n"
    "Exit status: 0 where all input was read and the sheet is printed whole; 1 where not; 2 for a wrong command line.\n"
    "\n"
    "Flows come out of nfdump with plain numbers (-N), no header and summary (-q), and of IPv4 alone:\n"
    "\n"
    "  nfdump -R DIRECTORY -q -N -o 'fmt:%da,%byt' ipv4 >flows.txt\n";

/* The flows of one call. */
enum { BATCH = 65536 };

/* 2^53: where there are more, a double may not hold the cents, and the library refuses them. */
#define CENTS_TOP (UINT64_C(1) << 53)

/* A progress line after so many batches, which is a million flows and some. */
enum { PROGRESS_BATCHES = 16 };

typedef struct {
    rk_tables tables;
    uint64_t *octets, *cents;
    uint32_t *hops;
    char **names;         /* by hop; null where the cents have no name for it */
    unsigned long *lines; /* by hop: its line of the cents, or 0 */
    sum carried, cost, refused[CODES];
    unsigned long refusals[CODES];
    text text;
    uint32_t addresses[BATCH], codes[BATCH];
    uint64_t amounts[BATCH];
    size_t count, batches;
} books;

static int lend(books *b) {
    b->octets = calloc(RK_WORDS, sizeof *b->octets), b->cents = calloc(RK_WORDS, sizeof *b->cents);
    b->hops = calloc(RK_HOPS, sizeof *b->hops), b->names = calloc(RK_WORDS, sizeof *b->names);
    b->lines = calloc(RK_WORDS, sizeof *b->lines);
    if (!b->octets || !b->cents || !b->hops || !b->names || !b->lines) return say("no memory");
    if (rk_clear_octets(b->octets, RK_WORDS) != RK_OK) return say("the memory lent has another size");
    return WHOLE;
}

static void give_back(books *b) {
    for (int hop = 0; b->names && hop < RK_WORDS; hop++) free(b->names[hop]);
    tables_give_back(&b->tables);
    free(b->octets), free(b->cents), free(b->hops), free(b->names), free(b->lines), free(b);
}

static int read_lines(books *b, const char *name, int (*take)(books *, char *)) {
    char *line;
    int got, status = text_open(&b->text, name);
    if (status != WHOLE) return status;
    while (status == WHOLE && (got = text_next(&b->text, &line)) != 0) status = got < 0 ? UNREAD : take(b, line);
    text_close(&b->text);
    return status;
}

static int book(books *b) {
    uint32_t answer = rk_tables_book_all(&b->tables, b->octets, RK_WORDS, b->addresses, b->count, b->amounts, b->count, b->codes, b->count);
    if (answer != RK_OK) return say("booking is refused with %u", (unsigned)answer);
    for (size_t i = 0; i < b->count; i++) {
        uint32_t code = b->codes[i];
        if (code >= CODES) return say("booking: the answer %u is unknown", (unsigned)code);
        sum_add(&b->carried, b->amounts[i]);
        if (code == RK_OK) continue;
        sum_add(&b->refused[code], b->amounts[i]);
        b->refusals[code]++;
    }
    b->count = 0;
    if (++b->batches % PROGRESS_BATCHES == 0) progress(b->text.name, b->text.number);
    return WHOLE;
}

static int take_flow(books *b, char *line) {
    int number;
    if (!take_address(&line, &b->addresses[b->count]))
        return say_line(&b->text, "there is no IPv4 address in front: " AN_ADDRESS);
    number = take_gap(&line) ? take_number(&line, &b->amounts[b->count]) : 0;
    if (number == 0) return say_line(&b->text, "there is no whole number of octets after the address");
    if (number < 0) return say_line(&b->text, "the octets are above 2^64 - 1");
    if (*line) return say_line(&b->text, "the octets are no whole number, or something follows them");
    return ++b->count < BATCH ? WHOLE : book(b);
}

static int read_flows(books *b, const char *name) {
    int status = read_lines(b, name, take_flow);
    if (status == WHOLE) status = book(b);
    progress_end();
    return status;
}

static int take_cents(books *b, char *line) {
    uint64_t hop, cents;
    int number = take_number(&line, &hop);
    if (number == 0) return say_line(&b->text, "there is no hop in front");
    if (number < 0 || hop < 1 || hop > RK_LAST_HOP) return say_line(&b->text, "the hop is not one of 1 to %d", RK_LAST_HOP);
    number = take_gap(&line) ? take_number(&line, &cents) : 0;
    if (number == 0) return say_line(&b->text, "there is no whole number of cents after the hop");
    if (number < 0 || cents > CENTS_TOP) return say_line(&b->text, "the cents are above 2^53, which is 9007199254740992");
    if (*line && !take_gap(&line)) return say_line(&b->text, "the cents are no whole number");
    if (name_controls(line)) return say_line(&b->text, "there is a control character in the name");
    if (b->lines[hop] > 0) return say_line(&b->text, "hop %d stands in line %lu already", (int)hop, b->lines[hop]);
    b->lines[hop] = b->text.number;
    b->cents[hop] = cents;
    sum_add(&b->cost, cents);
    if (*line == '\0' || strcmp(line, "-") == 0) return WHOLE;
    b->names[hop] = malloc(strlen(line) + 1);
    if (!b->names[hop]) return say("no memory");
    strcpy(b->names[hop], line);
    return WHOLE;
}

/* A line of the sheet as it is printed: no cell is empty. */
typedef struct {
    const char *name;
    char hop[SUM_ROOM], octets[SUM_ROOM], cents[SUM_ROOM], rate[32], label[16];
} row;

static void number_cell(char room[SUM_ROOM], uint64_t number) {
    sum s = {0, number};
    sum_digits(room, s);
}

static void closing_row(row *r, const char *format, unsigned number, sum octets) {
    snprintf(r->label, sizeof r->label, format, number);
    r->name = r->label;
    strcpy(r->hop, "-"), strcpy(r->cents, "-"), strcpy(r->rate, "-");
    sum_digits(r->octets, octets);
}

/* Answers how many rows there are, or 0 where a line is refused, which is said. */
static size_t make_rows(const books *b, row *rows, int csv, int all) {
    row *r = rows;
    sum unrouted = {0, b->octets[0]};
    r->name = "name";
    strcpy(r->hop, "hop"), strcpy(r->octets, "octets"), strcpy(r->cents, "cents"), strcpy(r->rate, "rate");
    r++;
    for (int i = 0; i < RK_HOPS; i++) {
        uint32_t hop = b->hops[i];
        rk_line line;
        if (!all && b->octets[hop] == 0 && b->cents[hop] == 0) continue;
        line = rk_cost_line(b->octets, RK_WORDS, b->cents, RK_WORDS, hop);
        if (line.code != RK_OK) return say("the line of hop %u is refused with %u", (unsigned)hop, (unsigned)line.code), 0;
        r->name = b->names[hop] ? b->names[hop] : "-";
        number_cell(r->hop, hop), number_cell(r->octets, b->octets[hop]), number_cell(r->cents, b->cents[hop]);
        if (line.traffic) snprintf(r->rate, sizeof r->rate, csv ? "%.17g" : "%.6g", line.rate);
        else strcpy(r->rate, "no traffic");
        r++;
    }
    closing_row(r++, "no route", 0, unrouted);
    for (unsigned code = 1; code < CODES; code++)
        if (b->refusals[code] > 0) closing_row(r++, "refused %u", code, b->refused[code]);
    closing_row(r, "sum", 0, b->carried);
    sum_digits(r->cents, b->cost);
    return r + 1 - rows;
}

static void print_csv(const row *r) {
    int quoted = strpbrk(r->name, ",\"") != NULL;
    printf(quoted ? "%s,\"" : "%s,", r->hop);
    for (const char *c = r->name; *c; c++) {
        if (*c == '"') putchar('"');
        putchar(*c);
    }
    printf(quoted ? "\",%s,%s,%s\n" : ",%s,%s,%s\n", r->octets, r->cents, r->rate);
}

static int wider(int width, size_t than) {
    return (int)than > width ? (int)than : width;
}

static void print_text(const row *rows, size_t count) {
    int hop = 0, name = 0, octets = 0, cents = 0;
    for (const row *r = rows; r < rows + count; r++) {
        hop = wider(hop, strlen(r->hop)), name = wider(name, name_width(r->name));
        octets = wider(octets, strlen(r->octets)), cents = wider(cents, strlen(r->cents));
    }
    for (const row *r = rows; r < rows + count; r++)
        printf("%*s  %s%*s  %*s  %*s  %s\n", hop, r->hop, r->name, name - (int)name_width(r->name), "", octets, r->octets, cents,
               r->cents, r->rate);
}

static int print_sheet(books *b, int csv, int all) {
    uint32_t answer = rk_cost_sheet(b->octets, RK_WORDS, b->cents, RK_WORDS, b->hops, RK_HOPS);
    row *rows;
    size_t count;
    if (answer != RK_OK) return say("the sheet is refused with %u", (unsigned)answer);
    rows = calloc(1 + RK_HOPS + CODES + 2, sizeof *rows);
    if (!rows) return say("no memory");
    count = make_rows(b, rows, csv, all);
    if (!csv) print_text(rows, count);
    for (size_t i = 0; csv && i < count; i++) print_csv(&rows[i]);
    free(rows);
    return count > 0 ? written() : UNREAD;
}

enum { TERRITORY, UPDATES, FLOWS, CENTS, CSV, ALL, OPTIONS };

int sheet(int argc, char **argv) {
    static const char *const options[OPTIONS] = {"--territory", "--updates", "--flows", "--cents", "--csv", "--all"};
    static const usage takes = {"sheet", help, options, CSV, OPTIONS};
    char *values[OPTIONS] = {0};
    books *b;
    int status = take_options(&takes, argc, argv, values, NULL);
    if (status != GO_ON) return status;
    if ((strcmp(values[UPDATES], "-") == 0) + (strcmp(values[FLOWS], "-") == 0) + (strcmp(values[CENTS], "-") == 0) > 1)
        return misused("sheet", "-", "can stand for one file alone, since there is one standard input");

    b = calloc(1, sizeof *b);
    if (!b) return say("no memory");
    status = tables_lend(&b->tables, "sheet", values[TERRITORY]);
    if (status == WHOLE) status = lend(b);
    if (status == WHOLE) status = tables_update(&b->tables, values[UPDATES]);
    if (status == WHOLE) status = read_flows(b, values[FLOWS]);
    if (status == WHOLE) status = read_lines(b, values[CENTS], take_cents);
    if (status == WHOLE) status = print_sheet(b, values[CSV] != NULL, values[ALL] != NULL);
    give_back(b);
    return status;
}
