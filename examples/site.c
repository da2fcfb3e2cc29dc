/*
 * A site collector in one page: it lends memory for the whole address space, applies a stream of update records from standard input, and
 * answers the addresses on its command line.
 *
 *     site 10.16.3.200 192.0.2.1 < records
 */
#include <stdio.h>
#include <stdlib.h>

#include "rakmolthi.h"

enum { SEGMENTS = 1024 };

int main(int argc, char **argv) {
    rk_tables t = {.first_cells = RK_FIRST_CELLS(0), .long_cells = RK_LONG_CELLS(SEGMENTS), .owner_words = SEGMENTS,
                   .rule_words = RK_MOST_RULES, .base = 0, .base_length = 0};
    uint8_t record[RK_RECORD_BYTES];
    uint32_t expected = 0;
    size_t got;
    t.first = malloc(t.first_cells * sizeof *t.first), t.long_table = malloc(t.long_cells * sizeof *t.long_table);
    t.owners = malloc(t.owner_words * sizeof *t.owners), t.rules = malloc(t.rule_words * sizeof *t.rules);
    if (!t.first || !t.long_table || !t.owners || !t.rules) return fputs("site: no memory\n", stderr), 1;
    if (rk_tables_clear(&t) != RK_OK) return fputs("site: the memory lent has another size\n", stderr), 1;

    for (; (got = fread(record, 1, sizeof record, stdin)) > 0; expected++) {
        rk_reading reading = rk_read_record(record, got, expected);
        if (reading.code != RK_OK) return fprintf(stderr, "site: record %u refused with %u\n", expected, reading.code), 1;
        rk_report report = rk_tables_update(&t, reading.update);
        printf("update %u: code %u, %u cells\n", expected, report.code, report.cells);
    }
    if (ferror(stdin)) return perror("site: standard input"), 1;

    for (int i = 1; i < argc; i++) {
        unsigned a, b, c, d;
        if (sscanf(argv[i], "%u.%u.%u.%u", &a, &b, &c, &d) != 4 || (a | b | c | d) > 255)
            return fprintf(stderr, "site: %s is no address\n", argv[i]), 1;
        uint32_t address = a << 24 | b << 16 | c << 8 | d, number = rk_tables_look_up(&t, address);
        if (RK_CODE(number) == RK_OK) {
            uint32_t won = RK_CUT(address, RK_LENGTH(number));
            printf("%s: hop %u by %u.%u.%u.%u/%u\n", argv[i], RK_HOP(number), won >> 24, won >> 16 & 255, won >> 8 & 255, won & 255,
                   RK_LENGTH(number));
        } else {
            printf("%s: %s\n", argv[i], RK_CODE(number) == RK_NO_ROUTE ? "no route" : "refused");
        }
    }
    free(t.first), free(t.long_table), free(t.owners), free(t.rules);
    if (fflush(stdout) != 0) return perror("site: standard output"), 1;
    return 0;
}
