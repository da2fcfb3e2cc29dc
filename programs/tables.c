/*
 * The tables of a territory for the words of the command: options and the territory read, memory lent and given back, update records
 * applied. What the tables are asked is the words' own.
 */
#include <errno.h>
#include <stdlib.h>
#include <string.h>

#include "tables.h"
#include "text.h"

int misused(const char *word, const char *argument, const char *what) {
    return say("%s: %s %s; rakmolthi %s --help says more", word, argument, what, word), MISUSED;
}

int take_options(const usage *u, int argc, char **argv, char **values, int *others) {
    if (others) *others = 0;
    for (int i = 0; i < argc; i++) {
        int option = 0;
        if (strcmp(argv[i], "--help") == 0) return fputs(u->help, stdout), written();
        if (others && argv[i][0] != '-') {
            argv[(*others)++] = argv[i];
            continue;
        }
        while (option < u->count && strcmp(argv[i], u->options[option]) != 0) option++;
        if (option == u->count) return misused(u->word, argv[i], "is no option");
        if (values[option]) return misused(u->word, argv[i], "stands twice");
        if (option < u->valued && (i + 1 == argc || strncmp(argv[i + 1], "--", 2) == 0)) return misused(u->word, argv[i], "has no value");
        values[option] = option < u->valued ? argv[++i] : argv[i];
    }
    for (int option = 0; option < u->valued; option++)
        if (!values[option]) return misused(u->word, u->options[option], "is missing");
    return GO_ON;
}

int tables_lend(rk_tables *t, const char *word, char *territory) {
    char *at = territory;
    if (!take_prefix(&at, &t->base, &t->base_length) || *at) return misused(word, territory, "is no prefix such as 10.16.0.0/12");
    if (t->base_length > RK_MOST_TERRITORY) return misused(word, territory, "is longer than 24");
    t->first_cells = RK_FIRST_CELLS(t->base_length), t->long_cells = RK_LONG_CELLS(RK_MOST_SEGMENTS);
    t->owner_words = RK_MOST_SEGMENTS, t->rule_words = RK_MOST_RULES;
    t->first = calloc(t->first_cells, sizeof *t->first), t->long_table = calloc(t->long_cells, sizeof *t->long_table);
    t->owners = calloc(t->owner_words, sizeof *t->owners), t->rules = calloc(t->rule_words, sizeof *t->rules);
    if (!t->first || !t->long_table || !t->owners || !t->rules) return say("no memory");
    if (rk_tables_clear(t) != RK_OK) return misused(word, territory, "has bits after its length");
    return WHOLE;
}

void tables_give_back(rk_tables *t) {
    free(t->first), free(t->long_table), free(t->owners), free(t->rules);
}

static const char *reading_words(uint32_t code) {
    static const char *const words[CODES] = {
        [RK_CUT_RECORD] = "it ends too early",
        [RK_WRONG_LENGTH_FIELD] = "its length field is not 13",
        [RK_WRONG_VERSION] = "its version is not 1",
        [RK_WRONG_KIND] = "its kind is not 1, 2 or 3",
        [RK_WRONG_SERIAL] = "its serial is not the expected one",
        [RK_WITHDRAW_WITH_HOP] = "it is a withdraw with a hop",
    };
    return code < CODES && words[code] ? words[code] : "rakmolthi.h says why";
}

static int take_records(rk_tables *t, FILE *file, const char *as) {
    unsigned long counts[CODES] = {0}, place = 0;
    char list[CODES * 40] = "", *end = list;
    uint8_t record[RK_RECORD_BYTES];
    size_t got;
    for (; (got = fread(record, 1, sizeof record, file)) > 0 && !ferror(file); place++) {
        rk_reading reading = rk_read_record(record, got, (uint32_t)place);
        rk_report report;
        if (reading.code != RK_OK)
            return say("%s: record %lu, counted from 0, is refused with %u: %s", as, place, (unsigned)reading.code,
                       reading_words(reading.code));
        report = rk_tables_update(t, reading.update);
        if (report.code >= CODES) return say("%s: record %lu, counted from 0: the answer %u is unknown", as, place, (unsigned)report.code);
        counts[report.code]++;
    }
    if (ferror(file)) return say("%s: %s", as, strerror(errno));
    for (int code = 1; code < CODES; code++)
        if (counts[code] > 0) end += sprintf(end, "%s %lu with %d", end == list ? "" : ",", counts[code], code);
    if (end != list) say("updates refused:%s", list);
    return WHOLE;
}

int tables_update(rk_tables *t, const char *name) {
    const char *as;
    FILE *file = open_input(name, &as);
    int status = file ? take_records(t, file, as) : UNREAD;
    if (file) close_input(file);
    return status;
}
