/*
 * The word look-up: which hop addresses go by, and which prefix decides it. Both are the library's answer; where the addresses come from
 * and how an answer is printed is here.
 */
#include <string.h>

#include "rakmolthi.h"
#include "tables.h"
#include "text.h"
#include "words.h"

static const char help[] =
    "rakmolthi look-up --territory PREFIX --updates FILE [ADDRESS...]\n"
    "\n"
    "Answers each address with a line, in the order given: the hop of the longest live prefix that contains it and that\n"
    "prefix, or why there is none.\n"
    "\n"
    "  10.16.3.200 hop 12 by 10.16.3.128/25\n"
    "  10.28.0.1 no route\n"
    "  10.32.0.1 outside the territory\n"
    "\n"
    TABLES_HELP
    "  ADDRESS             " AN_ADDRESS "\n"
    "\n"
    "Where no ADDRESS is given, the lines of standard input have one each; blank lines and lines that begin with # are passed over, and\n"
    "what came is answered before more is waited for. With an ADDRESS, FILE - is standard input.\n"
    "\n"
    "An update that the tables refuse changes nothing; how many were refused, by number, is said on standard error, and the run goes\n"
    "on. A record that can't be read is named with its place in the stream; then there are no answers. An address that can't be read\n"
    "is named on standard error, one of standard input with its line, and the others are answered. A line of more than 4096 bytes,\n"
    "one with a zero byte and a last line that does not end are named too, and end the run.\n"
    "Exit status: 0 where all input was read and every address answered, `no route` too; 1 where not; 2 for a wrong command line.\n";

enum { ADDRESS_ROOM = 16 };

static void address_digits(char room[ADDRESS_ROOM], uint32_t address) {
    snprintf(room, ADDRESS_ROOM, "%u.%u.%u.%u", (unsigned)(address >> 24), (unsigned)(address >> 16 & 255), (unsigned)(address >> 8 & 255),
             (unsigned)(address & 255));
}

/* Prints the answer to an address: 1; or 0, and nothing is printed, where the text is none. */
static int answer(const rk_tables *t, char *at) {
    static const char *const refusals[CODES] = {
        [RK_WRONG_SIZES] = "the memory lent has another size",
        [RK_OUTSIDE] = "outside the territory",
        [RK_DAMAGE] = "the tables are damaged",
        [RK_NO_ROUTE] = "no route",
    };
    char asked[ADDRESS_ROOM], won[ADDRESS_ROOM];
    uint32_t address, number, code, length;
    if (!take_address(&at, &address) || *at) return 0;
    number = rk_tables_look_up(t, address), code = RK_CODE(number), length = RK_LENGTH(number);
    address_digits(asked, address), address_digits(won, RK_CUT(address, length));
    if (code == RK_OK) printf("%s hop %u by %s/%u\n", asked, (unsigned)RK_HOP(number), won, (unsigned)length);
    else if (code < CODES && refusals[code]) printf("%s %s\n", asked, refusals[code]);
    else printf("%s refused with %u\n", asked, (unsigned)code);
    return 1;
}

/* A text that can't be read may go to a terminal, so it is not shown where a terminal would obey it. */
static int answer_arguments(const rk_tables *t, int count, char **arguments) {
    int status = WHOLE;
    for (int i = 0; i < count; i++) {
        if (answer(t, arguments[i])) continue;
        if (name_controls(arguments[i])) status = say("look-up: there is a control character in address %d of the command line", i + 1);
        else status = say("look-up: %s is no IPv4 address: " AN_ADDRESS, arguments[i]);
    }
    return status;
}

static int answer_lines(const rk_tables *t) {
    text input;
    char *line;
    int got, status = text_open(&input, "-");
    while ((got = text_next(&input, &line)) > 0) {
        if (answer(t, line)) continue;
        if (name_controls(line)) status = say_line(&input, "there is a control character in the line");
        else status = say_line(&input, "%s is no IPv4 address: " AN_ADDRESS, line);
    }
    text_close(&input);
    return got < 0 ? UNREAD : status;
}

enum { TERRITORY, UPDATES, OPTIONS };

int look_up(int argc, char **argv) {
    static const char *const options[OPTIONS] = {"--territory", "--updates"};
    static const usage takes = {"look-up", help, options, OPTIONS, OPTIONS};
    char *values[OPTIONS] = {0};
    rk_tables t = {0};
    int count, status = take_options(&takes, argc, argv, values, &count);
    if (status != GO_ON) return status;
    if (count == 0 && strcmp(values[UPDATES], "-") == 0)
        return misused("look-up", "--updates -", "needs an ADDRESS on the command line, since there is one standard input");

    status = tables_lend(&t, "look-up", values[TERRITORY]);
    if (status == WHOLE) status = tables_update(&t, values[UPDATES]);
    if (status == WHOLE) status = count > 0 ? answer_arguments(&t, count, argv) : answer_lines(&t);
    tables_give_back(&t);
    return written() == WHOLE ? status : UNREAD;
}
