/*
 * The tables of a territory for the words of the command: the command line that asks for them, the memory that is lent for them, and the
 * update records that fill them.
 */
#ifndef TABLES_H
#define TABLES_H

#include "rakmolthi.h"

/* The refusals of rakmolthi.h are below this, so arrays are indexed by them. */
enum { CODES = 32 };

/* A word of the command and its options: first those that have a value and must be there, then those that stand alone. */
typedef struct {
    const char *word, *help;
    const char *const *options;
    int valued, count; /* of the options: how many have a value, and how many there are */
} usage;

/* What a manual says of the two options that every word over the tables has. */
#define TABLES_HELP \
    "  --territory PREFIX  the addresses that are judged, 0.0.0.0/0 for all: a length of 0 to 24, and no bit set after it\n" \
    "  --updates FILE      the routes: a stream of update records of 15 bytes, with the serials 0, 1, 2 and so on\n"

/* No exit status: the command line is right, and the word goes on. */
enum { GO_ON = -1 };

/* A wrong command line, said with the word in front; the answer is MISUSED. */
int misused(const char *word, const char *argument, const char *what);

/*
 * Reads a word's arguments: values[i], null before, gets the value of option i, or the option itself where it stands alone. What does not
 * begin with - is no option: it moves to the front of argv and is counted in *others, which is null where all are to be options. GO_ON, or
 * the exit status: MISUSED, which is said, or that of --help, which is printed.
 */
int take_options(const usage *u, int argc, char **argv, char **values, int *others);

/*
 * Memory for the tables of a territory, the text of --territory, with no prefix live. *t is all zero before, and is given back also where
 * this fails, which is said: UNREAD, or MISUSED for a wrong territory.
 */
int tables_lend(rk_tables *t, const char *word, char *territory);
void tables_give_back(rk_tables *t);

/* Applies the records of a file: WHOLE, or UNREAD where one can't be read. That is said, and how many updates were refused. */
int tables_update(rk_tables *t, const char *name);

#endif
