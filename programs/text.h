/*
 * What the words of the command share: lines of text and the place where they stand, the fields in a line, sums that cannot overflow, and
 * how a failure or progress is said.
 */
#ifndef TEXT_H
#define TEXT_H

#include <stdint.h>
#include <stdio.h>

/* The exit status of every word: nothing but a whole result is 0. */
enum { WHOLE = 0, UNREAD = 1, MISUSED = 2 };

/* The bytes of a line: more is refused, since a line that was cut could be read as another one. */
enum { LINE_BYTES = 4096, TEXT_BYTES = 65536 };

typedef struct {
    const char *name; /* as messages have it */
    FILE *file;
    unsigned long number; /* of the line at hand, from 1 */
    char *from, *to;      /* what is read and not handed out */
    int ended;
    char room[TEXT_BYTES];
} text;

/* high * 2^64 + low: no file is long enough for its numbers of 64 bits to pass this. */
typedef struct {
    uint64_t high, low;
} sum;

enum { SUM_ROOM = 40 };

/* A message on standard error, with the command's name in front; the answer is UNREAD. A progress line gives way to it. */
int say(const char *format, ...);

/* The same, with the file and the line at hand in front. */
int say_line(const text *t, const char *format, ...);

/* One line of progress, each over the last one, where standard error is a terminal; and its end. */
void progress(const char *name, unsigned long lines);
void progress_end(void);

/* All that standard output holds is written: WHOLE, or UNREAD where a write failed since the last call, which is said. */
int written(void);

/* Opens a file, - for standard input, and closes it. What can't be opened is said; `as` is the name that messages have. */
FILE *open_input(const char *name, const char **as);
void close_input(FILE *file);

/* The same for lines of text: WHOLE or UNREAD. */
int text_open(text *t, const char *name);
void text_close(text *t);

/*
 * The next line with something in it, without the blanks around it: 1, and it stays until the next call; 0 at the end of the file; -1
 * where the line can't be read or the file ends inside it, which is said. Blank lines and those that begin with # are passed over.
 * Before it waits for more of the file, standard output is written; -1 also where that fails.
 */
int text_next(text *t, char **line);

/* What an address is, for messages and manuals. */
#define AN_ADDRESS "four numbers of 0 to 255 with dots, and no 0 before another digit"

/* Each takes what it names off the front of *at. 0: it is not there, and *at stays. */
int take_number(char **at, uint64_t *number); /* -1: it is there, and has more than 64 bits */
int take_address(char **at, uint32_t *address);
int take_prefix(char **at, uint32_t *address, uint32_t *length);
int take_gap(char **at); /* blanks, or a comma with or without them */

/* The code points of a name in UTF-8, which is how wide a column has to be; and whether there is a control character in it. */
size_t name_width(const char *name);
int name_controls(const char *name);

void sum_add(sum *s, uint64_t number);
void sum_digits(char room[SUM_ROOM], sum s);

#endif
