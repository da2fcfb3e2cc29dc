/*
 * Text in and out for the words of the command: reading lines and fields, saying what can't be read and where, sums in two words. Nothing
 * here knows what the fields are for.
 */
#define _POSIX_C_SOURCE 200809L

#include <errno.h>
#include <stdarg.h>
#include <stdlib.h>
#include <string.h>
#include <unistd.h>

#include "text.h"

static int progress_width;

static void say_all(const text *t, const char *format, va_list rest) {
    progress_end();
    fputs("rakmolthi: ", stderr);
    if (t) fprintf(stderr, "%s:%lu: ", t->name, t->number);
    vfprintf(stderr, format, rest);
    fputc('\n', stderr);
}

int say(const char *format, ...) {
    va_list rest;
    va_start(rest, format);
    say_all(NULL, format, rest);
    va_end(rest);
    return UNREAD;
}

int say_line(const text *t, const char *format, ...) {
    va_list rest;
    va_start(rest, format);
    say_all(t, format, rest);
    va_end(rest);
    return UNREAD;
}

void progress(const char *name, unsigned long lines) {
    if (!isatty(fileno(stderr))) return;
    progress_width = fprintf(stderr, "\rrakmolthi: %s: %lu lines", name, lines);
    fflush(stderr);
}

/* Blanks and not a terminal's own way of clearing, since nothing is known of the terminal. */
void progress_end(void) {
    if (progress_width > 0) fprintf(stderr, "\r%*s\r", progress_width, "");
    progress_width = 0;
}

int written(void) {
    int failed = fflush(stdout) != 0 || ferror(stdout);
    clearerr(stdout);
    return failed ? say("standard output: %s", strerror(errno)) : WHOLE;
}

FILE *open_input(const char *name, const char **as) {
    FILE *file = stdin;
    *as = "standard input";
    if (strcmp(name, "-") == 0) return file;
    *as = name;
    file = fopen(name, "rb");
    if (!file) say("%s: %s", name, strerror(errno));
    return file;
}

void close_input(FILE *file) {
    if (file != stdin) fclose(file);
}

int text_open(text *t, const char *name) {
    t->file = open_input(name, &t->name);
    t->number = 0;
    t->from = t->to = t->room;
    t->ended = 0;
    return t->file ? WHOLE : UNREAD;
}

void text_close(text *t) {
    close_input(t->file);
}

static int blank(char c) {
    return c == ' ' || c == '\t';
}

static int digit(char c) {
    return c >= '0' && c <= '9';
}

/*
 * What is not handed out moves to the front of the room, and what there is to read follows it. Someone may wait for the answer to the last
 * line before the next is sent, so standard output is written first, and as few bytes as come are enough.
 */
static int fill(text *t) {
    size_t left = t->to - t->from;
    ssize_t got;
    if (written() != WHOLE) return -1;
    memmove(t->room, t->from, left);
    do got = read(fileno(t->file), t->room + left, TEXT_BYTES - left);
    while (got < 0 && errno == EINTR);
    if (got < 0) return say("%s: %s", t->name, strerror(errno)), -1;
    t->from = t->room;
    t->to = t->room + left + got;
    t->ended = got == 0;
    return 0;
}

int text_next(text *t, char **line) {
    for (;;) {
        char *start = t->from, *end = memchr(start, '\n', t->to - start), *stop = end ? end : t->to;
        if (!end && t->ended && start == t->to) return 0;
        if (!end && !t->ended && t->to - start <= LINE_BYTES) {
            if (fill(t) != 0) return -1;
            continue;
        }
        t->number++;
        if (stop - start > LINE_BYTES) return say_line(t, "the line has more than %d bytes", LINE_BYTES), -1;
        if (memchr(start, '\0', stop - start)) return say_line(t, "there is a zero byte in the line"), -1;
        /* A number that was cut is still a number, and would be booked. */
        if (!end) return say_line(t, "the file ends inside this line, so it may be cut; where it is whole, end the line"), -1;
        t->from = end + 1;
        *end = '\0';
        /* Spreadsheets put this mark in front of UTF-8. */
        if (t->number == 1 && strncmp(start, "\xEF\xBB\xBF", 3) == 0) start += 3;
        if (end > start && end[-1] == '\r') *--end = '\0';
        while (blank(*start)) start++;
        while (end > start && blank(end[-1])) *--end = '\0';
        if (*start == '\0' || *start == '#') continue;
        *line = start;
        return 1;
    }
}

int take_number(char **at, uint64_t *number) {
    char *c = *at;
    int fits = 1;
    if (!digit(*c)) return 0;
    for (*number = 0; digit(*c); c++) {
        uint64_t more = *c - '0';
        if (*number > (UINT64_MAX - more) / 10) fits = 0;
        *number = *number * 10 + more;
    }
    *at = c;
    return fits ? 1 : -1;
}

/* No part begins with a 0 that could be left out: some programs take such a part as octal, and it would be booked to another address. */
int take_address(char **at, uint32_t *address) {
    char *c = *at;
    uint32_t made = 0;
    for (int part = 0; part < 4; part++) {
        uint32_t value = 0;
        char *start;
        if (part > 0 && *c++ != '.') return 0;
        for (start = c; digit(*c) && c - start < 4; c++) value = value * 10 + (*c - '0');
        if (c == start || value > 255 || (*start == '0' && c - start > 1)) return 0;
        made = made << 8 | value;
    }
    *at = c;
    *address = made;
    return 1;
}

int take_prefix(char **at, uint32_t *address, uint32_t *length) {
    char *c = *at;
    uint64_t number;
    if (!take_address(&c, address) || *c++ != '/' || take_number(&c, &number) != 1 || number > 32) return 0;
    *at = c;
    *length = number;
    return 1;
}

int take_gap(char **at) {
    char *c = *at;
    int there;
    while (blank(*c)) c++;
    if (*c == ',') c++;
    while (blank(*c)) c++;
    there = c != *at;
    *at = c;
    return there;
}

size_t name_width(const char *name) {
    size_t width = 0;
    for (; *name; name++) width += (*name & 0xC0) != 0x80;
    return width;
}

/* Also those of U+0080 to U+009F: a terminal obeys some, and one of them ends a line for some readers. */
int name_controls(const char *name) {
    for (const unsigned char *c = (const unsigned char *)name; *c; c++)
        if (*c < 0x20 || *c == 0x7F || (*c == 0xC2 && c[1] >= 0x80 && c[1] < 0xA0)) return 1;
    return 0;
}

void sum_add(sum *s, uint64_t number) {
    s->low += number;
    s->high += s->low < number;
}

void sum_digits(char room[SUM_ROOM], sum s) {
    uint32_t parts[4] = {s.high >> 32, s.high, s.low >> 32, s.low};
    char digits[SUM_ROOM], *at = digits + SUM_ROOM - 1;
    *at = '\0';
    do {
        uint64_t rest = 0;
        for (int i = 0; i < 4; i++) {
            rest = rest << 32 | parts[i];
            parts[i] = rest / 10;
            rest %= 10;
        }
        *--at = '0' + rest;
    } while (parts[0] | parts[1] | parts[2] | parts[3]);
    memcpy(room, at, digits + SUM_ROOM - at);
}
