/* The words of the command: each takes the arguments after it, says what is wrong itself, and answers the exit status of text.h. */
#ifndef WORDS_H
#define WORDS_H

int sheet(int argc, char **argv);
int look_up(int argc, char **argv);

#endif
