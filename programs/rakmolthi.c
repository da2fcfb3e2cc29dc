/*
 * The command: its first word says what is to be done, and the file of that word does it. What is computed comes from the library; the
 * command reads, prints and says what it can't read.
 */
#include <string.h>

#include "text.h"
#include "words.h"

static const struct {
    const char *word, *says;
    int (*run)(int argc, char **argv);
} words[] = {
    {"sheet", "the cost sheet: what each upstream carried and what it costs, dearest first", sheet},
    {"look-up", "which upstream an address goes by, and which prefix decides it", look_up},
};

enum { WORDS = sizeof words / sizeof *words };

int main(int argc, char **argv) {
    if (argc < 2) return say("a word is missing that says what to do; rakmolthi --help has them"), MISUSED;
    if (strcmp(argv[1], "--help") == 0) {
        puts("rakmolthi WORD ...\n");
        for (int i = 0; i < WORDS; i++) printf("  %-8s %s\n", words[i].word, words[i].says);
        puts("\nrakmolthi WORD --help says what the word takes and prints.\n"
             "Exit status: 0 where all input was read and the result is printed whole; 1 where it is not; 2 for a wrong command line.");
        return written();
    }
    for (int i = 0; i < WORDS; i++)
        if (strcmp(argv[1], words[i].word) == 0) return words[i].run(argc - 2, argv + 2);
    return say("%s is no word of the command; rakmolthi --help has them", argv[1]), MISUSED;
}
