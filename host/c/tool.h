/* What the C programs share that a person calls: a usage line, --help and --version, and an output that is whole or said not to be.
 * A status is 0 if all went well, 1 if something was refused, 2 if the program was called wrongly or could not read or write. */
#ifndef TOOL_H
#define TOOL_H

#include <focus.h>

#include <errno.h>
#include <stdio.h>
#include <stdlib.h>
#include <string.h>

enum { TOOL_DONE = 0, TOOL_REFUSED = 1, TOOL_WRONG = 2 };

/* Ends the program: with this status, or with 2 if not all that was printed could be written, as on a full disk. */
static inline void tool_end(int status) {
    errno = 0;
    if (fflush(stdout) != 0 || ferror(stdout)) {
        fprintf(stderr, "standard output: %s\n", errno != 0 ? strerror(errno) : "cannot be written");
        _Exit(TOOL_WRONG);
    }
    exit(status);
}

/* Looks at the words of a command line: --help and --version are answered, and any other option, or a number of words other than from least
 * to most, is refused with the usage line. */
static inline void tool_words(int count, char **words, int least, int most, const char *name, const char *usage, const char *help) {
    for (int i = 1; i < count; i++) {
        if (strcmp(words[i], "--help") == 0) {
            printf("usage: %s\n\n%s", usage, help);
            tool_end(TOOL_DONE);
        }
        if (strcmp(words[i], "--version") == 0) {
            printf("%s %s\n", name, FOCUS_VERSION_TEXT);
            tool_end(TOOL_DONE);
        }
        if (words[i][0] == '-' && words[i][1] != '\0') {
            fprintf(stderr, "usage: %s\n%s: no such option: %.60s\n", usage, name, words[i]);
            exit(TOOL_WRONG);
        }
    }
    if (count - 1 < least || count - 1 > most) {
        fprintf(stderr, "usage: %s\n", usage);
        exit(TOOL_WRONG);
    }
}

/* A file that cannot be read: one line, and the end. */
static inline void tool_unread(const char *name) {
    fprintf(stderr, "%s: %s\n", strcmp(name, "-") == 0 ? "standard input" : name, errno != 0 ? strerror(errno) : "cannot be read");
    exit(TOOL_WRONG);
}

#endif
