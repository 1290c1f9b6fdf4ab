/* For the fitter: reads tables of positions from standard input and prints what the proved calls answer (document 02, A12 and A13).
 *
 *     fit < examples/fitting.table
 *
 * A line says one thing; what follows # is a note.
 *
 *     ring 5 1                  5 lenses, at most 1 struck; `ring one-round 5 1` if a phase has one round
 *     phase 1                   the phase that the table ends; until one is given, 1
 *     entries 10 20..24 - 40 0  an entry for each lens: its position, its lowest and highest position, or - for null
 *     limits                    from where to where the ring can settle
 *     reach 4: 20 24            where to set lens 4 so that the ring settles on 20, and where for 24
 *
 * Anything that cannot be read stops it: one line on standard error, and status 1. */
#include <focus.h>

#include <stdio.h>
#include <stdlib.h>
#include <string.h>

enum { MOST = 64 }; /* entries of a table: more than a ring has */

struct entry {
    int known;
    int32_t lowest, highest;
};

static struct {
    int one_round;
    uint32_t n, f, phase;
    size_t count;
    struct entry entries[MOST];
} table = {0, 0, 0, 1, 0, {{0, 0, 0}}};

static unsigned long line_number;

static void stop(const char *what, const char *word) {
    fflush(stdout);
    fprintf(stderr, "line %lu: %s: %s\n", line_number, what, word == NULL ? "the line ends" : word);
    exit(1);
}

static char *word(void) {
    return strtok(NULL, " \t\r\n");
}

/* a number at the front of a text, and what follows it */
static long long leading(const char *text, char **rest) {
    long long value = text == NULL ? 0 : strtoll(text, rest, 10);
    if (text == NULL || *rest == text || value < INT32_MIN || value > UINT32_MAX)
        stop("no number of 32 bits", text);
    return value;
}

static long long whole(const char *text, const char *end) {
    char *rest;
    long long value = leading(text, &rest);
    if (strcmp(rest, end) != 0)
        stop("no number", text);
    return value;
}

static uint32_t count_of(const char *text, const char *end) {
    long long value = whole(text, end);
    if (value < 0)
        stop("below zero", text);
    return (uint32_t)value;
}

static int32_t step_of(long long value, const char *text) {
    if (value > INT32_MAX)
        stop("no number of 32 bits with a sign", text);
    return (int32_t)value;
}

/* ---- what a line tells */

static void read_ring(void) {
    char *text = word();
    table.one_round = text != NULL && strcmp(text, "one-round") == 0;
    table.n = count_of(table.one_round ? word() : text, "");
    table.f = count_of(word(), "");
}

static struct entry entry_of(const char *text) {
    char *rest;
    if (strcmp(text, "-") == 0)
        return (struct entry){0, 0, 0};
    int32_t lowest = step_of(leading(text, &rest), text);
    if (*rest == '\0')
        return (struct entry){1, lowest, lowest};
    if (strncmp(rest, "..", 2) != 0)
        stop("no entry", text);
    return (struct entry){1, lowest, step_of(whole(rest + 2, ""), text)};
}

static void read_entries(void) {
    table.count = 0;
    for (char *text = word(); text != NULL; text = word()) {
        if (table.count == MOST)
            stop("too many entries", text);
        table.entries[table.count++] = entry_of(text);
    }
}

/* ---- what is asked */

static void put4(uint8_t *at, int32_t value) {
    for (int i = 0; i < 4; i++)
        at[i] = (uint8_t)((uint32_t)value >> 8 * i);
}

static uint32_t marks(void) {
    uint32_t marks = 0;
    for (size_t j = 0; j < table.count && j < 32; j++)
        marks |= (uint32_t)table.entries[j].known << j;
    return marks;
}

static void print_limits(void) {
    uint8_t bytes[8 * MOST];
    focus_range range = {0, 0};
    if (table.one_round)
        stop("limits are asked of rings of two rounds", "one-round");
    for (size_t j = 0; j < table.count; j++) {
        put4(bytes + 8 * j, table.entries[j].lowest);
        put4(bytes + 8 * j + 4, table.entries[j].highest);
    }
    uint8_t number = focus_limits(table.n, table.f, table.phase, marks(), bytes, 8 * table.count, &range);
    if (number != 0)
        printf("limits: refused %u\n", number);
    else
        printf("limits: the ring settles from %d to %d\n", range.lowest, range.highest);
}

/* the new position with u for the open entry, by the midpoint call */
static int32_t brings(uint8_t *bytes, uint32_t open, int32_t u) {
    int32_t position = FOCUS_NO_STEP;
    put4(bytes + 4 * open, u);
    uint8_t number = (table.one_round ? focus_one_round_midpoint : focus_midpoint)(table.n, table.f, table.phase, marks() | UINT32_C(1) << open, bytes,
                                                                                   4 * table.count, &position);
    return number == FOCUS_OK ? position : FOCUS_NO_STEP;
}

static void print_reach(uint32_t open, int32_t wanted) {
    uint8_t bytes[4 * MOST];
    int32_t position = 0;
    for (size_t j = 0; j < table.count; j++) {
        if (j != open && table.entries[j].lowest != table.entries[j].highest)
            stop("reach is asked of positions", "an entry is known within limits only");
        put4(bytes + 4 * j, table.entries[j].lowest);
    }
    uint8_t number = (table.one_round ? focus_one_round_reach : focus_reach)(table.n, table.f, table.phase, open, marks(), bytes, 4 * table.count, wanted,
                                                                             &position);
    if (number != 0)
        printf("reach %u: refused %u\n", open, number);
    else if (position == FOCUS_NO_STEP)
        printf("reach %u: no position brings %d\n", open, wanted);
    else
        printf("reach %u: %d brings %d\n", open, position, brings(bytes, open, position));
}

static void read_reach(void) {
    uint32_t open = count_of(word(), ":");
    for (char *text = word(); text != NULL; text = word())
        print_reach(open, step_of(whole(text, ""), text));
}

static void read_line(char *line) {
    line[strcspn(line, "#")] = '\0';
    char *first = strtok(line, " \t\r\n");
    if (first == NULL)
        return;
    if (strcmp(first, "ring") == 0)
        read_ring();
    else if (strcmp(first, "phase") == 0)
        table.phase = count_of(word(), "");
    else if (strcmp(first, "entries") == 0)
        read_entries();
    else if (strcmp(first, "limits") == 0)
        print_limits();
    else if (strcmp(first, "reach") == 0)
        read_reach();
    else
        stop("no such line", first);
    char *more = word();
    if (more != NULL)
        stop("more than the line says", more);
}

int main(void) {
    char line[4096];
    while (fgets(line, sizeof line, stdin) != NULL) {
        line_number++;
        read_line(line);
    }
    return 0;
}
