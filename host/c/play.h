/* What the C programs that play a run file share: its bytes, and what focus_play says of them. */
#ifndef PLAY_H
#define PLAY_H

#include <focus.h>

#include <stdio.h>
#include <stdlib.h>
#include <string.h>

#define BEHIND 8 /* bytes of zeros behind those of a file: room for a round record */

/* The bytes of a file, or of standard input if its name is -, with zeros behind them, and how many there are; NULL if it cannot be read. */
static inline uint8_t *read_whole(const char *name, size_t *bytes) {
    FILE *from = strcmp(name, "-") == 0 ? stdin : fopen(name, "rb");
    size_t room = 1 << 16, got = 0, part;
    uint8_t *file = from != NULL ? calloc(room + BEHIND, 1) : NULL;
    while (file != NULL && (part = fread(file + got, 1, room - got, from)) > 0) {
        got += part;
        uint8_t *more = realloc(file, 2 * room + BEHIND);
        if (more == NULL)
            free(file);
        file = more;
        room *= 2;
    }
    if (file != NULL)
        memset(file + got, 0, BEHIND);
    if (from != NULL && (ferror(from) || fclose(from) != 0)) {
        free(file);
        return NULL;
    }
    *bytes = got;
    return file;
}

/* What focus_play says of a file, and its buffers. */
struct played {
    uint8_t *listing;
    int32_t *rows;
    uint64_t *words;
    size_t listing_room, rows_room, words_room;
    uint8_t since[FOCUS_RECEIVERS];
    size_t length, ends;
    uint8_t number; /* how the file ends; 24 if there is no memory */
};

/* Room for what is said of a file of so many bytes, or of fewer. */
static inline void make_room(struct played *p, const uint8_t *file, size_t bytes) {
    size_t phase = FOCUS_PLAY_PHASE(file, bytes);
    memset(p, 0, sizeof *p);
    p->listing_room = FOCUS_PLAY_OUT(bytes, phase);
    p->rows_room = FOCUS_PLAY_ROWS(bytes, phase);
    p->words_room = FOCUS_PLAY_ENDS(bytes, phase);
    p->listing = malloc(p->listing_room);
    p->rows = malloc(sizeof *p->rows * p->rows_room);
    p->words = malloc(sizeof *p->words * p->words_room);
}

/* Plays so many bytes, for which there is room. */
static inline uint8_t play(struct played *p, const uint8_t *file, size_t bytes) {
    p->number = FOCUS_BUFFER_TOO_SHORT;
    if (p->listing != NULL && p->rows != NULL && p->words != NULL)
        p->number = focus_play(file, bytes, p->listing, p->listing_room, p->rows, p->rows_room, p->words, p->words_room, p->since,
                               &p->length, &p->ends);
    return p->number;
}

static inline void free_room(struct played *p) {
    free(p->listing);
    free(p->rows);
    free(p->words);
}

/* How many listeners a file with an accepted start has: those of a record of kind 0015 just after it, if that is taken. */
static inline uint32_t listeners_of(const uint8_t *file, size_t bytes) {
    static const uint8_t front[4] = {5, 0, 0x15, 0};
    size_t at = 6 + 4 * (size_t)file[4];
    int given = at + 5 <= bytes && memcmp(file + at, front, 4) == 0;
    return given && file[at + 4] <= FOCUS_LISTENERS_MAX ? file[at + 4] : 0;
}

#endif
