/* A ring of blocks that C keeps, driven by the records of a run file up to a phase end that focus_play has played: so each record is right.
 * Of a round it is kept what each receiver heard. */
#ifndef RING_H
#define RING_H

#include "check.h"

struct ring {
    uint32_t n, f, listeners, phase, round;
    int once; /* whether each round is a phase */
    uint64_t before, struck;
    const uint8_t *planted, *end; /* the planted records of the round, up to where it ends */
    const uint8_t *heard[48][32]; /* the frame that a receiver took from a link in the round, or NULL */
    uint8_t sent[32][FOCUS_FRAME_MAX];
    focus_head heads[48];
};

/* Told of a planted record, and of the number with which its receiver refused the frame, or 0. */
typedef void answered(const struct ring *r, const uint8_t *record, uint8_t number);

static inline uint32_t get4(const uint8_t *at) {
    return at[0] | (uint32_t)at[1] << 8 | (uint32_t)at[2] << 16 | (uint32_t)at[3] << 24;
}

static inline size_t size_of(const uint8_t *record) {
    return record[0] + 256u * record[1];
}

/* Whether a record of this kind stands at a place before the end of the file. */
static inline int is_kind(const uint8_t *at, const uint8_t *end, unsigned kind) {
    return end - at >= 4 && at[2] == kind && at[3] == 0;
}

static inline int is_member(const struct ring *r, uint32_t i) {
    return i < r->n || (32 <= i && i < 32 + r->listeners);
}

static inline int is_struck(const struct ring *r, uint32_t i) {
    return r->struck >> i & 1;
}

/* Whether the round is the last of its phase. */
static inline int is_last(const struct ring *r) {
    return r->once || r->round == 1;
}

/* Starts a ring with so many listeners: the place of the file's first round record. */
static inline const uint8_t *start_ring(struct ring *r, const uint8_t *file, uint32_t listeners) {
    memset(r, 0, sizeof *r);
    r->n = file[4], r->f = file[5], r->phase = 1, r->listeners = listeners;
    r->once = file[2] == 0x14;
    for (uint32_t i = 0; i < r->n; i++) {
        int32_t position = (int32_t)get4(file + 6 + 4 * i);
        same("start", (r->once ? focus_one_round_start : focus_head_start)(&r->heads[i], r->n, r->f, i, position), 0);
    }
    for (uint32_t i = 32; i < 32 + listeners; i++)
        same("start a listener", (r->once ? focus_one_round_listener_start : focus_listener_start)(&r->heads[i], r->n, r->f, i), 0);
    return file + size_of(file) + (listeners > 0 ? 5 : 0);
}

static inline void restart(struct ring *r, uint32_t i) {
    focus_head *head = &r->heads[i];
    if (i < 32)
        same("restart", (r->once ? focus_one_round_restart : focus_head_restart)(head, r->n, r->f, i, r->phase, r->round), 0);
    else
        same("restart a listener",
             (r->once ? focus_one_round_listener_restart : focus_listener_restart)(head, r->n, r->f, i, r->phase, r->round), 0);
}

/* Reads what the round's records say: where the next round's begin. */
static inline const uint8_t *read_round(struct ring *r, const uint8_t *at, const uint8_t *end) {
    same("a round record", is_kind(at, end, 0x11), 1);
    r->struck = get4(at + 4);
    at += 8;
    if (is_kind(at, end, 0x13)) {
        r->struck |= (uint64_t)(at[4] | at[5] << 8) << 32;
        at += 6;
    }
    r->planted = at;
    while (is_kind(at, end, 0x12))
        at += size_of(at);
    return r->end = at;
}

/* The struck lose their memory, and the healed restart. */
static inline void strike(struct ring *r) {
    for (uint32_t i = 0; i < 48; i++) {
        if (!is_member(r, i))
            continue;
        if (is_struck(r, i))
            memset(&r->heads[i], 0, sizeof r->heads[i]);
        else if (r->before >> i & 1)
            restart(r, i);
    }
}

/* What link k says to all that are not struck. */
static inline void broadcast(struct ring *r, uint32_t k) {
    size_t length = 0;
    same("write", focus_head_write(&r->heads[k], r->sent[k], sizeof r->sent[k], &length), 0);
    for (uint32_t i = 0; i < 48; i++) {
        if (!is_member(r, i) || is_struck(r, i))
            continue;
        same("hear", focus_head_hear(&r->heads[i], k, r->sent[k], length), 0);
        r->heard[i][k] = r->sent[k];
    }
}

/* Every head that is not struck is heard by every receiver that is not; then what is planted, of which a refused frame gives nothing. */
static inline void deliver(struct ring *r, answered *tell) {
    memset(r->heard, 0, sizeof r->heard);
    for (uint32_t k = 0; k < r->n; k++)
        if (!is_struck(r, k))
            broadcast(r, k);
    for (const uint8_t *at = r->planted; at < r->end; at += size_of(at)) {
        uint8_t number = focus_head_hear(&r->heads[at[5]], at[4], at + 6, size_of(at) - 6);
        if (number == 0)
            r->heard[at[5]][at[4]] = at + 6;
        if (tell != NULL)
            tell(r, at, number);
    }
}

/* All that are not struck close the round, and adopt if it is the last of its phase. The next round is open. */
static inline void close_round(struct ring *r) {
    int last = is_last(r);
    for (uint32_t i = 0; i < 48; i++) {
        if (!is_member(r, i) || is_struck(r, i))
            continue;
        same("close", focus_head_close(&r->heads[i]), 0);
        if (last)
            same("adopt", focus_head_adopt(&r->heads[i]), 0);
    }
    r->before = r->struck;
    r->phase += last;
    r->round = !last;
}

/* Each sound head and listener holds the position of the row. */
static inline void as_row(const struct ring *r, const int32_t *row, uint64_t struck) {
    for (uint32_t i = 0; i < 48; i++) {
        int32_t position = 0;
        if (!is_member(r, i) || struck >> i & 1)
            continue;
        same("a position", focus_head_has_position(&r->heads[i], &position), 1);
        same("position", position, row[i]);
    }
}

#endif
