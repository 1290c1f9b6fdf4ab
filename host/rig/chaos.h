/* What ring_udp and its devices share: who is struck in which round, and how; and what a device reports. All of it comes from the seed, so
 * nobody has to be told in time. */
#ifndef CHAOS_H
#define CHAOS_H

#include "rig.h"
#include <string.h>

enum { NUMBERS = 48, REPORT_BYTES = 80, DRIVER_PORT = 60, SLOT_BYTES = 160 };

/* NONE; KILL: `kill -9`, and a new process whose block is noise; AWAY: the round after it, which the new process may need; LIE: it says
 * something else to each neighbour, well formed, and its block is noise afterwards; DROP: its frames do not go out; DOZE: it sleeps past the
 * end of the round. */
enum kind { NONE, KILL, AWAY, LIE, DROP, DOZE, KINDS };

struct attack {
    uint64_t seed;
    uint32_t run, n, f, m;
    uint32_t most; /* heads struck in a round: f, or more where that is broken */
};

/* A number that depends on all bits of two others. */
static inline uint64_t mixed(uint64_t a, uint64_t b) {
    uint64_t x = a * UINT64_C(0x9e3779b97f4a7c15) + b + UINT64_C(0x632be59bd9b4e019);
    x = (x ^ x >> 30) * UINT64_C(0xbf58476d1ce4e5b9);
    x = (x ^ x >> 27) * UINT64_C(0x94d049bb133111eb);
    return x ^ x >> 31;
}

static inline uint32_t drawn(uint64_t *state, uint32_t below) {
    *state = mixed(*state, 1);
    return (uint32_t)(*state >> 32) % below;
}

/* Who is struck in a round: kinds of all numbers. Rounds go in pairs. At the first of a pair some heads are killed, who are away in the
 * second too; in each some others are struck otherwise; together at most a->most. One pair of five is quiet. */
static inline void strikes_of(const struct attack *a, uint64_t round, uint8_t kinds[NUMBERS]) {
    uint64_t own = mixed(a->seed, a->run), pair = (round + (own & 1)) / 2, s = mixed(own, 2 * pair), t = mixed(own, 2 * round + 1);
    int second = (int)((round + (own & 1)) & 1) != 0;
    uint32_t order[32], kills, others;
    memset(kinds, NONE, NUMBERS);
    for (uint32_t i = 0; i < a->n; i++) { /* a shuffle that both rounds of a pair have alike */
        uint32_t j = drawn(&s, i + 1);
        order[i] = order[j], order[j] = i;
    }
    if (drawn(&s, 5) == 0 || a->most == 0)
        return;
    kills = drawn(&s, 3) == 0 ? 0 : drawn(&s, a->most + 1);
    others = drawn(&t, 4) == 0 ? drawn(&t, a->most - kills + 1) : a->most - kills;
    for (uint32_t i = 0; i < kills; i++)
        kinds[order[i]] = second ? AWAY : KILL;
    for (uint32_t i = 0; i < others; i++) {
        uint32_t j = kills + drawn(&t, a->n - kills);
        if (kinds[order[j]] == NONE)
            kinds[order[j]] = (uint8_t)(LIE + drawn(&t, 3));
    }
    for (uint32_t i = 32; i < 32 + a->m; i++)
        if (drawn(&t, 8) == 0)
            kinds[i] = DOZE;
}

/* A first position: the runs take turns at the two ends of the range, so that what comes from the run before is out of range. */
static inline int32_t first_position(const struct attack *a, uint32_t number) {
    uint64_t s = mixed(mixed(a->seed, a->run), 1000 + number);
    int32_t low = a->run & 1 ? -1000000 : 500000;
    return number == 0 ? low : number == 1 ? low + 500000 : low + (int32_t)drawn(&s, 500001);
}

/* ---- reports: bytes, lowest first, so that devices of any kind report alike */
struct said {
    uint32_t run, number, round, heard, ahead, behind, bad, other_run, doubled, refused, kind, marks, refusal, restarted, too_few, held,
        has_kept, since;
    int32_t position, lowest, highest, left; /* left: microseconds until the end of the round when it had ended */
};

static inline void put4(uint8_t *at, uint32_t word) {
    for (int i = 0; i < 4; i++)
        at[i] = (uint8_t)(word >> 8 * i);
}

static inline uint32_t get4(const uint8_t *at) {
    return at[0] | (uint32_t)at[1] << 8 | (uint32_t)at[2] << 16 | (uint32_t)at[3] << 24;
}

/* Both ways over one list of fields: writes the bytes of *x if `out`, otherwise reads them. */
static inline void said_bytes(struct said *x, uint8_t bytes[REPORT_BYTES], int out) {
    uint32_t *words[] = {&x->run, &x->round, &x->heard, &x->ahead, &x->behind, &x->bad, &x->other_run, &x->doubled, &x->refused};
    int32_t *places[] = {&x->position, &x->lowest, &x->highest, &x->left};
    uint32_t *small[] = {&x->number, &x->kind, &x->marks, &x->refusal, &x->restarted, &x->too_few, &x->held, &x->has_kept, &x->since};
    uint8_t *at = bytes;
    for (unsigned i = 0; i < 9; i++, at += 4)
        out ? put4(at, *words[i]) : (void)(*words[i] = get4(at));
    for (unsigned i = 0; i < 4; i++, at += 4)
        out ? put4(at, (uint32_t)*places[i]) : (void)(*places[i] = (int32_t)get4(at));
    for (unsigned i = 0; i < 9; i++, at += 1)
        out ? (void)(*at = (uint8_t)*small[i]) : (void)(*small[i] = *at);
    if (out)
        memset(at, 0, (size_t)(bytes + REPORT_BYTES - at));
}

#endif
