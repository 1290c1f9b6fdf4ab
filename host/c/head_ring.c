/* A ring of heads that C keeps, with listeners, driven through phases: the paper's worked example, heads and listeners struck and healed, a liar who
 * says something else to each neighbour, the (8,2) case in which spread 2 stays 2, one-round rings with heads and listeners that do not adopt in time, and the last
 * phase of either family. The number of checks is printed; the first that fails stops the program.
 * Usage: head_ring [PHASES], so many in the last run; what is refused after phase 65,535 is tried if it comes to that. */
#include "check.h"

/* Heads are numbered 0 to n - 1, listeners from 32 on; bit i of a mark word is for number i. */
struct ring {
    uint32_t n, f, listeners, phase, round;
    int once; /* whether each round is a phase */
    uint64_t before;
    focus_head heads[48];
};

static int is_member(const struct ring *r, uint32_t i) {
    return i < r->n || (32 <= i && i < 32 + r->listeners);
}

static void start(struct ring *r, int once, uint32_t n, uint32_t f, const int32_t *positions, uint32_t listeners) {
    memset(r, 0, sizeof *r);
    r->n = n, r->f = f, r->listeners = listeners, r->phase = 1, r->once = once;
    for (uint32_t i = 0; i < n; i++)
        same("start", (once ? focus_one_round_start : focus_head_start)(&r->heads[i], n, f, i, positions[i]), 0);
    for (uint32_t i = 32; i < 32 + listeners; i++)
        same("start a listener", (once ? focus_one_round_listener_start : focus_listener_start)(&r->heads[i], n, f, i), 0);
}

static void restart(struct ring *r, uint32_t i) {
    focus_head_window_reset(&r->heads[i], FOCUS_EVENT_TOO_FEW); /* the strike took events and mask too */
    if (i < 32)
        same("restart", (r->once ? focus_one_round_restart : focus_head_restart)(&r->heads[i], r->n, r->f, i, r->phase, r->round), 0);
    else
        same("restart a listener", (r->once ? focus_one_round_listener_restart : focus_listener_restart)(&r->heads[i], r->n, r->f, i, r->phase, r->round), 0);
}

/* What a struck head puts on a link: the frame's length, 0 for nothing. */
typedef size_t (*liar)(const struct ring *r, uint32_t from, uint32_t to, uint8_t *frame);

/* Memory of the struck is lost, the healed restart, and all heads that are not struck write; a listener sends nothing. */
static void speak(struct ring *r, uint64_t struck, uint8_t frames[][FOCUS_FRAME_MAX], size_t *lengths) {
    for (uint32_t i = 0; i < 48; i++) {
        if (!is_member(r, i))
            continue;
        if (struck >> i & 1) {
            memset(&r->heads[i], 0xa5, sizeof r->heads[i]);
            continue;
        }
        if (r->before >> i & 1)
            restart(r, i);
        same("write", focus_head_write(&r->heads[i], frames[i], FOCUS_FRAME_MAX, &lengths[i]), i < 32 ? 0 : FOCUS_LISTENER_SENDS_NOTHING);
    }
}

/* One round: every head and listener that is not struck hears every link and closes, and adopts what is offered. Those that are late do not adopt, and count as
 * struck in this round. */
static void play_late(struct ring *r, uint64_t struck, uint64_t late, liar lies) {
    int last = r->once || r->round == 1;
    uint8_t frames[48][FOCUS_FRAME_MAX], planted[FOCUS_FRAME_MAX];
    size_t lengths[48] = {0};
    speak(r, struck, frames, lengths);
    for (uint32_t i = 0; i < 48; i++) {
        if (!is_member(r, i) || struck >> i & 1)
            continue;
        for (uint32_t k = 0; k < r->n; k++) {
            if (!(struck >> k & 1))
                same("hear", focus_head_hear(&r->heads[i], k, frames[k], lengths[k]), 0);
            else if (lies) {
                size_t length = lies(r, k, i, planted);
                same("hear a liar", focus_head_hear(&r->heads[i], k, planted, length), length == 0 ? FOCUS_STATED_LENGTH_DIFFERS : 0);
            }
        }
        same("close", focus_head_close(&r->heads[i]), 0);
        if (!(late >> i & 1))
            same("adopt", focus_head_adopt(&r->heads[i]), last ? 0 : FOCUS_NO_OFFER);
    }
    r->before = struck | late;
    r->phase += last;
    r->round = !last;
}

static void play(struct ring *r, uint64_t struck, liar lies) {
    play_late(r, struck, 0, lies);
}

static void at(const struct ring *r, uint32_t i, int32_t want) {
    int32_t position = -777;
    same("a position is held", focus_head_has_position(&r->heads[i], &position), 1);
    same("position", position, want);
}

static void all_at(const struct ring *r, uint64_t struck, int32_t want) {
    for (uint32_t i = 0; i < 48; i++)
        if (is_member(r, i) && !(struck >> i & 1))
            at(r, i, want);
}

/* The lowest and highest position of those that are sound: neither struck nor late in the round before. */
static void range(const struct ring *r, int32_t *low, int32_t *high) {
    *low = INT32_MAX, *high = INT32_MIN;
    for (uint32_t i = 0; i < 48; i++) {
        int32_t v = 0;
        if (!is_member(r, i) || r->before >> i & 1)
            continue;
        same("a position is held", focus_head_has_position(&r->heads[i], &v), 1);
        *low = v < *low ? v : *low;
        *high = v > *high ? v : *high;
    }
}

/* another position to each neighbour, far out */
static size_t two_faced(const struct ring *r, uint32_t from, uint32_t to, uint8_t *frame) {
    uint8_t rest[4];
    put4(rest, to % 2 ? 1000000 : -1000000);
    return r->round == 0 ? put_frame(frame, 1, from, r->phase, rest, 4) : 0;
}

/* (8,2): heads 4 and 5 are struck in the confession round; head 4 confesses to head 6 only, head 5 to head 7 only; the others get the true list */
static size_t confess_to_one(const struct ring *r, uint32_t from, uint32_t to, uint8_t *frame) {
    static const int32_t values[8] = {0, 0, 0, 0, 2, 0, 0, 2}; /* heads 0 to 3 are null: healed in collection, or struck in it */
    if (r->round == 0)
        return 0;
    if (to == from + 2)
        return put_frame(frame, 4, from, r->phase, NULL, 0);
    return put_list(frame, from, r->phase, 8, 0xf0, values);
}

/* the worked example with 16 listeners: head 4 struck in collection, nothing sent; all settle at 25; then a liar in each round of several phases moves nobody,
 * and listeners that are struck, all but one of them, come back to 25 */
static void five(struct ring *r) {
    static const int32_t paper[5] = {10, 20, 30, 40, 50};
    start(r, 0, 5, 1, paper, 16);
    play(r, 0x10, NULL);
    for (uint32_t i = 32; i < 48; i++) {
        int32_t none = -777;
        same("no position before the first phase end", focus_head_has_position(&r->heads[i], &none), 0);
    }
    play(r, 0, NULL);
    all_at(r, 0, 25);
    for (int i = 0; i < 6; i++) {
        uint64_t struck = UINT64_C(1) << (i % 5), deaf = (UINT64_C(0xffff) ^ UINT64_C(1) << i) << 32;
        play(r, struck | deaf, two_faced);
        play(r, struck, two_faced);
        all_at(r, struck, 25);
    }
    same("phase", r->phase, 8);
}

/* spread 2 stays 2, with heads 0 and 1 struck in the confession round before */
static void eight(struct ring *r) {
    static const int32_t positions[8] = {0, 0, 2, 2, 2, 0, 0, 2};
    start(r, 0, 8, 2, positions, 0);
    r->before = 0x03;
    play(r, 0x0c, NULL);
    play(r, 0x30, confess_to_one);
    at(r, 6, 0);
    at(r, 7, 2);
}

/* A one-round ring of five: head 4 is late in phase 1, where all hear its position and the others settle at 30; in phase 2 it is restarted, silent, and settles with
 * them. Listener 33, late in phase 1 too, holds no position until then. */
static void once_late(struct ring *r) {
    static const int32_t positions[5] = {10, 20, 30, 40, 50};
    int32_t none = -777;
    start(r, 1, 5, 1, positions, 2);
    play_late(r, 0, UINT64_C(0x200000010), NULL);
    all_at(r, UINT64_C(0x200000010), 30);
    at(r, 4, 50); /* it only looked */
    same("a late listener holds none", focus_head_has_position(&r->heads[33], &none), 0);
    play(r, 0, NULL);
    all_at(r, 0, 30);
}

/* A one-round ring of nine with two listeners, in each round one head struck, which lies, and one late, both others than in the round before; listeners late and
 * struck besides. From round to round the spread of those that are sound halves, rounded up, within the range. */
static void once_nine(struct ring *r) {
    static const int32_t positions[9] = {-1000000, 1000000, -1000000, 1000000, -1000000, 1000000, 3, 1000000, -1000000};
    int32_t low = -1000000, high = 1000000;
    start(r, 1, 9, 2, positions, 2);
    for (uint32_t i = 0; i < 200; i++) {
        uint64_t struck = UINT64_C(1) << (4 * i % 9), late = UINT64_C(1) << ((4 * i + 2) % 9), deaf = UINT64_C(1) << (32 + i % 2);
        int32_t least, most;
        play_late(r, struck | (i % 3 == 1 ? deaf : 0), late | (i % 3 == 0 ? deaf : 0), two_faced);
        range(r, &least, &most);
        same("in the range", low <= least && most <= high, 1);
        same("halved", most - least <= (high - low + 1) / 2, 1);
        low = least, high = most;
    }
    same("all at one", high - low, 0);
    same("phase", r->phase, 201);
}

/* after the last phase only a start or a restart is taken; a listener's writing too is refused 26 */
static void after_all(focus_head *head) {
    uint8_t buffer[FOCUS_FRAME_MAX];
    size_t length = 99;
    same("write after the last phase", focus_head_write(head, buffer, sizeof buffer, &length), FOCUS_RUN_HAS_ENDED);
    same("length of a refused frame", (long long)length, 99);
    same("hear after the last phase", focus_head_hear(head, 40, buffer, 0), FOCUS_RUN_HAS_ENDED);
    same("close after the last phase", focus_head_close(head), FOCUS_RUN_HAS_ENDED);
    same("adopt after the last phase", focus_head_adopt(head), FOCUS_NO_OFFER);
    same("restart after the last phase", focus_head_restart(head, 1, 0, 0, 65535, 1), 0);
    same("start after the last phase", focus_head_start(head, 1, 0, 0, 3), 0);
}

int main(int argc, char **argv) {
    long phases = argc > 1 ? atol(argv[1]) : 65535;
    static const int32_t one = 7;
    static struct ring r;
    five(&r);
    eight(&r);
    once_late(&r);
    once_nine(&r);
    for (int once = 0; once < 2; once++) {
        start(&r, once, 1, 0, &one, 1);
        for (long i = 0; i < (once ? phases : 2 * phases); i++)
            play(&r, 0, NULL);
        all_at(&r, 0, 7);
        if (phases == 65535) {
            after_all(&r.heads[0]);
            after_all(&r.heads[32]);
            all_at(&r, 0, 3);
        }
    }
    return all_checked();
}
