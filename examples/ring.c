/* A ring of five heads, of which motor noise strikes one in each phase, from focus.h alone. It prints a line for each phase.
 *
 *     gcc -I PREFIX/include examples/ring.c PREFIX/lib/libfocus.a -o ring && ./ring [PHASES]
 *
 * A phase has two rounds. In each, every head writes one frame, hears all five links, its own too, and closes the round; at the end of the
 * second it adopts what it settled. A struck head loses its memory and says something else to each neighbour; when the strike is over it is
 * restarted. The liar here pulls one neighbour as far as it can: the spread halves all the same. One process keeps all heads and hands the
 * frames on; on a rig each head has a board of its own, and a cable does that. */
#include <focus.h>

#include <stdio.h>
#include <stdlib.h>
#include <string.h>

enum { N = 5, F = 1, NONE = N };
static focus_head heads[N];

/* Every call but those named `has` answers 0 or the number of a refusal. None is expected of a ring that is driven rightly. */
static void must(uint8_t refusal, const char *what, unsigned head) {
    if (refusal != FOCUS_OK) {
        fprintf(stderr, "%s of head %u: refused %u, %s\n", what, head, refusal, focus_refusal_text(refusal));
        exit(1);
    }
}

/* What a struck head says to another: it is at the far end, and all are. Only to its next neighbour it stays with that in the second round.
 * The frames are well formed, so that they are taken. */
static size_t lie(uint8_t *frame, unsigned sender, unsigned receiver, unsigned phase, unsigned round) {
    int is_next = receiver == (sender + 1) % N, is_told = receiver != (sender + 2) % N;
    int32_t position = (round == FOCUS_ROUND_COLLECTION ? is_told : is_next) ? FOCUS_POSITION_MAX : FOCUS_POSITION_MIN;
    const uint8_t list[] = {N, (1 << N) - 1, 0, 0, 0}; /* how many entries, and which of them are positions: all */
    uint8_t kind = round == FOCUS_ROUND_COLLECTION ? FOCUS_FRAME_POSITION : FOCUS_FRAME_LIST;
    size_t entries = kind == FOCUS_FRAME_POSITION ? 1 : N, at = FOCUS_FRAME_REST;
    if (kind == FOCUS_FRAME_LIST)
        memcpy(frame + at, list, sizeof list), at += sizeof list;
    for (size_t end = at + 4 * entries; at < end; at++)
        frame[at] = (uint8_t)((uint32_t)position >> 8 * ((at - FOCUS_FRAME_REST - (kind == FOCUS_FRAME_LIST)) % 4)); /* lowest byte first */
    const uint8_t front[] = {(uint8_t)at, 0, kind, 0, (uint8_t)sender, (uint8_t)phase, (uint8_t)(phase >> 8)};
    memcpy(frame, front, sizeof front);
    return at;
}

/* One round: who was struck before and is not now is restarted; then all that are not struck write, hear, and close. */
static void play_round(unsigned phase, unsigned round, unsigned before, unsigned struck) {
    static uint8_t frames[N][FOCUS_FRAME_MAX];
    size_t length[N];
    if (before != NONE && before != struck) {
        focus_head_window_reset(&heads[before], 0);
        must(focus_head_restart(&heads[before], N, F, before, phase, round), "restart", before);
    }
    if (struck != NONE)
        memset(&heads[struck], 0xA5, sizeof heads[struck]); /* whatever was in its memory */
    for (unsigned k = 0; k < N; k++)
        if (k != struck)
            must(focus_head_write(&heads[k], frames[k], sizeof frames[k], &length[k]), "writing", k);
    for (unsigned i = 0; i < N; i++) {
        if (i == struck)
            continue;
        for (unsigned k = 0; k < N; k++) {
            if (k == struck)
                length[k] = lie(frames[k], k, i, phase, round);
            uint8_t refusal = focus_head_hear(&heads[i], k, frames[k], length[k]);
            if (k != struck) /* a struck head may send anything, so a refusal of its frame is no fault */
                must(refusal, "hearing", i);
        }
        must(focus_head_close(&heads[i]), "closing", i);
        if (round == FOCUS_ROUND_CONFESSION)
            must(focus_head_adopt(&heads[i]), "adopting", i);
    }
}

static void print_phase(unsigned phase, unsigned struck) {
    int32_t low = INT32_MAX, high = INT32_MIN, position;
    for (unsigned i = 0; i < N; i++)
        if (i != struck && focus_head_has_position(&heads[i], &position)) {
            low = position < low ? position : low;
            high = position > high ? position : high;
        }
    printf(struck == NONE ? "%5u %9d %9d %8d  none\n" : "%5u %9d %9d %8d  %u\n", phase, low, high, high - low, struck);
}

int main(int count, char **words) {
    static const int32_t begin[N] = {-900000, -5, 17, 800000, 1000000};
    unsigned phases = count > 1 ? (unsigned)strtoul(words[1], NULL, 10) : 24, before = NONE;
    int asked = count == 2 && strcmp(words[1], "--help") == 0;
    if (asked || count > 2 || phases < 1 || phases > FOCUS_PHASES_MAX)
        return fprintf(asked ? stdout : stderr, "usage: ring [PHASES], from 1 to %d\n", FOCUS_PHASES_MAX), asked ? 0 : 2;
    for (unsigned i = 0; i < N; i++)
        must(focus_head_start(&heads[i], N, F, i, begin[i]), "start", i);
    printf("phase       low      high   spread  struck\n");
    print_phase(0, NONE);
    for (unsigned phase = 1; phase <= phases; phase++) {
        unsigned struck = phase <= 20 ? 4 : 0; /* a motor that is noisy for long, then another one */
        play_round(phase, FOCUS_ROUND_COLLECTION, before, struck);
        play_round(phase, FOCUS_ROUND_CONFESSION, struck, struck);
        print_phase(phase, before = struck);
    }
    return 0;
}
