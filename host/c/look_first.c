/* Two hosts that look before the lens moves (document 02, A8), in a ring of five heads of which one may be struck. The host of head 2 shows what is
 * offered to a person and adopts only after a yes. The host of head 4 does the same, and in phase 2 its yes comes too late: the next round has begun, so
 * that head counts as struck in the round that it did not end, and is restarted. The other hosts adopt at once. In phase 1 a frame comes to head 2 after it
 * has offered: the offer lapses, and the host closes again. What the two persons see is printed, then the number of checks; the first that fails stops the
 * program. */
#include "check.h"

enum { N = 5, F = 1, ASKS = 2, LATE = 4, BEHIND = 3 }; /* BEHIND: whose frame comes to head 2 late in phase 1 */

static focus_head heads[N];
static uint32_t phase = 1, round_now = 0, before = 0; /* before: who was struck in the round before, or counts as struck in it */

/* What a person sees of an offer: the position that the lens would travel to, and the range of the entries it was taken from. The lens has not moved. */
static void show(uint32_t i, int32_t held) {
    focus_kept kept;
    int32_t position = 0;
    same("an offer stands", focus_head_has_offer(&heads[i], &kept), 1);
    same("the head holds what it held", focus_head_has_position(&heads[i], &position), 1);
    same("its position", position, held);
    same("the offer lies in its range", kept.lowest <= kept.position && kept.position <= kept.highest, 1);
    printf("phase %u: head %u at %d is offered %d, kept %d to %d, trim %d\n", phase, i, position, kept.position, kept.lowest, kept.highest, kept.trim);
}

/* Until the yes comes: whatever is refused leaves the offer standing, and so does asking for it again. */
static void wait_for_a_person(uint32_t i, const uint8_t *heard, size_t length) {
    uint8_t frame[FOCUS_FRAME_MAX];
    focus_head other = heads[i];
    size_t written;
    same("a link that was heard", focus_head_hear(&heads[i], 0, heard, length), FOCUS_ALREADY_HEARD);
    same("a link that no head has", focus_head_hear(&heads[i], N, heard, length), FOCUS_NUMBER_TOO_HIGH);
    same("a restart in no round", focus_head_restart(&heads[i], N, F, i, phase, 2), FOCUS_PHASE_OUT_OF_RANGE);
    same("writing", focus_head_write(&heads[i], frame, sizeof frame, &written), 0);
    same("offering again", focus_head_close(&heads[i]), 0);
    same("nothing has changed", memcmp(&other, &heads[i], sizeof other), 0);
}

/* A frame that is accepted ends the offer; the host closes again, and a new one stands. */
static void heard_late(uint32_t i, const uint8_t *frame, size_t length) {
    focus_kept kept;
    same("a frame that comes late", focus_head_hear(&heads[i], BEHIND, frame, length), 0);
    same("the offer has lapsed", focus_head_has_offer(&heads[i], &kept), 0);
    same("nothing to adopt", focus_head_adopt(&heads[i]), FOCUS_NO_OFFER);
    same("close again", focus_head_close(&heads[i]), 0);
}

static void adopt(uint32_t i) {
    uint8_t events;
    same("no phase end yet", focus_head_register(&heads[i], FOCUS_WINDOW_EVENTS, &events), 0);
    same("no event of it", events & FOCUS_EVENT_PHASE_END, 0);
    same("adopt", focus_head_adopt(&heads[i]), 0);
    same("adopt twice", focus_head_adopt(&heads[i]), FOCUS_NO_OFFER);
    same("the window", focus_head_register(&heads[i], FOCUS_WINDOW_EVENTS, &events), 0);
    same("the phase end is an event", events & FOCUS_EVENT_PHASE_END, FOCUS_EVENT_PHASE_END);
    same("clear it", focus_head_set_register(&heads[i], FOCUS_WINDOW_EVENTS, FOCUS_EVENT_PHASE_END), 0);
}

/* Whether head i does not hear head k before it closes. */
static int is_behind(uint32_t i, uint32_t k) {
    return phase == 1 && round_now == 1 && i == ASKS && k == BEHIND;
}

/* One round: all restart that counted as struck, then all speak, hear and close. */
static void play(uint8_t frames[N][FOCUS_FRAME_MAX], size_t *lengths) {
    for (uint32_t i = 0; i < N; i++) {
        if (before >> i & 1)
            same("restart", focus_head_restart(&heads[i], N, F, i, phase, round_now), 0);
        same("write", focus_head_write(&heads[i], frames[i], FOCUS_FRAME_MAX, &lengths[i]), 0);
    }
    for (uint32_t i = 0; i < N; i++) {
        for (uint32_t k = 0; k < N; k++)
            if (!is_behind(i, k))
                same("hear", focus_head_hear(&heads[i], k, frames[k], lengths[k]), 0);
        same("close", focus_head_close(&heads[i]), 0);
    }
    before = 0;
}

/* A phase; `late`: whose person has not answered when the next round begins. */
static void phase_of(uint32_t late) {
    static uint8_t frames[N][FOCUS_FRAME_MAX];
    size_t lengths[N];
    int32_t held[N] = {0};
    play(frames, lengths);
    round_now = 1;
    play(frames, lengths);
    for (uint32_t i = 0; i < N; i++) {
        uint8_t has = focus_head_has_position(&heads[i], &held[i]);
        if (has && (i == ASKS || i == LATE)) {
            show(i, held[i]);
            wait_for_a_person(i, frames[0], lengths[0]);
        }
        if (is_behind(i, BEHIND)) {
            heard_late(i, frames[BEHIND], lengths[BEHIND]);
            show(i, held[i]);
        }
        if (!(late >> i & 1))
            adopt(i);
    }
    before = late;
    phase++, round_now = 0;
}

static void at(uint32_t i, int32_t want) {
    int32_t position = -777;
    same("a position is held", focus_head_has_position(&heads[i], &position), 1);
    same("position", position, want);
}

int main(void) {
    static const int32_t first[N] = {10, 20, 33, 40, 50};
    for (uint32_t i = 0; i < N; i++)
        same("start", focus_head_start(&heads[i], N, F, i, first[i]), 0);

    phase_of(0); /* all say yes in time */
    for (uint32_t i = 0; i < N; i++)
        at(i, 30);

    phase_of(1u << LATE); /* the yes of head 4 comes too late */
    printf("phase 3 has begun: head %d did not adopt, counts as struck in phase 2, and is restarted\n", LATE);
    phase_of(0); /* it is silent, hears, and holds a position again */
    for (uint32_t i = 0; i < N; i++)
        at(i, 30);
    return all_checked();
}
