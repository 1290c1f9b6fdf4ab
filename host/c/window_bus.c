/* A head behind its register window: a driver that knows the sixteen bytes alone masks events, waits for the interrupt line, reads what is pending and
 * clears it, while the head goes through phases, refusals 25 and 26, refused starts and restarts, a strike and the last phase. Every address of 0 to 255
 * is written and read. The number of checks is printed; the first that fails stops the program. */
#include "check.h"

enum { PHASE_END = FOCUS_EVENT_PHASE_END, TOO_FEW = FOCUS_EVENT_TOO_FEW, STRIKE_OVER = FOCUS_EVENT_STRIKE_OVER };
enum { HELD = 1, HEALED = 2, CONFESSION = 4 };

/* What the driver must see: the rest of the window follows from it. */
struct seen {
    uint8_t n, f, number, status;
    uint32_t phase;
    int32_t position;
    uint8_t events, mask;
};

/* All sixteen bytes, at once and one by one, and the line; none of it changes the block. */
static void shows(const focus_head *head, struct seen want) {
    focus_head before = *head;
    uint8_t bytes[16], all[16] = {want.n, want.f, want.number, want.status, (uint8_t)want.phase, (uint8_t)(want.phase >> 8)};
    put4(all + 6, want.position);
    all[10] = want.events, all[11] = want.mask;
    memset(bytes, 0xee, sizeof bytes);
    focus_head_window(head, bytes);
    for (uint32_t at = 0; at < 16; at++) {
        uint8_t byte = 0xee;
        tried = (int)at;
        same("read", focus_head_register(head, at, &byte), 0);
        same("a byte of the window", byte, all[at]);
        same("the same byte among all", bytes[at], all[at]);
    }
    same("the line", focus_head_has_interrupt(head), (want.events & want.mask) != 0);
    same("the block after reading", memcmp(head, &before, sizeof before), 0);
}

/* Past byte 15 nothing is read. */
static void reads_past(const focus_head *head) {
    static const uint32_t far[] = {256, 257, 266, 65536 + 10, UINT32_C(1) << 31, UINT32_MAX};
    for (uint32_t at = 16; at < 256 + 6; at++) {
        uint8_t byte = 0xee;
        tried = (int)at;
        same("read past the window", focus_head_register(head, at < 256 ? at : far[at - 256], &byte), FOCUS_NO_SUCH_REGISTER);
        same("what is lent for a byte", byte, 0xee);
    }
}

/* Every address is written, with every bit set and with none; only 10 and 11 take it. */
static void writes(const focus_head *head) {
    static const uint32_t far[] = {256, 256 + 10, 256 + 11, 65536 + 10, UINT32_C(1) << 31, UINT32_MAX};
    for (uint32_t i = 0; i < 256 + 6; i++)
        for (int byte = 0; byte < 256; byte += 255) {
            uint32_t at = i < 256 ? i : far[i - 256];
            focus_head copy = *head;
            int taken = at == 10 || at == 11;
            tried = (int)at;
            same("write", focus_head_set_register(&copy, at, (uint8_t)byte), taken ? 0 : FOCUS_NO_SUCH_REGISTER);
            if (!taken)
                same("the block after a refused write", memcmp(&copy, head, sizeof copy), 0);
        }
}

/* Every byte written over every pending set, and as every mask. */
static void bits(const focus_head *head, struct seen now) {
    for (int byte = 0; byte < 256; byte++) {
        focus_head copy = *head;
        struct seen want = now;
        tried = byte;
        same("clear", focus_head_set_register(&copy, FOCUS_WINDOW_EVENTS, (uint8_t)byte), 0);
        want.events &= (uint8_t)~byte;
        shows(&copy, want);
        same("mask", focus_head_set_register(&copy, FOCUS_WINDOW_MASK, (uint8_t)byte), 0);
        want.mask = byte & 7;
        shows(&copy, want);
    }
}

/* The driver: waits for the line, reads what is pending, clears it, and the line falls. */
static uint8_t served(focus_head *head, struct seen *now) {
    uint8_t pending = 0;
    same("the line is up", focus_head_has_interrupt(head), 1);
    same("read the events", focus_head_register(head, FOCUS_WINDOW_EVENTS, &pending), 0);
    same("clear them", focus_head_set_register(head, FOCUS_WINDOW_EVENTS, pending), 0);
    same("the line is down", focus_head_has_interrupt(head), 0);
    now->events = 0;
    shows(head, *now);
    return pending;
}

static void masks(focus_head *head, struct seen *now, uint8_t mask) {
    same("mask", focus_head_set_register(head, FOCUS_WINDOW_MASK, mask | 0xf8), 0);
    now->mask = mask;
    shows(head, *now);
}

/* The collection round is closed: no event. */
static void collected(focus_head *head, struct seen *now) {
    same("close the collection round", focus_head_close(head), 0);
    now->status = (uint8_t)((now->status & HELD) | CONFESSION);
    shows(head, *now);
}

/* The confession round: with lists of all entries at v from every link the phase ends there. */
static void confessed(focus_head *head, struct seen *now, int32_t v) {
    const int32_t entries[5] = {v, v, v, v, v};
    uint8_t frame[FOCUS_FRAME_MAX];
    for (unsigned k = 0; k < 5; k++) {
        same("hear", focus_head_hear(head, k, frame, put_list(frame, k, now->phase, 5, 0x1f, entries)), 0);
        shows(head, *now); /* hearing is no event */
    }
    same("offer the position", focus_head_close(head), 0);
    shows(head, *now); /* an offer is no event */
    same("end the phase", focus_head_adopt(head), 0);
    now->position = v;
    now->events |= PHASE_END;
    now->status = now->phase < 65535 ? HELD : HELD | CONFESSION;
    now->phase += now->phase < 65535;
    shows(head, *now);
}

/* Refused starts and restarts leave head, events and mask. */
static void refused(focus_head *head, struct seen now) {
    focus_head before = *head;
    same("a refused start", focus_head_start(head, 5, 1, 5, 3), FOCUS_NUMBER_TOO_HIGH);
    same("a start out of range", focus_head_start(head, 5, 1, 2, 1000001), FOCUS_POSITION_OUT_OF_RANGE);
    same("a refused restart", focus_head_restart(head, 5, 1, 2, 0, 0), FOCUS_PHASE_OUT_OF_RANGE);
    same("a restart of no ring", focus_head_restart(head, 0, 0, 0, 1, 0), FOCUS_BAD_HEAD_COUNT);
    same("the block after them", memcmp(head, &before, sizeof before), 0);
    shows(head, now);
}

static struct seen started(focus_head *head, int32_t position) {
    struct seen now = {5, 1, 2, HELD, 1, position, 0, 0};
    same("start", focus_head_start(head, 5, 1, 2, position), 0);
    shows(head, now); /* whatever was pending or masked */
    return now;
}

static void restarted(focus_head *head, struct seen *now, uint32_t phase, uint32_t round) {
    same("restart", focus_head_restart(head, 5, 1, 2, phase, round), 0);
    now->status = (uint8_t)(HEALED | (round ? CONFESSION : 0));
    now->phase = phase, now->position = 0;
    now->events |= STRIKE_OVER;
    shows(head, *now);
}

/* A strike takes the block, and with it what stands beside the head. The host writes the window anew, and restarts the head: only that is pending. */
static void struck(focus_head *head, struct seen *now, uint8_t mask, uint32_t phase, uint32_t round) {
    for (int left = 0; left < 256; left++) {
        tried = left;
        memset(head, left, sizeof *head);
        focus_head_window_reset(head, mask | 0xf8);
        now->events = 0, now->mask = mask;
        restarted(head, now, phase, round);
    }
}

int main(void) {
    static focus_head head;
    shows(&head, (struct seen){0, 0, 0, 0, 0, 0, 0, 0});

    /* phases under a mask that lets nothing through, then phase ends */
    struct seen now = started(&head, -7);
    collected(&head, &now);
    confessed(&head, &now, -1000000);
    same("nothing is masked in", focus_head_has_interrupt(&head), 0);
    masks(&head, &now, PHASE_END);
    same("a phase end", served(&head, &now), PHASE_END);
    collected(&head, &now);
    confessed(&head, &now, 1000000);
    refused(&head, now);
    same("a phase end", served(&head, &now), PHASE_END);

    /* a closing refused 25, twice: its event comes again, and nothing else */
    masks(&head, &now, TOO_FEW);
    collected(&head, &now);
    for (int times = 0; times < 2; times++) {
        same("nothing heard", focus_head_close(&head), FOCUS_TOO_FEW_TRUSTED);
        now.events |= TOO_FEW;
        shows(&head, now);
        same("refusal 25", served(&head, &now), TOO_FEW);
    }

    /* a restart keeps events and mask, where no strike took them */
    masks(&head, &now, STRIKE_OVER | TOO_FEW);
    restarted(&head, &now, 513, 0);
    refused(&head, now);
    collected(&head, &now); /* healed in the collection round: no longer shown */
    same("no position is held", now.status & HELD, 0);
    confessed(&head, &now, 77);
    same("a strike over and a phase end", served(&head, &now), STRIKE_OVER | PHASE_END);
    struck(&head, &now, STRIKE_OVER, 65535, 1);
    same("a strike over", served(&head, &now), STRIKE_OVER);

    /* the last phase: phase and round stay, and refusal 26 is no event */
    masks(&head, &now, PHASE_END | TOO_FEW | STRIKE_OVER);
    confessed(&head, &now, -3);
    same("the last phase end", served(&head, &now), PHASE_END);
    same("close at the end", focus_head_close(&head), FOCUS_RUN_HAS_ENDED);
    same("adopt at the end", focus_head_adopt(&head), FOCUS_NO_OFFER);
    same("hear at the end", focus_head_hear(&head, 0, (const uint8_t *)"", 0), FOCUS_RUN_HAS_ENDED);
    shows(&head, now);
    refused(&head, now);

    /* all events pending at the end: every address, every byte */
    restarted(&head, &now, 65535, 1);
    same("nothing heard", focus_head_close(&head), FOCUS_TOO_FEW_TRUSTED);
    now.events |= TOO_FEW;
    confessed(&head, &now, 5);
    same("all three are pending", now.events, 7);
    writes(&head);
    reads_past(&head);
    bits(&head, now);
    started(&head, 1000000);
    return all_checked();
}
