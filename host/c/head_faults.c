/* The calls of heads and listeners, in rings of two rounds and of one: every refusal alone, and every set of faults together, so each order of two among
 * them: the first in the order of checks decides. A refusal leaves the block, the buffer and the numbers lent as they were. Then what focus.h says of blocks
 * that no start made. The number of checks is printed; the first that fails stops the program. */
#include "check.h"

static int same_block(const focus_head *a, const focus_head *b) {
    return memcmp(a, b, sizeof *a) == 0;
}

/* A call's number, and that a refusal changed nothing in the block. */
static void answered(const char *what, uint8_t got, uint8_t want, const focus_head *head, const focus_head *before) {
    same(what, got, want);
    if (want != 0)
        same("the block after a refusal", same_block(head, before), 1);
}

/* a list of five entries of 7 */
static size_t sevens(uint8_t *frame, unsigned sender, unsigned phase) {
    static const int32_t entries[5] = {7, 7, 7, 7, 7};
    return put_list(frame, sender, phase, 5, 0x1f, entries);
}

/* a start under a head's number, or under a listener's, in a two-round ring or in a one-round one */
static uint8_t start(focus_head *head, uint32_t n, uint32_t f, uint32_t number, int32_t position, int listens, int once) {
    if (listens)
        return once ? focus_one_round_listener_start(head, n, f, number) : focus_listener_start(head, n, f, number);
    return once ? focus_one_round_start(head, n, f, number, position) : focus_head_start(head, n, f, number, position);
}

static uint8_t restart(focus_head *head, uint32_t n, uint32_t f, uint32_t number, uint32_t phase, uint32_t round, int listens, int once) {
    if (listens)
        return once ? focus_one_round_listener_restart(head, n, f, number, phase, round) : focus_listener_restart(head, n, f, number, phase, round);
    return once ? focus_one_round_restart(head, n, f, number, phase, round) : focus_head_restart(head, n, f, number, phase, round);
}

/* a member of a ring of five under this number, in phase p and round 1, with the first `lists` links heard */
static focus_head confessing(uint32_t number, unsigned phase, unsigned lists) {
    focus_head head = {{0}};
    uint8_t frame[FOCUS_FRAME_MAX];
    same("restart", restart(&head, 5, 1, number, phase, 1, number >= 32, 0), 0);
    for (unsigned k = 0; k < lists; k++)
        same("hear", focus_head_hear(&head, k, frame, sevens(frame, k, phase)), 0);
    return head;
}

static focus_head in_confession(unsigned phase, unsigned lists) {
    return confessing(0, phase, lists);
}

static focus_head ended_under(uint32_t number) {
    focus_head head = confessing(number, 65535, 5);
    same("close", focus_head_close(&head), 0);
    same("adopt", focus_head_adopt(&head), 0);
    return head;
}

static focus_head ended(void) {
    return ended_under(0);
}

/* numbers that are listeners', and numbers that are not */
static const uint32_t listeners[6] = {32, 33, 40, 45, 46, 47}, no_listeners[6] = {0, 4, 31, 48, 256 + 32, UINT32_MAX};

/* the number of a struck limit that is too high */
static uint8_t limit(int once) {
    return once ? FOCUS_ONE_ROUND_LIMIT_TOO_HIGH : FOCUS_STRUCK_LIMIT_TOO_HIGH;
}

static void starts(int once) {
    const uint8_t order[] = {FOCUS_BAD_HEAD_COUNT, limit(once), FOCUS_NUMBER_TOO_HIGH, FOCUS_POSITION_OUT_OF_RANGE};
    for (int faults = 0; faults < 16; faults++) {
        focus_head head = in_confession(9, 2), before = head;
        uint32_t n = faults & 1 ? 33 : 5, f = faults & 2 ? 20 : 1, number = faults & 4 ? n : n - 1;
        tried = faults;
        uint8_t got = start(&head, n, f, number, faults & 8 ? -1000001 : -1000000, 0, once);
        answered("start", got, first(faults, order, 4), &head, &before);
    }
}

static void listener_starts(int once) {
    const uint8_t order[] = {FOCUS_BAD_HEAD_COUNT, limit(once), FOCUS_NUMBER_TOO_HIGH};
    for (int faults = 0; faults < 8; faults++)
        for (size_t t = 0; t < 6; t++) {
            focus_head head = in_confession(9, 2), before = head;
            uint32_t n = faults & 1 ? 33 : 5, f = faults & 2 ? 20 : 1, number = faults & 4 ? no_listeners[t] : listeners[t];
            tried = faults;
            answered("a listener's start", start(&head, n, f, number, 0, 1, once), first(faults, order, 3), &head, &before);
        }
}

/* In a one-round ring round 1 is refused too. */
static void restarts(int listens, int once) {
    const uint8_t order[] = {FOCUS_BAD_HEAD_COUNT, limit(once), FOCUS_NUMBER_TOO_HIGH, FOCUS_PHASE_OUT_OF_RANGE};
    const uint32_t times[][2] = {{0, 0}, {65536, 1 - once}, {1, 2 - once}, {7, 255}, {0, 9}, {UINT32_MAX, UINT32_MAX}};
    static const uint32_t heads[6] = {0, 1, 2, 3, 4, 4}, no_heads[6] = {5, 31, 32, 47, 256, UINT32_MAX};
    for (int faults = 0; faults < 16; faults++)
        for (size_t t = 0; t < 6; t++) {
            focus_head head = in_confession(9, 2), before = head;
            const uint32_t *numbers = listens ? (faults & 4 ? no_listeners : listeners) : faults & 4 ? no_heads : heads;
            uint32_t n = faults & 1 ? 0 : 5, f = faults & 2 ? UINT32_MAX : 1;
            uint32_t phase = faults & 8 ? times[t][0] : 65535, round = faults & 8 ? times[t][1] : once ? 0 : t % 2;
            tried = faults;
            answered("restart", restart(&head, n, f, numbers[t], phase, round, listens, once), first(faults, order, 4), &head, &before);
        }
}

/* Which sizes a one-round ring takes: n at least 4f + 1. */
static void one_round_sizes(void) {
    tried = 0;
    for (uint32_t n = 1; n <= 32; n++)
        for (uint32_t f = 0; f < 300; f++) {
            focus_head head = {{0}};
            uint8_t want = n < 4 * f + 1 ? FOCUS_ONE_ROUND_LIMIT_TOO_HIGH : 0;
            same("a size", focus_one_round_start(&head, n, f, 0, 7), want);
            same("a listener's size", focus_one_round_listener_restart(&head, n, f, 47, 1, 0), want);
        }
    focus_head head = {{0}};
    same("f at which 4f is 0 again", focus_one_round_start(&head, 5, 1u << 30, 0, 7), FOCUS_ONE_ROUND_LIMIT_TOO_HIGH);
    same("f at which 4f + 1 is 5 again", focus_one_round_restart(&head, 5, (1u << 30) + 1, 0, 1, 0), FOCUS_ONE_ROUND_LIMIT_TOO_HIGH);
}

enum { ENDED = 1, NUMBER = 2, HEARD = 4, LENGTH = 8, KIND = 16, KIND_LENGTH = 32 };
enum { ROUND = 64, SENDER = 128, PHASE = 256, MARKS = 512, ENTRY = 1024, HEAR = 2048 };

/* A head in a confession round, with those faults of a set that lie in the head. */
static focus_head hearer(int faults, unsigned phase) {
    uint8_t frame[FOCUS_FRAME_MAX];
    if (faults & ENDED)
        return ended();
    focus_head head = in_confession(phase, 0);
    if (faults & ROUND)
        same("start", focus_head_start(&head, 5, 1, 0, 7), 0);
    if (faults & HEARD) /* silence, or a confession */
        same("hear", focus_head_hear(&head, 1, frame, put_frame(frame, faults & ROUND ? 2 : 4, 1, phase, NULL, 0)), 0);
    return head;
}

/* A list on link 1, with those faults of a set that lie in the frame: its length. */
static size_t faulty_list(uint8_t *frame, int faults, unsigned phase) {
    size_t length = sevens(frame, faults & SENDER ? 2 : 1, faults & PHASE ? phase - 1 : phase);
    if (faults & KIND)
        frame[2] = 5;
    if (faults & KIND_LENGTH)
        frame[7] = 6;
    if (faults & MARKS)
        frame[8] |= 0x20;
    if (faults & ENTRY)
        frame[12 + 3] = 0x7f;
    if (faults & LENGTH)
        frame[length++] = 0;
    return length;
}

static void hears(void) {
    static const uint8_t order[] = {FOCUS_RUN_HAS_ENDED, FOCUS_NUMBER_TOO_HIGH, FOCUS_ALREADY_HEARD,       FOCUS_STATED_LENGTH_DIFFERS, FOCUS_UNKNOWN_KIND, FOCUS_WRONG_LENGTH_FOR_KIND,
                                    FOCUS_OTHER_ROUND, FOCUS_SENDER_IS_NOT_LINK, FOCUS_OTHER_PHASE, FOCUS_BAD_COUNT_OR_MARKS,  FOCUS_ENTRY_OUT_OF_RANGE};
    for (int faults = 0; faults < HEAR; faults++) {
        uint8_t frame[FOCUS_FRAME_MAX + 1], copy[sizeof frame];
        unsigned phase = faults & ENDED ? 65535 : 1;
        tried = faults;
        focus_head head = hearer(faults, phase), before = head;
        size_t length = faulty_list(frame, faults, phase);
        memcpy(copy, frame, length);
        uint8_t got = focus_head_hear(&head, faults & NUMBER ? 5 : 1, frame, length);
        answered("hear", got, first(faults, order, 11), &head, &before);
        same("the frame heard", memcmp(copy, frame, length), 0);
    }
}

/* An entry of a batch: the link byte and the frame behind it. */
static size_t put_entry(uint8_t *at, unsigned link, unsigned phase) {
    at[0] = (uint8_t)link;
    return 1 + sevens(at + 1, link, phase);
}

enum { ROOM = 8, BATCH = 5 * (1 + FOCUS_FRAME_MAX) };

/* A batch is refused 15, then 24, and leaves block, buffer and count; else it is heard as its frames one by one. Link 5 is refused 3, the second frame of
 * link 1 is refused 21. */
static void batches(void) {
    static const uint8_t order[] = {FOCUS_BAD_BATCH_ENTRY, FOCUS_BUFFER_TOO_SHORT};
    static const unsigned links[] = {1, 5, 1, 0};
    for (int faults = 0; faults < 8; faults++) {
        int last = faults >> 2; /* the head has ended: no refusal of the batch, and each frame is refused 26 */
        unsigned phase = last ? 65535 : 9;
        focus_head head = last ? ended() : in_confession(phase, 0), before = head, one = head;
        uint8_t batch[BATCH], answers[ROOM], copy[ROOM], want = first(faults & 3, order, 2);
        size_t length = 0, count = 99, room = faults & 2 ? 3 : 4;
        memset(answers, 0xee, sizeof answers);
        memcpy(copy, answers, sizeof answers);
        for (size_t i = 0; i < 4; i++) {
            length += put_entry(batch + length, links[i], phase);
            if (want == 0)
                copy[i] = focus_head_hear(&one, links[i], batch + length - 32, 32);
        }
        if (faults & 1)
            batch[length++] = 1; /* a link without a frame */
        tried = faults;
        answered("batch", focus_head_hear_batch(&head, batch, length, answers, room, &count), want, &head, &before);
        same("the block after a batch", same_block(&head, &one), 1);
        same("the answers", memcmp(answers, copy, sizeof answers), 0);
        same("the number of frames", (long long)count, want ? 99 : 4);
        same("the second answer", answers[1], want ? 0xee : last ? FOCUS_RUN_HAS_ENDED : FOCUS_NUMBER_TOO_HIGH);
    }
}

/* Where a batch is cut, one entry at a time: no bytes; a lone link byte; half a length field; a field of 3; a field of 4, heard as 8; a frame with a byte too few. */
static void batch_cuts(void) {
    static const struct { uint8_t bytes[8]; size_t length; uint8_t want, answer; } cuts[] = {
        {{0}, 0, 0, 0xee}, {{0}, 1, 15, 0xee}, {{0, 7}, 2, 15, 0xee}, {{0, 3, 0, 2}, 4, 15, 0xee}, {{0, 4, 0, 1, 0}, 5, 0, FOCUS_WRONG_LENGTH_FOR_KIND},
        {{0, 7, 0, 2, 0, 0, 1, 0}, 7, 15, 0xee}, {{0, 7, 0, 2, 0, 0, 1, 0}, 8, 0, 0},
    };
    for (size_t i = 0; i < sizeof cuts / sizeof *cuts; i++) {
        focus_head head = {{0}};
        uint8_t answer = 0xee;
        size_t count = 99, room = cuts[i].answer == 0xee && cuts[i].want == 0 ? 0 : 1;
        tried = (int)i;
        same("start", focus_head_start(&head, 5, 1, 0, 7), 0);
        focus_head before = head;
        answered("a batch of one", focus_head_hear_batch(&head, cuts[i].bytes, cuts[i].length, &answer, room, &count), cuts[i].want, &head, &before);
        same("its answer", answer, cuts[i].answer);
        same("its number of frames", (long long)count, cuts[i].want ? 99 : cuts[i].answer != 0xee);
    }
}

static void writes(void) {
    static const uint8_t order[] = {FOCUS_RUN_HAS_ENDED, FOCUS_LISTENER_SENDS_NOTHING, FOCUS_BUFFER_TOO_SHORT};
    for (int faults = 0; faults < 8; faults++) {
        uint8_t buffer[FOCUS_FRAME_MAX], copy[sizeof buffer], want = first(faults, order, 3);
        uint32_t number = faults & 2 ? 47 : 0;
        size_t length = 99, room = faults & 4 ? 6 : 7, written = want ? 0 : 7;
        tried = faults;
        focus_head head = faults & 1 ? ended_under(number) : confessing(number, 3, 0), before = head;
        memset(buffer, 0xee, sizeof buffer);
        memcpy(copy, buffer, sizeof buffer);
        same("write", focus_head_write(&head, buffer, room, &length), want);
        same("the block after writing", same_block(&head, &before), 1);
        same("the length", (long long)length, want ? 99 : 7);
        same("the bytes after the frame", memcmp(buffer + written, copy, sizeof buffer - written), 0);
    }
}

/* 25 by the nulls alone: with f = 1 and at most three nulls of five a position is settled */
static void closes(void) {
    tried = 0;
    for (unsigned lists = 0; lists <= 5; lists++) {
        focus_head head = in_confession(3, lists), before = head;
        uint8_t got = focus_head_close(&head);
        if (lists < 4) /* all that it leaves is its event */
            same("clear the event", focus_head_set_register(&head, FOCUS_WINDOW_EVENTS, FOCUS_EVENT_TOO_FEW), 0);
        answered("close", got, lists < 4 ? FOCUS_TOO_FEW_TRUSTED : 0, &head, &before);
    }
    focus_head head = ended(), before = head;
    answered("close at the end", focus_head_close(&head), FOCUS_RUN_HAS_ENDED, &head, &before);
    answered("adopt at the end", focus_head_adopt(&head), FOCUS_NO_OFFER, &head, &before);
}

/* What is offered, as it is to be. */
static void offers(const char *what, const focus_head *head, int stands) {
    focus_kept kept = {-777, -777, -777, -777};
    same(what, focus_head_has_offer(head, &kept), stands);
    same(what, kept.position, stands ? 7 : -777);
}

/* An offer stands through refused calls, and ends by an accepted frame, a start, a restart and its adoption. */
static void offered(void) {
    uint8_t frame[FOCUS_FRAME_MAX];
    int32_t at = -777;
    focus_head head = in_confession(3, 4), before = head;
    tried = 0;
    offers("no offer before the closing", &head, 0);
    answered("adopt too early", focus_head_adopt(&head), FOCUS_NO_OFFER, &head, &before);
    same("close", focus_head_close(&head), 0);
    offers("the offer", &head, 1);
    same("no position yet", focus_head_has_position(&head, &at), 0);
    before = head;
    same("close again", focus_head_close(&head), 0);
    same("the same is offered", memcmp(&head, &before, sizeof head), 0);
    answered("a refused frame", focus_head_hear(&head, 0, frame, sevens(frame, 0, 3)), FOCUS_ALREADY_HEARD, &head, &before);
    answered("a refused start", focus_head_start(&head, 33, 1, 0, 7), FOCUS_BAD_HEAD_COUNT, &head, &before);
    answered("a refused restart", focus_head_restart(&head, 5, 1, 5, 3, 1), FOCUS_NUMBER_TOO_HIGH, &head, &before);
    offers("the offer still stands", &head, 1);
    same("an accepted frame", focus_head_hear(&head, 4, frame, sevens(frame, 4, 3)), 0);
    offers("it has lapsed", &head, 0);
    same("adopt what has lapsed", focus_head_adopt(&head), FOCUS_NO_OFFER);
    same("offer anew", focus_head_close(&head), 0);
    same("adopt", focus_head_adopt(&head), 0);
    offers("it is adopted", &head, 0);
    same("the position", focus_head_has_position(&head, &at), 1);
    same("it is what was offered", at, 7);
    same("adopt twice", focus_head_adopt(&head), FOCUS_NO_OFFER);
    for (int again = 0; again < 2; again++) {
        head = in_confession(3, 5);
        same("close", focus_head_close(&head), 0);
        same("start or restart", again ? focus_head_restart(&head, 5, 1, 0, 3, 1) : focus_head_start(&head, 5, 1, 0, 7), 0);
        offers("neither leaves an offer", &head, 0);
    }
}

static void positions(void) {
    focus_head head = ended();
    int32_t at = -777;
    same("a position is held", focus_head_has_position(&head, &at), 1);
    same("the last position", at, 7);
    head = in_confession(3, 0);
    at = -777;
    same("no position is held", focus_head_has_position(&head, &at), 0);
    same("what is lent for a position", at, -777);
}

/* A kept range is held from the first phase end since the start or restart on: kept through the next collection round and a closing refused 25, lost by a
 * restart. */
static void kept_ranges(void) {
    static const int32_t entries[5] = {10, 20, 30, 40, 50};
    uint8_t frame[FOCUS_FRAME_MAX];
    focus_kept kept = {-777, -777, -777, -777};
    focus_head head = in_confession(3, 0);
    tried = 0;
    same("no range after a restart", focus_head_has_kept(&head, &kept), 0);
    same("what is lent for a range", kept.lowest == -777 && kept.highest == -777 && kept.trim == -777 && kept.position == -777, 1);
    for (unsigned k = 0; k < 5; k++)
        same("hear", focus_head_hear(&head, k, frame, put_list(frame, k, 3, 5, 0x1f, entries)), 0);
    same("close", focus_head_close(&head), 0);
    same("no range while it is only offered", focus_head_has_kept(&head, &kept), 0);
    same("adopt", focus_head_adopt(&head), 0);
    for (int more = 0; more < 2; more++) { /* at the phase end, and after a closing refused 25 */
        tried = more;
        kept = (focus_kept){-777, -777, -777, -777};
        same("a range is held", focus_head_has_kept(&head, &kept), 1);
        same("the lowest kept", kept.lowest, 20);
        same("the highest kept", kept.highest, 40);
        same("the trim", kept.trim, 1);
        same("the position", kept.position, 30);
        if (more == 0) {
            same("close the collection round", focus_head_close(&head), 0);
            same("close with nothing heard", focus_head_close(&head), FOCUS_TOO_FEW_TRUSTED);
        }
    }
    same("start", focus_head_start(&head, 5, 1, 0, 7), 0);
    same("no range after a start", focus_head_has_kept(&head, &kept), 0);
}

/* A listener holds no position before its first phase end, and then the one that a head holds that heard the same. It has no link of its own. */
static void listens(void) {
    static const int32_t entries[5] = {10, 20, 30, 40, 50};
    focus_head head = {{0}}, listener = {{0}};
    tried = 0;
    same("start", focus_head_start(&head, 5, 1, 4, 50), 0);
    same("start a listener", focus_listener_start(&listener, 5, 1, 36), 0);
    for (unsigned round = 0; round < 2; round++) {
        int32_t at = -777;
        for (unsigned k = 0; k < 5; k++) {
            uint8_t frame[FOCUS_FRAME_MAX], rest[4];
            put4(rest, entries[k]);
            size_t length = round == 0 ? put_frame(frame, 1, k, 1, rest, 4) : put_list(frame, k, 1, 5, 0x1f, entries);
            same("hear", focus_head_hear(&head, k, frame, length), 0);
            same("a listener hears", focus_head_hear(&listener, k, frame, length), 0);
            same("no link of its own", focus_head_hear(&listener, 36, frame, length), FOCUS_NUMBER_TOO_HIGH);
        }
        same("no position before the phase end", focus_head_has_position(&listener, &at), 0);
        same("what is lent for it", at, -777);
        same("close", focus_head_close(&head), 0);
        same("a listener closes", focus_head_close(&listener), 0);
        same("adopt", focus_head_adopt(&head), round == 0 ? FOCUS_NO_OFFER : 0);
        same("a listener adopts", focus_head_adopt(&listener), round == 0 ? FOCUS_NO_OFFER : 0);
    }
    int32_t at = -777, heard = -777;
    focus_kept kept, range;
    same("a position", focus_head_has_position(&head, &at), 1);
    same("a listener's position", focus_head_has_position(&listener, &heard), 1);
    same("it is the head's", heard, at);
    same("it is the midpoint", heard, 30);
    same("a kept range", focus_head_has_kept(&head, &kept), 1);
    same("a listener's kept range", focus_head_has_kept(&listener, &range), 1);
    same("it is the head's", memcmp(&kept, &range, sizeof kept), 0);
}

/* ---- one-round rings */

static size_t position_frame(uint8_t *frame, unsigned sender, unsigned phase, int32_t value) {
    uint8_t rest[4];
    put4(rest, value);
    return put_frame(frame, 1, sender, phase, rest, 4);
}

/* A head or listener of a one-round ring in a phase, with so many links heard: link k says 10 (k + 1). */
static focus_head once_in(uint32_t n, uint32_t f, uint32_t number, unsigned phase, unsigned heard) {
    focus_head head = {{0}};
    uint8_t frame[FOCUS_FRAME_MAX];
    same("restart", restart(&head, n, f, number, phase, 0, number >= 32, 1), 0);
    for (unsigned k = 0; k < heard; k++)
        same("hear", focus_head_hear(&head, k, frame, position_frame(frame, k, phase, 10 * (int32_t)(k + 1))), 0);
    return head;
}

static focus_head once_ended(uint32_t number) {
    focus_head head = once_in(5, 1, number, 65535, 5);
    same("close", focus_head_close(&head), 0);
    same("adopt", focus_head_adopt(&head), 0);
    return head;
}

/* A position on link 1, or a list (which is of the other round), with those faults of a set that lie in the frame: its length. */
static size_t faulty_position(uint8_t *frame, int faults, unsigned phase) {
    unsigned sender = faults & SENDER ? 2 : 1, told = faults & PHASE ? phase - 1 : phase;
    if (faults & ROUND)
        return faulty_list(frame, faults, phase);
    size_t length = position_frame(frame, sender, told, faults & ENTRY ? 1000001 : 1000000);
    if (faults & KIND)
        frame[2] = 5;
    if (faults & KIND_LENGTH)
        frame[0] = (uint8_t)++length;
    if (faults & LENGTH)
        frame[length++] = 0;
    return length;
}

/* Hearing in a one-round ring: a list is refused 22 after 8, and before 9, 23, 10 and 11. */
static void one_round_hears(void) {
    static const uint8_t order[] = {FOCUS_RUN_HAS_ENDED, FOCUS_NUMBER_TOO_HIGH, FOCUS_ALREADY_HEARD,       FOCUS_STATED_LENGTH_DIFFERS, FOCUS_UNKNOWN_KIND, FOCUS_WRONG_LENGTH_FOR_KIND,
                                    FOCUS_OTHER_ROUND, FOCUS_SENDER_IS_NOT_LINK, FOCUS_OTHER_PHASE, FOCUS_BAD_COUNT_OR_MARKS,  FOCUS_ENTRY_OUT_OF_RANGE};
    for (int faults = 0; faults < HEAR; faults++) {
        if (faults & MARKS && !(faults & ROUND))
            continue; /* only a list has marks */
        uint8_t frame[FOCUS_FRAME_MAX + 1];
        unsigned phase = faults & ENDED ? 65535 : 9;
        tried = faults;
        focus_head head = faults & ENDED ? once_ended(0) : once_in(5, 1, 0, phase, 0);
        if (faults & HEARD && !(faults & ENDED))
            same("hear", focus_head_hear(&head, 1, frame, put_frame(frame, 2, 1, phase, NULL, 0)), 0);
        focus_head before = head;
        size_t length = faulty_position(frame, faults, phase);
        answered("hear", focus_head_hear(&head, faults & NUMBER ? 5 : 1, frame, length), first(faults, order, 11), &head, &before);
    }
    uint8_t frame[FOCUS_FRAME_MAX];
    focus_head head = once_in(5, 1, 0, 9, 0), before = head;
    answered("a confession", focus_head_hear(&head, 1, frame, put_frame(frame, 4, 2, 8, NULL, 0)), FOCUS_OTHER_ROUND, &head, &before);
}

/* 25 by the nulls alone, of what was not heard and of silence: at more than 2f of them. The trim is f however many there are. */
static void one_round_closes(void) {
    static const struct { uint32_t n, f; } sizes[] = {{1, 0}, {4, 0}, {5, 1}, {9, 2}, {29, 7}, {32, 7}};
    for (size_t s = 0; s < sizeof sizes / sizeof *sizes; s++)
        for (unsigned heard = 0; heard <= sizes[s].n; heard++) {
            uint32_t n = sizes[s].n, f = sizes[s].f;
            focus_head head = once_in(n, f, 0, 3, heard), before;
            focus_kept kept = {-777, -777, -777, -777};
            uint8_t frame[FOCUS_FRAME_MAX], want = n - heard > 2 * f ? FOCUS_TOO_FEW_TRUSTED : 0;
            tried = (int)(100 * s + heard);
            for (unsigned k = heard; k < n; k += 2) /* every other null is a silence */
                same("silence", focus_head_hear(&head, k, frame, put_frame(frame, 2, k, 3, NULL, 0)), 0);
            before = head;
            uint8_t got = focus_head_close(&head);
            same("an offer", focus_head_has_offer(&head, &kept), want == 0);
            if (want != 0) { /* all that it leaves is its event */
                same("clear the event", focus_head_set_register(&head, FOCUS_WINDOW_EVENTS, FOCUS_EVENT_TOO_FEW), 0);
                answered("close", got, want, &head, &before);
                continue;
            }
            same("close", got, 0);
            same("the trim", kept.trim, f);
            same("the lowest kept", kept.lowest, 10 * (int)(f + 1));
            same("the highest kept", kept.highest, 10 * (int)(heard - f));
            same("the position", kept.position, 5 * (int)(heard + 1));
        }
}

/* The window of a one-round head: phase, and byte 3 as it is to be. */
static void window_is(const char *what, const focus_head *head, unsigned phase, uint8_t status) {
    uint8_t bytes[FOCUS_WINDOW_BYTES];
    focus_head_window(head, bytes);
    same(what, bytes[3], status);
    same(what, bytes[4] + 256u * bytes[5], phase);
}

/* Every round offers and adopts; what comes of the next phase before the adoption is refused 23; bit 2 of the window is 0 to the end, and after phase 65,535 phase
 * and round stay. */
static void one_round_phases(uint32_t number) {
    uint8_t frame[FOCUS_FRAME_MAX], buffer[FOCUS_FRAME_MAX];
    size_t length = 99;
    focus_head head = once_in(5, 1, number, 65533, 5), before;
    focus_kept kept;
    int32_t position = -777;
    uint8_t healed = 2, held = 0;
    for (unsigned phase = 65533; phase <= 65535; phase++) {
        tried = (int)phase;
        if (phase > 65533)
            for (unsigned k = 0; k < 5; k++)
                same("hear", focus_head_hear(&head, k, frame, position_frame(frame, k, phase, k < 2 ? 6 : 7)), 0);
        window_is("before the closing", &head, phase, held | healed);
        before = head;
        answered("adopt too early", focus_head_adopt(&head), FOCUS_NO_OFFER, &head, &before);
        same("close", focus_head_close(&head), 0);
        window_is("offered", &head, phase, held | healed);
        before = head;
        if (phase < 65535) {
            uint8_t got = focus_head_hear(&head, 0, frame, position_frame(frame, 0, phase + 1, 7));
            answered("the next phase before adoption, on a link that was heard", got, FOCUS_ALREADY_HEARD, &head, &before);
        }
        same("close again", focus_head_close(&head), 0);
        same("the same is offered", same_block(&head, &before), 1);
        same("adopt", focus_head_adopt(&head), 0);
        /* 30; then half of 6 and 7, up in the even phase and down in the odd one */
        same("a position", focus_head_has_position(&head, &position), 1);
        same("it is the midpoint", position, phase == 65533 ? 30 : phase == 65534 ? 7 : 6);
        same("a range", focus_head_has_kept(&head, &kept), 1);
        same("it is what was offered", kept.position == position && kept.trim == 1 && kept.lowest == (phase == 65533 ? 20 : 6), 1);
        healed = 0, held = 1;
        window_is("adopted", &head, phase < 65535 ? phase + 1 : 65535, held);
        same("adopt twice", focus_head_adopt(&head), FOCUS_NO_OFFER);
    }
    before = head;
    answered("hear at the end", focus_head_hear(&head, 9, frame, 0), FOCUS_RUN_HAS_ENDED, &head, &before);
    answered("write at the end", focus_head_write(&head, buffer, sizeof buffer, &length), FOCUS_RUN_HAS_ENDED, &head, &before);
    answered("close at the end", focus_head_close(&head), FOCUS_RUN_HAS_ENDED, &head, &before);
    answered("adopt at the end", focus_head_adopt(&head), FOCUS_NO_OFFER, &head, &before);
}

/* An offer ends by an accepted frame, which here is one on a link not heard yet; a frame of the next phase leaves it. */
static void one_round_offers(void) {
    uint8_t frame[FOCUS_FRAME_MAX];
    focus_kept kept = {-777, -777, -777, -777};
    focus_head head = once_in(5, 1, 0, 3, 4), before;
    tried = 0;
    same("close", focus_head_close(&head), 0);
    before = head;
    answered("a frame of the next phase", focus_head_hear(&head, 4, frame, position_frame(frame, 4, 4, 7)), FOCUS_OTHER_PHASE, &head, &before);
    answered("a list", focus_head_hear(&head, 4, frame, sevens(frame, 4, 3)), FOCUS_OTHER_ROUND, &head, &before);
    answered("a restart in round 1", focus_one_round_restart(&head, 5, 1, 0, 3, 1), FOCUS_PHASE_OUT_OF_RANGE, &head, &before);
    same("the offer stands", focus_head_has_offer(&head, &kept), 1);
    same("half of 20 and 30", kept.position, 25);
    same("an accepted frame", focus_head_hear(&head, 4, frame, position_frame(frame, 4, 3, 50)), 0);
    same("it has lapsed", focus_head_adopt(&head), FOCUS_NO_OFFER);
    same("offer anew", focus_head_close(&head), 0);
    same("the new offer", focus_head_has_offer(&head, &kept), 1);
    same("the middle of five", kept.position, 30);
    same("restart", focus_one_round_restart(&head, 5, 1, 0, 3, 0), 0);
    same("no offer is left", focus_head_has_offer(&head, &kept), 0);
}

/* A block is of the family in which it was started or restarted last, with what it writes and how it closes. */
static void families(void) {
    uint8_t frame[FOCUS_FRAME_MAX];
    size_t length = 0;
    focus_head head = once_in(5, 1, 0, 3, 5), two = {{0}};
    tried = 0;
    same("restart in the other family", focus_head_restart(&head, 5, 1, 0, 3, 0), 0);
    same("a two-round head", focus_head_restart(&two, 5, 1, 0, 3, 0), 0);
    same("strike over", focus_head_set_register(&head, FOCUS_WINDOW_EVENTS, 7) + focus_head_set_register(&two, FOCUS_WINDOW_EVENTS, 7), 0);
    same("is one of two rounds", same_block(&head, &two), 1);
    same("close the collection round", focus_head_close(&head), 0);
    same("nothing is offered", focus_head_adopt(&head), FOCUS_NO_OFFER);
    same("start in the other family", focus_one_round_start(&head, 5, 1, 0, 7), 0);
    same("write", focus_head_write(&head, frame, sizeof frame, &length), 0);
    same("a position", frame[2], 1);
    same("nothing heard", focus_head_close(&head), FOCUS_TOO_FEW_TRUSTED);
    same("restart", focus_one_round_restart(&head, 5, 1, 0, 9, 0), 0);
    same("write", focus_head_write(&head, frame, sizeof frame, &length), 0);
    same("silence", frame[2], 2);
    same("a listener", focus_one_round_listener_start(&head, 5, 1, 40), 0);
    same("sends nothing", focus_head_write(&head, frame, 0, &length), FOCUS_LISTENER_SENDS_NOTHING);
}

/* A block of zeros is a head of a ring of no heads. A block that says n above 32 accepts frames on links from 32 on, and keeps nothing of them. */
static void unstarted(void) {
    enum { WORD_N = 0, WORD_PHASE = 3 };
    uint8_t frame[FOCUS_FRAME_MAX], seven[4];
    focus_head head = {{0}}, before = head;
    put4(seven, 7);
    size_t length = put_frame(frame, 1, 0, 0, seven, sizeof seven);
    answered("no head speaks", focus_head_hear(&head, 0, frame, length), FOCUS_NUMBER_TOO_HIGH, &head, &before);
    answered("nothing is offered", focus_head_adopt(&head), FOCUS_NO_OFFER, &head, &before);
    same("closing is taken", focus_head_close(&head), 0);
    head = before;
    head.opaque[WORD_N] = 40, head.opaque[WORD_PHASE] = 1;
    before = head;
    length = put_frame(frame, 1, 33, 1, seven, sizeof seven);
    same("a link that no block has words for", focus_head_hear(&head, 33, frame, length), 0);
    same("changes nothing", same_block(&head, &before), 1);
    same("nor is it heard", focus_head_hear(&head, 33, frame, length), 0);
    same("link 40", focus_head_hear(&head, 40, frame, length), FOCUS_NUMBER_TOO_HIGH);
}

/* ---- phases since the last strike */

/* Hears links 0 to 4 in their round of a phase: positions of 7, or lists of sevens. */
static void hear_sevens(focus_head *head, unsigned phase, int lists) {
    uint8_t frame[FOCUS_FRAME_MAX];
    for (unsigned k = 0; k < 5; k++)
        same("hear", focus_head_hear(head, k, frame, lists ? sevens(frame, k, phase) : position_frame(frame, k, phase, 7)), 0);
}

/* Calls that leave the count: refused frames, starts and restarts, a batch, writing, the window and its writes. */
static void untouching(focus_head *head, uint32_t number, unsigned phase, int once, unsigned count) {
    uint8_t frame[FOCUS_FRAME_MAX], answers[2], bytes[FOCUS_WINDOW_BYTES], batch[BATCH];
    size_t length = 0;
    int listens = number >= 32;
    same("a refused frame", focus_head_hear(head, 0, frame, sevens(frame, 1, phase)) != 0, 1);
    same("a batch", focus_head_hear_batch(head, batch, put_entry(batch, 9, phase), answers, 2, &length), 0);
    same("a refused restart", restart(head, 5, 1, number, 0, 0, listens, once), FOCUS_PHASE_OUT_OF_RANGE);
    same("a refused start", start(head, 0, 1, number, 7, listens, once), FOCUS_BAD_HEAD_COUNT);
    same("write", focus_head_write(head, frame, sizeof frame, &length), listens ? FOCUS_LISTENER_SENDS_NOTHING : 0);
    same("write with no room", focus_head_write(head, frame, 0, &length), listens ? FOCUS_LISTENER_SENDS_NOTHING : FOCUS_BUFFER_TOO_SHORT);
    same("the mask", focus_head_set_register(head, FOCUS_WINDOW_MASK, 7), 0);
    same("the events", focus_head_set_register(head, FOCUS_WINDOW_EVENTS, 7), 0);
    focus_head_window(head, bytes);
    same("the window has no count", bytes[12] | bytes[13] | bytes[14] | bytes[15], 0);
    same("calls that leave the count", focus_head_since(head), count);
}

/* A phase of the five, from its first round to its offer: the count stays. */
static void offered_phase(focus_head *head, uint32_t number, unsigned phase, int once, unsigned count) {
    if (!once) {
        hear_sevens(head, phase, 0);
        untouching(head, number, phase, once, count);
        same("close the collection round", focus_head_close(head), 0);
        same("a collection round is no phase", focus_head_since(head), count);
    }
    same("nothing heard", focus_head_close(head), FOCUS_TOO_FEW_TRUSTED);
    same("refused 25", focus_head_since(head), count);
    same("adopt too early", focus_head_adopt(head), FOCUS_NO_OFFER);
    hear_sevens(head, phase, !once);
    untouching(head, number, phase, once, count);
    same("close", focus_head_close(head), 0);
    same("an offer", focus_head_since(head), count);
    same("close again", focus_head_close(head), 0);
    untouching(head, number, phase, once, count);
}

/* The count of phase ends: one more at each adoption, from 0 at a start and a restart to 255, where it rests. */
static void counts(uint32_t number, int once) {
    focus_head head;
    int listens = number >= 32;
    memset(&head, 0xee, sizeof head);
    same("start", start(&head, 5, 1, number, 7, listens, once), 0);
    same("no phase end", focus_head_since(&head), 0);
    for (unsigned phase = 1; phase <= 258; phase++) {
        unsigned passed = phase < 255 ? phase : 255;
        tried = (int)phase;
        offered_phase(&head, number, phase, once, phase <= 255 ? phase - 1 : 255);
        same("adopt", focus_head_adopt(&head), 0);
        same("a phase end", focus_head_since(&head), passed);
        same("adopt twice", focus_head_adopt(&head), FOCUS_NO_OFFER);
        same("no phase end more", focus_head_since(&head), passed);
    }
    for (unsigned round = 0; round < 2; round++) { /* in each round of a phase */
        if (once && round == 1)
            continue;
        same("restart", restart(&head, 5, 1, number, 9, round, listens, once), 0);
        same("a restart", focus_head_since(&head), 0);
        if (round == 0) {
            offered_phase(&head, number, 9, once, 0);
        } else {
            hear_sevens(&head, 9, 1);
            same("close", focus_head_close(&head), 0);
        }
        same("no phase end yet", focus_head_since(&head), 0);
        same("adopt", focus_head_adopt(&head), 0);
        same("the first phase end", focus_head_since(&head), 1);
    }
    same("restart in the other family", restart(&head, 5, 1, number, 9, 0, listens, !once), 0);
    same("it begins anew", focus_head_since(&head), 0);
}

/* The last phase end counts, and nothing that is refused after it. A block that no start made counts by the low byte of its word. */
static void last_counts(void) {
    focus_head heads[2] = {ended(), once_ended(47)};
    uint8_t frame[FOCUS_FRAME_MAX];
    tried = 0;
    for (int i = 0; i < 2; i++) {
        same("the last phase end", focus_head_since(&heads[i]), 1);
        same("close at the end", focus_head_close(&heads[i]), FOCUS_RUN_HAS_ENDED);
        same("hear at the end", focus_head_hear(&heads[i], 0, frame, sevens(frame, 0, 1)), FOCUS_RUN_HAS_ENDED);
        same("adopt at the end", focus_head_adopt(&heads[i]), FOCUS_NO_OFFER);
        same("it stays", focus_head_since(&heads[i]), 1);
        same("start", focus_head_start(&heads[i], 5, 1, 0, 7), 0);
        same("and begins anew", focus_head_since(&heads[i]), 0);
    }
    focus_head head = in_confession(3, 5);
    same("close", focus_head_close(&head), 0);
    head.opaque[15] = 0x12345600 + 253;
    for (unsigned round = 0; round < 6; round++) {
        focus_head again = head;
        same("any word", focus_head_since(&again), 253 + round % 3);
        same("adopt", focus_head_adopt(&again), 0);
        same("one more", focus_head_since(&again), round % 3 == 0 ? 254 : 255);
        head.opaque[15] = 0x12345600 * (round + 1) + 253 + (round + 1) % 3;
    }
}

int main(void) {
    for (int once = 0; once < 2; once++) {
        starts(once);
        listener_starts(once);
        restarts(0, once);
        restarts(1, once);
    }
    one_round_sizes();
    one_round_hears();
    one_round_closes();
    one_round_phases(0);
    one_round_phases(47);
    one_round_offers();
    families();
    hears();
    batches();
    batch_cuts();
    writes();
    closes();
    positions();
    offered();
    kept_ranges();
    listens();
    unstarted();
    for (int once = 0; once < 2; once++) {
        counts(0, once);
        counts(4, once);
        counts(33, once);
    }
    last_counts();
    return all_checked();
}
