/* Rings of blocks on a hostile cable, from seeds, in both families. In each round at most f heads, and any listeners, are struck or
 * late; the others are restarted if they were so in the round before, hear deliveries in any order, one by one and in batches, and end
 * the round. The cable brings the frame of each head that is not marked; doubled, damaged, cut, stale and crossed frames; bytes on links
 * that no head has; and what the marked heads may say. On the link of an unmarked head nothing else that is acceptable comes before its
 * frame. Each answer is checked, and at each phase end demand 3, the kept ranges, the counts and the quiet phases, by this program's own
 * arithmetic (docs/TRUST.md, "What the integrator owes"; crates/ring_blocks/specs/Blocks.antt). The number of checks is printed; the
 * first that fails stops the program, and shows the number of its ring.
 * Usage: hostile [RINGS [BROKEN]], so many rings. BROKEN names what is then not kept, on purpose, and must be noticed: marks (more than f
 * heads are marked), restart (no device is restarted), order (what is like a frame comes before it), loss (frames are lost and their
 * senders not marked), late (who does not adopt is not marked), itself (heads don't hear themselves). */
#include "check.h"

enum { NUMBERS = 48, ITEMS = 4096, PHASES = 6, BATCH = 12 };

/* what the cable or the rig does not keep, on purpose */
static const char *broken = "";

static int breaks(const char *what) {
    return strcmp(broken, what) == 0;
}

static uint64_t seed;
static unsigned long heard, batches, early, forged, stale, late, quiet, ends;

static uint32_t drawn(uint32_t below) {
    seed ^= seed << 13, seed ^= seed >> 7, seed ^= seed << 17;
    return (uint32_t)(seed >> 16) % below;
}

static int32_t place(void) {
    return drawn(4) ? (int32_t)drawn(2000001) - 1000000 : drawn(2) ? 1000000 : -1000000;
}

/* Heads are numbered 0 to n - 1, listeners from 32 on; bit i of a mark word is for number i. frames: what the heads wrote in this
 * round, and in the one before. */
struct ring {
    uint32_t n, f, listeners, phase, round;
    int once; /* whether each round is a phase */
    uint64_t before, marks;
    focus_head blocks[NUMBERS];
    uint8_t frames[2][NUMBERS][FOCUS_FRAME_MAX];
    size_t lengths[2][NUMBERS];
    int32_t low, high;      /* of the sound ones, at the last phase end */
    uint32_t since[NUMBERS]; /* phase ends since the last mark */
};

static int is_member(const struct ring *r, uint32_t i) {
    return i < r->n || (32 <= i && i < 32 + r->listeners);
}

static int is_marked(const struct ring *r, uint32_t i) {
    return r->marks >> i & 1;
}

static int is_last(const struct ring *r) {
    return r->once || r->round == 1;
}

static void garble(focus_head *block) {
    for (int j = 0; j < 1116; j++)
        block->opaque[j] = drawn(3) ? drawn(UINT32_MAX) : drawn(40);
}

/* ---- what comes on a cable */

/* OWN: the frame of an unmarked head, on its link; LIKE: what could be said in this round, on the link of the head that it names;
 * OTHER: never acceptable */
enum kind { OWN, LIKE, OTHER };

struct item {
    enum kind kind;
    uint32_t link;
    size_t length;
    uint8_t bytes[FOCUS_FRAME_MAX];
};

static struct item items[ITEMS];
static int count;

static struct item *add(enum kind kind, uint32_t link, const uint8_t *bytes, size_t length) {
    struct item *x = &items[count++];
    same("room for items", count < ITEMS, 1);
    x->kind = kind, x->link = link, x->length = length;
    memcpy(x->bytes, bytes, length);
    return x;
}

/* anything that head k could say in this round */
static void add_like(const struct ring *r, uint32_t k) {
    uint8_t frame[FOCUS_FRAME_MAX], rest[4];
    int32_t entries[32] = {0};
    uint32_t marks = drawn(UINT32_MAX) & (uint32_t)((UINT64_C(1) << r->n) - 1);
    size_t length;
    put4(rest, place());
    for (uint32_t j = 0; j < r->n; j++)
        entries[j] = marks >> j & 1 ? place() : 0;
    if (drawn(4) == 0)
        length = put_frame(frame, r->round == 0 ? FOCUS_FRAME_SILENCE : FOCUS_FRAME_CONFESSION, k, r->phase, NULL, 0);
    else
        length = r->round == 0 ? put_frame(frame, FOCUS_FRAME_POSITION, k, r->phase, rest, 4)
                               : put_list(frame, k, r->phase, r->n, marks, entries);
    add(LIKE, k, frame, length);
    forged++;
}

/* on the link of head k: its frame cut, or damaged in its front; that of the round before; and that of another head */
static void add_refused(const struct ring *r, uint32_t k) {
    const uint8_t *own = r->frames[0][k];
    size_t length = r->lengths[0][k];
    uint32_t other = drawn(r->n);
    if (drawn(2))
        add(OTHER, k, own, drawn((uint32_t)length));
    if (drawn(2))
        add(OTHER, k, own, length)->bytes[drawn(7)] ^= (uint8_t)(1 << drawn(8));
    if (drawn(2) && r->lengths[1][k] > 0) {
        add(OTHER, k, r->frames[1][k], r->lengths[1][k]);
        stale++;
    }
    if (drawn(2) && other != k && !is_marked(r, other))
        add(OTHER, k, r->frames[0][other], r->lengths[0][other]);
}

/* bytes on a link that no head has */
static void add_astray(const struct ring *r) {
    uint8_t bytes[FOCUS_FRAME_MAX];
    size_t length = drawn(FOCUS_FRAME_MAX + 1);
    for (size_t j = 0; j < length; j++)
        bytes[j] = (uint8_t)drawn(256);
    add(OTHER, r->n + drawn(drawn(4) ? 200 : UINT32_MAX - 64), bytes, length);
}

/* all that comes on the link of head k to device i */
static void add_link(const struct ring *r, uint32_t i, uint32_t k) {
    if (is_marked(r, k)) {
        for (uint32_t j = drawn(4); j > 0; j--)
            add_like(r, k);
        return;
    }
    if (!(breaks("loss") && drawn(3) == 0) && !(breaks("itself") && i == k))
        for (uint32_t j = drawn(3) + 1; j > 0; j--)
            add(OWN, k, r->frames[0][k], r->lengths[0][k]);
    if (drawn(3) == 0)
        add_like(r, k);
    add_refused(r, k);
}

static void swap(int a, int b) {
    struct item x = items[a];
    items[a] = items[b], items[b] = x;
}

/* Whatever order; but what is acceptable on the link of an unmarked head comes after its frame. */
static void shuffle(const struct ring *r) {
    for (int a = count - 1; a > 0; a--)
        swap(a, (int)drawn((uint32_t)a + 1));
    for (int a = 0; a < count && !breaks("order"); a++) {
        if (items[a].kind != LIKE || is_marked(r, items[a].link))
            continue;
        for (int b = count - 1; b > a; b--)
            if (items[b].kind == OWN && items[b].link == items[a].link)
                swap(a, b), b = a;
    }
}

static void bring(const struct ring *r, uint32_t i) {
    count = 0;
    for (uint32_t k = 0; k < r->n; k++)
        add_link(r, i, k);
    for (uint32_t j = drawn(5); j > 0; j--)
        add_astray(r);
    shuffle(r);
}

/* ---- what a device hears */

static uint64_t links; /* those heard by the device whose turn it is */

/* What hearing an item answers: the first acceptable one on a link is accepted. */
static void answered(const struct ring *r, const struct item *x, uint8_t answer) {
    heard++;
    if (x->link >= r->n)
        same("a link that is not there", answer, FOCUS_NUMBER_TOO_HIGH);
    else if (links >> x->link & 1)
        same("heard before", answer, FOCUS_ALREADY_HEARD);
    else if (x->kind == OTHER)
        same("refused", answer != 0, 1);
    else {
        same("accepted", answer, 0);
        links |= UINT64_C(1) << x->link;
    }
}

/* A batch of the items from a on whose length fields are right: how many. Now and then it comes cut first, and is refused as a whole. */
static int hear_batch(struct ring *r, uint32_t i, int a) {
    uint8_t bytes[BATCH * (FOCUS_FRAME_MAX + 1)], answers[BATCH];
    size_t length = 0, got = 99;
    int b = a;
    for (; b < count && b < a + BATCH; b++) {
        const struct item *x = &items[b];
        if (x->link > 255 || x->length < 4 || (size_t)(x->bytes[0] | x->bytes[1] << 8) != x->length)
            break;
        bytes[length] = (uint8_t)x->link;
        memcpy(bytes + length + 1, x->bytes, x->length);
        length += x->length + 1;
    }
    if (b > a && drawn(8) == 0)
        same("a batch that is cut", focus_head_hear_batch(&r->blocks[i], bytes, length - 1, answers, BATCH, &got), FOCUS_BAD_BATCH_ENTRY);
    if (b > a) {
        same("a batch", focus_head_hear_batch(&r->blocks[i], bytes, length, answers, BATCH, &got), 0);
        same("answers", (long long)got, b - a);
        batches++;
    }
    for (int j = a; j < b; j++)
        answered(r, &items[j], answers[j - a]);
    return b - a;
}

/* What may be done at any time in a round: a write to the window; in a last round a closing, which may be refused; and the frame,
 * written again, is the same. */
static void meddle(struct ring *r, uint32_t i) {
    uint8_t frame[FOCUS_FRAME_MAX];
    size_t length = 0;
    uint32_t at = drawn(20);
    if (drawn(6) == 0)
        same("a window write", focus_head_set_register(&r->blocks[i], at, (uint8_t)drawn(256)),
             at == 10 || at == 11 ? 0 : FOCUS_NO_SUCH_REGISTER);
    if (is_last(r) && drawn(12) == 0) {
        uint8_t number = focus_head_close(&r->blocks[i]);
        same("an early closing", number == 0 || number == FOCUS_TOO_FEW_TRUSTED, 1);
        early++;
    }
    if (i < 32 && drawn(12) == 0) {
        same("write again", focus_head_write(&r->blocks[i], frame, sizeof frame, &length), 0);
        same("the same frame", length == r->lengths[0][i] && memcmp(frame, r->frames[0][i], length) == 0, 1);
    }
}

static void listen(struct ring *r, uint32_t i) {
    links = 0;
    bring(r, i);
    for (int a = 0; a < count;) {
        int many = drawn(3) == 0 ? hear_batch(r, i, a) : 0;
        meddle(r, i);
        if (many == 0) {
            answered(r, &items[a], focus_head_hear(&r->blocks[i], items[a].link, items[a].bytes, items[a].length));
            many = 1;
        }
        a += many;
    }
}

/* The calls that end a round. Between closing and adopting frames may come that are refused, here one that was heard before. */
static void end_round(struct ring *r, uint32_t i) {
    same("close", focus_head_close(&r->blocks[i]), 0);
    if (!is_last(r) || (breaks("late") && drawn(20) == 0))
        return;
    if (drawn(2) && links & 1)
        same("heard before closing", focus_head_hear(&r->blocks[i], 0, r->frames[0][0], r->lengths[0][0]), FOCUS_ALREADY_HEARD);
    same("adopt", focus_head_adopt(&r->blocks[i]), 0);
}

/* ---- a round */

static void start(struct ring *r) {
    memset(r, 0, sizeof *r);
    r->once = (int)drawn(2), r->f = drawn(drawn(3) ? 4 : r->once ? 8 : 9), r->listeners = drawn(17), r->phase = 1;
    r->f += breaks("itself") && r->f == 0; /* with f = 0 a closing would be refused: the firmware would notice */
    r->n = r->once ? 4 * r->f + 1 : r->f == 0 ? 1 : (7 * r->f + 3) / 2;
    r->n += drawn(3) ? drawn(33 - r->n < 4 ? 33 - r->n : 4) : drawn(33 - r->n);
    r->low = INT32_MAX, r->high = INT32_MIN;
    for (uint32_t i = 0; i < NUMBERS; i++)
        garble(&r->blocks[i]);
    for (uint32_t i = 0; i < r->n; i++) {
        int32_t v = place();
        same("start", (r->once ? focus_one_round_start : focus_head_start)(&r->blocks[i], r->n, r->f, i, v), 0);
        r->low = v < r->low ? v : r->low, r->high = v > r->high ? v : r->high;
    }
    for (uint32_t i = 32; i < 32 + r->listeners; i++)
        same("start a listener", (r->once ? focus_one_round_listener_start : focus_listener_start)(&r->blocks[i], r->n, r->f, i), 0);
}

static void restart(struct ring *r, uint32_t i) {
    if (i < 32)
        same("restart", (r->once ? focus_one_round_restart : focus_head_restart)(&r->blocks[i], r->n, r->f, i, r->phase, r->round), 0);
    else
        same("restart a listener",
             (r->once ? focus_one_round_listener_restart : focus_listener_restart)(&r->blocks[i], r->n, r->f, i, r->phase, r->round), 0);
}

/* Who is marked: at most f heads, in one round of four none, and any listeners. */
static uint64_t strike(const struct ring *r) {
    uint64_t marks = 0;
    uint32_t most = breaks("marks") ? 2 * r->f + 2 : drawn(4) ? r->f : 0;
    for (uint32_t j = 0; j < most; j++)
        marks |= UINT64_C(1) << drawn(r->n);
    for (uint32_t j = 0; j < r->listeners; j++)
        marks |= (uint64_t)(drawn(6) == 0) << (32 + j);
    return marks;
}

/* Restarts, and what the heads that are not marked write. */
static void speak(struct ring *r) {
    memcpy(r->frames[1], r->frames[0], sizeof r->frames[0]);
    memcpy(r->lengths[1], r->lengths[0], sizeof r->lengths[0]);
    for (uint32_t i = 0; i < NUMBERS; i++) {
        if (!is_member(r, i) || is_marked(r, i))
            continue;
        if (r->before >> i & 1 && !breaks("restart"))
            restart(r, i);
        same("write", focus_head_write(&r->blocks[i], r->frames[0][i], FOCUS_FRAME_MAX, &r->lengths[0][i]),
             i < 32 ? 0 : FOCUS_LISTENER_SENDS_NOTHING);
    }
}

/* What a marked device is left with: any words, or the block as it was, or as a round that it does not end leaves it: it is late. */
static void leave(struct ring *r, uint32_t i) {
    uint32_t how = drawn(3);
    r->lengths[0][i] = 0;
    if (how == 0)
        garble(&r->blocks[i]);
    if (how == 2)
        for (uint32_t k = 0; k < r->n; k++)
            if (!is_marked(r, k))
                heard += focus_head_hear(&r->blocks[i], k, r->frames[0][k], r->lengths[0][k]) <= FOCUS_NO_OFFER;
    late += how != 0;
}

/* ---- at a phase end */

static int32_t position_of(const struct ring *r, uint32_t i) {
    int32_t v = 0;
    focus_kept kept = {0, 0, 0, 0};
    same("a position is held", focus_head_has_position(&r->blocks[i], &v), 1);
    same("a range is kept", focus_head_has_kept(&r->blocks[i], &kept), 1);
    same("in the range", r->low <= v && v <= r->high, 1);
    same("the kept range too", r->low <= kept.lowest && kept.lowest <= kept.highest && kept.highest <= r->high, 1);
    same("and its position", kept.position, v);
    return v;
}

static void at_end(struct ring *r) {
    int32_t low = INT32_MAX, high = INT32_MIN;
    for (uint32_t i = 0; i < NUMBERS; i++) {
        if (!is_member(r, i) || is_marked(r, i))
            continue;
        int32_t v = position_of(r, i);
        low = v < low ? v : low, high = v > high ? v : high;
    }
    if (r->once || 3 * r->n >= 11 * r->f + 3)
        same("halved", high - low <= (r->high - r->low + 1) / 2, 1);
    if ((r->marks & UINT32_MAX) == 0) {
        same("one position after a quiet phase", low, high);
        quiet++;
    }
    r->low = low, r->high = high, ends++;
}

/* Counts: a mark clears one, a phase end adds one. */
static void count_ends(struct ring *r) {
    for (uint32_t i = 0; i < NUMBERS; i++) {
        r->since[i] = is_marked(r, i) ? 0 : r->since[i] + (uint32_t)is_last(r);
        if (is_member(r, i) && !is_marked(r, i))
            same("count", focus_head_since(&r->blocks[i]), r->since[i] < FOCUS_SINCE_MAX ? r->since[i] : FOCUS_SINCE_MAX);
    }
}

static void play(struct ring *r) {
    int last = is_last(r);
    r->marks = strike(r);
    speak(r);
    for (uint32_t i = 0; i < NUMBERS; i++) {
        if (!is_member(r, i))
            continue;
        if (is_marked(r, i)) {
            leave(r, i);
            continue;
        }
        listen(r, i);
        end_round(r, i);
    }
    count_ends(r);
    if (last)
        at_end(r);
    r->before = r->marks, r->phase += (uint32_t)last, r->round = !last;
}

int main(int argc, char **argv) {
    static struct ring r;
    long rings = argc > 1 ? atol(argv[1]) : 200;
    broken = argc > 2 ? argv[2] : "";
    for (long i = 1; i <= rings; i++) {
        tried = (int)i;
        seed = (uint64_t)i * UINT64_C(0x9e3779b97f4a7c15);
        start(&r);
        while (r.phase <= PHASES)
            play(&r);
    }
    printf("%ld rings, %lu phase ends, %lu of them quiet, %lu frames heard, %lu batches, %lu early closings, ", rings, ends, quiet, heard,
           batches, early);
    printf("%lu like frames, %lu stale, %lu late; ", forged, stale, late);
    return all_checked();
}
