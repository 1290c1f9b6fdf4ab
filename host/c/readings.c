/* Readings and the host page (document 02, A14), beside C's own floats. A head of a one-round ring of two settles on pairs of positions, so
 * that it keeps exactly these: every position as a point and with its neighbour, its opposite and the two ends of the range, and pairs from a
 * seed. The bits of each float must be those of C's arithmetic in double precision, which holds them all. Then the page of heads that read in
 * all three ways, byte for byte, with its refusals. The number of checks is printed; the first that fails stops the program.
 * Usage: readings [STEP], by which positions are taken; 1 if none is given. */
#include "check.h"

#define BACK 0x5a /* what buffers hold before a call */

static uint32_t bits_of(float x) {
    uint32_t bits;
    memcpy(&bits, &x, sizeof bits);
    return bits;
}

/* The bits of a number that a float holds. */
static uint32_t exact(double x) {
    same("a float holds it", (double)(float)x == x, 1);
    return bits_of((float)x);
}

static focus_head head;
static uint32_t phase; /* 0 before the first start */

/* The head keeps a and b, of which a is not above b. After the last phase it is started again. */
static void keep(int32_t a, int32_t b) {
    uint8_t frame[11], rest[4];
    if (phase == 0 || phase == 65536) {
        same("start", focus_one_round_start(&head, 2, 0, 0, 0), 0);
        phase = 1;
    }
    for (uint32_t link = 0; link < 2; link++) {
        put4(rest, link == 0 ? b : a);
        put_frame(frame, 1, link, phase, rest, 4);
        same("hear", focus_head_hear(&head, link, frame, 11), 0);
    }
    same("close", focus_head_close(&head), 0);
    same("adopt", focus_head_adopt(&head), 0);
    phase++;
}

static void pair(int32_t a, int32_t b) {
    focus_reading got = {-1.5f, -1.5f, -1.5f};
    int32_t low = a < b ? a : b, high = a < b ? b : a;
    keep(low, high);
    same("kind", focus_head_reading(&head, &got), low == high ? FOCUS_POINT : FOCUS_RANGE);
    same("lowest", bits_of(got.lowest), exact(low));
    same("highest", bits_of(got.highest), low == high ? bits_of(-1.5f) : exact(high));
    same("midpoint", bits_of(got.midpoint), low == high ? bits_of(-1.5f) : exact(((double)low + high) / 2));
}

static void pairs(int32_t step) {
    for (int32_t v = -1000000; v <= 1000000; v += step) {
        pair(v, v);
        pair(v, -v);
        pair(v, v < 1000000 ? v + 1 : v);
        pair(-1000000, v);
        pair(v, 1000000);
    }
    uint64_t s = UINT64_C(88172645463325252);
    for (int i = 0; i < 1000000 / step; i++) {
        s ^= s << 13, s ^= s >> 7, s ^= s << 17;
        pair((int32_t)(s % 2000001) - 1000000, (int32_t)((s >> 32) % 2000001) - 1000000);
    }
}

/* Unknown after a start, and all through the first phase, with an offer standing too; known from its adoption on; unknown after a restart. */
static void unknown(void) {
    focus_reading got = {7, 8, 9};
    uint8_t frame[11] = {11, 0, 1, 0, 0, 1, 0, 5, 0, 0, 0};
    same("start", focus_one_round_start(&head, 1, 0, 0, 5), 0);
    same("after a start", focus_head_reading(&head, &got), FOCUS_UNKNOWN);
    same("hear", focus_head_hear(&head, 0, frame, 11), 0);
    same("after a frame", focus_head_reading(&head, &got), FOCUS_UNKNOWN);
    same("close", focus_head_close(&head), 0);
    same("with an offer", focus_head_reading(&head, &got), FOCUS_UNKNOWN);
    same("nothing written", got.lowest == 7 && got.highest == 8 && got.midpoint == 9, 1);
    same("adopt", focus_head_adopt(&head), 0);
    same("after an adoption", focus_head_reading(&head, &got), FOCUS_POINT);
    same("one float", got.lowest == 5 && got.highest == 8 && got.midpoint == 9, 1);
    same("refused restart", focus_one_round_restart(&head, 1, 0, 0, 1, 1), FOCUS_PHASE_OUT_OF_RANGE);
    same("after a refused restart", focus_head_reading(&head, &got), FOCUS_POINT);
    same("restart", focus_one_round_restart(&head, 1, 0, 0, 1, 0), 0);
    same("after a restart", focus_head_reading(&head, &got), FOCUS_UNKNOWN);
    phase = 0;
}

/* An offer does not show in the reading of an earlier phase end. */
static void offered(void) {
    focus_reading got;
    uint8_t frame[11], rest[4];
    keep(-3, 3);
    for (uint32_t link = 0; link < 2; link++) {
        put4(rest, 1000 + (int32_t)link);
        put_frame(frame, 1, link, phase, rest, 4);
        same("hear", focus_head_hear(&head, link, frame, 11), 0);
    }
    same("close", focus_head_close(&head), 0);
    same("kind", focus_head_reading(&head, &got), FOCUS_RANGE);
    same("the midpoint of -3 and 3 is +0", bits_of(got.midpoint), 0);
    same("the earlier one", got.lowest == -3 && got.highest == 3, 1);
    phase = 0;
}

/* ---- the page */

static focus_head ring[32];

/* What the page must be, by C's own printing. */
static size_t wanted(char *page, uint32_t n) {
    size_t length = 0;
    for (uint32_t i = 0; i < n; i++) {
        focus_kept kept;
        if (!focus_head_has_kept(&ring[i], &kept))
            length += (size_t)sprintf(page + length, "%u unknown\n", i);
        else if (kept.lowest == kept.highest)
            length += (size_t)sprintf(page + length, "%u point %08x\n", i, exact(kept.lowest));
        else
            length += (size_t)sprintf(page + length, "%u range %08x %08x %08x\n", i, exact(kept.lowest), exact(kept.highest),
                                      exact(((double)kept.lowest + kept.highest) / 2));
    }
    return length;
}

static void all_back(const uint8_t *from, const uint8_t *to) {
    for (; from < to; from++)
        same("kept", *from, BACK);
}

/* A page of n heads of `given` blocks, into so much room. */
static uint8_t page_of(uint8_t *buffer, size_t size, size_t room, uint32_t n, size_t given, size_t *length) {
    memset(buffer, BACK, size);
    *length = 777;
    return focus_host_page(&ring[0].opaque[0], 1116 * given, n, buffer, room, length);
}

static void page(uint32_t n) {
    char want[64 * 32 + 1];
    uint8_t buffer[64 * 32 + 9];
    size_t length, size = wanted(want, n);
    same("an exact fit", page_of(buffer, sizeof buffer, size, n, 32, &length), 0);
    same("length", (long long)length, (long long)size);
    same("bytes", memcmp(buffer, want, size), 0);
    all_back(buffer + size, buffer + sizeof buffer);
    same("more room", page_of(buffer, sizeof buffer, sizeof buffer, n, n, &length), 0);
    same("length", (long long)length, (long long)size);
    same("bytes", memcmp(buffer, want, size), 0);
    all_back(buffer + size, buffer + sizeof buffer);
    same("one too short", page_of(buffer, sizeof buffer, size - 1, n, 32, &length), FOCUS_BUFFER_TOO_SHORT);
    same("no room", page_of(buffer, sizeof buffer, 0, n, 32, &length), FOCUS_BUFFER_TOO_SHORT);
    same("no length", (long long)length, 777);
    all_back(buffer, buffer + sizeof buffer);
}

static void page_refused(void) {
    static const uint32_t counts[] = {0, 33, 34, 255, 256, 257, 288, UINT32_C(1) << 31, UINT32_MAX};
    uint8_t buffer[64];
    size_t length;
    for (size_t i = 0; i < sizeof counts / sizeof *counts; i++) {
        same("count", page_of(buffer, sizeof buffer, i % 2 ? sizeof buffer : 0, counts[i], 32, &length), FOCUS_BAD_HEAD_COUNT);
        same("no length", (long long)length, 777);
        all_back(buffer, buffer + sizeof buffer);
    }
}

/* A block that is not there in full reads unknown. */
static void page_cut(void) {
    uint8_t buffer[64];
    size_t length;
    ring[0] = ring[1]; /* which is known */
    memset(buffer, BACK, sizeof buffer);
    same("cut", focus_host_page(&ring[0].opaque[0], 2 * 1116 - 1, 2, buffer, sizeof buffer, &length), 0);
    same("its line", memcmp(buffer + length - 10, "1 unknown\n", 10), 0);
    same("none", focus_host_page(&ring[0].opaque[0], 0, 1, buffer, sizeof buffer, &length), 0);
    same("its line", memcmp(buffer, "0 unknown\n", length), 0);
}

static void pages(void) {
    for (uint32_t i = 0; i < 32; i++) {
        same("start", focus_one_round_start(&ring[i], 2, 0, 0, 0), 0);
        if (i % 3 != 0) {
            keep(1000 * (int32_t)i - 20000, 1000 * (int32_t)i - 20000 + (i % 3 == 1 ? 0 : (int32_t)i));
            ring[i] = head;
        }
    }
    for (uint32_t n = 1; n <= 32; n++)
        page(n);
    page_refused();
    page_cut();
}

int main(int argc, char **argv) {
    int32_t step = argc > 1 ? atoi(argv[1]) : 1;
    unknown();
    offered();
    pages();
    pairs(step);
    return all_checked();
}
