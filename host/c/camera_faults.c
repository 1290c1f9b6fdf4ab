/* The camera's calls: every refusal alone, every set of faults together (the first in the order of checks decides), the extremes of each
 * argument, and the memory before and after. The number of checks is printed; the first that fails stops the program. */
#include "check.h"

#include <limits.h>

/* ---- memory: lent room stands between two guards, and bytes read are compared with a copy */

struct lent32 {
    uint64_t before;
    int32_t value;
    uint64_t after;
};

struct lent64 {
    uint64_t before;
    int64_t value;
    uint64_t after;
};

struct lent_kept {
    uint64_t before;
    focus_kept value;
    uint64_t after;
};

struct lent_range {
    uint64_t before;
    focus_range value;
    uint64_t after;
};

#define GUARD UINT64_C(0x5aa55aa5c33cc33c)

/* the midpoint with what it kept, in either family: 0 for two rounds, 1 for one; `position` counts if the number is 0 */
static void midpoint_kept(int family, const char *what, uint32_t n, uint32_t f, uint32_t phase, uint32_t marks, const uint8_t *entries,
                          size_t length, uint8_t number, int32_t position) {
    uint8_t copy[512];
    struct lent_kept lent = {GUARD, {-777, -777, -777, -777}, GUARD};
    memcpy(copy, entries, length);
    uint8_t got = (family ? focus_one_round_midpoint_kept : focus_midpoint_kept)(n, f, phase, marks, entries, length, &lent.value);
    same(what, got, number);
    same(what, lent.value.position, number == 0 ? position : -777);
    same("half the sum of what is kept", number != 0 || (lent.value.lowest + lent.value.highest + (phase % 2 == 0)) >> 1 == position, 1);
    same("the trim of a one-round ring", number != 0 || !family || lent.value.trim == (int32_t)f, 1);
    same("what a refusal leaves", number == 0 || (lent.value.lowest == -777 && lent.value.highest == -777 && lent.value.trim == -777), 1);
    same("memory beside the kept range", lent.before == GUARD && lent.after == GUARD, 1);
    same("the entries read with the range", memcmp(copy, entries, length), 0);
}

/* the midpoint's answer, with the number it must give; `position` counts if that is 0 */
static void midpoint(const char *what, uint32_t n, uint32_t f, uint32_t phase, uint32_t marks, const uint8_t *entries, size_t length,
                     uint8_t number, int32_t position) {
    uint8_t copy[512];
    struct lent32 lent = {GUARD, -777, GUARD};
    memcpy(copy, entries, length);
    uint8_t got = focus_midpoint(n, f, phase, marks, entries, length, &lent.value);
    int32_t want = number == 0 ? position : -777;
    same(what, got, number);
    same(what, lent.value, want);
    same("memory beside the lent room", lent.before == GUARD && lent.after == GUARD, 1);
    same("the entries read", memcmp(copy, entries, length), 0);

    midpoint_kept(0, what, n, f, phase, marks, entries, length, number, position);
}

/* a call of either family: 0 for two rounds, 1 for one */
static uint8_t midpoint_of(int family, uint32_t n, uint32_t f, uint32_t phase, uint32_t marks, const uint8_t *entries, size_t length, int32_t *position) {
    return (family ? focus_one_round_midpoint : focus_midpoint)(n, f, phase, marks, entries, length, position);
}

static void one_round(const char *what, uint32_t n, uint32_t f, uint32_t phase, uint32_t marks, const uint8_t *entries, size_t length, uint8_t number,
                      int32_t position) {
    uint8_t copy[512];
    struct lent32 lent = {GUARD, -777, GUARD};
    memcpy(copy, entries, length);
    same(what, focus_one_round_midpoint(n, f, phase, marks, entries, length, &lent.value), number);
    same(what, lent.value, number == 0 ? position : -777);
    same("memory beside the lent room", lent.before == GUARD && lent.after == GUARD, 1);
    same("the entries read", memcmp(copy, entries, length), 0);
    midpoint_kept(1, what, n, f, phase, marks, entries, length, number, position);
}

/* a trusted table, in a family, with an entry open */
struct table {
    int family;
    uint32_t n, f, phase, number, marks;
    uint8_t entries[512];
    size_t length;
};

static void reach(const char *what, const struct table *t, int32_t wanted, uint8_t number, int32_t position) {
    uint8_t copy[512];
    struct lent32 lent = {GUARD, -777, GUARD};
    memcpy(copy, t->entries, sizeof copy);
    uint8_t got = (t->family ? focus_one_round_reach : focus_reach)(t->n, t->f, t->phase, t->number, t->marks, t->entries, t->length, wanted, &lent.value);
    same(what, got, number);
    same(what, lent.value, number == 0 ? position : -777);
    same("memory beside the lent room", lent.before == GUARD && lent.after == GUARD, 1);
    same("the entries read", memcmp(copy, t->entries, sizeof copy), 0);
}

/* the answer for limits; `lowest` and `highest` count if the number is 0 */
static void limits(const char *what, uint32_t n, uint32_t f, uint32_t phase, uint32_t marks, const uint8_t *bytes, size_t length, uint8_t number,
                   int32_t lowest, int32_t highest) {
    uint8_t copy[512];
    struct lent_range lent = {GUARD, {-777, -888}, GUARD};
    memcpy(copy, bytes, length);
    same(what, focus_limits(n, f, phase, marks, bytes, length, &lent.value), number);
    same(what, lent.value.lowest, number == 0 ? lowest : -777);
    same(what, lent.value.highest, number == 0 ? highest : -888);
    same("memory beside the range", lent.before == GUARD && lent.after == GUARD, 1);
    same("the limits read", memcmp(copy, bytes, length), 0);
}

static void scale(const char *what, int32_t steps, uint32_t numerator, uint32_t denominator, uint8_t number, int64_t nanometres) {
    struct lent64 lent = {GUARD, -777, GUARD};
    uint8_t got = focus_scale(steps, numerator, denominator, &lent.value);
    int64_t want = number == 0 ? nanometres : -777;
    same(what, got, number);
    same(what, lent.value, want);
    same("memory beside the lent room", lent.before == GUARD && lent.after == GUARD, 1);
}

static void unscale(const char *what, int64_t nanometres, uint32_t numerator, uint32_t denominator, uint8_t number, int32_t steps) {
    struct lent32 lent = {GUARD, -777, GUARD};
    uint8_t got = focus_unscale(nanometres, numerator, denominator, &lent.value);
    int32_t want = number == 0 ? steps : -777;
    same(what, got, number);
    same(what, lent.value, want);
    same("memory beside the lent room", lent.before == GUARD && lent.after == GUARD, 1);
}

static void frame(const char *what, const uint8_t *bytes, size_t length, uint8_t number) {
    uint8_t copy[70000];
    memcpy(copy, bytes, length);
    same(what, focus_frame_check(bytes, length), number);
    same("the frame read", memcmp(copy, bytes, length), 0);
}

/* ---- the midpoint: 1, 2, 5, 8, 10, 11, 25 in every combination that can be built */

enum { HEADS = 1, LIMIT = 2, PHASE = 4, BYTES = 8, MARK = 16, RANGE = 32, FEW = 64, FAULTS = 128 };

/* the lowest struck limit that n heads do not allow */
static uint32_t too_high(int family, uint32_t n) {
    return family ? n / 4 + 1 : (2 * n + 4) / 7 + 1;
}

/* A ring of 5 heads with positions 10 to 50, or of 33 (or, if a mark must stand at n or above, of 0) as a wrong count. */
static void midpoint_faults(int faults, int null_entry, int family) {
    uint8_t limit = family ? FOCUS_ONE_ROUND_LIMIT_TOO_HIGH : FOCUS_STRUCK_LIMIT_TOO_HIGH;
    const uint8_t order[] = {FOCUS_BAD_HEAD_COUNT, limit, FOCUS_PHASE_OUT_OF_RANGE, FOCUS_WRONG_LENGTH_FOR_KIND, FOCUS_BAD_COUNT_OR_MARKS, FOCUS_ENTRY_OUT_OF_RANGE, FOCUS_TOO_FEW_TRUSTED};
    uint8_t entries[512] = {0};
    uint32_t n = !(faults & HEADS) ? 5 : faults & MARK ? 0 : 33;
    uint32_t f = faults & LIMIT ? too_high(family, n) : n == 0 ? 0 : 1;
    uint32_t marks = n >= 32 ? UINT32_MAX : (UINT32_C(1) << n) - 1;
    if (faults & FEW)
        marks = n == 0 ? 0 : 1;
    for (uint32_t j = 0; j < n; j++)
        put4(entries + 4 * j, marks >> (j < 32 ? j : 31) & 1 && j < 32 ? 10 * ((int32_t)j + 1) : 0);
    if (faults & RANGE && n > 0) {
        if (null_entry) {
            marks &= ~UINT32_C(2);
            put4(entries + 4, 20);
        } else {
            put4(entries, 1000001);
        }
    }
    if (faults & MARK)
        marks |= UINT32_C(1) << n;
    size_t length = 4 * n + (faults & BYTES ? 1 : 0);
    tried = faults;
    uint32_t phase = !(faults & PHASE) ? 1 + (uint32_t)null_entry : null_entry ? 65536 : 0;
    (family ? one_round : midpoint)("midpoint faults", n, f, phase, marks, entries, length, first(faults, order, 7), 30);
    tried = 0;
}

static void midpoint_extremes(void) {
    uint8_t entries[512] = {0};
    static const uint32_t wide[] = {0, 33, 255, 256, 261, 65536 + 5, UINT32_MAX / 2 + 1, UINT32_MAX};
    for (size_t i = 0; i < sizeof wide / sizeof *wide; i++) {
        midpoint("head count", wide[i], 0, 1, 0, entries, 0, FOCUS_BAD_HEAD_COUNT, 0);
        midpoint("head count, any limit", wide[i], UINT32_MAX, 0, UINT32_MAX, entries, 20, FOCUS_BAD_HEAD_COUNT, 0);
    }
    static const uint32_t limits[] = {2, 257, 65536, UINT32_MAX / 7, UINT32_MAX / 7 + 1, UINT32_MAX};
    for (size_t i = 0; i < sizeof limits / sizeof *limits; i++)
        midpoint("struck limit", 5, limits[i], 0, 31, entries, 20, FOCUS_STRUCK_LIMIT_TOO_HIGH, 0);
    /* every size from 1 to 40 heads, with every limit to 12 */
    for (uint32_t n = 1; n <= 40; n++)
        for (uint32_t f = 0; f <= 12; f++) {
            uint32_t marks = n >= 32 ? UINT32_MAX : (UINT32_C(1) << n) - 1;
            midpoint("size", n, f, 1, marks, entries, 4 * n, n > 32 ? FOCUS_BAD_HEAD_COUNT : 2 * n < 7 * f + 2 ? FOCUS_STRUCK_LIMIT_TOO_HIGH : 0, 0);
        }
    for (uint32_t n = 1; n <= 40; n++)
        for (uint32_t f = 0; f <= 12; f++) {
            uint32_t marks = n >= 32 ? UINT32_MAX : (UINT32_C(1) << n) - 1;
            one_round("size", n, f, 1, marks, entries, 4 * n, n > 32 ? FOCUS_BAD_HEAD_COUNT : n < 4 * f + 1 ? FOCUS_ONE_ROUND_LIMIT_TOO_HIGH : 0, 0);
        }
    for (uint32_t nulls = 0; nulls <= 29; nulls++)
        one_round("nulls", 29, 7, 1, UINT32_MAX >> 3 >> nulls, entries, 116, nulls > 14 ? FOCUS_TOO_FEW_TRUSTED : 0, 0);
    /* every phase near the ends, and each bit beside them; all entries are 0 */
    static const uint32_t phases[] = {0, 1, 2, 65534, 65535, 65536, 65537, UINT32_C(1) << 17, UINT32_MAX - 1, UINT32_MAX};
    for (size_t i = 0; i < sizeof phases / sizeof *phases; i++)
        midpoint("phase", 5, 1, phases[i], 31, entries, 20, phases[i] >= 1 && phases[i] <= 65535 ? 0 : FOCUS_PHASE_OUT_OF_RANGE, 0);
    for (uint32_t bit = 16; bit < 32; bit++)
        midpoint("a phase of more than 2 bytes", 5, 1, 1 | UINT32_C(1) << bit, 31, entries, 20, FOCUS_PHASE_OUT_OF_RANGE, 0);
    /* every length beside 4n, and one byte short and long of it */
    for (size_t length = 0; length <= 200; length++)
        midpoint("entries not 4n bytes", 32, 8, 1, UINT32_MAX, entries, length, length == 128 ? 0 : FOCUS_WRONG_LENGTH_FOR_KIND, 0);
    /* each mark above n */
    for (uint32_t j = 5; j < 32; j++)
        midpoint("a mark at n or above", 5, 1, 1, 31 | UINT32_C(1) << j, entries, 20, FOCUS_BAD_COUNT_OR_MARKS, 0);
    /* each entry at the ends of the range and past them, marked and not */
    static const int32_t values[] = {-1000000, 1000000, -1000001, 1000001, INT32_MIN, INT32_MAX, -1, 1, 0};
    for (uint32_t j = 0; j < 32; j++)
        for (size_t i = 0; i < sizeof values / sizeof *values; i++) {
            int in_range = values[i] >= -1000000 && values[i] <= 1000000;
            put4(entries + 4 * j, values[i]);
            midpoint("an entry's range", 32, 8, 1, UINT32_MAX, entries, 128, in_range ? 0 : FOCUS_ENTRY_OUT_OF_RANGE, 0);
            midpoint("a null entry", 32, 8, 1, ~(UINT32_C(1) << j), entries, 128, values[i] == 0 ? 0 : FOCUS_ENTRY_OUT_OF_RANGE, 0);
            put4(entries + 4 * j, 0);
        }
    /* 25 by the nulls alone */
    for (uint32_t nulls = 0; nulls <= 32; nulls++)
        midpoint("nulls", 32, 8, 1, nulls == 32 ? 0 : UINT32_MAX >> nulls, entries, 128, nulls > 24 ? FOCUS_TOO_FEW_TRUSTED : 0, 0);
    midpoint("one null while f is 0", 1, 0, 1, 0, entries, 4, FOCUS_TOO_FEW_TRUSTED, 0);
}

/* What each family keeps of one table: with one null of 9 heads a ring of two rounds drops 2 from each end, f, and one of one round 2 too;
 * with 4 nulls the first drops 1, and the second 2. */
static void kept_points(void) {
    static const struct {
        int family;
        uint32_t marks;
        focus_kept kept;
    } points[] = {
        {0, 0x0ff, {30, 60, 2, 45}}, {1, 0x0ff, {30, 60, 2, 45}}, {0, 0x01f, {20, 40, 1, 30}}, {1, 0x01f, {30, 30, 2, 30}},
    };
    for (size_t i = 0; i < sizeof points / sizeof *points; i++) {
        uint8_t entries[36] = {0};
        focus_kept kept;
        for (int j = 0; j < 9; j++)
            put4(entries + 4 * j, points[i].marks >> j & 1 ? 10 * (j + 1) : 0);
        uint8_t number = (points[i].family ? focus_one_round_midpoint_kept : focus_midpoint_kept)(9, 2, 1, points[i].marks, entries, sizeof entries, &kept);
        same("what is kept", number, 0);
        same("what is kept", memcmp(&kept, &points[i].kept, sizeof kept), 0);
    }
}

struct point {
    uint32_t n, f, phase, marks;
    int32_t entries[5];
    uint8_t number;
    int32_t position;
};

static void midpoint_points(void) {
    static const struct point points[] = {
        {5, 1, 1, 0x0f, {10, 20, 30, 40, 0}, 0, 25}, {5, 1, 1, 0x07, {10, 20, 30, 0, 0}, 0, 20}, {5, 1, 1, 0x03, {10, 20, 0, 0, 0}, 0, 15},
        {5, 1, 1, 0x01, {10, 0, 0, 0, 0}, FOCUS_TOO_FEW_TRUSTED, 0}, {1, 0, 1, 0x01, {7}, 0, 7},
        /* odd sums: down in phases 1, 3 and 65,535, up in 2 and 65,534 */
        {5, 1, 1, 0x1f, {0, 0, 0, 1, 1}, 0, 0}, {5, 1, 2, 0x1f, {0, 0, 0, 1, 1}, 0, 1}, {5, 1, 3, 0x1f, {0, 0, 0, 1, 1}, 0, 0},
        {5, 1, 1, 0x1f, {-3, -3, -2, -2, -2}, 0, -3}, {5, 1, 2, 0x1f, {-3, -3, -2, -2, -2}, 0, -2},
        {5, 1, 65535, 0x1f, {-3, -3, -2, -2, -2}, 0, -3}, {5, 1, 65534, 0x1f, {-3, -3, -2, -2, -2}, 0, -2},
    };
    for (size_t i = 0; i < sizeof points / sizeof *points; i++) {
        uint8_t entries[20];
        for (size_t j = 0; j < 5; j++)
            put4(entries + 4 * j, points[i].entries[j]);
        midpoint("a worked point", points[i].n, points[i].f, points[i].phase, points[i].marks, entries, 4 * points[i].n, points[i].number,
                 points[i].position);
    }
}

/* ---- limits: 1, 2, 5, 8, 10, 19, 25 in every combination that can be built */

static void put8(uint8_t *at, int32_t lowest, int32_t highest) {
    put4(at, lowest);
    put4(at + 4, highest);
}

/* the ways of 19: out of order, and each end out of range; or each end not 0 where null */
enum { WAYS = 5 };

static void wrong_limits(uint8_t *bytes, uint32_t *marks, int way) {
    static const int32_t wrong[WAYS][2] = {{10, 9}, {-1000001, 10}, {10, 1000001}, {1, 0}, {0, -1}};
    int entry = way < 3 ? 0 : 1;
    if (way >= 3)
        *marks &= ~UINT32_C(2);
    put8(bytes + 8 * entry, wrong[way][0], wrong[way][1]);
}

/* A ring of 5 heads known from 9 to 12, 19 to 22 and so on; of 33 or of 0 as a wrong count, as for the midpoint. */
static void limits_faults(int faults, int way) {
    static const uint8_t order[] = {FOCUS_BAD_HEAD_COUNT, FOCUS_STRUCK_LIMIT_TOO_HIGH, FOCUS_PHASE_OUT_OF_RANGE, FOCUS_WRONG_LENGTH_FOR_KIND, FOCUS_BAD_COUNT_OR_MARKS, FOCUS_BAD_LIMITS, FOCUS_TOO_FEW_TRUSTED};
    uint8_t bytes[512] = {0};
    uint32_t n = !(faults & HEADS) ? 5 : faults & MARK ? 0 : 33;
    uint32_t f = faults & LIMIT ? too_high(0, n) : n == 0 ? 0 : 1;
    uint32_t marks = n >= 32 ? UINT32_MAX : (UINT32_C(1) << n) - 1;
    if (faults & FEW)
        marks = n == 0 ? 0 : 1;
    for (uint32_t j = 0; j < n && j < 32; j++)
        if (marks >> j & 1)
            put8(bytes + 8 * j, 10 * (int32_t)j + 9, 10 * (int32_t)j + 12);
    if (faults & RANGE && n > 0)
        wrong_limits(bytes, &marks, way);
    if (faults & MARK)
        marks |= UINT32_C(1) << n;
    size_t length = 8 * n + (faults & BYTES ? 1 : 0);
    tried = faults;
    uint32_t phase = !(faults & PHASE) ? 1 + (uint32_t)way : way % 2 ? 65536 : 0;
    limits("limits faults", n, f, phase, marks, bytes, length, first(faults, order, 7), 29, 32);
    tried = 0;
}

static void limits_extremes(void) {
    uint8_t bytes[512] = {0};
    static const uint32_t wide[] = {0, 33, 255, 256, 261, 65536 + 5, UINT32_MAX / 2 + 1, UINT32_MAX};
    for (size_t i = 0; i < sizeof wide / sizeof *wide; i++)
        limits("head count", wide[i], UINT32_MAX, 0, UINT32_MAX, bytes, 40, FOCUS_BAD_HEAD_COUNT, 0, 0);
    for (uint32_t n = 1; n <= 40; n++)
        for (uint32_t f = 0; f <= 12; f++) {
            uint32_t marks = n >= 32 ? UINT32_MAX : (UINT32_C(1) << n) - 1;
            limits("size", n, f, 1, marks, bytes, 8 * n, n > 32 ? FOCUS_BAD_HEAD_COUNT : 2 * n < 7 * f + 2 ? FOCUS_STRUCK_LIMIT_TOO_HIGH : 0, 0, 0);
        }
    /* every length beside 8n, the midpoint's 4n among them, and each mark above n */
    for (size_t length = 0; length <= 300; length++)
        limits("not 8n bytes", 32, 8, 1, UINT32_MAX, bytes, length, length == 256 ? 0 : FOCUS_WRONG_LENGTH_FOR_KIND, 0, 0);
    for (uint32_t j = 5; j < 32; j++)
        limits("a mark at n or above", 5, 1, 1, 31 | UINT32_C(1) << j, bytes, 40, FOCUS_BAD_COUNT_OR_MARKS, 0, 0);
    /* each entry with every pair of ends, marked and not */
    static const int32_t ends[] = {-1000000, 1000000, -1000001, 1000001, INT32_MIN, INT32_MAX, -1, 1, 0};
    enum { ENDS = sizeof ends / sizeof *ends };
    for (uint32_t j = 0; j < 32; j++)
        for (size_t i = 0; i < ENDS * ENDS; i++) {
            int32_t low = ends[i / ENDS], high = ends[i % ENDS];
            int fit = low >= -1000000 && high <= 1000000 && low <= high;
            put8(bytes + 8 * j, low, high);
            limits("an entry's limits", 32, 8, 1, UINT32_MAX, bytes, 256, fit ? 0 : FOCUS_BAD_LIMITS, 0, 0);
            limits("a null entry's limits", 32, 8, 1, ~(UINT32_C(1) << j), bytes, 256, low == 0 && high == 0 ? 0 : FOCUS_BAD_LIMITS, 0, 0);
            put8(bytes + 8 * j, 0, 0);
        }
    for (uint32_t nulls = 0; nulls <= 32; nulls++)
        limits("nulls", 32, 8, 1, nulls == 32 ? 0 : UINT32_MAX >> nulls, bytes, 256, nulls > 24 ? FOCUS_TOO_FEW_TRUSTED : 0, 0, 0);
    /* nothing known, at every size from 1 on: all positions are possible */
    for (uint32_t j = 0; j < 32; j++)
        put8(bytes + 8 * j, -1000000, 1000000);
    limits("nothing known", 32, 8, 1, UINT32_MAX, bytes, 256, 0, -1000000, 1000000);
    limits("one head", 1, 0, 2, 1, bytes, 8, 0, -1000000, 1000000);
}

/* Every choice within limits of 0 to 2 steps, by the midpoint call: the ends and each step between must occur, and nothing else. */
static void limits_choices(uint32_t phase, uint32_t marks, const int32_t *lows) {
    uint8_t bytes[40], entries[20];
    int32_t lowest = INT32_MAX, highest = INT32_MIN, widths[5];
    unsigned occurs = 0;
    for (int j = 0; j < 5; j++) {
        widths[j] = marks >> j & 1 ? (lows[j] + 2 * j) % 3 : 0;
        put8(bytes + 8 * j, marks >> j & 1 ? lows[j] : 0, marks >> j & 1 ? lows[j] + widths[j] : 0);
    }
    for (int choice = 0; choice < 243; choice++) {
        int32_t position = 0;
        int within = 1;
        for (int j = 0, rest = choice; j < 5; j++, rest /= 3) {
            within &= rest % 3 <= widths[j];
            put4(entries + 4 * j, marks >> j & 1 ? lows[j] + rest % 3 : 0);
        }
        if (!within)
            continue;
        same("a choice", focus_midpoint(5, 1, phase, marks, entries, 20, &position), 0);
        lowest = position < lowest ? position : lowest;
        highest = position > highest ? position : highest;
        occurs |= 1u << position;
    }
    limits("all choices", 5, 1, phase, marks, bytes, 40, 0, lowest, highest);
    for (int32_t x = lowest; x <= highest; x++)
        same("a step between", occurs >> x & 1, 1);
}

static void limits_tables(void) {
    for (uint32_t phase = 1; phase <= 2; phase++)
        for (int table = 0; table < 1024; table++)
            for (uint32_t marks = 0; marks < 32; marks++) {
                int32_t lows[5];
                int nulls = 0;
                for (int j = 0; j < 5; j++) {
                    lows[j] = 3 * (table >> 2 * j & 3);
                    nulls += !(marks >> j & 1);
                }
                if (nulls <= 3 && (table + (int)marks) % 5 == 0)
                    limits_choices(phase, marks, lows);
            }
}

/* ---- reach: 1, 2 or 18, 5, 3, 8, 10, 11, 25 in every combination that can be built */

enum { R_HEADS = 1, R_LIMIT = 2, R_PHASE = 4, R_NUMBER = 8, R_BYTES = 16, R_MARK = 32, R_RANGE = 64, R_FEW = 128, R_FAULTS = 256 };

/* A ring of 5 heads at 10, 20, 30, 40 and entry 4 open, with any bytes and any mark; of 33 or of 0 as a wrong count, as for the midpoint. */
static void reach_faults(int faults, int way, int family) {
    uint8_t limit = family ? FOCUS_ONE_ROUND_LIMIT_TOO_HIGH : FOCUS_STRUCK_LIMIT_TOO_HIGH;
    const uint8_t order[] = {FOCUS_BAD_HEAD_COUNT, limit, FOCUS_PHASE_OUT_OF_RANGE, FOCUS_NUMBER_TOO_HIGH, FOCUS_WRONG_LENGTH_FOR_KIND, FOCUS_BAD_COUNT_OR_MARKS, FOCUS_ENTRY_OUT_OF_RANGE, FOCUS_TOO_FEW_TRUSTED};
    struct table t = {family, !(faults & R_HEADS) ? 5 : faults & R_MARK ? 0 : 33, 1, 1 + (uint32_t)way, 4, 0, {0}, 0};
    if (faults & R_LIMIT)
        t.f = too_high(family, t.n);
    if (faults & R_PHASE)
        t.phase = way ? 65536 : 0;
    if (faults & R_NUMBER)
        t.number = way ? UINT32_MAX : t.n;
    for (uint32_t j = 0; j < 4 && !(faults & R_FEW); j++) {
        t.marks |= UINT32_C(1) << j;
        put4(t.entries + 4 * j, 10 * ((int32_t)j + 1));
    }
    if (faults & R_RANGE)
        put4(t.entries, 1000001);
    if (way) {
        t.marks |= 16;
        put4(t.entries + 16, INT32_MIN);
    } else {
        put4(t.entries + 16, 7);
    }
    if (faults & R_MARK)
        t.marks |= UINT32_C(1) << t.n;
    t.length = 4 * t.n + (faults & R_BYTES ? 1 : 0);
    tried = faults;
    reach("reach faults", &t, 24, first(faults, order, 8), way ? 17 : 18);
    tried = 0;
}

static void reach_points(void) {
    static const int32_t found[][2] = {
        {20, -1000000}, {24, 18}, {30, 40}, {31, FOCUS_NO_STEP}, {19, FOCUS_NO_STEP}, {1000001, FOCUS_NO_STEP}, {-1000001, FOCUS_NO_STEP},
        {INT32_MIN, FOCUS_NO_STEP}, {INT32_MAX, FOCUS_NO_STEP},
    };
    struct table t = {0, 5, 1, 1, 4, 15, {0}, 20}, one = {0, 1, 0, 1, 0, 0, {0}, 4};
    for (int j = 0; j < 4; j++)
        put4(t.entries + 4 * j, 10 * (j + 1));
    for (size_t i = 0; i < sizeof found / sizeof *found; i++)
        for (t.family = 0; t.family < 2; t.family++)
            reach("a worked point", &t, found[i][0], 0, found[i][1]);
    for (one.family = 0; one.family < 2; one.family++)
        for (int32_t wanted = -1000002; wanted <= 1000002; wanted += wanted == -999998 ? 1999996 : 1)
            reach("one head", &one, wanted, 0, wanted < -1000000 || wanted > 1000000 ? FOCUS_NO_STEP : wanted);
    /* every number of null entries among the others: the open one is not counted */
    for (uint32_t nulls = 0; nulls <= 28; nulls++) {
        struct table wide = {0, 29, 7, 1, 28, UINT32_MAX >> 4 >> nulls, {0}, 116};
        reach("nulls", &wide, 0, nulls > 21 ? FOCUS_TOO_FEW_TRUSTED : 0, nulls == 21 ? 0 : -1000000); /* with 3f nulls nothing is dropped */
        wide.family = 1;
        reach("nulls", &wide, 0, nulls > 14 ? FOCUS_TOO_FEW_TRUSTED : 0, -1000000);
    }
}

/* the new position with u for the open entry, by the midpoint call */
static int32_t brings(const struct table *t, int32_t u) {
    uint8_t entries[512];
    int32_t position = 0;
    memcpy(entries, t->entries, sizeof entries);
    put4(entries + 4 * t->number, u);
    same("a table", midpoint_of(t->family, t->n, t->f, t->phase, t->marks | UINT32_C(1) << t->number, entries, t->length, &position), 0);
    return position;
}

/* The lowest position of a table whose others are from 0 to 9, found by trying: from -40 on the new position follows the open entry, if at all. */
static int32_t by_trying(const struct table *t, int32_t wanted) {
    if (brings(t, -1000000) == wanted)
        return -1000000;
    for (int32_t u = -40; u <= 40; u++)
        if (brings(t, u) == wanted)
            return u;
    return FOCUS_NO_STEP;
}

static void reach_tables(void) {
    for (int table = 0; table < 256; table++)
        for (uint32_t marks = 0; marks < 16; marks++) {
            struct table t = {table % 2, 5, 1, 1 + (uint32_t)table / 2 % 2, (uint32_t)table % 5, 0, {0}, 20};
            int nulls = 0;
            for (uint32_t j = 0, other = 0; j < 5; j++) {
                if (j == t.number)
                    continue;
                int known = marks >> other & 1;
                nulls += !known;
                t.marks |= (uint32_t)known << j;
                put4(t.entries + 4 * j, known ? 3 * (table >> 2 * other & 3) : 0);
                other++;
            }
            if (nulls > (t.family ? 2 : 3)) {
                reach("too few", &t, 0, FOCUS_TOO_FEW_TRUSTED, 0);
                continue;
            }
            for (int32_t wanted = -2; wanted <= 12; wanted++)
                reach("by trying", &t, wanted, 0, by_trying(&t, wanted));
        }
}

/* ---- the scale: 12 before 4 */

static void scales(void) {
    static const uint32_t bad[] = {0, 1000001, UINT32_MAX};
    static const int32_t out[] = {-1000001, 1000001, INT32_MIN, INT32_MAX};
    for (size_t i = 0; i < 3; i++) {
        scale("numerator", 1, bad[i], 1, FOCUS_BAD_SCALE, 0);
        scale("denominator", 1, 1000000, bad[i], FOCUS_BAD_SCALE, 0);
        for (size_t j = 0; j < 4; j++) {
            scale("numerator, then position", out[j], bad[i], 1, FOCUS_BAD_SCALE, 0);
            scale("denominator, then position", out[j], 1000000, bad[i], FOCUS_BAD_SCALE, 0);
        }
    }
    scale("numerator below denominator", 1, 1, 2, FOCUS_BAD_SCALE, 0);
    for (size_t j = 0; j < 4; j++)
        scale("position", out[j], 3, 2, FOCUS_POSITION_OUT_OF_RANGE, 0);
    scale("largest", 1000000, 1000000, 1, 0, INT64_C(1000000000000));
    scale("lowest", -1000000, 1000000, 1, 0, INT64_C(-1000000000000));
    scale("equal", -7, 1000000, 1000000, 0, -7);
    scale("down", 3, 5, 2, 0, 7);
    scale("down, below zero", -3, 5, 2, 0, -8);
    scale("zero", 0, 5, 2, 0, 0);
    scale("just below zero", -1, 1000000, 999999, 0, -2);
}

/* ---- back from nanometres: 12, or the step, or none */

#define FAR INT64_C(1000000000000)

struct reading {
    int64_t nanometres;
    uint32_t numerator, denominator;
    int32_t steps;
};

static void readings(void) {
    static const struct reading all[] = {
        /* the ends of the range, and the readings beside them */
        {FAR, 1000000, 1, 1000000}, {FAR - 1, 1000000, 1, FOCUS_NO_STEP}, {FAR + 1, 1000000, 1, FOCUS_NO_STEP},
        {-FAR, 1000000, 1, -1000000}, {-FAR + 1, 1000000, 1, FOCUS_NO_STEP}, {-FAR - 1, 1000000, 1, FOCUS_NO_STEP},
        {FAR, 1, 1, FOCUS_NO_STEP}, {-FAR, 1, 1, FOCUS_NO_STEP}, {FAR, 1000000, 1000000, FOCUS_NO_STEP}, {-FAR, 1000000, 1000000, FOCUS_NO_STEP},
        {1000000, 1, 1, 1000000}, {1000001, 1, 1, FOCUS_NO_STEP}, {-1000000, 1, 1, -1000000}, {-1000001, 1, 1, FOCUS_NO_STEP},
        {1000001, 1000000, 999999, 1000000}, {1000002, 1000000, 999999, FOCUS_NO_STEP},
        {-1000002, 1000000, 999999, -1000000}, {-1000003, 1000000, 999999, FOCUS_NO_STEP},
        {INT64_C(1) << 32, 1, 1, FOCUS_NO_STEP}, {(INT64_C(1) << 32) + 7, 1, 1, FOCUS_NO_STEP},
        /* every reading from -8 to 8, by 5 / 2 */
        {-8, 5, 2, -3}, {-7, 5, 2, FOCUS_NO_STEP}, {-6, 5, 2, FOCUS_NO_STEP}, {-5, 5, 2, -2}, {-4, 5, 2, FOCUS_NO_STEP}, {-3, 5, 2, -1},
        {-2, 5, 2, FOCUS_NO_STEP}, {-1, 5, 2, FOCUS_NO_STEP}, {0, 5, 2, 0}, {1, 5, 2, FOCUS_NO_STEP}, {2, 5, 2, 1}, {3, 5, 2, FOCUS_NO_STEP},
        {4, 5, 2, FOCUS_NO_STEP}, {5, 5, 2, 2}, {6, 5, 2, FOCUS_NO_STEP}, {7, 5, 2, 3}, {8, 5, 2, FOCUS_NO_STEP},
        /* just below zero, by nearly one */
        {0, 1000000, 999999, 0}, {-1, 1000000, 999999, FOCUS_NO_STEP}, {-2, 1000000, 999999, -1}, {-3, 1000000, 999999, -2},
    };
    for (size_t i = 0; i < sizeof all / sizeof *all; i++)
        unscale("a reading", all[i].nanometres, all[i].numerator, all[i].denominator, 0, all[i].steps);
}

static const uint32_t ratios[][2] = {
    {1, 1}, {2, 1}, {5, 2}, {3, 3}, {1000000, 1}, {1000000, 999999}, {1000000, 1000000}, {999999, 524288}, {524288, 524287},
};
enum { RATIOS = sizeof ratios / sizeof *ratios };

static void unscales(void) {
    /* 12 alone is refused, whatever the reading; far readings have no step by any scale */
    static const uint32_t bad[] = {0, 1000001, UINT32_MAX};
    static const int64_t any[] = {0, 1, -1, FAR, -FAR, FAR + 1, -FAR - 1, INT64_MAX, INT64_MIN, INT64_MAX - 1, INT64_MIN + 1};
    for (size_t j = 0; j < sizeof any / sizeof *any; j++) {
        for (size_t i = 0; i < 3; i++) {
            unscale("numerator, any reading", any[j], bad[i], 1, FOCUS_BAD_SCALE, 0);
            unscale("denominator, any reading", any[j], 1000000, bad[i], FOCUS_BAD_SCALE, 0);
        }
        unscale("numerator below denominator, any reading", any[j], 1, 2, FOCUS_BAD_SCALE, 0);
        unscale("numerator just below denominator", any[j], 999999, 1000000, FOCUS_BAD_SCALE, 0);
        for (size_t k = 0; j >= 5 && k < RATIOS; k++)
            unscale("a far reading", any[j], ratios[k][0], ratios[k][1], 0, FOCUS_NO_STEP);
    }
    /* readings that are a step's in their low bits only, also once they are multiplied in 64 bits */
    for (int bit = 40; bit < 63; bit++)
        for (size_t k = 0; k < RATIOS; k++) {
            unscale("a reading with a high bit", INT64_C(1) << bit, ratios[k][0], ratios[k][1], 0, FOCUS_NO_STEP);
            unscale("a low reading with a high bit", -(INT64_C(1) << bit), ratios[k][0], ratios[k][1], 0, FOCUS_NO_STEP);
        }
    readings();
}

static int64_t reading_of(int32_t steps, size_t k) {
    int64_t nanometres = 0;
    same("a scale that is taken", focus_scale(steps, ratios[k][0], ratios[k][1], &nanometres), 0);
    return nanometres;
}

/* a position through the scale and back; and the readings up to the next position's, which are no step's */
static void back(int32_t steps, size_t k) {
    uint32_t numerator = ratios[k][0], denominator = ratios[k][1];
    int64_t x = reading_of(steps, k), next = steps < 1000000 ? reading_of(steps + 1, k) : INT64_MAX;
    unscale("through and back", x, numerator, denominator, 0, steps);
    unscale("one above a reading", x + 1, numerator, denominator, 0, x + 1 == next ? steps + 1 : FOCUS_NO_STEP);
    if (steps < 1000000 && x + 1 < next)
        unscale("one below the next reading", next - 1, numerator, denominator, 0, FOCUS_NO_STEP);
    if (steps == -1000000)
        unscale("one below all readings", x - 1, numerator, denominator, 0, FOCUS_NO_STEP);
}

static void through_and_back(void) {
    for (size_t k = 0; k < RATIOS; k++) {
        for (int32_t steps = -1000000; steps <= 1000000; steps += 97)
            back(steps, k);
        for (int32_t off = 0; off < 100; off++) {
            back(-1000000 + off, k);
            back(1000000 - off, k);
            back(off - 50, k);
        }
    }
}

/* ---- the frame check: 6, 7, 8 */

/* a frame with any length field, kind and count over any number of bytes */
static size_t build(uint8_t *at, size_t length, unsigned field, unsigned kind, uint8_t count) {
    memset(at, 0xab, length);
    uint8_t front[8] = {(uint8_t)field, (uint8_t)(field >> 8), (uint8_t)kind, (uint8_t)(kind >> 8), 0xff, 0, 0, count};
    memcpy(at, front, length < 8 ? length : 8);
    return length;
}

static void frames(void) {
    static uint8_t bytes[70000];
    static const size_t lengths[5] = {0, 11, 7, 0, 7};
    /* every kind to 20 and every length to 1,100, with the count that fits and others */
    for (unsigned kind = 0; kind <= 20; kind++)
        for (size_t length = 0; length <= 1100; length++)
            for (int off = 0; off < 2; off++) {
                uint8_t count = length >= 12 ? (uint8_t)((length - 12) / 4) : 0;
                int known = kind >= 1 && kind <= 4;
                size_t right = kind == 3 ? 12 + 4 * (size_t)count : known ? lengths[kind] : 0;
                int number = length < 4 || off ? FOCUS_STATED_LENGTH_DIFFERS : !known ? FOCUS_UNKNOWN_KIND : length != right ? FOCUS_WRONG_LENGTH_FOR_KIND : 0;
                build(bytes, length, (unsigned)length + (unsigned)off, kind, count);
                frame("frame", bytes, length, (uint8_t)number);
            }
    /* all 16 bits of the kind count, and a list's own count */
    for (unsigned kind = 0; kind <= 65535; kind += 255) {
        int known = kind >= 1 && kind <= 4;
        frame("kind", bytes, build(bytes, 9, 9, kind, 0), known ? FOCUS_WRONG_LENGTH_FOR_KIND : FOCUS_UNKNOWN_KIND);
    }
    for (unsigned count = 0; count <= 255; count++)
        for (size_t other = 0; other <= 255; other += 5) {
            size_t length = build(bytes, 12 + 4 * other, (unsigned)(12 + 4 * other), 3, (uint8_t)count);
            frame("count", bytes, length, count == other ? 0 : FOCUS_WRONG_LENGTH_FOR_KIND);
        }
    /* faults together: the earlier number */
    frame("length, then kind", bytes, build(bytes, 9, 8, 5, 0), FOCUS_STATED_LENGTH_DIFFERS);
    frame("length, then the kind's length", bytes, build(bytes, 9, 8, 1, 0), FOCUS_STATED_LENGTH_DIFFERS);
    frame("kind, then the kind's length", bytes, build(bytes, 9, 9, 0, 0), FOCUS_UNKNOWN_KIND);
    frame("all three", bytes, build(bytes, 9, 8, 0, 0), FOCUS_STATED_LENGTH_DIFFERS);
    /* short and long slices */
    const uint8_t four_unknown[] = {4, 0, 5, 0}, four_known[] = {4, 0, 1, 0}, three[] = {4, 0, 2}, list7[] = {7, 0, 3, 0, 0, 1, 0};
    frame("4 bytes, unknown", four_unknown, 4, FOCUS_UNKNOWN_KIND);
    frame("4 bytes, known", four_known, 4, FOCUS_WRONG_LENGTH_FOR_KIND);
    frame("3 bytes", three, 3, FOCUS_STATED_LENGTH_DIFFERS);
    frame("a list without a count", list7, 7, FOCUS_WRONG_LENGTH_FOR_KIND);
    frame("no bytes", bytes, 0, FOCUS_STATED_LENGTH_DIFFERS);
    frame("the longest field", bytes, build(bytes, 65535, 65535, 3, 255), FOCUS_WRONG_LENGTH_FOR_KIND);
    frame("more bytes than a field can say", bytes, build(bytes, 65536 + 7, 7, 2, 0), FOCUS_STATED_LENGTH_DIFFERS);
}

int main(void) {
    same("the library's version", focus_version(), FOCUS_VERSION);
    for (int faults = 0; faults < FAULTS; faults++)
        for (int null_entry = 0; null_entry < 2; null_entry++) {
            int impossible = faults & HEADS && faults & MARK && faults & RANGE; /* a count of 0 has no entries */
            if (!impossible)
                for (int family = 0; family < 2; family++)
                    midpoint_faults(faults, null_entry, family);
        }
    midpoint_extremes();
    midpoint_points();
    kept_points();
    for (int faults = 0; faults < FAULTS; faults++)
        for (int way = 0; way < WAYS; way++)
            if (!(faults & HEADS && faults & MARK && faults & RANGE))
                limits_faults(faults, way);
    limits_extremes();
    limits_tables();
    for (int faults = 0; faults < R_FAULTS; faults++)
        for (int way = 0; way < 4; way++)
            reach_faults(faults, way / 2, way % 2);
    reach_points();
    reach_tables();
    scales();
    unscales();
    through_and_back();
    frames();
    return all_checked();
}
