/* What the C programs share: checks that are counted, and frames put together by hand. */
#ifndef CHECK_H
#define CHECK_H

#include <focus.h>

#include <stdio.h>
#include <stdlib.h>
#include <string.h>

static unsigned long checks;
static int tried; /* the set of faults that is tried, shown if a check fails */

/* A check; the first that fails stops the program. */
static inline void same(const char *what, long long got, long long want) {
    checks++;
    if (got != want) {
        printf("%s (faults %x): got %lld, want %lld\n", what, (unsigned)tried, got, want);
        exit(1);
    }
}

static inline int all_checked(void) {
    printf("%lu checks\n", checks);
    return 0;
}

/* The number of the first fault, in the order of checks: fault i of a set is bit i. */
static inline uint8_t first(int faults, const uint8_t *order, int count) {
    for (int i = 0; i < count; i++)
        if (faults >> i & 1)
            return order[i];
    return 0;
}

static inline void put4(uint8_t *at, int32_t value) {
    for (int i = 0; i < 4; i++)
        at[i] = (uint8_t)((uint32_t)value >> 8 * i);
}

/* A frame of fewer than 256 bytes: its length. */
static inline size_t put_frame(uint8_t *at, unsigned kind, uint32_t sender, uint32_t phase, const uint8_t *rest, size_t size) {
    uint8_t front[7] = {(uint8_t)(7 + size), 0, (uint8_t)kind, 0, (uint8_t)sender, (uint8_t)phase, (uint8_t)(phase >> 8)};
    memcpy(at, front, 7);
    if (size > 0)
        memcpy(at + 7, rest, size);
    return 7 + size;
}

/* A list of n entries, each a position if its bit of the marks is set, else 0. */
static inline size_t put_list(uint8_t *at, uint32_t sender, uint32_t phase, uint32_t n, uint32_t marks, const int32_t *entries) {
    uint8_t rest[FOCUS_FRAME_MAX] = {(uint8_t)n};
    put4(rest + 1, (int32_t)marks);
    for (uint32_t j = 0; j < n; j++)
        put4(rest + 5 + 4 * j, entries[j]);
    return put_frame(at, 3, sender, phase, rest, 5 + 4 * n);
}

#endif
