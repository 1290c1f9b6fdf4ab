/* The stack that each call takes: it is run on a stack of its own that was painted before, and the lowest byte that changed tells.
 * Every call is made with the largest ring, and focus_play with each of the files that are named. The header's two numbers,
 * FOCUS_STACK and FOCUS_STACK_PLAY, must be above what is found; and every call but focus_play and focus_host_page takes less than OTHERS,
 * as docs/TRUST.md (B5) says.
 *
 *     stack FILE.run..
 */
#define _GNU_SOURCE
#include "check.h"

#include <ucontext.h>

enum { SIZE = 1 << 20, PAINT = 0x5a, N = 32, F = 8, MOST = 1 << 22, OTHERS = 1024 };

static _Alignas(64) uint8_t area[SIZE];
static ucontext_t here, there;
static void (*asked)(void);

static void run(void) {
    asked();
}

/* bytes that changed on the painted stack */
static size_t depth_of(void (*call)(void)) {
    size_t untouched = 0;
    memset(area, PAINT, SIZE);
    asked = call;
    same("context", getcontext(&there), 0);
    there.uc_stack.ss_sp = area;
    there.uc_stack.ss_size = SIZE;
    there.uc_link = &here;
    makecontext(&there, run, 0);
    same("switch", swapcontext(&here, &there), 0);
    while (untouched < SIZE && area[untouched] == PAINT)
        untouched++;
    return SIZE - untouched;
}

/* ---- the calls, each with what it is given */

static focus_head heads[N];
static uint8_t frame[FOCUS_FRAME_MAX], entries[4 * N], limits[8 * N], batch[N * (FOCUS_FRAME_MAX + 1)], answers[N];
static uint8_t page[64 * N], window[FOCUS_WINDOW_BYTES];
static uint8_t since[FOCUS_RECEIVERS], number, byte;
static size_t frame_length, batch_length, length, count;
static int32_t position;
static int64_t nanometres;
static focus_kept kept;
static focus_range range;
static focus_reading reading;

static void nothing(void) {}
static void check(void) { number = focus_frame_check(frame, frame_length); }
static void midpoint(void) { number = focus_midpoint(N, F, 2, UINT32_MAX, entries, sizeof entries, &position); }
static void midpoint_kept(void) { number = focus_midpoint_kept(N, F, 2, UINT32_MAX, entries, sizeof entries, &kept); }
static void one_midpoint_kept(void) { number = focus_one_round_midpoint_kept(N, 7, 2, UINT32_MAX, entries, sizeof entries, &kept); }
static void one_midpoint(void) { number = focus_one_round_midpoint(N, 7, 2, UINT32_MAX, entries, sizeof entries, &position); }
static void within(void) { number = focus_limits(N, F, 2, UINT32_MAX, limits, sizeof limits, &range); }
static void reach(void) { number = focus_reach(N, F, 2, 3, UINT32_MAX, entries, sizeof entries, 112, &position); }
static void one_reach(void) { number = focus_one_round_reach(N, 7, 2, 3, UINT32_MAX, entries, sizeof entries, 112, &position); }
static void scale(void) { number = focus_scale(-7, 3, 2, &nanometres); }
static void unscale(void) { number = focus_unscale(-11, 3, 2, &position); }
static void start(void) { number = focus_head_start(heads, N, F, 0, 5); }
static void restart(void) { number = focus_head_restart(heads, N, F, 0, 1, 1); }
static void listen(void) { number = focus_listener_start(heads, N, F, 33); }
static void listen_again(void) { number = focus_listener_restart(heads, N, F, 33, 1, 1); }
static void one_start(void) { number = focus_one_round_start(heads, N, 7, 0, 5); }
static void one_restart(void) { number = focus_one_round_restart(heads, N, 7, 0, 9, 0); }
static void one_listen(void) { number = focus_one_round_listener_start(heads, N, 7, 33); }
static void one_listen_again(void) { number = focus_one_round_listener_restart(heads, N, 7, 33, 9, 0); }
static void hear(void) { number = focus_head_hear(heads, 0, frame, frame_length); }
static void hear_batch(void) { number = focus_head_hear_batch(heads, batch, batch_length, answers, sizeof answers, &count); }
static void written(void) { number = focus_head_write(heads, frame, sizeof frame, &frame_length); }
static void closes(void) { number = focus_head_close(heads); }
static void adopt(void) { number = focus_head_adopt(heads); }
static void offer(void) { number = focus_head_has_offer(heads, &kept); }
static void held(void) { number = focus_head_has_position(heads, &position); }
static void last_kept(void) { number = focus_head_has_kept(heads, &kept); }
static void counted(void) { number = focus_head_since(heads); }
static void readings(void) { number = focus_head_reading(heads, &reading); }
static void host_page(void) { number = focus_host_page(heads[0].opaque, sizeof heads / 4, N, page, sizeof page, &length); }
static void reads_register(void) { number = focus_head_register(heads, 6, &byte); }
static void reads_window(void) { focus_head_window(heads, window); }
static void sets_register(void) { number = focus_head_set_register(heads, FOCUS_WINDOW_MASK, 7); }
static void resets_window(void) { focus_head_window_reset(heads, 7); }
static void line(void) { number = focus_head_has_interrupt(heads); }
static void version(void) { number = (uint8_t)focus_version(); }

static uint8_t *file, *out;
static int32_t *rows;
static uint64_t *words;
static size_t bytes, phase, ends;

static void play(void) {
    number = focus_play(file, bytes, out, FOCUS_PLAY_OUT(bytes, phase), rows, FOCUS_PLAY_ROWS(bytes, phase), words,
                        FOCUS_PLAY_ENDS(bytes, phase), since, &length, &ends);
}

/* ---- what they take */

static size_t base, deepest;

static size_t shown(const char *name, void (*call)(void), size_t most) {
    focus_head before = heads[0];
    depth_of(call); /* once before, since the first call of memcpy may have to be looked up */
    heads[0] = before;
    size_t depth = depth_of(call) - base;
    printf("%-36s %7zu\n", name, depth);
    same(name, depth < most, 1);
    if (most != FOCUS_STACK_PLAY && deepest < depth)
        deepest = depth;
    return depth;
}

/* a call that must be taken */
static void taken(const char *name, void (*call)(void)) {
    shown(name, call, OTHERS);
    same(name, number, FOCUS_OK);
}

static void answers_only(const char *name, void (*call)(void)) {
    shown(name, call, OTHERS);
}

/* a batch of all links: positions, or lists, with liars and with as many confessions as there may be */
static void put_batch(int lists) {
    int32_t told[N];
    batch_length = 0;
    for (uint32_t k = 0; k < N; k++) {
        uint8_t *at = batch + batch_length + 1;
        at[-1] = (uint8_t)k;
        for (int j = 0; j < N; j++)
            told[j] = k >= F && k < 2 * F ? (int32_t)(k * 977 + (uint32_t)j * 31) : 3 * j;
        uint8_t rest[4];
        put4(rest, 3 * (int32_t)k);
        batch_length += 1 + (!lists ? put_frame(at, FOCUS_FRAME_POSITION, k, 1, rest, 4)
                             : k < F ? put_frame(at, FOCUS_FRAME_CONFESSION, k, 1, NULL, 0)
                                     : put_list(at, k, 1, N, UINT32_MAX, told));
    }
}

static void without_heads(void) {
    for (int j = 0; j < N; j++) {
        put4(entries + 4 * j, 7 * (N - j));
        put4(limits + 8 * j, 7 * (N - j));
        put4(limits + 8 * j + 4, 9 * (N - j));
    }
    taken("focus_midpoint", midpoint);
    taken("focus_midpoint_kept", midpoint_kept);
    taken("focus_one_round_midpoint", one_midpoint);
    taken("focus_one_round_midpoint_kept", one_midpoint_kept);
    taken("focus_limits", within);
    taken("focus_reach", reach);
    taken("focus_one_round_reach", one_reach);
    taken("focus_scale", scale);
    taken("focus_unscale", unscale);
    answers_only("focus_version", version);
}

static void of_a_head(void) {
    taken("focus_one_round_listener_start", one_listen);
    taken("focus_one_round_listener_restart", one_listen_again);
    taken("focus_one_round_restart", one_restart);
    taken("focus_one_round_start", one_start);
    put_batch(0);
    taken("focus_head_hear_batch, one round", hear_batch);
    taken("focus_head_close, one round", closes);
    taken("focus_listener_start", listen);
    taken("focus_listener_restart", listen_again);
    taken("focus_head_restart", restart);
    taken("focus_head_start", start);
    taken("focus_head_write, position", written);
    taken("focus_frame_check", check);
    taken("focus_head_hear, position", hear);
    taken("focus_head_hear_batch, positions", hear_batch);
    taken("focus_head_close, collection", closes);
    taken("focus_head_write, list", written);
    taken("focus_head_hear, list", hear);
    put_batch(1);
    taken("focus_head_hear_batch, lists", hear_batch);
    taken("focus_head_close, confession", closes);
    answers_only("focus_head_has_offer", offer);
    taken("focus_head_adopt", adopt);
    answers_only("focus_head_has_position", held);
    answers_only("focus_head_has_kept", last_kept);
    answers_only("focus_head_since", counted);
    answers_only("focus_head_reading", readings);
    for (int k = 1; k < N; k++)
        heads[k] = heads[0];
    shown("focus_host_page", host_page, FOCUS_STACK);
    same("focus_host_page", number, FOCUS_OK);
    answers_only("focus_head_register", reads_register);
    answers_only("focus_head_window", reads_window);
    taken("focus_head_set_register", sets_register);
    answers_only("focus_head_window_reset", resets_window);
    answers_only("focus_head_has_interrupt", line);
}

/* a block that no start made */
static void of_garbage(void) {
    memset(heads, 0xff, sizeof heads);
    answers_only("focus_head_hear_batch, garbage", hear_batch);
    answers_only("focus_head_close, garbage", closes);
    heads[0].opaque[4] = 1;
    heads[0].opaque[6] = 0;
    heads[0].opaque[14] = 0;
    answers_only("focus_head_close, more garbage", closes);
    shown("focus_host_page, garbage", host_page, FOCUS_STACK);
}

static size_t of_a_file(const char *name) {
    FILE *in = fopen(name, "rb");
    same(name, in != NULL, 1);
    bytes = fread(file, 1, MOST, in);
    fclose(in);
    phase = FOCUS_PLAY_PHASE(file, bytes);
    return shown("focus_play", play, FOCUS_STACK_PLAY);
}

int main(int words_given, char **word) {
    size_t played = 0;
    file = malloc(MOST);
    out = malloc(FOCUS_PLAY_OUT(MOST, FOCUS_PLAY_ONE_ROUND));
    rows = malloc(sizeof *rows * FOCUS_PLAY_ROWS(MOST, FOCUS_PLAY_ONE_ROUND));
    words = malloc(sizeof *words * FOCUS_PLAY_ENDS(MOST, FOCUS_PLAY_ONE_ROUND));
    same("memory", file != NULL && out != NULL && rows != NULL && words != NULL, 1);
    depth_of(nothing);
    base = depth_of(nothing);
    without_heads();
    of_a_head();
    of_garbage();
    for (int i = 1; i < words_given; i++) {
        size_t depth = of_a_file(word[i]);
        if (played < depth)
            played = depth;
    }
    printf("focus_play %zu bytes of stack, all others at most %zu\n", played, deepest);
    free(file);
    free(out);
    free(rows);
    free(words);
    return 0;
}
