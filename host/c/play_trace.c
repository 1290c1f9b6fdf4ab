/* What happens in a run file, head by head, from the proved calls alone: host/tools/play reads these lines and shows them.
 *
 *     play_trace FILE [FROM TO]     or - for standard input; only the phases from FROM to TO
 *
 * focus_play judges the file and gives its listing. A ring of blocks that C keeps is driven by the same records, and must hold the row of
 * each phase end. Which record is the first fault is asked of focus_play too: the first up to which the file cannot be played on.
 *
 *     file BYTES RECORDS              how many whole records there are
 *     ended NUMBER RECORD OFFSET WORDS   0, or how the file is refused, and at which record, counted from 1, and byte; the record is one
 *                                     more than there are if the file is refused at its end
 *     refusal NUMBER WORDS            each number with which a frame can be refused
 *     listing LINE                    a line of the listing
 *     ring N F LISTENERS ROUNDS       if there is an accepted start; ROUNDS of a phase
 *     phase P                         a phase end: 0 is the start
 *     round R STRUCK HEALED           its rounds, as they were played: mark words, listeners from bit 32 on
 *     planted FROM TO NUMBER HEX      a planted frame, and with which number its receiver refused it, or 0
 *     trusted I ENTRIES               the trusted table of a receiver, - for null
 *     null I J WHY [NUMBERS]          why its entry J is null
 *     node I POSITION LOWEST HIGHEST TRIM COUNT KIND FLOATS   what it holds after the phase; a start has a position alone
 *     struck I                        or that its memory is lost
 *     done
 *
 * The table of a receiver is worked out here, from the frames that its block took; the proved midpoint of it must be what the block
 * settled. WHY is `confessed`; `support S U` if U has the most support, that of S; `unlisted` if no list has a position for it; `two U V`
 * if two positions have the support of n - f; in a one-round ring `silence` or `nothing`, which is what the link gave. */
#include "play.h"
#include "ring.h"
#include "tool.h"

static const char usage[] = "play_trace FILE [FROM TO]";
static const char help[] =
    "What happens in a run file, head by head, in lines that `play` reads and shows. With -, standard input is read; with FROM and TO, only\n"
    "these phases. Status: 0, or 2 if the file could not be read or the lines could not be written; 1 if the heads differ from the player.\n";

enum why { TRUSTED, CONFESSED, SUPPORT, UNLISTED, TWO, SILENCE, NOTHING };

struct entry {
    enum why why;
    int32_t position, other;
    uint32_t support;
};

static struct ring ring;
static int shown; /* whether the phase is */

/* ---- which record is the first fault */

/* Whether the file can be played on after its first bytes: they are played to their end, or are with one round more. */
static int goes_on(struct played *p, uint8_t *file, size_t bytes) {
    static const uint8_t quiet[BEHIND] = {8, 0, 0x11};
    uint8_t kept[BEHIND];
    if (bytes == 0 || play(p, file, bytes) == 0)
        return 1;
    memcpy(kept, file + bytes, sizeof kept);
    memcpy(file + bytes, quiet, sizeof quiet);
    play(p, file, bytes + sizeof quiet);
    memcpy(file + bytes, kept, sizeof kept);
    return p->number == 0;
}

/* Where each whole record ends, after a 0, and how many there are; NULL if there is no memory. */
static size_t *cut(const uint8_t *file, size_t bytes, size_t *count) {
    size_t *ends = calloc(bytes / 4 + 1, sizeof *ends), at = 0, got = 0;
    while (ends != NULL && bytes - at >= 4 && size_of(file + at) >= 4 && size_of(file + at) <= bytes - at) {
        at += size_of(file + at);
        ends[++got] = at;
    }
    *count = got;
    return ends;
}

/* How many records can be taken: a file that is refused at one is refused at no later one. */
static size_t taken(struct played *p, uint8_t *file, const size_t *ends, size_t count) {
    size_t low = 0, high = count;
    while (low < high) {
        size_t middle = low + (high - low + 1) / 2;
        if (goes_on(p, file, ends[middle]))
            low = middle;
        else
            high = middle - 1;
    }
    return low;
}

/* Judges the file: how it ends and at which record. */
static void judge(struct played *p, uint8_t *file, size_t bytes) {
    size_t count = 0, *ends = cut(file, bytes, &count);
    same("memory", ends != NULL, 1);
    uint8_t number = play(p, file, bytes);
    same("room of the calls", number != FOCUS_BUFFER_TOO_SHORT, 1);
    size_t right = number == 0 ? count : taken(p, file, ends, count);
    play(p, file, bytes);
    printf("file %zu %zu\n", bytes, count);
    printf("ended %u %zu %zu %s\n", number, number == 0 ? 0 : right + 1, ends[right], focus_refusal_text(number));
    free(ends);
}

static void print_refusals(void) {
    static const uint8_t numbers[] = {6, 7, 8, 9, 10, 11, 21, 22, 23};
    for (size_t i = 0; i < sizeof numbers; i++)
        printf("refusal %u %s\n", numbers[i], focus_refusal_text(numbers[i]));
}

static void print_listing(const struct played *p) {
    for (size_t at = 0, next; at < p->length; at = next + 1) {
        next = (size_t)((const uint8_t *)memchr(p->listing + at, '\n', p->length - at) - p->listing);
        printf("listing %.*s\n", (int)(next - at), (const char *)p->listing + at);
    }
}

/* ---- trusted tables */

static int is_frame(const uint8_t *frame, uint8_t kind) {
    return frame != NULL && frame[FOCUS_FRAME_KIND] == kind;
}

/* Whether a link gave a list with a position for j, and which. */
static int lists(const uint8_t *frame, uint32_t j, int32_t *position) {
    if (!is_frame(frame, FOCUS_FRAME_LIST) || !(get4(frame + 8) >> j & 1))
        return 0;
    *position = (int32_t)get4(frame + 12 + 4 * j);
    return 1;
}

/* The support of a position for j: of confessions, and of lists that have it. */
static uint32_t support(const uint8_t *const *heard, uint32_t n, uint32_t j, int32_t position) {
    uint32_t count = 0;
    for (uint32_t k = 0; k < n; k++) {
        int32_t listed;
        count += is_frame(heard[k], FOCUS_FRAME_CONFESSION) || (lists(heard[k], j, &listed) && listed == position);
    }
    return count;
}

/* Entry j of what a receiver of a two-round ring heard (document 01, "Confession round"). */
static struct entry decide(const uint8_t *const *heard, uint32_t n, uint32_t f, uint32_t j) {
    struct entry e = {.why = UNLISTED};
    for (uint32_t k = 0; k < n; k++) {
        int32_t position;
        if (!lists(heard[k], j, &position) || (e.why != UNLISTED && position == e.position))
            continue;
        uint32_t count = support(heard, n, j, position);
        if (e.why == TRUSTED && count >= n - f) {
            e.why = TWO, e.other = position;
            break;
        }
        if (count > e.support)
            e = (struct entry){.why = count >= n - f ? TRUSTED : SUPPORT, .position = position, .support = count};
    }
    if (is_frame(heard[j], FOCUS_FRAME_CONFESSION))
        e.why = CONFESSED;
    return e;
}

/* Entry j of what a receiver of a one-round ring heard (document 02, A9). */
static struct entry take(const uint8_t *frame) {
    if (is_frame(frame, FOCUS_FRAME_POSITION))
        return (struct entry){.why = TRUSTED, .position = (int32_t)get4(frame + 7)};
    return (struct entry){.why = frame == NULL ? NOTHING : SILENCE};
}

static void print_null(uint32_t i, uint32_t j, struct entry e) {
    static const char *const names[] = {"", "confessed", "support", "unlisted", "two", "silence", "nothing"};
    printf("null %u %u %s", i, j, names[e.why]);
    if (e.why == SUPPORT)
        printf(" %u %d", e.support, e.position);
    if (e.why == TWO)
        printf(" %d %d", e.position, e.other);
    putchar('\n');
}

/* Prints the trusted table of receiver i, and gives what the proved midpoint makes of it. */
static focus_kept settle(const struct ring *r, uint32_t i) {
    struct entry table[32];
    uint8_t bytes[128] = {0};
    uint32_t marks = 0;
    focus_kept kept = {0};
    printf("trusted %u", i);
    for (uint32_t j = 0; j < r->n; j++) {
        table[j] = r->once ? take(r->heard[i][j]) : decide(r->heard[i], r->n, r->f, j);
        if (table[j].why == TRUSTED) {
            printf(" %d", table[j].position);
            marks |= UINT32_C(1) << j;
            put4(bytes + 4 * j, table[j].position);
        } else
            fputs(" -", stdout);
    }
    putchar('\n');
    for (uint32_t j = 0; j < r->n; j++)
        if (table[j].why != TRUSTED)
            print_null(i, j, table[j]);
    if (r->once)
        same("midpoint", focus_one_round_midpoint_kept(r->n, r->f, r->phase, marks, bytes, 4 * r->n, &kept), 0);
    else
        same("midpoint", focus_midpoint_kept(r->n, r->f, r->phase, marks, bytes, 4 * r->n, &kept), 0);
    return kept;
}

/* ---- phases */

static void told(const struct ring *r, const uint8_t *record, uint8_t number) {
    (void)r;
    if (!shown)
        return;
    printf("planted %u %u %u ", record[4], record[5], number);
    for (size_t at = 6; at < size_of(record); at++)
        printf("%02x", record[at]);
    putchar('\n');
}

static void print_node(const struct ring *r, uint32_t i, const focus_kept *settled) {
    static const char *const names[] = {"unknown", "point", "range"};
    focus_kept kept;
    focus_reading reading = {0};
    const focus_head *head = &r->heads[i];
    same("kept", focus_head_has_kept(head, &kept), 1);
    same("what is kept of the table", memcmp(&kept, settled, sizeof kept), 0);
    uint8_t kind = focus_head_reading(head, &reading);
    printf("node %u %d %d %d %d %u %s", i, kept.position, kept.lowest, kept.highest, kept.trim, focus_head_since(head), names[kind]);
    if (kind != FOCUS_UNKNOWN)
        printf(" %.1f", reading.lowest);
    if (kind == FOCUS_RANGE)
        printf(" %.1f %.1f", reading.highest, reading.midpoint);
    putchar('\n');
}

/* Plays the round whose records were read. */
static void play_round(struct ring *r) {
    static focus_kept settled[48];
    if (shown)
        printf("round %u %012llx %012llx\n", r->round, (unsigned long long)r->struck, (unsigned long long)(r->before & ~r->struck));
    strike(r);
    deliver(r, told);
    int last = is_last(r);
    for (uint32_t i = 0; i < 48; i++)
        if (shown && last && is_member(r, i) && !is_struck(r, i))
            settled[i] = settle(r, i);
    close_round(r);
    for (uint32_t i = 0; i < 48; i++) {
        if (!shown || !last || !is_member(r, i))
            continue;
        if (is_struck(r, i))
            printf("struck %u\n", i);
        else
            print_node(r, i, &settled[i]);
    }
}

static void print_start(const struct ring *r) {
    puts("phase 0");
    for (uint32_t i = 0; i < r->n; i++) {
        int32_t position = 0;
        same("a position", focus_head_has_position(&r->heads[i], &position), 1);
        printf("node %u %d\n", i, position);
    }
}

static void trace(struct ring *r, const struct played *p, const uint8_t *file, size_t bytes, const size_t range[2]) {
    const uint8_t *at = start_ring(r, file, listeners_of(file, bytes));
    printf("ring %u %u %u %u\n", r->n, r->f, r->listeners, r->once ? 1 : 2);
    if (range[0] == 0)
        print_start(r);
    as_row(r, p->rows, p->words[0]);
    for (size_t phase = 1; phase < p->ends && phase <= range[1]; phase++) {
        shown = phase >= range[0];
        if (shown)
            printf("phase %zu\n", phase);
        for (int rounds = r->once ? 1 : 2; rounds > 0; rounds--) {
            at = read_round(r, at, file + bytes);
            play_round(r);
        }
        as_row(r, p->rows + 48 * phase, p->words[phase]);
    }
}

int main(int count, char **words) {
    struct played p;
    size_t bytes = 0, range[2] = {0, FOCUS_PHASES_MAX};
    tool_words(count, words, 1, 3, "play_trace", usage, help);
    errno = 0;
    uint8_t *file = read_whole(words[1], &bytes);
    if (file == NULL)
        tool_unread(words[1]);
    if (count == 4)
        range[0] = strtoul(words[2], NULL, 10), range[1] = strtoul(words[3], NULL, 10);
    make_room(&p, file, bytes + BEHIND);
    judge(&p, file, bytes);
    print_refusals();
    print_listing(&p);
    if (p.ends > 0)
        trace(&ring, &p, file, bytes, range);
    puts("done");
    free_room(&p);
    free(file);
    tool_end(TOOL_DONE);
}
