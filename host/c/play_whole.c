/* Run files played in memory: each file named with its stored listing. The listing is the stored one, the rows and words say what its lines say, what is behind them
 * stays, and a buffer that is one too short is refused with nothing written. The phases since the last strike are counted once more from the marks in the file, of the
 * whole file and of each of its beginnings. Then files of many phases, up to all 65,535, in the most room that any file needs. */
#include "check.h"

#define BACK 0x5a /* what the buffers hold before a call */
#define WATCHED 64 /* how many numbers of each buffer are watched behind the room that a file needs */
#define LONGEST (1 << 21) /* bytes of a file here: more than the most room is for */

static uint8_t file[LONGEST], stored[1 << 16], out[FOCUS_PLAY_OUT(LONGEST, FOCUS_PLAY_ONE_ROUND) + WATCHED];
static int32_t rows[FOCUS_PLAY_ROWS(LONGEST, FOCUS_PLAY_ONE_ROUND) + WATCHED];
static uint64_t words[FOCUS_PLAY_ENDS(LONGEST, FOCUS_PLAY_ONE_ROUND) + WATCHED];
static uint8_t since[FOCUS_RECEIVERS + WATCHED];
static size_t out_room, rows_room, words_room; /* what the file needs */

static void set_room(size_t bytes) {
    size_t phase = FOCUS_PLAY_PHASE(file, bytes);
    out_room = FOCUS_PLAY_OUT(bytes, phase);
    rows_room = FOCUS_PLAY_ROWS(bytes, phase);
    words_room = FOCUS_PLAY_ENDS(bytes, phase);
}

static size_t read_whole(const char *name, uint8_t *into) {
    FILE *from = fopen(name, "rb");
    if (from == NULL) {
        printf("no file %s\n", name);
        exit(1);
    }
    memset(into, 0, 1 << 16);
    size_t got = fread(into, 1, 1 << 16, from);
    fclose(from);
    return got;
}

static void fill_back(void) {
    memset(out, BACK, out_room + WATCHED);
    memset(rows, BACK, sizeof *rows * (rows_room + WATCHED));
    memset(words, BACK, sizeof *words * (words_room + WATCHED));
    memset(since, BACK, sizeof since);
}

/* Every byte from `at` on, of those that are watched, is as it was before the call. */
static void untouched(const char *what, const void *buffer, size_t at, size_t size) {
    const uint8_t *bytes = buffer;
    for (size_t i = at; i < size; i++)
        if (bytes[i] != BACK)
            same(what, bytes[i], BACK);
    checks++;
}

/* What is behind so many bytes of the listing and so many phase ends. */
static void untouched_behind(size_t length, size_t ends) {
    untouched("behind the listing", out, length, out_room + WATCHED);
    untouched("behind the rows", rows, 48 * sizeof *rows * ends, sizeof *rows * (rows_room + WATCHED));
    untouched("behind the words", words, sizeof *words * ends, sizeof *words * (words_room + WATCHED));
}

/* Plays the file with so much less room than it needs. */
static uint8_t play(size_t bytes, size_t less_out, size_t less_rows, size_t less_words, size_t *length, size_t *ends) {
    fill_back();
    return focus_play(file, bytes, out, out_room - less_out, rows, rows_room - less_rows, words, words_room - less_words, since, length, ends);
}

/* One buffer too short by one: 24, and nothing is written. */
static void too_short(size_t bytes, size_t less_out, size_t less_rows, size_t less_words) {
    size_t length = 7, ends = 9;
    same("short", play(bytes, less_out, less_rows, less_words, &length, &ends), FOCUS_BUFFER_TOO_SHORT);
    same("length", (long long)length, 7);
    same("ends", (long long)ends, 9);
    untouched_behind(0, 0);
    untouched("the counts", since, 0, sizeof since);
}

/* Plays the file with each buffer too short by one, and then with the room that it needs. */
static uint8_t play_all(size_t bytes, size_t *length, size_t *ends) {
    set_room(bytes);
    too_short(bytes, 1, 0, 0);
    too_short(bytes, 0, 1, 0);
    too_short(bytes, 0, 0, 1);
    uint8_t number = play(bytes, 0, 0, 0, length, ends);
    untouched_behind(*length, *ends);
    untouched("behind the counts", since, FOCUS_RECEIVERS, sizeof since);
    return number;
}

/* ---- phases since the last strike (document 02, A10) */

static uint64_t marks[2 * 65535]; /* the mark word of each round given, heads from bit 0 and listeners from bit 32 on */

/* Gathers the mark words of the rounds given in so many bytes: how many there are. A record that is cut short and a round with more than f struck end them; *right is
 * how many bytes stand before that. */
static size_t rounds_given(size_t bytes, size_t *right) {
    size_t given = 0, at = 0;
    while (at + 4 <= bytes) {
        size_t length = file[at] + 256u * file[at + 1];
        unsigned listeners = file[at + 4] + 256u * file[at + 5];
        uint32_t heads = listeners + ((uint32_t)file[at + 6] << 16) + ((uint32_t)file[at + 7] << 24);
        if (length < 4 || at + length > bytes || (file[at + 2] == 0x11 && __builtin_popcount(heads) > file[5]))
            break;
        if (file[at + 2] == 0x11)
            marks[given++] = heads;
        if (file[at + 2] == 0x13 && given > 0)
            marks[given - 1] |= (uint64_t)listeners << 32;
        at += length;
    }
    *right = at;
    return given;
}

/* Of the rounds played, counted from 1: how many end a phase and come after the last that marks i; at most 255. */
static unsigned recounted(unsigned i, size_t played, unsigned phase_rounds) {
    size_t last = played, count = 0;
    while (last > 0 && !(marks[last - 1] >> i & 1))
        last--;
    for (size_t round = last + 1; round <= played; round++)
        count += round % phase_rounds == 0;
    return count < 255 ? (unsigned)count : 255;
}

/* The counts of a file whose first `bytes` bytes hold what was accepted of it, and which ended with this number: of a file with a fault the last round given was not
 * played. */
static void counted(size_t bytes, uint8_t number) {
    size_t right, given = rounds_given(bytes, &right), played = number == 0 || given == 0 ? given : given - 1;
    for (unsigned i = 0; i < FOCUS_RECEIVERS; i++)
        same("phases since the last strike", since[i], recounted(i, played, file[2] == 0x14 ? 1 : 2));
}

/* The beginning of a file that has so many bytes, alone and with a fault behind it: a record cut short, of unknown kind, planted by nobody, or a round in which all are
 * struck. The last round given is not played then, so that the count may be that of the middle of a phase. */
static void counted_at(size_t bytes) {
    static const struct { uint8_t record[8]; size_t size; uint8_t number; } faults[] = {
        {{6}, 1, FOCUS_BAD_RUN_RECORD}, {{4, 0, 0x16}, 4, FOCUS_BAD_RUN_RECORD}, {{6, 0, 0x12, 0, 255, 255}, 6, FOCUS_BAD_RUN_RECORD},
        {{8, 0, 0x11, 0, 255, 255, 255, 255}, 8, FOCUS_TOO_MANY_STRUCK},
    };
    uint8_t kept[8];
    size_t length = 0, ends = 0;
    memcpy(kept, file + bytes, sizeof kept);
    set_room(bytes);
    counted(bytes, play(bytes, 0, 0, 0, &length, &ends));
    for (size_t i = 0; i < 4; i++) {
        memcpy(file + bytes, faults[i].record, sizeof kept);
        set_room(bytes + faults[i].size);
        uint8_t number = play(bytes + faults[i].size, 0, 0, 0, &length, &ends);
        same("a fault", number, bytes == 0 ? FOCUS_BAD_RUN_RECORD : faults[i].number);
        counted(bytes, number);
    }
    memcpy(file + bytes, kept, sizeof kept);
}

/* Before each round record of a file, behind it, behind that of its struck listeners, and where what is accepted ends. */
static void counted_everywhere(size_t bytes) {
    size_t right, length;
    rounds_given(bytes, &right);
    counted_at(0);
    for (size_t at = 0; at < right; at += length) {
        length = file[at] + 256u * file[at + 1];
        if (file[at + 2] == 0x11)
            counted_at(at);
        if (file[at + 2] == 0x11 || file[at + 2] == 0x13)
            counted_at(at + length);
    }
    counted_at(right);
}

/* How many listeners the file has: those of a record of kind 0015 just after the start. */
static unsigned listeners(void) {
    size_t at = file[0] + 256u * file[1];
    return at + 5 <= sizeof file && file[at + 2] == 0x15 && file[at + 3] == 0 ? file[at + 4] : 0;
}

/* Line e of the listing is what row e and word e say, for the sound ones of n heads and m listeners. The word is the last column, or in a one-round file the one
 * before it. */
static void line_as_row(const char *line, size_t e, unsigned n, unsigned m) {
    int one_round = file[2] == 0x14;
    unsigned phase, collect, confess;
    long low, high, spread, least = 0, most = 0;
    same("line", sscanf(line, "%u %ld %ld %ld %x %x", &phase, &low, &high, &spread, &collect, &confess), 6);
    int some = 0;
    for (unsigned i = 0; i < 48; i++) {
        int32_t v = rows[48 * e + i];
        if (!(i < n || (i >= 32 && i < 32 + m)) || (words[e] >> i & 1)) {
            same("not sound", v, 0);
            continue;
        }
        least = !some || v < least ? v : least;
        most = !some || v > most ? v : most;
        some = 1;
    }
    same("phase", phase, (long long)e);
    same("word", one_round ? collect : confess, (uint32_t)words[e]);
    if (one_round)
        same("no confession round", confess, 0);
    if (e == 0)
        same("no listener at the start", (long long)(words[e] >> 32), 65535);
    same("low", low, least);
    same("high", high, most);
    same("spread", spread, most - least);
}

/* The lines of a listing that ends with a zero byte are what the rows and words say, and its last line says how the file ended. Each line is copied, since sscanf looks
 * for the end of all that it is given. */
static void lines_as_rows(const char *listing, size_t ends, uint8_t number) {
    const char *line = strchr(listing, '\n') + 1, *next;
    for (size_t e = 0; e < ends; e++, line = next) {
        char copy[64] = {0};
        next = strchr(line, '\n') + 1;
        same("a line's length", next - line < 64, 1);
        memcpy(copy, line, (size_t)(next - line));
        line_as_row(copy, e, file[4], listeners());
    }
    unsigned told = 0;
    same("last line", number, strcmp(line, "end\n") == 0 ? 0 : sscanf(line, "refused %u\n", &told) == 1 ? (long long)told : -1);
}

static void play_one(const char *run, const char *listing) {
    size_t bytes = read_whole(run, file), want = read_whole(listing, stored), length = 0, ends = 0;
    uint8_t number = play_all(bytes, &length, &ends);
    same("length", (long long)length, (long long)want);
    same("listing", memcmp(out, stored, want), 0);
    stored[want] = 0;
    lines_as_rows((const char *)stored, ends, number);
    counted(bytes, number);
    counted_everywhere(bytes);
}

/* A record of fewer than 256 bytes at the end of the file, which has so many: how many it has then. */
static size_t put_record(size_t bytes, unsigned kind, const uint8_t *rest, size_t size) {
    uint8_t front[4] = {(uint8_t)(4 + size), 0, (uint8_t)kind, 0};
    memcpy(file + bytes, front, 4);
    memcpy(file + bytes + 4, rest, size);
    return bytes + 4 + size;
}

/* A file of so many rounds of a ring of six heads, started by a record of this kind: how many bytes it has. Of heads 0 to 4 one is struck in each round, listener 32
 * in every other one; head 5 and listener 33 never are. */
static size_t put_rounds(unsigned kind, unsigned rounds) {
    uint8_t start[26] = {6, 1}, two = 2;
    for (int j = 0; j < 6; j++)
        put4(start + 2 + 4 * j, 200000 * j);
    size_t bytes = put_record(put_record(0, kind, start, sizeof start), 0x15, &two, 1);
    for (unsigned round = 1; round <= rounds; round++) {
        uint8_t heads[4] = {(uint8_t)(1 << round % 5)}, listener[2] = {round % 2};
        bytes = put_record(put_record(bytes, 0x11, heads, 4), 0x13, listener, 2);
    }
    return bytes;
}

/* Who is never struck counts all phases, up to 255, where the count rests. */
static void rests(void) {
    for (unsigned phases = 253; phases <= 258; phases++)
        for (int once = 0; once < 2; once++) {
            size_t bytes = put_rounds(once ? 0x14 : 0x10, once ? phases : 2 * phases), length = 0, ends = 0;
            uint8_t number = play_all(bytes, &length, &ends);
            same("number", number, 0);
            same("a head that was never struck", since[5], phases < 255 ? phases : 255);
            same("a listener that was never struck", since[33], phases < 255 ? phases : 255);
            counted(bytes, number);
        }
}

/* All phases of a ring whose start has this kind, in so many rounds. With a record for the listeners in each round the file has far more bytes than the most room is
 * for. */
static void play_all_phases(unsigned kind, unsigned rounds) {
    size_t bytes = put_rounds(kind, rounds), length = 0, ends = 0;
    same("more bytes than the most room is for", bytes / FOCUS_PLAY_PHASE(file, bytes) > FOCUS_PLAY_ALL_ENDS, 1);
    uint8_t number = play_all(bytes, &length, &ends);
    same("number", number, 0);
    same("all ends", (long long)ends, FOCUS_PLAY_ALL_ENDS);
    same("all words", (long long)words_room, FOCUS_PLAY_ALL_ENDS);
    out[length] = 0;
    lines_as_rows((const char *)out, ends, number);
    counted(bytes, number);
    same("the count rests", since[5] == 255 && since[33] == 255, 1);
}

int main(int count, char **names) {
    for (int i = 1; i + 1 < count; i += 2)
        play_one(names[i], names[i + 1]);
    same("files", count >= 3, 1);
    rests();
    play_all_phases(0x14, 65535);
    play_all_phases(0x10, 2 * 65535);
    return all_checked();
}
