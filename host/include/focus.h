/* The shared-focus firmware, as C calls it: calls on plain numbers and bytes, a head that C keeps, and a whole
 * run file played in memory.
 *
 * What to call
 *
 *   a head, all shift       start      focus_head_start, focus_listener_start; in a one-round ring focus_one_round_start,
 *                                      focus_one_round_listener_start
 *                           a round    focus_head_write to send; focus_head_hear for each link, its own too, or
 *                                      focus_head_hear_batch for all; focus_head_close
 *                           phase end  focus_head_close offers, focus_head_has_offer shows it, focus_head_adopt takes it
 *                           strikes    focus_head_window_reset, then focus_head_restart, focus_listener_restart, focus_one_round_restart or
 *                                      focus_one_round_listener_restart
 *   what a head holds       numbers    focus_head_has_position, focus_head_has_kept, focus_head_since
 *                           floats     focus_head_reading; focus_host_page for n heads, as text
 *                           registers  focus_head_register, focus_head_window, focus_head_set_register, focus_head_has_interrupt
 *   without a head          frames     focus_frame_check
 *                           settling   focus_midpoint, focus_midpoint_kept; in a one-round ring focus_one_round_midpoint,
 *                                      focus_one_round_midpoint_kept
 *                           fitting    focus_limits, focus_reach, focus_one_round_reach
 *                           the scale  focus_scale, focus_unscale
 *   a run file              playing    focus_play
 *   an answer               in words   focus_refusal_text
 *   the library             version    focus_version
 *                           up to 1.14.1, four calls under other names: focus_head_offer, focus_head_position, focus_head_kept,
 *                                      focus_head_interrupt
 *
 * A round of one head, in this order; `phase` and `round` are those that the ring is in
 *
 *   1  restart   only if the head was struck in the round before and is not struck now: focus_head_window_reset with its mask (0 if no
 *                interrupt is used), then focus_head_restart. Not 0: an argument is wrong, and the head must not take part.
 *   2  write     focus_head_write, and the frame is sent to every head and listener, itself too. It may be called at any time in the
 *                round and as often as wanted; the frame is the same. Not 0: the buffer is short (24), or the run has ended (26).
 *   3  hear      focus_head_hear for each of the n links, its own too. A link on which nothing came may be left out; a length of 0 does
 *                the same and is answered 6. Not 0: that frame gives nothing. It is no error of the caller's, since a struck head may
 *                send anything; count it or drop it. 21 on every link means that the round before was not ended: see 4 and 5.
 *   4  close     focus_head_close, when the frames have come or the time of the round is over. 25: too few trusted entries, so more
 *                heads were struck than f, or frames were lost; the head stays in the round, and counts as struck if it does not end it
 *                in time.
 *   5  adopt     focus_head_adopt, only in the last round of a phase: the confession round, or every round of a one-round ring. 27: no
 *                offer stands, since no closing was taken, or a frame was accepted after it: close again.
 *
 * Each function returns 0 (FOCUS_OK), or the number of the refusal, and puts a result where the caller lends room for it. Seven answer
 * otherwise, and refuse nothing. Those that say `has` in their name answer a question, 1 for yes and 0 for no: focus_head_has_offer,
 * focus_head_has_position, focus_head_has_kept, focus_head_has_interrupt. focus_head_since answers a count, focus_head_reading a kind,
 * focus_version a version.
 * focus_head_window and focus_head_window_reset return nothing.
 *
 * If a call has several faults, the first check that fails decides, in the order given at each call. A refusal writes nothing, with one
 * exception: a closing that is refused 25 sets its event in the head's window. No function keeps a pointer, allocates, or changes the bytes
 * it reads.
 *
 * Pointers are never NULL, not even with a length of 0. Each is aligned for its type (four bytes for a block, eight for a length that is
 * put somewhere: many small processors stop at an address that is not) and valid for as many elements as the call takes. What is lent
 * to one call does not overlap. What is lent as const is only read, so it may stand in flash. Nothing else is asked of an argument: every
 * value of every argument has its answer.
 *
 * Threads and interrupts: no function has memory of its own. Calls on different blocks may run at once. Calls on one block are made
 * one at a time, those that only read it too while another changes it: an interrupt that reads a window in the middle of a call
 * reads a mixture. So an interrupt handler makes no call on the block: after each call that changes it the program takes a copy of the
 * window, into the one of two buffers that is not shown, and then shows it; the handler reads the copy.
 *
 * The functions call memcpy and memset, and nothing else. Stack: focus_play takes less than FOCUS_STACK_PLAY bytes, each other call
 * less than FOCUS_STACK (measured by host/c/stack.c, not proved).
 *
 * docs/TRUST.md says what must be believed of all this, and what whoever builds a ring of it owes. Link with the one library that
 * `host/install PREFIX` makes:
 *
 *     gcc -IPREFIX/include your.c PREFIX/lib/libfocus.a
 */
#ifndef FOCUS_H
#define FOCUS_H

#include <float.h>
#include <stddef.h>
#include <stdint.h>

/* The archives are for one target. A program that wants the names alone, for another one, defines FOCUS_ANY_TARGET. */
#ifndef FOCUS_ANY_TARGET
#if !defined(__x86_64__) || !defined(__linux__) || SIZE_MAX != UINT64_MAX
#error "focus.h: the archives are for x86-64 Linux alone (define FOCUS_ANY_TARGET to read the header for another target)"
#endif
#if defined(__BYTE_ORDER__) && __BYTE_ORDER__ != __ORDER_LITTLE_ENDIAN__
#error "focus.h: the archives are for little-endian numbers (define FOCUS_ANY_TARGET to read the header for another target)"
#endif
#if FLT_RADIX != 2 || FLT_MANT_DIG != 24 || FLT_MAX_EXP != 128
#error "focus.h: readings are 32-bit floats of IEEE 754 (define FOCUS_ANY_TARGET to read the header for another target)"
#endif
#endif

/* A length or a count: 64 bits on every target. Where size_t has 64 bits too, either will do. Where it has 32, a size_t that is passed is
 * widened by the compiler; but what a call puts its length in must be a focus_size, since eight bytes are written there. */
typedef uint64_t focus_size;

/* Compilers that support it warn when the result of a call is ignored. Define FOCUS_MUST_USE yourself, or as empty, to change that. */
#ifndef FOCUS_MUST_USE
#if defined(__GNUC__)
#define FOCUS_MUST_USE __attribute__((warn_unused_result))
#elif (defined(__cplusplus) && __cplusplus >= 201703L) || (defined(__STDC_VERSION__) && __STDC_VERSION__ >= 202311L)
#define FOCUS_MUST_USE [[nodiscard]]
#else
#define FOCUS_MUST_USE
#endif
#endif

#ifdef __cplusplus
extern "C" {
#endif

/* The version of this interface. Versions with the same major number are backward compatible: a later one has everything an earlier one
 * has. 1.14 has document 01 and requests A1 to A14 of document 02 (docs/REQUIREMENTS.md). */
#define FOCUS_VERSION_MAJOR 1
#define FOCUS_VERSION_MINOR 14
#define FOCUS_VERSION_PATCH 4
#define FOCUS_VERSION_TEXT "1.14.4"
#define FOCUS_VERSION (FOCUS_VERSION_MAJOR * 10000 + FOCUS_VERSION_MINOR * 100 + FOCUS_VERSION_PATCH)

/* Returns the version of the linked library, and refuses nothing. FOCUS_VERSION is that of this header; compare the two at start-up. */
FOCUS_MUST_USE uint32_t focus_version(void);

/* Limits: heads are numbered from 0, listeners from 32; positions are whole steps; phases are numbered from 1. */
#define FOCUS_HEADS_MAX 32
#define FOCUS_LISTENERS_MAX 16
#define FOCUS_LISTENER_FIRST 32
#define FOCUS_LISTENER_LAST 47
#define FOCUS_PHASES_MAX 65535
#define FOCUS_POSITION_MIN (-1000000)
#define FOCUS_POSITION_MAX 1000000
#define FOCUS_SCALE_MAX 1000000 /* of numerator and denominator */
#define FOCUS_SINCE_MAX 255     /* where the count of phase ends rests */

/* Whether the spread of a two-round ring is promised to halve with every phase. A start takes smaller rings too (2n >= 7f + 2), whose
 * positions stay in range but may stay apart: with n = 8 and f = 2 a spread of 2 can stay 2. A one-round ring halves at every size that
 * a start takes. */
#define FOCUS_HALVES(n, f) (3 * (n) >= 11 * (f) + 3)

/* Bytes of stack that a call may take. */
#define FOCUS_STACK 2048
#define FOCUS_STACK_PLAY 262144

/* The rounds of a phase; a one-round ring has the first alone. */
enum focus_round { FOCUS_ROUND_COLLECTION = 0, FOCUS_ROUND_CONFESSION = 1 };

/* What bytes 2 and 3 of a frame hold, and where its parts are; all fields have their lowest byte first. From FOCUS_FRAME_REST on:
 *   position    4 bytes, signed: the position
 *   silence     nothing
 *   list        1 byte count, which is n; 4 bytes marks, bit j set if entry j is a position; n entries of 4 bytes, signed, 0 where null
 *   confession  nothing
 * docs/FORMATS.md has examples in bytes. */
enum focus_frame_kind {
    FOCUS_FRAME_POSITION = 1,
    FOCUS_FRAME_SILENCE = 2,
    FOCUS_FRAME_LIST = 3,
    FOCUS_FRAME_CONFESSION = 4
};
enum focus_frame_byte { FOCUS_FRAME_LENGTH = 0, FOCUS_FRAME_KIND = 2, FOCUS_FRAME_SENDER = 4, FOCUS_FRAME_PHASE = 5, FOCUS_FRAME_REST = 7 };

/* The refusals (document 01, "Stops"), by the names that crates/terms/src/refusal.rt has. */
enum focus_refusal {
    FOCUS_OK = 0,                        /* no refusal */
    FOCUS_BAD_HEAD_COUNT = 1,            /* head count */
    FOCUS_STRUCK_LIMIT_TOO_HIGH = 2,     /* struck limit too high */
    FOCUS_NUMBER_TOO_HIGH = 3,           /* head or link number n or more, or a listener's outside 32 to 47 */
    FOCUS_POSITION_OUT_OF_RANGE = 4,     /* position out of range */
    FOCUS_PHASE_OUT_OF_RANGE = 5,        /* phase out of range, or round neither 0 nor 1; in a one-round ring, not 0 */
    FOCUS_STATED_LENGTH_DIFFERS = 6,     /* fewer than 4 bytes, or the length field differs from the bytes given */
    FOCUS_UNKNOWN_KIND = 7,              /* unknown kind */
    FOCUS_WRONG_LENGTH_FOR_KIND = 8,     /* a length wrong for its kind and count */
    FOCUS_SENDER_IS_NOT_LINK = 9,        /* sender is not the link */
    FOCUS_BAD_COUNT_OR_MARKS = 10,       /* list count not n, or a mark at n or above */
    FOCUS_ENTRY_OUT_OF_RANGE = 11,       /* entry out of range, or not 0 where null */
    FOCUS_BAD_SCALE = 12,                /* scale */
    FOCUS_BAD_RUN_RECORD = 13,           /* run record of wrong form or out of order, or file ended before a start or inside a phase */
    FOCUS_TOO_MANY_STRUCK = 14,          /* more than f struck, or a mark at n or above */
    FOCUS_BAD_BATCH_ENTRY = 15,          /* an entry's length field is missing, below 4 or runs past the end (document 02, A1) */
    FOCUS_NO_SUCH_REGISTER = 16,         /* a write to a byte other than 10 and 11, or a read past byte 15 (document 02, A5) */
    FOCUS_LISTENER_SENDS_NOTHING = 17,   /* a listener is told to send (document 02, A6) */
    FOCUS_ONE_ROUND_LIMIT_TOO_HIGH = 18, /* n below 4f + 1, in a one-round ring; where 2 stands in others (document 02, A9) */
    FOCUS_BAD_LIMITS = 19,               /* a lowest above its highest, or either out of range or not 0 where null (document 02, A12) */
    FOCUS_ALREADY_HEARD = 21,            /* link already heard this round */
    FOCUS_OTHER_ROUND = 22,              /* frame of the other round; in a one-round ring, a list or confession */
    FOCUS_OTHER_PHASE = 23,              /* frame of another phase */
    FOCUS_BUFFER_TOO_SHORT = 24,         /* buffer too short */
    FOCUS_TOO_FEW_TRUSTED = 25,          /* too few trusted */
    FOCUS_RUN_HAS_ENDED = 26,            /* phase 65,535 has ended */
    FOCUS_NO_OFFER = 27                  /* adopting with no offer standing */
};

/* A refusal in words. */
static inline const char *focus_refusal_text(unsigned number) {
    switch (number) {
    case FOCUS_OK: return "no refusal";
    case FOCUS_BAD_HEAD_COUNT: return "head count is not 1 to 32";
    case FOCUS_STRUCK_LIMIT_TOO_HIGH: return "struck limit too high: 2n is below 7f + 2";
    case FOCUS_NUMBER_TOO_HIGH: return "head or link number n or more, or a listener number outside 32 to 47";
    case FOCUS_POSITION_OUT_OF_RANGE: return "position out of range";
    case FOCUS_PHASE_OUT_OF_RANGE: return "phase or round out of range";
    case FOCUS_STATED_LENGTH_DIFFERS: return "fewer than 4 bytes, or the length field differs from the bytes given";
    case FOCUS_UNKNOWN_KIND: return "unknown kind of frame";
    case FOCUS_WRONG_LENGTH_FOR_KIND: return "length wrong for the kind and count";
    case FOCUS_SENDER_IS_NOT_LINK: return "sender is not the link";
    case FOCUS_BAD_COUNT_OR_MARKS: return "list count is not n, or a mark at n or above";
    case FOCUS_ENTRY_OUT_OF_RANGE: return "entry out of range, or not 0 where null";
    case FOCUS_BAD_SCALE: return "scale out of range, or its numerator below its denominator";
    case FOCUS_BAD_RUN_RECORD: return "run record of wrong form or out of order, or the file ended too early";
    case FOCUS_TOO_MANY_STRUCK: return "more than f heads struck, or a mark at n or above";
    case FOCUS_BAD_BATCH_ENTRY: return "length field of a batch missing, below 4 or past the end";
    case FOCUS_NO_SUCH_REGISTER: return "no such byte of the window, or not to be written";
    case FOCUS_LISTENER_SENDS_NOTHING: return "a listener sends nothing";
    case FOCUS_ONE_ROUND_LIMIT_TOO_HIGH: return "n is below 4f + 1 in a one-round ring";
    case FOCUS_BAD_LIMITS: return "lowest above highest, out of range, or not 0 where null";
    case FOCUS_ALREADY_HEARD: return "link already heard in this round";
    case FOCUS_OTHER_ROUND: return "frame of the other round";
    case FOCUS_OTHER_PHASE: return "frame of another phase";
    case FOCUS_BUFFER_TOO_SHORT: return "buffer too short";
    case FOCUS_TOO_FEW_TRUSTED: return "too few trusted entries";
    case FOCUS_RUN_HAS_ENDED: return "the last phase, 65,535, has ended";
    case FOCUS_NO_OFFER: return "no offer stands";
    default: return "no such refusal";
    }
}

/* ---- the camera's calls: crates/camera/src/lib.rt has what they promise */

/* The frame check: 0, or 6, 7, 8, for any bytes. It looks at the length field, the kind and a list's own count;
 * sender, phase, marks and entries are not looked at. The rest of an accepted frame is frame[7] to frame[length - 1].
 * Promised: the result is `frameRefusal` of the bytes (crates/frame_check/specs/Check.antt). */
FOCUS_MUST_USE uint8_t focus_frame_check(const uint8_t *frame, focus_size length);

/* The midpoint of a trusted table: n heads, struck limit f, the phase that it ends (1 to 65,535), bit j of marks set if
 * entry j is a position, entries of 4 bytes each, signed, lowest byte first, 0 where null. An odd sum is rounded down,
 * towards minus infinity, in odd phases, and up, towards plus infinity, in even ones.
 * Returns 0 and puts the new position in *position, or 1, 2, 5, 8 (length is not 4n), 10, 11, 25.
 * Promised: number and *position are those of `midpointCall` (crates/settle_midpoint/specs/Call.antt). */
FOCUS_MUST_USE uint8_t focus_midpoint(uint32_t n, uint32_t f, uint32_t phase, uint32_t marks, const uint8_t *entries, focus_size length,
                                      int32_t *position);

/* The same in a one-round ring: returns 0 or 1, 18, 5, 8, 10, 11, 25. */
FOCUS_MUST_USE uint8_t focus_one_round_midpoint(uint32_t n, uint32_t f, uint32_t phase, uint32_t marks, const uint8_t *entries,
                                                focus_size length, int32_t *position);

/* What a settling keeps: the lowest and highest entry kept, how many were dropped from each end, and the new
 * position, half the sum of the two, rounded by the phase. */
typedef struct focus_kept {
    int32_t lowest, highest, trim, position;
} focus_kept;

/* The midpoint with what it kept: the same arguments, answers and order of checks; *kept is written only if nothing
 * is refused.
 * Promised: number and *kept are those of `midpointCall` (crates/settle_midpoint/specs/Call.antt), by `keptOr`
 * (crates/camera/specs/Out.antt). */
FOCUS_MUST_USE uint8_t focus_midpoint_kept(uint32_t n, uint32_t f, uint32_t phase, uint32_t marks, const uint8_t *entries,
                                           focus_size length, focus_kept *kept);

/* The same in a one-round ring: returns 0 or 1, 18, 5, 8, 10, 11, 25. The trim is f, whatever the nulls. */
FOCUS_MUST_USE uint8_t focus_one_round_midpoint_kept(uint32_t n, uint32_t f, uint32_t phase, uint32_t marks, const uint8_t *entries,
                                                     focus_size length, focus_kept *kept);

/* The lowest and the highest of the new positions that can come of positions known within limits. */
typedef struct focus_range {
    int32_t lowest, highest;
} focus_range;

/* Positions known within limits: as for the midpoint, but with 8 bytes for each entry, the lowest position that it may
 * have and then the highest, both signed, lowest byte first, both 0 where null. *range has the lowest and the highest
 * new position that any choice within the limits brings in that phase: both occur, and so does every step between them.
 * Returns 0 and writes *range, or 1, 2, 5, 8 (length is not 8n), 10, 19, 25. 25 is answered if and only if every choice
 * within the limits is refused 25.
 * Promised: `RangeLent` (crates/camera/specs/Out.antt), for an answer of `LimitsAnswer` (crates/settle_limits/specs/Call.antt),
 * of which there is one at most. */
FOCUS_MUST_USE uint8_t focus_limits(uint32_t n, uint32_t f, uint32_t phase, uint32_t marks, const uint8_t *limits, focus_size length,
                                    focus_range *range);

/* What stands for no position, and for no step: no position is so low. */
#define FOCUS_NO_STEP INT32_MIN

/* One lens set to reach a focus: as for the midpoint, with entry `number` open, whose own mark and four bytes may be
 * any, and the wanted new position, which may be any number. *position is the lowest position in range, from -1,000,000
 * to 1,000,000, for the open entry with which the ring settles on the wanted one in that phase, or FOCUS_NO_STEP if
 * there is none. The open entry counts as a position, not as null, when the call decides whether to answer 25.
 * Returns 0 and writes *position, or 1, 2, 5, 3 (number is n or more), 8, 10, 11, 25.
 * Promised: `PositionLent` (crates/camera/specs/Out.antt), for an answer of `ReachAnswer` (crates/settle_reach/specs/Call.antt),
 * of which there is one at most; with *position for the open entry the midpoint call gives the wanted position. */
FOCUS_MUST_USE uint8_t focus_reach(uint32_t n, uint32_t f, uint32_t phase, uint32_t number, uint32_t marks, const uint8_t *entries,
                                   focus_size length, int32_t wanted, int32_t *position);

/* The same in a one-round ring: returns 0 or 1, 18, 5, 3, 8, 10, 11, 25. */
FOCUS_MUST_USE uint8_t focus_one_round_reach(uint32_t n, uint32_t f, uint32_t phase, uint32_t number, uint32_t marks,
                                             const uint8_t *entries, focus_size length, int32_t wanted, int32_t *position);

/* The step scale: nanometres are steps times numerator, divided by denominator, rounded down (towards minus
 * infinity). Numerator and denominator are from 1 to 1,000,000, the numerator at least the denominator.
 * Returns 0 and puts the nanometres, from -10^12 to 10^12, in *nanometres, or 12, 4.
 * Promised: number and *nanometres are those of `scaled` (crates/steps/specs/Scale.antt). */
FOCUS_MUST_USE uint8_t focus_scale(int32_t steps, uint32_t numerator, uint32_t denominator, int64_t *nanometres);

/* From nanometres back to steps: the step in range, from -1,000,000 to 1,000,000, whose reading by the step scale it
 * is. Any reading is taken. No two steps read alike, since the numerator is at least the denominator.
 * Returns 0 and puts the step in *steps, or FOCUS_NO_STEP if no step in range reads so; or 12.
 * Promised: `StepLent` (crates/camera/specs/Out.antt), for an answer of `UnscaleAnswer` (crates/steps/specs/Unscale.antt),
 * of which there is one at most; what focus_scale puts in *nanometres comes back as the steps it was given. */
FOCUS_MUST_USE uint8_t focus_unscale(int64_t nanometres, uint32_t numerator, uint32_t denominator, int32_t *steps);

/* ---- a whole run file: crates/run_whole/src/lib.rt */

/* How many bytes of a run file a phase takes at least. A round record takes 8, and a phase has two of them; in a file
 * that begins with a record of kind 0014, a one-round ring's, it has one. */
enum focus_phase_bytes { FOCUS_PLAY_ONE_ROUND = 8, FOCUS_PLAY_TWO_ROUNDS = 16 };
#define FOCUS_PLAY_PHASE(file, bytes) \
    ((bytes) >= 4 && (file)[2] == 0x14 && (file)[3] == 0 ? FOCUS_PLAY_ONE_ROUND : FOCUS_PLAY_TWO_ROUNDS)

/* The most phase ends that any run file has: the start, and those of phases 1 to 65,535. */
#define FOCUS_PLAY_ALL_ENDS 65536

/* How many phase ends a run file of so many bytes can have, the start among them; and the room that its listing and
 * its rows need. phase is FOCUS_PLAY_PHASE of the file; with FOCUS_PLAY_ONE_ROUND there is room for any file of so many
 * bytes. However long a file is, it never has more than FOCUS_PLAY_ALL_ENDS, so all three buffers together never need
 * more than about 17 MB: a listing of 64 * 65,538 bytes, rows of 48 * 65,536 numbers of 4 bytes, and 65,536 words of 8. */
#define FOCUS_PLAY_ENDS(bytes, phase) \
    ((bytes) / (phase) < FOCUS_PLAY_ALL_ENDS ? (bytes) / (phase) + 1 : FOCUS_PLAY_ALL_ENDS)
#define FOCUS_PLAY_OUT(bytes, phase) (64 * (FOCUS_PLAY_ENDS(bytes, phase) + 2))
#define FOCUS_PLAY_ROWS(bytes, phase) (48 * FOCUS_PLAY_ENDS(bytes, phase))

/* The numbers of heads are below 32, those of listeners are 32 to 47. */
#define FOCUS_RECEIVERS 48

/* Plays a run file of any bytes: its listing at the front of out, and for each phase end e, counted from the start, a
 * row of 48 numbers from rows[48 * e] on and a mark word words[e]. Numbers 0 to 31 of a row are for heads and 32 to 47
 * for the listeners of these numbers: the position of each one that is sound at that end, and 0 elsewhere. The word
 * has a bit for each head and listener struck in the phase's last round: the confession round, which the listing's last
 * column shows, or in a one-round ring its only one, which the column before that shows. At the start, row 0, it has
 * the bits of all listeners, which hold no position yet. The listing's length is put in *length and the number of phase
 * ends in *ends; what is behind them in the three buffers stays as it was.
 * since[i] is how many phases head or listener i has ended since its last strike (document 02, A10): the number of ended
 * phases whose last round came after the last round played that marks it struck, or of all ended phases if none does, at
 * most 255. It is what the record of i holds, except for one that the last round played marks: its memory is lost, and its
 * number is 0. A number that no head or listener has is never struck, and counts all ended phases. In a faulty file the
 * round that waited to be played does not count; before an accepted start all are 0.
 * Returns the number of the file's first fault (1, 2, 18, 4, 13, 14, 26), or 0 if it is played to its end. Returns 24,
 * with nothing written, since too, if a buffer is shorter than the three macros say with the file's own phase. Sizes of
 * rows and words are in numbers, not bytes. Takes about 230 KB of stack.
 * Promised: `PlaysInto` (crates/run_whole/specs/Whole.antt), with demand 3 for any two of the rows; of since, `counts`
 * and `records` there. */
FOCUS_MUST_USE uint8_t focus_play(const uint8_t *file, focus_size bytes, uint8_t *out, focus_size out_size, int32_t *rows,
                                  focus_size rows_size, uint64_t *words, focus_size words_size, uint8_t since[FOCUS_RECEIVERS],
                                  focus_size *length, focus_size *ends);

/* ---- a head that C keeps: crates/head_c/src/lib.rt has what its calls promise; crates/head_spec/specs/Calls.antt
 * defines the calls */

/* A head's block: 1,116 words all shift, of which each call changes those that it must, in place. Words 16 and 17 are
 * the pending events and the mask of its window, words 18 to 22 what is offered (word 18 is 0 if no offer stands, and
 * 19 to 22 are not looked at then). Word 14 is the family of its ring: 0 if a phase has two rounds, otherwise it has one. Word
 * 15 is the count of phase ends, of which only the low byte is looked at. Word 23 is room for later calls: no call changes
 * it.
 *
 * A block is made by a start or restart, of a head or a listener, of either family, that answers 0, of whatever it
 * held. For such a block, after any calls: its record is one that the paper's calls can reach, so demand 2 holds for it,
 * and what it offers is what its round settles (crates/head_c/specs/Made.antt). Every other content is some record too,
 * so no block makes a call undefined; but nothing is promised for the ring then. A block of zeros, which was never started, is a head
 * of a ring of no heads, in phase 0. Hearing is refused 3. Nothing else shows it: writing writes a silence of phase 0, two
 * closings answer 0, adopting after them answers 0, and the head then holds the position 0.
 * Promised for each call: crates/head_c/specs/Blocks.antt says which record a block is, crates/head_c/specs/Events.antt
 * what stands beside it after a call, and crates/head_c/src which words change. Promised for n + m blocks that are driven as
 * docs/TRUST.md says: `BlocksConverge` (crates/ring_blocks/specs/Blocks.antt). The cable may bring frames in any order, twice,
 * damaged or forged. But for every head that is not counted as struck, the first acceptable frame to arrive on its link must be the one
 * that it wrote. If that fails, count either the sender or the receiver as struck in that round; a head then counts towards f. */
typedef struct focus_head {
    uint32_t opaque[1116];
} focus_head;

/* The longest frame: a list of 32 entries. */
#define FOCUS_FRAME_MAX 140

/* Starts the head in phase 1 with its position: n heads, struck limit f, its number. Clears events and mask. It takes sizes at which
 * halving is not promised: ask FOCUS_HALVES(n, f) first, or see README.md, "Does it fit your ring?".
 * Refusals 1, 2, 3, 4. */
FOCUS_MUST_USE uint8_t focus_head_start(focus_head *head, uint32_t n, uint32_t f, uint32_t number, int32_t position);

/* Restarts a head whose strike is over, in the phase and round (0 collection, 1 confession) that the ring is in, with no
 * position. How a board learns them is the integrator's affair: the frames of others name the phase. Sets the event of a strike that is
 * over. Events and mask stay as they are in the block: after a strike that took its memory, call focus_head_window_reset first. A
 * restart without a strike counts as one (docs/TRUST.md, I10). If more than 3f heads are restarted at once, as after a power
 * cut, no closing is taken any more (25): start such a ring anew.
 * Refusals 1, 2, 3, 5. */
FOCUS_MUST_USE uint8_t focus_head_restart(focus_head *head, uint32_t n, uint32_t f, uint32_t number, uint32_t phase,
                                          uint32_t round);

/* A listener (document 02, A6) is kept in a block as a head is, under a number from 32 to 47. All calls on a head's
 * block are for its block too: it hears the n heads' links, closes rounds and settles positions as a head does. It
 * has no link of its own and sends nothing: focus_head_write is refused 17.
 * Starts it in phase 1 with no position: it holds none before its first phase end. Refusals 1, 2, 3. */
FOCUS_MUST_USE uint8_t focus_listener_start(focus_head *head, uint32_t n, uint32_t f, uint32_t number);

/* Restarts a listener whose strike is over, as focus_head_restart does a head. Refusals 1, 2, 3, 5. */
FOCUS_MUST_USE uint8_t focus_listener_restart(focus_head *head, uint32_t n, uint32_t f, uint32_t number, uint32_t phase,
                                              uint32_t round);

/* A one-round ring (document 02, A9) takes n at least 4f + 1. Each of its rounds is a phase: heads send positions, healed
 * ones silence, each drops nulls and then f entries from each end, and every closing offers and waits to be adopted. Its
 * heads and listeners are kept in blocks like the others, and all calls on a block serve both families: a block is of
 * the family in which it was started or restarted last. In a one-round ring the round is 0 for ever: lists and
 * confessions are refused 22, and bit 2 of the window's byte 3 stays 0.
 * These four are the starts and restarts above for such a ring. Refusals 1, 18, 3, 4. */
FOCUS_MUST_USE uint8_t focus_one_round_start(focus_head *head, uint32_t n, uint32_t f, uint32_t number, int32_t position);

/* Refusals 1, 18, 3, 5: any round except 0 is 5. */
FOCUS_MUST_USE uint8_t focus_one_round_restart(focus_head *head, uint32_t n, uint32_t f, uint32_t number, uint32_t phase,
                                               uint32_t round);

/* Refusals 1, 18, 3. */
FOCUS_MUST_USE uint8_t focus_one_round_listener_start(focus_head *head, uint32_t n, uint32_t f, uint32_t number);

/* Refusals 1, 18, 3, 5: any round except 0 is 5. */
FOCUS_MUST_USE uint8_t focus_one_round_listener_restart(focus_head *head, uint32_t n, uint32_t f, uint32_t number, uint32_t phase,
                                                        uint32_t round);

/* Hears the bytes of one frame on a link. In every round a head is handed the frames of all n links, its own too: what it wrote comes
 * back to it on the link that has its number. Nothing reports it if that is forgotten, but heads may then settle apart. A link on which
 * nothing came is left out. Of each link the first frame that is accepted counts, and it ends an offer. A refusal is no error of the
 * caller's: the frame gives nothing, and the head is as it was. If every frame of a round is refused 21, the head was not closed, or
 * did not adopt, in the round before.
 * Refusals 26, 3, 21, 6, 7, 8, 22, 9, 23, 10, 11. (A block that no start made may say n above 32: a frame on a link from 32
 * on is accepted then and changes nothing, since a block has no words for it.) */
FOCUS_MUST_USE uint8_t focus_head_hear(focus_head *head, uint32_t link, const uint8_t *frame, focus_size length);

/* Hears a round's frames in one call, each as a link byte and then the frame, in order, going on past a refused one:
 * as focus_head_hear would, one by one. The front of answers gets a byte for each frame, 0 or the number of its
 * refusal (26 for each once phase 65,535 has ended), and *count how many frames there were; the bytes of answers
 * behind them stay as they were. Refusals 15, for the whole batch before any of it is heard, then 24 if answers has
 * fewer bytes than there are frames; nothing is heard then, and nothing written.
 * Promised: `HearsBatch` (crates/head_c/specs/Blocks.antt); crates/head_spec/specs/Batch.antt says how a batch is
 * cut. */
FOCUS_MUST_USE uint8_t focus_head_hear_batch(focus_head *head, const uint8_t *batch, focus_size length, uint8_t *answers, focus_size room,
                                             focus_size *count);

/* Writes the frame that says what the head has to say to the front of the buffer, and its length to *length; the
 * bytes after it stay as they were. It may be called at any time in a round, before or after hearing, and as often as wanted: the frame
 * is the same, and the head does not change.
 * Refusals 26, 17 for a listener, 24. */
FOCUS_MUST_USE uint8_t focus_head_write(const focus_head *head, uint8_t *buffer, focus_size room, focus_size *length);

/* Closes the round. A collection round ends: its list stands, and the confession round is open. A confession round, and
 * every round of a one-round ring, only offers a new position (document 02, A8): the head stays as it is in every way,
 * phase, round, position, kept range and window, until the offer is adopted. Closing again offers the same again.
 * Refusals 26, 25 (more than 3f nulls; in a one-round ring more than 2f), of which 25 is an event and changes nothing
 * else. */
FOCUS_MUST_USE uint8_t focus_head_close(focus_head *head);

/* Adopts what is offered: the head holds the new position and its kept range, the next phase is open, and the event of
 * a phase end is set. An offer ends when it
 * is adopted, when a frame is accepted, and when the head is started or restarted; a refused call leaves it, and so do
 * writing, the window and closing again.
 * Refusals 27 if no offer stands, before all else, then 26. A block that calls made offers nothing after phase 65,535,
 * so it answers 27 there; 26 is for blocks that no start made.
 * Who has not adopted when the first frame of the next round is sent counts as struck in the round that it did not end:
 * its host restarts it before it sends or hears (host/c/look_first.c). */
FOCUS_MUST_USE uint8_t focus_head_adopt(focus_head *head);

/* For the person who looks: answers 1 and puts what is offered in *kept, the new position with its kept range and trim; or answers 0 if no
 * offer stands, with *kept as it was. It refuses nothing. */
FOCUS_MUST_USE uint8_t focus_head_has_offer(const focus_head *head, focus_kept *kept);

/* Answers 1 and puts the head's position in *position, or answers 0 if it holds none, with *position as it was. It refuses nothing. */
FOCUS_MUST_USE uint8_t focus_head_has_position(const focus_head *head, int32_t *position);

/* Answers 1 and puts what the head's last phase end kept in *kept, or answers 0 if it passed none since it was started or
 * restarted, with *kept as it was. It refuses nothing. An offer does not show here until it is adopted. */
FOCUS_MUST_USE uint8_t focus_head_has_kept(const focus_head *head, focus_kept *kept);

/* Answers how many phase ends the head has passed since it was started or restarted, up to 255, where the count rests
 * (document 02, A10). A start and a restart set it to 0, and an adoption, which ends a phase, adds one. Nothing else
 * touches it: not hearing or writing, not an offer, not a closing of a collection round or one that is refused 25. A
 * listener has one too, and so have the heads of a one-round ring. It does not stand in the window.
 * It is for service staff who look for the head that is struck most; host/c/counts.c shows the counts of a run file.
 * Promised: the field `since` of the head's record (crates/head_spec/specs/Seats.antt); for heads in rounds `RingCounts`
 * (crates/ring_spec/specs/Converges.antt). */
FOCUS_MUST_USE uint8_t focus_head_since(const focus_head *head);

/* ---- what camera hosts read (document 02, A14): crates/head_c/src/page.rt has what the calls promise */

/* A head's reading: a range has its lowest, its highest and their midpoint, which is not rounded to a step; a point has
 * one float, in lowest. All are exact: a float is the position, or half the sum of the two, and zero is +0. */
enum focus_reading_kind { FOCUS_UNKNOWN = 0, FOCUS_POINT = 1, FOCUS_RANGE = 2 };
typedef struct focus_reading {
    float lowest, highest, midpoint;
} focus_reading;

/* Answers the kind of the head's reading, and refuses nothing. It is unknown before the first phase end since the start or restart, a
 * point where the two kept entries are equal, and otherwise a range. An offer does not show until it is adopted. Floats
 * that the kind does not have stay as they were.
 * Promised: `readingKind` and `floatsOr` (crates/head_c/specs/Pages.antt) of `headReading` (crates/reading/specs/Readings.antt). A
 * host that changed the rounding mode must set it back to nearest before it calls: downward, -v and v would give -0. */
FOCUS_MUST_USE uint8_t focus_head_reading(const focus_head *head, focus_reading *reading);

/* The host page of n heads whose blocks stand side by side, from head 0 up, at the front of the buffer, and its length in
 * *length; the bytes after it stay as they were. A line for each head, with a newline: its number, then `unknown`, `point`
 * or `range`, then none, one or three floats, each as its bits in eight lower-case hexadecimal digits, parted by single
 * spaces. words is how many words the blocks have, 1,116 for each; a head whose block is not there in full is unknown. No
 * page is longer than 64 * n bytes.
 * Refusals 1, 24.
 * Promised: `pageAnswer` and `pageIn` (crates/hostpage/specs/Page.antt) of `readingsOf` (crates/head_c/specs/Pages.antt). */
FOCUS_MUST_USE uint8_t focus_host_page(const uint32_t *blocks, focus_size words, uint32_t n, uint8_t *buffer, focus_size room,
                                       focus_size *length);

/* ---- the head as a register window of sixteen bytes (document 02, A5): crates/head_c/src/window.rt has what its calls
 * promise, crates/head_window/specs/Window.antt says what each byte is
 *
 * Bytes 0 to 2 are n, f and the head's number. Byte 3 has bit 0 if a position is held, bit 1 if the head was healed in
 * this round, bit 2 in a confession round, which a one-round ring does not have. Bytes 4 and 5 are the phase, 6 to 9 the
 * position, or 0 if there is none, each lowest byte first. After the last phase end phase and bit 2 stay, and bit 1 is 0.
 * Byte 10 is the pending events, byte 11 the mask. All else is 0. Refusal 26 is not checked here: the window goes on
 * after the last phase end.
 *
 * Events and mask stand beside the head. A start clears both, a restart sets FOCUS_EVENT_STRIKE_OVER, an adoption, which
 * ends a phase, sets FOCUS_EVENT_PHASE_END, and a closing that is refused 25 sets FOCUS_EVENT_TOO_FEW and changes nothing
 * else. Only these and the two writes change them: `OnlyTheseChange` (crates/head_c/specs/Events.antt). */
enum focus_event {
    FOCUS_EVENT_PHASE_END = 1,
    FOCUS_EVENT_TOO_FEW = 2, /* a closing was refused 25 */
    FOCUS_EVENT_STRIKE_OVER = 4
};

enum focus_window {
    FOCUS_WINDOW_N = 0,
    FOCUS_WINDOW_F = 1,
    FOCUS_WINDOW_NUMBER = 2,
    FOCUS_WINDOW_STATUS = 3,
    FOCUS_WINDOW_PHASE = 4,    /* and 5 */
    FOCUS_WINDOW_POSITION = 6, /* to 9 */
    FOCUS_WINDOW_EVENTS = 10,
    FOCUS_WINDOW_MASK = 11,
    FOCUS_WINDOW_BYTES = 16
};

/* the bits of FOCUS_WINDOW_STATUS */
enum focus_status { FOCUS_STATUS_HELD = 1, FOCUS_STATUS_HEALED = 2, FOCUS_STATUS_CONFESSION = 4 };

/* Reads a byte of the window into *byte. Refusal 16 from address 16 on, with *byte as it was. */
FOCUS_MUST_USE uint8_t focus_head_register(const focus_head *head, uint32_t address, uint8_t *byte);

/* Reads all sixteen bytes, and refuses nothing. */
void focus_head_window(const focus_head *head, uint8_t bytes[FOCUS_WINDOW_BYTES]);

/* Writes a byte of the window: byte 10 clears the events written as one, byte 11 sets the mask to its low three bits.
 * Refusal 16 at every other address. */
FOCUS_MUST_USE uint8_t focus_head_set_register(focus_head *head, uint32_t address, uint8_t byte);

/* For use after a strike, which may have left anything in the block; it refuses nothing. Clears all events and sets the mask to the low
 * three bits of mask, as a write of 7 to byte 10 and one of mask to byte 11 do. A restart that follows sets its event, and no other is
 * pending: `AfterStrike` (crates/head_c/specs/Events.antt). */
void focus_head_window_reset(focus_head *head, uint8_t mask);

/* Answers 1 if the interrupt line is up, that is, if a pending event is also in the mask, and otherwise 0. It refuses nothing. */
FOCUS_MUST_USE uint8_t focus_head_has_interrupt(const focus_head *head);

/* ---- the names that four calls had up to version 1.14.1: each is the call named with it, and new programs call that */
#ifndef FOCUS_FORMER
#if defined(__GNUC__)
#define FOCUS_FORMER(name) __attribute__((deprecated("call " name)))
#else
#define FOCUS_FORMER(name)
#endif
#endif
FOCUS_MUST_USE uint8_t focus_head_offer(const focus_head *head, focus_kept *kept) FOCUS_FORMER("focus_head_has_offer");
FOCUS_MUST_USE uint8_t focus_head_position(const focus_head *head, int32_t *position) FOCUS_FORMER("focus_head_has_position");
FOCUS_MUST_USE uint8_t focus_head_kept(const focus_head *head, focus_kept *kept) FOCUS_FORMER("focus_head_has_kept");
FOCUS_MUST_USE uint8_t focus_head_interrupt(const focus_head *head) FOCUS_FORMER("focus_head_has_interrupt");

/* ---- a quiet phase (document 02, A11): when all heads stand at one position
 *
 * After a phase in which no head is struck in either round, all heads hold one and the same position, and so does each
 * listener that is struck in neither. A phase may begin with healed heads and be quiet. Its last round alone decides, in
 * rings of both families: if no head is struck in it, all heads, and each listener not struck in it, hear the same and
 * settle at the same position.
 *
 * No call says that a phase was quiet, for no head can know it. On cables that lose nothing a head can know that a phase
 * was not: a link gave nothing, or a frame that was refused, or a confession, or two links gave lists that differ.
 * (Silence does not count: a head whose strike ended with the previous phase begins by sending silence.) But seeing none of these
 * signs proves nothing: a struck head may send to it what a sound one would, and lie to another neighbour alone (examples/unquiet.txt).
 *
 * So a measuring shot is for a host that sees all n heads, and a round later. A head that was struck is restarted in the
 * next round in which it is not struck, which sets FOCUS_EVENT_STRIKE_OVER, bit 2 of byte 10. If in the round after a
 * phase no head is restarted and no head is struck, then no head was struck in the last round of that phase. Both
 * are needed. A head that is struck again has not been restarted yet, so the absence of the event alone proves nothing; and how a strike
 * is noticed while it lasts is no part of this firmware. In a two-round ring the heads still hold the position at the end
 * of that round, since a collection round changes none. A head that did not adopt in time counts as struck.
 *
 * Promised for played files: `quiet` of `Whole` (crates/run_whole/specs/Whole.antt). */

#ifdef __cplusplus
}
#endif

#endif
