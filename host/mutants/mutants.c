/* Broken libraries: each mutant is one call that is wrong in one way, over the proved one (`proved_NAME`). host/mutants/run makes an archive with it and
 * runs the test that must notice it. A line
 *
 *     MUTANT name | archive | function | test and its arguments
 *
 * begins each, and what follows up to the next is compiled if it is the one that is built. A test is a program of host/c, `exports` (the differential
 * test of all calls), or `play_whole`, which is run on all examples. */
#include <focus.h>

#include <string.h>

#define PROVED(name) extern __typeof__(name) proved_##name;

/* ---- the calls without a head */

/* MUTANT frame_length_unchecked | camera | focus_frame_check | camera_faults */
#ifdef frame_length_unchecked
PROVED(focus_frame_check)
uint8_t focus_frame_check(const uint8_t *frame, size_t length) {
    uint8_t answer = proved_focus_frame_check(frame, length);
    return answer == FOCUS_WRONG_LENGTH_FOR_KIND ? FOCUS_OK : answer;
}
#endif

/* MUTANT kind_before_length | camera | focus_frame_check | camera_faults */
#ifdef kind_before_length
PROVED(focus_frame_check)
uint8_t focus_frame_check(const uint8_t *frame, size_t length) {
    if (length >= 4 && (frame[2] == 0 || frame[2] > 4 || frame[3] != 0))
        return FOCUS_UNKNOWN_KIND;
    return proved_focus_frame_check(frame, length);
}
#endif

/* MUTANT midpoint_towards_zero | camera | focus_midpoint | exports 200000 */
#ifdef midpoint_towards_zero
PROVED(focus_midpoint)
uint8_t focus_midpoint(uint32_t n, uint32_t f, uint32_t phase, uint32_t marks, const uint8_t *entries, size_t length, int32_t *position) {
    focus_kept kept;
    uint8_t answer = focus_midpoint_kept(n, f, phase, marks, entries, length, &kept);
    if (answer == FOCUS_OK)
        *position = (kept.lowest + kept.highest) / 2;
    return answer;
}
#endif

/* MUTANT midpoint_written_before_refused | camera | focus_midpoint | camera_faults */
#ifdef midpoint_written_before_refused
PROVED(focus_midpoint)
uint8_t focus_midpoint(uint32_t n, uint32_t f, uint32_t phase, uint32_t marks, const uint8_t *entries, size_t length, int32_t *position) {
    *position = 0;
    return proved_focus_midpoint(n, f, phase, marks, entries, length, position);
}
#endif

/* MUTANT even_phases_round_down | camera | focus_midpoint | exports 200000 */
#ifdef even_phases_round_down
PROVED(focus_midpoint)
uint8_t focus_midpoint(uint32_t n, uint32_t f, uint32_t phase, uint32_t marks, const uint8_t *entries, size_t length, int32_t *position) {
    return proved_focus_midpoint(n, f, phase == 0 || phase > FOCUS_PHASES_MAX ? phase : phase | 1, marks, entries, length, position);
}
#endif

/* MUTANT one_round_trims_as_two | camera | focus_one_round_midpoint | exports 200000 */
#ifdef one_round_trims_as_two
PROVED(focus_one_round_midpoint)
uint8_t focus_one_round_midpoint(uint32_t n, uint32_t f, uint32_t phase, uint32_t marks, const uint8_t *entries, size_t length, int32_t *position) {
    uint8_t answer = proved_focus_one_round_midpoint(n, f, phase, marks, entries, length, position);
    return answer == FOCUS_OK ? focus_midpoint(n, f, phase, marks, entries, length, position) : answer;
}
#endif

/* MUTANT kept_trim_lost | camera | focus_midpoint_kept | exports 200000 */
#ifdef kept_trim_lost
PROVED(focus_midpoint_kept)
uint8_t focus_midpoint_kept(uint32_t n, uint32_t f, uint32_t phase, uint32_t marks, const uint8_t *entries, size_t length, focus_kept *kept) {
    uint8_t answer = proved_focus_midpoint_kept(n, f, phase, marks, entries, length, kept);
    if (answer == FOCUS_OK)
        kept->trim = (int32_t)f;
    return answer;
}
#endif

/* MUTANT limits_one_step_short | camera | focus_limits | exports 200000 */
#ifdef limits_one_step_short
PROVED(focus_limits)
uint8_t focus_limits(uint32_t n, uint32_t f, uint32_t phase, uint32_t marks, const uint8_t *limits, size_t length, focus_range *range) {
    uint8_t answer = proved_focus_limits(n, f, phase, marks, limits, length, range);
    if (answer == FOCUS_OK && range->highest > range->lowest)
        range->highest--;
    return answer;
}
#endif

/* MUTANT reach_not_the_lowest | camera | focus_reach | exports 200000 */
#ifdef reach_not_the_lowest
PROVED(focus_reach)
uint8_t focus_reach(uint32_t n, uint32_t f, uint32_t phase, uint32_t number, uint32_t marks, const uint8_t *entries, size_t length, int32_t wanted,
                    int32_t *position) {
    uint8_t answer = proved_focus_reach(n, f, phase, number, marks, entries, length, wanted, position);
    if (answer == FOCUS_OK && *position == FOCUS_POSITION_MIN)
        *position = wanted;
    return answer;
}
#endif

/* MUTANT scale_towards_zero | camera | focus_scale | exports 200000 */
#ifdef scale_towards_zero
PROVED(focus_scale)
uint8_t focus_scale(int32_t steps, uint32_t numerator, uint32_t denominator, int64_t *nanometres) {
    uint8_t answer = proved_focus_scale(steps, numerator, denominator, nanometres);
    if (answer == FOCUS_OK)
        *nanometres = (int64_t)steps * numerator / denominator;
    return answer;
}
#endif

/* MUTANT unscale_past_the_range | camera | focus_unscale | exports 200000 */
#ifdef unscale_past_the_range
PROVED(focus_unscale)
uint8_t focus_unscale(int64_t nanometres, uint32_t numerator, uint32_t denominator, int32_t *steps) {
    uint8_t answer = proved_focus_unscale(nanometres, numerator, denominator, steps);
    if (answer == FOCUS_OK && *steps == FOCUS_NO_STEP && nanometres > 0)
        *steps = FOCUS_POSITION_MAX;
    return answer;
}
#endif

/* ---- starts and restarts */

/* MUTANT start_keeps_the_mask | head_c | focus_head_start | window_bus */
#ifdef start_keeps_the_mask
PROVED(focus_head_start)
uint8_t focus_head_start(focus_head *head, uint32_t n, uint32_t f, uint32_t number, int32_t position) {
    uint32_t mask = head->opaque[17];
    uint8_t answer = proved_focus_head_start(head, n, f, number, position);
    head->opaque[17] = mask;
    return answer;
}
#endif

/* MUTANT restart_keeps_the_count | head_c | focus_head_restart | exports 200000 */
#ifdef restart_keeps_the_count
PROVED(focus_head_restart)
uint8_t focus_head_restart(focus_head *head, uint32_t n, uint32_t f, uint32_t number, uint32_t phase, uint32_t round) {
    uint32_t since = head->opaque[15];
    uint8_t answer = proved_focus_head_restart(head, n, f, number, phase, round);
    head->opaque[15] = since;
    return answer;
}
#endif

/* MUTANT restart_keeps_the_offer | head_c | focus_head_restart | exports 200000 */
#ifdef restart_keeps_the_offer
PROVED(focus_head_restart)
uint8_t focus_head_restart(focus_head *head, uint32_t n, uint32_t f, uint32_t number, uint32_t phase, uint32_t round) {
    uint32_t offered = head->opaque[18];
    uint8_t answer = proved_focus_head_restart(head, n, f, number, phase, round);
    head->opaque[18] = offered;
    return answer;
}
#endif

/* MUTANT one_round_restart_in_round_1 | head_c | focus_one_round_restart | head_faults */
#ifdef one_round_restart_in_round_1
PROVED(focus_one_round_restart)
uint8_t focus_one_round_restart(focus_head *head, uint32_t n, uint32_t f, uint32_t number, uint32_t phase, uint32_t round) {
    return proved_focus_one_round_restart(head, n, f, number, phase, round == 1 ? 0 : round);
}
#endif

/* MUTANT listener_starts_with_a_position | head_c | focus_listener_start | exports 200000 */
#ifdef listener_starts_with_a_position
PROVED(focus_listener_start)
uint8_t focus_listener_start(focus_head *head, uint32_t n, uint32_t f, uint32_t number) {
    uint8_t answer = proved_focus_listener_start(head, n, f, number);
    if (answer == FOCUS_OK)
        head->opaque[7] = 1;
    return answer;
}
#endif

/* ---- hearing and writing */

/* MUTANT second_frame_counts | head_c | focus_head_hear | head_faults */
#ifdef second_frame_counts
PROVED(focus_head_hear)
uint8_t focus_head_hear(focus_head *head, uint32_t link, const uint8_t *frame, size_t length) {
    if (link < FOCUS_HEADS_MAX)
        head->opaque[24] &= ~(UINT32_C(1) << link);
    return proved_focus_head_hear(head, link, frame, length);
}
#endif

/* MUTANT refused_frame_counts_as_heard | head_c | focus_head_hear | exports 200000 */
#ifdef refused_frame_counts_as_heard
PROVED(focus_head_hear)
uint8_t focus_head_hear(focus_head *head, uint32_t link, const uint8_t *frame, size_t length) {
    uint8_t answer = proved_focus_head_hear(head, link, frame, length);
    if (answer == FOCUS_ENTRY_OUT_OF_RANGE)
        head->opaque[24] |= UINT32_C(1) << link;
    return answer;
}
#endif

/* MUTANT refused_frame_ends_the_offer | head_c | focus_head_hear | exports 200000 */
#ifdef refused_frame_ends_the_offer
PROVED(focus_head_hear)
uint8_t focus_head_hear(focus_head *head, uint32_t link, const uint8_t *frame, size_t length) {
    head->opaque[18] = 0;
    return proved_focus_head_hear(head, link, frame, length);
}
#endif

/* MUTANT list_of_head_31_lost | head_c | focus_head_hear | hostile 300 */
#ifdef list_of_head_31_lost
PROVED(focus_head_hear)
uint8_t focus_head_hear(focus_head *head, uint32_t link, const uint8_t *frame, size_t length) {
    uint8_t answer = proved_focus_head_hear(head, link, frame, length);
    if (answer == FOCUS_OK && link == 31 && length == FOCUS_FRAME_MAX)
        memset(head->opaque + 92 + 32 * 31, 0, 128);
    return answer;
}
#endif

/* MUTANT batch_stops_at_a_refusal | head_c | focus_head_hear_batch | exports 200000 */
#ifdef batch_stops_at_a_refusal
PROVED(focus_head_hear_batch)
uint8_t focus_head_hear_batch(focus_head *head, const uint8_t *batch, size_t length, uint8_t *answers, size_t room, size_t *count) {
    focus_head before = *head;
    uint8_t answer = proved_focus_head_hear_batch(head, batch, length, answers, room, count);
    if (answer == FOCUS_OK && *count > 1 && answers[0] != FOCUS_OK)
        *head = before;
    return answer;
}
#endif

/* MUTANT batch_writes_behind_its_answers | head_c | focus_head_hear_batch | exports 200000 */
#ifdef batch_writes_behind_its_answers
PROVED(focus_head_hear_batch)
uint8_t focus_head_hear_batch(focus_head *head, const uint8_t *batch, size_t length, uint8_t *answers, size_t room, size_t *count) {
    uint8_t answer = proved_focus_head_hear_batch(head, batch, length, answers, room, count);
    if (answer == FOCUS_OK && *count < room)
        answers[*count] = 0;
    return answer;
}
#endif

/* MUTANT write_touches_the_byte_behind | head_c | focus_head_write | exports 200000 */
#ifdef write_touches_the_byte_behind
PROVED(focus_head_write)
uint8_t focus_head_write(const focus_head *head, uint8_t *buffer, size_t room, size_t *length) {
    uint8_t answer = proved_focus_head_write(head, buffer, room, length);
    if (answer == FOCUS_OK && *length < room)
        buffer[*length] = 0;
    return answer;
}
#endif

/* MUTANT listener_writes | head_c | focus_head_write | head_faults */
#ifdef listener_writes
PROVED(focus_head_write)
uint8_t focus_head_write(const focus_head *head, uint8_t *buffer, size_t room, size_t *length) {
    uint8_t answer = proved_focus_head_write(head, buffer, room, length);
    return answer == FOCUS_LISTENER_SENDS_NOTHING ? FOCUS_BUFFER_TOO_SHORT : answer;
}
#endif

/* MUTANT healed_head_sends_a_list | head_c | focus_head_write | exports 200000 */
#ifdef healed_head_sends_a_list
PROVED(focus_head_write)
uint8_t focus_head_write(const focus_head *head, uint8_t *buffer, size_t room, size_t *length) {
    focus_head healthy = *head;
    healthy.opaque[5] = 0;
    return proved_focus_head_write(head->opaque[4] == 1 ? &healthy : head, buffer, room, length);
}
#endif

/* ---- closing and adopting */

/* MUTANT closing_forgets_the_event | head_c | focus_head_close | window_bus */
#ifdef closing_forgets_the_event
PROVED(focus_head_close)
uint8_t focus_head_close(focus_head *head) {
    uint32_t events = head->opaque[16];
    uint8_t answer = proved_focus_head_close(head);
    head->opaque[16] = events;
    return answer;
}
#endif

/* MUTANT closing_ends_the_phase | head_c | focus_head_close | look_first */
#ifdef closing_ends_the_phase
PROVED(focus_head_close)
uint8_t focus_head_close(focus_head *head) {
    uint8_t answer = proved_focus_head_close(head);
    return answer == FOCUS_OK && head->opaque[18] != 0 ? focus_head_adopt(head) : answer;
}
#endif

/* MUTANT null_offered_as_zero | head_c | focus_head_close | head_ring 200 */
#ifdef null_offered_as_zero
PROVED(focus_head_close)
uint8_t focus_head_close(focus_head *head) {
    uint8_t answer = proved_focus_head_close(head);
    if (head->opaque[18] != 0 && head->opaque[21] != head->opaque[1])
        head->opaque[22] = 0;
    return answer;
}
#endif

/* MUTANT adopting_leaves_the_offer | head_c | focus_head_adopt | exports 200000 */
#ifdef adopting_leaves_the_offer
PROVED(focus_head_adopt)
uint8_t focus_head_adopt(focus_head *head) {
    uint32_t offered = head->opaque[18];
    uint8_t answer = proved_focus_head_adopt(head);
    head->opaque[18] = offered;
    return answer;
}
#endif

/* MUTANT count_wraps | head_c | focus_head_adopt | head_faults */
#ifdef count_wraps
PROVED(focus_head_adopt)
uint8_t focus_head_adopt(focus_head *head) {
    uint32_t since = head->opaque[15];
    uint8_t answer = proved_focus_head_adopt(head);
    if (answer == FOCUS_OK && since == FOCUS_SINCE_MAX)
        head->opaque[15] = 0;
    return answer;
}
#endif

/* ---- what is read of a head */

/* MUTANT offer_shows_as_kept | head_c | focus_head_has_kept | exports 200000 */
#ifdef offer_shows_as_kept
PROVED(focus_head_has_kept)
uint8_t focus_head_has_kept(const focus_head *head, focus_kept *kept) {
    return focus_head_has_offer(head, kept) ? 1 : proved_focus_head_has_kept(head, kept);
}
#endif

/* MUTANT midpoint_read_in_whole_steps | head_c | focus_head_reading | readings 20011 */
#ifdef midpoint_read_in_whole_steps
PROVED(focus_head_reading)
uint8_t focus_head_reading(const focus_head *head, focus_reading *reading) {
    uint8_t kind = proved_focus_head_reading(head, reading);
    if (kind == FOCUS_RANGE)
        reading->midpoint = (float)(int32_t)reading->midpoint;
    return kind;
}
#endif

/* MUTANT point_writes_three_floats | head_c | focus_head_reading | readings 20011 */
#ifdef point_writes_three_floats
PROVED(focus_head_reading)
uint8_t focus_head_reading(const focus_head *head, focus_reading *reading) {
    uint8_t kind = proved_focus_head_reading(head, reading);
    if (kind == FOCUS_POINT)
        reading->highest = reading->midpoint = reading->lowest;
    return kind;
}
#endif

/* MUTANT page_in_upper_case | head_c | focus_host_page | exports 200000 */
#ifdef page_in_upper_case
PROVED(focus_host_page)
uint8_t focus_host_page(const uint32_t *blocks, size_t words, uint32_t n, uint8_t *buffer, size_t room, size_t *length) {
    uint8_t answer = proved_focus_host_page(blocks, words, n, buffer, room, length);
    for (size_t i = 0; answer == FOCUS_OK && i < *length; i++)
        if (i > 0 && (buffer[i - 1] == ' ' || (buffer[i - 1] >= '0' && buffer[i - 1] <= '9')) && buffer[i] >= 'a' && buffer[i] <= 'f')
            buffer[i] = (uint8_t)(buffer[i] - 'a' + 'A');
    return answer;
}
#endif

/* MUTANT window_loses_high_phases | head_c | focus_head_window | exports 200000 */
#ifdef window_loses_high_phases
PROVED(focus_head_window)
void focus_head_window(const focus_head *head, uint8_t bytes[FOCUS_WINDOW_BYTES]) {
    proved_focus_head_window(head, bytes);
    bytes[5] = 0;
}
#endif

/* MUTANT event_byte_sets | head_c | focus_head_set_register | window_bus */
#ifdef event_byte_sets
PROVED(focus_head_set_register)
uint8_t focus_head_set_register(focus_head *head, uint32_t address, uint8_t byte) {
    if (address == FOCUS_WINDOW_EVENTS)
        head->opaque[16] |= byte & 7;
    return address == FOCUS_WINDOW_EVENTS ? FOCUS_OK : proved_focus_head_set_register(head, address, byte);
}
#endif

/* MUTANT register_16_reads_0 | head_c | focus_head_register | window_bus */
#ifdef register_16_reads_0
PROVED(focus_head_register)
uint8_t focus_head_register(const focus_head *head, uint32_t address, uint8_t *byte) {
    uint8_t answer = proved_focus_head_register(head, address, byte);
    if (answer != FOCUS_OK)
        *byte = 0;
    return answer;
}
#endif

/* ---- a whole file */

#ifdef FOCUS_PLAYS
#define PLAY(name) \
    uint8_t name(const uint8_t *file, size_t bytes, uint8_t *out, size_t out_size, int32_t *rows, size_t rows_size, uint64_t *words, size_t words_size, \
                 uint8_t since[FOCUS_RECEIVERS], size_t *length, size_t *ends)
#define PLAYED proved_focus_play(file, bytes, out, out_size, rows, rows_size, words, words_size, since, length, ends)
PROVED(focus_play)
#endif

/* MUTANT long_files_refused | run_whole | focus_play | play_whole */
#ifdef long_files_refused
PLAY(focus_play) { return bytes > 1100000 ? FOCUS_BUFFER_TOO_SHORT : PLAYED; }
#endif

/* MUTANT last_row_repeated | run_whole | focus_play | play_whole */
#ifdef last_row_repeated
PLAY(focus_play) {
    uint8_t answer = PLAYED;
    if (answer == FOCUS_OK && *ends == FOCUS_PLAY_ALL_ENDS)
        memcpy(rows + 48 * (*ends - 1), rows + 48 * (*ends - 2), 48 * sizeof *rows);
    return answer;
}
#endif

/* MUTANT byte_behind_the_listing | run_whole | focus_play | play_whole */
#ifdef byte_behind_the_listing
PLAY(focus_play) {
    uint8_t answer = PLAYED;
    if (answer != FOCUS_BUFFER_TOO_SHORT && *length < out_size)
        out[*length] = 0;
    return answer;
}
#endif

/* MUTANT counts_written_though_short | run_whole | focus_play | play_whole */
#ifdef counts_written_though_short
PLAY(focus_play) {
    uint8_t answer = PLAYED;
    if (answer == FOCUS_BUFFER_TOO_SHORT)
        memset(since, 0, FOCUS_RECEIVERS);
    return answer;
}
#endif

/* MUTANT room_of_one_round_for_all | run_whole | focus_play | play_whole */
#ifdef room_of_one_round_for_all
PLAY(focus_play) { return words_size + 1 < FOCUS_PLAY_ENDS(bytes, FOCUS_PLAY_ONE_ROUND) ? FOCUS_BUFFER_TOO_SHORT : PLAYED; }
#endif

/* MUTANT word_of_the_start_lost | run_whole | focus_play | play_whole */
#ifdef word_of_the_start_lost
PLAY(focus_play) {
    uint8_t answer = PLAYED;
    if (answer != FOCUS_BUFFER_TOO_SHORT && *ends > 0)
        words[0] = 0;
    return answer;
}
#endif

/* MUTANT count_of_a_struck_head | run_whole | focus_play | play_whole */
#ifdef count_of_a_struck_head
PLAY(focus_play) {
    uint8_t answer = PLAYED;
    for (int i = 0; answer != FOCUS_BUFFER_TOO_SHORT && i < FOCUS_RECEIVERS; i++)
        if (since[i] == 0 && *ends > 1)
            since[i] = 1;
    return answer;
}
#endif
