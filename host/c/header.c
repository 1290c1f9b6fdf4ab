/* The header by itself, as C99 and as C++: sizes, names and texts. It calls nothing that is proved, so it needs no archive. */
#include <focus.h>

#include <stdio.h>
#include <string.h>

/* what the source has: arrays of so many numbers, without gaps (an array of -1 bytes does not compile) */
typedef char head_is_its_words[sizeof(focus_head) == 1116 * sizeof(uint32_t) ? 1 : -1];
typedef char kept_is_four_numbers[sizeof(focus_kept) == 4 * sizeof(int32_t) ? 1 : -1];
typedef char range_is_two_numbers[sizeof(focus_range) == 2 * sizeof(int32_t) ? 1 : -1];
typedef char reading_is_three_floats[sizeof(focus_reading) == 3 * sizeof(float) && sizeof(float) == 4 ? 1 : -1];
typedef char longest_list[FOCUS_FRAME_REST + 5 + 4 * FOCUS_HEADS_MAX == FOCUS_FRAME_MAX ? 1 : -1];
typedef char receivers_are_all[FOCUS_LISTENER_FIRST + FOCUS_LISTENERS_MAX == FOCUS_RECEIVERS ? 1 : -1];
typedef char last_is_the_last[FOCUS_LISTENER_LAST + 1 == FOCUS_RECEIVERS ? 1 : -1];
typedef char halves_from_nine[FOCUS_HALVES(9, 2) && FOCUS_HALVES(23, 6) && !FOCUS_HALVES(8, 2) && !FOCUS_HALVES(22, 6) ? 1 : -1];
typedef char ends_are_phases_and_start[FOCUS_PLAY_ALL_ENDS == FOCUS_PHASES_MAX + 1 ? 1 : -1];

int main(void) {
    unsigned number, other, texts = 0;
    char version[32];
    for (number = 0; number < 300; number++) {
        if (strcmp(focus_refusal_text(number), focus_refusal_text(300)) == 0)
            continue;
        texts++;
        for (other = 0; other < number; other++)
            if (strcmp(focus_refusal_text(number), focus_refusal_text(other)) == 0)
                return 1;
    }
    snprintf(version, sizeof version, "%d.%d.%d", FOCUS_VERSION_MAJOR, FOCUS_VERSION_MINOR, FOCUS_VERSION_PATCH);
    if (strcmp(version, FOCUS_VERSION_TEXT) != 0 || texts != 27)
        return 1;
    printf("version %s, %u texts\n", version, texts);
    return 0;
}
