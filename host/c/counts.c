/* Shows the phases since the last strike of each head and listener of a run file (document 02, A10), for service staff who look for the
 * head that is struck most. */
#include "play.h"
#include "tool.h"

static const char usage[] = "counts [FILE]";
static const char help[] =
    "Shows how many phases each head and listener of a run file has ended since it was struck last. Without\n"
    "FILE, or with -, standard input is read.\n"
    "\n"
    "A line each, who was struck last first, those with the same count by number; a head that was never\n"
    "struck counts from the start. Then `end`, or `refused` and the number of the file's first fault, which\n"
    "standard error has in words: the counts are those after the last round that was played.\n"
    "\n"
    "Status: 0 if the file was played to its end, 1 if it was refused, 2 if it could not be read or the\n"
    "counts could not be written.\n";

static void show(unsigned number, unsigned count) {
    printf("%s %u: %u%s phase%s since its last strike or the start\n", number < 32 ? "head" : "listener", number, count, count == 255 ? " or more" : "",
           count == 1 ? "" : "s");
}

int main(int count, char **words) {
    struct played p;
    size_t bytes = 0;
    tool_words(count, words, 0, 1, "counts", usage, help);
    const char *name = count > 1 ? words[1] : "-";
    errno = 0;
    uint8_t *file = read_whole(name, &bytes);
    if (file == NULL)
        tool_unread(name);
    make_room(&p, file, bytes);
    if (play(&p, file, bytes) == FOCUS_BUFFER_TOO_SHORT) {
        fprintf(stderr, "counts: there is not enough memory\n");
        return TOOL_WRONG;
    }
    unsigned n = p.ends > 0 ? file[4] : 0, m = p.ends > 0 ? listeners_of(file, bytes) : 0;
    for (unsigned passed = 0; passed <= 255; passed++)
        for (unsigned i = 0; i < FOCUS_RECEIVERS; i++)
            if (p.since[i] == passed && (i < n || (i >= 32 && i < 32 + m)))
                show(i, passed);
    if (p.number != 0) {
        printf("refused %u\n", p.number);
        fprintf(stderr, "%s: refused %u: %s\n", strcmp(name, "-") == 0 ? "standard input" : name, p.number, focus_refusal_text(p.number));
    } else
        puts("end");
    free_room(&p);
    free(file);
    tool_end(p.number != 0 ? TOOL_REFUSED : TOOL_DONE);
}
