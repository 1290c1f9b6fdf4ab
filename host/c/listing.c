/* Plays a run file and prints its listing, as rigplay does, for scripts: it takes the name of a file, has a status, and says on standard
 * error why a file is refused. rigplay reads standard input alone, and its status says nothing.
 *
 * The listing is what focus_play puts in memory, and is the same, byte for byte. */
#include "play.h"
#include "tool.h"

static const char usage[] = "listing [FILE]";
static const char help[] =
    "Plays a run file and prints its listing. Without FILE, or with -, standard input is read.\n"
    "\n"
    "A listing that is whole ends with the line `end`, or `refused` and a number. Why a file is refused\n"
    "stands on standard error too, in words; `play FILE` says at which record.\n"
    "\n"
    "Status: 0 if the file was played to its end, 1 if it was refused, 2 if it could not be read or the\n"
    "listing could not be written.\n";

/* Whether the bytes look like the text form of a run file: no record begins so. */
static int is_text(const uint8_t *file, size_t bytes) {
    for (size_t i = 0; i < bytes && i < 64; i++)
        if (file[i] < ' ' && file[i] != '\n' && file[i] != '\t' && file[i] != '\r')
            return 0;
    return bytes > 0;
}

int main(int count, char **words) {
    struct played p;
    size_t bytes = 0;
    tool_words(count, words, 0, 1, "listing", usage, help);
    const char *name = count > 1 ? words[1] : "-";
    errno = 0;
    uint8_t *file = read_whole(name, &bytes);
    if (file == NULL)
        tool_unread(name);
    make_room(&p, file, bytes);
    if (play(&p, file, bytes) == FOCUS_BUFFER_TOO_SHORT) {
        fprintf(stderr, "listing: there is not enough memory\n");
        return TOOL_WRONG;
    }
    fwrite(p.listing, 1, p.length, stdout);
    if (p.number != 0)
        fprintf(stderr, "%s: refused %u: %s%s\n", strcmp(name, "-") == 0 ? "standard input" : name, p.number, focus_refusal_text(p.number),
                is_text(file, bytes) ? " (is it the text form? runtext pack makes a run file of it, and play takes it as it is)" : "");
    free_room(&p);
    free(file);
    tool_end(p.number != 0 ? TOOL_REFUSED : TOOL_DONE);
}
