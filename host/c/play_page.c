/* The host page of a run file's last phase end (document 02, A14). The file is played by focus_play; then a ring of blocks that C keeps is
 * driven by the same records up to the last phase end that was played, and must hold the same positions. */
#include "play.h"
#include "ring.h"
#include "tool.h"

static const char usage[] = "play_page [FILE]";
static const char help[] =
    "Prints the host page of a run file's last phase end: a line for each head, with its number, what kind of\n"
    "reading it has, and its floats, each as its bits in eight hexadecimal digits. Without FILE, or with -,\n"
    "standard input is read.\n"
    "\n"
    "A head struck in that phase's last round has lost its memory, and its reading is unknown. Of a file\n"
    "that is refused, the page is that of the last phase end that was played, and standard error says why;\n"
    "a file without an accepted start has no page.\n"
    "\n"
    "Status: 0 if the file was played to its end, 1 if it was refused, 2 if it could not be read or the page\n"
    "could not be written.\n";

static struct ring ring;

static void print_page(const struct ring *r) {
    static uint8_t page[64 * 32];
    size_t length = 0;
    same("page", focus_host_page(&r->heads[0].opaque[0], sizeof r->heads / 4, r->n, page, sizeof page, &length), 0);
    fwrite(page, 1, length, stdout);
}

int main(int count, char **words) {
    struct played p;
    size_t bytes = 0;
    tool_words(count, words, 0, 1, "play_page", usage, help);
    const char *name = count > 1 ? words[1] : "-";
    errno = 0;
    uint8_t *file = read_whole(name, &bytes);
    if (file == NULL)
        tool_unread(name);
    make_room(&p, file, bytes);
    if (play(&p, file, bytes) == FOCUS_BUFFER_TOO_SHORT) {
        fprintf(stderr, "play_page: there is not enough memory\n");
        return TOOL_WRONG;
    }
    if (p.ends > 0) {
        const uint8_t *at = start_ring(&ring, file, listeners_of(file, bytes));
        for (size_t rounds = (p.ends - 1) * (ring.once ? 1 : 2); rounds > 0; rounds--) {
            at = read_round(&ring, at, file + bytes);
            strike(&ring);
            deliver(&ring, NULL);
            close_round(&ring);
        }
        as_row(&ring, p.rows + 48 * (p.ends - 1), p.words[p.ends - 1]);
        print_page(&ring);
    }
    if (p.number != 0)
        fprintf(stderr, "%s: refused %u: %s%s\n", strcmp(name, "-") == 0 ? "standard input" : name, p.number, focus_refusal_text(p.number),
                p.ends == 0 ? "; there is no page" : "");
    free_room(&p);
    free(file);
    tool_end(p.number != 0 ? TOOL_REFUSED : TOOL_DONE);
}
