/* A ring under attack: n heads and m listeners, a process each (device.c), on UDP of 127.0.0.1; a driver that strikes up to f heads in each
 * round; and a checker with its own arithmetic over what the processes report. `ring_udp --help` has the options.
 *
 * The driver kills processes with `kill -9` and starts new ones whose blocks are noise. Who else is struck, and how, each device knows from
 * the seed (chaos.h). The checker knows for each round who counts as marked: who was killed, who did not report, and who reports that it was
 * struck, was late or lost its frame. Of these at most f heads may be. At each phase end it demands (docs/THEOREM.md):
 *
 *     1, 2    between any two checked ends: sound positions are in the range of the earlier end, and the spread has halved with each phase
 *     5, 6, 7 one position after a phase in whose last round no head was marked; kept ranges within the range; counts of phase ends
 *     10      a device that is not marked is refused nothing, and holds a position
 *     restarts, clocks: who was marked is restarted; no device hears more than f heads who are ahead of it
 *
 * If more than f heads are marked in a round, because the machine is busy or on purpose, it claims nothing until a phase ends with at most f
 * marked in its last round, and from there on 1 and 2 alone (13 and 15 there). If the ring is lost (14), rig_watch says so, and the
 * next run begins. */
#define _GNU_SOURCE
#include "chaos.h"
#include <arpa/inet.h>
#include <errno.h>
#include <poll.h>
#include <signal.h>
#include <stdio.h>
#include <stdlib.h>
#include <sys/socket.h>
#include <sys/wait.h>
#include <time.h>
#include <unistd.h>

enum { PHASES = 512, ROUNDS = 2 * PHASES, PROGRAMS = 8, HISTORY = 160 };

static const char help[] =
    "usage: ring_udp [OPTION..]   (host/rig/ring builds it and starts it)\n"
    "\n"
    "Heads and listeners, a process each, on UDP of 127.0.0.1. In each round up to f heads are struck: killed and born again with noise in\n"
    "their memory (k), made to lie to each neighbour (l), cut off (d), or made to sleep past the end (z). The cable loses, doubles, damages\n"
    "and delays packets, and brings those of an earlier run. Each phase end is checked. A line a phase is printed:\n"
    "\n"
    "    run, phase; lowest and highest position of the devices that are not marked, and their spread; who was struck in each round, with a\n"
    "    letter as above, t for a device that was late of itself, ? for one that was not there; packets refused: bad sum, other run, doubled,\n"
    "    other round or wrong otherwise; and `checked`, or why not.\n"
    "\n"
    "  the ring     --heads N (12)  --limit F (3)  --listeners M (3)  --one-round (a phase is one round)\n"
    "  how long     --phases P (21) in a run, up to 512;  --runs R (3);  --seconds S: new runs until S seconds are over;  --ends E: new runs\n"
    "               until E phase ends are checked, or 120 seconds are over\n"
    "  time         --round MS: how long a round takes. Otherwise it begins with 60, and grows while the machine is too busy\n"
    "  strikes      --seed S (1)  --strikes K (F): at most K heads in a round  --cut P: a power cut in phase P: all heads are killed at once\n"
    "  processes    --with 'NAME=COMMAND WORD..': some devices are started so, as `--with 'armv7=qemu-arm ring_device.armv7'`; up to 8 times\n"
    "               --port BASE: ports BASE to BASE + 63\n"
    "  what to see  --quiet: no line a phase;  --html FILE: a page with a picture, written anew at each phase end\n"
    "  breaks       --break restart | run | crc | clocks | more: what a rig may not do is done (nobody restarts; no run number; no check sum;\n"
    "               clocks apart; more than f heads struck, and not counted). It stops when the checker notices\n"
    "\n"
    "status: 0 if all that was checked held, and enough was checked; 1 if something did not hold, or too little could be checked; 2 for wrong\n"
    "words. With --break it is 1 if that was noticed, and 0 if not.\n";

static uint32_t n = 12, f = 3, m = 3, phases = 21, runs = 3, seconds, ends_wanted, round_ms, cut, base, most = UINT32_MAX;
static uint64_t seed = 1;
static uint8_t once;
static int quiet, sock;
static const char *broken = "", *html;
static char folder[] = "/tmp/ring_udp.XXXXXX", device_path[512];
static struct { const char *name; char *words[8]; } programs[PROGRAMS];
static uint32_t program_count;

static int breaks(const char *what) {
    return strcmp(broken, what) == 0;
}

static uint64_t now(void) {
    struct timespec t;
    clock_gettime(CLOCK_MONOTONIC, &t);
    return (uint64_t)t.tv_sec * 1000000000u + (uint64_t)t.tv_nsec;
}

static int is_member(uint32_t i) {
    return i < n || (i >= 32 && i < 32 + m);
}

/* ---- the run that is on */
static struct attack attack;
static rig_plan plan;
static uint64_t length; /* of a round, in nanoseconds */
static uint32_t rounds;
static pid_t pids[NUMBERS];
static struct cell { uint8_t seen, killed; struct said said; } table[ROUNDS][NUMBERS];
static int64_t last_seen[NUMBERS];
static uint64_t chance;

/* over all runs */
static uint64_t strikes, strikes_by[KINDS], late_alone, overloads, lost_rings, ends_checked, ends_unchecked, pairs, failures, bad, other_run,
    doubled, refused, refused_after, quiet_ends;
static int32_t least_left = INT32_MAX;

static void fail(uint32_t round, uint32_t number, const char *what) {
    if (failures++ < 20)
        printf("FAILS: run %u, phase %u, round %u, device %u: %s\n", attack.run, rig_phase(&plan, round), rig_part(&plan, round), number, what);
}

/* ---- processes */
static void spawn(uint32_t i, int rejoin) {
    char w[15][24];
    char *args[32];
    int count = 0;
    uint64_t x[15] = {n, f, m, once, plan.copies, attack.run, plan.begin, length, rounds, i, 0, (uint64_t)rejoin, base, seed, attack.most};
    uint32_t p = i % (program_count + 1);
    for (int j = 0; j < 15; j++)
        snprintf(w[j], sizeof w[j], "%llu", (unsigned long long)x[j]);
    snprintf(w[10], sizeof w[10], "%d", first_position(&attack, i));
    if (p == 0)
        args[count++] = device_path;
    for (int j = 0; p > 0 && programs[p - 1].words[j] != NULL; j++)
        args[count++] = programs[p - 1].words[j];
    for (int j = 0; j < 15; j++)
        args[count++] = w[j];
    args[count++] = folder, args[count++] = (char *)(*broken ? broken : "-"), args[count] = NULL;
    pids[i] = vfork();
    if (pids[i] == 0) {
        execvp(args[0], args);
        _exit(6);
    }
}

static void end_process(uint32_t i) {
    if (pids[i] <= 0)
        return;
    kill(pids[i], SIGKILL);
    waitpid(pids[i], NULL, 0);
    pids[i] = 0;
}

static uint32_t round_at(uint64_t t) {
    return t < plan.begin ? 0 : (uint32_t)((t - plan.begin) / length);
}

/* Kills a process and has it born again; it is marked in each round that the kill may have touched. */
static void strike_dead(uint32_t i) {
    uint32_t from = round_at(now()), to;
    end_process(i);
    to = round_at(now());
    for (uint32_t r = from; r <= to && r < rounds; r++)
        table[r][i].killed = 1;
    if (to + 1 < rounds)
        spawn(i, 1);
}

/* ---- reports */
static void take_report(void) {
    uint8_t bytes[256];
    struct said x;
    while (recv(sock, bytes, sizeof bytes, MSG_DONTWAIT) == REPORT_BYTES) {
        said_bytes(&x, bytes, 0);
        if (x.run != attack.run || x.round >= rounds || x.number >= NUMBERS || !is_member(x.number))
            continue;
        table[x.round][x.number].seen = 1, table[x.round][x.number].said = x;
        if (last_seen[x.number] < (int64_t)x.round)
            last_seen[x.number] = x.round;
        bad += x.bad, other_run += x.other_run, doubled += x.doubled, refused += x.refused;
        if (x.marks == 0 && x.left < least_left)
            least_left = x.left;
    }
}

static void reports_until(uint64_t until) {
    for (;;) {
        uint64_t t = now();
        struct pollfd p = {sock, POLLIN, 0};
        take_report();
        if (t >= until)
            return;
        struct timespec left = {(time_t)((until - t) / 1000000000u), (long)((until - t) % 1000000000u)};
        ppoll(&p, 1, &left, NULL);
    }
}

/* ---- the checker */
static struct { int32_t low, high; uint32_t phase; } known[PHASES + 1]; /* ends of which demand 3 speaks, the oldest first */
static uint32_t known_count, since[NUMBERS];
static int from_start, over; /* no overload in this run so far; one in this phase */
static uint8_t marked[NUMBERS], sure[NUMBERS]; /* in the round before; and that the device itself knew it */
static rig_ring watch;
static char who[2][400];
static uint64_t seen_bad, seen_other, seen_doubled, seen_refused;

struct shown { int32_t low, high; uint32_t run, phase, marks; char checked; };
static struct shown history[HISTORY];
static uint32_t history_count;

static void begin_check(void) {
    int32_t low = INT32_MAX, high = INT32_MIN;
    for (uint32_t i = 0; i < n; i++) {
        int32_t v = first_position(&attack, i);
        low = v < low ? v : low, high = v > high ? v : high;
    }
    known[0].low = low, known[0].high = high, known[0].phase = 0, known_count = 1;
    from_start = 1, over = 0;
    memset(marked, 0, sizeof marked), memset(sure, 0, sizeof sure), memset(since, 0, sizeof since);
    watch.phases = 0;
    who[0][0] = who[1][0] = 0;
    if (!quiet) {
        printf("run phase       low      high    spread  packets refused: sum run twice other\n");
        printf("%3u %5u %9d %9d %9d  start of a run of rounds of %.1f ms\n", attack.run, 0, low, high, high - low, (double)length / 1e6);
    }
}

static void tell(uint32_t part, char letter, uint32_t i) {
    size_t used = strlen(who[part]);
    snprintf(who[part] + used, sizeof who[part] - used, " %c%u", letter, i);
}

/* Whether a device counts as marked in a round, and why. */
static int is_marked(uint32_t r, uint32_t i, uint32_t part) {
    static const char letters[] = "-k?ldz";
    const struct cell *c = &table[r][i];
    const struct said *x = &c->said;
    int struck_so = c->seen && (x->kind == LIE || x->kind == DROP || x->kind == DOZE);
    sure[i] = c->seen && !c->killed && x->marks != 0;
    if (c->killed || !c->seen) {
        strikes += c->killed, strikes_by[KILL] += c->killed;
        tell(part, c->killed ? 'k' : '?', i);
        return 1;
    }
    if (struck_so) {
        strikes++, strikes_by[x->kind]++;
        tell(part, letters[x->kind], i);
        if (x->marks == 0)
            fail(r, i, "it was struck, late or cut off, and does not count itself as marked");
        return 1;
    }
    if (x->marks & (RIG_STRUCK | RIG_LATE | RIG_LOST)) {
        late_alone++;
        tell(part, 't', i);
        return 1;
    }
    return 0;
}

/* What is owed to and by a device that is not marked: its restart, and that nothing is refused. Whether it counts as marked all the same. */
static int is_owing(uint32_t r, uint32_t i, int was_marked, int was_sure) {
    const struct said *x = &table[r][i].said;
    uint32_t ahead = 0;
    for (uint32_t word = x->ahead; word != 0; word &= word - 1)
        ahead++;
    if (ahead > f && !breaks("more"))
        fail(r, i, "more than f heads are ahead of it: clocks are apart");
    if (was_marked && !x->restarted && r > 0) {
        if (was_sure)
            fail(r, i, "it was marked in the round before, and is not restarted");
        return 1;
    }
    if (x->marks != 0 && from_start && !over) {
        char text[120];
        snprintf(text, sizeof text, "at most f are marked, and it is refused %u: %s", x->refusal, focus_refusal_text(x->refusal));
        fail(r, i, text);
    }
    refused_after += x->marks != 0 && !from_start;
    return x->marks != 0;
}

static void check_known(uint32_t r, uint32_t p, int32_t low, int32_t high) {
    int halves = once || 3 * n >= 11 * f + 3;
    for (uint32_t j = 0; j < known_count; j++) {
        uint32_t k = p - known[j].phase;
        int64_t spread = (int64_t)known[j].high - known[j].low, most_now = k > 30 ? (spread > 0) : (spread + (INT64_C(1) << k) - 1) >> k;
        char text[160];
        pairs++;
        snprintf(text, sizeof text, "from %d..%d at the end of phase %u to %d..%d: demand 3", known[j].low, known[j].high, known[j].phase, low, high);
        if (low < known[j].low || high > known[j].high || (halves && (int64_t)high - low > most_now)) {
            fail(r, 99, text);
            return;
        }
    }
}

/* A phase end: the positions of who is sound, demand 3 between it and each end that is known, and what else is promised. */
static void check_end(uint32_t r, uint32_t heads) {
    uint32_t p = rig_phase(&plan, r), too_few = 0, least = 0;
    int32_t low = INT32_MAX, high = INT32_MIN;
    int claimed = known_count > 0 && !over, lost;
    for (uint32_t i = 0; i < NUMBERS; i++) {
        const struct said *x = &table[r][i].said;
        if (!is_member(i))
            continue;
        if (i < 32 && table[r][i].seen && x->refusal == FOCUS_TOO_FEW_TRUSTED)
            too_few |= UINT32_C(1) << i;
        if (marked[i])
            continue;
        least++;
        if (!x->held) {
            fail(r, i, "it is sound, and holds no position");
            continue;
        }
        low = x->position < low ? x->position : low, high = x->position > high ? x->position : high;
        if (from_start && !over && x->since != (since[i] < FOCUS_SINCE_MAX ? since[i] : FOCUS_SINCE_MAX))
            fail(r, i, "its count of phase ends is wrong");
        if (from_start && !over && (!x->has_kept || x->lowest < known[known_count - 1].low || x->highest > known[known_count - 1].high))
            fail(r, i, "what it kept is out of the range of the end before");
    }
    if (claimed && least > 0)
        check_known(r, p, low, high);
    if (claimed && from_start && heads == 0 && least > 0) {
        quiet_ends++;
        if (low != high)
            fail(r, 99, "no head was marked in the last round, and the sound ones hold different positions");
    }
    ends_checked += claimed, ends_unchecked += !claimed;
    if (!claimed)
        known_count = 0;
    if (heads <= f || breaks("more")) { /* 13, 15: from here on */
        known[known_count].low = low, known[known_count].high = high, known[known_count].phase = p;
        known_count++;
    }
    over = 0;
    lost = rig_watch(&watch, &plan, too_few);
    if (!quiet || lost) {
        printf("%3u %5u %9d %9d %9d %6llu %5llu %5llu %5llu ", attack.run, p, least ? low : 0, least ? high : 0, least ? high - low : 0,
               (unsigned long long)(bad - seen_bad), (unsigned long long)(other_run - seen_other), (unsigned long long)(doubled - seen_doubled),
               (unsigned long long)(refused - seen_refused));
        printf(" %s%s%s%s%s\n", claimed ? "checked" : heads <= f ? "limit was broken; checked from here on" : "more than f: nothing is promised",
               who[0][0] || who[1][0] ? "; struck" : "; quiet", who[0], once ? "" : " |", who[1]);
    }
    seen_bad = bad, seen_other = other_run, seen_doubled = doubled, seen_refused = refused;
    who[0][0] = who[1][0] = 0;
    history[history_count++ % HISTORY] = (struct shown){least ? low : 0, least ? high : 0, attack.run, p, heads, (char)(claimed && least > 0)};
    if (lost) {
        lost_rings++;
        printf("lost: %u heads or more were refused 25 (too few trusted) in two phases in a row; a new run begins, with positions\n", n - f);
    }
}

static void check_round(uint32_t r) {
    uint32_t heads = 0, part = rig_part(&plan, r), last = (uint32_t)rig_is_last(&plan, r);
    uint8_t now_marked[NUMBERS] = {0};
    uint8_t was_sure[NUMBERS];
    memcpy(was_sure, sure, sizeof sure);
    for (uint32_t i = 0; i < NUMBERS; i++)
        if (is_member(i)) {
            now_marked[i] = (uint8_t)is_marked(r, i, part);
            heads += i < 32 && now_marked[i];
        }
    /* who owes a restart that nobody could ask for, as its report was not there, counts too: so first the limit, then the owed */
    for (uint32_t i = 0; i < n; i++)
        heads += !now_marked[i] && marked[i] && !was_sure[i] && !table[r][i].said.restarted && r > 0;
    if (heads > f && !breaks("more"))
        over = 1;
    for (uint32_t i = 0; i < NUMBERS; i++)
        if (is_member(i) && !now_marked[i])
            now_marked[i] = (uint8_t)is_owing(r, i, marked[i], was_sure[i]);
    heads = 0;
    for (uint32_t i = 0; i < n; i++)
        heads += now_marked[i];
    if (heads > f && !breaks("more"))
        over = 1;
    if (over)
        from_start = 0;
    overloads += heads > f;
    memcpy(marked, now_marked, sizeof marked);
    for (uint32_t i = 0; i < NUMBERS; i++)
        since[i] = marked[i] ? 0 : since[i] + last;
    if (last)
        check_end(r, heads);
}

/* Whether all has come that can come of a round. */
static int is_whole(uint32_t r, uint64_t t) {
    if (t > plan.begin + (uint64_t)(r + 9) * length)
        return 1;
    for (uint32_t i = 0; i < NUMBERS; i++)
        if (is_member(i) && last_seen[i] < (int64_t)r && !(table[r][i].killed && t > plan.begin + (uint64_t)(r + 2) * length))
            return 0;
    return 1;
}

/* ---- a picture: lowest and highest position of each phase end, the spread as bars of its logarithm, and how many heads were marked */
static void draw(void) {
    uint32_t count = history_count < HISTORY ? history_count : HISTORY, first = history_count - count;
    char name[600];
    FILE *out;
    snprintf(name, sizeof name, "%s.new", html);
    if ((out = fopen(name, "w")) == NULL)
        return;
    fprintf(out, "<!doctype html><meta charset=utf-8><meta http-equiv=refresh content=1><title>a ring under attack</title>\n"
                 "<p style='font:14px sans-serif'>%u heads, at most %u struck in a round, %u listeners; run %u. Strikes: %llu. Phase ends checked: "
                 "%llu. Failures: %llu.</p>\n<svg viewBox='0 0 980 400' width=980 height=400 xmlns='http://www.w3.org/2000/svg' style='font:11px "
                 "sans-serif'>\n", n, f, m, attack.run, (unsigned long long)strikes, (unsigned long long)ends_checked, (unsigned long long)failures);
    for (uint32_t j = 0; j < count; j++) {
        const struct shown *x = &history[(first + j) % HISTORY];
        double left = 10 + 6.0 * j, top = 130 - x->high * 120e-6, bottom = 130 - x->low * 120e-6;
        int64_t spread = (int64_t)x->high - x->low;
        int logarithm = 0;
        while (spread >> logarithm > 0)
            logarithm++;
        fprintf(out, "<rect x='%.1f' y='%.2f' width='5' height='%.2f' fill='%s'/>", left, top, bottom - top < 1 ? 1.0 : bottom - top,
                x->checked ? "#27c" : "#c72");
        fprintf(out, "<rect x='%.1f' y='%d' width='5' height='%d' fill='#8ac'/>", left, 350 - 4 * logarithm, 4 * logarithm);
        for (uint32_t k = 0; k < x->marks && k < 8; k++)
            fprintf(out, "<rect x='%.1f' y='%u' width='5' height='3' fill='#a33'/>", left, 358 + 4 * k);
        if (x->phase == 1)
            fprintf(out, "<path d='M%.1f 5V395' stroke='#999'/><text x='%.1f' y='14'>run %u</text>", left - 1, left + 2, x->run);
        fputc('\n', out);
    }
    fprintf(out, "<text x='10' y='262'>above: lowest to highest position at each phase end (blue: checked); below: the logarithm of the spread; at "
                 "the foot: heads marked in the last round</text></svg>\n");
    if (fclose(out) == 0)
        rename(name, html);
}

/* ---- a run */
static int is_over(int was_lost) {
    return was_lost || (*broken && failures > 0) || failures > 20;
}

static void one_run(void) {
    uint8_t kinds[NUMBERS];
    uint64_t kill_at[NUMBERS] = {0}, lost_before = lost_rings, t;
    uint32_t scheduled = 0, checked = 0;
    memset(table, 0, sizeof table);
    for (uint32_t i = 0; i < NUMBERS; i++)
        last_seen[i] = -1;
    plan = (rig_plan){now() + 150000000u + 6000000u * (n + m) * (program_count ? 6 : 1) + 4 * length, length, attack.run, n, f, once, 2};
    for (uint32_t i = 0; i < NUMBERS; i++)
        if (is_member(i))
            spawn(i, 0);
    begin_check();
    for (;;) {
        uint64_t next;
        t = now();
        for (; scheduled < rounds && t >= plan.begin + scheduled * length; scheduled++) {
            strikes_of(&attack, scheduled, kinds);
            for (uint32_t i = 0; i < n; i++)
                if (kinds[i] == KILL || (cut > 0 && attack.run == 1 && scheduled == (cut - 1) * (once ? 1u : 2u)))
                    kill_at[i] = plan.begin + scheduled * length + length / 8 + (cut ? length / 8 : drawn(&chance, 1000) * (length / 2000));
        }
        next = plan.begin + scheduled * length;
        for (uint32_t i = 0; i < n; i++) {
            if (kill_at[i] > 0 && t >= kill_at[i]) {
                strike_dead(i);
                kill_at[i] = 0;
            } else if (kill_at[i] > 0 && kill_at[i] < next) {
                next = kill_at[i];
            }
        }
        t = now();
        while (checked < rounds && is_whole(checked, t) && !is_over(lost_rings > lost_before)) {
            check_round(checked);
            if (html && rig_is_last(&plan, checked))
                draw();
            checked++;
        }
        if (checked >= rounds || is_over(lost_rings > lost_before))
            break;
        reports_until(next < t + length / 4 ? next : t + length / 4);
    }
    for (uint32_t i = 0; i < NUMBERS; i++)
        end_process(i);
}

/* ---- words */
static int number_of(const char *text, uint64_t most_allowed, uint64_t *value) {
    char *end;
    errno = 0;
    *value = strtoull(text, &end, 10);
    return errno == 0 && *text >= '0' && *text <= '9' && *end == 0 && *value <= most_allowed;
}

static int wrong(const char *what, const char *word) {
    fprintf(stderr, "ring_udp: %s%s%s (--help shows the options)\n", what, *word ? ": " : "", word);
    return 2;
}

static int take_with(char *text) {
    char *command = strchr(text, '=');
    uint32_t count = 0;
    if (command == NULL || program_count == PROGRAMS)
        return 0;
    *command++ = 0;
    programs[program_count].name = text;
    for (char *w = strtok(command, " "); w != NULL && count < 7; w = strtok(NULL, " "))
        programs[program_count].words[count++] = w;
    return count > 0 && ++program_count > 0;
}

static int take_words(int count, char **word) {
    struct { const char *name; uint32_t *at, most; } numbers[] = {
        {"--heads", &n, 32}, {"--limit", &f, 9}, {"--listeners", &m, 16}, {"--phases", &phases, PHASES}, {"--runs", &runs, 1000000},
        {"--seconds", &seconds, 1000000}, {"--ends", &ends_wanted, 1000000}, {"--round", &round_ms, 60000}, {"--cut", &cut, PHASES},
        {"--port", &base, 65000}, {"--strikes", &most, 32}};
    for (int i = 1; i < count; i++) {
        int taken = 0;
        uint64_t value;
        for (unsigned j = 0; j < sizeof numbers / sizeof *numbers; j++)
            if (strcmp(word[i], numbers[j].name) == 0) {
                if (i + 1 >= count || !number_of(word[i + 1], numbers[j].most, &value))
                    return wrong("a number is wanted after", word[i]);
                *numbers[j].at = (uint32_t)value, taken = 1, i++;
                break;
            }
        if (taken)
            continue;
        if (strcmp(word[i], "--one-round") == 0)
            once = 1;
        else if (strcmp(word[i], "--quiet") == 0)
            quiet = 1;
        else if (strcmp(word[i], "--seed") == 0 && i + 1 < count && number_of(word[i + 1], UINT64_MAX, &seed))
            i++;
        else if (strcmp(word[i], "--html") == 0 && i + 1 < count)
            html = word[++i];
        else if (strcmp(word[i], "--with") == 0 && i + 1 < count && take_with(word[i + 1]))
            i++;
        else if (strcmp(word[i], "--break") == 0 && i + 1 < count && strstr(" restart run crc clocks more ", word[i + 1]) != NULL)
            broken = word[++i];
        else
            return wrong("not understood", word[i]);
    }
    if (n == 0 || phases == 0 || (once ? n < 4 * f + 1 : 2 * n < 7 * f + 2))
        return wrong(once ? "a one-round ring needs n of at least 4f + 1" : "a ring needs 2n of at least 7f + 2", "");
    return 0;
}

static int open_driver(void) {
    struct sockaddr_in a;
    int s = socket(AF_INET, SOCK_DGRAM | SOCK_CLOEXEC, 0), room = 1 << 23;
    uint32_t tries = base ? 1 : 200, at = base ? base : 20000 + (uint32_t)getpid() % 300 * 64;
    memset(&a, 0, sizeof a);
    if (setsockopt(s, SOL_SOCKET, SO_RCVBUFFORCE, &room, sizeof room) != 0)
        setsockopt(s, SOL_SOCKET, SO_RCVBUF, &room, sizeof room);
    for (; tries > 0; tries--, at = 20000 + (at - 20000 + 64) % 19200) {
        a.sin_family = AF_INET, a.sin_port = htons((uint16_t)(at + DRIVER_PORT)), a.sin_addr.s_addr = htonl(INADDR_LOOPBACK);
        base = at;
        if (bind(s, (struct sockaddr *)&a, sizeof a) == 0)
            return s;
    }
    return -1;
}

static void clean_up(void) {
    char name[600];
    for (uint32_t i = 0; i < NUMBERS; i++)
        end_process(i);
    for (uint32_t run = attack.run > 2 ? attack.run - 2 : 0; run <= attack.run; run++) {
        snprintf(name, sizeof name, "%s/run%u", folder, run);
        unlink(name);
    }
    rmdir(folder);
}

static void stopped(int signal_number) {
    clean_up();
    _exit(128 + signal_number);
}

static int verdict(double took) {
    int enough = ends_checked >= (ends_wanted ? ends_wanted : 1);
    uint64_t average = ends_checked + ends_unchecked;
    printf("%u heads, f = %u, %u listeners%s; %u runs in %.0f s, rounds of %.1f ms at last. ", n, f, m, once ? ", one round a phase" : "", attack.run,
           took, (double)length / 1e6);
    printf("Strikes: %llu (%llu kill -9, %llu liars, %llu cut off, %llu asleep); %llu times a device was late of itself.\n",
           (unsigned long long)strikes, (unsigned long long)strikes_by[KILL], (unsigned long long)strikes_by[LIE],
           (unsigned long long)strikes_by[DROP], (unsigned long long)strikes_by[DOZE], (unsigned long long)late_alone);
    printf("Packets refused: %llu damaged, %llu of another run, %llu doubled, %llu of another round or wrong otherwise. Least time left at an end: "
           "%d us.\n", (unsigned long long)bad, (unsigned long long)other_run, (unsigned long long)doubled, (unsigned long long)refused,
           least_left == INT32_MAX ? 0 : least_left);
    printf("Rounds with more than f marked: %llu. Rings lost: %llu. Phase ends not checked for that: %llu of %llu.\n", (unsigned long long)overloads,
           (unsigned long long)lost_rings, (unsigned long long)ends_unchecked, (unsigned long long)average);
    if (*broken) {
        printf("break %s: %s\n", broken, failures > 0 ? "noticed" : "NOT NOTICED");
        return failures > 0;
    }
    if (cut > 0 && lost_rings == 0)
        printf("a power cut, and the ring was not lost: "), enough = 0;
    printf("%llu phase ends checked, %llu pairs of ends, %llu quiet ones: %llu failures%s\n", (unsigned long long)ends_checked,
           (unsigned long long)pairs, (unsigned long long)quiet_ends, (unsigned long long)failures, enough ? "" : ", but TOO LITTLE was checked");
    return failures > 0 || !enough;
}

int main(int count, char **word) {
    uint64_t first, stop;
    char name[600], *slash;
    for (int i = 1; i < count; i++)
        if (strcmp(word[i], "--help") == 0 || strcmp(word[i], "-h") == 0)
            return fputs(help, stdout) == EOF;
    int refused_words = take_words(count, word);
    if (refused_words != 0)
        return refused_words;
    snprintf(device_path, sizeof device_path, "%s", word[0]);
    slash = strrchr(device_path, '/');
    snprintf(slash ? slash + 1 : device_path, 20, "%s", "ring_device");
    if (access(device_path, X_OK) != 0)
        return wrong("no such program (host/rig/ring builds it)", device_path);
    if ((sock = open_driver()) < 0)
        return wrong("no free ports: name others with --port", "");
    if (mkdtemp(folder) == NULL)
        return wrong("cannot make a folder in /tmp", "");
    signal(SIGINT, stopped), signal(SIGTERM, stopped), signal(SIGHUP, stopped);
    setvbuf(stdout, NULL, _IOLBF, 0);
    chance = mixed(seed, 99);
    length = (round_ms ? round_ms : program_count ? 240 : 60) * UINT64_C(1000000);
    most = most > f ? f : most;
    if (breaks("more"))
        most = 2 * f + 2 < n ? 2 * f + 2 : n - 1;
    rounds = phases * (once ? 1 : 2);
    first = now();
    stop = first + UINT64_C(1000000000) * (*broken ? 120 : ends_wanted ? 120 : seconds);
    for (uint32_t run = 1;; run++) {
        uint64_t overloads_before = overloads;
        attack = (struct attack){seed, run, n, f, m, most};
        one_run();
        snprintf(name, sizeof name, "%s/run%u", folder, run - 1);
        unlink(name);
        if (failures > 0 || (cut > 0 && run >= 2 && lost_rings > 0))
            break;
        if (*broken || ends_wanted ? now() >= stop || (ends_wanted && ends_checked >= ends_wanted) : seconds ? now() >= stop : run >= runs)
            break;
        if (round_ms == 0 && overloads > overloads_before && length < 2000000000u)
            length = length / 2 * 3 / 8 * 8;
    }
    clean_up();
    return verdict((double)(now() - first) / 1e9);
}
