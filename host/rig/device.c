/* One head or listener as a process on UDP of 127.0.0.1: what an integrator writes around rig.h. ring_udp starts it; nobody else does.
 *
 * Its driver is `send_all` and `receive`, its clock `now`, its strike detector `struck`. The rest plays the cable and the strikes: a cable
 * that loses, doubles, damages and cuts packets, and brings old ones; and what ring_udp breaks on purpose.
 *
 * Words, in order: n f m once copies run begin length rounds number position rejoin base seed most folder broken. */
#define _GNU_SOURCE
#include "chaos.h"
#include <arpa/inet.h>
#include <fcntl.h>
#include <poll.h>
#include <signal.h>
#include <stdio.h>
#include <stdlib.h>
#include <sys/prctl.h>
#include <sys/socket.h>
#include <time.h>
#include <unistd.h>

static rig_plan plan;
static rig_device device;
static focus_head block;
static struct attack attack;
static int socket_of, before, after; /* the files with the packets of the run before, and of this one */
static uint32_t base;
static int64_t skew;
static uint64_t chance;
static uint8_t kinds[NUMBERS]; /* of the round */
static uint64_t kinds_round = UINT64_MAX;
static uint8_t stale[RIG_PACKET_MAX]; /* of the round before */
static uint32_t stale_size;
static int lied; /* it was struck and lied, and nobody has asked yet */
static const char *broken;

static int breaks(const char *what) {
    return strcmp(broken, what) == 0;
}

static enum kind kind_in(uint64_t round) {
    if (round != kinds_round)
        strikes_of(&attack, round, kinds), kinds_round = round;
    return (enum kind)kinds[device.number];
}

static void noise(void) {
    for (int i = 0; i < 1116; i++)
        block.opaque[i] = drawn(&chance, 3) ? drawn(&chance, UINT32_MAX) : drawn(&chance, 40);
}

/* ---- the clock, and the detector */
static uint64_t now(void *its) {
    struct timespec t;
    (void)its;
    clock_gettime(CLOCK_MONOTONIC, &t);
    return (uint64_t)((int64_t)t.tv_sec * 1000000000 + t.tv_nsec + skew);
}

static void sleep_until(void *its, uint64_t until) {
    uint64_t t = now(its);
    struct timespec left = {(time_t)((until - t) / 1000000000u), (long)((until - t) % 1000000000u)};
    if (t < until)
        nanosleep(&left, NULL);
}

/* A strike leaves noise in the block. That it was one is noticed when the round ends. */
static int struck(void *its) {
    int answer = lied;
    (void)its;
    if (lied)
        noise();
    lied = 0;
    return answer;
}

/* ---- the driver */
static struct sockaddr_in address(uint32_t number) {
    struct sockaddr_in a;
    memset(&a, 0, sizeof a);
    a.sin_family = AF_INET, a.sin_port = htons((uint16_t)(base + number)), a.sin_addr.s_addr = htonl(INADDR_LOOPBACK);
    return a;
}

static int send_to(uint32_t number, const uint8_t *bytes, uint32_t size) {
    struct sockaddr_in a = address(number);
    return sendto(socket_of, bytes, size, 0, (struct sockaddr *)&a, sizeof a) == (ssize_t)size ? 0 : 1;
}

static uint32_t receive(void *its, uint64_t until, uint32_t *link, uint8_t *packet, uint32_t room) {
    if (kind_in(device.round) == DOZE && device.copies >= (device.number < 32 ? plan.copies : 0)) {
        uint64_t end = rig_time(&plan, device.round, RIG_END_AT) + plan.length / 32;
        while (now(its) < end)
            sleep_until(its, end);
    }
    for (;;) {
        struct sockaddr_in a;
        socklen_t size = sizeof a;
        ssize_t got = recvfrom(socket_of, packet, room, MSG_DONTWAIT | MSG_TRUNC, (struct sockaddr *)&a, &size);
        uint64_t t = now(its);
        if (got > 0) {
            *link = (uint32_t)ntohs(a.sin_port) - base;
            if (breaks("crc") && got >= RIG_PACKET_MIN && got <= RIG_PACKET_MAX) { /* a sum that is always right */
                rig_plan any = plan;
                any.run = get4(packet);
                rig_pack(&any, packet + RIG_FRONT, (uint32_t)got - RIG_FRONT - RIG_BACK, packet);
            }
            return (uint32_t)got;
        }
        if (t >= until)
            return 0;
        struct pollfd p = {socket_of, POLLIN, 0};
        struct timespec left = {(time_t)((until - t) / 1000000000u), (long)((until - t) % 1000000000u)};
        ppoll(&p, 1, &left, NULL);
    }
}

/* ---- the cable */

/* a frame that this head could send in this round, but did not think of */
static uint32_t some_frame(uint8_t *at) {
    uint32_t phase = rig_phase(&plan, device.round), part = rig_part(&plan, device.round), length = 7;
    uint32_t kind = part == 0 ? 1 + (drawn(&chance, 4) == 0) : 3 + (drawn(&chance, 4) == 0);
    if (kind == FOCUS_FRAME_POSITION)
        put4(at + 7, drawn(&chance, 2000001) - 1000000), length = 11;
    if (kind == FOCUS_FRAME_LIST) {
        at[7] = (uint8_t)plan.n;
        put4(at + 8, plan.n == 32 ? UINT32_MAX : (UINT32_C(1) << plan.n) - 1);
        for (uint32_t j = 0; j < plan.n; j++)
            put4(at + 12 + 4 * j, drawn(&chance, 2000001) - 1000000);
        length = 12 + 4 * plan.n;
    }
    at[0] = (uint8_t)length, at[1] = 0, at[2] = (uint8_t)kind, at[3] = 0, at[4] = (uint8_t)device.number;
    at[5] = (uint8_t)phase, at[6] = (uint8_t)(phase >> 8);
    return length;
}

/* what a struck head says to one neighbour: a lie, nothing, or the truth */
static void lie_to(uint32_t to, const uint8_t *packet, uint32_t size) {
    uint8_t frame[FOCUS_FRAME_MAX], lie[RIG_PACKET_MAX];
    if (drawn(&chance, 6) == 0)
        return;
    if (drawn(&chance, 6) > 0)
        size = rig_pack(&plan, frame, some_frame(frame), lie), packet = lie;
    send_to(to, packet, size);
}

static void damaged_to(uint32_t to, const uint8_t *packet, uint32_t size) {
    uint8_t bad[RIG_PACKET_MAX];
    memcpy(bad, packet, size);
    if (drawn(&chance, 8) == 0) { /* cut */
        size = 1 + drawn(&chance, size - 1);
    } else if (drawn(&chance, 8) == 0) { /* nothing but noise */
        for (uint32_t i = 0; i < size; i++)
            bad[i] = (uint8_t)drawn(&chance, 256);
    } else { /* a few bits, in the numbers that the frame carries if it has some */
        uint32_t from = size > RIG_PACKET_MIN ? RIG_FRONT + 7 : 0, to_byte = size > RIG_PACKET_MIN ? size - RIG_BACK : size;
        for (uint32_t i = 1 + drawn(&chance, 3); i > 0; i--)
            bad[from + drawn(&chance, to_byte - from)] ^= (uint8_t)(1u << drawn(&chance, 8));
    }
    send_to(to, bad, size);
}

/* Old packets of this link: the one of the same phase and round of the run before, as it was on the cable; and that of the round before. */
static void old_to(uint32_t to) {
    uint8_t slot[SLOT_BYTES];
    if (drawn(&chance, 2) && pread(before, slot, SLOT_BYTES, (off_t)((device.round * 32 + device.number) * SLOT_BYTES)) == SLOT_BYTES &&
        slot[0] >= RIG_PACKET_MIN && slot[0] <= RIG_PACKET_MAX)
        send_to(to, slot + 1, slot[0]);
    if (stale_size > 0 && drawn(&chance, 4) == 0)
        send_to(to, stale, stale_size);
}

/* Sends to all. Every neighbour gets one whole copy at least: the other is lost or damaged, or both come, or one comes twice. */
static int send_all(void *its, const uint8_t *packet, uint32_t size) {
    uint32_t all = plan.n + attack.m, from = drawn(&chance, all);
    enum kind kind = kind_in(device.round);
    int failed = 0;
    (void)its;
    if (device.copies == 0) {
        uint8_t slot[SLOT_BYTES] = {(uint8_t)size};
        memcpy(slot + 1, packet, size);
        if (pwrite(after, slot, SLOT_BYTES, (off_t)((device.round * 32 + device.number) * SLOT_BYTES)) != SLOT_BYTES)
            stale_size = 0;
    }
    for (uint32_t j = 0; j < all; j++) {
        uint32_t to = (j + from) % all;
        uint64_t s = mixed(mixed(attack.seed, device.round), device.number * 64 + to);
        uint32_t whole = plan.copies == 1 ? 0 : drawn(&s, 4); /* 2: only the first copy is whole; 3: only the second */
        to = to < plan.n ? to : 32 + to - plan.n;
        if (to == device.number) /* it hears itself without the cable */
            continue;
        if (kind == LIE) {
            lied = 1;
            lie_to(to, packet, size);
            continue;
        }
        if (kind == DROP && drawn(&s, 3) > 0) {
            failed = 1;
            continue;
        }
        if (device.copies == 0)
            old_to(to);
        if (drawn(&chance, 4) == 0)
            damaged_to(to, packet, size);
        if (whole == (device.copies == 0 ? 3 : 2)) {
            if (drawn(&chance, 2) == 0)
                damaged_to(to, packet, size);
            continue;
        }
        failed |= send_to(to, packet, size);
        if (drawn(&chance, 4) == 0)
            send_to(to, packet, size);
    }
    if (kind == DROP)
        failed = 1;
    if (device.copies == 0)
        memcpy(stale, packet, size), stale_size = size;
    return failed;
}

/* ---- what it says to ring_udp after a round */
static void report(void) {
    const rig_report *r = &device.report;
    struct said x = {plan.run, device.number, (uint32_t)r->round, r->heard, r->ahead, r->behind, r->bad, r->other_run, r->doubled, r->refused,
                     kind_in(r->round), r->marks, r->refusal, r->restarted, r->too_few, 0, 0, focus_head_since(&block), 0, 0, 0, 0};
    uint8_t bytes[REPORT_BYTES];
    focus_kept kept = {0, 0, 0, 0};
    x.run = attack.run;
    x.held = focus_head_has_position(&block, &x.position);
    x.has_kept = focus_head_has_kept(&block, &kept);
    x.lowest = kept.lowest, x.highest = kept.highest;
    x.left = (int32_t)((int64_t)(rig_time(&plan, r->round, RIG_END_AT) - now(NULL)) / 1000);
    said_bytes(&x, bytes, 1);
    send_to(DRIVER_PORT, bytes, sizeof bytes);
}

static int open_port(uint32_t number) {
    struct sockaddr_in a = address(number);
    int s = socket(AF_INET, SOCK_DGRAM, 0), room = 1 << 22, tries = 0;
    if (setsockopt(s, SOL_SOCKET, SO_RCVBUFFORCE, &room, sizeof room) != 0)
        setsockopt(s, SOL_SOCKET, SO_RCVBUF, &room, sizeof room);
    while (bind(s, (struct sockaddr *)&a, sizeof a) != 0) { /* the process before it may hold it for a moment */
        struct timespec moment = {0, 1000000};
        if (++tries > 1000)
            exit(4);
        nanosleep(&moment, NULL);
    }
    return s;
}

static int open_slots(const char *folder, uint32_t run) {
    char name[512];
    snprintf(name, sizeof name, "%s/run%u", folder, run);
    return open(name, O_RDWR | O_CREAT, 0600);
}

int main(int count, char **word) {
    static rig_host host = {NULL, now, sleep_until, send_all, receive, struck};
    uint64_t x[15], rounds;
    int rejoin;
    if (count != 18) {
        fprintf(stderr, "ring_device: a part of ring_udp, which starts it: see host/rig/ring --help\n");
        return 2;
    }
    prctl(PR_SET_PDEATHSIG, SIGKILL);
    for (int i = 0; i < 15; i++)
        x[i] = strtoull(word[i + 1], NULL, 10);
    broken = word[17], base = (uint32_t)x[12], rejoin = (int)x[11], rounds = x[8];
    attack = (struct attack){x[13], (uint32_t)x[5], (uint32_t)x[0], (uint32_t)x[1], (uint32_t)x[2], (uint32_t)x[14]};
    plan = (rig_plan){x[6], x[7], breaks("run") ? 1 : attack.run, attack.n, attack.f, (uint8_t)x[3], (uint8_t)x[4]};
    device.number = (uint32_t)x[9];
    chance = mixed(mixed(attack.seed, attack.run), device.number + 100 * (uint64_t)getpid());
    /* each clock is off by up to a sixteenth of a round; if that is broken, by up to one and a half rounds */
    skew = (int64_t)(mixed(attack.seed, 77 + device.number) % (plan.length / 8)) - (int64_t)(plan.length / 16);
    if (breaks("clocks"))
        skew = (int64_t)(device.number % 3 * (plan.length / 4 * 3));
    socket_of = open_port(device.number);
    before = open_slots(word[16], attack.run - 1), after = open_slots(word[16], attack.run);
    noise();
    if ((rejoin ? rig_rejoin(&device, &host, &plan, &block, (uint32_t)x[9], FOCUS_EVENT_TOO_FEW)
                : rig_start(&device, &host, &plan, &block, (uint32_t)x[9], FOCUS_EVENT_TOO_FEW, (int32_t)(int64_t)x[10])) != FOCUS_OK)
        return 5;
    if (breaks("restart") && rejoin)
        noise(), device.owed = 0;
    while (rig_round(&device) == 0 && device.report.round < rounds) {
        report();
        if (breaks("restart"))
            device.owed = 0;
        if (device.round >= rounds)
            break;
    }
    return 0;
}
