/* What rig.h declares. Each function has its duties and promises there; comments here say why a step is where it is. */
#include "rig.h"

/* Where a device is in a round: waiting for the next one to begin; in it; it has ended, or is sat out, and is to be reported. */
enum { WAITING, OPEN, DONE };

/* ---- bytes */

static void put4(uint8_t *at, uint32_t word) {
    for (int i = 0; i < 4; i++)
        at[i] = (uint8_t)(word >> 8 * i);
}

static uint32_t get4(const uint8_t *at) {
    return at[0] | (uint32_t)at[1] << 8 | (uint32_t)at[2] << 16 | (uint32_t)at[3] << 24;
}

static void copy(uint8_t *to, const uint8_t *from, uint32_t count) {
    for (uint32_t i = 0; i < count; i++)
        to[i] = from[i];
}

static uint32_t bits(uint32_t word) {
    uint32_t count = 0;
    for (; word != 0; word &= word - 1)
        count++;
    return count;
}

/* ---- packets */

/* A nibble at a time: 64 bytes of table, which a small processor has room for. */
uint32_t rig_crc(uint32_t sum, const uint8_t *bytes, uint32_t count) {
    static const uint32_t table[16] = {0x00000000, 0x1db71064, 0x3b6e20c8, 0x26d930ac, 0x76dc4190, 0x6b6b51f4, 0x4db26158, 0x5005713c,
                                       0xedb88320, 0xf00f9344, 0xd6d6a3e8, 0xcb61b38c, 0x9b64c2b0, 0x86d3d2d4, 0xa00ae278, 0xbdbdf21c};
    sum = ~sum;
    for (uint32_t i = 0; i < count; i++) {
        sum = table[(sum ^ bytes[i]) & 15] ^ sum >> 4;
        sum = table[(sum ^ bytes[i] >> 4) & 15] ^ sum >> 4;
    }
    return ~sum;
}

/* The sum of a packet without its last four bytes, after the three numbers of the ring. */
static uint32_t sum_of(const rig_plan *plan, const uint8_t *packet, uint32_t count) {
    uint8_t ring[3];
    ring[0] = (uint8_t)plan->n, ring[1] = (uint8_t)plan->f, ring[2] = plan->once;
    return rig_crc(rig_crc(0, ring, 3), packet, count);
}

uint32_t rig_pack(const rig_plan *plan, const uint8_t *frame, uint32_t length, uint8_t packet[RIG_PACKET_MAX]) {
    length = length > FOCUS_FRAME_MAX ? FOCUS_FRAME_MAX : length;
    put4(packet, plan->run);
    copy(packet + RIG_FRONT, frame, length);
    put4(packet + RIG_FRONT + length, sum_of(plan, packet, RIG_FRONT + length));
    return RIG_FRONT + length + RIG_BACK;
}

uint8_t rig_unpack(const rig_plan *plan, const uint8_t *packet, uint32_t size) {
    if (size < RIG_PACKET_MIN || size > RIG_PACKET_MAX)
        return RIG_BAD_SIZE;
    if (get4(packet + size - RIG_BACK) != sum_of(plan, packet, size - RIG_BACK))
        return RIG_BAD_SUM;
    return get4(packet) == plan->run ? 0 : RIG_OTHER_RUN;
}

/* ---- the clock */

uint64_t rig_time(const rig_plan *plan, uint64_t round, enum rig_eighth eighth) {
    return plan->begin + round * plan->length + plan->length / 8 * (uint64_t)eighth;
}

uint64_t rig_rounds(const rig_plan *plan) {
    return plan->once ? FOCUS_PHASES_MAX : 2 * FOCUS_PHASES_MAX;
}

uint32_t rig_phase(const rig_plan *plan, uint64_t round) {
    return (uint32_t)(plan->once ? round : round / 2) + 1;
}

uint32_t rig_part(const rig_plan *plan, uint64_t round) {
    return plan->once ? 0 : (uint32_t)(round & 1);
}

int rig_is_last(const rig_plan *plan, uint64_t round) {
    return plan->once || (round & 1);
}

/* The round that a time is in, from the first on. */
static uint64_t round_at(const rig_plan *plan, uint64_t now) {
    return now < plan->begin ? 0 : (now - plan->begin) / plan->length;
}

/* The round that a frame is of; focus_head_hear has said that it is a whole one, of another phase or round. */
static uint64_t round_of(const rig_plan *plan, const uint8_t *frame) {
    uint64_t phase = frame[FOCUS_FRAME_PHASE] | (uint64_t)frame[FOCUS_FRAME_PHASE + 1] << 8;
    if (plan->once)
        return phase - 1;
    return 2 * (phase - 1) + (frame[FOCUS_FRAME_KIND] >= FOCUS_FRAME_LIST);
}

/* All times of the run must be numbers, and an eighth of a round a whole number of ticks. */
static int is_plan(const rig_plan *plan) {
    return plan->length >= 8 && plan->length % 8 == 0 && plan->length <= (UINT64_MAX - plan->begin) / (rig_rounds(plan) + 1) &&
           plan->once <= 1 && (plan->copies == 1 || plan->copies == 2);
}

/* ---- a device */

static int is_head(const rig_device *d) {
    return d->number < FOCUS_LISTENER_FIRST;
}

static uint64_t clock_of(const rig_device *d) {
    return d->host->now(d->host->its);
}

static uint64_t due(const rig_device *d, enum rig_eighth eighth) {
    return rig_time(d->plan, d->round, eighth);
}

static uint8_t start(const rig_device *d) {
    const rig_plan *p = d->plan;
    if (is_head(d))
        return (p->once ? focus_one_round_start : focus_head_start)(d->block, p->n, p->f, d->number, d->position);
    return (p->once ? focus_one_round_listener_start : focus_listener_start)(d->block, p->n, p->f, d->number);
}

static uint8_t restart(const rig_device *d, uint64_t round) {
    const rig_plan *p = d->plan;
    uint32_t phase = rig_phase(p, round), part = rig_part(p, round);
    if (is_head(d))
        return (p->once ? focus_one_round_restart : focus_head_restart)(d->block, p->n, p->f, d->number, phase, part);
    return (p->once ? focus_one_round_listener_restart : focus_listener_restart)(d->block, p->n, p->f, d->number, phase, part);
}

static uint8_t made(rig_device *d, const rig_host *host, const rig_plan *plan, focus_head *block, uint32_t number, uint8_t mask) {
    static const rig_device none;
    *d = none;
    d->host = host, d->plan = plan, d->block = block, d->number = number, d->mask = mask;
    return is_plan(plan) ? FOCUS_OK : RIG_BAD_PLAN;
}

uint8_t rig_start(rig_device *d, const rig_host *host, const rig_plan *plan, focus_head *block, uint32_t number, uint8_t mask,
                  int32_t position) {
    uint8_t refusal = made(d, host, plan, block, number, mask);
    d->position = position;
    if (refusal == FOCUS_OK)
        refusal = start(d);
    if (refusal == FOCUS_OK) /* a start has cleared the mask */
        focus_head_window_reset(block, mask);
    return refusal;
}

uint8_t rig_rejoin(rig_device *d, const rig_host *host, const rig_plan *plan, focus_head *block, uint32_t number, uint8_t mask) {
    uint8_t refusal = made(d, host, plan, block, number, mask);
    if (refusal != FOCUS_OK)
        return refusal;
    d->owed = 1;
    d->round = round_at(plan, clock_of(d)) + 1;
    return restart(d, 1); /* shows now what the restart at the opening would refuse; that one has the right round */
}

void rig_mark(rig_device *d, enum rig_why why) {
    d->owed = 1;
    if (d->state == OPEN)
        d->report.marks |= (uint8_t)why;
}

static void note(rig_device *d, uint8_t refusal) {
    if (refusal == FOCUS_OK)
        return;
    if (d->report.refusal == FOCUS_OK)
        d->report.refusal = refusal;
    rig_mark(d, RIG_REFUSED);
}

/* A report with nothing in it, except for the count that goes on from phase to phase. */
static void clear_report(rig_device *d) {
    static const rig_report none;
    uint8_t too_few = d->report.too_few;
    d->report = none;
    d->report.round = d->round, d->report.phase = rig_phase(d->plan, d->round), d->report.part = rig_part(d->plan, d->round);
    d->report.too_few = too_few;
}

/* The restart stands before all else in a round, so that nothing is written or heard by what a strike has left. In the first round
 * there is nothing to go back to: the device is started again. */
static void restart_owed(rig_device *d) {
    focus_head_window_reset(d->block, d->mask);
    if (d->round == 0) {
        note(d, start(d));
        focus_head_window_reset(d->block, d->mask);
    } else {
        note(d, restart(d, d->round));
        d->report.restarted = 1;
    }
}

/* A head hears itself here, so that no driver can forget it. */
static void write_frame(rig_device *d) {
    uint8_t frame[FOCUS_FRAME_MAX];
    uint64_t length = 0; /* size_t or focus_size in focus.h: 64 bits either way */
    note(d, focus_head_write(d->block, frame, sizeof frame, &length));
    if (length == 0)
        return;
    d->size = rig_pack(d->plan, frame, (uint32_t)length, d->packet);
    if (focus_head_hear(d->block, d->number, frame, length) == FOCUS_OK)
        d->report.heard |= UINT32_C(1) << d->number;
}

static void open_round(rig_device *d) {
    int owed;
    clear_report(d);
    d->state = OPEN;
    d->size = 0, d->copies = 0, d->went = 0;
    owed = d->host->struck(d->host->its) != 0 || d->owed;
    d->owed = 0;
    if (owed)
        restart_owed(d);
    if (is_head(d))
        write_frame(d);
    if (d->kept) {
        d->kept = 0;
        (void)rig_hear(d, d->kept_link, d->kept_packet, d->kept_size);
    }
}

/* Counts the phases in a row that ended with refusal 25; one that the device did not close says nothing. */
static void count_too_few(rig_device *d, uint8_t refusal) {
    if (refusal == FOCUS_OK)
        d->report.too_few = 0;
    else if (refusal == FOCUS_TOO_FEW_TRUSTED && d->report.too_few < 255)
        d->report.too_few++;
}

/* Ends the round. The clock is read after the last call: what counts is when the device had ended. */
static void end_round(rig_device *d) {
    uint8_t refusal = focus_head_close(d->block);
    if (rig_is_last(d->plan, d->round)) {
        if (refusal == FOCUS_OK)
            refusal = focus_head_adopt(d->block);
        count_too_few(d, refusal);
    }
    note(d, refusal);
    if (is_head(d) && !d->went)
        rig_mark(d, RIG_LOST);
    if (d->host->struck(d->host->its))
        rig_mark(d, RIG_STRUCK);
    if (clock_of(d) >= due(d, RIG_END_AT))
        rig_mark(d, RIG_LATE);
    d->state = DONE;
}

/* The round begins for this device, or is over before it was there: then it is late, and stays away from the cable until the next one. */
static enum rig_do begin_round(rig_device *d, uint64_t now) {
    uint64_t current = round_at(d->plan, now);
    if (current > d->round) {
        d->round = current;
        d->owed = 1;
        d->kept = 0;
    }
    if (d->round >= rig_rounds(d->plan))
        return RIG_OVER;
    if (now < due(d, RIG_SENT_BY)) {
        open_round(d);
        return rig_step(d);
    }
    clear_report(d);
    d->kept = 0;
    d->report.marks = RIG_LATE;
    d->owed = 1;
    d->state = DONE;
    return rig_step(d);
}

/* In a round. The next copy, if it is due and can still be in time; otherwise packets, until the next thing is due. */
static enum rig_do go_on(rig_device *d, uint64_t now) {
    if (now >= due(d, RIG_LAST_AT)) {
        end_round(d);
        return rig_step(d);
    }
    if (d->size > 0 && d->copies < d->plan->copies && now < due(d, RIG_SENT_BY)) {
        uint64_t next = due(d, d->copies == 0 ? RIG_OPEN_AT : RIG_AGAIN_AT);
        d->wake = next;
        return now >= next ? RIG_SEND : RIG_LISTEN;
    }
    d->wake = due(d, RIG_CLOSE_AT);
    return RIG_LISTEN;
}

enum rig_do rig_step(rig_device *d) {
    uint64_t now = clock_of(d);
    if (d->state == DONE) {
        d->state = WAITING;
        d->round++;
        return RIG_ENDED;
    }
    if (d->state == OPEN)
        return go_on(d, now);
    if (d->round >= rig_rounds(d->plan))
        return RIG_OVER;
    if (now >= due(d, RIG_OPEN_AT))
        return begin_round(d, now);
    d->wake = due(d, RIG_OPEN_AT);
    return RIG_SLEEP;
}

void rig_sent(rig_device *d, int failed) {
    if (d->state != OPEN)
        return;
    d->copies++;
    if (failed)
        return;
    if (clock_of(d) < due(d, RIG_SENT_BY))
        d->went = 1;
    else if (!d->went)
        rig_mark(d, RIG_LATE);
}

uint8_t rig_hear(rig_device *d, uint32_t link, const uint8_t *packet, uint32_t size) {
    uint8_t answer = d->state == OPEN ? rig_unpack(d->plan, packet, size) : (uint8_t)RIG_NOT_OPEN;
    rig_report *r = &d->report;
    const uint8_t *frame = packet + RIG_FRONT;
    if (answer == RIG_NOT_OPEN)
        return answer;
    if (answer == FOCUS_OK)
        answer = focus_head_hear(d->block, link, frame, size - RIG_FRONT - RIG_BACK);
    r->bad += answer == RIG_BAD_SIZE || answer == RIG_BAD_SUM;
    r->other_run += answer == RIG_OTHER_RUN;
    r->doubled += answer == FOCUS_ALREADY_HEARD;
    r->refused += answer != FOCUS_OK && answer < RIG_BAD_SIZE && answer != FOCUS_ALREADY_HEARD;
    if (answer == FOCUS_OK)
        r->heard |= UINT32_C(1) << link;
    if ((answer == FOCUS_ALREADY_HEARD || answer == FOCUS_OTHER_ROUND || answer == FOCUS_OTHER_PHASE) && link < 32 &&
        frame[FOCUS_FRAME_SENDER] == link) {
        uint64_t round = round_of(d->plan, frame);
        r->behind |= (uint32_t)(round < d->round) << link;
        /* Between rig_step and here the last eighth may have begun, and with it what the others send in the next round. One packet at most
         * is taken so: the next rig_step closes. */
        if (round == d->round + 1 && clock_of(d) >= due(d, RIG_LAST_AT)) {
            copy(d->kept_packet, packet, size);
            d->kept = 1, d->kept_size = size, d->kept_link = link;
        } else {
            r->ahead |= (uint32_t)(round > d->round) << link;
        }
    }
    return answer;
}

void rig_none(rig_device *d) {
    if (d->state == OPEN && clock_of(d) >= due(d, RIG_CLOSE_AT))
        end_round(d);
}

int rig_round(rig_device *d) {
    uint8_t packet[RIG_PACKET_MAX];
    for (;;) {
        uint32_t link = UINT32_MAX, size;
        switch (rig_step(d)) {
        case RIG_SLEEP:
            /* a host that cannot sleep comes back at once, with a packet or without one: it may not take any now */
            while (clock_of(d) < d->wake)
                d->host->sleep(d->host->its, d->wake);
            break;
        case RIG_SEND: rig_sent(d, d->host->send(d->host->its, d->packet, d->size)); break;
        case RIG_LISTEN:
            size = d->host->receive(d->host->its, d->wake, &link, packet, sizeof packet);
            if (size > 0)
                (void)rig_hear(d, link, packet, size);
            else
                rig_none(d);
            break;
        case RIG_ENDED: return 0;
        default: return RIG_OVER;
        }
    }
}

/* ---- the ring */

int rig_watch(rig_ring *ring, const rig_plan *plan, uint32_t heads) {
    ring->phases = bits(heads) + plan->f >= plan->n ? ring->phases + 1 : 0;
    return ring->phases >= 2;
}
