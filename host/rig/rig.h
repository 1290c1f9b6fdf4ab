/* From one head to a ring: what a device on a cable owes besides the calls of focus.h (docs/TRUST.md, "What the integrator owes").
 *
 * focus.h has the head. This layer has what stands between a head and a cable: packets, the clock, restarts, lateness and losses. It is
 * C99, allocates nothing, keeps nothing outside the structures that you lend it, and needs no operating system. It calls focus.h and
 * memcpy or memset of your C library, and nothing else. It is tested (host/rig/test.c, host/rig/ring_udp.c), not proved. docs/RIG.md is
 * the page to read first.
 *
 * What you write
 *
 *   a clock     now        ticks of a clock that all devices share, within an eighth of a round (see rig_plan)
 *               sleep      waits for a time, and leaves the cable alone meanwhile
 *   a driver    send       one packet to every head and every listener
 *               receive    the next packet that waits, and the link that it came on
 *   a detector  struck     whether this device was struck since you were asked last
 *
 * What you call
 *
 *   a device    begin      rig_start, before the run; rig_rejoin after a reboot in the middle of a run
 *               a round    rig_round, which returns when the round is over and says how it went
 *               or, if you may not wait in a call: rig_step, rig_sent, rig_hear, rig_none
 *               trouble    rig_mark, when you notice something that the layer cannot see
 *   the ring    lost       rig_watch, for whoever hears of all heads
 *   packets     alone      rig_pack, rig_unpack, rig_crc
 *
 * Which duty of docs/TRUST.md is met where
 *
 *   Size, One ring                  rig_start (a bad plan is refused), rig_pack (a device with another n, f or family is not heard)
 *   Rounds in step                  rig_step, by the clock; rig_report.ahead shows a clock that is wrong
 *   Restarts, After a strike        rig_step, at each opening; rig_rejoin
 *   Delivery, Too early, Too late   rig_step and rig_none (when packets are taken), rig_hear (one that came early is kept)
 *   Not heard                       rig_step: a head hears itself there, without the cable
 *   Losses count                    rig_sent: the sender blames itself; a receiver never does
 *   The end of a round, late        rig_none and rig_step
 *   The end                         rig_step answers RIG_OVER after phase 65,535
 *   Another run, Damage             rig_unpack: the number of the run and the check sum
 *   After a power cut               rig_watch
 *
 * What it cannot do
 *
 *   - Notice a strike while it lasts, or that one is over: `struck` is yours (a watchdog, a brown-out flag, a memory check, a reset cause).
 *   - Keep the limit f. It shows who was marked in each round; that at most f heads are is a matter of your machine.
 *   - Make links true. The number of a link must come from the wire: a socket, a port, a slot, a pin; never from the bytes.
 *   - Keep its own memory from a strike. The plan belongs where a strike does not reach, as in read-only memory. A device that does not
 *     know whether its memory is whole reboots and calls rig_rejoin.
 *   - Stop somebody who forges packets. The check sum is against noise (see rig_crc), not against a person with a keyboard.
 *
 * One thing is kept on purpose: nothing that comes on the cable makes a device count itself as marked, and so restart. More than f liars
 * in one round are forgotten (docs/THEOREM.md, 15) unless the others throw their positions away because of them. */
#ifndef RIG_H
#define RIG_H

#include <focus.h>

#ifdef __cplusplus
extern "C" {
#endif

/* ---- packets: four bytes with the number of the run, the frame, and four bytes of check sum; lowest byte first. */
#define RIG_FRONT 4
#define RIG_BACK 4
#define RIG_PACKET_MIN (RIG_FRONT + 7 + RIG_BACK)
#define RIG_PACKET_MAX (RIG_FRONT + FOCUS_FRAME_MAX + RIG_BACK)

/* Why a packet or a plan is not taken. The numbers of focus.h go up to 27; these are above them. */
enum rig_refusal {
    RIG_BAD_SIZE = 40,  /* shorter than any packet, or longer */
    RIG_BAD_SUM = 41,   /* damaged, or from a device that has another n, f or family */
    RIG_OTHER_RUN = 42, /* of another run */
    RIG_NOT_OPEN = 43,  /* no round is open: nothing may be taken from the cable */
    RIG_BAD_PLAN = 44   /* the plan cannot be kept: see rig_plan */
};

/* What all devices of a ring share, word for word. A device must have it again after a strike.
 *
 * Round r of the run takes the ticks from begin + r * length on. `length` is a multiple of 8, at least 8. For each device, the
 * difference of its clock to any other one, and the time that a packet travels, must together be at most length / 8. So there is
 * always time in the order of the figure (docs/RIG.md):
 *
 *   eighths     0        1        2        3        4        5        6        7        8
 *               |open    |        |        |        |sent by |        |close   |last    |end
 *               |send    |        |again   |        |        |        |        |        |
 *               |- - - - - - - - hear all that comes - - - - - - - - - - - - - |
 *
 * `run` must not be the number of a run whose packets may still be on the cable: count up, from a number that survives a power cut, or
 * take the time of day. After 2^32 - 1 comes 0. `copies` is how often a head sends its frame in a round, 1 or 2: a second copy makes a
 * loss rarer, and is refused (21) where the first one came. */
typedef struct rig_plan {
    uint64_t begin, length;
    uint32_t run, n, f;
    uint8_t once; /* 1 if each round is a phase (a one-round ring), otherwise 0 */
    uint8_t copies;
} rig_plan;

/* The eighths of a round at which something is due. */
enum rig_eighth { RIG_OPEN_AT = 0, RIG_AGAIN_AT = 2, RIG_SENT_BY = 4, RIG_CLOSE_AT = 6, RIG_LAST_AT = 7, RIG_END_AT = 8 };

/* CRC-32 of IEEE 802.3, going on from `sum`; begin with 0. It notices every damage of up to 4 bits in a packet, and every burst of up to
 * 32. Of packets that are noise it takes one in 2^32, and one in 2^64 where the number of the run is noise too. It is no signature. */
uint32_t rig_crc(uint32_t sum, const uint8_t *bytes, uint32_t count);

/* Puts a frame of up to FOCUS_FRAME_MAX bytes in a packet: its size. The sum is also over n, f and family, which are not sent.
 * Duties: Another run, Damage, One ring. */
uint32_t rig_pack(const rig_plan *plan, const uint8_t *frame, uint32_t length, uint8_t packet[RIG_PACKET_MAX]);

/* 0, and then the frame is packet[RIG_FRONT] to packet[size - RIG_BACK - 1]; or RIG_BAD_SIZE, RIG_BAD_SUM, RIG_OTHER_RUN, in this order:
 * treat the packet as if it had not come. Any bytes are taken. Duties: Another run, Damage, One ring. */
FOCUS_MUST_USE uint8_t rig_unpack(const rig_plan *plan, const uint8_t *packet, uint32_t size);

/* ---- the clock */

/* When an eighth of a round begins. */
uint64_t rig_time(const rig_plan *plan, uint64_t round, enum rig_eighth eighth);

/* How many rounds a run has: 65,535 phases. */
uint64_t rig_rounds(const rig_plan *plan);

/* The phase, from 1, and the round in it, 0 or 1, of a round that is counted from 0: what a restart is told. Duty: Restarts. */
uint32_t rig_phase(const rig_plan *plan, uint64_t round);
uint32_t rig_part(const rig_plan *plan, uint64_t round);

/* Whether a phase ends with the round. */
int rig_is_last(const rig_plan *plan, uint64_t round);

/* ---- a device */

/* What the host gives. `its` is handed back to each of the five. A host that goes step by step needs `now` and `struck` alone. */
typedef struct rig_host {
    void *its;
    /* The time, in ticks. It never goes back. */
    uint64_t (*now)(void *its);
    /* Waits until a time, or less long. What comes on the cable meanwhile must stay there. */
    void (*sleep)(void *its, uint64_t until);
    /* Sends a packet to all n heads and all listeners; the head itself may be left out. 0 if it went out to all of them; anything else
     * if the driver knows of one that it did not reach, such as a bus error or a full queue. */
    int (*send)(void *its, const uint8_t *packet, uint32_t size);
    /* The next packet that waits, however late it is: its size, and in *link the number of the head that the wire says it came from (n or
     * more for one of no head). If none waits, it waits for one until the time given, and returns 0 if that is over. If a packet is
     * longer than `room`, return room + 1 or more. Between two calls packets wait in the driver: it needs room for those of two rounds. */
    uint32_t (*receive)(void *its, uint64_t until, uint32_t *link, uint8_t *packet, uint32_t room);
    /* Whether the device was struck since this was asked last: asked when a round is opened, and when it ends. */
    int (*struck)(void *its);
} rig_host;

/* Why a device counts as marked in a round; added up. Whoever is marked is restarted at the next opening. */
enum rig_why {
    RIG_STRUCK = 1,  /* `struck` said so */
    RIG_LATE = 2,    /* opened, sent or ended too late: by its own clock */
    RIG_LOST = 4,    /* its frame did not go out, as `send` said, or rig_mark was told of something that did not come in */
    RIG_REFUSED = 8  /* a call that ends the round was refused: rig_report.refusal */
};

/* How a round went. */
typedef struct rig_report {
    uint64_t round;       /* counted from 0 */
    uint32_t phase, part; /* the same as phase and round of focus.h */
    uint8_t marks;        /* of enum rig_why: 0 if the device has ended the round, in time */
    uint8_t refusal;      /* 0, or the first number that a start, restart, write, closing or adoption answered */
    uint8_t restarted;    /* 1 if the round began with a restart */
    uint8_t too_few;      /* in how many phases in a row, up to 255, the last closing of this device was refused 25 (too few trusted) */
    uint32_t heard;       /* bit k: a frame was accepted on link k */
    uint32_t ahead;       /* bit k: link k gave a whole frame of a later round. If more than f did, this clock is behind: one of them is right */
    uint32_t behind;      /* bit k: a whole frame of an earlier round. Old packets are no sign of anything */
    uint32_t bad;         /* packets of a wrong size or sum */
    uint32_t other_run;   /* packets of another run */
    uint32_t doubled;     /* frames of a link that was heard before: refused 21 */
    uint32_t refused;     /* frames that were refused for something else */
} rig_report;

/* A device. Read `report`; leave the rest to the calls. */
typedef struct rig_device {
    const rig_host *host;
    const rig_plan *plan;
    focus_head *block;
    uint32_t number;
    int32_t position;  /* that it was started with */
    uint64_t round;    /* that is open, or is opened next */
    uint64_t wake;     /* after rig_step: until when to sleep, or to wait for a packet */
    rig_report report; /* of the round that is open, or ended last */
    uint8_t mask;      /* of the register window, set again after a strike */
    uint8_t state, owed, copies, went, kept;
    uint32_t size, kept_size, kept_link;
    uint8_t packet[RIG_PACKET_MAX]; /* what RIG_SEND asks to be sent: `size` bytes */
    uint8_t kept_packet[RIG_PACKET_MAX];
} rig_device;

/* Starts head or listener `number` for a run, before plan->begin: 0, or RIG_BAD_PLAN, or what the start in focus.h refuses (1 head count,
 * 2 or 18 struck limit, 3 number, 4 position). A listener's position is not looked at. `mask` is that of the register window, 0 if you do
 * not use it. The block may hold anything before. What is lent must stay. Duties: Size, One ring. */
FOCUS_MUST_USE uint8_t rig_start(rig_device *d, const rig_host *host, const rig_plan *plan, focus_head *block, uint32_t number, uint8_t mask,
                                 int32_t position);

/* After a reboot in the middle of a run: the device takes part from the next whole round on, and begins it with a restart. Never in the
 * first round: who reboots before that starts again. 0, RIG_BAD_PLAN, or 1, 2, 3, 18. Duty: Restarts. */
FOCUS_MUST_USE uint8_t rig_rejoin(rig_device *d, const rig_host *host, const rig_plan *plan, focus_head *block, uint32_t number,
                                  uint8_t mask);

/* Plays one round with all five functions of the host, and returns when it is over: 0, or RIG_OVER if the run is. d->report says how it
 * went. A round that the device slept through is left out, and the next one begins with a restart. */
FOCUS_MUST_USE int rig_round(rig_device *d);

/* ---- the same, step by step, for a host that may not wait: it calls rig_step again and again, and does what it answers. */
enum rig_do {
    RIG_SLEEP = 1,  /* nothing until d->wake. Leave what comes on the cable where it is: taken now, it would be lost */
    RIG_SEND = 2,   /* send d->packet, then call rig_sent */
    RIG_LISTEN = 3, /* take the next packet that waits, and call rig_hear; if none waits by d->wake, call rig_none */
    RIG_ENDED = 4,  /* the round is over: d->report says how */
    RIG_OVER = 5    /* phase 65,535 has ended: start a new run */
};

/* Does what the time asks, and says what the host does next. When a round begins: asks whether the device was struck; restarts it if it
 * was marked in the round before (the register window first), with phase and round by the clock; writes its frame, and has it hear itself.
 * A device that is not there by the middle of a round is late, and sits it out. One that has not closed by the last eighth closes, even
 * if packets still wait: nobody can keep it busy past the end. One that has not ended when the next round begins is late.
 * Duties: Rounds in step, Restarts, After a strike, Not heard, Delivery, The end of a round, The end. */
FOCUS_MUST_USE enum rig_do rig_step(rig_device *d);

/* The packet that RIG_SEND asked for was sent; `failed` is what `send` returned. If no copy went out before the middle of the round, the
 * device counts as marked: the loss is the sender's. Duty: Losses count. */
void rig_sent(rig_device *d, int failed);

/* Hears a packet that the wire says came on a link. 0 if its frame is accepted, or why not: RIG_NOT_OPEN, those of rig_unpack, or a
 * refusal of focus_head_hear. No answer is an error: a struck head may send anything. A packet that was taken in the last moment of a
 * round, and is of the next one, is kept and heard there. Duties: Delivery (the link), Another run, Damage, Too early. */
uint8_t rig_hear(rig_device *d, uint32_t link, const uint8_t *packet, uint32_t size);

/* No packet waits. From the close on this ends the round: it is closed, and at a phase end adopted; then the clock is read, and who is not in
 * time is late. Before that it does nothing. Duties: Delivery, The end of a round. */
void rig_none(rig_device *d);

/* Counts the device as marked in the round that is open, or if none is, in the one before the next: it is restarted at the next opening.
 * For what the host notices: RIG_STRUCK; RIG_LOST if the receiver lost packets, as by an overrun. Duties: Losses count, Restarts. */
void rig_mark(rig_device *d, enum rig_why why);

/* ---- the ring */

/* For whoever hears of all heads (docs/THEOREM.md, 13 and 14). Begin with all 0. */
typedef struct rig_ring {
    uint32_t phases;
} rig_ring;

/* Once at each phase end: bit k of `heads` is set if head k says that its last closing was refused 25 (too few trusted). 1 if the ring is
 * lost: at least n - f heads said so in two phases in a row. (At most f may say anything.) Then start every device anew, with positions and
 * the next run number. Restarts do not bring it back: who has no position gets one from the others, and they have none.
 *
 * Until the new run has begun, assume nothing: no head's position is within the range of those before the loss, since f liars may be the only
 * ones who name one. Leave the lenses where they are. What was read at the last phase end before the first 25 is the last that is promised.
 * One phase alone proves nothing: more than f strikes in it, and it is forgotten. Duty: After a power cut. */
FOCUS_MUST_USE int rig_watch(rig_ring *ring, const rig_plan *plan, uint32_t heads);

#ifdef __cplusplus
}
#endif

#endif
