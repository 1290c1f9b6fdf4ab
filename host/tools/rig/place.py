"""Where a record stands: what the start and round records before it have fixed, and whether a player takes it there."""
import functools

from rig import wire

LAST_PHASE = 65535
LIMIT = 1000000
LENGTHS = {wire.POSITION: 11, wire.SILENCE: 7, wire.LIST: None, wire.CONFESSION: 7}    # of frames; of a list by its count


class Place:
    def __init__(self):
        self.begun = False
        self.phase_rounds = 2        # how many rounds a phase has: 1 in a one-round ring
        self.n = self.f = 0
        self.listeners = 0           # how many
        self.rounds = 0              # round records so far
        self.phase = 1               # the phase of the last of them
        self.collecting = False      # whether it is one in which positions are sent, and the first of its phase
        self.struck = 0              # marks of the last of them, those of its listeners from bit 32 on
        self.before = 0              # and of the one before it
        self.unstruck = []           # the heads and listeners that are not struck in it
        self.pair = (-1, -1)         # the last pair planted in it
        self.last = None             # the kind of the last record

    @property
    def inside(self):
        return self.rounds % self.phase_rounds != 0

    @property
    def round_name(self):
        if self.phase_rounds == 1:
            return 'phase %d' % self.phase
        return 'phase %d, %s' % (self.phase, 'collection' if self.collecting else 'confession')

    def place_round(self):
        self.phase = max(1, -(-self.rounds // self.phase_rounds))
        self.collecting = self.phase_rounds == 1 or self.rounds % 2 == 1

    def healed(self):
        return wire.heads_in(self.before & ~self.struck)

    def follow(self, record):
        """Goes past one whole record, taken or not."""
        self.last = kind = wire.kind_of(record)
        if kind == wire.PLANT:
            if len(record) >= 6:
                self.pair = (record[4], record[5])
            return
        if kind in (wire.START, wire.START_ONE) and len(record) >= 6:
            self.begun, self.n, self.f = True, record[4], record[5]
            self.phase_rounds = 1 if kind == wire.START_ONE else 2
            self.place_round()
        elif kind == wire.LISTENERS and len(record) == 5:
            self.listeners = min(record[4], wire.MOST_LISTENERS)
        elif kind == wire.STRIKE and len(record) == 6:
            self.struck = self.struck % 2 ** 32 + (wire.half(record, 4) << wire.FIRST_LISTENER)
        elif kind == wire.ROUND and len(record) == 8:
            self.rounds += 1
            self.place_round()
            self.before, self.struck = self.struck, wire.word(record, 4)
            self.pair = (-1, -1)
        self.unstruck = unstruck(self.n, self.listeners, self.struck)

    def is_number(self, number):
        """Of a head or a listener."""
        return number < self.n or wire.FIRST_LISTENER <= number < wire.FIRST_LISTENER + self.listeners


@functools.lru_cache(maxsize=1024)
def unstruck(n, listeners, struck):
    """The heads and listeners without a mark."""
    numbers = [*range(n), *range(wire.FIRST_LISTENER, wire.FIRST_LISTENER + listeners)]
    return [number for number in numbers if not wire.marked(struck, number)]


def fault(place, record):
    """None, or the number with which a player refuses the record, and why. Up to here it has refused none."""
    judge = JUDGES.get(wire.kind_of(record))
    return judge(place, record) if judge else (13, 'unknown kind: %04x' % wire.kind_of(record))


def start_fault(place, record):
    if place.begun:
        return 13, 'a second start'
    if len(record) < 6 or len(record) != 6 + 4 * record[4]:
        return 13, 'wrong length: a start of n heads has 6 + 4n bytes'
    n, f = record[4], record[5]
    if not 1 <= n <= 32:
        return 1, 'head count: %d is not 1 to 32' % n
    if wire.kind_of(record) == wire.START_ONE and n < 4 * f + 1:
        return 18, 'struck limit too high for a one-round ring: n is %d, and 4f + 1 is %d' % (n, 4 * f + 1)
    if wire.kind_of(record) == wire.START and 2 * n < 7 * f + 2:
        return 2, 'struck limit too high: 2n is %d, and 7f + 2 is %d' % (2 * n, 7 * f + 2)
    for head, position in enumerate(wire.signed(record, 6, n)):
        if abs(position) > LIMIT:
            return 4, 'position out of range: head %d at %d' % (head, position)
    return None


def round_fault(place, record):
    if not place.begun:
        return 13, 'a round before the start'
    if len(record) != 8:
        return 13, 'wrong length: a round has 8 bytes'
    heads = wire.heads_in(wire.word(record, 4))
    if any(head >= place.n for head in heads):
        return 14, 'a mark at %d or above' % place.n
    if len(heads) > place.f:
        return 14, 'more than %d struck' % place.f
    if place.rounds >= place.phase_rounds * LAST_PHASE:
        return 26, 'phase 65535 has had its rounds'
    return None


def listeners_fault(place, record):
    if place.last not in (wire.START, wire.START_ONE):
        return 13, 'listeners not just after the start'
    if len(record) != 5:
        return 13, 'wrong length: the listeners have 5 bytes'
    if not 1 <= record[4] <= wire.MOST_LISTENERS:
        return 13, 'listeners are 1 to 16'
    return None


def strike_fault(place, record):
    if place.last != wire.ROUND:
        return 13, 'struck listeners not directly after a round'
    if len(record) != 6:
        return 13, 'wrong length: struck listeners have 6 bytes'
    if wire.half(record, 4) >> place.listeners:
        return 13, 'no such listener'
    return None


def plant_fault(place, record):
    if place.rounds == 0:
        return 13, 'planted before a round'
    if not 6 <= len(record) <= 146:
        return 13, 'wrong length: 0 to 140 bytes can be planted'
    sender, receiver = record[4], record[5]
    if sender >= wire.FIRST_LISTENER and place.is_number(sender):
        return 13, 'a listener sends nothing'
    if sender >= place.n or not place.is_number(receiver):
        return 13, 'no such head' if sender >= place.n or not place.listeners else 'no such head or listener'
    if not wire.marked(place.struck, sender):
        return 13, 'the sender is not struck'
    if wire.marked(place.struck, receiver):
        return 13, 'the receiver is struck'
    if (sender, receiver) <= place.pair:
        return 13, 'pairs must rise by sender, then receiver'
    return None


JUDGES = {wire.START: start_fault, wire.START_ONE: start_fault, wire.LISTENERS: listeners_fault, wire.ROUND: round_fault,
          wire.STRIKE: strike_fault, wire.PLANT: plant_fault}


def end_fault(place, rest):
    """The same for the end of the file, with the bytes that are left if its last record is not whole."""
    if len(rest) >= 4 and wire.half(rest, 0) < 4:
        return 13, 'wrong length: a record has at least 4 bytes'
    if rest:
        return 13, 'cut short: %d bytes of a record' % len(rest)
    if not place.begun:
        return 13, 'the file ends before a start'
    if place.inside:
        return 13, 'the file ends inside a phase'
    return None


def frame_fault(place, link, frame):
    """None, or the number with which a receiver refuses a frame planted here on the link, and why. The link then gives nothing."""
    if len(frame) < 4:
        return 6, 'fewer than 4 bytes'
    if wire.half(frame, 0) != len(frame):
        return 6, 'length field differs from the bytes'
    kind = wire.kind_of(frame)
    if kind not in LENGTHS:
        return 7, 'unknown kind'
    if len(frame) != (LENGTHS[kind] or (12 + 4 * frame[7] if len(frame) > 7 else 0)):
        return 8, 'length wrong for its kind and count' if kind == wire.LIST else 'length wrong for its kind'
    if (kind in (wire.POSITION, wire.SILENCE)) != place.collecting:
        return 22, 'frame of the other round' if place.phase_rounds == 2 else 'a one-round ring has no such frame'
    if frame[4] != link:
        return 9, 'sender is not the link'
    if wire.half(frame, 5) != place.phase:
        return 23, 'frame of another phase'
    if kind == wire.POSITION and abs(wire.signed(frame, 7, 1)[0]) > LIMIT:
        return 11, 'out of range'
    return list_fault(place, frame) if kind == wire.LIST else None


def list_fault(place, frame):
    marks = wire.word(frame, 8)
    if frame[7] != place.n:
        return 10, 'list count is not %d' % place.n
    if any(head >= place.n for head in wire.heads_in(marks)):
        return 10, 'a mark at %d or above' % place.n
    entries = wire.signed(frame, 12, place.n)
    if marks + 1 == 1 << place.n and -LIMIT <= min(entries) and max(entries) <= LIMIT:
        return None                  # a position everywhere, and each in range
    for head, value in enumerate(entries):
        if wire.marked(marks, head) and abs(value) > LIMIT:
            return 11, 'entry %d out of range' % head
        if not wire.marked(marks, head) and value != 0:
            return 11, 'entry %d is not 0 where null' % head
    return None
