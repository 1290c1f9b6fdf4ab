"""The text form of a run file: a line for each record, or for the like frames that one head sends to several."""
from rig import place as places
from rig import wire
from rig.words import (TextError, folded, number, read_bytes, read_frame, read_heads, signed, unfolded, write_bytes, write_frame,
                       write_heads)

NOTES_AT = 40
MOST_REPEATS = 65536


# ---- text to bytes

def pack(text):
    """The run file that the text says. A TextError begins with the line's number."""
    place, out = places.Place(), []
    for at, words in unrolled(numbered(text)):
        data = located(at, read_line, words, place)
        for record in wire.split(data)[0]:
            place.follow(record)
        out.append(data)
    return b''.join(out)


def located(at, read, *arguments):
    """What `read` gives, or its TextError with the line's number in front."""
    try:
        return read(*arguments)
    except TextError as error:
        raise TextError('%d: %s' % (at, error)) from None


def numbered(text):
    """The lines that say something, as words, with their numbers; a colon is a word of its own."""
    for at, line in enumerate(text.split('\n'), 1):
        words = line.partition('#')[0].replace(':', ' : ').split()
        if words:
            yield at, words


def unrolled(lines):
    """The lines in the order in which they count: those between `repeat N` and `end` N times."""
    block = None                     # the lines of the repeat that is open
    for at, words in lines:
        if words[0] == 'repeat':
            if block is not None:
                raise TextError('%d: a repeat inside the one of line %d' % (at, opened))
            block, opened, times = [], at, located(at, read_times, words[1:])
        elif words[0] == 'end':
            if block is None or len(words) > 1:
                raise TextError('%d: end stands alone, and after a repeat' % at)
            for _ in range(times):
                yield from block
            block = None
        elif block is not None:
            block.append((at, words))
        else:
            yield at, words
    if block is not None:
        raise TextError('%d: repeat without end' % opened)


def read_times(words):
    if len(words) != 1:
        raise TextError('repeat: one number is wanted')
    return number(words[0], 1, MOST_REPEATS, 'repeat')


def read_line(words, place):
    readers = {'start': read_start, 'listeners': read_listeners, 'round': read_round, 'strike': read_strike, 'plant': read_plant,
               'record': read_record}
    if words[0] not in readers:
        raise TextError('a line begins with %s, repeat or end, not "%s"' % (', '.join(readers), words[0]))
    return readers[words[0]](words[1:], place)


def read_start(words, place):
    kind = wire.START
    if words[:1] == ['one-round']:
        kind, words = wire.START_ONE, words[1:]
    if len(words) < 3 or words[2] != ':':
        raise TextError('start: head count, struck limit, a colon and the positions are wanted, as in "start 2 0: 10 20"')
    n, f = number(words[0], 0, 255, 'head count'), number(words[1], 0, 255, 'struck limit')
    positions = [signed(word, 'position') for word in unfolded(words[3:])]
    if len(positions) != n:
        raise TextError('start: %d heads, but %d positions' % (n, len(positions)))
    return wire.record(kind, bytes([n, f]) + wire.signed_bytes(positions))


def read_round(words, place):
    if words and words[0] != 'struck':
        raise TextError('round: only "struck" and heads may follow, not "%s"' % words[0])
    heads = read_heads(words[1:], 31, 'struck') if words else []
    return wire.record(wire.ROUND, wire.marks_of(heads).to_bytes(4, 'little'))


def read_listeners(words, place):
    if len(words) != 1:
        raise TextError('listeners: one number is wanted')
    return wire.record(wire.LISTENERS, bytes([number(words[0], 0, 255, 'listeners')]))


def read_strike(words, place):
    first = wire.FIRST_LISTENER
    listeners = [] if words == ['none'] else read_heads(words, first + wire.MOST_LISTENERS - 1, 'strike', 'listeners', first)
    return wire.record(wire.STRIKE, wire.listener_marks_of(listeners).to_bytes(2, 'little'))


def read_plant(words, place):
    if len(words) < 4 or words[1] != 'to' or ':' not in words:
        raise TextError('plant: a sender, "to", receivers, a colon and a frame are wanted, as in "plant 4 to 0: silence"')
    colon = words.index(':')
    sender = number(words[0], 0, 255, 'sender')
    frame = read_frame(words[colon + 1:], sender, place.phase)
    if len(frame) > 65529:
        raise TextError('plant: %d bytes do not fit in a record' % len(frame))
    receivers = read_receivers(words[2:colon], place)
    return b''.join(wire.record(wire.PLANT, bytes([sender, receiver]) + frame) for receiver in receivers)


def read_receivers(words, place):
    if words != ['all']:
        return read_heads(words, 255, 'receiver')
    if not place.begun or not place.unstruck:
        raise TextError('all: no start before this line says how many heads there are')
    return place.unstruck


def read_record(words, place):
    return read_bytes(words, 'record')


# ---- bytes to text

class Line:
    """A line in the making. A planted one has receivers, and `unstruck`, the heads and listeners that `all` would stand for."""

    __slots__ = ('words', 'note', 'receivers', 'unstruck', 'frame', 'opens')

    def __init__(self, words, note, receivers=(), unstruck=(), frame='', opens=False):
        self.words, self.note, self.receivers, self.unstruck, self.frame = words, note, receivers, unstruck, frame
        self.opens = opens           # a phase, so that a blank line stands before it

    def is_like(self, other):
        """Whether both are planted and differ in the receivers alone."""
        return self.frame and self.frame == other.frame and self.words == other.words and self.note == other.note

    def text(self):
        words = self.words
        if self.frame:
            everyone = len(self.receivers) > 1 and self.receivers == self.unstruck
            words = '%s %s: %s' % (words, 'all' if everyone else write_heads(self.receivers), self.frame)
        if self.note:
            words = ('%-*s  # %s' % (NOTES_AT - 2, words, self.note)) if words else '# ' + self.note
        return '\n' + words + '\n' if self.opens else words + '\n'


def unpack(data):
    """A text that packs to these bytes, whatever they are. Its notes say what a player makes of each record, up to the first fault."""
    return ''.join(line.text() for line in joined(unpacked(data)))


def unpacked(data):
    """A line for each record."""
    place, fault = places.Place(), None
    records, rest = wire.split(data)
    for record, following in zip(records, records[1:] + [b'']):
        unread = fault is not None
        fault = fault or places.fault(place, record)
        place.follow(record)
        note = '' if unread else refusal(fault) if fault else usual_note(record, place, following)
        yield write_line(record, place, note)
    last = None if fault else places.end_fault(place, rest)
    if rest or last:
        yield Line('record ' + write_bytes(rest) if rest else '', refusal(last) if last else '')


def joined(lines):
    """The lines, those that are alike but for the receivers in one."""
    last = None
    for line in lines:
        if last is not None and line.is_like(last):
            last.receivers += line.receivers
        else:
            if last is not None:
                yield last
            last = line
    if last is not None:
        yield last


def refusal(fault):
    return 'refused %d: %s' % fault


def usual_note(record, place, following):
    """Which listeners are healed in a round is known at the record of its struck ones, if that follows."""
    kind = wire.kind_of(record)
    if kind == wire.PLANT:
        fault = places.frame_fault(place, record[4], record[6:])
        return 'gives nothing: %d, %s' % fault if fault else ''
    healed = place.healed()
    if kind == wire.ROUND:
        told_next = following and wire.kind_of(following) == wire.STRIKE
        healed = write_heads([number for number in healed if number < wire.FIRST_LISTENER or not told_next])
        return place.round_name + ('; healed: ' + healed if healed else '')
    if kind == wire.STRIKE:
        healed = write_heads([number for number in healed if number >= wire.FIRST_LISTENER])
        return 'healed: ' + healed if healed else ''
    return ''


def write_line(record, place, note):
    kind, size = wire.kind_of(record), len(record)
    if kind == wire.PLANT and size >= 6:                 # most records are
        frame = write_frame(record[6:], record[4], place.phase)
        return Line('plant %d to' % record[4], note, [record[5]], place.unstruck, frame)
    if kind in (wire.START, wire.START_ONE) and size >= 6 and size == 6 + 4 * record[4]:
        return Line(write_start(record), note)
    if kind == wire.ROUND and size == 8:
        heads = write_heads(wire.heads_in(wire.word(record, 4)))
        return Line('round struck ' + heads if heads else 'round', note, opens=place.collecting)
    if kind == wire.LISTENERS and size == 5:
        return Line('listeners %d' % record[4], note)
    if kind == wire.STRIKE and size == 6:
        listeners = write_heads(wire.heads_in(wire.half(record, 4) << wire.FIRST_LISTENER))
        return Line('strike ' + (listeners or 'none'), note)
    return Line('record ' + write_bytes(record), note)


def write_start(record):
    positions = [str(value) for value in wire.signed(record, 6, record[4])]
    words = 'start one-round' if wire.kind_of(record) == wire.START_ONE else 'start'
    return ' '.join(['%s %d %d:' % (words, record[4], record[5]), *folded(positions)])
