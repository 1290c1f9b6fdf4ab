"""The words of the text form, each read and written: numbers, heads, bytes in hexadecimal, and what a frame says."""
import itertools
import re
import struct

from rig import wire

FEW = 8
FIXED = {(wire.POSITION, 11), (wire.SILENCE, 7), (wire.CONFESSION, 7)}    # kinds with their sizes
FRONT = struct.Struct('<HHBH')       # length, kind, sender and phase
NUMBER = re.compile('-?[0-9]+')
PAIRS = re.compile('([0-9a-fA-F]{2})+')


class TextError(Exception):
    """What is wrong with a text; the line is named by whoever reads lines."""


# ---- numbers, heads, bytes

def number(word, low, high, what):
    if not NUMBER.fullmatch(word):
        raise TextError('%s: a number is wanted, not "%s"' % (what, word))
    if len(word) > 12 or not low <= int(word) <= high:
        raise TextError('%s: %s is not from %d to %d' % (what, word, low, high))
    return int(word)


def signed(word, what):
    return number(word, -2 ** 31, 2 ** 31 - 1, what)


def hexadecimal(word, digits, what):
    if not re.fullmatch('[0-9a-fA-F]{%d}' % digits, word):
        raise TextError('%s: %d hexadecimal digits are wanted, not "%s"' % (what, digits, word))
    return int(word, 16)


def read_heads(words, most, what, whom='heads', least=0):
    """Numbers and ranges, in the order given: `1 4-6` is 1 4 5 6."""
    if not words:
        raise TextError('%s: which %s?' % (what, whom))
    heads = []
    for word in words:
        first, dash, last = word.partition('-')
        low = number(first, least, most, what)
        high = number(last, low, most, what) if dash else low
        heads.extend(range(low, high + 1))
    return heads


def write_heads(heads):
    if len(heads) == 1:
        return str(heads[0])
    return ' '.join('%d-%d' % (run[0], run[-1]) if len(run) > 2 else ' '.join(map(str, run)) for run in neighbours(heads))


def neighbours(heads):
    """The heads in runs in which each is the one before it and one more."""
    runs = []
    for head in heads:
        if runs and head == runs[-1][-1] + 1:
            runs[-1].append(head)
        else:
            runs.append([head])
    return runs


def unfolded(words):
    """Each word `7*3` as three words `7`."""
    for word in words:
        value, star, times = word.partition('*')
        yield from [value] * (number(times, 1, 255, 'times') if star else 1)


def folded(words):
    """The other way, if there are more than FEW words and one stands four times or more in a row."""
    if len(words) <= FEW:
        yield from words
        return
    for value, run in itertools.groupby(words):
        times = len(list(run))
        yield from ['%s*%d' % (value, times)] if times >= 4 else [value] * times


def read_bytes(words, what):
    for word in words:
        if not PAIRS.fullmatch(word):
            raise TextError('%s: bytes are pairs of hexadecimal digits, not "%s"' % (what, word))
    if not words:
        raise TextError('%s: which bytes?' % what)
    return bytes.fromhex(''.join(words))


def write_bytes(data):
    return data.hex(' ')


# ---- frames

CHANGES = {
    'length': lambda word: number(word, 0, 65535, 'length'),
    'kind': lambda word: hexadecimal(word, 4, 'kind'),
    'sender': lambda word: number(word, 0, 255, 'sender'),
    'phase': lambda word: number(word, 0, 65535, 'phase'),
    'count': lambda word: number(word, 0, 255, 'count'),
    'marks': lambda word: hexadecimal(word, 8, 'marks'),
}


def read_frame(words, sender, phase):
    """The bytes of a frame that is said in words and sent on the sender's link in that phase."""
    if not words:
        raise TextError('which frame? position, silence, list, confession, bytes or nothing')
    if words[0] in ('bytes', 'nothing'):
        return read_plain(words)
    said, changes = split_changes(words)
    fields = {'sender': sender, 'phase': phase, 'rest': b''}
    fields.update(read_said(said))
    unknown = [name for name in changes if name in ('count', 'marks') and name not in fields]
    if unknown:
        raise TextError('%s: only a list has it' % unknown[0])
    fields.update(changes)
    return frame_bytes(fields)


def read_plain(words):
    if words[0] == 'bytes':
        return read_bytes(words[1:], 'bytes')
    if len(words) > 1:
        raise TextError('nothing: no word may follow, but "%s" does' % words[1])
    return b''


def split_changes(words):
    """What is said, and the fields that `with` makes different."""
    if 'with' not in words:
        return words, {}
    at = words.index('with')
    changes, rest = {}, words[at + 1:]
    if not rest or len(rest) % 2:
        raise TextError('with: a field and its value are wanted, as in "with phase 9"')
    for name, value in zip(rest[::2], rest[1::2]):
        if name not in CHANGES:
            raise TextError('with: a field is %s, not "%s"' % (', '.join(CHANGES), name))
        if name in changes:
            raise TextError('with: %s stands twice' % name)
        changes[name] = CHANGES[name](value)
    return words[:at], changes


def read_said(words):
    name, rest = words[0], words[1:]
    if name == 'position':
        if len(rest) != 1:
            raise TextError('position: one number is wanted')
        return {'kind': wire.POSITION, 'rest': wire.signed_bytes([signed(rest[0], 'position')])}
    if name == 'list':
        return read_list(rest)
    kinds = {'silence': wire.SILENCE, 'confession': wire.CONFESSION}
    if name not in kinds:
        raise TextError('a frame is position, silence, list, confession, bytes or nothing, not "%s"' % name)
    if rest:
        raise TextError('%s: no word may follow but "with", not "%s"' % (name, rest[0]))
    return {'kind': kinds[name]}


def read_list(words):
    words = list(unfolded(words))
    known = [word not in ('-', 'null') for word in words]
    entries = [signed(word, 'entry') if is_known else 0 for word, is_known in zip(words, known)]
    if len(entries) > 255:
        raise TextError('list: %d entries are more than 255' % len(entries))
    marks = wire.marks_of(head for head, is_known in enumerate(known) if is_known)
    return {'kind': wire.LIST, 'count': len(entries), 'marks': marks, 'rest': wire.signed_bytes(entries)}


def frame_bytes(fields):
    if fields['phase'] > 65535:
        raise TextError('phase %d does not fit in a frame; say another, as in "with phase 9"' % fields['phase'])
    rest = fields['rest']
    if 'count' in fields:
        rest = struct.pack('<BI', fields['count'], fields['marks']) + rest
    length = fields.get('length', 7 + len(rest))
    return FRONT.pack(length, fields['kind'], fields['sender'], fields['phase']) + rest


def write_frame(frame, sender, phase):
    """Words that read_frame takes back to these bytes."""
    if not frame:
        return 'nothing'
    kind = layout(frame, sender) if len(frame) >= 7 else None
    if kind is None:
        return 'bytes ' + write_bytes(frame)
    changes = header_changes(frame, kind, sender, phase) + (list_changes(frame) if kind == wire.LIST else [])
    return ' '.join([write_said(frame, kind), 'with', *changes]) if changes else write_said(frame, kind)


def layout(frame, sender):
    """The kind as which a frame can be said: its own, or for a frame that is right but for its kind, another. Or None."""
    kind, size = wire.kind_of(frame), len(frame)
    if (kind, size) in FIXED:
        return kind
    is_list = size in range(12, 12 + 4 * 256, 4)
    if kind == wire.LIST and is_list:
        return kind
    if wire.half(frame, 0) != size or frame[4] != sender:
        return None
    if is_list and frame[7] == (size - 12) // 4:
        return wire.LIST
    return {11: wire.POSITION, 7: wire.SILENCE}.get(size)


def write_said(frame, kind):
    if kind == wire.POSITION:
        return 'position %d' % wire.signed(frame, 7, 1)[0]
    if kind == wire.LIST:
        shown = [str(value) if is_shown else '-' for value, is_shown in shown_entries(frame)]
        return ' '.join(['list', *folded(shown)])
    return 'silence' if kind == wire.SILENCE else 'confession'


def shown_entries(frame):
    """Each entry, and whether it is shown as a number: if it is marked or not 0."""
    marks = wire.word(frame, 8)
    entries = wire.signed(frame, 12, (len(frame) - 12) // 4)
    return [(value, value != 0 or marks >> head & 1 == 1) for head, value in enumerate(entries)]


def header_changes(frame, kind, sender, phase):
    """The fields that differ from those of a well-formed frame here."""
    if frame[:7] == FRONT.pack(len(frame), kind, sender, phase % 65536) and phase < 65536:
        return []
    fields = [
        ('length %d', wire.half(frame, 0), len(frame)),
        ('kind %04x', wire.kind_of(frame), kind),
        ('sender %d', frame[4], sender),
        ('phase %d', wire.half(frame, 5), phase),
    ]
    return [shown % value for shown, value, usual in fields if value != usual]


def list_changes(frame):
    size, changes = (len(frame) - 12) // 4, []
    if frame[7] == size <= 32 and wire.word(frame, 8) + 1 == 1 << size:
        return changes               # every entry is marked, and so shown
    shown = [is_shown for _, is_shown in shown_entries(frame)]
    if frame[7] != len(shown):
        changes.append('count %d' % frame[7])
    if wire.word(frame, 8) != wire.marks_of(head for head, is_shown in enumerate(shown) if is_shown):
        changes.append('marks %08x' % wire.word(frame, 8))
    return changes
