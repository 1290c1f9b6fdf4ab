"""What `play` prints of a trace: as text, a table for each phase end, or as JSON."""
import json

from rig import trace as traces
from rig.terminal import left, right, table
from rig.words import write_bytes, write_frame, write_heads

ROUNDS = {1: ['the round'], 2: ['collection', 'confession']}
MOST_BYTES = 24


# ---- in words

def plural(count, word):
    return '%d %s%s' % (count, word, '' if count == 1 else 's')


def ring_words(ring):
    words = '%s, at most %d struck, %s a phase' % (plural(ring.n, 'head'), ring.f, 'one round' if ring.rounds == 1 else 'two rounds')
    return words + (', ' + plural(ring.listeners, 'listener') if ring.listeners else '')


def bound_words(ring):
    if ring.rounds == 1:
        return 'the spread halves with every phase, as in every one-round ring'
    sums = '3n is %d and 11f + 3 is %d' % (3 * ring.n, 11 * ring.f + 3)
    return ('the spread halves with every phase: ' if traces.halves(ring) else 'halving is not promised: ') + sums


def fault_words(ended, found):
    """Where and why a file is refused, in a few lines."""
    shown = write_bytes(found.data[:MOST_BYTES]) + (' ..' if len(found.data) > MOST_BYTES else '')
    yield 'refused %d: %s' % (ended.number, ended.words)
    yield '  record %d, at byte %d, %s: %s' % (ended.record, ended.offset, found.where, found.says)
    if found.data and not found.says.startswith('record '):
        yield '  its bytes: ' + shown
    if found.why:
        yield '  the rule: ' + found.why


def null_words(null, ring):
    words = {'confessed': 'confessed', 'unlisted': 'in no list', 'silence': 'silence', 'nothing': 'nothing heard'}
    if null.why == 'support':
        return '%d has %d of %d' % (null.numbers[1], null.numbers[0], ring.n - ring.f)
    if null.why == 'two':
        return '%d and %d each have %d' % (*null.numbers, ring.n - ring.f)
    return words[null.why]


def nulls_words(nulls, ring):
    """The entries that are not trusted, those with the same reason together."""
    reasons = {}
    for null in nulls:
        reasons.setdefault(null_words(null, ring), []).append(null.entry)
    return '; '.join('%s: %s' % (write_heads(entries), why) for why, entries in reasons.items())


def reading_words(reading):
    return ' '.join([reading.kind, *(('%.1f' % value).removesuffix('.0') for value in reading.floats)])


def planted_words(planted, phase, refusals):
    said = write_frame(planted.frame, planted.sender, phase)
    answer = 'refused %d, %s' % (planted.number, refusals[planted.number]) if planted.number else 'taken'
    return '%d to %d: %s; %s' % (planted.sender, planted.receiver, said if len(said) < 200 else said[:196] + ' ..', answer)


def round_words(given, ring):
    refused = sum(planted.number != 0 for planted in given.planted)
    words = '%s: %s' % (ROUNDS[ring.rounds][given.round], 'struck ' + write_heads(given.struck) if given.struck else 'none struck')
    words += '; healed ' + write_heads(given.healed) if given.healed else ''
    return words + ('; %s planted, %d refused' % (plural(len(given.planted), 'frame'), refused) if given.planted else '')


def end_words(end):
    return 'the start' if end.phase == 0 else 'phase %d' % end.phase, '%d to %d, spread %d' % (end.low, end.high, end.spread)


def status_words(trace):
    return 'refused %d' % trace.ended.number if trace.ended.number else 'played to its end'


# ---- text

def text(name, trace, data, tables=False):
    """The lines of the report, as the phases are played."""
    yield '%s: %s, %s; %s' % (name, plural(trace.bytes, 'byte'), plural(trace.records, 'record'), status_words(trace))
    if trace.ring:
        yield ring_words(trace.ring) + '; ' + bound_words(trace.ring)
    if trace.ended.number:
        yield from fault_words(trace.ended, traces.fault(data, trace.ended))
    for phase in trace.phases():
        yield ''
        yield from phase_text(phase, trace, tables)


def phase_text(phase, trace, tables):
    yield '%s: %s' % end_words(trace.listing.ends[phase.number])
    for given in phase.rounds:
        yield '  ' + round_words(given, trace.ring)
        yield from ('    ' + planted_words(planted, phase.number, trace.refusals) for planted in given.planted if planted.number or tables)
    yield from ('  ' + line for line in table(columns(phase, trace.ring, tables)).rstrip('\n').split('\n'))


def columns(phase, ring, tables):
    """A row for each head and listener; of one whose memory is lost, its number."""
    rows = [(node.number, node_cells(node, ring, tables)) for node in phase.nodes]
    rows = sorted(rows + [(number, ['struck']) for number in phase.struck], key=lambda row: row[0])
    titles = [(right, 'position'), (right, 'kept from'), (right, 'to'), (right, 'trim'), (right, 'count'), (left, 'reading'),
              (left, 'not trusted'), (left, 'trusted')]
    wide = max(len(cells) for _, cells in rows)
    padded = [(cells + [''] * wide)[:wide] for _, cells in rows]
    return [right('head', [number for number, _ in rows])] + [
        adjust(title, [cells[at] for cells in padded]) for at, (adjust, title) in enumerate(titles[:wide])]


def node_cells(node, ring, tables):
    if node.lowest is None:
        return [node.position]
    cells = [node.position, node.lowest, node.highest, node.trim, node.count, reading_words(node.reading),
             nulls_words(node.nulls, ring) or '-']
    return cells + ([' '.join('-' if entry is None else str(entry) for entry in node.trusted)] if tables else [])


# ---- JSON

def pieces(name, trace, data):
    """One JSON object, a piece for each phase."""
    head = {'file': name, 'bytes': trace.bytes, 'records': trace.records, 'ended': ended_value(trace, data), 'ring': ring_value(trace.ring),
            'listing': trace.printed.rstrip('\n').split('\n')}
    yield json.dumps(head)[:-1] + ', "phases": ['
    for at, phase in enumerate(trace.phases()):
        yield (',\n' if at else '\n') + json.dumps(phase_value(phase, trace))
    yield ']}\n'


def ended_value(trace, data):
    ended = trace.ended
    value = {'number': ended.number, 'words': ended.words}
    if ended.number:
        found = traces.fault(data, ended)
        value.update(record=ended.record, offset=ended.offset, where=found.where, says=found.says, bytes=found.data.hex(), rule=found.why)
    return value


def ring_value(ring):
    return ring and {'n': ring.n, 'f': ring.f, 'listeners': ring.listeners, 'rounds': ring.rounds, 'halves': traces.halves(ring)}


def phase_value(phase, trace):
    end = trace.listing.ends[phase.number]
    return {'phase': phase.number, 'low': end.low, 'high': end.high, 'spread': end.spread,
            'rounds': [round_value(given, phase, trace) for given in phase.rounds],
            'heads': [node_value(node, trace.ring) for node in phase.nodes], 'struck': phase.struck}


def round_value(given, phase, trace):
    planted = [{'from': one.sender, 'to': one.receiver, 'bytes': one.frame.hex(), 'says': write_frame(one.frame, one.sender, phase.number),
                'number': one.number, 'words': trace.refusals.get(one.number, '')} for one in given.planted]
    return {'round': ROUNDS[trace.ring.rounds][given.round], 'struck': given.struck, 'healed': given.healed, 'planted': planted}


def node_value(node, ring):
    value = {'number': node.number, 'position': node.position, 'count': node.count, 'kept': None, 'reading': {'kind': node.reading.kind}}
    value['reading'].update(zip(['lowest', 'highest', 'midpoint'], node.reading.floats))
    if node.lowest is not None:
        value['kept'] = {'lowest': node.lowest, 'highest': node.highest, 'trim': node.trim}
        value['trusted'] = node.trusted
        value['untrusted'] = [{'entry': null.entry, 'why': null.why, 'words': null_words(null, ring)} for null in node.nulls]
    return value
