"""One page for a browser of what happens in a run file. It needs no server and no network, and opens from a file. It is well-formed XML."""
import itertools
from xml.sax.saxutils import escape, quoteattr

from rig import heads, known, listing, report, svg
from rig import trace as traces
from rig.words import write_bytes, write_frame, write_heads

MOST_PHASES = 200                    # shown one by one
MOST_FRAMES = 500                    # refused frames shown

STYLE = '''
body { font: 15px/1.45 Helvetica, Arial, sans-serif; color: #22303c; background: #fff }
body { margin: 2rem auto; max-width: 62rem; padding: 0 1rem }
h1 { font-size: 1.5rem } h2 { font-size: 1.15rem; margin-top: 2.2rem }
table { border-collapse: collapse; font-size: 13px; font-variant-numeric: tabular-nums; margin: .6rem 0 }
th, td { border: 1px solid #dde3e8; padding: .15rem .55rem; text-align: right; vertical-align: top }
th { background: #f3f6f8 } td.words, th.words { text-align: left }
td.struck { background: #f0e2f5; text-align: center } td.pulled { background: #cfe4f5 }
.played { color: #1f7a44 } .refused { color: #a3202c } .wide { overflow-x: auto }
pre { background: #f3f6f8; padding: .6rem; overflow-x: auto } svg { max-width: 100%; height: auto }
summary { cursor: pointer; padding: .2rem 0 }
'''

SOURCE = ('All numbers are from the proved calls: the player judged the file, and heads as C keeps them were driven by its records; '
          'both agree at every phase end.')

REASONS = ('An entry is not trusted if its link confessed to the head; if no position has the support of n - f links ("1000 has 3 of 4": the '
           'one with the most has 3, and 4 are wanted), or two have; or if no list has a position for it. In a one-round ring: if its link '
           'gave silence, or nothing.')


def page(name, trace, data):
    played = trace.phases()
    phases = list(itertools.islice(played, MOST_PHASES))
    for _ in played:
        pass                         # so that all of it is checked
    parts = ['<!DOCTYPE html>', '<html lang="en">', '<head>', '<meta charset="utf-8"/>',
             '<meta name="viewport" content="width=device-width, initial-scale=1"/>', element('title', name), '<style>%s</style>' % STYLE,
             '</head>', '<body>', element('h1', name)]
    parts += verdict(trace, data) + pictures(name, trace, phases, data) + positions(trace, phases)
    parts += refused(trace, phases) + details(trace, phases)
    parts += ['<h2>The listing</h2>', element('pre', trace.printed)]
    parts += [element('p', SOURCE), '</body>', '</html>']
    return '\n'.join(parts) + '\n'


# ---- elements

def element(tag, words, **attributes):
    more = ''.join(' %s=%s' % (name.rstrip('_'), quoteattr(str(value))) for name, value in attributes.items())
    return '<%s%s>%s</%s>' % (tag, more, escape(str(words)), tag)


def table(titles, rows, words=()):
    """Rows of cells, or of finished elements; the columns named in `words` hold text."""
    kinds = ['words' if title in words else '' for title in titles]
    head = ''.join(element('th', title, scope='col', **({'class_': kind} if kind else {})) for title, kind in zip(titles, kinds))
    out = ['<div class="wide"><table>', '<thead><tr>%s</tr></thead>' % head, '<tbody>']
    for row in rows:
        cells = [one if str(one).startswith('<td') else cell('td', one, kind) for one, kind in zip(row, kinds)]
        out.append('<tr>%s</tr>' % ''.join(cells))
    return out + ['</tbody></table></div>']


def cell(tag, words, kind=''):
    return element(tag, words, class_=kind) if kind else element(tag, words)


# ---- parts

def verdict(trace, data):
    out = []
    if trace.ended.number:
        found = traces.fault(data, trace.ended)
        said, *rest = report.fault_words(trace.ended, found)
        out += [element('p', said, class_='refused'), element('pre', '\n'.join(line.strip() for line in rest))]
    else:
        out.append(element('p', 'Played to its end.', class_='played'))
    if trace.ring:
        out.append(element('p', '%s; %s.' % (report.ring_words(trace.ring), report.bound_words(trace.ring))))
    out.append(element('p', '%s, %s.' % (report.plural(trace.bytes, 'byte'), report.plural(trace.records, 'record'))))
    return out


def pictures(name, trace, phases, data):
    """Of each head, and as `draw` makes it of the listing."""
    if not phases:
        return []
    ends = [trace.listing.ends[phase.number] for phase in phases]
    ring = known.of_run(data)
    shown = listing.part(listing.with_listeners(trace.listing, ring), phases[0].number, last_of(trace))
    return ['<h2>Each head</h2>', heads.draw(phases, ends, name), '<h2>The ring</h2>', svg.draw(shown, name, ring)]


def last_of(trace):
    return min(trace.last, trace.listing.last)


def positions(trace, phases):
    """A row for each phase and a column for each head: its position; coloured if it is not the lowest."""
    if not phases:
        return []
    numbers = [*range(trace.ring.n), *range(32, 32 + trace.ring.listeners)]
    rows = []
    for phase in phases:
        end, held = trace.listing.ends[phase.number], {node.number: node for node in phase.nodes}
        struck = [write_heads(given.struck) for given in phase.rounds] or [''] * trace.ring.rounds
        rows.append([phase.number, *struck, end.spread, *(position_cell(number, held, phase, end) for number in numbers)])
    rounds = ['struck'] if trace.ring.rounds == 1 else ['struck, collection', 'struck, confession']
    note = 'Coloured: above the lowest sound position of the phase. What a head kept stands in its tooltip, and in the tables below.'
    return ['<h2>Positions</h2>', element('p', note), *table(['phase', *rounds, 'spread', *numbers], rows)] + cut_note(trace, phases)


def position_cell(number, held, phase, end):
    if number in phase.struck:
        return element('td', 'struck', class_='struck')
    node = held.get(number)
    if node is None:
        return element('td', '')
    kept = 'holds no kept range' if node.lowest is None else 'kept %d to %d, trim %d' % (node.lowest, node.highest, node.trim)
    return element('td', node.position, title=kept, class_='pulled' if node.position != end.low else 'low')


def cut_note(trace, phases):
    first, last = phases[0].number, phases[-1].number
    words = 'Shown are phases %d to %d; --from and --to show others up to %d.' % (first, last, last_of(trace))
    return [element('p', words)] if last < last_of(trace) else []


def refused(trace, phases):
    """The planted frames that their receivers refused."""
    if not trace.ring:
        return []
    sent = [(phase.number, given, one) for phase in phases for given in phase.rounds for one in given.planted]
    rows = [[phase, report.ROUNDS[trace.ring.rounds][given.round], one.sender, one.receiver, frame_words(one, phase), one.number,
             trace.refusals[one.number]] for phase, given, one in sent if one.number]
    out = ['<h2>Refused frames</h2>', element('p', '%s planted, %d refused.' % (report.plural(len(sent), 'frame'), len(rows)))]
    if rows:
        titles = ['phase', 'round', 'from', 'to', 'frame', 'number', 'why']
        out += table(titles, rows[:MOST_FRAMES], ('round', 'frame', 'why'))
    if len(rows) > MOST_FRAMES:
        out.append(element('p', 'Shown are the first %d.' % MOST_FRAMES))
    return out


def frame_words(one, phase):
    said = write_frame(one.frame, one.sender, phase)
    return said if len(said) < 120 else write_bytes(one.frame[:24]) + ' ..'


def details(trace, phases):
    """For each phase what each head holds and why entries are not trusted."""
    out = ['<h2>Head by head</h2>', element('p', REASONS)] if phases else []
    for phase in phases:
        if phase.number == 0:
            continue
        summary = '%s: %s' % report.end_words(trace.listing.ends[phase.number])
        out += ['<details>', element('summary', summary)] + [element('p', report.round_words(given, trace.ring)) for given in phase.rounds]
        rows = [[node.number, *report.node_cells(node, trace.ring, True)] for node in phase.nodes]
        rows = sorted(rows + [[number, 'struck'] + [''] * 7 for number in phase.struck], key=lambda row: row[0])
        titles = ['head', 'position', 'kept from', 'to', 'trim', 'count', 'reading', 'not trusted', 'trusted table']
        out += table(titles, rows, ('reading', 'not trusted', 'trusted table')) + ['</details>']
    return out
