"""The picture of a listing as SVG: positions, spread and strikes over the phases, one below the other.

A phase end stands at a point of the common axis; the two rounds of its phase fill the way to it from the end before, collection first. In a
one-round ring its one round fills all of the way.
"""
import math
from xml.sax.saxutils import escape

from rig import columns as parts
from rig import wire
from rig.listing import HEADS, Known, halved, halves, summary
from rig.words import neighbours, write_heads

WIDTH, LEFT, RIGHT = 880, 92, 24
INSET = 16                           # from either side to the first and last phase
POSITIONS_TOP, POSITIONS_HEIGHT = 88, 230
SPREAD_TOP, SPREAD_HEIGHT, LAST_STEP = 380, 136, 18
STRIKES_TOP = 568
MOST_COLUMNS = 360
FEW = 40                             # columns up to which each gets its point and its number

INK, FAINT, RULE = '#22303c', '#66727d', '#dde3e8'
BAND, EDGE, BOUND = '#cfe4f5', '#0b62a4', '#8c97a1'
COLLECT, CONFESS = '#e08a00', '#7b3fa0'
SETTLED = '#2f9e5b'


def draw(listing, name, known=Known()):
    shown = parts.columns(listing.ends, MOST_COLUMNS)
    body, height = (no_phase(), 120) if not shown else panels(shown, known)
    out = opening(height, name, described(listing, known)) + heading(listing, shown, name) + body + ['</svg>']
    return '\n'.join(out) + '\n'


def opening(height, title, words, part='ring'):
    """The first lines: the size, and what the picture is, for readers who do not see it."""
    size = 'width="%d" height="%d" viewBox="0 0 %d %d"' % (WIDTH, height, WIDTH, height)
    named = 'role="img" aria-labelledby="%s-title %s-desc"' % (part, part)
    font = 'font-family="Helvetica, Arial, DejaVu Sans, sans-serif" font-size="12"'
    return ['<svg xmlns="http://www.w3.org/2000/svg" %s %s %s>' % (size, named, font),
            '<title id="%s-title">%s</title>' % (part, escape(title)),
            '<desc id="%s-desc">%s</desc>' % (part, escape(words)), '<rect width="100%" height="100%" fill="white"/>']


def described(listing, known):
    """What the picture shows, in words."""
    if not listing.ends:
        return 'No phase: %s.' % listing.ending
    marks = 0
    for end in listing.ends:
        marks |= end.collect | end.confess
    ends = listing.ends[:1] + listing.ends[1:][-1:]
    ranges = ['phase %d: sound positions %d to %d, spread %d' % (end.phase, end.low, end.high, end.spread) for end in ends]
    struck = write_heads(wire.heads_in(marks)) or 'none'
    return '%s; %s. Struck in some round: %s. %s.' % (summary(listing), '; '.join(ranges), struck, bound_words(known))


def panels(shown, known):
    axis = Axis(shown)
    strikes, bottom = strikes_panel(shown, axis, parts.rows_shown(shown, known), known.one_round)
    spreads = spread_panel(shown, axis, known) + settled_marks(shown, axis, known.one_round)
    return positions_panel(shown, axis) + spreads + strikes + phase_axis(shown, axis, bottom, known.one_round), bottom + 52


# ---- elements

def number(value):
    return ('%.2f' % value).rstrip('0').rstrip('.')


def text(x, y, words, anchor='start', colour=INK, size=None, weight=None, halo=False):
    more = (' font-size="%d"' % size if size else '') + (' font-weight="%s"' % weight if weight else '')
    more += ' paint-order="stroke" stroke="white" stroke-width="4"' if halo else ''
    return '<text x="%s" y="%s" text-anchor="%s" fill="%s"%s>%s</text>' % (number(x), number(y), anchor, colour, more, escape(str(words)))


def line(x1, y1, x2, y2, colour=RULE):
    places = tuple(map(number, (x1, y1, x2, y2)))
    return '<line x1="%s" y1="%s" x2="%s" y2="%s" ' % places + 'stroke="%s"/>' % colour


def box(x, y, width, height, colour, words=''):
    places = tuple(map(number, (x, y, width, height)))
    inside = '><title>%s</title></rect>' % escape(words) if words else '/>'
    return '<rect x="%s" y="%s" width="%s" height="%s" ' % places + 'fill="%s"%s' % (colour, inside)


def dot(x, y, colour, words):
    return '<circle cx="%s" cy="%s" r="3" fill="%s"><title>%s</title></circle>' % (number(x), number(y), colour, escape(words))


def path(points, stroke, fill='none', dashes='', closed=False):
    way = 'M' + ' L'.join('%s %s' % (number(x), number(y)) for x, y in points) + (' Z' if closed else '')
    more = ' stroke-dasharray="%s"' % dashes if dashes else ''
    return '<path d="%s" fill="%s" stroke="%s" stroke-width="1.5" stroke-linejoin="round"%s/>' % (way, fill, stroke, more)


# ---- scales

class Axis:
    """Where the phase ends stand, from left to right. There is room for the rounds of the first phase, if it is not the start."""

    def __init__(self, shown):
        before = 0 if shown[0].first == 0 else 1
        wide, steps = WIDTH - LEFT - RIGHT - 2 * INSET, len(shown) - 1 + before
        self.step = wide / max(1, steps)
        self.first = LEFT + INSET + (self.step * before if steps else wide / 2)

    def x(self, at):
        return self.first + self.step * at


def step_for(span):
    """A round step that cuts a span into at most seven parts."""
    step = 1
    while span > 7 * step:
        step *= 10
    return next((finer for finer in (step // 5, step // 2) if finer and span <= 7 * finer), step)


def ticks(low, high):
    step = step_for(high - low)
    return range(-(-low // step) * step, high + 1, step)


def powers(most):
    return [0] + [10 ** digits for digits in range(7) if 10 ** digits <= most]


def grid(values, y):
    """A line at each value, with its number."""
    return [part for value in values for part in (
        line(LEFT, y(value), WIDTH - RIGHT, y(value)), text(LEFT - 10, y(value) + 4, value, 'end', FAINT))]


def spread_y(spread, most):
    """The largest at the top, 1 a little above the foot, 0 at the foot; between 1 and the largest each halving is one step down."""
    foot = SPREAD_TOP + SPREAD_HEIGHT
    return foot - LAST_STEP - (SPREAD_HEIGHT - LAST_STEP) * math.log2(spread) / math.log2(most) if spread else foot


# ---- heading

def heading(listing, shown, name):
    out = [text(LEFT, 30, name, size=18, weight='bold'), text(LEFT, 50, summary(listing), colour=FAINT)]
    if any(column.first != column.last for column in shown):
        note = 'phases put together: lowest and highest position, largest spread, all heads struck'
        out.append(text(WIDTH - RIGHT, 50, note, 'end', FAINT))
    return out


def no_phase():
    return [text(LEFT, 88, 'The file was refused before a phase could be shown.')]


# ---- positions

def positions_panel(shown, axis):
    low, high = min(column.low for column in shown), max(column.high for column in shown)
    if low == high:
        low, high = low - 1, high + 1

    def y(position):
        return POSITIONS_TOP + POSITIONS_HEIGHT * (high - position) / (high - low)

    out = [text(LEFT, POSITIONS_TOP - 12, 'lowest to highest sound position, steps', weight='bold')]
    out += grid(ticks(low, high), y)
    highest = [(axis.x(at), y(column.high)) for at, column in enumerate(shown)]
    lowest = [(axis.x(at), y(column.low)) for at, column in enumerate(shown)]
    out.append(path(highest + lowest[::-1], 'none', BAND, closed=True))
    out += [path(highest, EDGE), path(lowest, EDGE)]
    if len(shown) <= FEW:
        out += [mark for at, column in enumerate(shown) for mark in end_marks(axis.x(at), y, column)]
    return out


def end_marks(x, y, column):
    words = 'phase %s: %d to %d' % (parts.phases(column), column.low, column.high)
    out = [line(x, y(column.high), x, y(column.low), EDGE), dot(x, y(column.low), EDGE, words)]
    return out + ([dot(x, y(column.high), EDGE, words)] if column.high != column.low else [])


# ---- spread

def spread_panel(shown, axis, known):
    most = max([2] + [column.spread for column in shown])

    def y(spread):
        return spread_y(spread, most)

    out = [text(LEFT, SPREAD_TOP - 28, 'spread, each halving one step down', weight='bold')] + bound_legend(known)
    out += grid(powers(most), y)
    bound = [(axis.x(at), y(halved(shown[0].spread, column.first - shown[0].first))) for at, column in enumerate(shown)]
    spreads = [(axis.x(at), y(column.spread)) for at, column in enumerate(shown)]
    out += ([] if halves(known) is False else [path(bound, BOUND, dashes='5 4')]) + [path(spreads, EDGE)]
    if len(shown) <= FEW:
        out += [dot(x, at, EDGE, 'phase %s: spread %d' % (parts.phases(column), column.spread)) for (x, at), column in zip(spreads, shown)]
        out += spread_numbers(shown, spreads, axis.step)
    return out


def spread_numbers(shown, spreads, step):
    """Above the points, where neighbours leave room."""
    if 8 * max(len(str(column.spread)) for column in shown) > step:
        return []
    return [text(x, at - 8, column.spread, 'middle', INK, 11, halo=True) for (x, at), column in zip(spreads, shown)]


def bound_words(known):
    if halves(known) is False:
        return 'Halving is not promised at (%d,%d)' % (known.n, known.f)
    return 'The spread halves with every phase' if halves(known) else 'The spread halves with every phase if 3n is at least 11f + 3'


def bound_legend(known):
    x, y = WIDTH - RIGHT - 345, SPREAD_TOP - 32
    if halves(known) is False:
        return [text(x + 38, y + 4, bound_words(known), colour=FAINT)]
    words = 'bound: the first spread halved with every phase'
    if not halves(known):
        words = 'first spread halved: the bound if 3n is at least 11f + 3'
    return [path([(x, y), (x + 30, y)], BOUND, dashes='5 4'), text(x + 38, y + 4, words, colour=FAINT)]


def settled_marks(shown, axis, one_round):
    """Below the spread 0 of phases after which all stand at one position because no head was struck in the last round."""
    foot, width = SPREAD_TOP + SPREAD_HEIGHT, min(12, axis.step)
    at_one = [at for at, column in enumerate(shown) if parts.settles(column, one_round)]
    words = 'phase %s: no head struck in the last round, all at one position'
    marks = [box(axis.x(at) - width / 2, foot + 6, width, 6, SETTLED, words % parts.phases(shown[at]) if width > 4 else '') for at in at_one]
    x, y = LEFT + 256, SPREAD_TOP - 37
    legend = [box(x, y, 12, 6, SETTLED), text(x + 18, y + 9, 'quiet: all at one', colour=FAINT)]
    return marks + (legend if marks else [])


# ---- strikes

def strikes_panel(shown, axis, numbers, one_round):
    """A row for each head and listener of these numbers; and where the panel ends."""
    listeners = any(number >= wire.FIRST_LISTENER for number in numbers)
    words = 'heads and listeners struck' if listeners else 'heads struck' if numbers else 'no head is struck'
    title = text(LEFT, STRIKES_TOP - 14, words, weight='bold')
    if not numbers:
        return [title], STRIKES_TOP - 4
    row = 16 if len(numbers) <= 12 else 9
    out = [title] + ([] if one_round else strikes_legend())
    for at, column in enumerate(shown):
        x, half = axis.x(at) - axis.step, axis.step / 2
        rounds = [(column.collect, x, COLLECT, ', collection'), (column.confess, x + half, CONFESS, ', confession')]
        if one_round:
            rounds, half = [(column.collect, x, COLLECT, '')], axis.step
        out += [box for one in rounds for box in strike_boxes(*one, half, parts.phases(column), row, numbers)]
    for at in range(len(numbers) + 1):
        out.append(line(LEFT, STRIKES_TOP + at * row, WIDTH - RIGHT, STRIKES_TOP + at * row))
    for at, number in enumerate(numbers):
        if row == 16 or number % 4 == 0:
            out.append(text(LEFT - 10, STRIKES_TOP + (at + 0.5) * row + 4, number, 'end', FAINT))
    return out, STRIKES_TOP + len(numbers) * row


def strike_boxes(marks, x, colour, name, width, phases, row, numbers):
    """A box for neighbours that are struck in the same round, in the round's part of the phase. Heads and listeners are not neighbours."""
    gap = 1 if width > 4 else 0
    for run in neighbours(wire.heads_in(marks & HEADS)) + neighbours(wire.heads_in(marks & ~HEADS)):
        words = 'phase %s%s: struck %s' % (phases, name, write_heads(run)) if gap else ''
        yield box(x + gap, STRIKES_TOP + numbers.index(run[0]) * row, width - 2 * gap, len(run) * row, colour, words)


def strikes_legend():
    y = STRIKES_TOP - 24
    return [box(WIDTH - RIGHT - 218, y, 12, 10, COLLECT), text(WIDTH - RIGHT - 200, y + 9, 'in collection', colour=FAINT),
            box(WIDTH - RIGHT - 98, y, 12, 10, CONFESS), text(WIDTH - RIGHT - 80, y + 9, 'in confession', colour=FAINT)]


# ---- phases

def phase_axis(shown, axis, bottom, one_round=True):
    """A number at as many phases as there is room for, of several put together that of the first. A short tick is where a collection round
    ends."""
    widest = len(str(shown[-1].first))
    every = math.ceil(max(len(shown) / 14, (widest * 7 + 12) / axis.step))
    out = []
    if not one_round and len(shown) <= FEW:
        middles = [axis.x(at) - axis.step / 2 for at, column in enumerate(shown) if column.first]
        out += [line(x, bottom, x, bottom + 3, FAINT) for x in middles]
        out += [line(axis.x(at), bottom, axis.x(at), bottom + 5, FAINT) for at in range(len(shown)) if at % every]
    for at in range(0, len(shown), every):
        x = axis.x(at)
        out += [line(x, bottom, x, bottom + 5, FAINT), text(x, bottom + 19, shown[at].first, 'middle', FAINT)]
    words = 'phase' if one_round or len(shown) > FEW else 'phase; the short ticks are the ends of collection rounds'
    return out + [text((LEFT + WIDTH - RIGHT) / 2, bottom + 40, words, 'middle')]
