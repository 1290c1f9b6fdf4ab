"""The picture of each head's position over the phases, as SVG: where each is with what it kept, and how far each is above the lowest."""
import math

from rig import columns as parts
from rig import svg

TOP, HEIGHT = 56, 240
ABOVE_TOP, ABOVE_HEIGHT, LAST_STEP = 350, 150, 18
BOTTOM = ABOVE_TOP + ABOVE_HEIGHT
LEGEND_WIDE, LEGEND_HIGH = 58, 18
FEW = 40                             # phases up to which points and kept ranges are drawn


def draw(phases, ends, name):
    """Of some phases, with their ends in the listing."""
    numbers = sorted({node.number for phase in phases for node in phase.nodes} | {number for phase in phases for number in phase.struck})
    shown = [parts.column([end]) for end in ends]
    axis = svg.Axis(shown)
    places = {number: [] for number in numbers}
    for at, phase in enumerate(phases):
        for node in phase.nodes:
            places[node.number].append((at, node))
    legend_y = BOTTOM + 64
    height = legend_y + LEGEND_HIGH * (1 + (len(numbers) - 1) // per_row()) + 8
    words = 'positions of %d heads and listeners, phases %d to %d' % (len(numbers), phases[0].number, phases[-1].number)
    out = svg.opening(height, name + ': ' + words, described(phases), 'heads')
    out += positions(places, shown, axis) + above(places, shown, axis) + svg.phase_axis(shown, axis, BOTTOM + 6) + legend(numbers, legend_y)
    return '\n'.join(out + ['</svg>']) + '\n'


def described(phases):
    """What the picture shows, for readers who do not see it."""
    first, last = phases[0], phases[-1]
    at = ['%d at %d' % (node.number, node.position) for node in last.nodes]
    return 'From %s to %s. After phase %d: %s.' % (span(first), span(last), last.number, ', '.join(at))


def span(phase):
    low, high = min(node.position for node in phase.nodes), max(node.position for node in phase.nodes)
    return '%d to %d in phase %d' % (low, high, phase.number)


def colour(number):
    """Neighbouring numbers differ much; listeners are paler."""
    return 'hsl(%d,%d%%,%d%%)' % (number * 137 % 360, 45 if number >= 32 else 70, 45 if number >= 32 else 38)


def per_row():
    return (svg.WIDTH - svg.LEFT - svg.RIGHT) // LEGEND_WIDE


def legend(numbers, y):
    out = []
    for at, number in enumerate(numbers):
        x, row = svg.LEFT + at % per_row() * LEGEND_WIDE, y + at // per_row() * LEGEND_HIGH
        out += [svg.box(x, row - 9, 12, 10, colour(number)), svg.text(x + 18, row, number, colour=svg.FAINT)]
    return out


def pieces(places):
    """The way of a head in pieces without a gap: at a phase end at which it is struck it holds nothing."""
    found = []
    for at, node in places:
        if found and found[-1][-1][0] == at - 1:
            found[-1].append((at, node))
        else:
            found.append([(at, node)])
    return found


def ways(places, axis, y, words, few):
    """A line for each head, and points with words if there are few phases."""
    out = []
    for number, held in places.items():
        for piece in pieces(held):
            out.append(svg.path([(axis.x(at), y(at, node)) for at, node in piece], colour(number)))
        if few:
            out += [svg.dot(axis.x(at), y(at, node), colour(number), words(at, node)) for at, node in held]
    return out


def positions(places, shown, axis):
    low, high = min(column.low for column in shown), max(column.high for column in shown)
    if low == high:
        low, high = low - 1, high + 1

    def place(position):
        return TOP + HEIGHT * (high - min(high, max(low, position))) / (high - low)

    def words(at, node):
        kept = '' if node.lowest is None else ', kept %d to %d' % (node.lowest, node.highest)
        who = 'listener' if node.number >= 32 else 'head'
        return '%s %d, phase %s: %d%s' % (who, node.number, parts.phases(shown[at]), node.position, kept)

    out = [svg.text(svg.LEFT, TOP - 18, 'position of each head, steps; the bars beside it are what it kept', weight='bold')]
    out += svg.grid(svg.ticks(low, high), place)
    few = len(shown) <= FEW
    if few:
        out += kept_bars(places, axis, place)
    return out + ways(places, axis, lambda at, node: place(node.position), words, few)


def kept_bars(places, axis, place):
    """Left of the phase end, a bar for each head, side by side."""
    step = min(4, axis.step * 0.8 / max(1, len(places)))
    out = []
    for row, (number, held) in enumerate(places.items()):
        for at, node in held:
            if node.lowest is not None and node.lowest != node.highest:
                x = axis.x(at) - 5 - step * (len(places) - row)
                words = '%d, kept %d to %d, trim %d' % (number, node.lowest, node.highest, node.trim)
                top, foot = place(node.highest), place(node.lowest)
                out.append(svg.box(x, top, max(0.6, step - 0.6), foot - top, colour(number), words))
    return out


def above(places, shown, axis):
    """How far each head is above the lowest, on the scale of the spread: who is pulled is seen though the band is narrow."""
    most = max([2] + [column.spread for column in shown])

    def place(steps):
        scale = (ABOVE_HEIGHT - LAST_STEP) / math.log2(most)
        return BOTTOM - LAST_STEP - scale * math.log2(steps) if steps > 0 else BOTTOM

    def words(at, node):
        return '%d, phase %s: %d above the lowest' % (node.number, parts.phases(shown[at]), node.position - shown[at].low)

    out = [svg.text(svg.LEFT, ABOVE_TOP - 18, 'steps above the lowest of the phase, each halving one step down', weight='bold')]
    out += svg.grid(svg.powers(most), place)
    return out + ways(places, axis, lambda at, node: place(node.position - shown[at].low), words, len(shown) <= FEW)
