"""The picture of a listing as text: a row for each phase, or for several."""
from rig import columns as parts
from rig import wire
from rig.listing import Known, halves, summary

ROWS = 40
LEAST_BAND = 24
GAP = '  '
STRUCK = {(False, False): '·', (True, False): '▀', (False, True): '▄', (True, True): '█'}
STRUCK_ONCE = {False: '·', True: '█'}


def draw(listing, name, width, known=Known()):
    """One table, or if that leaves the band too little room, one of positions and one of the rest."""
    rows = parts.columns(listing.ends, ROWS, growth=65536)
    if not rows:
        return '%s: %s\n' % (name, summary(listing))
    numbers, one_round = parts.rows_shown(rows, known), known.one_round
    phase = right('phase', [parts.phases(row) for row in rows])
    low, high = right('lowest', [row.low for row in rows]), left('highest', [row.high for row in rows])
    spread, digits = right('spread', [row.spread for row in rows]), left('', [digits_of(row, one_round) for row in rows])
    struck = left('struck', [strikes(row, numbers, one_round) for row in rows])
    positions, rest = [phase, low, high], [column for column in (spread, digits, struck) if any(map(str.strip, column[1:]))]
    tables = [positions + rest]
    if room(tables[0], width) < LEAST_BAND:
        tables = [positions, [phase] + rest]
    band = left('', Scale(rows, max(LEAST_BAND, room(tables[0], width))).bands(rows))
    tables[0].insert(2, band)
    return '\n'.join(['%s: %s' % (name, summary(listing)), ''] + [table(columns) for columns in tables] + legend(rows, numbers, known))


def digits_of(row, one_round):
    return '▪' * row.spread.bit_length() or '=' * parts.settles(row, one_round)


def right(title, cells):
    return padded(title, cells, str.rjust)


def left(title, cells):
    return padded(title, cells, str.ljust)


def padded(title, cells, adjust):
    texts = [title] + [str(cell) for cell in cells]
    size = max(map(len, texts))
    return [adjust(text, size) for text in texts]


def room(columns, width):
    """What a table leaves for one column more."""
    return width - sum(len(column[0] + GAP) for column in columns)


def table(columns):
    return ''.join(GAP.join(cells).rstrip() + '\n' for cells in zip(*columns))


class Scale:
    """Places positions on a band of so many characters."""

    def __init__(self, rows, size):
        self.low, self.high, self.size = min(row.low for row in rows), max(row.high for row in rows), size

    def at(self, position):
        if self.high == self.low:
            return self.size // 2
        return (position - self.low) * (self.size - 1) // (self.high - self.low)

    def bands(self, rows):
        return [(' ' * self.at(row.low) + self.drawn(row)).ljust(self.size) for row in rows]

    def drawn(self, row):
        if row.low == row.high:
            return '◆'
        inside = self.at(row.high) - self.at(row.low) - 1
        return '├' + '─' * inside + '┤' if inside >= 0 else '│'


def strikes(row, numbers, one_round):
    """A character for each head, and after a bar for each listener; none for the start, before which there is no round."""
    if row.last == 0:
        return ''
    rounds = [(wire.marked(row.collect, number), wire.marked(row.confess, number)) for number in numbers]
    marks = [STRUCK_ONCE[struck[0]] if one_round else STRUCK[struck] for struck in rounds]
    heads = sum(number < wire.FIRST_LISTENER for number in numbers)
    return ''.join(marks[:heads]) + ('|' + ''.join(marks[heads:]) if marks[heads:] else '')


def bound_note(known):
    """Whether the spread must halve, if that is known."""
    if known.n is None or known.f is None:
        return []
    return ['(%d,%d): the spread %s with every phase' % (known.n, known.f, 'halves' if halves(known) else 'need not halve')]


def legend(rows, numbers, known):
    notes = ['├──┤ lowest to highest sound position; │ if that is too narrow; ◆ all at one',
             '▪▪▪▪ as many as the spread has binary digits: halving takes one away'] + bound_note(known)
    if any(parts.settles(row, known.one_round) for row in rows):
        notes.append('=    all at one, since no head was struck in the last round')
    if numbers:
        notes.append('·█   heads 0, 1, ..: not struck; struck' if known.one_round else
                     '·▀▄█ heads 0, 1, ..: not struck; in collection; in confession; in both')
    if any(number >= wire.FIRST_LISTENER for number in numbers):
        notes.append('|    listeners 32, 33, .. stand behind it')
    if any(row.first != row.last for row in rows):
        notes.append('Phases in one row: lowest and highest position, largest spread, all heads struck')
    return notes + ['']
