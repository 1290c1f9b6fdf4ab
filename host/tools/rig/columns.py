"""Phase ends put together if there are more of them than a picture has room for."""
from collections import namedtuple

from rig import listing, wire

# Phases `first` to `last`: the lowest and highest position, the largest spread, and the heads struck in any of them.
Column = namedtuple('Column', 'first last low high spread collect confess')


def columns(ends, most, growth=2):
    """At most `most` columns, the first end in one of its own. Phases with the same lowest and highest position are put together
    first, in pieces that grow by the factor `growth` until there are few enough; then neighbours of any kind."""
    if len(ends) <= most:
        return [column([end]) for end in ends]
    alike, size = runs(ends[1:]), 1
    longest = max(map(len, alike))
    groups = cut(alike, size)
    while len(groups) >= most and size < longest:
        size *= growth
        groups = cut(alike, size)
    beside = -(-len(groups) // (most - 1))
    joined = [sum(groups[at:at + beside], []) for at in range(0, len(groups), beside)]
    return [column(group) for group in [ends[:1]] + joined]


def runs(ends):
    """Neighbours with the same lowest and highest position."""
    found = []
    for end in ends:
        if found and (found[-1][-1].low, found[-1][-1].high) == (end.low, end.high):
            found[-1].append(end)
        else:
            found.append([end])
    return found


def cut(groups, size):
    return [group[at:at + size] for group in groups for at in range(0, len(group), size)]


def column(group):
    collect = confess = 0
    for end in group:
        collect, confess = collect | end.collect, confess | end.confess
    low, high = min(end.low for end in group), max(end.high for end in group)
    return Column(group[0].phase, group[-1].phase, low, high, max(end.spread for end in group), collect, confess)


def phases(column):
    return str(column.first) if column.first == column.last else '%d-%d' % (column.first, column.last)


def settles(column, one_round):
    """Whether each of its phases settled everything."""
    return listing.settles(column.first, column.collect, column.confess, one_round)


def rows_shown(shown, known):
    """The numbers of the heads and listeners whose strikes are drawn. Of a ring that is not known, heads up to the highest that is ever
    struck: a listing does not say how many there are."""
    struck = 0
    for column in shown:
        struck |= column.collect | column.confess
    if not struck:
        return []
    heads = known.n if known.n is not None else (struck & listing.HEADS).bit_length()
    return [*range(heads), *range(wire.FIRST_LISTENER, wire.FIRST_LISTENER + known.listeners)]
