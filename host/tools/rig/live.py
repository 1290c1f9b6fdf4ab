"""A listing drawn as its lines come: a row for each phase end as soon as it is there.

The scale is that of the first line that is drawn: no later position leaves its range (demand 3).
"""
from rig import columns as parts
from rig.listing import CUT, ENDING, TITLE, Known, Listing, ListingError, no_confession, read_end, settled, with_listeners
from rig.terminal import GAP, LEAST_BAND, Scale, digits_of, strikes

PLACES = 8                           # of a position


def rows(lines, width, known=Known(), first=0, last=65535):
    """The rows of a listing whose lines come one by one, each with its newline; the last says how it ended."""
    scale = None
    for at, end in ends(lines, known):
        if isinstance(end, str):
            yield end
            return
        row = parts.column([end])
        if not first <= row.first <= last:
            continue
        if scale is None:
            digits = row.spread.bit_length()
            scale = Scale([row], max(LEAST_BAND, width - 5 - 3 * PLACES - digits - 6 * len(GAP) - (known.n or 8)))
            yield cells(('phase', 'lowest', '', 'highest', 'spread', '', 'struck'), scale.size, digits)
        if row.low < scale.low or row.high > scale.high:
            raise ListingError('%d: %d to %d leaves the range from %d to %d' % (at, row.low, row.high, scale.low, scale.high))
        numbers = parts.rows_shown([row], known)
        yield cells((row.first, row.low, scale.bands([row])[0], row.high, row.spread, digits_of(row, known.one_round),
                     strikes(row, numbers, known.one_round)), scale.size, digits)


def ends(lines, known):
    """Each phase end with the number of its line, then how the listing ended."""
    count = 0
    for at, line in enumerate(lines, 1):
        text, whole = line.rstrip('\n'), line.endswith('\n')
        if at == 1:
            if text != TITLE:
                raise ListingError('1: the first line of a listing is "%s"' % TITLE)
        elif ENDING.fullmatch(text) and (whole or text == 'end'):
            yield at, text
            return
        elif not whole:
            break
        else:
            yield at, checked(read_end(text, at, count), at, known)
            count += 1
    yield 0, CUT


def checked(end, at, known):
    """The phase end, if a ring can have it."""
    try:
        one = Listing([end], CUT, end.phase)
        settled(no_confession(one) if known.one_round else one, known.one_round)
    except ListingError as error:
        raise ListingError('%d:%s' % (at, str(error).partition(':')[2])) from None
    return with_listeners(one, known).ends[0]


def cells(values, band_size, digits_size):
    sizes = [5, PLACES, -band_size, -PLACES, PLACES, -digits_size, 0]
    texts = [str(value).rjust(size) if size > 0 else str(value).ljust(-size) for value, size in zip(values, sizes)]
    return GAP.join(texts).rstrip()
