"""A listing as it is printed: a line for each phase end, and how the file ended. One that was cut has the lines that are whole."""
import re
from collections import namedtuple

TITLE = 'phase low high spread collect confess'
LINE = re.compile('([0-9]{1,6}) (-?[0-9]{1,9}) (-?[0-9]{1,9}) ([0-9]{1,9}) ([0-9a-f]{8}) ([0-9a-f]{8})')
ENDING = re.compile('end|refused [0-9]{1,3}')
CUT = 'cut short'                                        # stands for the last line of a listing that has none

PhaseEnd = namedtuple('PhaseEnd', 'phase low high spread collect confess')
Listing = namedtuple('Listing', 'ends ending last')      # some phase ends or all, the last line, and the last phase of all


# What is known of a ring beside its listing: whether a phase has one round; n and f, or None; how many listeners there are, and which were
# struck: for a phase the marks of its rounds, bit j for listener 32 + j.
Known = namedtuple('Known', 'one_round n f listeners struck', defaults=(False, None, None, 0, {}))
HEADS = 2 ** 32 - 1


class ListingError(Exception):
    """Begins with the number of the line at fault."""


def read(text):
    lines, rest = whole_lines(text)
    if not text:
        raise ListingError('1: nothing is there; the first line of a listing is "%s"' % TITLE)
    if not lines or lines[0] != TITLE:
        raise ListingError('1: the first line of a listing is "%s"' % TITLE)
    ends = []
    for at, line in enumerate(lines[1:], 2):
        if ENDING.fullmatch(line):
            if lines[at:] or rest:
                raise ListingError('%d: the listing goes on after its last line' % (at + 1))
            return Listing(ends, line, len(ends) - 1)
        ends.append(read_end(line, at, len(ends)))
    return Listing(ends, CUT, len(ends) - 1)


def whole_lines(text):
    """The lines, and what is there of one that was cut. Without a newline a line is whole if no more could stand in it."""
    *lines, rest = text.split('\n')
    if rest in (TITLE, 'end') or LINE.fullmatch(rest):
        return [*lines, rest], ''
    return lines, rest


def read_end(line, at, phase):
    found = LINE.fullmatch(line)
    if not found:
        raise ListingError('%d: neither a phase nor "end" nor "refused" and a number: "%s"' % (at, line[:60]))
    end = PhaseEnd(*map(int, found.groups()[:4]), *(int(word, 16) for word in found.groups()[4:]))
    if end.phase != phase:
        raise ListingError('%d: phase %d stands where phase %d is due' % (at, end.phase, phase))
    if end.spread != end.high - end.low or end.spread < 0:
        raise ListingError('%d: the spread of %d to %d is not %d' % (at, end.low, end.high, end.spread))
    if phase == 0 and (end.collect or end.confess):
        raise ListingError('%d: no head is struck before the start' % at)
    return end


def no_confession(listing):
    """The listing of a one-round ring: no head is struck in confession."""
    for at, end in enumerate(listing.ends, 2):
        if end.confess:
            raise ListingError('%d: a one-round ring has no confession round to be struck in' % at)
    return listing


def settles(phase, collect, confess, one_round):
    """Whether all sound heads and listeners stand at one position after a phase because no head was struck in its last round: in that
    round all of them hear the same. Document 02, A11, asks it of phases without a strike in either round. The start ends no phase."""
    return phase > 0 and not (collect if one_round else confess) & HEADS


def settled(listing, one_round):
    """The listing, if its spreads are as `settles` has them."""
    for at, end in enumerate(listing.ends, 2):
        if end.spread and settles(end.phase, end.collect, end.confess, one_round):
            hint = '' if one_round else '; of a one-round ring, say --one-round'
            raise ListingError('%d: a spread of %d, though no head was struck in the last round%s' % (at, end.spread, hint))
    return listing


def halves(known):
    """Whether the spread halves with every phase (demand 3): True, False, or None if it is not known."""
    if known.one_round:
        return True
    return None if known.n is None or known.f is None else 3 * known.n >= 11 * known.f + 3


def halved(spread, phases=1):
    """So many times, rounded up."""
    return -(-spread >> phases)


def bounded(listing, known):
    """The listing, if its spreads halve where they must, and no mark is for a head that the ring does not have."""
    for at, (before, end) in enumerate(zip(listing.ends, listing.ends[1:]), 3):
        if halves(known) and end.spread > halved(before.spread):
            raise ListingError('%d: a spread of %d after one of %d: it must halve in this ring' % (at, end.spread, before.spread))
        if known.n is not None and (end.collect | end.confess) >> known.n:
            raise ListingError('%d: a head is struck that is not there: there are %d' % (at, known.n))
    return listing


def with_listeners(listing, known):
    """The listing with the marks of struck listeners above those of heads."""
    def marked(end):
        marks = [word << 32 for word in known.struck.get(end.phase, ())] + [0, 0]
        return end._replace(collect=end.collect | marks[0], confess=end.confess | marks[1])
    return listing._replace(ends=[marked(end) for end in listing.ends]) if known.struck else listing


def part(listing, first, last):
    """The listing with the phases from `first` to `last` alone."""
    ends = [end for end in listing.ends if first <= end.phase <= last]
    if listing.ends and not ends:
        raise ListingError('no phase from %d to %d: the last is %d' % (first, last, listing.last))
    return listing._replace(ends=ends)


def summary(listing):
    return '%s, %s' % (phases(listing), listing.ending)


def phases(listing):
    if not listing.ends:
        return 'no phase'
    first, last = listing.ends[0].phase, listing.ends[-1].phase
    if (first, last) == (0, listing.last):
        return 'phases 0 to %d' % last if last else 'the start alone'
    return 'phases %d to %d of %d' % (first, last, listing.last)
