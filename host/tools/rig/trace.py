"""What happens in a run file, as host/c/play_trace prints it: the proved calls judge it, play it and hold what is shown."""
import os
import subprocess
import sys
from collections import namedtuple

from rig import lines, listing, wire
from rig import place as places

ROOT = os.path.dirname(os.path.dirname(os.path.dirname(os.path.dirname(os.path.abspath(__file__)))))
CRATES = ('camera', 'head_c', 'run_whole')

Ended = namedtuple('Ended', 'number record offset words')    # 0, or how the file is refused: at which record, from 1, and byte
Ring = namedtuple('Ring', 'n f listeners rounds')            # rounds of a phase
Round = namedtuple('Round', 'round struck healed planted')
Planted = namedtuple('Planted', 'sender receiver number frame')
Reading = namedtuple('Reading', 'kind floats')
Node = namedtuple('Node', 'number position lowest highest trim count reading trusted nulls')    # a head or listener at a phase end
Null = namedtuple('Null', 'entry why numbers')
Phase = namedtuple('Phase', 'number rounds nodes struck')    # of the nodes those that are sound


class TraceError(Exception):
    """The program cannot be built, or stopped at a check of its own."""


# ---- the program

def program():
    """Its path; built if it is older than what it is built of. The archives are proved and written first if they are not there."""
    archives = os.path.abspath(os.environ.get('STATICLIB') or os.path.join(ROOT, 'target', 'staticlib'))
    built = os.path.join(ROOT, 'target', 'host', 'play_trace')
    libraries = [os.path.join(archives, 'lib%s.a' % crate) for crate in CRATES]
    for crate, library in zip(CRATES, libraries):
        if not os.path.exists(library):
            if os.environ.get('STATICLIB'):
                raise TraceError('no %s' % library)
            run(['rt', 'staticlib', crate], 'proving %s, once; the first time this takes minutes' % crate)
    code = os.path.join(ROOT, 'host', 'c')
    sources = [os.path.join(code, name) for name in ('play_trace.c', 'play.h', 'ring.h', 'check.h')]
    header = os.path.join(ROOT, 'host', 'include', 'focus.h')
    if not os.path.exists(built) or any(os.path.getmtime(path) > os.path.getmtime(built) for path in [*sources, header, *libraries]):
        os.makedirs(os.path.dirname(built), exist_ok=True)
        fresh = '%s.%d' % (built, os.getpid())
        run(['gcc', '-std=c11', '-O2', '-I' + os.path.dirname(header), sources[0], *libraries, '-o', fresh])
        os.replace(fresh, built)
    return built


def run(words, note=''):
    if note:
        print('play: ' + note, file=sys.stderr)
    try:
        done = subprocess.run(words, cwd=ROOT, stdout=subprocess.PIPE, stderr=subprocess.STDOUT, check=False)
    except FileNotFoundError:
        raise TraceError('no command %s' % words[0]) from None
    if done.returncode:
        raise TraceError('%s: status %d\n%s' % (' '.join(words[:3]), done.returncode, done.stdout.decode(errors='replace')[-2000:]))


# ---- what it prints

class Trace:
    """Of the bytes of a file: how it ended, its listing, its ring or None, and its phases, one at a time as they are played."""

    def __init__(self, data, first=0, last=65535):
        self.process = subprocess.Popen([program(), '-', str(first), str(last)], stdin=subprocess.PIPE, stdout=subprocess.PIPE)
        self.process.stdin.write(data)      # all of it is read before a line is printed
        self.process.stdin.close()
        self.lines = (line.decode().rstrip('\n') for line in self.process.stdout)
        self.ring, self.refusals, self.last, printed = None, {}, last, []
        for line in self.lines:
            name, _, rest = line.partition(' ')
            if name == 'file':
                self.bytes, self.records = map(int, rest.split())
            elif name == 'ended':
                number, record, offset, words = rest.split(' ', 3)
                self.ended = Ended(int(number), int(record), int(offset), words)
            elif name == 'refusal':
                self.refusals[int(rest.split(' ')[0])] = rest.partition(' ')[2]
            elif name == 'listing':
                printed.append(rest)
            elif name == 'ring':
                self.ring = Ring(*map(int, rest.split()))
                break
            else:
                self.finish(line)
                break
        self.printed = '\n'.join(printed) + '\n'
        self.listing = listing.read(self.printed)

    def finish(self, line):
        if line != 'done' or self.process.wait() != 0:
            raise TraceError('the traced heads and the player differ: ' + line)

    def phases(self):
        """A phase is whole when the next begins."""
        if self.ring is None:
            return
        builder = None
        for line in self.lines:
            name, _, rest = line.partition(' ')
            if name == 'phase':
                if builder:
                    yield builder.phase()
                builder = Builder(int(rest))
            elif name in Builder.READERS:
                Builder.READERS[name](builder, rest.split())
            else:
                if builder:
                    yield builder.phase()
                self.finish(line)
                return
        raise TraceError('the trace ends early')


class Builder:
    def __init__(self, number):
        self.number, self.rounds, self.nodes, self.struck, self.trusted, self.nulls = number, [], [], [], {}, {}

    def phase(self):
        return Phase(self.number, self.rounds, self.nodes, self.struck)

    def round(self, words):
        struck, healed = (list(wire.heads_in(int(word, 16))) for word in words[1:])
        self.rounds.append(Round(int(words[0]), struck, healed, []))

    def planted(self, words):
        self.rounds[-1].planted.append(Planted(*map(int, words[:3]), bytes.fromhex(words[3] if len(words) > 3 else '')))

    def table(self, words):
        self.trusted[int(words[0])] = [None if word == '-' else int(word) for word in words[1:]]

    def null(self, words):
        self.nulls.setdefault(int(words[0]), []).append(Null(int(words[1]), words[2], [int(word) for word in words[3:]]))

    def node(self, words):
        number, position = int(words[0]), int(words[1])
        if len(words) == 2:
            self.nodes.append(Node(number, position, None, None, None, 0, Reading('unknown', []), [], []))
            return
        reading = Reading(words[6], [float(word) for word in words[7:]])
        self.nodes.append(Node(number, position, *map(int, words[2:6]), reading, self.trusted[number], self.nulls.get(number, [])))

    def lost(self, words):
        self.struck.append(int(words[0]))

    READERS = {'round': round, 'planted': planted, 'trusted': table, 'null': null, 'node': node, 'struck': lost}


# ---- where a file is refused

Fault = namedtuple('Fault', 'says data where why')    # the record in words and its bytes, its round, and the rule that it breaks


def fault(data, ended):
    """The record that the player refuses, said in words. The player names record and number; if the words of `rig.place` are for another
    number they are left out."""
    records, rest = wire.split(data)
    place = places.Place()
    for record in records[:ended.record - 1]:
        place.follow(record)
    if ended.record > len(records):
        why, says, at_fault = places.end_fault(place, rest), 'the end of the file' if not rest else 'what is left of the file', rest
    else:
        at_fault = records[ended.record - 1]
        why = places.fault(place, at_fault)
        place.follow(at_fault)
        says = lines.write_line(at_fault, place, '').text().strip()
    where = place.round_name if place.rounds else 'before the first round' if place.begun else 'before the start'
    return Fault(says, at_fault, where, why[1] if why and why[0] == ended.number else '')


def halves(ring):
    """Whether the spread is promised to halve with every phase (demand 3)."""
    return ring.rounds == 1 or 3 * ring.n >= 11 * ring.f + 3
