"""Run files by chance, for tests: whole ones, ones with strange frames and records, and damaged ones."""
from rig import wire
from rig.words import read_frame

ONE_ROUND_SIZES = [(1, 0), (2, 0), (5, 1), (5, 1), (6, 1), (8, 1), (9, 2), (9, 2), (13, 3)] * 3 + [(29, 7)]
SIZES = [(1, 0), (2, 0), (5, 1), (5, 1), (6, 1), (7, 1), (8, 2), (8, 2), (9, 2), (12, 3)] * 3 + [(32, 8)]
EDGES = [0, 1, -1, 1000000, -1000000]
BEYOND = [1000001, -1000001, 2 ** 31 - 1, -2 ** 31]


def any_bytes(rng, most):
    return rng.randbytes(rng.randrange(most + 1))


def steps(rng, beyond=0.01):
    if rng.random() < beyond:
        return rng.choice(BEYOND)
    return rng.choice(EDGES) if rng.random() < 0.2 else rng.randint(-50, 50)


def said_in(rng, n, collecting):
    """In words; now and then of the other round, or none."""
    if rng.random() < 0.2:
        collecting = not collecting
    if rng.random() < 0.4:
        return rng.choice(['silence', 'nothing'] if collecting else ['confession', 'nothing'])
    if collecting:
        return 'position %d' % steps(rng)
    count = n if rng.random() < 0.9 else rng.randrange(34)
    return ' '.join(['list'] + ['-' if rng.random() < 0.4 else str(steps(rng)) for _ in range(count)])


def frame(rng, n, sender, phase, collecting):
    """Mostly a frame that a receiver takes, sometimes one that is wrong in a field, sometimes no frame at all."""
    if rng.random() < 0.1:
        return any_bytes(rng, 20)
    said = said_in(rng, n, collecting)
    changes = ['length 11', 'kind 0001', 'kind 0003', 'kind 0105', 'sender %d' % rng.randrange(34), 'phase %d' % rng.randrange(4)]
    if said.startswith('list'):
        changes += ['count %d' % rng.randrange(34), 'marks %08x' % rng.getrandbits(32), 'marks %08x' % rng.getrandbits(n)]
    if said != 'nothing' and rng.random() < 0.2:
        said += ' with ' + rng.choice(changes)
    return read_frame(said.split(), sender, phase)


def run_file(rng):
    """One that a player takes to its end, but for a rare start out of range."""
    one_round = rng.random() < 0.3
    n, f = rng.choice(ONE_ROUND_SIZES if one_round else SIZES)
    out = [wire.record(wire.START_ONE if one_round else wire.START, bytes([n, f]) + wire.signed_bytes([steps(rng, 0.001) for _ in range(n)]))]
    listeners = rng.choice([0, 0, 1, 2, 16])
    if listeners:
        out.append(wire.record(wire.LISTENERS, bytes([listeners])))
    for given in range(rng.randrange(5) if one_round else 2 * rng.randrange(3)):
        struck = rng.sample(range(n), rng.randint(0, f))
        out.append(wire.record(wire.ROUND, wire.marks_of(struck).to_bytes(4, 'little')))
        silenced = rng.getrandbits(16) % 2 ** listeners if rng.random() < 0.5 else 0
        if silenced or rng.random() < 0.2:
            out.append(wire.record(wire.STRIKE, silenced.to_bytes(2, 'little')))
        receivers = [*range(n), *(32 + j for j in range(listeners) if not wire.marked(silenced, j))]
        phase, collecting = (given + 1, True) if one_round else (given // 2 + 1, given % 2 == 0)
        out.extend(planted(rng, n, struck, receivers, phase, collecting))
    return b''.join(out)


def planted(rng, n, struck, receivers, phase, collecting):
    for sender in sorted(struck):
        shared = frame(rng, n, sender, phase, collecting)
        for receiver in receivers:
            if receiver in struck or rng.random() < 0.3:
                continue
            sent = shared if rng.random() < 0.5 else frame(rng, n, sender, phase, collecting)
            yield wire.record(wire.PLANT, bytes([sender, receiver]) + sent[:140])


def damaged(rng, data):
    """The bytes cut, changed, doubled, or with others put in, in one place or a few."""
    for _ in range(rng.randint(1, 3)):
        at = rng.randrange(len(data) + 1)
        to = min(len(data), at + rng.randrange(12))
        data = rng.choice([
            data[:at],
            data[:at] + data[to:],
            data[:at] + any_bytes(rng, 8) + data[to:],
            data[:to] + data[at:],
            data[:at] + bytes([rng.choice([0, 1, 2, 4, 8, 16, 17, 18, 19, 20, 21, 255])]) + data[at + 1:],
        ])
    return data


def any_file(rng):
    way = rng.randrange(10)
    if way == 0:
        return any_bytes(rng, 60)
    whole = run_file(rng)
    return whole if way < 4 else damaged(rng, whole)
