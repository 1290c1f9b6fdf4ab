"""What a run file says of its ring beside the listing: its family, n and f, and its listeners with their strikes."""
from rig import wire
from rig.listing import Known
from rig.place import Place


def of_run(data):
    """Of the records up to the first that is cut; what follows a fault does not matter, since the listing ends before."""
    place, struck = Place(), {}
    for record in wire.split(data)[0]:
        kind = wire.kind_of(record)
        if kind == wire.PLANT:
            continue
        place.follow(record)
        if kind == wire.STRIKE and len(record) == 6 and place.rounds:
            marks = struck.setdefault(place.phase, [0, 0])
            marks[0 if place.collecting else 1] = wire.half(record, 4) % 2 ** place.listeners
    if not place.begun:
        return Known()
    return Known(place.phase_rounds == 1, place.n, place.f, place.listeners, struck)
