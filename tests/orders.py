"""Reorderings of a list of edits that keep the order of every two edits with a common area (demand 3)."""


def areas_named(network, edit, refusal):
    """"An edit names the areas of its stations s and p; edit 11 names every area with a station; one refused with 3 or 7
    names none." Document 02, W7, of 15: "such an edit names no area".
    """
    if refusal in (7, 15):
        return set()
    if edit[0] == 11:
        return {area for area, _ in network.stations.values()}
    stations = {edit[1]}
    if edit[0] in (2, 3):
        stations.add(edit[7])
    if edit[0] in (4, 5):
        stations.add(edit[3])
    return {network.stations[station][0] for station in stations}


def changes_places(order, one, named, station):
    """Whether an edit at a station, which is its area and tracks or none, passed one that names its area."""
    rank = {at: position for position, at in enumerate(order)}
    passed = [areas for at, areas in enumerate(named) if (at < one) != (rank[at] < rank[one])]
    return station is not None and any(station[0] in areas for areas in passed)


def reordered(r, named):
    """Positions in an order that keeps the order of every two edits with a common area."""
    waiting = [sum(1 for before in range(at) if named[before] & named[at]) for at in range(len(named))]
    free = [at for at, count in enumerate(waiting) if count == 0]
    late = r.random() < 0.3
    order = []
    while free:
        at = free.pop(max(range(len(free)), key=free.__getitem__) if late else r.randrange(len(free)))
        order.append(at)
        for behind in range(at + 1, len(named)):
            if named[behind] & named[at]:
                waiting[behind] -= 1
                if waiting[behind] == 0:
                    free.append(behind)
    return order
