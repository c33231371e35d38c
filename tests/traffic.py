"""Good files of `shift`: mostly coherent traffic, mixed with mistakes, so that deep states are reached.

Nothing here decides what is right.
"""

from drafts import (
    FIELDS, LAST_MINUTE, LINE, LONGEST_INPUT, RUN, STATION, TIME, TRACK, TRAIN, Draft, Network, clamp, from_future,
    make_closures, make_network)


class Visit:
    """A visit in the generator's picture; before is (station, line) or none, after (station, line, run) or none."""

    def __init__(self, track, mark, arrival, departure, before=None, after=None, arrived=0, departed=0):
        self.track, self.mark, self.arrival, self.departure = track, mark, arrival, departure
        self.before, self.after = before, after
        self.arrived, self.departed = arrived, departed


class Picture:
    """A rough picture of the state, by which edits are chosen that reach deep states. It decides nothing."""

    def __init__(self, r, network, trains, base=None, width=None):
        self.r, self.network, self.trains = r, network, trains
        self.base = base if base is not None else r.choice([0, 100, 120, 1440, 2850, r.randint(0, LAST_MINUTE)])
        self.width = width if width is not None else r.choice([3, 10, 20, 40])
        self.visits = {}
        self.relations = {station: set() for station in network.stations}
        self.past = []

    # Choices.

    def time(self):
        return clamp(self.base + self.r.randint(0, self.width), TIME)

    def near(self, time):
        return clamp(time + self.r.choice([0, 0, 0, -1, 1, -3, 2, 5, self.r.randint(-20, 20)]), TIME)

    def station(self):
        if self.r.random() < 0.05:
            return self.r.randint(1, 16)
        return self.r.choice(list(self.network.stations))

    def track(self, station):
        tracks = self.network.stations.get(station, (1, 8))[1]
        return clamp(self.r.choice([1, 1, self.r.randint(1, tracks)]) if self.r.random() < 0.97 else tracks + 1, TRACK)

    def mark(self):
        """A stop mark; mostly it says nothing that the times and links don't say."""
        return int(self.r.random() < 0.4)

    def minute(self, time):
        """The minute that a report of a time carries, mostly this time or later; a clock may be wrong, and go back."""
        off = self.r.choice([1, 1, 1, 2, 5, self.r.randint(1, 60)])
        return clamp(self.r.choices([time, time + off, LAST_MINUTE, self.time(), time - off], [4, 4, 2, 1, 2])[0], TIME)

    def stay(self, arrival):
        return clamp(arrival + self.r.choice([0, 0, 1, 2, 2, 4, 10, -1 if self.r.random() < 0.3 else 1]), TIME)

    def run(self, line):
        """A running time about one of the line's two least ones, whatever the train."""
        least = self.r.choice(self.network.lines[line][3:5])
        return clamp(least + self.r.choice([0, 0, 0, 1, 2, 5, -1]), RUN)

    def relation(self, station):
        r = self.r
        kind = r.choice([1, 1, 2, 2, 3, 3])
        interval = r.choice([0, 1, 2, 3, 5, 5, 7, r.randint(0, 30), 240 if r.random() < 0.1 else 4])
        here = [train for at, train in self.visits if at == station]
        pool = here if len(here) >= 2 and r.random() < 0.8 else sorted(set(here + self.trains))
        if kind == 3:
            return (kind, interval, (r.choice(pool), r.choice(pool)))
        pool = pool if len(pool) >= 2 else self.trains + [train for train in (1, 2) if train not in self.trains]
        return (kind, interval, tuple(sorted(r.sample(pool, min(len(pool), r.choice([2, 2, 2, 3, 4]))))))

    # Edits, each given by its name.

    def propose(self, what):
        return getattr(self, what)() or self.place()

    def place(self):
        station = self.station()
        arrival = self.time()
        return (1, station, self.r.choice(self.trains), self.track(station), self.mark(), arrival, self.stay(arrival))

    def append(self):
        ends = [key for key, visit in self.visits.items() if not visit.after and self.network.out_of(key[0])]
        if not ends:
            return None
        at, train = self.r.choice(ends)
        ways = self.network.out_of(at)
        fresh = [way for way in ways if (way[1], train) not in self.visits]
        line, to = self.r.choice(fresh if fresh and self.r.random() < 0.95 else ways)
        run = self.run(line)
        arrival = clamp(self.visits[at, train].departure + run, TIME)
        arrival = arrival if self.r.random() < 0.7 else self.near(arrival)
        return (3, to, train, self.track(to), self.mark(), arrival, self.stay(arrival), at, line, run)

    def prepend(self):
        starts = [key for key, visit in self.visits.items() if not visit.before and self.network.into(key[0])]
        if not starts:
            return None
        at, train = self.r.choice(starts)
        ways = self.network.into(at)
        fresh = [way for way in ways if (way[1], train) not in self.visits]
        line, start = self.r.choice(fresh if fresh and self.r.random() < 0.95 else ways)
        run = self.run(line)
        departure = clamp(self.visits[at, train].arrival - run, TIME)
        departure = departure if self.r.random() < 0.7 else self.near(departure)
        arrival = clamp(departure - self.r.choice([0, 1, 3]), TIME)
        return (2, start, train, self.track(start), self.mark(), arrival, departure, at, line, run)

    def extend_linked(self):
        """An extension at a visit that has its link already."""
        inner = [(key, visit) for key, visit in self.visits.items() if visit.after or visit.before]
        if not inner:
            return None
        (at, train), visit = self.r.choice(inner)
        kind, ways = (3, self.network.out_of(at)) if visit.after else (2, self.network.into(at))
        if not ways:
            return None
        fresh = [way for way in ways if (way[1], train) not in self.visits]
        line, far = self.r.choice(fresh or ways)
        arrival = self.near(visit.departure)
        return (kind, far, train, self.track(far), self.mark(), arrival, self.stay(arrival), at, line, self.run(line))

    def extend_missing(self):
        """An extension of a train that does not visit the neighbour."""
        if not self.network.ways:
            return None
        line, start, to = self.r.choice(self.network.ways)
        arrival = self.time()
        kind, at, far = self.r.choice([(3, to, start), (2, start, to)])
        train = self.r.choice(self.trains)
        return (kind, at, train, self.track(at), self.mark(), arrival, self.stay(arrival), far, line, self.run(line))

    def extend_full(self):
        """An extension to a full station, of a train that visits the neighbour or not, linked there or not."""
        full = {at for at in self.network.stations if sum(key[0] == at for key in self.visits) >= 24}
        ways = [(3, to, start, line) for line, start, to in self.network.ways if to in full]
        ways += [(2, start, to, line) for line, start, to in self.network.ways if start in full]
        if not ways:
            return None
        kind, at, far, line = self.r.choice(ways)
        trains = [train for train in self.trains if (at, train) not in self.visits] or self.trains
        there = [train for train in trains if (far, train) in self.visits]
        linked = [train for train in there if (self.visits[far, train].after if kind == 3 else self.visits[far, train].before)]
        train = self.r.choice(self.r.choice([trains, there or trains, linked or there or trains]))
        arrival = self.time()
        return (kind, at, train, self.track(at), self.mark(), arrival, self.stay(arrival), far, line, self.run(line))

    def delete_end(self):
        ends = [(4, key, visit.after[0]) for key, visit in self.visits.items() if visit.after and not visit.before]
        ends += [(5, key, visit.before[0]) for key, visit in self.visits.items() if visit.before and not visit.after]
        if not ends:
            return None
        kind, (at, train), far = self.r.choice(ends)
        return (kind, at, train, far)

    def delete_wrongly(self):
        """Mostly a deletion at an end that is none, or towards a station that isn't next."""
        if not self.visits:
            return None
        at, train = self.r.choice(list(self.visits))
        visit = self.visits[at, train]
        linked = [(5, visit.before[0])] if visit.before else []
        linked += [(4, visit.after[0])] if visit.after else []
        if linked and self.r.random() < 0.6:
            kind, far = self.r.choice(linked)
            return (kind, at, train, far)
        others = [station for station, other in self.visits if other == train]
        return (self.r.choice([4, 5]), at, train, self.r.choice(others + [self.station()]))

    def amend(self):
        if not self.visits:
            return None
        at, train = self.r.choice(list(self.visits))
        visit = self.visits[at, train]
        arrival = visit.arrival if self.r.random() < 0.6 else self.near(visit.arrival)
        departure = visit.departure if self.r.random() < 0.3 else self.stay(arrival)
        track = visit.track if self.r.random() < 0.7 else self.track(at)
        return (6, at, train, track, self.mark(), arrival, departure)

    def report(self):
        if not self.visits:
            return None
        at, train = self.r.choice(list(self.visits))
        visit = self.visits[at, train]
        kind, time = (7, visit.arrival) if self.r.random() < 0.6 else (8, visit.departure)
        time = self.near(time)
        if self.r.random() < 0.1:
            # A visit that need not be there, at a station that need not be listed.
            at, train = self.r.choice([self.station(), self.r.randint(*STATION)]), self.r.choice(self.trains)
        return (kind, at, train, time, self.minute(time))

    def relate(self):
        station = self.station()
        return (9, station, self.relation(station))

    def widen(self):
        """A relation that differs from one there by a train, so that a deletion makes them equal."""
        there = [(at, one) for at, relations in self.relations.items() for one in sorted(relations) if one[0] != 3]
        if not there:
            return self.relate()
        at, (kind, interval, trains) = self.r.choice(there)
        trains = set(trains)
        if len(trains) > 2 and self.r.random() < 0.5:
            trains.discard(self.r.choice(sorted(trains)))
        elif len(trains) < 4:
            trains.add(self.r.choice(self.trains))
        return (9, at, (kind, interval, tuple(sorted(trains))))

    def relate_alike(self):
        """A relation of one station at another."""
        there = [one for relations in self.relations.values() for one in sorted(relations)]
        return (9, self.station(), self.r.choice(there)) if there else self.relate()

    def unrelate(self):
        there = [(at, one) for at, relations in self.relations.items() for one in sorted(relations)]
        if not there or self.r.random() < 0.2:
            station = self.station()
            return (10, station, self.relation(station))
        at, relation = self.r.choice(there)
        return (10, at, relation)

    def delete_train(self):
        present = sorted({train for _, train in self.visits})
        return (11, self.r.choice(present if present and self.r.random() < 0.8 else self.trains))

    def repeat(self):
        return self.r.choice(self.past) if self.past else None

    def anything(self):
        """Any numbers within the ranges."""
        r = self.r
        kind = r.randint(1, 11)
        if kind in (9, 10):
            kinds = r.randint(1, 3)
            trains = r.sample(range(1, 10000), 2 if kinds == 3 else r.randint(2, 4))
            return (kind, r.randint(1, 16), (kinds, r.randint(0, 240), tuple(trains if kinds == 3 else sorted(trains))))
        values = []
        for bounds in FIELDS[kind]:
            known = {STATION: list(self.network.stations), TRAIN: self.trains, LINE: list(self.network.lines)}.get(bounds)
            values.append(r.choice(known) if known and r.random() < 0.7 else r.randint(*bounds))
        return (kind, *values)

    # What an edit does, roughly as the machine does it.

    def do(self, edit):
        self.past.append(edit)
        kind = edit[0]
        if kind == 11:
            self.visits = {key: visit for key, visit in self.visits.items() if key[1] != edit[1]}
            for station in self.relations:
                self.leave(station, edit[1])
            return
        at = edit[1]
        if at not in self.network.stations or from_future(edit):
            return
        if kind in (9, 10):
            there = self.relations[at]
            if kind == 10:
                there.discard(edit[2])
            elif len(there) < 6:
                there.add(edit[2])
            return
        train = edit[2]
        here = self.visits.get((at, train))
        if kind in (1, 2, 3):
            if here or edit[3] > self.network.stations[at][1] or sum(key[0] == at for key in self.visits) >= 24:
                return
            visit = Visit(*edit[3:7])
            if kind > 1:
                far, line, run = edit[7:]
                other = self.visits.get((far, train))
                way = (line, far, at) if kind == 3 else (line, at, far)
                if not other or way not in self.network.ways or (other.after if kind == 3 else other.before):
                    return
                if kind == 3:
                    visit.before, other.after = (far, line), (at, line, run)
                else:
                    visit.after, other.before = (far, line, run), (at, line)
            self.visits[at, train] = visit
        elif kind in (4, 5) and here:
            other = self.visits.get((edit[3], train))
            if kind == 4 and other and not here.before and here.after and here.after[0] == edit[3]:
                other.before = None
            elif kind == 5 and other and not here.after and here.before and here.before[0] == edit[3]:
                other.after = None
            else:
                return
            del self.visits[at, train]
            self.leave(at, train)
        elif kind == 6 and here:
            altered = here.arrived and (here.arrival, here.track) != (edit[5], edit[3])
            if not altered and not (here.departed and here.departure != edit[6]):
                here.track, here.mark, here.arrival, here.departure = edit[3:7]
        elif kind == 7 and here:
            here.arrival, here.arrived = edit[3], 1
        elif kind == 8 and here:
            here.departure, here.departed = edit[3], 1

    def leave(self, station, train):
        left = set()
        for kind, interval, trains in self.relations[station]:
            rest = tuple(one for one in trains if one != train)
            if len(rest) == len(trains) or (kind != 3 and len(rest) >= 2):
                left.add((kind, interval, rest))
        self.relations[station] = left


def make_trains(r, count):
    pool = set()
    while len(pool) < count:
        # Freight begins at 5000.
        few, more, border, any_train = (r.randint(*bounds) for bounds in ((1, 9), (1, 60), (4995, 5004), TRAIN))
        pool.add(r.choice([few, more, border, any_train, 127, 128, 9999]))
    return sorted(pool)


# How often each edit is chosen, by the kind of file.
TRAFFIC = {
    "place": 6, "append": 10, "prepend": 5, "extend_linked": 1, "extend_missing": 1, "delete_end": 2, "delete_wrongly": 1,
    "amend": 3, "report": 4, "relate": 4, "widen": 2, "relate_alike": 1,
    "unrelate": 1, "delete_train": 1, "repeat": 1, "anything": 1,
}
BUILDING = {"place": 5, "append": 14, "prepend": 6, "relate": 3, "report": 1}
CROWDING = {"place": 30, "append": 10, "prepend": 10, "relate": 5, "widen": 2, "repeat": 1, "delete_train": 0.2,
            "report": 1, "extend_linked": 2, "extend_missing": 2, "extend_full": 5, "anything": 1}
RELATING = {"place": 6, "relate": 10, "widen": 10, "unrelate": 2, "delete_train": 3, "report": 3, "delete_end": 1, "append": 4}
REPORTING = {"place": 4, "append": 8, "report": 14, "amend": 8, "relate": 3, "delete_end": 1}
ROOMS = {**TRAFFIC, "delete_train": 0.3, "place": 10, "relate_alike": 3}
WILD = {"anything": 1}


def make_edits(r, picture, weights, count):
    names, sizes = list(weights), list(weights.values())
    edits = []
    for _ in range(count):
        edit = picture.propose(r.choices(names, sizes)[0])
        picture.do(edit)
        edits.append(edit)
    return edits


class Shift:
    """A good file of `shift`."""

    def __init__(self, network, edits):
        while True:
            self.network, self.edits = network, edits
            self.draft = Draft()
            self.draft.put_network(network)
            self.put_rest(self.draft)
            if len(self.draft.bytes()) <= LONGEST_INPUT:
                return
            edits = edits[:-20]

    def put_rest(self, draft):
        """What stands behind the network."""
        draft.put_edits(self.edits)


def occupied(picture):
    """The occupations of lines in a picture: (line, departure, departure + run)."""
    leaving = [visit for visit in picture.visits.values() if visit.after]
    return [(visit.after[1], visit.departure, visit.departure + visit.after[2]) for visit in leaving]


def with_closures(r, network, edits):
    """A good file of these edits, with closures about what they lead to."""
    picture = Picture(r, network, [])
    for edit in edits:
        picture.do(edit)
    network.closures = make_closures(r, network, occupied(picture))
    return Shift(network, edits)


def journey_of_all(r):
    """A train through all 16 stations that is then deleted: 16 visits removed."""
    network = make_network(r, stations=16, lines=0)
    path = r.sample(list(network.stations), 16)
    lines = {rank: (path[rank - 1], path[rank], 3, 5, 6, 1) for rank in range(1, 16)}
    network = Network(network.stations, network.headway, lines)
    train = r.randint(1, 9999)
    edits = [(1, path[0], train, 1, 0, 0, 1)]
    for rank in range(1, 16):
        edits.append((3, path[rank], train, 1, r.randint(0, 1), 6 * rank, 6 * rank + 1, path[rank - 1], rank, 5))
    if r.random() < 0.8:
        edits.append((11, train))
    return with_closures(r, network, edits)


def full_station(r):
    """A full station, and extensions to it that have other faults besides, or none."""
    full, near, third = stations = r.sample(range(1, 17), 3)
    tracks = r.randint(1, 7)
    network = Network(
        {station: (r.randint(1, 6), tracks) for station in sorted(stations)}, 3,
        {1: (full, near, 3, 5, 6, 1), 2: (near, third, 3, 5, 6, 1)})
    trains = make_trains(r, 32)
    r.shuffle(trains)
    inside, outside = trains[:24], trains[24:]
    edits = [(1, full, train, 1, rank % 2, 9 * rank, 9 * rank) for rank, train in enumerate(inside[:r.choice([23, 24, 24])])]
    for train in outside[:-1]:
        # At the neighbour alone, or linked with the third station one way or the other.
        edits.append((1, near, train, 1, 0, 100, 110))
        linked = r.choice([(), (3, third, train, 1, 0, 120, 121, near, 2, 5), (2, third, train, 1, 1, 80, 81, near, 2, 5)])
        edits += [linked] if linked else []
    tries = []
    for train in r.sample(trains, 8) + outside:
        track = r.choice([1, 1, 1, tracks + 1])
        tries.append((r.choice([2, 3]), full, train, track, 1, 90, 91, near, r.choice([1, 1, 1, 1, 2]), 9))
        tries.append((1, full, train, track, 0, 90, 91))
    tries += [(11, r.choice(trains)) for _ in range(r.choice([0, 0, 2]))]
    r.shuffle(tries)
    return with_closures(r, network, edits + tries)


def make_shift(r, index):
    """A good file of `shift`; the index chooses its sort, so that a run of files has all of them."""
    sort = index % 20
    if sort == 0 and index % 40 == 0:
        return full_station(r)
    if sort == 0:
        network = make_network(r, stations=r.choice([1, 2, 2, 2, 2, 3]), tracks=r.choice([1, 2, 8]))
        picture = Picture(r, network, make_trains(r, 40), width=r.choice([20, 200, 2000]))
        return with_closures(r, network, make_edits(r, picture, CROWDING, r.randint(80, 200)))
    if sort == 1 and index % 40 == 1:
        network = make_network(r, stations=r.choice([4, 8, 16]), lines=32, areas=6)
        picture = Picture(r, network, make_trains(r, r.choice([10, 40])), width=r.choice([60, 600]))
        count = 1000 if index % 80 == 1 else r.randint(300, 999)
        return with_closures(r, network, make_edits(r, picture, r.choice([TRAFFIC, BUILDING, CROWDING]), count))
    if sort == 1:
        return journey_of_all(r)
    if sort == 2:
        network = make_network(r, stations=16, areas=6, lines=32)
        picture = Picture(r, network, make_trains(r, r.randint(3, 20)))
        return with_closures(r, network, make_edits(r, picture, BUILDING, r.randint(30, 120)))
    if sort in (3, 4):
        network = make_network(r, stations=r.choice([1, 2, 3]))
        picture = Picture(r, network, make_trains(r, r.randint(2, 6)))
        return with_closures(r, network, make_edits(r, picture, RELATING, r.randint(5, 50)))
    if sort in (5, 6):
        network = make_network(r)
        picture = Picture(r, network, make_trains(r, r.randint(2, 6)))
        return with_closures(r, network, make_edits(r, picture, REPORTING, r.randint(5, 50)))
    if sort == 7:
        network = make_network(r)
        picture = Picture(r, network, make_trains(r, r.randint(1, 4)))
        return with_closures(r, network, make_edits(r, picture, WILD, r.randint(0, 30)))
    network = make_network(r)
    picture = Picture(r, network, make_trains(r, r.randint(2, 9)))
    return with_closures(r, network, make_edits(r, picture, TRAFFIC, r.randint(0, 60)))


def make_rooms(r):
    """A good file of `shift` with several areas, to be reordered."""
    network = make_network(r, stations=r.choice([3, 4, 6, 8, 16]), areas=r.choice([2, 3, 4, 6]))
    picture = Picture(r, network, make_trains(r, r.randint(2, 9)))
    return with_closures(r, network, make_edits(r, picture, ROOMS, r.randint(6, 80)))
