"""Good files of `inspect`: timetables with answered links and others, rings, any statuses, full stations."""

from drafts import TIME, Draft, clamp, make_closures, make_network, relation_key
from traffic import Picture, Visit, make_trains, occupied


class Inspect:
    """A good file of `inspect`."""

    def __init__(self, network, visits, relations):
        self.network, self.visits, self.relations = network, visits, relations
        self.draft = Draft()
        self.draft.put_network(network)
        self.put_rest(self.draft)

    def put_rest(self, draft):
        """What stands behind the network."""
        draft.put_timetable(self.visits, in_order(self.relations))


def in_order(relations):
    return [(at, one) for at in sorted(relations) for one in sorted(relations[at], key=relation_key)]


class Placer(Picture):
    """A picture that is filled without edits."""

    def track_known(self, station):
        return self.r.randint(1, self.r.choice([1, self.network.stations[station][1]]))


def make_journeys(r, network, picture, count, ring):
    """Trains along lines, their links answered, some round in a ring."""
    for train in picture.trains[:count]:
        at = r.choice(list(network.stations))
        arrival = picture.time()
        stations = [at]
        line = run = None
        length = r.choice([1, 2, 3, 4, 16])
        while True:
            if sum(key[0] == at for key in picture.visits) >= 24 or (at, train) in picture.visits:
                break
            departure = picture.stay(arrival)
            visit = picture.visits[at, train] = Visit(picture.track_known(at), picture.mark(), arrival, departure)
            if len(stations) > 1:
                visit.before = (stations[-2], line)
                picture.visits[stations[-2], train].after = (at, line, run)
            ways = network.out_of(at)
            home = [way for way in ways if way[1] == stations[0]]
            if ring and home and len(stations) > 1 and r.random() < 0.7:
                line, _ = r.choice(home)
                visit.after = (stations[0], line, picture.run(line))
                picture.visits[stations[0], train].before = (at, line)
                break
            ways = [way for way in ways if (way[1], train) not in picture.visits]
            if not ways or len(stations) >= length:
                break
            line, at = r.choice(ways)
            run = picture.run(line)
            stations.append(at)
            arrival = clamp(departure + run, TIME)
            arrival = arrival if r.random() < 0.7 else picture.near(arrival)


def loosen(r, network, picture, much):
    """Links that are not answered, other statuses, other runs. Late trains stand: arrived, and to depart about now."""
    statuses = r.choice(["pending", "any", "past", "arrived", "standing"])
    now = picture.time()
    for (at, train), visit in list(picture.visits.items()):
        if statuses == "any":
            visit.arrived, visit.departed = r.randint(0, 1), r.randint(0, 1)
        elif statuses == "past":
            visit.arrived, visit.departed = int(visit.arrival <= now), int(visit.departure <= now)
        elif statuses == "arrived":
            visit.arrived = r.randint(0, 1)
        elif statuses == "standing" and visit.arrival <= now:
            visit.arrived, visit.departed = 1, int(visit.departure <= now and r.random() < 0.5)
            visit.departure = visit.departure if visit.departed else picture.near(now)
        if r.random() < much:
            what = r.randrange(7)
            outwards, inwards = network.out_of(at), network.into(at)
            if what == 0:
                visit.before = None
            elif what == 1:
                visit.after = None
            elif what == 2 and outwards:
                line, far = r.choice(outwards)
                visit.after = (far, line, picture.run(line))
            elif what == 3 and inwards:
                line, far = r.choice(inwards)
                visit.before = (far, line)
            elif what == 4 and visit.after:
                visit.after = (*visit.after[:2], r.choice([1, 240, r.randint(1, 240)]))
            elif what == 5:
                visit.arrival, visit.departure = picture.near(visit.arrival), picture.near(visit.departure)
            else:
                del picture.visits[at, train]


def make_inspect(r, index):
    """A good file of `inspect`; the index chooses its sort."""
    sort = index % 20
    if sort == 0 and index % 80 == 0:
        return make_full(r)
    if sort in (0, 1):
        network = make_network(r, stations=r.choice([1, 2, 3]))
        trains, most = make_trains(r, 30), 30
    elif sort == 2:
        network = make_network(r, stations=16, lines=32, areas=6)
        trains, most = make_trains(r, 20), r.randint(1, 20)
    else:
        network = make_network(r)
        trains, most = make_trains(r, r.randint(1, 12)), 12
    picture = Placer(r, network, trains)
    make_journeys(r, network, picture, most, ring=sort % 3 == 0)
    loosen(r, network, picture, r.choice([0, 0, 0.05, 0.2, 0.6]))
    for at in network.stations:
        limit = r.choice([0, 0, 1, 2, 3, 6])
        for _ in range(limit):
            picture.relations[at].add(picture.relation(at))
    network.closures = make_closures(r, network, occupied(picture))
    return Inspect(network, picture.visits, picture.relations)


def make_full(r):
    """All limits at once: 16 stations with 24 visits and 6 relations each, 32 lines."""
    network = make_network(r, stations=16, lines=32, areas=6)
    picture = Placer(r, network, make_trains(r, 40), width=r.choice([30, 300]))
    make_journeys(r, network, picture, 40, ring=True)
    loosen(r, network, picture, 0.2)
    for at in network.stations:
        here = {train for station, train in picture.visits if station == at}
        absent = [train for train in picture.trains if train not in here]
        for train in r.sample(absent, 24 - len(here)):
            arrival = picture.time()
            picture.visits[at, train] = Visit(picture.track_known(at), picture.mark(), arrival, picture.stay(arrival))
        while len(picture.relations[at]) < 6:
            picture.relations[at].add(picture.relation(at))
    network.closures = make_closures(r, network, occupied(picture))
    return Inspect(network, picture.visits, picture.relations)
