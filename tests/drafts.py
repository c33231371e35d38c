"""Files as drafts: their numbers with the ranges of documents 01 and 02, and where damage can be done. Networks."""

import os
import sys
from copy import copy

sys.path.insert(0, os.path.join(os.path.dirname(os.path.abspath(__file__)), "..", "tools"))
from encode import encode, parse  # noqa: E402, F401

LONGEST_INPUT = 16384
LAST_MINUTE = 2879

# The ranges of the documents, by what a number is; END is a closure's, MANY that of lines and of closures.
STATION, AREA, TRAIN, LINE, TRACK = (1, 16), (1, 6), (1, 9999), (1, 32), (1, 8)
TIME, INTERVAL, RUN, STATUS, MARK = (0, LAST_MINUTE), (0, 240), (1, 240), (0, 1), (0, 1)
END, MANY = (1, LAST_MINUTE + 1), (0, 32)
PLAN = (STATION, TRAIN, TRACK, MARK, TIME, TIME)
REPORT = (STATION, TRAIN, TIME, TIME)  # the event's time, and the present minute
FIELDS = {
    1: PLAN,
    2: PLAN + (STATION, LINE, RUN),
    3: PLAN + (STATION, LINE, RUN),
    4: (STATION, TRAIN, STATION),
    5: (STATION, TRAIN, STATION),
    6: PLAN,
    7: REPORT,
    8: REPORT,
    11: (TRAIN,),
}
# The edits that carry a track, and so a stop mark behind it.
MARKED = [kind for kind, fields in FIELDS.items() if TRACK in fields]
# Those that carry the present minute.
REPORTS = [kind for kind, fields in FIELDS.items() if fields == REPORT]


def clamp(value, bounds):
    return max(bounds[0], min(bounds[1], value))


def from_future(edit):
    """Whether an edit is a report whose time is later than the minute that it carries."""
    return edit[0] in REPORTS and edit[3] > edit[4]


class Draft:
    """A file as its numbers, each with its range, and with the places at which damage can be done."""

    def __init__(self):
        self.values = []
        self.ranges = []
        self.groups = []  # lists of entries that have to rise; an entry is the list of its key's indices
        self.lines = []  # index of a line's first number
        self.closures = []  # index of a closure's first number
        self.marks = []  # index of a stop mark
        self.minutes = []  # index of a report's minute
        self.visits = []  # (index of the first number, index of the track, of the in-link, of the out-link)
        self.relations = []  # (index of the first number, indices of the trains, whether they rise)
        self.network_end = 0  # the index behind the network

    def put(self, value, bounds):
        self.values.append(value)
        self.ranges.append(bounds)
        return len(self.values) - 1

    def copy(self):
        other = Draft()
        other.__dict__ = {name: copy(value) for name, value in self.__dict__.items()}
        return other

    def any_index(self, r):
        """The index of a number anywhere, in the network or near the end."""
        count = len(self.values)
        return r.choice([r.randrange(count), r.randrange(self.network_end), count - r.randint(1, min(count, 12))])

    def place(self, index):
        return sum(len(encode(value)) for value in self.values[:index])

    def bytes(self):
        return b"".join(map(encode, self.values))

    def bytes_with(self, index, spelling):
        """The file with one number spelt otherwise."""
        parts = [encode(value) for value in self.values]
        parts[index] = spelling
        return b"".join(parts)

    def put_relation(self, relation):
        """A relation is (kind, interval, trains). Gives the indices of its numbers."""
        kind, interval, trains = relation
        indices = [self.put(kind, (1, 3)), self.put(interval, INTERVAL)]
        indices.append(self.put(len(trains), (2, 2) if kind == 3 else (2, 4)))
        at = [self.put(train, TRAIN) for train in trains]
        self.relations.append((indices[0], at, kind != 3))
        return indices + at

    def put_network(self, network):
        self.put(len(network.stations), (1, 16))
        entries = []
        for number, (area, tracks) in sorted(network.stations.items()):
            entries.append([self.put(number, STATION)])
            self.put(area, AREA)
            self.put(tracks, TRACK)
        self.groups.append(entries)
        self.put(network.headway, (1, 30))
        self.put(len(network.lines), MANY)
        entries = []
        for number, (first, second, kind, passenger, freight, capacity) in sorted(network.lines.items()):
            index = self.put(number, LINE)
            self.lines.append(index)
            entries.append([index])
            self.put(first, STATION)
            self.put(second, STATION)
            self.put(kind, (1, 3))
            self.put(passenger, RUN)
            self.put(freight, RUN)
            self.put(capacity, (1, 9))
        self.groups.append(entries)
        self.put(len(network.closures), MANY)
        entries = []
        for line, start, end in network.closures:
            entries.append([self.put(line, LINE), self.put(start, TIME)])
            self.closures.append(entries[-1][0])
            self.put(end, END)
        self.groups.append(entries)
        self.network_end = len(self.values)

    def put_edits(self, edits):
        self.put(len(edits), (0, 1000))
        for edit in edits:
            self.put(edit[0], (1, 11))
            if edit[0] in (9, 10):
                self.put(edit[1], STATION)
                self.put_relation(edit[2])
            else:
                if edit[0] in MARKED:
                    self.marks.append(len(self.values) + 3)
                if edit[0] in REPORTS:
                    self.minutes.append(len(self.values) + 3)
                for value, bounds in zip(edit[1:], FIELDS[edit[0]], strict=True):
                    self.put(value, bounds)

    def put_timetable(self, visits, relations):
        """Visits by (station, train), relations as a list of (station, relation) in the order wanted."""
        self.put(len(visits), (0, 384))
        entries = []
        for (station, train), visit in sorted(visits.items()):
            key = [self.put(station, STATION), self.put(train, TRAIN)]
            entries.append(key)
            track = self.put(visit.track, TRACK)
            self.marks.append(self.put(visit.mark, MARK))
            self.put(visit.arrival, TIME)
            self.put(visit.arrived, STATUS)
            self.put(visit.departure, TIME)
            self.put(visit.departed, STATUS)
            links = []
            for link, more in ((visit.before, (LINE,)), (visit.after, (LINE, RUN))):
                links.append(self.put(link[0] if link else 0, (0, 16)))
                for value, bounds in zip(link[1:] if link else (), more):
                    self.put(value, bounds)
            self.visits.append((key[0], track, links[0], links[1]))
        self.groups.append(entries)
        self.put(len(relations), (0, 96))
        entries = []
        for station, relation in relations:
            first = self.put(station, STATION)
            entries.append([first] + self.put_relation(relation))
        self.groups.append(entries)


def relation_key(relation):
    kind, interval, trains = relation
    return (kind, interval, len(trains), trains)


class Network:
    def __init__(self, stations, headway, lines, closures=()):
        self.stations = stations  # number: (area, tracks)
        self.headway = headway
        self.lines = lines  # number: (first, second, kind, passenger, freight, capacity)
        self.closures = closures  # (line, start, end), in the order of the file
        self.ways = []  # (line, from, to)
        for line, (first, second, kind, *_) in sorted(lines.items()):
            if kind in (1, 3):
                self.ways.append((line, first, second))
            if kind in (2, 3):
                self.ways.append((line, second, first))

    def out_of(self, station):
        return [(line, to) for line, start, to in self.ways if start == station]

    def into(self, station):
        return [(line, start) for line, start, to in self.ways if to == station]


def make_network(r, stations=None, areas=None, lines=None, tracks=None):
    count = stations or r.choice([1, 2, 2, 2, 3, 3, 3, 4, 4, 5, 6, 8, 16])
    numbers = sorted(r.sample(range(1, 17), count))
    pool = r.sample(range(1, 7), areas or r.choice([1, 2, 2, 3, 3, 4, 6]))
    facts = {number: (r.choice(pool), tracks or r.choice([1, 1, 2, 2, 3, 8])) for number in numbers}
    if lines is None:
        lines = 0 if count == 1 else r.choice([count - 1, count, count, count + 1, 2 * count, r.randint(0, 32)])
    lines = min(lines, 32) if count > 1 else 0
    joined = {}
    path = r.sample(numbers, count)
    for rank, line in enumerate(sorted(r.sample(range(1, 33), lines))):
        # First a path through the stations, so that journeys are long; then any two.
        first, second = path[rank:rank + 2] if rank + 1 < count and r.random() < 0.9 else r.sample(numbers, 2)
        least = r.choice([r.randint(1, 6), r.randint(5, 15), r.randint(1, 240) if r.random() < 0.2 else 10])
        # Freight is slower, quicker or the same.
        freight = r.choice([least, min(240, least + r.randint(1, 6)), max(1, least - r.randint(1, 6))])
        joined[line] = (first, second, r.choice([1, 2, 3, 3, 3]), least, freight, r.choice([1, 1, 1, 2, 2, 3, 9]))
    return Network(facts, r.choice([1, 2, 3, 3, 5, 10, 30]), joined)


def make_closures(r, network, occupied):
    """Closures: often none, often a few, sometimes as many as there may be. Most lie about an occupation of a line, which is
    (line, first minute, minute behind the last).
    """
    count = r.choice([0, 0, 0, 1, 1, 2, 3, 5, r.randint(0, 32), 32]) if network.lines else 0
    windows = {}
    for _ in range(8 * count):
        if len(windows) == count:
            break
        line, first, behind = r.choice(occupied) if occupied else (0, 0, 0)
        if not occupied or r.random() < 0.1:
            line, first = r.choice(list(network.lines)), r.randint(*TIME)
            behind = first + r.randint(1, 60)
        start, end = window(r, first, behind)
        start, end = clamp(start, TIME), clamp(end, END)
        if start < end:
            windows[line, start] = end
    return [(line, start, end) for (line, start), end in sorted(windows.items())]


def window(r, first, behind):
    """A window about an occupation: up to it, from it on, a minute into it at either end, inside or around."""
    length = r.choice([1, 2, 5, 30, r.randint(1, 300)])
    inside = r.randrange(first, behind)
    windows = [
        (first - length, first), (first - length, first + 1), (behind, behind + length), (behind - 1, behind - 1 + length),
        (first, first + 1), (behind - 1, behind), (first, behind), (inside, r.randint(inside + 1, behind)),
        (first - length, behind + length)]
    # Past the last minute nothing begins anew.
    return r.choice(windows + [(0, length)] * 3 if behind > LAST_MINUTE + 1 else windows)


def lines_at(numbers):
    """Where the lines' count stands among the numbers of a file; none where they end before that can be told."""
    return 2 + 3 * numbers[0] if numbers else None


def closures_at(numbers):
    """The same of the closures' count."""
    lines = lines_at(numbers)
    return lines + 1 + 7 * numbers[lines] if lines is not None and lines < len(numbers) else None


def visit_size(numbers, at):
    """How many numbers the visit at an index of a file has."""
    after = 10 if numbers[at + 8] else 9
    return after + (3 if numbers[at + after] else 1)


def edit_size(numbers, at):
    """The same of an edit."""
    return 5 + numbers[at + 4] if numbers[at] in (9, 10) else 1 + len(FIELDS[numbers[at]])


def edits_in(numbers):
    """The edits of a file of `shift`, each as the index of its first number and its numbers, as far as they go."""
    edits = []
    try:
        at = closures_at(numbers)
        at += 3 * numbers[at] + 1
        count, at = numbers[at], at + 1
        while len(edits) < count and at + edit_size(numbers, at) <= len(numbers):
            edits.append((at, numbers[at:at + edit_size(numbers, at)]))
            at += len(edits[-1][1])
    except (IndexError, KeyError, TypeError):
        pass  # a damaged file: the rest is not to be told
    return edits


class Said:
    """A visit of a file of `inspect`; a link is its numbers, or none."""

    def __init__(self, numbers):
        self.track, self.mark, self.arrival, self.arrived, self.departure, self.departed = numbers[:6]
        self.before, self.after = (numbers[6:8], numbers[8:]) if numbers[6] else (None, numbers[7:])
        self.after = self.after if self.after[0] else None

    @property
    def stops(self):
        """Whether it stops without a mark."""
        return self.departure > self.arrival or not self.before or not self.after

    @property
    def on_request(self):
        """Whether only its mark makes it stop."""
        return self.mark == 1 and not self.stops


def timetable_in(numbers):
    """The visits of a file of `inspect` by station and train, and its relations by station: kind and trains."""
    at = closures_at(numbers)
    at += 3 * numbers[at] + 1
    visits, relations = {}, {}
    count, at = numbers[at], at + 1
    for _ in range(count):
        size = visit_size(numbers, at)
        visits[tuple(numbers[at:at + 2])] = Said(numbers[at + 2:at + size])
        at += size
    count, at = numbers[at], at + 1
    for _ in range(count):
        station, kind, _, trains = numbers[at:at + 4]
        relations.setdefault(station, []).append((kind, numbers[at + 4:at + 4 + trains]))
        at += 4 + trains
    return visits, relations
