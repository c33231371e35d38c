#!/usr/bin/env python3
"""Draws the running map (train graph) of a network and a timetable as SVG, with the findings of `inspect`.

  tools/map.py tools/day.txt -o map.svg
  tools/run.sh inspect tools/day.txt | tools/map.py tools/day.txt --findings - -o map.svg

Stations go down, as far apart as their least running time, each with its tracks; time goes across. The longest way over
the lines comes first, then each branch, from the station where it leaves. A train is solid where its times have
occurred, dashed where they are pending, and has a ring where it stops on request. A hatched band between two stations
is a closure of the line that it names. A mark with a rule's number is a finding; pointing at anything tells about it.
"""

import argparse
import math
import subprocess
import sys
import tempfile
from collections import Counter
from html import escape
from itertools import pairwise
from pathlib import Path
from typing import NamedTuple

sys.dont_write_bytecode = True  # Leaves nothing beside the tools.
from encode import Damaged, decode, parse


# What a file holds, as documents 01 and 02 list it.

class Station(NamedTuple):
    area: int
    tracks: int


class Line(NamedTuple):
    """With the least running times of passenger and of freight trains."""
    first: int
    second: int
    kind: int
    passenger: int
    freight: int
    capacity: int

    @property
    def least(self):
        """The least running time of any train."""
        return min(self.passenger, self.freight)

    def least_of(self, train):
        return self.freight if sort(train) == "freight" else self.passenger


def sort(train):
    return "freight" if train >= 5000 else "passenger"


class Closure(NamedTuple):
    """From the start up to but not including the end."""
    line: int
    start: int
    end: int


class Moment(NamedTuple):
    time: int
    occurred: bool


class Link(NamedTuple):
    station: int
    line: int


class Visit(NamedTuple):
    """On request where it has a stop mark."""
    track: int
    on_request: bool
    arrival: Moment
    departure: Moment
    before: Link | None
    after: Link | None
    run: int


class Relation(NamedTuple):
    kind: int
    interval: int
    trains: list


class Day(NamedTuple):
    """A network and a timetable: visits by station and train, relations by station in their order."""
    stations: dict
    headway: int
    lines: dict
    closures: list
    visits: dict
    relations: dict


class Finding(NamedTuple):
    station: int
    rule: int
    first: int
    second: int


class Run(NamedTuple):
    """A train between two stations. Its arrival is the far visit's if the link is answered, else departure + run."""
    train: int
    start: int
    end: int
    departure: Moment
    arrival: Moment
    answered: bool


# Reading.

REFUSALS = {
    1: "the file ends early or goes on",
    2: "a number isn't shortest or its third byte has the top bit set",
    3: "a value or order is outside the ranges",
    4: "a line's ends aren't two different listed stations, or a closure's line isn't listed",
    5: "the file is longer than 16,384 bytes",
    7: "station, track or line unknown, or the line doesn't run that way",
    12: "a station limit is reached",
    14: "a closure's end is not after its start",
}


def read_numbers(path):
    """The numbers of a file. Bytes below 9 tell a file of bytes from a text: the first station's area is 1..6."""
    data = Path(path).read_bytes()
    if any(byte < 9 for byte in data):
        return decode(data)
    try:
        return parse(data.decode())
    except UnicodeDecodeError as fault:
        raise Damaged(f"byte {fault.start}: the text is not UTF-8") from None


def take(numbers):
    for number in numbers:
        return number
    raise Damaged("the numbers end early")


def row(numbers, count):
    return [take(numbers) for _ in range(count)]


def read_visit(numbers):
    station, train, track, mark, arrival, arrived, departure, departed = row(numbers, 8)
    previous = take(numbers)
    before = Link(previous, take(numbers)) if previous else None
    following = take(numbers)
    after = Link(following, take(numbers)) if following else None
    run = take(numbers) if following else 0
    moments = Moment(arrival, arrived == 1), Moment(departure, departed == 1)
    return (station, train), Visit(track, mark == 1, *moments, before, after, run)


def read_relation(numbers):
    station, kind, interval, count = row(numbers, 4)
    return station, Relation(kind, interval, row(numbers, count))


def read_rows(numbers, kind, fields):
    """A count, then rows by their first number."""
    rows = [row(numbers, 1 + fields) for _ in range(take(numbers))]
    return {first: kind(*rest) for first, *rest in rows}


def read_day(numbers):
    """The network and the timetable of a file that `inspect` did not refuse."""
    numbers = iter(numbers)
    stations, headway, lines = read_rows(numbers, Station, 2), take(numbers), read_rows(numbers, Line, 6)
    closures = [Closure(*row(numbers, 3)) for _ in range(take(numbers))]
    visits = dict(read_visit(numbers) for _ in range(take(numbers)))
    relations = {}
    for _ in range(take(numbers)):
        station, relation = read_relation(numbers)
        relations.setdefault(station, []).append(relation)
    if any(True for _ in numbers):
        raise Damaged("the numbers go on behind the timetable")
    return Day(stations, headway, lines, closures, visits, relations)


def run_inspect(numbers):
    """What `inspect` prints for these numbers."""
    with tempfile.NamedTemporaryFile("w", suffix=".txt") as text:
        print(*numbers, file=text, flush=True)
        command = [Path(__file__).with_name("run.sh"), "inspect", text.name]
        said = subprocess.run(command, stdout=subprocess.PIPE, text=True, check=False).stdout
    if not said:
        raise Damaged("inspect did not run; what it prints may be given by --findings")
    return said


def read_line(line):
    """The letter and the numbers of a line of `inspect`."""
    letter, *words = line.split() or [""]
    try:
        return letter, [int(word) for word in words]
    except ValueError:
        raise Damaged(f"not a line of inspect: {line!r}") from None


def read_findings(said):
    """Of what `inspect` prints: the findings, to whom each falls (areas), and the counts of visits and relations."""
    found, areas, counts = [], {}, None
    for letter, numbers in map(read_line, said.splitlines()):
        if letter == "R" and len(numbers) == 2:
            number, place = numbers
            raise Damaged(f"inspect refuses the file with {number} at byte {place}: {REFUSALS.get(number, 'refused')}")
        if letter == "F" and len(numbers) == 4:
            found.append(Finding(*numbers))
        elif letter in ("D", "P") and len(numbers) >= 5:
            areas[Finding(*numbers[-4:])] = numbers[:-4]
        elif letter == "T" and len(numbers) == 3:
            counts = numbers[:2]
    if counts is None:
        raise Damaged("the findings have no line T, so inspect did not print them whole")
    return found, areas, counts


# Rules whose train has an out-link.
LEAVING = (3, 5, 6, 7, 9, 10, 11)


def fits(day, finding):
    """Whether the timetable has what a finding names."""
    station, rule, first, second = finding
    if rule == 4:
        return 1 <= first <= len(day.relations.get(station, []))
    visit = day.visits.get((station, first))
    if visit is None or rule in LEAVING and not visit.after or rule == 8 and not visit.before:
        return False
    if rule in (2, 3, 10):
        other = day.visits.get((visit.after.station if rule == 10 else station, second))
        return other is not None and (rule == 2 or other.after is not None)
    if rule == 11:
        return second == visit.after.line and len(closures_met(day, visit)) > 0
    return 1 <= rule <= 10


def joined(day, station, link):
    """Whether a link goes by a line between its two stations."""
    line = day.lines.get(link.line)
    return line is not None and {line.first, line.second} == {station, link.station}


def check_match(day, found, counts):
    """Refuses findings of another file; `inspect` refuses one that names unknown stations or lines."""
    relations = sum(len(ranked) for ranked in day.relations.values())
    links = [(at, link) for (at, _), visit in day.visits.items() for link in (visit.before, visit.after) if link]
    known = (all(at in day.stations for at, _ in day.visits) and all(at in day.stations for at in day.relations)
             and all({line.first, line.second} <= set(day.stations) for line in day.lines.values())
             and all(closure.line in day.lines for closure in day.closures)
             and all(joined(day, *link) for link in links))
    if counts != [len(day.visits), relations] or not known or not all(fits(day, finding) for finding in found):
        raise Damaged("the findings are those of another file")


# The railway.

def answered(day, station, train):
    """Whether the far visit of an out-link has this station and line as in-link."""
    after = day.visits[station, train].after
    far = day.visits.get((after.station, train))
    return far is not None and far.before == Link(station, after.line)


def run_of(day, station, train):
    """The run that begins at a visit with an out-link."""
    visit = day.visits[station, train]
    end = visit.after.station
    if answered(day, station, train):
        return Run(train, station, end, visit.departure, day.visits[end, train].arrival, True)
    return Run(train, station, end, visit.departure, Moment(visit.departure.time + visit.run, False), False)


def runs_of(day):
    """All runs, each train's in the order of time."""
    found = [run_of(day, *key) for key, visit in day.visits.items() if visit.after]
    return sorted(found, key=lambda run: (run.train, run.departure.time))


def closures_met(day, visit):
    """The closures of a leaving train's line that share a minute with its occupation."""
    begin, end = visit.departure.time, visit.departure.time + visit.run
    return [one for one in day.closures if one.line == visit.after.line and begin < one.end and one.start < end]


def latest(day):
    """The time of the latest report, none if nothing has occurred."""
    moments = [moment for visit in day.visits.values() for moment in (visit.arrival, visit.departure)]
    return max((moment.time for moment in moments if moment.occurred), default=None)


def neighbours(lines):
    """The pairs of stations that lines join, with the least running time between them."""
    pairs = {}
    for line in lines.values():
        pair = frozenset((line.first, line.second))
        pairs[pair] = min(line.least, pairs.get(pair, line.least))
    return pairs


def ways_from(start, pairs):
    """The shortest way from a station to each that it reaches, with its minutes."""
    ways, todo = {start: (0, [start])}, [start]
    while todo:
        here = todo.pop(0)
        for pair, least in pairs.items():
            if here in pair:
                (there,) = pair - {here}
                minutes = ways[here][0] + least
                if there not in ways or minutes < ways[there][0]:
                    ways[there] = minutes, ways[here][1] + [there]
                    todo.append(there)
    return ways.values()


def walks_of(day):
    """The stations as walks along the lines, two neighbours side by side in exactly one walk: the longest of the
    shortest ways, then branches, each from a station of a walk before; last, stations without lines."""
    left, walks, seen = neighbours(day.lines), [], set()
    while left:
        ends = frozenset().union(*left)
        ways = [way for start in sorted(ends & seen or ends) for way in ways_from(start, left)]
        _, walk = max(ways, key=lambda way: way[0])
        walks.append(walk)
        seen.update(walk)
        for pair in pairwise(walk):
            del left[frozenset(pair)]
    return walks + [[station] for station in day.stations if station not in seen]


# Words.

def clock(time):
    """Minutes as hours and minutes; the second day's are marked."""
    return f"{time // 60 % 24:02}:{time % 60:02}" + (" +1" if time >= 1440 else "")


def moment_words(moment):
    return f"{clock(moment.time)} ({'occurred' if moment.occurred else 'pending'})"


def listing(numbers):
    *most, last = map(str, numbers)
    return f"{', '.join(most)} and {last}" if most else last


def window_words(closure):
    return f"{clock(closure.start)} to {clock(closure.end)}"


def rule_1(_day, _station, train, visit, _other):
    return (f"train {train} arrives {moment_words(visit.arrival)} and departs {moment_words(visit.departure)}: "
            "departure before arrival, or occurred with arrival pending")


def rule_2(_day, _station, train, visit, other):
    return (f"trains {train} and {other} are on track {visit.track} at once: the arrival of each is pending "
            "and not later than the other's departure")


def rule_3(day, station, train, visit, other):
    times = [day.visits[station, one].departure.time for one in (train, other)]
    return (f"trains {train} and {other} leave on line {visit.after.line} at {listing(map(clock, times))}, "
            f"closer than the headway of {day.headway} min")


def rule_4(relation):
    trains = listing(relation.trains)
    least = f"{relation.interval} min or more"
    if relation.kind == 1:
        return f"unmet connection of trains {trains}: all should visit and stop, each two together for {least}"
    if relation.kind == 2:
        return (f"unmet disconnection of trains {trains}: all should visit, and of each two that stop "
                f"one should arrive {least} after the other departs")
    arriver, departer = relation.trains
    return (f"unmet dependency: train {departer} should depart {least} after train {arriver} arrives, "
            "and both should visit and stop")


def rule_5(day, _station, train, visit, _other):
    line = visit.after.line
    least = f"{day.lines[line].least_of(train)} min for {sort(train)} trains"
    return f"train {train} runs {visit.run} min on line {line}, below the line's least of {least}"


def rule_6(day, _station, train, visit, _other):
    line = visit.after.line
    return (f"train {train} leaves at {clock(visit.departure.time)} on line {line} behind trains that number its "
            f"capacity of {day.lines[line].capacity} or more, or one that doesn't arrive before it")


def rule_7(_day, station, train, visit, _other):
    there, line = visit.after
    return (f"train {train} leaves for station {there} by line {line}, "
            f"but no visit there has station {station} and this line as in-link")


def rule_8(_day, station, train, visit, _other):
    there, line = visit.before
    return (f"train {train} comes from station {there} by line {line}, "
            f"but no visit there has station {station} and this line as out-link")


def rule_9(day, station, train, visit, _other):
    run = run_of(day, station, train)
    return (f"train {train} departs at {clock(visit.departure.time)} and runs {visit.run} min to station {run.end}, "
            f"but its arrival there, pending, is at {clock(run.arrival.time)}")


def rule_10(_day, station, train, visit, other):
    there, line = visit.after
    return (f"train {train} leaves on line {line} against train {other}, which neither arrives at station {station} "
            f"before that nor departs from station {there} after train {train}'s departure + run")


def rule_11(day, _station, train, visit, line):
    begin, end = visit.departure.time, visit.departure.time + visit.run
    return (f"train {train} is on line {line} from {clock(begin)} to {clock(end)}, but the line is closed from "
            f"{listing(window_words(closure) for closure in closures_met(day, visit))}")


RULES = {1: rule_1, 2: rule_2, 3: rule_3, 5: rule_5, 6: rule_6, 7: rule_7, 8: rule_8, 9: rule_9, 10: rule_10,
         11: rule_11}


def finding_words(day, finding, areas):
    """A finding in a sentence, with the areas to which it falls if they are known."""
    station, rule, first, second = finding
    if rule == 4:
        said = rule_4(day.relations[station][first - 1])
    else:
        said = RULES[rule](day, station, first, day.visits[station, first], second)
    falls = f" (falls to {'areas' if len(areas) > 1 else 'area'} {listing(areas)})" if areas else ""
    return f"Rule {rule} at station {station}: {said}{falls}"


def visit_words(key, visit):
    station, train = key
    times = f"arrives {moment_words(visit.arrival)}, departs {moment_words(visit.departure)}"
    request = ", request stop" if visit.on_request else ""
    return f"Train {train} at station {station}, track {visit.track}{request}: {times}"


def run_words(day, run):
    visit = day.visits[run.start, run.train]
    line = day.lines[visit.after.line]
    far = f"arrives {moment_words(run.arrival)}" if run.answered else "no visit there answers the link"
    return (f"Train {run.train} from station {run.start} to {run.end} by line {visit.after.line}: departs "
            f"{moment_words(run.departure)}, {far}; running time {visit.run} min, least {line.least_of(run.train)} min")


def line_words(number, line):
    start, end = (line.second, line.first) if line.kind == 2 else (line.first, line.second)
    way = f"{start} to {end}{', either way' if line.kind == 3 else ''}"
    least = f"least running time of passenger trains {line.passenger} min, of freight trains {line.freight} min"
    return f"Line {number}, station {way}: {least}, capacity {line.capacity}"


def closure_words(day, closure):
    line = day.lines[closure.line]
    return f"Line {closure.line} closed between stations {line.first} and {line.second}: from {window_words(closure)}"


# Where things are drawn.

LEFT, RIGHT, TOP, PITCH = 124, 64, 76, 8


class Plan:
    """The places of stations, tracks and minutes. A station where walks meet is drawn in each, with all its stays."""

    def __init__(self, day, scale):
        self.day, self.walks = day, walks_of(day)
        self.home = {frozenset(pair): at for at, walk in enumerate(self.walks) for pair in pairwise(walk)}
        times = [moment.time for visit in day.visits.values() for moment in (visit.arrival, visit.departure)]
        times += [run.arrival.time for run in runs_of(day)]
        self.begin = max(min(times, default=0) - 3, 0) // 10 * 10
        self.end = max(-(-(max(times, default=0) + 3) // 10) * 10, self.begin + 30)
        self.scale = scale or min(max(1200 / (self.end - self.begin), 2), 36)
        self.tops, y = [], TOP
        for walk in self.walks:
            self.tops.append(self.spread(walk, y))
            y = self.foot(len(self.tops) - 1) + 74
        self.bottom = y - 40
        self.right = self.x(self.end)

    def spread(self, walk, y):
        """The heights of the first tracks of a walk's stations."""
        pairs, tops = neighbours(self.day.lines), {walk[0]: y}
        for here, there in pairwise(walk):
            y += (self.day.stations[here].tracks - 1) * PITCH + min(28 + 6 * pairs[frozenset((here, there))], 220)
            tops[there] = y
        return tops

    def foot(self, at):
        """The height of the last track of a walk."""
        last = self.walks[at][-1]
        return self.y(at, last, self.day.stations[last].tracks)

    def x(self, time):
        return LEFT + (time - self.begin) * self.scale

    def y(self, at, station, track):
        return self.tops[at][station] + (track - 1) * PITCH

    def walk_between(self, one, other):
        return self.home[frozenset((one, other))]

    def walks_at(self, station):
        return [at for at, walk in enumerate(self.walks) if station in walk]

    def walks_by(self, key):
        """The walks of a visit's links, the in-link's first; if it has none, the first with its station."""
        visit = self.day.visits[key]
        linked = [self.walk_between(key[0], link.station) for link in (visit.before, visit.after) if link]
        return linked or self.walks_at(key[0])[:1]

    def stay(self, key, at):
        """The two ends of a visit in a walk."""
        visit = self.day.visits[key]
        y = self.y(at, key[0], visit.track)
        return (self.x(visit.arrival.time), y), (self.x(visit.departure.time), y)

    def run(self, run):
        """The two ends of a run."""
        at = self.walk_between(run.start, run.end)
        far = self.day.visits[run.end, run.train].track if run.answered else 1
        return ((self.x(run.departure.time), self.y(at, run.start, self.day.visits[run.start, run.train].track)),
                (self.x(run.arrival.time), self.y(at, run.end, far)))

    def band(self, closure):
        """The corners of a closure between its line's stations, as far as its minutes are drawn; none if none is."""
        line = self.day.lines[closure.line]
        at = self.walk_between(line.first, line.second)
        above, below = sorted((line.first, line.second), key=self.tops[at].get)
        begin, end = max(closure.start, self.begin), min(closure.end, self.end)
        top = self.y(at, above, self.day.stations[above].tracks)
        return ((self.x(begin), top), (self.x(end), self.tops[at][below])) if begin < end else None


def between(start, end, share):
    return start[0] + (end[0] - start[0]) * share, start[1] + (end[1] - start[1]) * share


def crossing(one, other):
    """Where two pieces cross; the middle of the first if they don't."""
    (ax, ay), (bx, by) = one
    (cx, cy), (dx, dy) = other
    turn = (bx - ax) * (dy - cy) - (by - ay) * (dx - cx)
    if turn:
        share = ((cx - ax) * (dy - cy) - (cy - ay) * (dx - cx)) / turn
        rest = ((cx - ax) * (by - ay) - (cy - ay) * (bx - ax)) / turn
        if 0 <= share <= 1 and 0 <= rest <= 1:
            return between(*one, share)
    return between(*one, 0.5)


def meeting(plan, station, trains):
    """Of trains at a station, where the last one arrives, with its walk; the station's name if none visits."""
    keys = [(station, train) for train in trains if (station, train) in plan.day.visits]
    if not keys:
        at = plan.walks_at(station)[0]
        return at, (LEFT, plan.y(at, station, 1))
    last = max(keys, key=lambda key: plan.day.visits[key].arrival.time)
    at = plan.walks_by(last)[0]
    return at, plan.stay(last, at)[0]


def spot(plan, finding):
    """The point that a finding marks."""
    day, (station, rule, first, second) = plan.day, finding
    if rule in (1, 8):
        key = station, first
        return between(*plan.stay(key, plan.walks_by(key)[0]), 0.5 if rule == 1 else 0)
    if rule in (2, 4):
        return meeting(plan, station, (first, second) if rule == 2 else day.relations[station][first - 1].trains)[1]
    run = plan.run(run_of(day, station, first))
    if rule == 3:
        return max(run[0], plan.run(run_of(day, station, second))[0])
    if rule == 10:
        return crossing(run, plan.run(run_of(day, day.visits[station, first].after.station, second)))
    share = shut_share(day, day.visits[station, first]) if rule == 11 else {5: 0.5, 6: 0, 7: 1, 9: 0.5}[rule]
    return between(*run, share)


def shut_share(day, visit):
    """How far along its run a train is in the middle of the minutes that it shares with the first closure it meets."""
    closure, departure = closures_met(day, visit)[0], visit.departure.time
    begin, end = max(departure, closure.start), min(departure + visit.run, closure.end)
    return ((begin + end) / 2 - departure) / visit.run


class Crowd:
    """How much is drawn around each place, by squares of six."""

    def __init__(self):
        self.squares = Counter()

    def put(self, points, weight):
        for square in {(int(x // 6), int(y // 6)) for x, y in points}:
            self.squares[square] += weight

    def line(self, start, end):
        steps = int(math.dist(start, end) // 4) + 1
        self.put([between(start, end, step / steps) for step in range(steps + 1)], 1)

    def least(self, choices, weight):
        """Of choices, each a place, the points that it covers and its cost, the one that covers least; it is taken."""
        cost = [sum(self.squares[int(x // 6), int(y // 6)] for x, y in points) + extra for _, points, extra in choices]
        place, points, _ = choices[cost.index(min(cost))]
        self.put(points, weight)
        return place


# Drawing.

INK, FAINT, ALARM = "#222222", "#b8b8b8", "#b3121d"
AREAS = ["#eef4fb", "#fbf6ea", "#eef8ee", "#f8eef6", "#eef7f8", "#f4f1ec"]
TRAINS = ["#0b4f8a", "#7a3b00", "#0f6b4f", "#6a2c91", "#40474f", "#8a0f5c"]
PENDING = "5 3"
NOW = {"stroke": INK, "stroke_width": 1.2, "stroke_dasharray": "8 2 2 2"}
SHUT = "#8f5a00"


def tag(name, *inside, **attributes):
    """An element; an underscore in an attribute's name stands for a hyphen."""
    def value(it):
        return f"{it:.1f}".removesuffix(".0") if isinstance(it, float) else escape(str(it))
    said = "".join(f' {key.replace("_", "-")}="{value(it)}"' for key, it in attributes.items() if it is not None)
    return f"<{name}{said}>{''.join(inside)}</{name}>" if inside else f"<{name}{said}/>"


def text(x, y, said, size=11, **attributes):
    return tag("text", escape(said), x=float(x), y=float(y), font_size=size, **attributes)


def told(words, *inside, **attributes):
    """Elements with a tooltip."""
    return tag("g", tag("title", escape(words)), *inside, **attributes)


def stroke(start, end, **attributes):
    return tag("line", x1=float(start[0]), y1=float(start[1]), x2=float(end[0]), y2=float(end[1]), **attributes)


def grid_step(scale, least):
    """The least usual step of minutes that is so many pixels wide."""
    return next((step for step in (1, 2, 5, 10, 15, 30, 60, 120, 240) if step * scale >= least), 480)


def draw_times(plan, at):
    """The minutes across one walk: lines, thicker at the hour, and clock times above."""
    top, foot = plan.tops[at][plan.walks[at][0]] - 14, plan.foot(at) + 14
    step, worded, parts = grid_step(plan.scale, 12), grid_step(plan.scale, 52), []
    for time in range(-(-plan.begin // step) * step, plan.end + 1, step):
        x, width = plan.x(time), 1.4 if time % 60 == 0 else 0.8 if time % worded == 0 else 0.4
        parts.append(stroke((x, top), (x, foot), stroke=FAINT, stroke_width=width))
        if time % worded == 0:
            weight = "bold" if time % 60 == 0 else None
            parts.append(text(x, top - 5, clock(time), 10, text_anchor="middle", font_weight=weight))
    return parts


def draw_areas(plan, at):
    """Behind each station its area's tint, half the way to its neighbours."""
    stations, walk, tops, parts = plan.day.stations, plan.walks[at], plan.tops[at], []
    for before, here, after in zip([None, *walk], walk, [*walk[1:], None]):
        foot = plan.y(at, here, stations[here].tracks)
        top = (plan.y(at, before, stations[before].tracks) + tops[here]) / 2 if before else tops[here] - 14
        end = (foot + tops[after]) / 2 if after else foot + 14
        parts.append(tag("rect", x=0, y=float(top), width=float(plan.right + RIGHT), height=float(end - top),
                         fill=AREAS[stations[here].area - 1]))
        parts.append(text(plan.right + 10, (tops[here] + foot) / 2 + 4, f"area {stations[here].area}"))
    return parts


def draw_station(plan, at, station):
    """A station's name and its tracks."""
    area, tracks = plan.day.stations[station]
    ys = [plan.y(at, station, track) for track in range(1, tracks + 1)]
    words = f"Station {station}, area {area}; count of tracks: {tracks}"
    return told(words, text(10, (ys[0] + ys[-1]) / 2 + 4, f"Station {station}", 13, font_weight="bold"),
                *(stroke((LEFT, y), (plan.right, y), stroke="#8a8a8a", stroke_width=0.7) for y in ys))


def draw_lines(plan, at, above, below):
    """The lines between two neighbours, in the margin, with the way that they run."""
    joining = {number: line for number, line in plan.day.lines.items() if {line.first, line.second} == {above, below}}
    ways = {number: "↕" if line.kind == 3 else "↓" if (line.kind == 1) == (line.first == above) else "↑"
            for number, line in joining.items()}
    y = (plan.y(at, above, plan.day.stations[above].tracks) + plan.tops[at][below]) / 2 + 4
    said = " ".join(f"{number}{way}" for number, way in ways.items())
    least = min(line.least for line in joining.values())
    return told("\n".join(line_words(*line) for line in joining.items()),
                text(14, y, f"line {said}  {least} min", 10, fill="#555555"))


def hatching():
    """The pattern of a closed line."""
    lines = tag("line", x1=0, y1=0, x2=0, y2=6, stroke=SHUT, stroke_width=1.6, stroke_opacity=0.5)
    tint = tag("rect", width=6, height=6, fill="#f3b64c", fill_opacity=0.3)
    return tag("defs", tag("pattern", tint, lines, id="closed", width=6, height=6, patternUnits="userSpaceOnUse",
                           patternTransform="rotate(45)"))


def band(start, end):
    """A closed line's minutes."""
    (x, y), (right, foot) = start, end
    return tag("rect", x=float(x), y=float(y), width=float(right - x), height=float(foot - y), fill="url(#closed)",
               stroke=SHUT, stroke_width=0.8)


def drawn_closures(plan):
    """The closures that have a band, with it."""
    found = [(closure, plan.band(closure)) for closure in plan.day.closures]
    return [(closure, corners) for closure, corners in found if corners]


def draw_closures(plan):
    return [told(closure_words(plan.day, closure), band(*corners)) for closure, corners in drawn_closures(plan)]


def shut_choices(corners, said):
    """Places for the words of a band: at its foot, its head or between, within it or else over it."""
    (left, top), (right, foot) = corners
    half, choices = 3 * len(said), []
    for y in (foot - 6, top + 12, (top + foot) / 2 + 3):
        for share in (0.5, 0, 1):
            x = left + half + 4 + max(right - left - 2 * half - 8, 0) * share
            points = [(x + across, y + up) for across in range(-half, half + 1, 5) for up in (0, -5)]
            choices.append(((x, y), points, 0))
    return choices


def draw_shut_words(plan, crowd):
    """Over each band its line."""
    parts = []
    for closure, corners in drawn_closures(plan):
        said = f"line {closure.line} closed"
        x, y = crowd.least(shut_choices(corners, said), 6)
        parts.append(text(x, y, said, 10, text_anchor="middle"))
    return [tag("g", *parts, fill=SHUT, font_weight="bold", stroke="white", stroke_width=2.5,
                paint_order="stroke")] if parts else []


def draw_walk(plan, at):
    walk = plan.walks[at]
    title = f"Stations {walk[0]} to {walk[-1]}" if len(walk) > 1 else "No lines"
    parts = [*draw_areas(plan, at), *draw_times(plan, at), text(10, plan.tops[at][walk[0]] - 19, title)]
    parts += [draw_station(plan, at, station) for station in walk]
    return parts + [draw_lines(plan, at, *pair) for pair in pairwise(walk)]


def done(begin, end, now):
    """How much of a piece between two moments has occurred, 0 to 1; of one under way, what lies before now."""
    if end.occurred:
        return 1
    if not begin.occurred or end.time <= begin.time:
        return 0
    return min((now - begin.time) / (end.time - begin.time), 1)


def draw_piece(words, ends, share, wide=1.7):
    """A piece of a train, solid for its occurred share, with a wide unseen stroke to point at."""
    middle = between(*ends, share)
    parts = [stroke(*ends, stroke_opacity=0, stroke_width=9)]
    if share > 0:
        parts.append(stroke(ends[0], middle))
    if share < 1:
        parts.append(stroke(middle, ends[1], stroke_dasharray=PENDING))
    return told(words, *parts, stroke_width=wide)


def stub(plan, key, at):
    """Where a train comes from that no visit answers: a short piece towards the previous station."""
    start, _ = plan.stay(key, at)
    up = plan.tops[at][plan.day.visits[key].before.station] < start[1]
    return (start[0] - 12, start[1] + (-20 if up else 20)), start


def comes_unanswered(day, key):
    """Whether no visit answers the in-link of one that has it."""
    visit = day.visits[key]
    previous = day.visits.get((visit.before.station, key[1]))
    return previous is None or previous.after != Link(key[0], visit.before.line)


def ring(x, y, **attributes):
    """The sign of a request stop."""
    return tag("circle", cx=float(x), cy=float(y), r=3.6, fill="white", stroke_width=1.5, **attributes)


def draw_visit(plan, key, now):
    """A visit in each walk with its station: the stay on its track, thin where the train has no link in that walk;
    a ring where it stops on request, a dot where the train begins or ends."""
    visit, linked, parts = plan.day.visits[key], plan.walks_by(key), []
    words, share = visit_words(key, visit), done(visit.arrival, visit.departure, now)
    for at in plan.walks_at(key[0]):
        ends = plan.stay(key, at)
        parts.append(draw_piece(words, ends, share, 1.7 if at in linked else 0.8))
        if visit.on_request and at in linked:
            parts.append(told(words, ring(*between(*ends, 0.5))))
        dots = [end for end, link in zip(ends, (visit.before, visit.after)) if not link and at in linked]
        parts += [told(words, tag("circle", cx=float(x), cy=float(y), r=2.6, stroke="none")) for x, y in dots]
    if visit.before and comes_unanswered(plan.day, key):
        parts.append(draw_piece(words, stub(plan, key, linked[0]), 0))
    return parts


def draw_trains(plan, now):
    """Every train, its visits and runs in one group and one colour."""
    day, parts = plan.day, {}
    for key in day.visits:
        parts.setdefault(key[1], []).extend(draw_visit(plan, key, now))
    for run in runs_of(day):
        share = done(run.departure, run.arrival, now)
        parts[run.train].append(draw_piece(run_words(day, run), plan.run(run), share))
    return [tag("g", *parts[train], stroke=colour(day, train), fill=colour(day, train), **{"class": "train"})
            for train in sorted(parts)]


def colour(day, train):
    trains = sorted({train for _, train in day.visits})
    return TRAINS[trains.index(train) % len(TRAINS)]


def crowd_of(plan):
    """All trains as drawn."""
    crowd = Crowd()
    for run in runs_of(plan.day):
        crowd.line(*plan.run(run))
    for key in plan.day.visits:
        for at in plan.walks_at(key[0]):
            crowd.line(*plan.stay(key, at))
    return crowd


def label_choices(ends, number):
    """Places for a train's number along a run, above it, with the points that it covers; one too short costs more."""
    (ax, ay), (bx, by) = sorted(ends)
    length, width = math.dist(*ends), 7 * len(number)
    if length == 0:
        return []
    ux, uy = (bx - ax) / length, (by - ay) / length
    choices = []
    for share in (0.5, 0.3, 0.7):
        x, y = between(*ends, share)
        points = [(x + ux * along + uy * over, y + uy * along - ux * over)
                  for along in range(-width // 2, width // 2 + 1, 4) for over in (4, 9)]
        choices.append(((x, y, math.degrees(math.atan2(uy, ux))), points, 40 if length < width + 8 else 0))
    return choices


def labelled(plan):
    """What gets a train's number: each walk's runs of the train by threes; a train without runs by its stay."""
    groups = {}
    for run in runs_of(plan.day):
        groups.setdefault((plan.walk_between(run.start, run.end), run.train), []).append(plan.run(run))
    for (_, train), runs in groups.items():
        for begin in range(0, len(runs), 3):
            yield train, runs[begin:begin + 3]
    running = {train for _, train in groups}
    for key in plan.day.visits:
        if key[1] not in running:
            (ax, ay), (bx, by) = plan.stay(key, plan.walks_by(key)[0])
            yield key[1], [((ax - 12, ay), (bx + 12, by))]


def draw_labels(plan, crowd):
    parts = []
    for train, pieces in labelled(plan):
        choices = [choice for ends in pieces for choice in label_choices(ends, str(train))]
        if choices:
            x, y, turn = crowd.least(choices, 4)
            parts.append(text(0, -3, str(train), 10.5, fill=colour(plan.day, train),
                              transform=f"translate({x:.1f} {y:.1f}) rotate({turn:.1f})"))
    return [tag("g", *parts, text_anchor="middle", font_weight="bold", stroke="white", stroke_width=2.5,
                paint_order="stroke")] if parts else []


def sign(x, y, rule):
    """A rule's mark: round for rules of one station, square for rules 7 to 10, which look at another station too."""
    shape = (tag("rect", x=float(x - 8), y=float(y - 8), width=16, height=16) if 7 <= rule <= 10 else
             tag("circle", cx=float(x), cy=float(y), r=8.5))
    return (tag("g", shape, fill="white", stroke=ALARM, stroke_width=1.8)
            + text(x, y + 4, str(rule), 11, text_anchor="middle", font_weight="bold", fill=ALARM))


def mark_choices(point):
    """Places for a mark around its point, near ones first."""
    choices = []
    for far in (19, 27, 38):
        for turn in range(0, 360, 45):
            x, y = point[0] + far * math.cos(math.radians(turn)), point[1] - far * math.sin(math.radians(turn))
            points = [(x + dx, y + dy) for dx in (-9, -4, 0, 4, 9) for dy in (-9, -4, 0, 4, 9)]
            choices.append(((x, y), points, far / 4))
    return choices


def ties(plan, finding):
    """From an unmet relation's point to the stays of its trains."""
    if finding.rule != 4:
        return []
    trains = plan.day.relations[finding.station][finding.first - 1].trains
    at, point = meeting(plan, finding.station, trains)
    keys = [(finding.station, train) for train in trains if (finding.station, train) in plan.day.visits]
    return [stroke(point, between(*plan.stay(key, at), 0.5), stroke_dasharray="1 2") for key in keys]


def draw_marks(plan, found, areas, crowd):
    parts = []
    for finding in found:
        point = spot(plan, finding)
        x, y = crowd.least(mark_choices(point), 20)
        edge = between((x, y), point, 9 / math.dist((x, y), point))
        parts.append(told(finding_words(plan.day, finding, areas.get(finding, [])),
                          tag("g", stroke(edge, point), *ties(plan, finding), stroke=ALARM, stroke_width=1.2),
                          tag("circle", cx=float(point[0]), cy=float(point[1]), r=3, fill=ALARM),
                          sign(x, y, finding.rule)))
    return parts


def draw_now(plan, now):
    """The latest report, across all walks."""
    parts = []
    for at, walk in enumerate(plan.walks):
        x, top = plan.x(now), plan.tops[at][walk[0]] - 14
        parts.append(stroke((x, top), (x, plan.foot(at) + 14)))
    return [told(f"The latest report: {clock(now)}", *parts, **NOW)]


def draw_legend(y, width, now, walks, closed, on_request):
    """What the signs mean, in rows of a width, and the height of the last row."""
    line = {"stroke": INK, "stroke_width": 1.7}
    items = [(stroke((0, -4), (30, -4), **line), 36, "occurred"),
             (stroke((0, -4), (30, -4), stroke_dasharray=PENDING, **line), 36, "pending"),
             (tag("polyline", points="0,-12 8,-4 22,-4 30,4", fill="none", **line), 36, "run, stay on a track, run")]
    if walks > 1:
        items.append((stroke((0, -4), (20, -4), stroke=INK, stroke_width=0.8), 26, "thin: it runs in another part"))
    items.append((tag("circle", cx=4, cy=-4, r=2.6, fill=INK), 14, "train begins or ends"))
    if on_request:
        items.append((stroke((0, -4), (16, -4), **line) + ring(8, -4, stroke=INK), 22, "request stop"))
    items += [(sign(8, -4, 3), 22, "finding by rule 1 to 6 or 11"),
              (sign(8, -4, 9), 22, "by rule 7 to 10, of two stations")]
    if closed:
        items.append((band((0, -12), (26, 4)), 32, "line closed"))
    if now is not None:
        items.append((stroke((4, -13), (4, 5), **NOW), 12, f"latest report, {clock(now)}"))
    parts, x = [], 10
    for shape, wide, words in items:
        end = x + wide + 6.3 * len(words)
        if end > width:
            x, y, end = 10, y + 26, end - x + 10
        parts.append(tag("g", shape, text(wide, 0, words), transform=f"translate({x} {y})"))
        x = end + 20
    return parts, y


def draw_list(plan, found, areas, y):
    """The findings in words, for paper, where nothing can be pointed at."""
    parts = [text(10, y, f"Findings: {len(found)}", 13, font_weight="bold")]
    for at, finding in enumerate(found, 1):
        words = finding_words(plan.day, finding, areas.get(finding, []))
        parts += [sign(20, y + 20 * at - 4, finding.rule), text(36, y + 20 * at, words)]
    return parts


def draw(day, found, areas, scale):
    """The whole picture."""
    plan, now = Plan(day, scale), latest(day)
    crowd = crowd_of(plan)
    parts = [hatching()] + [part for at in range(len(plan.walks)) for part in draw_walk(plan, at)] + draw_closures(plan)
    if now is not None:
        parts += draw_now(plan, now)
    parts += draw_trains(plan, now)
    closed = draw_shut_words(plan, crowd)
    marks = draw_marks(plan, found, areas, crowd)
    parts += closed + draw_labels(plan, crowd) + marks
    trains = len({train for _, train in day.visits})
    span = f"{clock(plan.begin)} to {clock(plan.end)}{' (+1: the next day)' if plan.end >= 1440 else ''}"
    parts.append(text(10, 26, f"Running map, {span}; trains: {trains}", 15, font_weight="bold"))
    width = plan.right + RIGHT
    on_request = any(visit.on_request for visit in day.visits.values())
    legend, foot = draw_legend(plan.bottom + 8, width, now, len(plan.walks), bool(closed), on_request)
    parts += legend + draw_list(plan, found, areas, foot + 36)
    height = foot + 56 + 20 * len(found)
    return tag("svg", tag("style", ".train:hover g { stroke-width: 3.4 }"),
               tag("rect", width=float(width), height=float(height), fill="white"), "\n", "\n".join(parts), "\n",
               xmlns="http://www.w3.org/2000/svg", width=float(width), height=float(height),
               viewBox=f"0 0 {width:.0f} {height:.0f}", font_family="sans-serif") + "\n"


def pixels(said):
    if not 0.5 <= float(said) <= 100:
        raise ValueError
    return float(said)


def options():
    about, _, more = __doc__.partition("\n\n")
    parser = argparse.ArgumentParser(
        description=about, epilog=more, formatter_class=argparse.RawDescriptionHelpFormatter)
    parser.add_argument("file", help="a network and a timetable, as decimal numbers or as bytes")
    parser.add_argument("-o", "--output", metavar="SVG", help="where the picture goes; without it, standard output")
    parser.add_argument("--findings", metavar="FILE", help="what inspect printed, - for standard input; without it, "
                        "tools/run.sh runs inspect")
    parser.add_argument("--scale", type=pixels, metavar="PIXELS", help="the width of a minute, 0.5 to 100")
    return parser.parse_args()


def main():
    arguments = options()
    try:
        numbers = read_numbers(arguments.file)
        if arguments.findings is None:
            said = run_inspect(numbers)
        else:
            said = Path("/dev/stdin" if arguments.findings == "-" else arguments.findings).read_text(errors="replace")
        found, areas, counts = read_findings(said)
        day = read_day(numbers)
        check_match(day, found, counts)
        picture = draw(day, found, areas, arguments.scale)
        if arguments.output:
            Path(arguments.output).write_text(picture, encoding="utf-8")
        else:
            sys.stdout.write(picture)
    except (Damaged, OSError) as fault:
        print(f"map.py: {fault}", file=sys.stderr)
        return 1
    return 0


if __name__ == "__main__":
    sys.exit(main())
