"""Damaged files, each with the output that it must give where the damage alone tells it."""

from copy import copy

from drafts import LONGEST_INPUT, TIME, Draft, Network, encode
from timetables import Inspect, in_order
from traffic import Shift, Visit


def damage(r, good, index):
    """A damaged file from a good one: its bytes and the output that it must give, or none where that is left open."""
    ways = [truncated, surplus, longer_spelling, third_byte, out_of_range, out_of_order, trains_out_of_order, bad_ends,
            bad_time, bad_mark, bad_minute, changed_bytes, two_faults, oversize, ends_and_more, bad_closure, bad_window,
            window_and_more, unlisted_closure, closure_and_more]
    if isinstance(good, Inspect):
        ways += [unknown, out_of_order, unknown, over_limit, limit_and_unknown, relation_at_unlisted]
    data, expected = ways[index % len(ways)](r, good)
    return data, expected if len(data) <= LONGEST_INPUT else must(5, 0)


def must(refusal, place):
    return f"R {refusal} {place}\n".encode()


def truncated(r, good):
    data = good.draft.bytes()
    end = r.choice([r.randrange(len(data)), len(data) - 1, r.randrange(min(len(data), 20))])
    return data[:end], must(1, end)


def surplus(r, good):
    data = good.draft.bytes()
    more = bytes(r.choice([0, 1, 0x80, 0xFF, r.randrange(256)]) for _ in range(r.choice([1, 1, 2, 3, 50])))
    return data + more, must(1, len(data))


def longer_spelling(r, good):
    """A number with a last group of 0."""
    draft = good.draft
    index = draft.any_index(r)
    spelling = encode(draft.values[index])
    longer = spelling[:-1] + bytes([spelling[-1] | 0x80]) + (b"\0" if r.random() < 0.6 or len(spelling) == 2 else b"\x80\0")
    data, place = draft.bytes_with(index, longer), draft.place(index)
    if r.random() < 0.2:
        data = data[:place + len(longer)]
    return data, must(2, place)


def third_byte(r, good):
    """A third byte with the top bit set, perhaps the file's last."""
    draft = good.draft
    index = draft.any_index(r)
    spelling = bytes(r.choice([0x80, 0xFF, r.randrange(0x80, 0x100)]) for _ in range(3))
    place = draft.place(index)
    data = draft.bytes_with(index, spelling + r.choice([b"", b"\0", b"\x01", b"\x80\x01"]))
    if r.random() < 0.4:
        data = data[:place + 3]
    return data, must(2, place)


def fault_in(r, draft, index, fault):
    """A draft with a value that is at fault; what stands behind it may be anything, or be gone."""
    draft = draft.copy()
    draft.values[index] = fault
    place = draft.place(index)
    data = draft.bytes()
    if r.random() < 0.15:
        data = data[:place + len(encode(fault))]
    elif r.random() < 0.15:
        data += b"\x80\0"
    return data, must(3, place)


def out_of_range(r, good):
    draft = good.draft
    index = draft.any_index(r)
    if r.random() < 0.6:
        # Numbers of which a file has few, such as the headway, have their turn as often as others.
        bounds = r.choice(sorted(set(draft.ranges)))
        index = r.choice([at for at, one in enumerate(draft.ranges) if one == bounds])
    low, high = draft.ranges[index]
    faults = [high + 1, high + 1, r.randint(high + 1, 2097151), 2097151] + ([low - 1, low - 1] if low > 0 else [])
    return fault_in(r, draft, index, r.choice(faults))


def out_of_order(r, good):
    """An entry that falls at some number of its key, or that is equal to the one before."""
    groups = [group for group in good.draft.groups if len(group) > 1]
    if not groups:
        return out_of_range(r, good)
    group = r.choice(groups)
    rank = r.randrange(1, len(group))
    before, now = group[rank - 1], group[rank]
    draft = good.draft.copy()
    key = [draft.values[index] for index in before]
    if r.random() < 0.3:
        at, fault = len(key) - 1, key[-1]
    else:
        lows = [draft.ranges[index][0] for index in before]
        falling = [at for at, value in enumerate(key) if value > lows[at]]
        if not falling:
            return out_of_range(r, good)
        at = r.choice(falling)
        fault = r.choice([key[at] - 1, r.randint(lows[at], key[at] - 1)])
    # The key of the entry before up to the fault, in place of as many numbers of this entry's own.
    behind = now[min(at, len(now) - 1)] + 1
    draft.values = draft.values[:now[0]] + key[:at] + [fault] + draft.values[behind:]
    return fault_in(r, draft, now[0] + at, fault)


def trains_out_of_order(r, good):
    """Within a connection or disconnection a train that isn't above the one before it."""
    draft = good.draft
    rising = [trains for _, trains, rises in draft.relations if rises]
    if not rising:
        return out_of_range(r, good)
    trains = r.choice(rising)
    rank = r.randrange(1, len(trains))
    before = draft.values[trains[rank - 1]]
    return fault_in(r, draft, trains[rank], r.choice([before, before, r.randint(1, before)]))


def with_bad_ends(r, good):
    """A draft with bad ends of some lines, and the first byte of the first such line; none if it has no lines."""
    draft = good.draft.copy()
    if not draft.lines:
        return None
    unlisted = [number for number in range(1, 17) if number not in good.network.stations]
    chosen = sorted(r.sample(draft.lines, min(len(draft.lines), r.choice([1, 1, 2]))))
    for index in chosen:
        what = r.randrange(3)
        if what == 0 or not unlisted:
            draft.values[index + 2] = draft.values[index + 1]
        else:
            draft.values[index + what] = r.choice(unlisted)
    return draft, draft.place(chosen[0])


def bad_ends(r, good):
    bad = with_bad_ends(r, good)
    return (bad[0].bytes(), must(4, bad[1])) if bad else truncated(r, good)


def ends_and_more(r, good):
    """Bad ends and another fault, which comes first wherever it stands."""
    bad = with_bad_ends(r, good)
    if not bad:
        return surplus(r, good)
    data = bad[0].bytes()
    if r.random() < 0.5:
        return data + b"\0", must(1, len(data))
    end = r.randrange(bad[1], len(data))
    return data[:end], must(1, end)


def bad_time(r, good):
    """A least running time of a line out of range, that of passenger or freight trains; of both the first decides."""
    draft = good.draft
    if not draft.lines:
        return out_of_range(r, good)
    index = passenger = r.choice(draft.lines) + 4
    what = r.randrange(3)
    if what == 1:
        index = passenger + 1
    elif what == 2:
        draft = changed(draft, {passenger + 1: r.choice([0, 241])})
    return fault_in(r, draft, index, r.choice([0, 241, 241, r.randint(241, 2097151)]))


def bad_mark(r, good):
    """A stop mark above 1, at times behind a track out of range, which comes first."""
    draft = good.draft
    if not draft.marks:
        return out_of_range(r, good)
    index = r.choice(draft.marks)
    if r.random() < 0.2:
        return fault_in(r, changed(draft, {index: 2}), index - 1, r.choice([0, 9]))
    return fault_in(r, draft, index, r.choice([2, 2, 2, 3, 128, 2097151]))


def bad_minute(r, good):
    """A report's minute above the last one, at times behind a time out of range, which comes first; or none at all."""
    draft = good.draft
    if not draft.minutes:
        return out_of_range(r, good)
    index = r.choice(draft.minutes)
    if r.random() < 0.1:
        end = draft.place(index)
        return draft.bytes()[:end], must(1, end)
    if r.random() < 0.2:
        return fault_in(r, changed(draft, {index: 2880}), index - 1, 2880)
    return fault_in(r, draft, index, r.choice([2880, 2880, 2880, 2881, 16384, 2097151]))


def closed(good, closures):
    """A file with other closures, which may be at fault."""
    network = good.network
    other = copy(good)
    other.network = Network(network.stations, network.headway, network.lines, closures)
    other.draft = Draft()
    other.draft.put_network(other.network)
    other.put_rest(other.draft)
    return other


def some_closures(r, good):
    """The closures of a file, or some that it could have; none if it has no lines."""
    if good.network.closures or not good.network.lines:
        return list(good.network.closures)
    lines = sorted(r.choices(list(good.network.lines), k=r.choice([1, 2, 3])))
    return [(line, 9 * rank, 9 * rank + r.randint(1, 12)) for rank, line in enumerate(lines, r.choice([0, 1, 20]))]


def bad_closure(r, good):
    """A number of the closures out of range or out of order, their count included; or the file ends among them."""
    good = closed(good, some_closures(r, good))
    draft = good.draft
    first, behind = draft.network_end - 3 * len(draft.closures) - 1, draft.network_end
    what = r.randrange(4)
    if what == 0:
        end = r.randint(draft.place(first), draft.place(behind))
        return draft.bytes()[:end], must(1, end)
    if what == 1 and len(draft.closures) > 1:
        only = copy(good)
        only.draft = draft.copy()
        only.draft.groups = [[[at, at + 1] for at in draft.closures]]
        return out_of_order(r, only)
    index = r.randrange(first, behind)
    low, high = draft.ranges[index]
    return fault_in(r, draft, index, r.choice([high + 1, r.randint(high + 1, 2097151)] + ([low - 1] if low else [])))


def with_bad_windows(r, good):
    """A file with closures whose ends aren't after their starts, and the first byte of the first; none without lines."""
    closures = some_closures(r, good)
    late = [at for at, (_, start, _) in enumerate(closures) if start > 0]
    if not late:
        return None
    chosen = sorted(r.sample(late, min(len(late), r.choice([1, 1, 2]))))
    for at in chosen:
        line, start, _ = closures[at]
        closures[at] = line, start, r.choice([start, start, r.randint(1, start)])
    bad = closed(good, closures)
    return bad, bad.draft.place(bad.draft.closures[chosen[0]])


def bad_window(r, good):
    bad = with_bad_windows(r, good)
    return (bad[0].draft.bytes(), must(14, bad[1])) if bad else truncated(r, good)


def window_and_more(r, good):
    """A window at fault and another fault: a faulty number comes first wherever it stands, all else later."""
    bad = with_bad_windows(r, good)
    if not bad:
        return surplus(r, good)
    file, place = bad
    what = r.randrange(5)
    if what == 0:
        return surplus(r, file)
    if what == 1:
        index = r.randrange(file.draft.network_end, len(file.draft.values))
        return fault_in(r, file.draft, index, file.draft.ranges[index][1] + 1)
    if what == 2:
        return with_bad_ends(r, file)[0].bytes(), must(14, place)
    return before_unknown(r, file, must(14, place))


def before_unknown(r, file, expected):
    """A file that is at fault, and in a timetable something unknown besides, which doesn't matter."""
    if not isinstance(file, Inspect):
        return file.draft.bytes(), expected
    data, other = unknown(r, file)
    return data, expected if other.startswith(b"R 7") else other


def with_unlisted(r, good):
    """A file with closures of unlisted lines, and the first byte of the first; none if all lines are listed."""
    unlisted = [line for line in range(1, 33) if line not in good.network.lines]
    if not unlisted:
        return None
    closures = some_closures(r, good)
    wrong = []
    for line in r.sample(unlisted, min(len(unlisted), r.choice([1, 1, 2]))):
        start = r.randint(*TIME)
        wrong.append((line, start, r.randint(start + 1, 2880)))
    kept = r.sample(closures, min(len(closures), 32 - len(wrong)))
    bad = closed(good, sorted(kept + wrong))
    return bad, bad.draft.place(bad.draft.closures[bad.network.closures.index(min(wrong))])


def unlisted_closure(r, good):
    bad = with_unlisted(r, good)
    return (bad[0].draft.bytes(), must(4, bad[1])) if bad else bad_ends(r, good)


def closure_and_more(r, good):
    """A closure of an unlisted line and another fault: only what a timetable's entries bring comes later."""
    bad = with_unlisted(r, good)
    if not bad:
        return bad_window(r, good)
    file, place = bad
    what = r.randrange(4)
    if what == 0:
        return surplus(r, file)
    if what == 1:
        return bad_ends(r, file)
    if what == 2:
        return bad_window(r, file)
    return before_unknown(r, file, must(4, place))


def changed_bytes(r, good):
    """Bytes changed, dropped or put in anywhere: what comes of it is left to the programs."""
    data = bytearray(good.draft.bytes())
    for _ in range(r.choice([1, 1, 1, 2, 3])):
        at = r.randrange(len(data)) if data else 0
        what = r.randrange(4)
        if what == 0 and data:
            data[at] ^= 1 << r.randrange(8)
        elif what == 1 and data:
            data[at] = r.randrange(256)
        elif what == 2 and data:
            del data[at]
        else:
            data.insert(at, r.choice([0, 1, 2, 0x80, r.randrange(256)]))
    return bytes(data), None


def two_faults(r, good):
    """Two numbers out of range: the first by place decides."""
    draft = good.draft.copy()
    indices = sorted(r.sample(range(len(draft.values)), 2))
    for index in indices:
        draft.values[index] = draft.ranges[index][1] + r.choice([1, 1, 200])
    return draft.bytes(), must(3, draft.place(indices[0]))


def oversize(r, good):
    data = good.draft.bytes()
    if r.random() < 0.3:
        data = bytes(r.randrange(256) for _ in range(20))
    length = r.choice([LONGEST_INPUT, LONGEST_INPUT + 1, LONGEST_INPUT + 1, LONGEST_INPUT + 2, 20000, 49152, 70000])
    data += bytes(r.choice([b"\0", b"\1", b"\x80"]) * (length - len(data)))
    return data, must(5, 0) if length > LONGEST_INPUT else None


def unknown(r, good):
    """A visit with a track, a line or a station that the network doesn't have, or a line that doesn't run that way."""
    draft, network = good.draft.copy(), good.network
    if not draft.visits:
        return out_of_range(r, good)
    first, track, before, after = r.choice(draft.visits)
    station = draft.values[first]
    tracks = network.stations[station][1]
    what = r.randrange(3)
    if what == 1 and draft.values[before]:
        wrong = [(line, far) for line in range(1, 33) for far in range(1, 17) if (line, far, station) not in network.ways]
        change(r, draft, before, wrong)
    elif what == 2 and draft.values[after]:
        wrong = [(line, far) for line in range(1, 33) for far in range(1, 17) if (line, station, far) not in network.ways]
        change(r, draft, after, wrong)
    elif tracks < 8:
        draft.values[track] = r.randint(tracks + 1, 8)
    else:
        return out_of_range(r, good)
    return draft.bytes(), must(7, draft.place(first))


def change(r, draft, index, wrong):
    """Another line or another far station of a link; the nearer mistakes are chosen more often."""
    far, line = draft.values[index:index + 2]
    near = [pair for pair in wrong if pair[0] == line or pair[1] == far]
    line, far = r.choice(near if near and r.random() < 0.8 else wrong)
    draft.values[index:index + 2] = far, line


def crowded(r, good, station, extra):
    """The visits with more than 24 at a station; the first byte of the 25th is found by `entry_of`."""
    visits = dict(good.visits)
    here = {train for at, train in visits if at == station}
    while len(here) < 24 + extra:
        train = r.randint(1, 9999)
        if train not in here:
            here.add(train)
            visits[station, train] = Visit(1, r.randint(0, 1), 100, 100)
    return visits


def remade(good, visits, relations):
    draft = Draft()
    draft.put_network(good.network)
    draft.put_timetable(visits, relations)
    return draft


def entry_of(draft, station, rank):
    """The index of the rank-th visit entry (from 1) of a station."""
    return [entry for entry in draft.visits if draft.values[entry[0]] == station][rank - 1]


def over_limit(r, good):
    """The 25th visit, or the 7th relation, of a station."""
    station = r.choice(list(good.network.stations))
    if r.random() < 0.5:
        visits = crowded(r, good, station, r.choice([1, 1, 2, 5]))
        if len(visits) > 384:
            return out_of_range(r, good)
        draft = remade(good, visits, [])
        return draft.bytes(), must(12, draft.place(entry_of(draft, station, 25)[0]))
    relations = set()
    while len(relations) < r.choice([7, 7, 8, 10]):
        relations.add((r.choice([1, 2]), r.randint(0, 9), tuple(sorted(r.sample(range(1, 300), r.choice([2, 3, 4]))))))
        relations.add((3, r.randint(0, 9), (r.randint(1, 300), r.randint(1, 300))))
    lower = [at for at in good.network.stations if at < station]
    before = [(r.choice(lower), (3, 1, (1, 1)))] if lower and r.random() < 0.5 else []
    draft = remade(good, good.visits, before + in_order({station: relations}))
    return draft.bytes(), must(12, draft.place(draft.groups[-1][len(before) + 6][0]))


def limit_and_unknown(r, good):
    """7 and 12 in one file: the first entry decides, and 7 within an entry."""
    station = r.choice(list(good.network.stations))
    tracks = good.network.stations[station][1]
    visits = crowded(r, good, station, 3)
    if tracks == 8 or len(visits) > 384:
        return over_limit(r, good)
    draft = remade(good, visits, [])
    rank = r.choice([1, 23, 24, 25, 26, 27])
    entry = entry_of(draft, station, rank)
    draft.values[entry[1]] = tracks + 1
    if rank <= 25:
        return draft.bytes(), must(7, draft.place(entry[0]))
    return draft.bytes(), must(12, draft.place(entry_of(draft, station, 25)[0]))


def relation_at_unlisted(r, good):
    """A relation, or a visit, at a station that isn't listed."""
    unlisted = [number for number in range(1, 17) if number not in good.network.stations]
    if not unlisted:
        return unknown(r, good)
    station = r.choice(unlisted)
    if r.random() < 0.3:
        visits = {**good.visits, (station, 7): Visit(1, r.randint(0, 1), 100, 102)}
        draft = remade(good, visits, [])
        return draft.bytes(), must(7, draft.place(entry_of(draft, station, 1)[0]))
    lower = [at for at in good.network.stations if at < station]
    relations = [(r.choice(lower), (1, 5, (3, 4)))] if lower else []
    draft = remade(good, good.visits, relations + [(station, (3, 1, (1, 1)))])
    return draft.bytes(), must(7, draft.place(draft.groups[-1][-1][0]))


# ------------------------------------------------------------------------------------------------------------- sweeps


def rich_files():
    """A small file of each program that has every sort of number."""
    network = Network(
        {2: (1, 2), 3: (6, 8), 16: (1, 1)}, 3,
        {1: (2, 3, 3, 10, 12, 1), 5: (16, 2, 1, 130, 7, 9), 32: (3, 16, 2, 4, 240, 2)},
        [(1, 0, 100), (1, 100, 131), (1, 130, 2880), (5, 5, 6), (32, 2879, 2880)])
    four, three, two = (1, 5, (7, 8, 130, 9999)), (2, 150, (7, 8, 9)), (3, 0, (300, 7))
    edits = [
        (1, 2, 7, 1, 1, 100, 130), (3, 3, 7, 8, 0, 142, 150, 2, 1, 12), (2, 16, 7, 1, 1, 0, 5, 2, 5, 131),
        (6, 3, 7, 2, 1, 142, 2879),
        # At its own minute, from the future, long past.
        (7, 2, 7, 99, 99), (8, 2, 7, 132, 131), (8, 2, 7, 131, 2879),
        (9, 2, four), (9, 3, three), (9, 3, two), (10, 3, three), (5, 3, 7, 2), (4, 16, 7, 2),
        (1, 16, 5000, 1, 0, 20, 25), (3, 2, 5000, 2, 0, 32, 40, 16, 5, 7), (11, 7),
    ]
    visits = {
        (2, 7): Visit(1, 1, 130, 130, (16, 5), (3, 1, 12), 1, 0),
        (2, 300): Visit(2, 0, 90, 2879, None, (3, 1, 240), 0, 0),
        (3, 7): Visit(8, 1, 142, 142, (2, 1), None, 1, 1),
        (16, 7): Visit(1, 0, 0, 5, None, (2, 5, 131)),
        (16, 5000): Visit(1, 0, 20, 25, None, (2, 5, 7)),
    }
    relations = {2: [four, three, (2, 150, (7, 8, 10))], 3: [two, (3, 0, (300, 8))], 16: [three]}
    return {"shift": Shift(network, edits), "inspect": Inspect(network, visits, relations)}


def sweep():
    """Every end of the rich files, and every single number of them at fault or at the ends of its range."""
    for program, good in rich_files().items():
        draft, whole = good.draft, good.draft.bytes()
        yield program, "whole", whole, None
        for end in range(len(whole)):
            yield program, f"first {end} bytes", whole[:end], must(1, end)
        for index, (value, (low, high)) in enumerate(zip(draft.values, draft.ranges)):
            place, spelling = draft.place(index), encode(value)
            longer = spelling[:-1] + bytes([spelling[-1] | 0x80, 0])
            yield program, f"number {index} longer", draft.bytes_with(index, longer), must(2, place)
            yield program, f"number {index} with a third byte", draft.bytes_with(index, b"\x80\x80\x80"), must(2, place)
            for other in sorted({low - 1, low, high, high + 1} - {-1, value}):
                data = changed(draft, {index: other}).bytes()
                yield program, f"number {index} as {other}", data, None if low <= other <= high else must(3, place)
        for line in draft.lines:
            for fault in (0, 241):
                both = changed(draft, {line + 4: fault, line + 5: fault}).bytes()
                yield program, f"both times at number {line + 4} as {fault}", both, must(3, draft.place(line + 4))
    yield from closure_sweep()


def changed(draft, changes):
    """A draft with other values at these indices."""
    draft = draft.copy()
    for index, value in changes.items():
        draft.values[index] = value
    return draft


def closure_sweep():
    """Every closure of the rich files with an empty window, of an unlisted line and out of order, alone and beside each fault
    that comes before it or behind it.
    """
    for program, good in rich_files().items():
        closures = good.network.closures
        for count in (32, 33):
            draft = closed(good, [(1, start, start + 1) for start in range(count)]).draft
            expected = must(3, draft.place(draft.closures[0] - 1)) if count > 32 else None
            yield program, f"{count} closures", draft.bytes(), expected
        for at, (line, start, end) in enumerate(closures):
            orders = {"equal": (line, start, end), "equal key": (line, start, 2880), "lower start": (line, start - 1, end),
                      "lower line": (line - 1, start, end)}
            for what, (other, first, last) in orders.items():
                if other and first >= 0:
                    draft = closed(good, closures[:at + 1] + [(other, first, last)] + closures[at + 1:]).draft
                    place = draft.place(draft.closures[at + 1] + (other == line))
                    yield program, f"closure {at} then {what}", draft.bytes(), must(3, place)
            for last in sorted({1, start}) if start else ():
                file = closed(good, closures[:at] + [(line, start, last)] + closures[at + 1:])
                yield from beside(program, f"closure {at} until {last}", file, 14, at)
            file = closed(good, closures[:at] + [(line + 1, start, end)])
            if line < 32:
                yield from beside(program, f"closure {at} of line {line + 1}", file, 4, at)


def beside(program, what, file, refusal, at):
    """A closure at fault, alone and beside other faults: those of numbers, of lines, of closures and of entries."""
    draft = file.draft
    place = draft.place(draft.closures[at])
    yield program, what, draft.bytes(), must(refusal, place)
    yield program, f"{what}, surplus", draft.bytes() + b"\0", must(1, len(draft.bytes()))
    last = len(draft.values) - 1
    yield program, f"{what}, faulty end", changed(draft, {last: draft.ranges[last][1] + 1}).bytes(), must(3, draft.place(last))
    for line in draft.lines:
        loose = changed(draft, {line + 2: draft.values[line + 1]})
        yield program, f"{what}, loose line", loose.bytes(), must(14, place) if refusal == 14 else must(4, draft.place(line))
    for other in range(len(draft.closures)):
        _, start, end = file.network.closures[other]
        if start and other != at:
            empty = changed(draft, {draft.closures[other] + 2: start})
            wanted = draft.closures[min(at, other) if refusal == 14 else other]
            yield program, f"{what}, closure {other} empty", empty.bytes(), must(14, empty.place(wanted))
    if draft.visits:
        unknown_track = changed(draft, {draft.visits[0][1]: 3})
        yield program, f"{what}, unknown track", unknown_track.bytes(), must(refusal, place)
