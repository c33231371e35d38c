//! Files made by chance: mostly coherent traffic, so that deep states are reached, mixed with mistakes. Nothing here
//! decides what is right.

use crate::files::bytes_of;
use crate::random::Random;
use reference::network::{Direction, Form, Network};
use reference::railway::{Line, Relation, Station, Timetable, Train, Visit, LAST_MINUTE};
use std::collections::BTreeMap;

/// The last minute.
const LAST: u32 = LAST_MINUTE as u32;

/// The numbers of a network with some stations, lines and closures.
pub fn network(r: &mut Random) -> Vec<u32> {
    // Few stations, so that their limits are reached, or many.
    let mut stations: Vec<u32> = if r.one_in(3) {
        (1..=16).filter(|_| r.one_in(8)).collect()
    } else {
        (1..=16).filter(|_| !r.one_in(3)).collect()
    };
    if stations.is_empty() {
        stations.push(r.from(1, 16));
    }
    let areas = r.from(1, 6);
    let mut numbers = vec![stations.len() as u32];
    for station in &stations {
        numbers.extend([*station, r.from(1, areas), r.from(1, 8)]);
    }
    numbers.push(r.from(1, 12));
    let lines: Vec<u32> = if stations.len() < 2 { Vec::new() } else { (1..=32).filter(|_| r.one_in(2)).collect() };
    numbers.push(lines.len() as u32);
    for line in &lines {
        let first = r.below(stations.len());
        let second = (first + 1 + r.below(stations.len() - 1)) % stations.len();
        let kind = [3, 3, 1, 2][r.below(4)];
        let (passenger, freight) = (r.from(1, 20), r.from(1, 20));
        numbers.extend([*line, stations[first], stations[second], kind, passenger, freight, r.from(1, 3)]);
    }
    numbers.extend(closures(r, &lines));
    numbers
}

/// The count of closures, and closures of these lines: none, a few or many, about the times of the traffic.
fn closures(r: &mut Random, lines: &[u32]) -> Vec<u32> {
    let most = [0, 3, 8, 32][r.below(4)];
    let mut windows = BTreeMap::new();
    for _ in 0..if lines.is_empty() { 0 } else { most } {
        let start = if r.one_in(9) { r.from(0, 2879) } else { r.from(90, 170) };
        let length = if r.one_in(9) { r.from(1, 2880) } else { r.from(1, 25) };
        windows.insert((lines[r.below(lines.len())], start), (start + length).min(2880));
    }
    let mut numbers = vec![windows.len() as u32];
    windows.iter().for_each(|((line, start), end)| numbers.extend([*line, *start, *end]));
    numbers
}

/// Where the count of lines stands among a network's numbers.
fn lines_at(numbers: &[u32]) -> usize {
    2 + 3 * numbers[0] as usize
}

/// The numbers of a line.
fn line_fields(form: Form) -> usize {
    match form {
        Form::OneTime => 6,
        Form::Newest => 7,
    }
}

/// Where the count of closures stands among a network's numbers.
pub fn closures_at(numbers: &[u32], form: Form) -> usize {
    let lines = lines_at(numbers);
    lines + 1 + line_fields(form) * numbers[lines] as usize
}

/// The lines of a network's numbers.
pub fn lines_of(numbers: &[u32], form: Form) -> impl Iterator<Item = &[u32]> {
    numbers[lines_at(numbers) + 1..closures_at(numbers, form)].chunks(line_fields(form))
}

/// A network's numbers with its lines changed, each a row of its own.
fn with_lines(numbers: &[u32], form: Form, change: impl Fn(&[u32]) -> Vec<u32>) -> Vec<u32> {
    let lines: Vec<u32> = lines_of(numbers, form).flat_map(change).collect();
    [&numbers[..=lines_at(numbers)], &lines, &numbers[closures_at(numbers, form)..]].concat()
}

/// A network in the earlier form, its one least time that of passenger trains.
pub fn earlier(numbers: &[u32]) -> Vec<u32> {
    with_lines(numbers, Form::Newest, |line| [&line[..5], &line[6..]].concat())
}

/// A network of the earlier form in the newest, with its one least time as both.
pub fn doubled(earlier: &[u32]) -> Vec<u32> {
    with_lines(earlier, Form::OneTime, |line| [&line[..5], &line[4..]].concat())
}

/// A network's file with a closure whose end is not after its start, or of any line, listed or not; a line's ends may
/// be at fault besides.
pub fn misclosed(r: &mut Random, numbers: &[u32], form: Form) -> Vec<u8> {
    let (lines, count) = (lines_at(numbers), closures_at(numbers, form));
    let mut numbers = numbers.to_vec();
    if numbers[count] == 0 {
        numbers[count] = 1;
        numbers.extend([r.from(1, 32), 100, 110]);
    }
    let at = count + 1 + 3 * r.below(numbers[count] as usize);
    match r.from(1, 4) {
        1 => numbers[at] = r.from(1, 32),
        _ => numbers[at + 2] = r.from(1, numbers[at + 1].max(1)),
    }
    if r.one_in(4) && numbers[lines] > 0 {
        let line = lines + 1 + line_fields(form) * r.below(numbers[lines] as usize);
        numbers[line + 1] = numbers[line + 2];
    }
    bytes_of(&numbers)
}

/// A stop mark.
fn mark(r: &mut Random) -> u32 {
    u32::from(r.one_in(3))
}

/// Where the stop marks stand among the numbers of a timetable.
fn marks_of_timetable(numbers: &[u32]) -> Vec<usize> {
    let (mut at, mut marks) = (1, Vec::new());
    for _ in 0..numbers[0] {
        marks.push(at + 3);
        at += 8;
        at += if numbers[at] == 0 { 1 } else { 2 };
        at += if numbers[at] == 0 { 1 } else { 3 };
    }
    marks
}

/// The minute that a report of a time carries: this one, a later one, the last, or an earlier one of a wrong clock.
pub fn present(r: &mut Random, time: u32) -> u32 {
    match r.from(1, 8) {
        1..=2 => time,
        3..=5 => (time + r.from(1, 30)).min(LAST),
        6 => LAST,
        _ => time.saturating_sub(r.from(1, 30)),
    }
}

/// Where the number of an edit stands that the earlier form lacks, and what an edit of that form carries there: mark 0
/// behind a track, the last minute behind a report's time.
fn lacking(numbers: &[u32]) -> Option<(usize, u32)> {
    match numbers[0] {
        1 | 2 | 3 | 6 => Some((4, 0)),
        7 | 8 => Some((4, LAST)),
        _ => None,
    }
}

fn without(numbers: &[u32], places: &[usize]) -> Vec<u32> {
    numbers.iter().enumerate().filter(|(at, _)| !places.contains(at)).map(|(_, number)| *number).collect()
}

fn with_0(numbers: &[u32], places: &[usize]) -> Vec<u32> {
    let mut numbers = numbers.to_vec();
    places.iter().for_each(|at| numbers[*at] = 0);
    numbers
}

/// A timetable's numbers in the earlier form, without marks.
pub fn early_timetable(numbers: &[u32]) -> Vec<u32> {
    without(numbers, &marks_of_timetable(numbers))
}

/// The same in the newest form, with all marks 0.
pub fn unmarked_timetable(numbers: &[u32]) -> Vec<u32> {
    with_0(numbers, &marks_of_timetable(numbers))
}

/// An edit's numbers in the earlier form.
pub fn early_edit(numbers: &[u32]) -> Vec<u32> {
    without(numbers, &lacking(numbers).map(|(at, _)| at).into_iter().collect::<Vec<_>>())
}

/// The same in the newest form, with mark 0 or minute 2879.
pub fn early_twin(numbers: &[u32]) -> Vec<u32> {
    let mut numbers = numbers.to_vec();
    if let Some((at, carried)) = lacking(&numbers) {
        numbers[at] = carried;
    }
    numbers
}

/// The lines out of a station: line, station at the far end.
fn ways(network: &Network, from: Station, out: bool) -> Vec<(Line, Station)> {
    let mut found = Vec::new();
    for (line, facts) in &network.lines {
        let forth = matches!(facts.direction, Direction::FirstToSecond | Direction::EitherWay);
        let back = matches!(facts.direction, Direction::SecondToFirst | Direction::EitherWay);
        if facts.first == from && (if out { forth } else { back }) {
            found.push((*line, facts.second));
        }
        if facts.second == from && (if out { back } else { forth }) {
            found.push((*line, facts.first));
        }
    }
    found
}

/// Chooses edits by the timetable that they will meet.
pub struct Dispatcher<'a> {
    pub network: &'a Network,
    pub timetable: &'a Timetable,
    pub trains: u32,
}

impl Dispatcher<'_> {
    /// The numbers of an edit.
    pub fn edit(&self, r: &mut Random) -> Vec<u32> {
        if r.one_in(15) {
            return self.anything(r);
        }
        let chosen = match r.from(1, 24) {
            1..=5 => None,
            6..=9 => self.extend(r, 3),
            10..=12 => self.extend(r, 2),
            13 => self.shorten(r, 4),
            14 => self.shorten(r, 5),
            15..=16 => self.amend(r),
            17..=19 => self.report(r),
            20..=22 => self.relate(r),
            23 => self.forget(r),
            _ => r.one_in(3).then(|| vec![11, self.train(r)]),
        };
        chosen.unwrap_or_else(|| self.place(r))
    }

    fn station(&self, r: &mut Random) -> Station {
        let listed: Vec<Station> = self.network.stations.keys().copied().collect();
        listed[r.below(listed.len())]
    }

    /// Half of the trains stand about 5000, where freight begins.
    fn train(&self, r: &mut Random) -> u32 {
        let train = r.from(1, self.trains);
        match train % 4 {
            3 => 4999 - train / 4,
            0 => 4999 + train / 4,
            _ => train,
        }
    }

    fn visit(&self, r: &mut Random) -> Option<(Station, Train, Visit)> {
        let all: Vec<_> = self.timetable.visits.iter().map(|((s, t), visit)| (*s, *t, *visit)).collect();
        r.pick(&all)
    }

    fn track(&self, r: &mut Random, station: Station) -> u32 {
        let tracks = self.network.stations.get(&station).map_or(8, |facts| facts.tracks);
        r.from(1, tracks.min(2))
    }

    fn place(&self, r: &mut Random) -> Vec<u32> {
        let station = self.station(r);
        let arrival = r.from(100, 140);
        vec![1, station.0, self.train(r), self.track(r, station), mark(r), arrival, arrival + r.from(0, 5)]
    }

    fn extend(&self, r: &mut Random, kind: u32) -> Option<Vec<u32>> {
        let (from, train, visit) = self.visit(r)?;
        let (line, to) = r.pick(&ways(self.network, from, kind == 3))?;
        let run = r.from(1, 20);
        let near = (if kind == 3 { visit.departure.time + i64::from(run) } else { visit.arrival.time - i64::from(run) })
            .clamp(0, 2870) as u32;
        let track = self.track(r, to);
        let stay = if r.one_in(2) { 0 } else { r.from(0, 3) };
        Some(vec![kind, to.0, train.0, track, mark(r), near, near + stay, from.0, line.0, run])
    }

    fn shorten(&self, r: &mut Random, kind: u32) -> Option<Vec<u32>> {
        let (station, train, visit) = self.visit(r)?;
        let far = if kind == 4 { visit.out_link.map(|l| l.next) } else { visit.in_link.map(|l| l.previous) };
        Some(vec![kind, station.0, train.0, far.unwrap_or(station).0])
    }

    /// A visit between two others made a request stop.
    fn request(&self, r: &mut Random) -> Option<Vec<u32>> {
        let between =
            self.timetable.visits.iter().filter(|(_, visit)| visit.in_link.is_some() && visit.out_link.is_some());
        let ((station, train), visit) = r.pick(&between.collect::<Vec<_>>())?;
        let arrival = visit.arrival.time as u32;
        Some(vec![6, station.0, train.0, visit.track.0, 1, arrival, arrival])
    }

    fn amend(&self, r: &mut Random) -> Option<Vec<u32>> {
        if r.one_in(3) {
            return self.request(r);
        }
        let (station, train, visit) = self.visit(r)?;
        let arrival = if visit.arrival.occurred && !r.one_in(4) { visit.arrival.time as u32 } else { r.from(90, 150) };
        let departure = if r.one_in(2) { visit.departure.time as u32 } else { (arrival + r.from(0, 9)).min(LAST) };
        let track = if r.one_in(3) { self.track(r, station) } else { visit.track.0 };
        Some(vec![6, station.0, train.0, track, mark(r), arrival, departure])
    }

    fn report(&self, r: &mut Random) -> Option<Vec<u32>> {
        let (station, train, visit) = self.visit(r)?;
        let time = (visit.arrival.time as u32 + r.from(0, 9)).min(LAST);
        Some(vec![r.from(7, 8), station.0, train.0, time, present(r, time)])
    }

    /// A relation of a train that stops on request with another that is there in its minute, or with itself.
    fn relate_on_request(&self, r: &mut Random) -> Option<Vec<u32>> {
        let all = self.timetable.visits.iter();
        let requests: Vec<_> = all.filter(|(_, visit)| visit.mark && !visit.stops_unmarked()).collect();
        let ((station, train), stop) = r.pick(&requests)?;
        let mut there = self.timetable.visits_at(*station);
        there.retain(|(_, visit)| {
            visit.arrival.time <= stop.departure.time && visit.departure.time >= stop.arrival.time
        });
        let (other, _) = r.pick(&there)?;
        let kind = if other == *train { 3 } else { r.from(1, 3) };
        let mut trains = [train.0, other.0];
        if kind != 3 {
            trains.sort_unstable();
        }
        Some([&[9, station.0, kind, r.from(0, 1), 2][..], &trains].concat())
    }

    fn relate(&self, r: &mut Random) -> Option<Vec<u32>> {
        if r.one_in(3) {
            if let Some(numbers) = self.relate_on_request(r) {
                return Some(numbers);
            }
        }
        let station = self.station(r);
        let mut trains: Vec<u32> = self.timetable.visits_at(station).iter().map(|(train, _)| train.0).collect();
        trains.extend([self.train(r), self.train(r)]);
        let mut numbers = vec![9, station.0, r.from(1, 3), r.from(0, 8)];
        if numbers[2] == 3 {
            numbers.extend([2, trains[r.below(trains.len())], trains[r.below(trains.len())]]);
            return Some(numbers);
        }
        trains.sort_unstable();
        trains.dedup();
        while trains.len() > 4 || (trains.len() > 2 && r.one_in(2)) {
            trains.remove(r.below(trains.len()));
        }
        numbers.push(trains.len() as u32);
        numbers.extend(&trains);
        (trains.len() > 1).then_some(numbers)
    }

    fn forget(&self, r: &mut Random) -> Option<Vec<u32>> {
        let station = r.pick(&self.timetable.stations_with_relations())?;
        let there: Vec<Relation> = self.timetable.relations_at(station).into_iter().collect();
        let (kind, interval, count, trains) = r.pick(&there)?.key();
        let mut numbers = vec![10, station.0, kind, interval as u32, count as u32];
        numbers.extend(trains.iter().map(|train| train.0));
        Some(numbers)
    }

    /// Any values within the ranges, of any kind but relations.
    fn anything(&self, r: &mut Random) -> Vec<u32> {
        let place = |r: &mut Random| [r.from(1, 16), r.from(1, 9999), r.from(1, 8), mark(r)];
        let plan = |r: &mut Random| [&place(r)[..], &[r.from(0, 2879), r.from(0, 2879)]].concat();
        let kind = [1, 2, 3, 4, 5, 6, 7, 8, 11][r.below(9)];
        let mut numbers = vec![kind];
        match kind {
            1 | 6 => numbers.extend(plan(r)),
            2 | 3 => {
                numbers.extend(plan(r));
                numbers.extend([r.from(1, 16), r.from(1, 32), r.from(1, 240)]);
            }
            4 | 5 => numbers.extend([r.from(1, 16), r.from(1, 9999), r.from(1, 16)]),
            7 | 8 => numbers.extend([r.from(1, 16), r.from(1, 9999), r.from(0, 2879), r.from(0, 2879)]),
            _ => numbers.push(r.from(1, 9999)),
        }
        numbers
    }
}

/// A file with one fault or another: a byte changed, taken away, put in, the end cut off or lengthened.
pub fn damaged(r: &mut Random, file: &[u8]) -> Vec<u8> {
    let mut file = file.to_vec();
    for _ in 0..r.from(1, 2) {
        let at = r.below(file.len() + 1);
        match r.from(1, 6) {
            1 => file.truncate(at),
            2 => file.push(r.byte()),
            3 => file.insert(at, [0, 1, 2, 0x80, 0xFF, 17, 127][r.below(7)]),
            // A number that isn't shortest.
            4 if at < file.len() && r.one_in(2) => {
                file[at] |= 0x80;
                file.insert(at + 1, 0);
            }
            4 if at < file.len() => {
                file.remove(at);
            }
            5 if at < file.len() => file[at] = [0, 1, 2, 3, 17, 33, 0x80, 0xFF][r.below(8)],
            _ if at < file.len() => file[at] = r.byte(),
            _ => {}
        }
    }
    file
}

/// A file of numbers, of which one has another value.
pub fn displaced(r: &mut Random, numbers: &[u32]) -> Vec<u8> {
    let mut numbers = numbers.to_vec();
    if !numbers.is_empty() {
        let at = r.below(numbers.len());
        numbers[at] = [0, 1, 2, 7, 17, 33, 241, 385, 1001, 2880, 10_000, 16_384, 2_097_151][r.below(13)];
    }
    bytes_of(&numbers)
}
