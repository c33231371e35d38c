//! The network and its part of a file.

use crate::number::{self, FileRefusal, Reader, Rising, ENDS, WINDOW};
use crate::railway::{Area, Line, Minute, Station, Track, Train, LAST_MINUTE};
use std::collections::BTreeMap;

#[derive(Clone, Copy, Debug, PartialEq, Eq)]
pub struct StationFacts {
    pub area: Area,
    pub tracks: u32,
}

/// "Kind 1 runs first to second, 2 second to first, 3 either way."
#[derive(Clone, Copy, Debug, PartialEq, Eq)]
pub enum Direction {
    FirstToSecond,
    SecondToFirst,
    EitherWay,
}

#[derive(Clone, Copy, Debug, PartialEq, Eq)]
pub struct LineFacts {
    pub first: Station,
    pub second: Station,
    pub direction: Direction,
    pub passenger_least: Minute,
    pub freight_least: Minute,
    pub capacity: usize,
}

impl LineFacts {
    /// W3: "Trains numbered 5000 and up are freight"; "The least time is then that of a line and a train".
    pub fn least_run(&self, train: Train) -> Minute {
        if train.0 >= 5000 {
            self.freight_least
        } else {
            self.passenger_least
        }
    }
}

/// The forms of a network file: W1's, with one least running time a line, and the newest.
#[derive(Clone, Copy, Debug, PartialEq, Eq)]
pub enum Form {
    OneTime,
    Newest,
}

/// W1: "Engineers close a line for a window of minutes, from a first minute up to but not including an end."
#[derive(Clone, Copy, Debug, PartialEq, Eq)]
pub struct Closure {
    pub line: Line,
    pub start: Minute,
    pub end: Minute,
}

/// "A network lists 1..16 stations (number, area, count of tracks 1..8), a headway 1..30, and 0..32 lines (number, first
/// station, second station, kind, least running time, capacity 1..9)."
#[derive(Clone, Debug, PartialEq, Eq)]
pub struct Network {
    pub stations: BTreeMap<Station, StationFacts>,
    pub headway: Minute,
    pub lines: BTreeMap<Line, LineFacts>,
    pub closures: Vec<Closure>,
}

impl Network {
    pub fn lists(&self, station: Station) -> bool {
        self.stations.contains_key(&station)
    }

    pub fn has_track(&self, station: Station, track: Track) -> bool {
        self.stations.get(&station).is_some_and(|facts| track.0 <= facts.tracks)
    }

    pub fn area_of(&self, station: Station) -> Area {
        self.stations[&station].area
    }

    /// Whether a line is known and runs from one station to another, both listed.
    pub fn runs(&self, line: Line, from: Station, to: Station) -> bool {
        let Some(facts) = self.lines.get(&line) else { return false };
        let forth = facts.first == from && facts.second == to;
        let back = facts.second == from && facts.first == to;
        let joins = match facts.direction {
            Direction::FirstToSecond => forth,
            Direction::SecondToFirst => back,
            Direction::EitherWay => forth || back,
        };
        joins && self.lists(from) && self.lists(to)
    }

    /// Whether a line has the two stations as its ends, whichever way it runs.
    pub fn joined(&self, one: Station, other: Station) -> bool {
        self.lines.values().any(|line| [(one, other), (other, one)].contains(&(line.first, line.second)))
    }

    /// The file of the newest form.
    pub fn write(&self) -> Vec<u8> {
        let mut numbers = vec![self.stations.len() as u32];
        for (station, facts) in &self.stations {
            numbers.extend([station.0, facts.area.0, facts.tracks]);
        }
        numbers.extend([self.headway as u32, self.lines.len() as u32]);
        for (line, facts) in &self.lines {
            let kind = match facts.direction {
                Direction::FirstToSecond => 1,
                Direction::SecondToFirst => 2,
                Direction::EitherWay => 3,
            };
            numbers.extend([line.0, facts.first.0, facts.second.0, kind]);
            numbers.extend([facts.passenger_least as u32, facts.freight_least as u32, facts.capacity as u32]);
        }
        numbers.push(self.closures.len() as u32);
        for closure in &self.closures {
            numbers.extend([closure.line.0, closure.start as u32, closure.end as u32]);
        }
        let mut file = Vec::new();
        numbers.into_iter().for_each(|number| number::write(number, &mut file));
        file
    }

    /// Whether the minutes from one up to but not including another share one with a closure of a line.
    pub fn closed(&self, line: Line, from: Minute, until: Minute) -> bool {
        self.closures.iter().any(|closure| closure.line == line && from < closure.end && closure.start < until)
    }
}

/// A network as read, with the first byte of each line's entry for refusal 4, and of each closure's for 14 and 4.
pub struct NetworkPart {
    pub network: Network,
    line_places: Vec<(Line, usize)>,
    closure_places: Vec<usize>,
}

impl NetworkPart {
    /// "Station count, stations rising, headway, line count, lines rising, fields as listed; rising is strict, for
    /// stations and lines by their number alone."
    ///
    /// W1: "Up to 32 closures, with their count before them, stand in each file right after its network, rising by line
    /// and start; starts are 0..2879, ends 1..2880."
    pub fn read(reader: &mut Reader) -> Result<NetworkPart, FileRefusal> {
        NetworkPart::read_form(reader, Form::Newest)
    }

    /// W3: "Each line gets two, passenger first, in the network file in place of the one."; an old file, "giving both
    /// times the old number".
    fn read_form(reader: &mut Reader, form: Form) -> Result<NetworkPart, FileRefusal> {
        let mut stations = BTreeMap::new();
        let station_count = reader.within(1..=16)?.value;
        let mut rising = Rising::default();
        for _ in 0..station_count {
            let number = reader.within(1..=16)?;
            rising.compare_last(number)?;
            let area = Area(reader.within(1..=6)?.value);
            let tracks = reader.within(1..=8)?.value;
            stations.insert(Station(number.value), StationFacts { area, tracks });
        }
        let headway = Minute::from(reader.within(1..=30)?.value);
        let mut lines = BTreeMap::new();
        let mut line_places = Vec::new();
        let line_count = reader.within(0..=32)?.value;
        let mut rising = Rising::default();
        for _ in 0..line_count {
            let number = reader.within(1..=32)?;
            rising.compare_last(number)?;
            let first = Station(reader.within(1..=16)?.value);
            let second = Station(reader.within(1..=16)?.value);
            let direction = match reader.within(1..=3)?.value {
                1 => Direction::FirstToSecond,
                2 => Direction::SecondToFirst,
                _ => Direction::EitherWay,
            };
            let passenger_least = Minute::from(reader.within(1..=240)?.value);
            let freight_least = match form {
                Form::OneTime => passenger_least,
                Form::Newest => Minute::from(reader.within(1..=240)?.value),
            };
            let capacity = reader.within(1..=9)?.value as usize;
            let facts = LineFacts { first, second, direction, passenger_least, freight_least, capacity };
            lines.insert(Line(number.value), facts);
            line_places.push((Line(number.value), number.place));
        }
        let mut closures = Vec::new();
        let mut closure_places = Vec::new();
        let closure_count = reader.within(0..=32)?.value;
        let mut rising = Rising::default();
        for _ in 0..closure_count {
            let line = reader.within(1..=32)?;
            rising.compare(line)?;
            let start = reader.within(0..=LAST_MINUTE as u32)?;
            rising.compare_last(start)?;
            let end = reader.within(1..=LAST_MINUTE as u32 + 1)?;
            let (start, end) = (Minute::from(start.value), Minute::from(end.value));
            closures.push(Closure { line: Line(line.value), start, end });
            closure_places.push(line.place);
        }
        Ok(NetworkPart { network: Network { stations, headway, lines, closures }, line_places, closure_places })
    }

    /// What only a whole network shows, once no number of the file is at fault: 14, "tested straight after 3", then 4,
    /// lines before closures.
    pub fn test_whole(&self) -> Result<(), FileRefusal> {
        self.test_windows()?;
        self.test_ends()?;
        self.test_closed_lines()
    }

    /// "4 a line's ends aren't two different listed stations", at "the entry's first" byte.
    fn test_ends(&self) -> Result<(), FileRefusal> {
        for (line, place) in &self.line_places {
            let LineFacts { first, second, .. } = self.network.lines[line];
            if first == second || !self.network.lists(first) || !self.network.lists(second) {
                return Err(FileRefusal { number: ENDS, place: *place });
            }
        }
        Ok(())
    }

    /// The first closure "whose end isn't after its start", at its first byte.
    fn test_windows(&self) -> Result<(), FileRefusal> {
        self.first_closure(|closure| closure.end <= closure.start, WINDOW)
    }

    /// The first "closure of an unlisted line", at its first byte.
    fn test_closed_lines(&self) -> Result<(), FileRefusal> {
        self.first_closure(|closure| !self.network.lines.contains_key(&closure.line), ENDS)
    }

    fn first_closure(&self, faulty: impl Fn(&Closure) -> bool, number: u32) -> Result<(), FileRefusal> {
        match self.network.closures.iter().position(faulty) {
            Some(at) => Err(FileRefusal { number, place: self.closure_places[at] }),
            None => Ok(()),
        }
    }
}

/// A whole network file of a form.
pub fn read(file: &[u8], form: Form) -> Result<Network, FileRefusal> {
    let mut reader = Reader::new(file);
    let part = NetworkPart::read_form(&mut reader, form)?;
    reader.end()?;
    part.test_whole()?;
    Ok(part.network)
}

/// W3: "An old network file, its closures kept, is turned into a new one".
pub fn turn(file: &[u8], form: Form) -> Result<Vec<u8>, FileRefusal> {
    Ok(read(file, form)?.write())
}
