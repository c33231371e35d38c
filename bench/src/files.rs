//! The files that are measured: networks, edits and timetables of four sizes, made by a rule and not by chance.

use reference::edits::{self, Edit, Form};
use reference::machine;
use reference::network::{Network, NetworkPart};
use reference::number::{self, Reader};
use reference::railway::Timetable;
use reference::timetable;

/// How large a file is, and how much there is to find in it.
pub struct Size {
    pub name: &'static str,
    stations: u32,
    trains: u32,
    /// Minutes from one train to the next, the tracks that they take in turn, and whether all start at one station.
    spacing: u32,
    tracks: u32,
    together: bool,
    relations: u32,
    edits: u32,
}

/// Small is document 01's listing. Sparse and dense fill every station; in dense all trains run at the same minutes.
pub const SIZES: [Size; 4] = [
    Size { name: "small", stations: 2, trains: 0, spacing: 0, tracks: 0, together: false, relations: 0, edits: 4 },
    Size { name: "medium", stations: 8, trains: 12, spacing: 15, tracks: 8, together: false, relations: 3, edits: 200 },
    Size { name: "sparse", stations: 16, trains: 24, spacing: 60, tracks: 8, together: false, relations: 6, edits: 1000 },
    Size { name: "dense", stations: 16, trains: 24, spacing: 0, tracks: 2, together: true, relations: 6, edits: 1000 },
];

/// A railway whose stations are all full, but for the trains that it has fewer.
const fn grown(name: &'static str, stations: u32, trains: u32) -> Size {
    Size { name, stations, trains, spacing: 60, tracks: 8, together: false, relations: 6, edits: 0 }
}

/// How cost grows: with the stations, each full; and with the visits at each of sixteen stations.
pub const GROWTH: [Size; 7] = [
    grown("2-stations", 2, 24),
    grown("4-stations", 4, 24),
    grown("8-stations", 8, 24),
    grown("16-stations", 16, 24),
    grown("3-visits", 16, 3),
    grown("6-visits", 16, 6),
    grown("12-visits", 16, 12),
];

/// The bytes of a railway's files, and what the second implementation makes of them.
pub struct Railway {
    pub network: Vec<u8>,
    pub edits: Vec<u8>,
    pub timetable: Vec<u8>,
    pub known: Network,
    pub held: Timetable,
}

impl Railway {
    /// Network, then edits: the input of `shift`.
    pub fn shift(&self) -> Vec<u8> {
        [&self.network[..], &self.edits].concat()
    }

    /// Network, then timetable: the input of `inspect`.
    pub fn inspect(&self) -> Vec<u8> {
        [&self.network[..], &self.timetable].concat()
    }
}

fn bytes(numbers: &[u32]) -> Vec<u8> {
    let mut file = Vec::new();
    for one in numbers {
        number::write(*one, &mut file);
    }
    file
}

/// The numbers of an edit as a file has them, count left out.
pub fn edit_bytes(numbers: &[u32]) -> Vec<u8> {
    bytes(numbers)
}

pub fn read_network(file: &[u8]) -> Network {
    let part = NetworkPart::read(&mut Reader::new(file)).expect("a network of this module is good");
    part.test_whole().expect("its lines join stations");
    part.network
}

pub fn read_edits(file: &[u8]) -> Vec<Edit> {
    edits::read(&mut Reader::new(file), Form::Newest).expect("edits of this module are good")
}

pub fn read_timetable(known: &Network, file: &[u8]) -> Timetable {
    let part = timetable::TimetablePart::read(&mut Reader::new(file), Form::Newest);
    let part = part.expect("a timetable of this module is good");
    part.under(known).expect("it fits its network")
}

/// What the edits make of an empty timetable.
pub fn run_edits(known: &Network, edits: &[Edit]) -> Timetable {
    let mut held = Timetable::default();
    for edit in edits {
        machine::run(known, &mut held, edit);
    }
    held
}

impl Size {
    /// Stations round a ring, joined by as many lines, areas in turn, and no closures.
    fn network(&self) -> Vec<u32> {
        let n = self.stations;
        let mut numbers = vec![n];
        for s in 1..=n {
            numbers.extend([s, (s - 1) * 6 / n + 1, 8]);
        }
        numbers.extend([3, n]);
        for l in 1..=n {
            numbers.extend([l, l, l % n + 1, 3, 5, 5, 9]);
        }
        numbers.push(0);
        numbers
    }

    /// The k-th visit of a train, as an edit has it: its station, train, track, mark (none), arrival and departure.
    fn visit(&self, t: u32, k: u32) -> [u32; 6] {
        let first = if self.together { 0 } else { t };
        let at = 100 + t * self.spacing + 7 * k;
        [(first + k) % self.stations + 1, t, t % self.tracks + 1, 0, at, at + 2]
    }

    /// Each train once round the ring; then the relations of each station; then amendments that leave what they find.
    fn edits(&self) -> Vec<u32> {
        let n = self.stations;
        let mut all: Vec<Vec<u32>> = Vec::new();
        for t in 1..=self.trains {
            all.push([&[1], &self.visit(t, 0)[..]].concat());
            for k in 1..n {
                let before = self.visit(t, k - 1)[0];
                all.push([&[3], &self.visit(t, k)[..], &[before, before, 5]].concat());
            }
        }
        for s in 1..=n {
            for q in 0..self.relations {
                all.push(vec![9, s, q % 2 + 1, 1 + q, 2, 2 * q + 1, 2 * q + 2]);
            }
        }
        let mut k = 0;
        while (all.len() as u32) < self.edits {
            all.push([&[6], &self.visit(k % self.trains + 1, k / self.trains % n)[..]].concat());
            k += 1;
        }
        let mut numbers = vec![all.len() as u32];
        numbers.extend(all.concat());
        numbers
    }

    pub fn railway(&self) -> Railway {
        let (network, edits) = if self.trains == 0 {
            (
                bytes(&[2, 1, 1, 2, 2, 2, 1, 3, 1, 1, 1, 2, 3, 10, 10, 1, 0]),
                bytes(&[
                    4, 1, 1, 7, 1, 0, 100, 102, 3, 2, 7, 1, 0, 115, 115, 1, 1, 12, 1, 1, 7, 1, 0, 100, 102, 9, 1, 1, 5, 2, 7, 9,
                ]),
            )
        } else {
            (bytes(&self.network()), bytes(&self.edits()))
        };
        let known = read_network(&network);
        let held = run_edits(&known, &read_edits(&edits));
        Railway { timetable: timetable::write(&held), network, edits, known, held }
    }
}
