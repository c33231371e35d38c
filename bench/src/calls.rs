//! The calls that are measured, on the files of one size: by the library, and by the second implementation where it has
//! the like. Both start from what they would hold between two calls: the library bytes, the other its maps.

use crate::files::{edit_bytes, read_edits, read_network, read_timetable, run_edits, Railway};
use reference::findings;
use reference::machine;
use reference::projection;
use reference::railway::{Area, Station, Train};
use reference::timetable;
use std::hint::black_box;
use strakewhip as library;
use strakewhip::{DIVISION, MOST_ANSWERS, MOST_FINDINGS, MOST_ROWS, MOST_TIMETABLE, SHEET};

pub type Turn<'a> = Box<dyn FnMut() + 'a>;

/// Each call by its name and what it does.
pub const CALLS: [(&str, &str); 16] = [
    ("edit", "an amendment on a division"),
    ("edit-tested", "the same place taken, refused with 8: what the test of one area's sheet takes"),
    ("delete-train", "a train that is not there deleted: six areas"),
    ("sheet-tested", "an edit on the whole sheet, refused with 8: what the test of a sheet takes"),
    ("run", "the list of edits on an empty division"),
    ("divide", "the sheet divided"),
    ("merge", "the division merged"),
    ("findings", "the findings of the whole"),
    ("area", "those of area 1"),
    ("pair", "those of areas 1 and 2"),
    ("recheck", "the list of the whole after an edit of one station, from the list before"),
    ("recheck-two", "the same after an edit of two stations"),
    ("read", "the timetable's file read"),
    ("write", "the timetable's file written"),
    ("project", "a projection from the first visit"),
    ("network", "the network's file read, which each call does"),
];

/// What the library works on.
pub struct Held {
    sheet: Vec<u8>,
    division: Vec<u8>,
    numbers: Vec<u16>,
    list: Vec<u16>,
    rows: Vec<i32>,
    file: Vec<u8>,
    first: (u8, u16, u16),
    amend: Vec<u8>,
    place: Vec<u8>,
    delete: Vec<u8>,
    ends: Vec<u8>,
}

impl Held {
    pub fn new(railway: &Railway) -> Held {
        let mut sheet = vec![0; SHEET];
        library::read(&railway.network, &railway.timetable, &mut sheet).expect("the timetable is good");
        let mut division = vec![0; DIVISION];
        library::divide(&railway.network, &sheet, &mut division).expect("the sheet is good");
        let ((s, t), v) = railway.held.visits.iter().next().expect("there is a visit");
        let plan = [s.0, t.0, v.track.0, u32::from(v.mark), v.arrival.time as u32, v.departure.time as u32];
        let mut list = vec![0; MOST_FINDINGS];
        let length = library::findings(&railway.network, &sheet, &mut list).expect("the sheet is good");
        list.truncate(length);
        Held {
            sheet,
            division,
            numbers: vec![0; MOST_FINDINGS],
            list,
            rows: vec![0; MOST_ROWS],
            file: vec![0; MOST_TIMETABLE],
            first: (s.0 as u8, t.0 as u16, v.arrival.time as u16),
            amend: edit_bytes(&[&[6], &plan[..]].concat()),
            place: edit_bytes(&[&[1], &plan[..]].concat()),
            delete: edit_bytes(&[11, 9999]),
            ends: edit_bytes(&[5, s.0, t.0, s.0 + 1]),
        }
    }

    /// One turn of a call by the library.
    pub fn library<'a>(&'a mut self, call: &str, railway: &'a Railway) -> Turn<'a> {
        let n = &railway.network[..];
        let (s, t, at) = self.first;
        match call {
            "edit" => Box::new(move || {
                black_box(library::edit(n, &self.amend, &mut self.division).expect("it fits"));
            }),
            "edit-tested" => Box::new(move || {
                black_box(library::edit(n, &self.place, &mut self.division).expect_err("it is there"));
            }),
            "delete-train" => Box::new(move || {
                black_box(library::edit(n, &self.delete, &mut self.division).expect("it fits"));
            }),
            "sheet-tested" => Box::new(move || {
                black_box(library::edit_sheet(n, &self.place, &mut self.sheet).expect_err("it is there"));
            }),
            "run" => {
                let mut answers = vec![0; MOST_ANSWERS];
                let mut division = vec![0; DIVISION];
                Box::new(move || {
                    division.fill(0);
                    black_box(library::run(n, &railway.edits, &mut division, &mut answers).expect("it fits"));
                })
            }
            "divide" => Box::new(move || library::divide(n, &self.sheet, &mut self.division).expect("it is good")),
            "merge" => Box::new(move || library::merge(n, &self.division, &mut self.sheet).expect("it is good")),
            "findings" => Box::new(move || {
                black_box(library::findings(n, &self.sheet, &mut self.numbers).expect("it is good"));
            }),
            "area" => Box::new(move || {
                black_box(library::area_findings(n, &self.division[..SHEET], 1, &mut self.numbers).expect("it is good"));
            }),
            "pair" => Box::new(move || {
                let (one, rest) = self.division.split_at(SHEET);
                let list = library::pair_findings(n, one, &rest[..SHEET], 1, 2, &mut self.numbers);
                black_box(list.expect("they are good"));
            }),
            "recheck" => Box::new(move || {
                black_box(library::recheck(n, &self.sheet, &self.amend, &self.list, &mut self.numbers).expect("it is good"));
            }),
            "recheck-two" => Box::new(move || {
                black_box(library::recheck(n, &self.sheet, &self.ends, &self.list, &mut self.numbers).expect("it is good"));
            }),
            "read" => Box::new(move || {
                black_box(library::read(n, &railway.timetable, &mut self.sheet).expect("it is good"));
            }),
            "write" => Box::new(move || {
                black_box(library::write(n, &self.sheet, &mut self.file).expect("it is good"));
            }),
            "project" => Box::new(move || {
                black_box(library::project(n, &self.sheet, s, t, at, &mut self.rows).expect("it is there"));
            }),
            "network" => Box::new(move || {
                black_box(library::network(n).expect("it is good"));
            }),
            _ => panic!("no call {call}"),
        }
    }
}

/// One turn of the like by the second implementation, which knows no sheets and divides nothing.
pub fn reference<'a>(call: &str, railway: &'a Railway) -> Option<Turn<'a>> {
    let known = &railway.known;
    let held = &railway.held;
    let ((s, t), v) = held.visits.iter().next()?;
    let plan = [s.0, t.0, v.track.0, u32::from(v.mark), v.arrival.time as u32, v.departure.time as u32];
    let one = |numbers: &[u32]| read_edits(&edit_bytes(&[&[1], numbers].concat())).remove(0);
    let changing = |numbers: &[u32]| {
        let edit = one(numbers);
        let mut own = held.clone();
        Some(Box::new(move || {
            black_box(machine::run(known, &mut own, &edit));
        }) as Turn<'a>)
    };
    match call {
        "edit" => changing(&[&[6], &plan[..]].concat()),
        "delete-train" => changing(&[11, 9999]),
        "run" => Some(Box::new(|| {
            black_box(run_edits(known, &read_edits(&railway.edits)));
        })),
        "findings" => Some(Box::new(|| {
            black_box(findings::central(known, held));
        })),
        "area" => Some(Box::new(|| {
            black_box(findings::of_area(known, held, Area(1)));
        })),
        "pair" => Some(Box::new(|| {
            black_box(findings::of_pair(known, held, Area(1), Area(2)));
        })),
        "read" => Some(Box::new(|| {
            black_box(read_timetable(known, &railway.timetable));
        })),
        "write" => Some(Box::new(|| {
            black_box(timetable::write(held));
        })),
        "project" => {
            let (s, t, at) = (Station(s.0), Train(t.0), v.arrival.time);
            Some(Box::new(move || {
                black_box(projection::project(held, s, t, at));
            }))
        }
        "network" => Some(Box::new(|| {
            black_box(read_network(&railway.network));
        })),
        _ => None,
    }
}
