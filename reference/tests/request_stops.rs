//! Document 02, W6: stop marks, what follows them, and files of the earlier form.

mod common;

use common::{file, join, lines};
use reference::edits::{self, Edit, Form};
use reference::machine;
use reference::network::{self, Network};
use reference::number::{FileRefusal, Reader};
use reference::programs::{inspect, shift};
use reference::projection::project;
use reference::railway::{Minute, Station, Timetable, Train};
use reference::timetable::{write, TimetablePart};

/// Three stations in a row with two tracks each, in areas 1, 2 and 2, joined by either-way lines 1 and 2; no closures.
const ROW: &[u32] = &[3, 1, 1, 2, 2, 2, 2, 3, 2, 2, 3, 2, 1, 1, 2, 3, 10, 10, 1, 2, 2, 3, 3, 10, 10, 1, 0];

/// Train 7 at station 2, with both links: track, mark, arrival and departure.
fn passing(mark: u32, arrival: u32, departure: u32) -> Vec<u32> {
    vec![2, 7, 1, mark, arrival, 0, departure, 0, 1, 1, 3, 2, 12]
}

/// Train 8 at station 2 from 100 to 120.
const STANDING: &[u32] = &[2, 8, 2, 0, 100, 0, 120, 0, 0, 0];

fn refused(read: FileRefusal) -> (u32, usize) {
    (read.number, read.place)
}

fn network() -> Network {
    network::read(&file(ROW), network::Form::Newest).expect("a good network")
}

fn timetable_of(numbers: &[u32], form: Form) -> Result<Timetable, (u32, usize)> {
    let bytes = file(numbers);
    let mut reader = Reader::new(&bytes);
    let part = TimetablePart::read(&mut reader, form).map_err(refused)?;
    reader.end().map_err(refused)?;
    part.under(&network()).map_err(refused)
}

fn edits_of(numbers: &[u32], form: Form) -> Result<Vec<Edit>, (u32, usize)> {
    let bytes = file(numbers);
    let mut reader = Reader::new(&bytes);
    let edits = edits::read(&mut reader, form).map_err(refused)?;
    reader.end().map_err(refused)?;
    Ok(edits)
}

/// Whether the relation at station 2 is met while train 7 passes it at 110, marked or not, and train 8 stands there.
fn met(mark: u32, relation: &[u32]) -> bool {
    let visits = join(&[&passing(mark, 110, 110), STANDING]);
    let output = inspect(&file(&join(&[ROW, &[2], &visits, &[1, 2], relation])));
    assert_eq!(lines(&output, "W"), ["1"]);
    !lines(&output, "F").contains(&"2 4 1 0")
}

#[test]
fn a_connection_at_a_request_stop() {
    // The earlier departure less the later arrival is 110 - 110.
    assert!(met(1, &[1, 0, 2, 7, 8]));
    assert!(!met(1, &[1, 1, 2, 7, 8]));
    // Without the mark train 7 doesn't stop.
    assert!(!met(0, &[1, 0, 2, 7, 8]));
}

#[test]
fn a_disconnection_at_a_request_stop() {
    // Only trains that stop have to keep apart, and the mark makes train 7 one of them.
    assert!(met(0, &[2, 5, 2, 7, 8]));
    assert!(!met(1, &[2, 5, 2, 7, 8]));
    // A gap of the interval: train 8 leaves at 120, train 7 comes at 125.
    let apart = |interval| {
        let visits = join(&[&passing(1, 125, 125), STANDING]);
        let output = inspect(&file(&join(&[ROW, &[2], &visits, &[1, 2, 2, interval, 2, 7, 8]])));
        lines(&output, "F").contains(&"2 4 1 0")
    };
    assert!(!apart(5) && apart(6));
}

#[test]
fn dependencies_on_request_stops() {
    // Train 8 leaves 10 minutes after the arrival at the request stop, which leaves 10 after the arrival of train 8.
    for relation in [[3, 10, 2, 7, 8], [3, 10, 2, 8, 7], [3, 0, 2, 7, 7]] {
        assert!(met(1, &relation));
        assert!(!met(0, &relation));
        assert!(!met(1, &[3, 11, 2, relation[3], relation[4]]));
    }
}

#[test]
fn no_other_rule_reads_the_mark() {
    let prints = |mark| inspect(&file(&join(&[ROW, &[2], &passing(mark, 110, 110), STANDING, &[0]])));
    assert_eq!(lines(&prints(0), "F"), ["2 7 7 0", "2 8 7 0"]);
    assert_eq!(lines(&prints(1), "F"), lines(&prints(0), "F"));
}

#[test]
fn a_mark_on_a_visit_that_stops_anyway() {
    // It departs later than it arrives: findings and projections are the same, the timetables are not.
    let visits = |mark| join(&[&[2], &passing(mark, 110, 112), STANDING, &[1, 2, 1, 2, 2, 7, 8]]);
    let [plain, marked] = [0, 1].map(|mark| inspect(&file(&join(&[ROW, &visits(mark)]))));
    assert_eq!(plain, marked);
    assert_eq!(lines(&marked, "F"), ["2 7 7 0", "2 8 7 0"]);
    assert_eq!(lines(&marked, "J")[0], "2 7 2 115 116 5");
    let [plain, marked] = [0, 1].map(|mark| timetable_of(&visits(mark), Form::Newest).unwrap());
    assert_ne!(plain, marked);
    assert_eq!(write(&marked), file(&visits(1)));
    // It lacks a link: a minute is added too.
    let ends = [1, 2, 7, 1, 1, 110, 0, 110, 0, 1, 1, 0, 0];
    assert_eq!(rows(&ends, 2, 115), [[2, 115, 116]]);
}

/// Station, arrival and departure of the rows of train 7's projection.
fn rows(numbers: &[u32], station: u32, expected: Minute) -> Vec<[Minute; 3]> {
    let timetable = timetable_of(numbers, Form::Newest).expect("a good timetable");
    let rows = project(&timetable, Station(station), Train(7), expected);
    rows.iter().map(|row| [row.station.0.into(), row.arrival, row.departure]).collect()
}

#[test]
fn projections_of_request_stops() {
    let departure = |mark, planned: [u32; 2], expected| {
        rows(&join(&[&[1], &passing(mark, planned[0], planned[1]), &[0]]), 2, expected)[0][2]
    };
    // Only the mark makes it stop: it waits for its planned departure, and leaves in the minute in which it comes late.
    for (expected, marked, unmarked) in [(105, 110, 105), (110, 110, 110), (111, 111, 111), (150, 150, 150)] {
        assert_eq!(departure(1, [110, 110], expected), marked);
        assert_eq!(departure(0, [110, 110], expected), unmarked);
    }
    // A departure before the arrival doesn't meet the old condition either.
    for (expected, due) in [(100, 108), (108, 108), (109, 109), (112, 112)] {
        assert_eq!(departure(1, [110, 108], expected), due);
    }
    // A visit that stops anyway adds a minute, marked or not.
    for (expected, due) in [(105, 111), (110, 111), (111, 112)] {
        assert_eq!([departure(0, [110, 111], expected), departure(1, [110, 111], expected)], [due; 2]);
    }
}

#[test]
fn projections_along_request_stops() {
    let journey = |mark, arrived, departed| {
        let first = [1, 7, 1, 0, 90, 0, 98, 0, 0, 2, 1, 12];
        let middle = [2, 7, 1, mark, 110, arrived, 110, departed, 1, 1, 3, 2, 12];
        join(&[&[3], &first, &middle, &[3, 7, 1, 1, 122, 0, 122, 0, 2, 2, 0, 0]])
    };
    assert_eq!(rows(&journey(1, 0, 0), 1, 80), [[1, 80, 98], [2, 110, 110], [3, 122, 123]]);
    assert_eq!(rows(&journey(1, 0, 0), 1, 99), [[1, 99, 100], [2, 112, 112], [3, 124, 125]]);
    assert_eq!(rows(&journey(1, 0, 0), 2, 100), [[2, 100, 110], [3, 122, 123]]);
    assert_eq!(rows(&journey(0, 0, 0), 2, 100), [[2, 100, 100], [3, 112, 122]]);
    // What occurred stands, whatever the mark.
    assert_eq!(rows(&journey(1, 1, 0), 1, 99), [[1, 99, 100], [2, 110, 110], [3, 122, 123]]);
    assert_eq!(rows(&journey(1, 0, 1), 1, 99), [[1, 99, 100], [2, 112, 110], [3, 122, 123]]);
}

/// Train 7 from station 1 by 2 to 3, without and with a mark at station 2, train 8 at station 2, and a connection of 0.
fn row(mark: u32, further: &[&[u32]]) -> String {
    let middle = [3, 2, 7, 1, mark, 114, 114, 1, 1, 12];
    let edits: [&[u32]; 5] = [
        &[1, 1, 7, 1, 0, 100, 102],
        &middle,
        &[3, 3, 7, 1, 0, 126, 127, 2, 2, 12],
        &[1, 2, 8, 2, 0, 110, 120],
        &[9, 2, 1, 0, 2, 7, 8],
    ];
    shift(&file(&join(&[ROW, &[5 + further.len() as u32], &edits.concat(), &further.concat()])))
}

/// The answers to what follows the five edits of `row`, and whether the connection is met at the end.
fn then(mark: u32, further: &[&[u32]]) -> (Vec<String>, bool) {
    let output = row(mark, further);
    let answers = lines(&output, "E")[5..].iter().map(|line| line.split(' ').nth(1).unwrap().to_owned()).collect();
    (answers, !lines(&output, "F").contains(&"2 4 1 0"))
}

fn answered(answers: &[&str], met: bool) -> (Vec<String>, bool) {
    (answers.iter().map(|answer| answer.to_string()).collect(), met)
}

#[test]
fn amending_sets_the_mark_anew() {
    assert_eq!(then(1, &[]), answered(&[], true));
    assert_eq!(then(0, &[]), answered(&[], false));
    let amend = |mark| [6, 2, 7, 1, mark, 114, 114];
    assert_eq!(then(0, &[&amend(1)]), answered(&["0"], true));
    assert_eq!(then(1, &[&amend(1)]), answered(&["0"], true));
    assert_eq!(then(1, &[&amend(0)]), answered(&["0"], false));
    // "Never 11": also once the arrival, or both times, have occurred.
    let reports: [&[u32]; 2] = [&[7, 2, 7, 114, 114], &[8, 2, 7, 114, 2879]];
    assert_eq!(then(0, &[reports[0], &amend(1)]), answered(&["0", "0"], true));
    assert_eq!(then(1, &[reports[0], &amend(0)]), answered(&["0", "0"], false));
    assert_eq!(then(0, &[reports[0], reports[1], &amend(1)]), answered(&["0", "0", "0"], true));
    assert_eq!(then(1, &[reports[0], reports[1], &amend(0)]), answered(&["0", "0", "0"], false));
    // Another track or time is 11 as before, and leaves the mark.
    assert_eq!(then(0, &[reports[0], &[6, 2, 7, 2, 1, 114, 114]]), answered(&["0", "11"], false));
    assert_eq!(then(1, &[reports[0], &[6, 2, 7, 1, 0, 115, 114]]), answered(&["0", "11"], true));
}

#[test]
fn reports_and_links_keep_the_mark() {
    let reports: [&[u32]; 2] = [&[7, 2, 7, 114, 114], &[8, 2, 7, 114, 2879]];
    assert_eq!(then(1, &reports), answered(&["0", "0"], true));
    assert_eq!(then(0, &reports), answered(&["0", "0"], false));
    // The last visit goes and comes back, marked or not: (p, t) is not marked by it.
    for (mark, met) in [(0, false), (1, true)] {
        for last in [0, 1] {
            let again = [3, 3, 7, 1, last, 126, 127, 2, 2, 12];
            assert_eq!(then(mark, &[&[5, 3, 7, 2], &again]), answered(&["0", "0"], met));
            let again = [2, 1, 7, 1, last, 100, 102, 2, 1, 12];
            assert_eq!(then(mark, &[&[4, 1, 7, 2], &again]), answered(&["0", "0"], met));
        }
    }
    // Placed with its mark, and linked on both sides later.
    let placed = |mark| {
        let edits: [&[u32]; 5] = [
            &[1, 2, 7, 1, mark, 114, 114],
            &[2, 1, 7, 1, 0, 100, 102, 2, 1, 12],
            &[3, 3, 7, 1, 0, 126, 127, 2, 2, 12],
            &[1, 2, 8, 2, 0, 110, 120],
            &[9, 2, 1, 0, 2, 7, 8],
        ];
        let output = shift(&file(&join(&[ROW, &[5], &edits.concat()])));
        lines(&output, "F").join("\n")
    };
    assert_eq!([placed(0), placed(1)], ["2 4 1 0", ""]);
}

/// A plan of the newest form, and the same of the earlier.
const MARKED: [&[u32]; 4] = [
    &[1, 1, 7, 1, 0, 100, 102],
    &[2, 1, 7, 1, 0, 100, 102, 2, 1, 12],
    &[3, 2, 7, 1, 0, 114, 114, 1, 1, 12],
    &[6, 1, 7, 1, 0, 100, 102],
];

fn without_mark(plan: &[u32]) -> Vec<u32> {
    join(&[&plan[..4], &plan[5..]])
}

#[test]
fn marks_above_1_are_refused_at_the_mark() {
    for plan in MARKED {
        for (mark, refusal) in [(0, None), (1, None), (2, Some((3, 5))), (7, Some((3, 5))), (300, Some((3, 5)))] {
            let numbers = join(&[&[1], &plan[..4], &[mark], &plan[5..]]);
            assert_eq!(edits_of(&numbers, Form::Newest).err(), refusal, "{numbers:?}");
            let printed = refusal.map(|(number, place)| format!("R {number} {}\n", ROW.len() + place));
            let output = shift(&file(&join(&[ROW, &numbers])));
            assert!(printed.is_none_or(|line| line == output), "{numbers:?}");
        }
    }
    for (mark, refusal) in [(0, None), (1, None), (2, Some((3, 4))), (7, Some((3, 4)))] {
        let numbers = join(&[&[1], &passing(mark, 110, 110), &[0]]);
        assert_eq!(timetable_of(&numbers, Form::Newest).err(), refusal);
        let printed = refusal.map(|(number, place)| format!("R {number} {}\n", ROW.len() + place));
        let output = inspect(&file(&join(&[ROW, &numbers])));
        assert!(printed.is_none_or(|line| line == output), "{numbers:?}");
    }
    // A number that isn't shortest, before its value is looked at, and a file that ends at the mark.
    let mut bytes = file(&join(&[&[1], MARKED[0]]));
    bytes.splice(5..6, [0x82, 0]);
    assert_eq!(edits::read(&mut Reader::new(&bytes), Form::Newest).map_err(refused), Err((2, 5)));
    assert_eq!(edits_of(&[1, 1, 1, 7, 1], Form::Newest), Err((1, 5)));
    assert_eq!(timetable_of(&[1, 2, 7, 1], Form::Newest), Err((1, 4)));
}

#[test]
fn the_track_stands_before_the_mark() {
    // Track 9 and mark 2, both out of range: the first by place.
    assert_eq!(edits_of(&[1, 1, 1, 7, 9, 2, 100, 102], Form::Newest), Err((3, 4)));
    assert_eq!(timetable_of(&[1, 2, 7, 9, 2, 110, 0, 110, 0, 0, 0, 0], Form::Newest), Err((3, 3)));
    // Track 2 is one, mark 2 is none; as mark and track they would be good.
    assert_eq!(edits_of(&[1, 1, 1, 7, 2, 1, 100, 102], Form::Newest).map(|edits| edits.len()), Ok(1));
    assert_eq!(edits_of(&[1, 1, 1, 7, 1, 2, 100, 102], Form::Newest), Err((3, 5)));
}

#[test]
fn faults_behind_the_mark_have_their_places_in_both_forms() {
    for plan in MARKED {
        // The arrival stands at 6 behind a mark, at 5 without; then a surplus byte.
        let late = |at: usize, numbers: &[u32]| join(&[&[1], &numbers[..at], &[2880], &numbers[at + 1..]]);
        assert_eq!(edits_of(&late(5, plan), Form::Newest), Err((3, 6)));
        let earlier = without_mark(plan);
        assert_eq!(edits_of(&late(4, &earlier), Form::Earlier), Err((3, 5)));
        assert_eq!(edits_of(&join(&[&[1], plan, &[0]]), Form::Newest), Err((1, 1 + plan.len())));
        assert_eq!(edits_of(&join(&[&[1], &earlier, &[0]]), Form::Earlier), Err((1, 1 + earlier.len())));
        // It ends early, at every byte.
        for end in 0..plan.len() {
            assert_eq!(edits_of(&join(&[&[1], &plan[..end]]), Form::Newest), Err((1, 1 + end)));
            if end < earlier.len() {
                assert_eq!(edits_of(&join(&[&[1], &earlier[..end]]), Form::Earlier), Err((1, 1 + end)));
            }
        }
    }
    // Of a timetable: the status of an arrival, an equal entry, and 7 at the second entry's first byte.
    let visit = |train, track, status| [2, train, track, 110, status, 110, 0, 0, 0];
    let marked = |numbers: [u32; 9]| join(&[&numbers[..3], &[1], &numbers[3..]]);
    let both = |visits: &[[u32; 9]]| {
        let newest: Vec<Vec<u32>> = visits.iter().map(|one| marked(*one)).collect();
        let count = [visits.len() as u32];
        let newest = timetable_of(&join(&[&count, &newest.concat(), &[0]]), Form::Newest);
        let earlier = timetable_of(&join(&[&count, &visits.concat(), &[0]]), Form::Earlier);
        (newest.err(), earlier.err())
    };
    assert_eq!(both(&[visit(7, 1, 2)]), (Some((3, 6)), Some((3, 5))));
    assert_eq!(both(&[visit(7, 1, 0), visit(7, 1, 0)]), (Some((3, 12)), Some((3, 11))));
    assert_eq!(both(&[visit(7, 1, 0), visit(8, 3, 0)]), (Some((7, 11)), Some((7, 10))));
    let crowd: Vec<[u32; 9]> = (1..=25).map(|train| visit(train, 1, 0)).collect();
    assert_eq!(both(&crowd), (Some((12, 1 + 24 * 10)), Some((12, 1 + 24 * 9))));
}

#[test]
fn earlier_files_are_read_with_mark_0() {
    // Times from 128 on have two bytes, so that places and values differ.
    let earlier = [2, 2, 7, 1, 130, 1, 130, 0, 1, 1, 3, 2, 12, 2, 8, 2, 100, 0, 120, 0, 0, 0, 1, 2, 1, 0, 2, 7, 8];
    let newest = [2, 2, 7, 1, 0, 130, 1, 130, 0, 1, 1, 3, 2, 12, 2, 8, 2, 0, 100, 0, 120, 0, 0, 0, 1, 2, 1, 0, 2, 7, 8];
    let timetable = timetable_of(&earlier, Form::Earlier).unwrap();
    assert_eq!(Ok(&timetable), timetable_of(&newest, Form::Newest).as_ref());
    assert!(timetable.visits.values().all(|visit| !visit.mark));
    // What is written is the newest form.
    assert_eq!(write(&timetable), file(&newest));
    assert_eq!(write(&timetable_of(&[0, 0], Form::Earlier).unwrap()), file(&[0, 0]));

    let further: &[u32] = &[4, 1, 7, 2, 9, 1, 3, 5, 2, 7, 7, 10, 1, 3, 5, 2, 7, 7, 11, 7, 7, 1, 7, 130];
    // The last of them is a report, which in the newest form has its minute behind it.
    let newest = join(&[&[9], &MARKED.concat(), further, &[2879]]);
    let earlier = join(&[&[9], &MARKED.map(without_mark).concat(), further]);
    let edits = edits_of(&earlier, Form::Earlier).unwrap();
    assert_eq!(edits.len(), 9);
    assert_eq!(Ok(&edits), edits_of(&newest, Form::Newest).as_ref());
    // Kinds of later requests are none of the earlier form either.
    assert_eq!(edits_of(&[1, 12, 1], Form::Earlier), Err((3, 1)));
}

#[test]
fn an_amendment_of_an_earlier_file_clears_the_mark() {
    let network = network();
    let mut timetable = timetable_of(&join(&[&[1], &passing(1, 110, 110), &[0]]), Form::Newest).unwrap();
    let edits = edits_of(&[1, 6, 2, 7, 1, 110, 110], Form::Earlier).unwrap();
    assert_eq!(machine::run(&network, &mut timetable, &edits[0]).refusal, 0);
    assert_eq!(timetable, timetable_of(&join(&[&[1], &passing(0, 110, 110), &[0]]), Form::Newest).unwrap());
}

#[test]
fn each_form_read_as_the_other() {
    // Where a mark of 0 is taken for the arrival, the departure is taken for what follows.
    assert_eq!(edits_of(&[1, 1, 1, 7, 1, 0, 100, 102], Form::Earlier), Err((1, 7)));
    assert_eq!(edits_of(&[1, 1, 1, 7, 1, 100, 102], Form::Newest), Err((3, 5)));
    // An arrival of 0 or 1 is a good mark: only the end tells.
    assert_eq!(edits_of(&[1, 1, 1, 7, 1, 1, 102], Form::Newest), Err((1, 7)));
    assert_eq!(timetable_of(&[1, 2, 7, 1, 0, 110, 0, 110, 0, 0, 0, 0], Form::Earlier), Err((3, 5)));
    assert_eq!(timetable_of(&[1, 2, 7, 1, 110, 0, 110, 0, 0, 0, 0], Form::Newest), Err((3, 4)));
    // A file of both forms: with no visit, or no edit that carries a track or a minute.
    for form in [Form::Earlier, Form::Newest] {
        assert_eq!(timetable_of(&[0, 1, 2, 1, 5, 2, 7, 8], form).map(|timetable| timetable.relation_count()), Ok(1));
        assert_eq!(edits_of(&[1, 11, 7], form).map(|edits| edits.len()), Ok(1));
    }
    // The programs read the newest.
    assert_eq!(shift(&file(&join(&[ROW, &[1, 1, 1, 7, 1, 100, 102]]))), format!("R 3 {}\n", ROW.len() + 5));
    assert_eq!(inspect(&file(&join(&[ROW, &[1, 2, 7, 1, 110, 0, 110, 0, 0, 0, 0]]))), format!("R 3 {}\n", ROW.len() + 4));
}

/// "Two control rooms at different releases": area 2 has the older, and hands its sheet over in the earlier form.
#[test]
fn rooms_at_two_releases() {
    let network = network();
    let older = |station: Station| network.area_of(station).0 == 2;
    let newest: [&[u32]; 3] = [&[1, 1, 7, 1, 1, 100, 102], &[1, 1, 9, 2, 1, 100, 100], &[9, 1, 1, 0, 2, 7, 9]];
    let earlier: [&[u32]; 3] = [&[3, 2, 7, 1, 114, 114, 1, 1, 12], &[3, 3, 7, 1, 126, 127, 2, 2, 12], &[6, 2, 7, 2, 114, 115]];
    let mut rooms = Timetable::default();
    let read =
        [edits_of(&join(&[&[3], &newest.concat()]), Form::Newest), edits_of(&join(&[&[3], &earlier.concat()]), Form::Earlier)];
    for edit in read.into_iter().flat_map(|list| list.unwrap()) {
        assert_eq!(machine::run(&network, &mut rooms, &edit).refusal, 0);
    }
    // The centre takes the older room's edits with mark 0.
    let with_mark = |edit: &[u32]| join(&[&edit[..4], &[0], &edit[4..]]);
    let central: Vec<u32> = join(&[&[6], &newest.concat(), &earlier.map(with_mark).concat()]);
    let mut centre = Timetable::default();
    for edit in edits_of(&central, Form::Newest).unwrap() {
        machine::run(&network, &mut centre, &edit);
    }
    // The older room's sheet as its file, and the newer room's stations as they are.
    let handed = [2, 2, 7, 2, 114, 0, 115, 0, 1, 1, 3, 2, 12, 3, 7, 1, 126, 0, 127, 0, 2, 2, 0, 0];
    let mut merged = timetable_of(&handed, Form::Earlier).unwrap();
    assert!(merged.visits.keys().all(|(station, _)| older(*station)));
    for ((station, train), visit) in rooms.visits.iter().filter(|((station, _), _)| !older(*station)) {
        merged.visits.insert((*station, *train), *visit);
        merged.set_relations(*station, rooms.relations_at(*station));
    }
    assert_eq!(merged, centre);
    assert_eq!(merged.visits.values().filter(|visit| visit.mark).count(), 2);
}
