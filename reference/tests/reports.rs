//! Document 02, W7: reports carry the present minute, and one from the future is refused with 15.

mod common;

use common::{file, join, lines, LOOSE, NETWORK};
use reference::edits::{self, Edit, Form};
use reference::machine::{self, names, own_refusal, Answer, FUTURE};
use reference::network::{self, Network};
use reference::number::{FileRefusal, Reader};
use reference::programs::shift;
use reference::railway::{Area, Timetable};
use reference::tally::Tally;
use reference::timetable::write;

/// No closures.
const NONE: &[u32] = &[0];
/// The byte behind the network and the count of edits: the first edit's.
const FIRST: usize = NETWORK.len() + 2;
/// Train 7 runs from station 1 to station 2.
const JOURNEY: [&[u32]; 2] = [&[1, 1, 7, 1, 0, 100, 102], &[3, 2, 7, 1, 0, 114, 115, 1, 1, 12]];
/// Arrival and departure.
const KINDS: [u32; 2] = [7, 8];

fn network() -> Network {
    network::read(&file(&join(&[NETWORK, NONE])), network::Form::Newest).expect("a good network")
}

fn edits_of(numbers: &[u32], form: Form) -> Result<Vec<Edit>, (u32, usize)> {
    let refused = |read: FileRefusal| (read.number, read.place);
    let bytes = file(numbers);
    let mut reader = Reader::new(&bytes);
    let edits = edits::read(&mut reader, form).map_err(refused)?;
    reader.end().map_err(refused)?;
    Ok(edits)
}

fn edit(numbers: &[u32]) -> Edit {
    edits_of(&join(&[&[1], numbers]), Form::Newest).expect("an edit").remove(0)
}

/// What `shift` prints for these edits alone.
fn edited(edits: &[&[u32]]) -> String {
    shift(&file(&join(&[NETWORK, NONE, &[edits.len() as u32], &edits.concat()])))
}

/// The answers to what follows the edits of `JOURNEY`.
fn then(further: &[&[u32]]) -> Vec<u32> {
    let output = edited(&[&JOURNEY[..], further].concat());
    lines(&output, "E")[2..].iter().map(|line| line.split(' ').nth(1).unwrap().parse().unwrap()).collect()
}

/// The timetable behind the edits of `JOURNEY` and these.
fn after(further: &[&[u32]]) -> Timetable {
    let mut timetable = Timetable::default();
    for numbers in JOURNEY.iter().chain(further) {
        machine::run(&network(), &mut timetable, &edit(numbers));
    }
    timetable
}

#[test]
fn a_report_is_judged_by_its_own_minute() {
    let edges = [(100, 100), (101, 100), (100, 101), (0, 0), (1, 0), (2879, 2879), (2879, 2878), (0, 2879), (2879, 0)];
    let due = [0, 15, 0, 0, 15, 0, 15, 0, 15];
    for kind in KINDS {
        assert_eq!(edges.map(|(time, minute)| then(&[&[kind, 1, 7, time, minute]])[0]), due);
    }
}

#[test]
fn before_7_and_9() {
    for kind in KINDS {
        // A station that isn't listed, a train that doesn't visit, both; and with the minute that lets it pass.
        for (station, train, otherwise) in [(3, 7, 7), (1, 8, 9), (2, 9999, 9), (16, 8, 7)] {
            assert_eq!(then(&[&[kind, station, train, 100, 99]]), [15]);
            assert_eq!(then(&[&[kind, station, train, 100, 100]]), [otherwise]);
        }
    }
    // In one list, in every order.
    let (future, unknown, missing): (&[u32], &[u32], &[u32]) = (&[7, 1, 7, 9, 8], &[8, 3, 7, 9, 9], &[7, 1, 8, 9, 9]);
    assert_eq!(then(&[future, unknown, missing]), [15, 7, 9]);
    assert_eq!(then(&[future, missing, unknown]), [15, 9, 7]);
    assert_eq!(then(&[unknown, future, missing]), [7, 15, 9]);
    assert_eq!(then(&[missing, future, unknown]), [9, 15, 7]);
    assert_eq!(then(&[unknown, missing, future]), [7, 9, 15]);
    assert_eq!(then(&[missing, unknown, future]), [9, 7, 15]);
}

#[test]
fn values_out_of_range_come_first() {
    for kind in KINDS {
        // One value out of range in a report from the future.
        for (at, value) in [(1, 0), (1, 17), (2, 0), (2, 10_000), (3, 2880)] {
            let mut numbers = [kind, 1, 7, 100, 99];
            numbers[at] = value;
            assert_eq!(edited(&[&numbers]), format!("R 3 {}\n", FIRST + at));
        }
        // Before it and behind it.
        let (future, faulty) = ([kind, 1, 7, 100, 99], [11, 0]);
        assert_eq!(edited(&[&future, &faulty]), format!("R 3 {}\n", FIRST + 6));
        assert_eq!(edited(&[&faulty, &future]), format!("R 3 {}\n", FIRST + 1));
        assert_eq!(edited(&[&future, &[kind, 1, 7]]), format!("R 1 {}\n", FIRST + 8));
    }
}

#[test]
fn it_is_never_a_files_refusal() {
    let future: &[u32] = &[7, 1, 7, 100, 99];
    assert_eq!(edited(&[future, future]), "E 1 15 0\nE 2 15 0\nT 0 0 0\nA 0 2 0 0\n");
    // The network is in the file, and its 14 and 4 come before any edit is asked.
    let behind = |network: &[u32]| shift(&file(&join(&[network, &[1], future])));
    assert_eq!(behind(&join(&[NETWORK, &[1, 1, 5, 5]])), format!("R 14 {}\n", NETWORK.len() + 1));
    assert_eq!(behind(&join(&[NETWORK, &[1, 2, 5, 6]])), format!("R 4 {}\n", NETWORK.len() + 1));
    assert_eq!(behind(&join(&[LOOSE, NONE])), "R 4 6\n");
}

#[test]
fn minutes_out_of_range_are_refused_at_the_minute() {
    for kind in KINDS {
        for (minute, refusal) in [(2879, None), (2880, Some((3, 5))), (16_384, Some((3, 5)))] {
            let numbers = [1, kind, 1, 7, 100, minute];
            assert_eq!(edits_of(&numbers, Form::Newest).err(), refusal, "{numbers:?}");
            let printed = refusal.map(|(number, place)| format!("R {number} {}\n", FIRST - 1 + place));
            let output = edited(&[&numbers[1..]]);
            assert!(printed.is_none_or(|line| line == output), "{numbers:?}");
        }
        // The time stands before the minute; times from 128 on have two bytes.
        assert_eq!(edits_of(&[1, kind, 1, 7, 2880, 2880], Form::Newest), Err((3, 4)));
        assert_eq!(edits_of(&[1, kind, 1, 7, 2879, 2880], Form::Newest), Err((3, 6)));
        // A number that isn't shortest, before its value is looked at, and a file that ends at the minute.
        let mut bytes = file(&[1, kind, 1, 7, 100, 100]);
        bytes.splice(5..6, [0xC0, 0x96, 0]);
        let read = edits::read(&mut Reader::new(&bytes), Form::Newest);
        assert_eq!(read.map_err(|refusal| (refusal.number, refusal.place)), Err((2, 5)));
        assert_eq!(edits_of(&[1, kind, 1, 7, 100], Form::Newest), Err((1, 5)));
        assert_eq!(edits_of(&[1, kind, 1, 7, 100, 100, 0], Form::Newest), Err((1, 6)));
    }
}

#[test]
fn a_clock_may_go_back() {
    // Each by its own minute, whatever the reports before it carried.
    let reports: [&[u32]; 6] = [
        &[7, 1, 7, 100, 2879],
        &[8, 1, 7, 102, 102],
        &[7, 1, 7, 101, 100],
        &[8, 1, 7, 50, 50],
        &[7, 2, 7, 51, 50],
        &[7, 2, 7, 51, 51],
    ];
    assert_eq!(then(&reports), [0, 0, 15, 0, 15, 0]);
    // What has occurred later than its minute doesn't matter either.
    assert_eq!(then(&[&[8, 1, 7, 2000, 2000], &[7, 1, 7, 60, 60], &[7, 1, 7, 2000, 60]]), [0, 0, 15]);
}

#[test]
fn the_earlier_form_has_no_minute_and_carries_2879() {
    for kind in KINDS {
        for time in [0, 100, 2878, 2879] {
            let early = edits_of(&[1, kind, 1, 7, time], Form::Earlier);
            assert_eq!(early, edits_of(&[1, kind, 1, 7, time, 2879], Form::Newest));
            assert_eq!(machine::run(&network(), &mut after(&[]), &early.unwrap()[0]), Answer { refusal: 0, removed: 0 });
        }
        // Places in the early file: the time, what follows the report, the end.
        assert_eq!(edits_of(&[1, kind, 1, 7, 2880], Form::Earlier), Err((3, 4)));
        assert_eq!(edits_of(&[2, kind, 1, 7, 100, 12], Form::Earlier), Err((3, 5)));
        assert_eq!(edits_of(&[1, kind, 1, 7], Form::Earlier), Err((1, 4)));
        // Each form read as the other: the minute is one number too many, or missing.
        assert_eq!(edits_of(&[1, kind, 1, 7, 100, 100], Form::Earlier), Err((1, 5)));
        assert_eq!(edits_of(&[1, kind, 1, 7, 100], Form::Newest), Err((1, 5)));
        // An edit's kind and train, 11 and 7, which the newest form reads as the minute and the next kind.
        let both = [2, kind, 1, 7, 10, 11, 7];
        assert_eq!(edits_of(&both, Form::Earlier), edits_of(&[2, kind, 1, 7, 10, 2879, 11, 7], Form::Newest));
        assert_eq!(edits_of(&both, Form::Newest), Err((1, 7)));
    }
    // The programs read the newest.
    assert_eq!(edited(&[&[7, 1, 7, 100]]), format!("R 1 {}\n", FIRST + 4));
}

#[test]
fn it_names_no_area() {
    let network = network();
    for kind in KINDS {
        let named = |minute| names(&network, &edit(&[kind, 2, 7, 100, minute]));
        assert!(named(99).is_empty() && named(0).is_empty());
        assert_eq!([named(100), named(2879)], [[Area(2)].into(), [Area(2)].into()]);
        // A station that isn't listed has none anyway.
        assert!(names(&network, &edit(&[kind, 3, 7, 100, 100])).is_empty());
    }
    assert_eq!(names(&network, &edit(&[11, 7])), [Area(1), Area(2)].into());
    assert_eq!(names(&network, &edit(JOURNEY[1])), [Area(1), Area(2)].into());
    assert!(names(&network, &edit(&[1, 1, 7, 3, 0, 100, 102])).is_empty());
}

/// There is no sheet after an edit that is refused, and so nothing to recheck: what refuses it before any sheet is
/// looked at refuses a recheck too.
#[test]
fn a_recheck_refuses_it_before_a_sheet_is_looked_at() {
    let network = network();
    for kind in KINDS {
        // Before 7, and where the visit is not there.
        for station in [1, 2, 3] {
            assert_eq!(own_refusal(&network, &edit(&[kind, station, 7, 100, 99])), FUTURE);
        }
        assert_eq!(own_refusal(&network, &edit(&[kind, 1, 7, 100, 100])), 0);
        assert_eq!(own_refusal(&network, &edit(&[kind, 3, 7, 100, 100])), 7);
    }
}

#[test]
fn it_changes_nothing() {
    // Reported and pending, and a relation of the train.
    let before: [&[u32]; 2] = [&[7, 1, 7, 101, 101], &[9, 1, 3, 0, 2, 7, 7]];
    for kind in KINDS {
        for (station, time, minute) in [(1, 101, 100), (2, 114, 113), (2, 2879, 0)] {
            let mut timetable = after(&before);
            let answer = machine::run(&network(), &mut timetable, &edit(&[kind, station, 7, time, minute]));
            assert_eq!(answer, Answer { refusal: 15, removed: 0 });
            assert_eq!(timetable, after(&before));
        }
    }
}

#[test]
fn the_minute_is_not_kept() {
    for kind in KINDS {
        let [one, other] = [120, 2879].map(|minute| after(&[&[kind, 2, 7, 120, minute]]));
        assert_eq!(one, other);
        assert_eq!(write(&one), write(&other));
        assert_ne!(one, after(&[]));
    }
    // The time is the report's, and not the minute.
    let late: &[u32] = &[7, 2, 7, 114, 130];
    assert!(lines(&edited(&[JOURNEY[0], JOURNEY[1], late]), "F").is_empty());
    let departed = after(&[late, &[8, 2, 7, 120, 130]]);
    assert!(departed.visits.values().any(|visit| (visit.arrival.time, visit.departure.time) == (114, 120)));
}

#[test]
fn a_list_runs_on_and_the_tally_counts_it_as_refused() {
    let output = edited(&[
        &[7, 1, 7, 100, 99],
        JOURNEY[0],
        &[8, 1, 7, 103, 102],
        JOURNEY[1],
        &[7, 1, 7, 100, 100],
        &[8, 2, 7, 2879, 2878],
        &[11, 7],
    ]);
    assert_eq!(lines(&output, "E"), ["1 15 0", "2 0 0", "3 15 0", "4 0 0", "5 0 0", "6 15 0", "7 0 2"]);
    assert_eq!(lines(&output, "T"), ["0 0 0"]);
    assert_eq!(lines(&output, "A"), ["4 3 2 2"]);
    let tally = Tally { accepted: 1, refused: 2, added: 3, removed: 4 };
    let raised = tally.raised(&edit(&[7, 1, 7, 100, 99]), Answer { refusal: FUTURE, removed: 0 });
    assert_eq!(raised, Tally { refused: 3, ..tally });
}

#[test]
fn amendments_are_not_judged() {
    // Later than every minute that a report carried, before and after what has occurred.
    let amendments: [&[u32]; 3] = [&[6, 1, 7, 1, 0, 2878, 2879], &[6, 1, 7, 1, 0, 50, 2879], &[6, 1, 7, 1, 0, 50, 60]];
    assert_eq!(then(&[&[7, 2, 7, 40, 40], amendments[0]]), [0, 0]);
    assert_eq!(then(&[&[7, 1, 7, 50, 50], amendments[1], &[8, 1, 7, 60, 60], amendments[2]]), [0, 0, 0, 0]);
    // What has occurred is 11, as before.
    assert_eq!(then(&[&[7, 1, 7, 50, 50], amendments[0]]), [0, 11]);
    // A visit may be placed at any time, too.
    assert_eq!(then(&[&[7, 1, 7, 50, 50], &[1, 1, 8, 2, 0, 2879, 2879]]), [0, 0]);
}
