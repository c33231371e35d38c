//! Document 02, W3: two least running times a line, and network files of the earlier form.

mod common;

use common::{file, join, lines, LOOSE, NETWORK};
use reference::network::{read, turn, Form};
use reference::programs::{inspect, shift};

/// A line of `NETWORK` begins here, and ends it: number, first, second, kind, both times, capacity.
const LINE: usize = 9;

/// `NETWORK` with these least times and no closures.
fn timed(passenger: u32, freight: u32) -> Vec<u32> {
    join(&[&NETWORK[..LINE + 4], &[passenger, freight, 1, 0]])
}

/// Whether rule 5 finds a train that leaves station 1 with this run.
fn found(times: [u32; 2], train: u32, run: u32) -> bool {
    let visit = [1, train, 1, 0, 90, 0, 100, 0, 0, 2, 1, run];
    let output = inspect(&file(&join(&[&timed(times[0], times[1]), &[1], &visit, &[0]])));
    lines(&output, "F").contains(&format!("1 5 {train} 0").as_str())
}

/// `NETWORK` in the earlier form: one least time a line, and these closures.
fn old(closures: &[[u32; 3]]) -> Vec<u32> {
    join(&[&NETWORK[..LINE + 5], &NETWORK[LINE + 6..], &[closures.len() as u32], &closures.concat()])
}

fn turned(numbers: &[u32]) -> Result<Vec<u8>, (u32, usize)> {
    turn(&file(numbers), Form::OneTime).map_err(|refusal| (refusal.number, refusal.place))
}

fn refused(numbers: &[u32], number: u32, place: usize) {
    assert_eq!(turned(numbers), Err((number, place)));
}

#[test]
fn freight_begins_at_5000() {
    // A run between the two times: below freight's, the greater one, and then below the passengers'.
    for (times, passenger, freight) in [([10, 13], false, true), ([13, 10], true, false)] {
        for (train, sort) in [(1, passenger), (4999, passenger), (5000, freight), (9999, freight)] {
            assert_eq!(found(times, train, 12), sort, "train {train}, times {times:?}");
        }
    }
}

#[test]
fn a_run_equal_to_the_least_is_no_fault() {
    for times in [[10, 13], [13, 10], [1, 240], [240, 1], [10, 10]] {
        for (train, least) in [(4999, times[0]), (5000, times[1])] {
            assert!(!found(times, train, least), "train {train}, times {times:?}");
            assert!(least == 1 || found(times, train, least - 1), "train {train}, times {times:?}");
        }
    }
}

#[test]
fn each_train_by_its_own_time() {
    // Both sorts leave both stations, in two areas, with a run of 12.
    let leaves = |at, train, next| [at, train, 1, 0, 90, 0, 100, 0, 0, next, 1, 12];
    let visits = [leaves(1, 4999, 2), leaves(1, 5000, 2), leaves(2, 7, 1), leaves(2, 5001, 1)].concat();
    let output = inspect(&file(&join(&[&timed(10, 13), &[4], &visits, &[0]])));
    let fifth = |letter| lines(&output, letter).into_iter().filter(|line| line.contains(" 5 ")).collect::<Vec<_>>();
    assert_eq!(fifth("F"), ["1 5 5000 0", "2 5 5001 0"]);
    assert_eq!(fifth("D"), ["1 1 5 5000 0", "2 2 5 5001 0"]);
    assert_eq!(fifth("P"), [""; 0]);
}

#[test]
fn edits_meet_the_time_of_their_train() {
    let run = |train: u32, run: u32| {
        let edits = [1, 1, train, 1, 0, 100, 102, 3, 2, train, 1, 0, 102 + run, 115, 1, 1, run];
        shift(&file(&join(&[&timed(10, 13), &[2], &edits])))
    };
    assert_eq!(lines(&run(4999, 10), "F"), [""; 0]);
    assert_eq!(lines(&run(4999, 9), "F"), ["1 5 4999 0"]);
    assert_eq!(lines(&run(5000, 13), "F"), [""; 0]);
    assert_eq!(lines(&run(5000, 12), "F"), ["1 5 5000 0"]);
    // No edit is refused for it.
    assert_eq!(lines(&run(5000, 1), "E"), ["1 0 0", "2 0 0"]);
}

#[test]
fn both_times_are_tested() {
    let read_by = |network: &[u32]| [shift(&file(&join(&[network, &[0]]))), inspect(&file(&join(&[network, &[0, 0]])))];
    assert_eq!(read_by(&timed(1, 240)), ["T 0 0 0\nA 0 0 0 0\n", "T 0 0 0\nW 1\n"]);
    assert_eq!(read_by(&timed(240, 1)), ["T 0 0 0\nA 0 0 0 0\n", "T 0 0 0\nW 1\n"]);
    for (passenger, freight, place) in [(0, 10, 4), (241, 10, 4), (10, 0, 5), (10, 241, 5), (240, 241, 6), (0, 0, 4)] {
        let expected = format!("R 3 {}\n", LINE + place);
        assert_eq!(read_by(&timed(passenger, freight)), [&*expected; 2]);
    }
}

#[test]
fn old_files_turn_byte_for_byte() {
    for closures in [&[][..], &[[1, 0, 1]], &[[1, 90, 103], [1, 100, 2880], [1, 2879, 2880]]] {
        let newest = join(&[NETWORK, &[closures.len() as u32], &closures.concat()]);
        assert_eq!(turned(&old(closures)), Ok(file(&newest)));
    }
    // Two lines, one with a time of two bytes, and no line at all.
    let stations = [2, 1, 1, 2, 2, 2, 2, 3];
    let two = join(&[&stations, &[2, 1, 1, 2, 3, 128, 9, 32, 2, 1, 1, 7, 1], &[1, 32, 5, 6]]);
    let newest = join(&[&stations, &[2, 1, 1, 2, 3, 128, 128, 9, 32, 2, 1, 1, 7, 7, 1], &[1, 32, 5, 6]]);
    assert_eq!(turned(&two), Ok(file(&newest)));
    assert_eq!(turned(&join(&[&stations, &[0, 0]])), Ok(file(&join(&[&stations, &[0, 0]]))));
}

#[test]
fn both_times_are_the_old_number() {
    let network = read(&turned(&old(&[[1, 90, 103]])).unwrap(), Form::Newest).unwrap();
    assert_eq!(network, read(&file(&old(&[[1, 90, 103]])), Form::OneTime).unwrap());
    let line = network.lines.values().next().unwrap();
    assert_eq!((line.passenger_least, line.freight_least), (10, 10));
    // So both sorts are judged as one was: 9 is below 10, and 10 is not.
    for train in [4999, 5000] {
        let prints = |run| {
            let visit = [1, train, 1, 0, 90, 0, 100, 0, 0, 2, 1, run];
            let behind = file(&join(&[&[1], &visit, &[0]]));
            inspect(&[turned(&old(&[])).unwrap(), behind].concat())
        };
        assert_eq!(lines(&prints(9), "F"), [format!("1 5 {train} 0"), format!("1 7 {train} 0")]);
        assert_eq!(lines(&prints(10), "F"), [format!("1 7 {train} 0")]);
    }
}

#[test]
fn refusals_of_old_files_have_their_places() {
    // The count of closures stands at 15 in the old file, at 16 in the new one.
    let count = NETWORK.len() - 1;
    let good = old(&[[1, 5, 9]]);
    // 1: it ends early, at every byte, or goes on.
    for end in 0..good.len() {
        refused(&good[..end], 1, end);
    }
    refused(&join(&[&good, &[0]]), 1, count + 4);
    // 2: a number that isn't shortest.
    let mut bytes = file(&good);
    bytes.splice(count..=count, [0x81, 0]);
    let refusal = turn(&bytes, Form::OneTime).unwrap_err();
    assert_eq!((refusal.number, refusal.place), (2, count));
    // 3: the one time, the capacity behind it, and a closure.
    let with = |at: usize, value| {
        let mut numbers = good.clone();
        numbers[at] = value;
        numbers
    };
    for (at, value) in [(LINE + 4, 0), (LINE + 4, 241), (LINE + 5, 0), (LINE + 5, 10), (count, 33), (count + 3, 2881)] {
        refused(&with(at, value), 3, at);
    }
    // 14 before 4, 4 of a line before that of a closure, and a faulty number before all.
    refused(&with(count + 3, 5), 14, count + 1);
    refused(&with(count + 1, 2), 4, count + 1);
    let loose = join(&[&LOOSE[..11], &LOOSE[12..]]);
    refused(&join(&[&loose, &[0]]), 4, 6);
    refused(&join(&[&loose, &[1, 2, 5, 6]]), 4, 6);
    refused(&join(&[&loose, &[1, 2, 5, 5]]), 14, loose.len() + 1);
    refused(&join(&[&loose, &[1, 2, 5, 5, 0]]), 1, loose.len() + 4);
}

#[test]
fn document_01s_form_is_not_turned() {
    // Without closures the file ends where their count would stand.
    let numbers = old(&[]);
    let without = &numbers[..numbers.len() - 1];
    refused(without, 1, without.len());
    refused(&[], 1, 0);
}

#[test]
fn the_programs_read_the_newest_form() {
    // The count of closures of an old file is taken for a capacity, and 0 is none.
    let edits = [0];
    assert_eq!(shift(&file(&join(&[&old(&[]), &edits]))), format!("R 3 {}\n", LINE + 6));
    // The newest form read as such is written as it was.
    let newest = file(&timed(10, 13));
    assert_eq!(turn(&newest, Form::Newest), Ok(newest.clone()));
    assert_eq!(read(&newest, Form::Newest).unwrap().write(), newest);
    // As an old one it is refused: freight's 13 is no capacity.
    refused(&timed(10, 13), 3, LINE + 5);
}
