//! Document 02, W1: closures in files, what refuses them, and rule 11.

mod common;

use common::{file, join, lines, LOOSE, NETWORK};
use reference::programs::{inspect, shift};

/// Where the closures' count stands behind `NETWORK`, a byte a number.
const COUNT: usize = NETWORK.len();

fn closed(closures: &[[u32; 3]]) -> Vec<u32> {
    join(&[NETWORK, &[closures.len() as u32], &closures.concat()])
}

/// What both programs print for a network, the one with no edits behind it, the other with no visits and relations.
fn both(network: &[u32]) -> [String; 2] {
    [shift(&file(&join(&[network, &[0]]))), inspect(&file(&join(&[network, &[0, 0]])))]
}

fn refused(network: &[u32], number: u32, place: usize) {
    assert_eq!(both(network), [(); 2].map(|()| format!("R {number} {place}\n")));
}

fn accepted(network: &[u32]) {
    assert_eq!(both(network), ["T 0 0 0\nA 0 0 0 0\n", "T 0 0 0\nW 1\n"]);
}

/// Train 7 leaves station 1 at 100 with run 12, train 8 is at station 2 without a link.
fn found(closures: &[[u32; 3]], departed: u32) -> String {
    let visits = [1, 7, 1, 0, 90, departed, 100, departed, 0, 2, 1, 12, 2, 8, 1, 0, 90, 0, 95, 0, 0, 0];
    inspect(&file(&join(&[&closed(closures), &[2], &visits, &[0]])))
}

fn rule_11(closures: &[[u32; 3]]) -> bool {
    lines(&found(closures, 0), "F").contains(&"1 11 7 1")
}

#[test]
fn windows_are_half_open() {
    assert!(!rule_11(&[]));
    // Up to the departure, and a minute more.
    assert!(!rule_11(&[[1, 90, 100]]));
    assert!(rule_11(&[[1, 90, 101]]));
    // From departure + run on, and a minute more.
    assert!(!rule_11(&[[1, 112, 120]]));
    assert!(rule_11(&[[1, 111, 120]]));
    // Inside, around, and a single minute at either end.
    for [start, end] in [[104, 106], [0, 2880], [100, 101], [111, 112], [100, 112]] {
        assert!(rule_11(&[[1, start, end]]));
    }
    // Between two closures that touch it.
    assert!(!rule_11(&[[1, 0, 100], [1, 112, 2880]]));
}

#[test]
fn one_finding_at_the_departing_station() {
    // Station 1 is in area 1, station 2 in area 2: the area lists it, and no pair does. The link isn't answered.
    let closures = [[1, 90, 101], [1, 95, 2880], [1, 100, 101], [1, 111, 112]];
    let output = found(&closures, 0);
    assert_eq!(lines(&output, "F"), ["1 7 7 0", "1 11 7 1"]);
    assert_eq!(lines(&output, "D"), ["1 1 11 7 1"]);
    assert_eq!(lines(&output, "P"), ["1 2 1 7 7 0"]);
    // A departure that has occurred is none.
    assert_eq!(lines(&found(&closures, 1), "F"), ["1 7 7 0"]);
}

#[test]
fn behind_rule_10_by_train() {
    // Trains 6 and 7 leave station 1, train 5 station 2, all on the one line at 100; it is closed either way.
    let leaves = |at, train, next| [at, train, 1, 0, 90, 0, 100, 0, 0, next, 1, 12];
    let visits = [leaves(1, 6, 2), leaves(1, 7, 2), leaves(2, 5, 1)].concat();
    let output = inspect(&file(&join(&[&closed(&[[1, 105, 106]]), &[3], &visits, &[0]])));
    let late = |line: &&str| line.split(' ').nth(1).is_some_and(|rule| rule == "10" || rule == "11");
    let found: Vec<&str> = lines(&output, "F").into_iter().filter(late).collect();
    assert_eq!(found, ["1 10 6 5", "1 10 7 5", "1 11 6 1", "1 11 7 1", "2 10 5 6", "2 10 5 7", "2 11 5 1"]);
}

#[test]
fn no_wrap_past_the_last_minute() {
    let leaves_at = |departure, closures: &[[u32; 3]]| {
        let visit = [1, 7, 1, 0, departure, 0, departure, 0, 0, 2, 1, 240];
        let output = inspect(&file(&join(&[&closed(closures), &[1], &visit, &[0]])));
        lines(&output, "F").contains(&"1 11 7 1")
    };
    assert!(leaves_at(2879, &[[1, 2879, 2880]]));
    assert!(!leaves_at(2879, &[[1, 0, 240], [1, 241, 2879]]));
    assert!(leaves_at(2700, &[[1, 2879, 2880]]));
    assert!(!leaves_at(0, &[[1, 240, 2880]]));
}

#[test]
fn edits_meet_closures() {
    let edits = [1, 1, 7, 1, 0, 100, 102, 3, 2, 7, 1, 0, 114, 115, 1, 1, 12];
    let run = |closures: &[[u32; 3]], more: &[u32]| {
        let count = 2 + more.len() as u32 / 5;
        shift(&file(&join(&[&closed(closures), &[count], &edits, more])))
    };
    assert_eq!(lines(&run(&[[1, 90, 102]], &[]), "F"), [""; 0]);
    assert_eq!(lines(&run(&[[1, 90, 103]], &[]), "F"), ["1 11 7 1"]);
    assert_eq!(lines(&run(&[[1, 90, 103]], &[7, 1, 7, 100, 100]), "F"), ["1 11 7 1"]);
    assert_eq!(lines(&run(&[[1, 90, 103]], &[7, 1, 7, 100, 100, 8, 1, 7, 102, 102]), "F"), [""; 0]);
}

#[test]
fn ranges_and_orders() {
    accepted(&closed(&[]));
    accepted(&closed(&[[1, 0, 1], [1, 2879, 2880]]));
    // Windows that overlap, touch or lie in one another.
    accepted(&closed(&[[1, 0, 2880], [1, 1, 10], [1, 10, 12], [1, 11, 100]]));
    let minutes: Vec<[u32; 3]> = (0..33).map(|start| [1, start, start + 1]).collect();
    accepted(&closed(&minutes[..32]));
    refused(&closed(&minutes), 3, COUNT);
    for (closure, at) in [([0, 5, 9], 1), ([33, 5, 9], 1), ([1, 2880, 9], 2), ([1, 5, 0], 3), ([1, 5, 2881], 3)] {
        refused(&closed(&[closure]), 3, COUNT + at);
    }
    // The first number that falls; of an equal line and start the start, whatever the ends.
    refused(&closed(&[[2, 5, 9], [1, 6, 9]]), 3, COUNT + 4);
    refused(&closed(&[[1, 5, 9], [1, 4, 9]]), 3, COUNT + 5);
    refused(&closed(&[[1, 5, 9], [1, 5, 10]]), 3, COUNT + 5);
    refused(&closed(&[[1, 5, 9], [1, 5, 9]]), 3, COUNT + 5);
}

#[test]
fn ends_not_after_their_starts() {
    refused(&closed(&[[1, 5, 5]]), 14, COUNT + 1);
    refused(&closed(&[[1, 0, 1], [1, 9, 8], [1, 10, 10]]), 14, COUNT + 4);
    // Behind every faulty number of the file, surplus bytes included.
    let empty = closed(&[[1, 5, 5]]);
    refused(&closed(&[[1, 5, 5], [1, 5, 9]]), 3, COUNT + 5);
    assert_eq!(shift(&file(&empty)), format!("R 1 {}\n", COUNT + 4));
    assert_eq!(shift(&file(&join(&[&empty, &[1, 12]]))), format!("R 3 {}\n", COUNT + 5));
    assert_eq!(shift(&file(&join(&[&empty, &[0, 0]]))), format!("R 1 {}\n", COUNT + 5));
    assert_eq!(inspect(&file(&join(&[&empty, &[0, 97]]))), format!("R 3 {}\n", COUNT + 5));
    // Before 4 of a line, which stands before it, and before 4 of a closure.
    refused(&join(&[LOOSE, &[1, 1, 5, 5]]), 14, LOOSE.len() + 1);
    refused(&closed(&[[1, 0, 1], [2, 5, 6], [2, 6, 6]]), 14, COUNT + 7);
}

#[test]
fn closures_of_unlisted_lines() {
    refused(&closed(&[[2, 5, 6]]), 4, COUNT + 1);
    refused(&closed(&[[1, 5, 6], [31, 5, 6], [32, 5, 6]]), 4, COUNT + 4);
    assert_eq!(shift(&file(&closed(&[[2, 5, 6]]))), format!("R 1 {}\n", COUNT + 4));
    // A line's ends come first, and in a timetable file 7 and 12 come last.
    refused(&join(&[LOOSE, &[1, 2, 5, 6]]), 4, 6);
    let unknown = [1, 3, 7, 1, 0, 90, 0, 90, 0, 0, 0, 0];
    assert_eq!(inspect(&file(&join(&[&closed(&[[2, 5, 6]]), &unknown]))), format!("R 4 {}\n", COUNT + 1));
    assert_eq!(inspect(&file(&join(&[&closed(&[[1, 5, 6]]), &unknown]))), format!("R 7 {}\n", COUNT + 5));
}

#[test]
fn ends_early_among_closures() {
    let whole = file(&closed(&[[1, 5, 2880], [1, 300, 301]]));
    for end in COUNT..whole.len() {
        assert_eq!(shift(&whole[..end]), format!("R 1 {end}\n"));
    }
}
