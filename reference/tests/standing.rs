//! Document 02, W2: a standing train holds its track.

mod common;

use common::{file, join, lines, NETWORK};
use reference::programs::{inspect, shift};

/// Two trains at station 1: track, arrival and its status, departure and its status.
fn listed(seven: [u32; 5], eight: [u32; 5]) -> String {
    let visit = |train, at: [u32; 5]| join(&[&[1, train, at[0], 0], &at[1..], &[0, 0]]);
    let visits = join(&[&visit(7, seven), &visit(8, eight)]);
    inspect(&file(&join(&[NETWORK, &[0], &[2], &visits, &[0]])))
}

fn found(seven: [u32; 5], eight: [u32; 5]) -> bool {
    lines(&listed(seven, eight), "F").contains(&"1 2 7 8")
}

#[test]
fn the_standing_twin() {
    // "t arrived at 100 and departs at 102; u at 102 is found, u at 103 isn't."
    assert!(found([1, 100, 1, 102, 0], [1, 102, 0, 104, 0]));
    assert!(!found([1, 100, 1, 102, 0], [1, 103, 0, 104, 0]));
}

#[test]
fn either_of_them_may_stand() {
    assert!(found([1, 102, 0, 104, 0], [1, 100, 1, 102, 0]));
    assert!(!found([1, 103, 0, 104, 0], [1, 100, 1, 102, 0]));
    // Once, the smaller train first, and in the area's list.
    let output = listed([1, 102, 0, 104, 0], [1, 100, 1, 102, 0]);
    assert_eq!(lines(&output, "F"), ["1 2 7 8"]);
    assert_eq!(lines(&output, "D"), ["1 1 2 7 8"]);
    assert!(lines(&output, "P").is_empty());
}

#[test]
fn a_train_stands_from_its_arrival_to_its_departure() {
    for (arrived, departed, stands) in [(1, 0, true), (0, 0, false), (1, 1, false), (0, 1, false)] {
        assert_eq!(found([1, 100, arrived, 102, departed], [1, 80, 0, 84, 0]), stands);
    }
    // Both have arrived.
    assert!(!found([1, 100, 1, 102, 0], [1, 101, 1, 104, 0]));
    // Another track.
    assert!(!found([1, 100, 1, 102, 0], [2, 102, 0, 104, 0]));
}

#[test]
fn times_are_taken_to_the_letter() {
    // The other's plan lies wholly before the arrival; the arrival's time plays no part.
    assert!(found([1, 100, 1, 102, 0], [1, 0, 0, 1, 0]));
    assert!(found([1, 2879, 1, 102, 0], [1, 102, 0, 104, 0]));
    // The other cases of rule 2 remain, also where one of the departures has occurred.
    assert!(found([1, 100, 0, 102, 0], [1, 102, 0, 104, 0]));
    assert!(found([1, 100, 0, 102, 1], [1, 102, 0, 104, 0]));
    assert!(!found([1, 100, 0, 102, 0], [1, 103, 0, 104, 0]));
}

#[test]
fn reports_make_a_train_stand_and_leave() {
    let placed = [1, 1, 7, 1, 0, 100, 102, 1, 1, 8, 1, 0, 102, 104];
    let prints = |reports: &[u32], count: u32| shift(&file(&join(&[NETWORK, &[0, 2 + count], &placed, reports])));
    assert_eq!(lines(&prints(&[], 0), "F"), ["1 2 7 8"]);
    assert_eq!(lines(&prints(&[7, 1, 7, 100, 100], 1), "F"), ["1 2 7 8"]);
    assert!(lines(&prints(&[7, 1, 7, 100, 100, 8, 1, 7, 102, 102], 2), "F").is_empty());
    assert!(lines(&prints(&[7, 1, 7, 100, 100, 7, 1, 8, 102, 102], 2), "F").is_empty());
}
