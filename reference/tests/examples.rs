//! "Examples on the edges" (a) to (k) of document 01, its listing, and further edges, run through both programs.
//! (a) and (b) stand with the numbers, in `number.rs`.

mod common;

use common::{file, join, lines, LOOSE, NETWORK};
use reference::programs::{inspect, shift};

/// No closures.
const NONE: &[u32] = &[0];
/// The byte behind `NETWORK` and `NONE`.
const BEHIND: usize = NETWORK.len() + 1;

fn edited(edits: &[&[u32]]) -> String {
    shift(&file(&join(&[NETWORK, NONE, &[edits.len() as u32], &edits.concat()])))
}

fn timetable(visits: &[&[u32]], relations: &[&[u32]]) -> String {
    let counts = ([visits.len() as u32], [relations.len() as u32]);
    inspect(&file(&join(&[NETWORK, NONE, &counts.0, &visits.concat(), &counts.1, &relations.concat()])))
}

fn findings(output: &str) -> Vec<&str> {
    lines(output, "F")
}

fn refusal(number: u32, place: usize) -> String {
    format!("R {number} {place}\n")
}

#[test]
fn listing() {
    let numbers = [
        2, 1, 1, 2, 2, 2, 1, 3, 1, 1, 1, 2, 3, 10, 10, 1, 0, 4, 1, 1, 7, 1, 0, 100, 102, 3, 2, 7, 1, 0, 115, 115, 1, 1, 12, 1,
        1, 7, 1, 0, 100, 102, 9, 1, 1, 5, 2, 7, 9,
    ];
    let printed = "E 1 0 0\nE 2 0 0\nE 3 8 0\nE 4 0 0\nF 1 4 1 0\nF 1 9 7 0\nT 2 1 2\nA 3 1 2 0\n";
    assert_eq!(shift(&file(&numbers)), printed);
}

#[test]
fn example_b_in_a_file() {
    assert_eq!(shift(&[0x80, 0x00]), "R 2 0\n");
    assert_eq!(inspect(&[0x80, 0x00]), "R 2 0\n");
}

#[test]
fn example_c_one_track() {
    let placed = |arrival| edited(&[&[1, 1, 7, 1, 0, 100, 102], &[1, 1, 8, 1, 0, arrival, 104]]);
    assert_eq!(findings(&placed(102)), ["1 2 7 8"]);
    assert!(findings(&placed(103)).is_empty());
}

#[test]
fn example_d_headway() {
    let left = |departure| {
        timetable(&[&[1, 7, 1, 0, 100, 0, 102, 0, 0, 2, 1, 12], &[1, 8, 2, 0, 100, 0, departure, 0, 0, 2, 1, 12]], &[])
    };
    assert!(findings(&left(104)).contains(&"1 3 7 8"));
    assert!(!findings(&left(105)).contains(&"1 3 7 8"));
}

#[test]
fn example_e_connection() {
    let connected = |arrival| edited(&[&[1, 1, 7, 1, 0, 100, 110], &[1, 1, 8, 2, 0, arrival, 112], &[9, 1, 1, 5, 2, 7, 8]]);
    assert!(findings(&connected(105)).is_empty());
    assert_eq!(findings(&connected(106)), ["1 4 1 0"]);
}

#[test]
fn examples_f_and_g_dependency_of_one_train() {
    let depends =
        |departure| edited(&[&[1, 1, 7, 1, 0, 100, departure], &[9, 1, 3, 4, 2, 7, 7], &[1, 1, 9, 2, 0, 50, 60], &[11, 9]]);
    assert_eq!(lines(&depends(104), "T"), ["1 1 0"]);
    assert_eq!(lines(&depends(103), "T"), ["1 1 1"]);
    assert_eq!(findings(&depends(103)), ["1 4 1 0"]);
    assert_eq!(lines(&depends(103), "E"), ["1 0 0", "2 0 0", "3 0 0", "4 0 1"]);
}

#[test]
fn example_h_relations_become_one() {
    let output = edited(&[&[9, 1, 1, 5, 3, 7, 8, 9], &[9, 1, 1, 5, 2, 7, 8], &[11, 9]]);
    assert_eq!(lines(&output, "T"), ["0 1 1"]);
    assert_eq!(lines(&output, "A"), ["3 0 0 0"]);
}

#[test]
fn example_i_capacity() {
    let followed = |departure| {
        timetable(&[&[1, 7, 1, 0, 90, 0, 100, 0, 0, 2, 1, 12], &[1, 8, 2, 0, 90, 0, departure, 0, 0, 2, 1, 12]], &[])
    };
    assert!(findings(&followed(111)).contains(&"1 6 8 0"));
    assert!(!findings(&followed(112)).contains(&"1 6 8 0"));
}

#[test]
fn example_j_opposing_train() {
    // Train 7 leaves station 1 at 100 with run 12. Train 8 leaves station 2 at 80 and arrives at station 1.
    let opposed = |arrival| {
        timetable(
            &[
                &[1, 7, 1, 0, 90, 0, 100, 0, 0, 2, 1, 12],
                &[1, 8, 2, 0, arrival, 0, 120, 0, 2, 1, 0],
                &[2, 8, 1, 0, 70, 0, 80, 0, 0, 1, 1, 10],
            ],
            &[],
        )
    };
    assert!(findings(&opposed(100)).contains(&"1 10 7 8"));
    assert!(!findings(&opposed(99)).contains(&"1 10 7 8"));
    // The far end of the time: a departure at 112 is found, at 113 not.
    let leaves = |departure| {
        timetable(&[&[1, 7, 1, 0, 90, 0, 100, 0, 0, 2, 1, 12], &[2, 8, 1, 0, 70, 0, departure, 0, 0, 1, 1, 10]], &[])
    };
    assert!(findings(&leaves(112)).contains(&"1 10 7 8"));
    assert!(!findings(&leaves(113)).contains(&"1 10 7 8"));
    // An unanswered link: departure + run is the arrival.
    assert!(findings(&leaves(90)).contains(&"1 10 7 8"));
    assert!(!findings(&leaves(89)).contains(&"1 10 7 8"));
    assert_eq!(lines(&leaves(90), "P"), ["1 2 1 7 7 0", "1 2 1 10 7 8", "1 2 2 7 8 0", "1 2 2 10 8 7"]);
    assert!(lines(&leaves(90), "D").is_empty());
}

#[test]
fn example_k_limit() {
    let edits: Vec<[u32; 7]> = (1..=25).map(|train| [1, 1, train, 1, 0, 0, 0]).collect();
    let edits: Vec<&[u32]> = edits.iter().map(|edit| &edit[..]).collect();
    let output = edited(&edits);
    assert_eq!(lines(&output, "E")[23], "24 0 0");
    assert_eq!(lines(&output, "E")[24], "25 12 0");
    assert_eq!(lines(&output, "A"), ["24 1 24 0"]);

    let edits: Vec<[u32; 7]> = (0..7).map(|interval| [9, 1, 1, interval, 2, 7, 9]).collect();
    let edits: Vec<&[u32]> = edits.iter().map(|edit| &edit[..]).collect();
    let output = edited(&edits);
    assert_eq!(lines(&output, "E")[5], "6 0 0");
    assert_eq!(lines(&output, "E")[6], "7 12 0");
}

#[test]
fn deletions() {
    let journey: [&[u32]; 2] = [&[1, 1, 7, 1, 0, 100, 102], &[3, 2, 7, 1, 0, 114, 115, 1, 1, 12]];
    let then = |edit: &[u32]| {
        let output = edited(&[journey[0], journey[1], edit]);
        (lines(&output, "E")[2].to_owned(), lines(&output, "T")[0].to_owned())
    };
    let got = |answer: &str, totals: &str| (answer.to_owned(), totals.to_owned());
    assert_eq!(then(&[4, 1, 7, 2]), got("3 0 1", "1 0 0"));
    assert_eq!(then(&[5, 2, 7, 1]), got("3 0 1", "1 0 0"));
    assert_eq!(then(&[4, 2, 7, 1]), got("3 10 0", "2 0 0"));
    assert_eq!(then(&[5, 1, 7, 2]), got("3 10 0", "2 0 0"));
    assert_eq!(then(&[4, 1, 7, 1]), got("3 10 0", "2 0 0"));
    assert_eq!(then(&[4, 1, 8, 1]), got("3 9 0", "2 0 0"));
    assert_eq!(then(&[4, 1, 7, 3]), got("3 7 0", "2 0 0"));
    assert_eq!(then(&[11, 7]), got("3 0 2", "0 0 0"));
}

#[test]
fn amendments() {
    let output = edited(&[
        &[1, 1, 7, 1, 0, 100, 110],
        &[7, 1, 7, 101, 101],
        &[6, 1, 7, 1, 0, 101, 112], // the same arrival and track
        &[6, 1, 7, 2, 0, 101, 112], // another track
        &[6, 1, 7, 1, 0, 102, 112], // another arrival
        &[8, 1, 7, 111, 111],
        &[6, 1, 7, 1, 0, 101, 111],
        &[6, 1, 7, 1, 0, 101, 112], // another departure
        &[7, 1, 7, 99, 112],        // reported anew
        &[6, 1, 7, 1, 0, 99, 111],
    ]);
    let answers: Vec<&str> = lines(&output, "E").iter().map(|line| line.split(' ').nth(1).unwrap()).collect();
    assert_eq!(answers, ["0", "0", "0", "11", "11", "0", "0", "11", "0", "0"]);
}

#[test]
fn file_refusals() {
    let good = join(&[NETWORK, NONE, &[0]]);
    assert_eq!(shift(&file(&good)), "T 0 0 0\nA 0 0 0 0\n");
    assert_eq!(shift(&[]), "R 1 0\n");
    assert_eq!(shift(&file(NETWORK)), refusal(1, NETWORK.len()));
    assert_eq!(shift(&file(&join(&[NETWORK, NONE]))), refusal(1, BEHIND));
    assert_eq!(shift(&file(&join(&[&good, &[0]]))), refusal(1, BEHIND + 1));
    assert_eq!(shift(&file(&join(&[NETWORK, NONE, &[1001]]))), refusal(3, BEHIND));
    // A line with equal ends is 4 at the line's first byte, but only without an earlier kind of fault.
    assert_eq!(shift(&file(&join(&[LOOSE, NONE, &[0]]))), "R 4 6\n");
    assert_eq!(shift(&file(LOOSE)), refusal(1, LOOSE.len()));
    // Stations out of order, and equal ones.
    assert_eq!(shift(&file(&[2, 3, 1, 1, 2, 1, 1])), "R 3 4\n");
    assert_eq!(shift(&file(&[2, 3, 1, 1, 3, 1, 1])), "R 3 4\n");
    // The longest input and one more byte.
    assert_eq!(shift(&vec![0; 16_384]), "R 3 0\n");
    assert_eq!(shift(&vec![0; 16_385]), "R 5 0\n");
}

#[test]
fn timetable_refusals() {
    let empty = timetable(&[], &[]);
    assert_eq!(empty, "T 0 0 0\nW 1\n");
    let visit = |station, train, track| [station, train, track, 0, 100, 0, 102, 0, 0, 0];
    assert_eq!(timetable(&[&visit(1, 7, 1), &visit(1, 7, 1)], &[]), refusal(3, BEHIND + 12));
    assert_eq!(timetable(&[&visit(2, 7, 1), &visit(1, 8, 1)], &[]), refusal(3, BEHIND + 11));
    assert_eq!(timetable(&[&visit(3, 7, 1)], &[]), refusal(7, BEHIND + 1));
    assert_eq!(timetable(&[&visit(1, 7, 1), &visit(2, 7, 3)], &[]), refusal(7, BEHIND + 11));
    assert_eq!(timetable(&[], &[&[1, 1, 5, 2, 8, 8]]), refusal(3, BEHIND + 7));
    assert_eq!(timetable(&[], &[&[1, 3, 5, 2, 8, 8]]), "F 1 4 1 0\nD 1 1 4 1 0\nT 0 1 1\nW 1\n");
    assert_eq!(timetable(&[], &[&[1, 3, 5, 3, 8, 8, 8]]), refusal(3, BEHIND + 5));
    assert_eq!(timetable(&[], &[&[3, 3, 5, 2, 8, 8]]), refusal(7, BEHIND + 2));
    // An equal relation: its last train. A falling one: the first number that falls.
    assert_eq!(timetable(&[], &[&[1, 1, 5, 2, 7, 8], &[1, 1, 5, 2, 7, 8]]), refusal(3, BEHIND + 13));
    assert_eq!(timetable(&[], &[&[1, 1, 5, 3, 7, 8, 9], &[1, 1, 5, 2, 7, 8]]), refusal(3, BEHIND + 12));
}

#[test]
fn projection_goes_round_a_ring() {
    let output =
        timetable(&[&[1, 7, 1, 0, 100, 0, 102, 0, 2, 1, 2, 1, 12], &[2, 7, 1, 0, 114, 0, 114, 0, 1, 1, 1, 1, 12]], &[]);
    let rows = lines(&output, "J");
    assert_eq!(rows.len(), 32);
    assert_eq!(rows[..4], ["1 7 1 105 106 5", "1 7 2 118 118 4", "1 7 1 130 131 30", "1 7 2 143 143 29"]);
    assert_eq!(lines(&output, "W"), ["1"]);
}

#[test]
fn projection_keeps_what_occurred() {
    let output = timetable(&[&[1, 7, 1, 0, 100, 1, 95, 1, 0, 2, 1, 12], &[2, 7, 1, 0, 114, 0, 120, 0, 1, 1, 0]], &[]);
    assert_eq!(lines(&output, "J"), ["1 7 1 100 95 0", "1 7 2 107 120 -7", "2 7 2 119 120 5"]);
}
