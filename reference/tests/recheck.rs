//! Document 02, W5: a list of findings updated after one edit.

mod common;

use common::{file, join, NETWORK};
use reference::edits::{self, Edit};
use reference::findings::{central, of_area, Finding};
use reference::machine::run;
use reference::network::{read, Form, Network};
use reference::number::Reader;
use reference::railway::{Area, Station, Timetable};
use reference::recheck::{rises, updated, Entry};

/// Three stations in areas 1, 2 and 2: lines from 1 to 2 and from 3 to 2 one way, and between 1 and 2 and between 2 and
/// 3 either way.
const BRANCH: &[u32] = &[
    3, 1, 1, 2, 2, 2, 2, 3, 2, 2, 3, 4, 1, 1, 2, 1, 10, 10, 1, 2, 2, 3, 2, 10, 10, 1, 3, 1, 2, 3, 10, 10, 2, 4, 2, 3, 3, 10,
    10, 1, 0,
];

fn network(numbers: &[u32]) -> Network {
    read(&file(numbers), Form::Newest).expect("a good network")
}

fn listing() -> Network {
    network(&join(&[NETWORK, &[0]]))
}

fn edit(numbers: &[u32]) -> Edit {
    edits::read(&mut Reader::new(&file(&join(&[&[1], numbers]))), edits::Form::Newest).expect("an edit").remove(0)
}

fn after(network: &Network, edits: &[&[u32]]) -> Timetable {
    let mut timetable = Timetable::default();
    for numbers in edits {
        assert_eq!(run(network, &mut timetable, &edit(numbers)).refusal, 0, "{numbers:?}");
    }
    timetable
}

fn entries(found: &[Finding]) -> Vec<Entry> {
    found.iter().map(Finding::entry).collect()
}

/// The list before the edit, and the one that it is updated to, which is the list worked out anew.
fn rechecked(network: &Network, edits: &[&[u32]], next: &[u32]) -> [Vec<Entry>; 2] {
    let before = entries(&central(network, &after(network, edits)));
    let found = central(network, &after(network, &[edits, &[next]].concat()));
    let list = updated(network, &edit(next), &before, &found);
    assert_eq!(list, entries(&found));
    [before, list]
}

/// Someone else's list, updated after the last of the edits.
fn other(network: &Network, edits: &[&[u32]], list: &[Entry]) -> Vec<Entry> {
    assert!(rises(list));
    let found = central(network, &after(network, edits));
    updated(network, &edit(edits[edits.len() - 1]), list, &found)
}

/// Train 7 leaves station 1 at 102 on line 1 with a run of 12, and is at station 2 at 114.
const LEAVING: [&[u32]; 2] = [&[1, 2, 7, 1, 0, 114, 114], &[2, 1, 7, 1, 0, 102, 102, 2, 1, 12]];

#[test]
fn a_finding_arises_at_the_neighbour_and_is_cleared_there() {
    let late: &[u32] = &[6, 2, 7, 1, 0, 120, 120];
    let [before, later] = rechecked(&listing(), &LEAVING, late);
    assert_eq!((before, later), (vec![], vec![[1, 9, 7, 0]]));
    let [before, later] = rechecked(&listing(), &[LEAVING[0], LEAVING[1], late], &[6, 2, 7, 1, 0, 114, 114]);
    assert_eq!((before, later), (vec![[1, 9, 7, 0]], vec![]));
}

#[test]
fn both_stations_of_an_edit_are_named() {
    let edits: [&[u32]; 3] = [&[1, 1, 7, 1, 0, 100, 102], &[9, 1, 1, 5, 2, 7, 9], &[3, 2, 7, 1, 0, 115, 115, 1, 1, 12]];
    let [before, later] = rechecked(&listing(), &edits[..2], edits[2]);
    assert_eq!((before, later), (vec![[1, 4, 1, 0]], vec![[1, 4, 1, 0], [1, 9, 7, 0]]));
    let list = [[1, 2, 7, 8], [2, 1, 7, 0]];
    assert_eq!(other(&listing(), &edits, &list), [[1, 4, 1, 0], [1, 9, 7, 0]]);
}

#[test]
fn rule_11_at_a_joined_station_is_kept_and_not_redone() {
    let closed = network(&join(&[NETWORK, &[1, 1, 90, 105]]));
    let late: &[u32] = &[6, 2, 7, 1, 0, 120, 120];
    let [before, later] = rechecked(&closed, &LEAVING, late);
    assert_eq!((before, later), (vec![[1, 11, 7, 1]], vec![[1, 9, 7, 0], [1, 11, 7, 1]]));
    assert_eq!(other(&closed, &[LEAVING[0], LEAVING[1], late], &[]), [[1, 9, 7, 0]]);
}

#[test]
fn entries_elsewhere_stay() {
    let branch = network(BRANCH);
    let list = [
        [0, 7, 1, 1],
        [1, 2, 8, 9],
        [1, 99, 1, 1],
        [2, 6, 5, 0],
        [2, 7, 5, 0],
        [2, 10, 5, 6],
        [2, 11, 5, 1],
        [3, 7, 5, 0],
        [300, 10, 1, 1],
    ];
    let kept = [list[0], list[3], list[6], list[7], list[8]];
    assert_eq!(other(&branch, &[&[1, 1, 7, 1, 0, 100, 102]], &list), kept);
    // Lines join their ends whichever way they run.
    let list = [[1, 7, 5, 0], [3, 8, 5, 0], [3, 11, 5, 1]];
    assert_eq!(other(&branch, &[&[1, 2, 7, 1, 0, 100, 102]], &list), [[3, 11, 5, 1]]);
}

#[test]
fn deleting_a_train_redoes_all() {
    let edits: [&[u32]; 3] = [&[1, 2, 7, 1, 0, 111, 111], &[2, 1, 7, 1, 0, 102, 102, 2, 1, 9], &[11, 8]];
    assert_eq!(other(&listing(), &edits, &[[2, 3, 8, 9], [300, 1, 1, 0]]), [[1, 5, 7, 0]]);
    assert_eq!(edit(&[11, 8]).stations(), None);
}

#[test]
fn an_area_without_a_named_station() {
    let branch = network(BRANCH);
    let edits: [&[u32]; 3] = [&[1, 2, 9, 1, 0, 100, 100], &[3, 3, 9, 1, 0, 120, 120, 2, 4, 12], &[1, 1, 7, 1, 0, 102, 100]];
    let own = |count| {
        let mut timetable = after(&branch, &edits[..count]);
        timetable.visits.retain(|(station, _), _| *station != Station(1));
        of_area(&branch, &timetable, Area(2))
    };
    let last = edit(edits[2]);
    assert_eq!(updated(&branch, &last, &entries(&own(2)), &own(3)), [[2, 9, 9, 0]]);
    let list = [[1, 5, 5, 0], [3, 9, 1, 0]];
    assert_eq!(updated(&branch, &last, &list, &own(3)), [[2, 9, 9, 0], [3, 9, 1, 0]]);
}

#[test]
fn a_list_rises_strictly_by_all_four_numbers() {
    assert!(rises(&[]) && rises(&[[1, 2, 3, 4], [1, 2, 3, 5]]) && rises(&[[1, 2, 3, 4], [2, 1, 1, 1]]));
    assert!(!rises(&[[1, 2, 3, 4], [1, 2, 3, 4]]) && !rises(&[[1, 2, 3, 4], [1, 2, 3, 3]]));
    assert!(!rises(&[[1, 1, 1, 1], [3, 1, 1, 1], [2, 1, 1, 1]]));
}
