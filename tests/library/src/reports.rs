//! Reports from the future: the minute that a report is judged by, what 15 comes before, and that no byte keeps it.

use crate::calls::Report;
use crate::drafts::{early_edit, present};
use crate::files::{bytes_of, numbers_in};
use crate::model::plain;
use crate::random::Random;
use crate::sheets::part;
use crate::suites::{list_of, Railway};
use reference::machine::FUTURE;
use reference::railway::{Station, Train};
use strakewhip::{DIVISION, SHEET};

/// Stations 1 and 2 in areas 1 and 2, and a line between them.
const NETWORK: [u32; 17] = [2, 1, 1, 2, 2, 2, 1, 3, 1, 1, 1, 2, 3, 10, 10, 1, 0];
/// Train 7 at station 1.
const PLACE: [u32; 7] = [1, 1, 7, 1, 0, 100, 102];
/// Station, train, time and minute of a report, and what answers it there.
const EDGES: [([u32; 4], u8); 14] = [
    ([1, 7, 100, 100], 0),
    ([1, 7, 101, 100], 15),
    ([1, 7, 100, 101], 0),
    ([1, 7, 0, 0], 0),
    ([1, 7, 1, 0], 15),
    ([1, 7, 2879, 2879], 0),
    ([1, 7, 2879, 2878], 15),
    ([1, 7, 0, 2879], 0),
    // No visit, and no station.
    ([1, 8, 100, 99], 15),
    ([1, 8, 100, 100], 9),
    ([2, 7, 100, 99], 15),
    ([2, 7, 100, 100], 9),
    ([3, 7, 100, 99], 15),
    ([3, 7, 100, 100], 7),
];
/// A list of findings that does not rise, which is looked at last.
const FALLEN: [u16; 8] = [2, 1, 1, 1, 1, 1, 1, 1];

/// Makes a sheet, or each sheet of a division, one that is not good: a byte that says nothing is not 0.
fn spoilt(bytes: &[u8]) -> Vec<u8> {
    let mut bytes = bytes.to_vec();
    (0..bytes.len() / SHEET).for_each(|sheet| bytes[SHEET * sheet + 2] = 1);
    bytes
}

/// Each edge, of both kinds, by every call that an edit is lent to, on good and on bad sheets.
pub fn edges(report: &mut Report) {
    report.place = String::from("two stations");
    let network = bytes_of(&NETWORK);
    let (mut division, mut sheet) = (vec![0; DIVISION], vec![0; SHEET]);
    report.edit(&network, &bytes_of(&PLACE), &mut division);
    report.edit_sheet(&network, &bytes_of(&PLACE), &mut sheet);
    for kind in [7, 8] {
        for (numbers, due) in EDGES {
            let edit = bytes_of(&[&[kind], &numbers[..]].concat());
            let place = format!("{}: {kind} {numbers:?}", report.place);
            // 15 and 7 come before a sheet or a list is looked at; other answers give way to 6 and 3 of these.
            let early = due == 15 || due == 7;
            let unless_early = |otherwise: u8| if early { due } else { otherwise };
            let reply = report.names(&network, &edit);
            let areas = if early { 0 } else { 1 << (numbers[0] - 1) };
            assert_eq!((reply.refusal, reply.length), (unless_early(0), areas), "{place}");
            assert_eq!(report.edit(&network, &edit, &mut division.clone()).refusal, due, "{place}");
            assert_eq!(report.edit_sheet(&network, &edit, &mut sheet.clone()).refusal, due, "{place}");
            let (mut bad_division, mut bad_sheet) = (spoilt(&division), spoilt(&sheet));
            assert_eq!(report.edit(&network, &edit, &mut bad_division).refusal, unless_early(6), "{place}");
            assert_eq!(report.edit_sheet(&network, &edit, &mut bad_sheet).refusal, unless_early(6), "{place}");
            assert!(bad_division == spoilt(&division) && bad_sheet == spoilt(&sheet), "{place}");
            for (lent, otherwise) in [(&sheet, 3), (&bad_sheet, 6)] {
                let reply = report.recheck(&network, lent, &edit, &FALLEN, &mut []);
                assert_eq!(reply.refusal, unless_early(otherwise), "{place}");
                assert_eq!(report.recheck_area(&network, lent, &edit, 0, &FALLEN, &mut []).refusal, 3, "{place}");
            }
            let reply = report.recheck_area(&network, part(&division, 1), &edit, 1, &FALLEN, &mut []);
            assert_eq!(reply.refusal, unless_early(3), "{place}");
            // A length and the network's file come first.
            assert_eq!(report.edit(&network, &edit, &mut [7; 9]).refusal, 5, "{place}");
            assert_eq!(report.edit(&[128, 0], &edit, &mut division.clone()).refusal, 2, "{place}");
        }
        minutes(report, &network, &division, kind);
    }
}

/// A minute that is none is refused at it, behind four numbers, and in a list behind the count besides.
fn minutes(report: &mut Report, network: &[u8], division: &[u8], kind: u32) {
    for (minute, time, place) in [(2880, 100, 4), (16_384, 100, 4), (2880, 2879, 5)] {
        let edit = bytes_of(&[kind, 1, 7, time, minute]);
        let reply = report.edit(network, &edit, &mut division.to_vec());
        assert_eq!((reply.refusal, reply.file, reply.place), (3, 2, place), "{}: minute {minute}", report.place);
        let reply = report.run(network, &list_of(&[edit]), &mut division.to_vec(), &mut [7; 2]);
        assert_eq!((reply.refusal, reply.file, reply.place), (3, 2, place + 1), "{}: minute {minute}", report.place);
    }
    // The earlier form has none, and reads it as what follows.
    for (numbers, early) in [(vec![1, kind, 1, 7, 100, 100], Some((1, 5))), (vec![1, kind, 1, 7, 2879], None)] {
        let mut answers = [7; 2];
        let reply = report.run_early(network, &bytes_of(&numbers), &mut division.to_vec(), &mut answers);
        let told = (reply.refusal > 0).then_some((reply.refusal, reply.place));
        assert_eq!(told, early, "{}: {numbers:?}", report.place);
        assert!(early.is_some() || answers == [0, 0], "{}: {numbers:?}", report.place);
    }
}

pub fn reported(report: &mut Report, r: &mut Random, railway: &Railway) {
    refused(report, r, railway);
    dropped(report, r, railway);
    strewn(report, r, railway);
}

/// The numbers of a report from the future: of a visit that is there, or at any station.
fn future(r: &mut Random, railway: &Railway) -> Vec<u32> {
    let all: Vec<_> = railway.timetable.visits.keys().copied().collect();
    let (station, train) = match r.pick(&all) {
        Some((station, train)) if !r.one_in(3) => (station.0, train.0),
        _ => (r.from(1, 16), r.from(1, 9999)),
    };
    let time = if r.one_in(4) { 2879 } else { r.from(1, 2879) };
    let minute = if r.one_in(2) { time - 1 } else { r.from(0, time - 1) };
    vec![r.from(7, 8), station, train, time, minute]
}

/// Reports from the future on sheets that are good and that are not: 15, and every byte as it was.
fn refused(report: &mut Report, r: &mut Random, railway: &Railway) {
    let Railway { file, network, timetable, .. } = railway;
    for rank in 0..6 {
        let numbers = future(r, railway);
        let edit = bytes_of(&numbers);
        let (mut sheet, mut division) = (railway.sheet.clone(), railway.division.clone());
        if rank % 2 == 1 {
            (sheet, division) = (spoilt(&sheet), spoilt(&division));
        }
        let before = (sheet.clone(), division.clone());
        let area = r.from(1, 6) as u8;
        let told = [
            report.names(file, &edit),
            report.edit(file, &edit, &mut division),
            report.edit_sheet(file, &edit, &mut sheet),
            report.recheck(file, &sheet, &edit, &FALLEN, &mut [7; 4]),
            report.recheck_area(file, part(&division, area.into()), &edit, area, &FALLEN, &mut [7; 4]),
        ];
        assert_eq!(told, [plain(FUTURE); 5], "{}: {numbers:?}", report.place);
        assert!((sheet, division) == before, "{}: {numbers:?} changes a byte", report.place);
        let mut tally = [3, 4, 5, 6];
        report.raise(&edit, told[1].refusal, told[1].removed, &mut tally);
        assert_eq!(tally, [3, 5, 5, 6], "{}: {numbers:?}", report.place);
        let (station, train) = (Station(numbers[1]), Train(numbers[2]));
        let there = timetable.visit(station, train).is_some();
        report.meets("a report from the future of a visit that is there", there);
        report.meets("a report from the future without its visit", !there && network.lists(station));
        report.meets("a report from the future at an unlisted station", !network.lists(station));
        early(report, railway, &numbers, there);
    }
}

/// The same in the earlier form, which has no minute to judge it by.
fn early(report: &mut Report, railway: &Railway, numbers: &[u32], there: bool) {
    let list = list_of(&[bytes_of(&early_edit(numbers))]);
    let mut answers = [7; 2];
    report.run_early(&railway.file, &list, &mut railway.division.clone(), &mut answers);
    assert_eq!(answers[0] == 0, there, "{}: {numbers:?} in the earlier form", report.place);
    report.meets("a report that only the earlier form takes", answers[0] == 0);
}

/// The minute is judged and dropped: an accepted report leaves the same bytes, whatever minute it carries.
fn dropped(report: &mut Report, r: &mut Random, railway: &Railway) {
    let Railway { file, timetable, .. } = railway;
    let all: Vec<_> = timetable.visits.keys().copied().collect();
    for _ in 0..3 {
        let Some((station, train)) = r.pick(&all) else { return };
        let (kind, time) = (r.from(7, 8), r.from(0, 2879));
        let mut later = Vec::new();
        for minute in [time, r.from(time, 2879), 2879] {
            let edit = bytes_of(&[kind, station.0, train.0, time, minute]);
            let (mut sheet, mut division) = (railway.sheet.clone(), railway.division.clone());
            let told = [report.edit(file, &edit, &mut division), report.edit_sheet(file, &edit, &mut sheet)];
            assert_eq!(told, [plain(0); 2], "{}: a report of {time} at {minute}", report.place);
            later.push((sheet, division));
        }
        assert!(later[1..].iter().all(|one| *one == later[0]), "{}: the minute is kept", report.place);
        report.meets("a report that changes a sheet", later[0].0 != railway.sheet);
    }
}

/// The edits of a shift with reports from the future strewn among them: the others' answers and all sheets are as
/// without.
fn strewn(report: &mut Report, r: &mut Random, railway: &Railway) {
    let Railway { file, edits, .. } = railway;
    let mut first = vec![7; 2 * edits.len()];
    report.run(file, &list_of(edits), &mut vec![0; DIVISION], &mut first);
    let (mut list, mut due) = (Vec::new(), Vec::new());
    let mut clock = 0;
    for (edit, answer) in edits.iter().zip(first.chunks(2)) {
        if r.one_in(4) && list.len() + edits.len() < 1000 {
            list.push(bytes_of(&future(r, railway)));
            due.extend([15, 0]);
        }
        // Another minute that is not below the time answers alike, also one of a clock that goes back.
        let mut numbers = numbers_in(edit);
        if [7, 8].contains(&numbers[0]) && numbers[3] <= numbers[4] {
            numbers[4] = present(r, numbers[3]).max(numbers[3]);
            report.meets("a clock that goes back", numbers[4] < clock);
            clock = numbers[4];
        }
        list.push(bytes_of(&numbers));
        due.extend(answer);
    }
    let (mut division, mut answers) = (vec![0; DIVISION], vec![7; due.len()]);
    report.run(file, &list_of(&list), &mut division, &mut answers);
    assert_eq!(answers, due, "{}: a list with reports from the future", report.place);
    assert!(division == railway.division, "{}: a list with reports from the future", report.place);
}
