//! Lists of findings updated after one edit: each list of a shift's edits from the one before it, lists of someone
//! else, and what is refused.

use crate::calls::Report;
use crate::drafts::{damaged, Dispatcher};
use crate::files::{bytes_of, edit_of};
use crate::orders::whole_list;
use crate::random::Random;
use crate::sheets::{divided, part, whole};
use crate::suites::Railway;
use reference::machine::{self, names};
use reference::network::Network;
use reference::railway::Timetable;
use reference::recheck::stale;
use strakewhip::{DIVISION, SHEET};

/// What a room holds: the sheets, and the lists of the whole railway and of each area.
struct Room {
    sheet: Vec<u8>,
    division: Vec<u8>,
    whole: Vec<u16>,
    areas: Vec<Vec<u16>>,
}

/// As many elements as a call asks for.
fn sized(mut call: impl FnMut(&mut [u16]) -> usize) -> Vec<u16> {
    let mut out = vec![7; call(&mut [])];
    call(&mut out);
    out
}

/// The edits of a shift on a timetable that is there: after each accepted one every list is updated, and is the one
/// that is worked out from the sheet.
pub fn rechecked(report: &mut Report, r: &mut Random, railway: &Railway) {
    let Railway { file, network, .. } = railway;
    let mut timetable = railway.timetable.clone();
    let mut room = opened(report, railway);
    for _ in 0..12 {
        let numbers = Dispatcher { network, timetable: &timetable, trains: 40 }.edit(r);
        let edit = bytes_of(&numbers);
        let read = edit_of(&edit).expect("the draft is an edit");
        if machine::run(network, &mut timetable, &read).refusal != 0 {
            continue;
        }
        room.sheet = whole(&timetable);
        room.division = divided(network, &timetable);
        updated(report, &mut room, file, &edit);
        seen(report, &room, network, &edit);
        foreign(report, r, &room, file, &edit);
    }
    refusals(report, r, railway, &room, &timetable);
}

/// The lists of the sheets as they are.
fn opened(report: &mut Report, railway: &Railway) -> Room {
    let Railway { file, sheet, division, .. } = railway;
    let list = whole_list(report, file, sheet).concat();
    let own = |area: u8| part(division, area.into());
    let areas = (1..=6).map(|area| sized(|out| report.area_findings(file, own(area), area, out).length)).collect();
    Room { sheet: sheet.clone(), division: division.clone(), whole: list, areas }
}

/// Each list from the one before, against the whole list that the call works out.
fn updated(report: &mut Report, room: &mut Room, file: &[u8], edit: &[u8]) {
    let before = room.whole.clone();
    room.whole = sized(|out| report.recheck(file, &room.sheet, edit, &before, out).length);
    let found = whole_list(report, file, &room.sheet).concat();
    report.meets("a list that an edit changes", before != found);
    report.meets("a list that an edit leaves", before == found);
    assert_eq!(room.whole, found, "{}: the list after an edit", report.place);
    for area in 1..=6 {
        let (own, list) = (part(&room.division, area.into()), room.areas[usize::from(area) - 1].clone());
        let next = sized(|out| report.recheck_area(file, own, edit, area, &list, out).length);
        let found = sized(|out| report.area_findings(file, own, area, out).length);
        assert_eq!(next, found, "{}: area {area} after an edit", report.place);
        room.areas[usize::from(area) - 1] = next;
    }
}

/// Which sorts of edit came about.
fn seen(report: &mut Report, room: &Room, network: &Network, edit: &[u8]) {
    let read = edit_of(edit).expect("a draft");
    let areas = names(network, &read);
    let stations = read.stations();
    report.meets("a recheck after deleting a train", stations.is_none());
    report.meets("a recheck of two areas' edit", stations.is_some() && areas.len() == 2);
    report.meets("a recheck with an area that is not named", areas.len() < 6);
    let named = |station: u16| stations.iter().flatten().any(|one| one.0 == u32::from(station));
    let beside = |four: &[u16]| !named(four[0]) && (7..=10).contains(&four[1]);
    let stale = |four: &[u16]| stale(network, &read, &[four[0], four[1], four[2], four[3]].map(u32::from));
    let fours = || room.whole.chunks(4);
    report.meets(
        "a finding redone at a joined station",
        stations.is_some() && fours().any(|four| beside(four) && stale(four)),
    );
    report.meets("a finding of rules 7 to 10 kept elsewhere", fours().any(|four| beside(four) && !stale(four)));
    let kept = |four: &[u16]| !stale(four) && four[1] == 11;
    report.meets("a finding of rule 11 kept", fours().any(kept));
}

/// A list of someone else: any numbers that rise, at named, joined, other and unknown stations; buffers of all lengths.
fn foreign(report: &mut Report, r: &mut Random, room: &Room, file: &[u8], edit: &[u8]) {
    let area = r.from(1, 6) as u8;
    let own = part(&room.division, area.into());
    let mut fours: Vec<[u16; 4]> = Vec::new();
    for _ in 0..r.from(0, 30) {
        let station = if r.one_in(9) { r.from(0, 400) } else { r.from(0, 17) };
        let rule = if r.one_in(9) { r.from(0, 65_535) } else { r.from(0, 13) };
        fours.push([station, rule, r.from(0, 40), r.from(0, 2)].map(|number| number as u16));
    }
    fours.extend(room.whole.chunks(4).filter(|_| r.one_in(3)).map(|four| [four[0], four[1], four[2], four[3]]));
    fours.sort_unstable();
    fours.dedup();
    let list = fours.concat();
    let needed = report.recheck(file, &room.sheet, edit, &list, &mut []).length;
    for length in [needed.saturating_sub(1), needed, needed + 5, needed / 2] {
        report.recheck(file, &room.sheet, edit, &list, &mut vec![7; length]);
    }
    let needed = report.recheck_area(file, own, edit, area, &list, &mut []).length;
    for length in [needed.saturating_sub(1), needed, needed + 5] {
        report.recheck_area(file, own, edit, area, &list, &mut vec![7; length]);
    }
    fallen(report, r, room, file, edit, &fours);
}

/// Lists that do not rise: an entry twice, two exchanged, a part of a finding behind the last.
fn fallen(report: &mut Report, r: &mut Random, room: &Room, file: &[u8], edit: &[u8], fours: &[[u16; 4]]) {
    let mut lists = vec![[&fours.concat()[..], &vec![65_535; r.from(1, 3) as usize]].concat()];
    if fours.len() > 1 {
        let at = r.below(fours.len() - 1);
        let mut other = fours.to_vec();
        other.swap(at, at + 1);
        lists.push(other.concat());
        other[at + 1] = other[at];
        lists.push(other.concat());
    }
    for list in lists {
        let refusal = report.recheck(file, &room.sheet, edit, &list, &mut vec![7; 100]).refusal;
        assert_eq!(refusal, 3, "{}: a list that does not rise", report.place);
        report.recheck_area(file, part(&room.division, 1), edit, r.from(0, 7) as u8, &list, &mut [7; 9]);
    }
}

/// Wrong lengths, unknown edits, damaged sheets and files, alone and beside a list that does not rise.
fn refusals(report: &mut Report, r: &mut Random, railway: &Railway, room: &Room, timetable: &Timetable) {
    let Railway { file, network, .. } = railway;
    for rank in 0..12 {
        let mut edit = bytes_of(&Dispatcher { network, timetable, trains: 40 }.edit(r));
        let (mut sheet, mut own) = (room.sheet.clone(), part(&room.division, 1).to_vec());
        let mut other = file.clone();
        match rank % 4 {
            0 => edit = damaged(r, &edit),
            1 => other = damaged(r, file),
            2 => [&mut sheet, &mut own].into_iter().for_each(|bytes| bytes[r.below(SHEET)] ^= 1 << r.below(8)),
            _ => sheet.truncate(SHEET - r.below(2)),
        }
        let list = if r.one_in(2) { room.whole.clone() } else { vec![1, 1, 1, 1, 1, 1, 1] };
        let area = if r.one_in(3) { r.from(0, 8) as u8 } else { 1 };
        report.recheck(&other, &sheet, &edit, &list, &mut vec![7; 4000]);
        report.recheck_area(&other, &own, &edit, area, &list, &mut vec![7; 4000]);
        report.recheck_area(file, &room.division[..r.below(DIVISION)], &edit, area, &list, &mut []);
    }
}
