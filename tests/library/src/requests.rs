//! Request stops: stop marks in sheets and files, files of the earlier form, and rooms at two releases.

use crate::calls::Report;
use crate::drafts::{damaged, early_edit, early_timetable, early_twin, unmarked_timetable, Dispatcher};
use crate::files::{bytes_of, edit_of, numbers_in};
use crate::orders::whole_list;
use crate::random::Random;
use crate::sheets::{divided, in_area, part, whole};
use crate::suites::{early_list, list_of, Railway};
use reference::findings;
use reference::machine::{self, FUTURE};
use reference::railway::{Station, Timetable, Visit};
use reference::timetable;
use strakewhip::{DIVISION, MOST_ROWS, MOST_TIMETABLE, SHEET};

/// Three stations in a row, in areas 1, 2 and 2, joined by two lines.
const ROW: [u32; 27] = [3, 1, 1, 2, 2, 2, 2, 3, 2, 2, 3, 2, 1, 1, 2, 3, 10, 10, 1, 2, 2, 3, 3, 10, 10, 1, 0];

/// Train 7 is at the middle station for one minute, with a mark or without, and train 8 stands there: what the
/// relations of the two say, and when train 7 is expected to leave.
pub fn row(report: &mut Report) {
    report.place = String::from("three stations in a row");
    let network = bytes_of(&ROW);
    for (mark, due) in [(0, [true, false, true]), (1, [false, true, false])] {
        let middle = [3, 2, 7, 1, mark, 114, 114, 1, 1, 12];
        let edits: [&[u32]; 7] = [
            &[1, 1, 7, 1, 0, 100, 102],
            &middle,
            &[3, 3, 7, 1, 0, 126, 127, 2, 2, 12],
            &[1, 2, 8, 2, 0, 110, 120],
            &[9, 2, 1, 0, 2, 7, 8],
            &[9, 2, 2, 5, 2, 7, 8],
            &[9, 2, 3, 0, 2, 7, 7],
        ];
        let list = list_of(&edits.map(bytes_of));
        let (mut division, mut answers, mut sheet) = (vec![0; DIVISION], [7; 14], vec![0; SHEET]);
        report.run(&network, &list, &mut division, &mut answers);
        assert_eq!(answers, [0; 14], "{}: mark {mark}", report.place);
        report.merge(&network, &division, &mut sheet);
        let found = whole_list(report, &network, &sheet);
        let unmet = [1, 2, 3].map(|rank| found.contains(&[2, 4, rank, 0]));
        assert_eq!(unmet, due, "{}: mark {mark}", report.place);
        for (expected, marked, unmarked) in [(105, 114, 105), (114, 114, 114), (118, 118, 118)] {
            let mut rows = [7; MOST_ROWS];
            report.project(&network, &sheet, (2, 7, expected), &mut rows);
            assert_eq!(rows[2], if mark == 1 { marked } else { unmarked }, "{}: mark {mark}", report.place);
        }
        // A mark that is none is refused at it, behind four numbers, and in a list behind the first edit besides.
        let faulty = bytes_of(&[&middle[..4], &[2], &middle[5..]].concat());
        let reply = report.edit(&network, &faulty, &mut division);
        assert_eq!((reply.refusal, reply.file, reply.place), (3, 2, 4), "{}", report.place);
        let list = list_of(&[bytes_of(edits[0]), faulty]);
        let reply = report.run(&network, &list, &mut division, &mut answers);
        assert_eq!((reply.refusal, reply.file, reply.place), (3, 2, 12), "{}", report.place);
    }
}

pub fn requested(report: &mut Report, r: &mut Random, railway: &Railway) {
    seen(report, railway);
    marked_sheets(report, r, railway);
    early_timetables(report, r, railway);
    early_edits(report, r, railway);
    early_amendment(report, railway);
    releases(report, r, railway);
}

/// Whether only its mark makes a visit stop.
fn on_request(visit: &Visit) -> bool {
    visit.mark && !visit.stops_unmarked()
}

/// Tells of marks and of the relations at request stops.
fn seen(report: &mut Report, railway: &Railway) {
    let Railway { network, timetable, .. } = railway;
    let marked = || timetable.visits.values().filter(|visit| visit.mark);
    report.meets("a request stop", marked().any(on_request));
    report.meets("a mark on a visit that stops anyway", marked().any(|visit| !on_request(visit)));
    let found = findings::central(network, timetable);
    for station in timetable.stations_with_relations() {
        for (before, relation) in timetable.relations_at(station).iter().enumerate() {
            let (kind, _, _, trains) = relation.key();
            let there: Option<Vec<&Visit>> = trains.iter().map(|train| timetable.visit(station, *train)).collect();
            let on_request = there.is_some_and(|visits| visits.into_iter().any(on_request));
            let rank = before as u32 + 1;
            let unmet = found.iter().any(|one| one.station == station && one.rule == 4 && one.first == rank);
            report.meets("a connection met at a request stop", on_request && kind == 1 && !unmet);
            report.meets("a disconnection unmet at a request stop", on_request && kind == 2 && unmet);
            report.meets("a dependency met at a request stop", on_request && kind == 3 && !unmet);
        }
    }
}

/// Any byte as the mark of a visit, and as the one behind it: 0 and 1 are marks, and nothing else is good.
fn marked_sheets(report: &mut Report, r: &mut Random, railway: &Railway) {
    let Railway { file, timetable, edits, .. } = railway;
    let all: Vec<_> = timetable.visits.keys().copied().collect();
    let Some((station, train)) = r.pick(&all) else { return };
    let rank = timetable.visits_at(station).iter().position(|(one, _)| *one == train).expect("it is there");
    let record = 512 * (station.0 as usize - 1) + 32 + 16 * rank;
    let edit = r.pick(edits).expect("a visit comes from an edit");
    for (at, value) in [(14, 0), (14, 1), (14, 2), (14, r.byte()), (15, 1)] {
        let mut sheet = railway.sheet.clone();
        sheet[record + at] = value;
        let refusal = report.write(file, &sheet, &mut [7; MOST_TIMETABLE]).refusal;
        let due = if at == 14 && value < 2 { 0 } else { 6 };
        assert_eq!(refusal, due, "{}: byte {at} is {value}", report.place);
        report.findings(file, &sheet, &mut vec![7; 4000]);
        report.divide(file, &sheet, &mut vec![7; DIVISION]);
        report.edit_sheet(file, &edit, &mut sheet.clone());
        for arrival in [0, r.from(90, 150), 2879] {
            report.project(file, &sheet, (station.0 as u8, train.0 as u16, arrival as u16), &mut [7; MOST_ROWS]);
        }
    }
}

/// A timetable's file in the earlier form: read, it is that with marks 0, and is written so in the newest form.
fn early_timetables(report: &mut Report, r: &mut Random, railway: &Railway) {
    let Railway { file, timetable, .. } = railway;
    let newest = numbers_in(&timetable::write(timetable));
    let (early, unmarked) = (bytes_of(&early_timetable(&newest)), bytes_of(&unmarked_timetable(&newest)));
    let (mut sheet, mut other) = (vec![7; SHEET], vec![7; SHEET]);
    report.read_early(file, &early, &mut sheet);
    report.read(file, &unmarked, &mut other);
    assert!(sheet == other, "{}: an early timetable is another one", report.place);
    let mut out = [7; MOST_TIMETABLE];
    let length = report.write(file, &sheet, &mut out).length;
    assert!(out[..length] == unmarked, "{}: written in another form", report.place);
    // Each form read as the other, whole and damaged.
    let visits = !timetable.visits.is_empty();
    for given in [early.clone(), damaged(r, &early)] {
        let refusal = report.read(file, &given, &mut vec![7; SHEET]).refusal;
        report.meets("an early timetable refused as one of the newest form", visits && refusal != 0);
    }
    for given in [bytes_of(&newest), damaged(r, &bytes_of(&newest))] {
        let refusal = report.read_early(file, &given, &mut vec![7; SHEET]).refusal;
        report.meets("a timetable of the newest form refused as an early one", visits && refusal != 0);
    }
}

/// A list of edits in the earlier form: it answers and leaves what the list with marks 0 and minutes 2879 does.
fn early_edits(report: &mut Report, r: &mut Random, railway: &Railway) {
    let Railway { file, edits, division, .. } = railway;
    let early = early_list(edits);
    let twins: Vec<Vec<u8>> = edits.iter().map(|edit| bytes_of(&early_twin(&numbers_in(edit)))).collect();
    for start in [vec![0; DIVISION], division.clone()] {
        let (mut one, mut other) = (start.clone(), start);
        let (mut answers, mut others) = (vec![7; 2 * edits.len()], vec![7; 2 * edits.len()]);
        report.run_early(file, &early, &mut one, &mut answers);
        report.run(file, &list_of(&twins), &mut other, &mut others);
        assert!(one == other && answers == others, "{}: early edits do otherwise", report.place);
    }
    // Each form read as the other.
    let room = &mut [7; 2000];
    let refusal = report.run(file, &early, &mut division.clone(), room).refusal;
    report.meets("early edits refused as those of the newest form", refusal != 0);
    let refusal = report.run_early(file, &list_of(edits), &mut division.clone(), room).refusal;
    report.meets("edits of the newest form refused as early ones", refusal != 0);
    // An edit alone is in the newest form.
    if let Some(edit) = r.pick(edits) {
        let edit = bytes_of(&early_edit(&numbers_in(&edit)));
        report.edit(file, &edit, &mut division.clone());
        report.names(file, &edit);
    }
}

/// An amendment in the earlier form, of a marked visit to what it is: it is taken, and the mark is gone.
fn early_amendment(report: &mut Report, railway: &Railway) {
    let Railway { file, network, timetable, division, .. } = railway;
    let marked = timetable.visits.iter().find(|(_, visit)| visit.mark);
    report.meets("a mark that an early amendment clears", marked.is_some());
    let Some(((station, train), visit)) = marked else { return };
    let times = [visit.arrival.time as u32, visit.departure.time as u32];
    let amendment = [&[1, 6, station.0, train.0, visit.track.0][..], &times].concat();
    let (mut later, mut answers) = (division.clone(), [7; 2]);
    report.run_early(file, &bytes_of(&amendment), &mut later, &mut answers);
    let mut due = timetable.clone();
    due.visits.insert((*station, *train), Visit { mark: false, ..*visit });
    assert_eq!(answers, [0, 0], "{}: an early amendment", report.place);
    assert!(later == divided(network, &due), "{}: an early amendment does otherwise", report.place);
}

/// The station that an edit is at, none if it is at all of them.
fn at(edit: &[u32]) -> Option<Station> {
    (edit[0] != 11).then_some(Station(edit[1]))
}

/// A timetable without marks at the stations that pass.
fn unmarked_at(timetable: &Timetable, passes: impl Fn(Station) -> bool) -> Timetable {
    let mut timetable = timetable.clone();
    timetable.visits.iter_mut().filter(|((station, _), _)| passes(*station)).for_each(|(_, visit)| visit.mark = false);
    timetable
}

/// "Two control rooms at different releases": one area's room is at the older one, which knows no minutes and no marks,
/// neither its own nor its neighbours'. All rooms take each edit, the older one in the earlier form, and its own with
/// mark 0 and minute 2879; a report from the future is another room's, and reaches none. The older room's sheet is
/// handed over as a file of the earlier form; merged with the others it is what the centre holds.
fn releases(report: &mut Report, r: &mut Random, railway: &Railway) {
    let Railway { file, network, .. } = railway;
    let areas: Vec<u32> = network.stations.values().map(|facts| facts.area.0).collect();
    let area = areas[r.below(areas.len())];
    let older = in_area(network, area);
    let mut centre = unmarked_at(&railway.timetable, &older);
    let (mut newest, mut early) = (divided(network, &centre), divided(network, &unmarked_at(&centre, |_| true)));
    for _ in 0..12 {
        let mut edit = Dispatcher { network, timetable: &centre, trains: 40 }.edit(r);
        let own = at(&edit).is_some_and(&older);
        // A report at the older room's stations may be another room's, with its own minute.
        if own && !([7, 8].contains(&edit[0]) && r.one_in(3)) {
            edit = early_twin(&edit);
        }
        let reply = report.edit(file, &bytes_of(&edit), &mut newest);
        let central = machine::run(network, &mut centre, &edit_of(&bytes_of(&edit)).expect("the draft is an edit"));
        let due = [central.refusal as u8, central.removed as u8];
        assert_eq!([reply.refusal, reply.removed], due, "{}: the centre answers otherwise", report.place);
        report.meets("a report from the future at the older room's stations", own && central.refusal == FUTURE);
        if central.refusal == FUTURE {
            continue;
        }
        let mut answers = [7; 2];
        report.run_early(file, &list_of(&[bytes_of(&early_edit(&edit))]), &mut early, &mut answers);
        assert_eq!(answers, due, "{}: the older room answers otherwise", report.place);
        report.meets("an edit taken at two releases", reply.refusal == 0);
        report.meets("a report taken at two releases", reply.refusal == 0 && [7, 8].contains(&edit[0]));
    }
    let mut out = [7; MOST_TIMETABLE];
    let length = report.write(file, part(&early, area), &mut out).length;
    let handed = bytes_of(&early_timetable(&numbers_in(&out[..length])));
    let place = SHEET * (area as usize - 1)..SHEET * area as usize;
    // What the others made of the older room's sheet is not looked at.
    newest[place.clone()].fill(0);
    report.read_early(file, &handed, &mut newest[place]);
    let mut sheet = vec![7; SHEET];
    report.merge(file, &newest, &mut sheet);
    assert!(sheet == whole(&centre), "{}: rooms at two releases merge otherwise", report.place);
    report.meets("a mark beside the older room", centre.visits.values().any(|visit| visit.mark));
    report.meets("visits at the older room", centre.visits.keys().any(|(station, _)| older(*station)));
}
