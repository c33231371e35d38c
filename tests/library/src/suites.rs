//! What is tried on each railway.

use crate::calls::Report;
use crate::drafts::{
    self, closures_at, damaged, displaced, earlier, early_edit, early_timetable, misclosed, Dispatcher,
};
use crate::files::{bytes_of, edit_of, network_of, numbers_in};
use crate::orders::{shared, whole_list};
use crate::random::Random;
use crate::sheets::{divided, good, in_area, part, whole};
use reference::machine;
use reference::network::{Form, Network};
use reference::railway::Timetable;
use reference::timetable;
use strakewhip::{DIVISION, MOST_ANSWERS, MOST_FINDINGS, MOST_NETWORK, MOST_ROWS, MOST_TIMETABLE, SHEET};

/// A network, the edits of a shift, and what they lead to.
pub struct Railway {
    pub numbers: Vec<u32>,
    pub file: Vec<u8>,
    pub network: Network,
    pub edits: Vec<Vec<u8>>,
    pub timetable: Timetable,
    pub sheet: Vec<u8>,
    pub division: Vec<u8>,
}

pub fn list_of(edits: &[Vec<u8>]) -> Vec<u8> {
    [bytes_of(&[edits.len() as u32]), edits.concat()].concat()
}

/// The same in the earlier form, without marks and minutes.
pub fn early_list(edits: &[Vec<u8>]) -> Vec<u8> {
    list_of(&edits.iter().map(|edit| bytes_of(&early_edit(&numbers_in(edit)))).collect::<Vec<_>>())
}

/// Edits one by one, on a division and on a sheet, with the tally; then as one list.
pub fn traffic(report: &mut Report, r: &mut Random) -> Railway {
    let numbers = drafts::network(r);
    let file = bytes_of(&numbers);
    let network = network_of(&file).expect("the draft is a good network");
    report.network(&file);
    let trains = r.from(3, 60);
    let (mut timetable, mut edits, mut tally) = (Timetable::default(), Vec::new(), [0; 4]);
    let (mut sheet, mut division) = (vec![0; SHEET], vec![0; DIVISION]);
    for _ in 0..(if r.one_in(8) { r.from(200, 500) } else { r.from(0, 80) }) {
        let edit = bytes_of(&Dispatcher { network: &network, timetable: &timetable, trains }.edit(r));
        report.names(&file, &edit);
        let answer = report.edit(&file, &edit, &mut division);
        report.edit_sheet(&file, &edit, &mut sheet);
        report.raise(&edit, answer.refusal, answer.removed, &mut tally);
        machine::run(&network, &mut timetable, &edit_of(&edit).expect("the draft is an edit"));
        edits.push(edit);
    }
    assert!(sheet == whole(&timetable) && division == divided(&network, &timetable), "{}", report.place);
    let mut start = vec![0; DIVISION];
    report.run(&file, &list_of(&edits), &mut start, &mut vec![9; 2 * edits.len()]);
    Railway { numbers, file, network, edits, timetable, sheet, division }
}

/// All that is asked of a timetable: the lists of findings and how they share them, projections, its file.
pub fn outputs(report: &mut Report, r: &mut Random, railway: &Railway) {
    let Railway { file, sheet, division, timetable, .. } = railway;
    report.divide(file, sheet, &mut vec![7; DIVISION]);
    report.merge(file, division, &mut vec![7; SHEET]);
    report.findings(file, sheet, &mut vec![7; MOST_FINDINGS]);
    for area in 0..=7 {
        let own = (1..=6).contains(&area).then(|| part(division, area.into()));
        assert_eq!(strakewhip::area_sheet(division, area), own, "{}: area {area}", report.place);
        assert_eq!(strakewhip::area_sheet(&division[1..], area), None, "{}: area {area}", report.place);
    }
    let (one, other) = (r.from(1, 6), r.from(1, 6));
    report.area_findings(file, part(division, one), one as u8, &mut vec![7; MOST_FINDINGS]);
    let sheets = [part(division, one), part(division, other)];
    report.pair_findings(file, sheets, [one as u8, other as u8], &mut vec![7; MOST_FINDINGS]);
    let found = whole_list(report, file, sheet);
    assert_eq!(found, shared(report, file, division), "{}: shared findings", report.place);
    report.meets("a departure found on a closed line", found.iter().any(|[_, rule, ..]| *rule == 11));
    between_times(report, railway, &found);
    let mut written = vec![7; MOST_TIMETABLE];
    let length = report.write(file, sheet, &mut written).length;
    report.read(file, &written[..length], &mut vec![7; SHEET]);
    for (station, train) in timetable.visits.keys().take(40) {
        let from = (station.0 as u8, train.0 as u16, r.from(80, 200) as u16);
        report.project(file, sheet, from, &mut [7; MOST_ROWS]);
    }
}

/// Tells of runs that only one of their line's two least times finds, and of which sort the train is.
fn between_times(report: &mut Report, railway: &Railway, found: &[[u16; 4]]) {
    for ((station, train), visit) in &railway.timetable.visits {
        let Some(link) = visit.out_link else { continue };
        let line = railway.network.lines[&link.line];
        if (link.run < line.passenger_least) != (link.run < line.freight_least) {
            let rule_5 = found.contains(&[station.0 as u16, 5, train.0 as u16, 0]);
            report.meets("a freight train found by its own time alone", train.0 >= 5000 && rule_5);
            report.meets("a freight train not found by the passengers' time", train.0 >= 5000 && !rule_5);
            report.meets("a passenger train found by its own time alone", train.0 < 5000 && rule_5);
            report.meets("a passenger train not found by freight's time", train.0 < 5000 && !rule_5);
            report.meets("train 4999 or 5000 between the two times", [4999, 5000].contains(&train.0));
        }
    }
}

/// Buffers that are too short, too long or empty.
pub fn lengths(report: &mut Report, r: &mut Random, railway: &Railway) {
    let Railway { file, sheet, division, edits, .. } = railway;
    let edit = r.pick(edits).unwrap_or(vec![11, 1]);
    let list = list_of(&edits[..edits.len().min(20)]);
    let early = early_list(&edits[..edits.len().min(20)]);
    let resized = |bytes: &[u8], length: usize| [bytes, &[0; DIVISION + 1][..]].concat()[..length].to_vec();
    for length in [0, 1, SHEET - 1, SHEET + 1, DIVISION - 1, DIVISION, DIVISION + 1] {
        let other = resized(sheet, length);
        report.edit_sheet(file, &edit, &mut other.clone());
        report.divide(file, &other, &mut division.clone());
        report.merge(file, division, &mut other.clone());
        report.findings(file, &other, &mut [7; 8]);
        report.area_findings(file, &other, r.from(0, 1) as u8, &mut [7; 8]);
        report.pair_findings(file, [&other, sheet], [1, r.from(1, 2) as u8], &mut [7; 8]);
        report.pair_findings(file, [sheet, &other], [1, r.from(1, 2) as u8], &mut [7; 8]);
        report.read(file, &[0, 0], &mut other.clone());
        report.read_early(file, &[0, 0], &mut other.clone());
        report.write(file, &other, &mut [7; 8]);
        report.project(file, &other, (r.from(0, 1) as u8, 1, 1), &mut [7; 8]);
    }
    for length in [0, SHEET, DIVISION - 1, DIVISION + 1] {
        let other = resized(division, length);
        report.edit(file, &edit, &mut other.clone());
        report.run(file, &list, &mut other.clone(), &mut [7; MOST_ANSWERS]);
        report.run_early(file, &early, &mut other.clone(), &mut [7; MOST_ANSWERS]);
        report.divide(file, sheet, &mut other.clone());
        report.merge(file, &other, &mut sheet.clone());
    }
    room(report, r, railway, [&list, &early]);
}

/// Outputs with room for less, for just enough and for more.
fn room(report: &mut Report, r: &mut Random, railway: &Railway, lists: [&[u8]; 2]) {
    let Railway { file, sheet, division, timetable, edits, .. } = railway;
    let around = |needed: usize| [0, 1, needed / 2, needed.saturating_sub(1), needed, needed + 1, needed + 50];
    for length in around(2 * edits.len().min(20)) {
        report.run(file, lists[0], &mut vec![0; DIVISION], &mut vec![7; length]);
        report.run_early(file, lists[1], &mut vec![0; DIVISION], &mut vec![7; length]);
    }
    let needed = report.findings(file, sheet, &mut []).length;
    for length in around(needed) {
        report.findings(file, sheet, &mut vec![7; length]);
    }
    let (one, other) = (r.from(1, 3), r.from(4, 6));
    let sheets = [part(division, one), part(division, other)];
    let needed = report.area_findings(file, sheets[0], one as u8, &mut []).length;
    for length in around(needed) {
        report.area_findings(file, sheets[0], one as u8, &mut vec![7; length]);
    }
    let needed = report.pair_findings(file, sheets, [one as u8, other as u8], &mut []).length;
    for length in around(needed) {
        report.pair_findings(file, sheets, [one as u8, other as u8], &mut vec![7; length]);
    }
    for length in around(timetable::write(timetable).len()) {
        report.write(file, sheet, &mut vec![7; length]);
    }
    if let Some((station, train)) = timetable.visits.keys().next() {
        for length in [0, 3, 4, 7, 8, 12, 63, 64, 65] {
            report.project(file, sheet, (station.0 as u8, train.0 as u16, 100), &mut vec![7; length]);
        }
    }
}

/// Areas, stations, trains, times and tallies out of range.
pub fn values(report: &mut Report, r: &mut Random, railway: &Railway) {
    let Railway { file, sheet, division, .. } = railway;
    for (one, other) in [(0, 1), (1, 0), (7, 1), (1, 7), (255, 2), (1, 1), (6, 6), (7, 7), (0, 0)] {
        report.pair_findings(file, [part(division, 1), part(division, 2)], [one, other], &mut [7; 40]);
        report.area_findings(file, part(division, 1), one, &mut [7; 40]);
    }
    let stations = [0, 1, 5, 16, 17, 255, r.byte()];
    for station in stations {
        for train in [0, 1, 9999, 10_000, 65_535] {
            for arrival in [0, 2879, 2880, 65_535] {
                report.project(file, sheet, (station, train, arrival), &mut [7; MOST_ROWS]);
            }
        }
    }
    let edit = r.pick(&railway.edits).unwrap_or(vec![11, 1]);
    for refusal in [0, 1, 5, 9, 13, 14, 15, 255] {
        for removed in [0, 1, 16, 17, 255] {
            report.raise(&edit, refusal, removed, &mut [0, 3, 999_999, 1_000_000]);
            report.raise(&edit, refusal, removed, &mut [0, 1_000_001, 0, u32::MAX]);
            report.raise(&[12, 1], refusal, removed, &mut [1_000_001, 0, 0, 0]);
            report.raise(&[12, 1], refusal, removed, &mut [1_000_000, 0, 0, 0]);
        }
    }
}

/// A byte changed, records exchanged, or a page put where it does not belong.
fn spoil(r: &mut Random, bytes: &mut [u8]) {
    let pages = bytes.len() / 512;
    let filled: Vec<usize> = (0..pages).filter(|page| bytes[512 * page] > 0).collect();
    let page = r.pick(&filled).unwrap_or(r.below(pages));
    match r.from(1, 8) {
        1 => bytes[r.below(pages) * 512 + r.below(512)] = r.byte(),
        2 => bytes[512 * page + r.below(2)] = r.from(0, 26) as u8,
        3 => bytes[512 * page + 32 + r.below(64)] ^= 1 << r.below(8),
        4 => bytes[512 * page + 416 + r.below(32)] ^= 1 << r.below(8),
        5 => (0..16).for_each(|at| bytes.swap(512 * page + 32 + at, 512 * page + 48 + at)),
        6 => bytes.copy_within(512 * page..512 * page + 512, 512 * r.below(pages)),
        // A stop mark, or the byte behind it.
        7 => bytes[512 * page + 32 + 16 * r.below(3) + 14 + r.below(2)] = r.from(0, 2) as u8,
        _ => bytes[512 * page + 2 + r.below(30)] = 1,
    }
}

/// Sheets that are not good: those that a call reads are refused with 6, others do not matter.
pub fn damaged_sheets(report: &mut Report, r: &mut Random, railway: &Railway) {
    let Railway { file, edits, timetable, network, .. } = railway;
    for _ in 0..10 {
        let (mut sheet, mut division) = (railway.sheet.clone(), railway.division.clone());
        for _ in 0..r.from(1, 2) {
            spoil(r, &mut sheet);
            spoil(r, &mut division);
        }
        let dispatcher = Dispatcher { network, timetable, trains: 40 };
        let fresh: Vec<Vec<u8>> = (0..6).map(|_| bytes_of(&dispatcher.edit(r))).collect();
        let damage = (1..=6).any(|area| good(network, part(&division, area), in_area(network, area)).is_none());
        for edit in fresh.iter().chain(r.pick(edits).iter()) {
            let refusal = report.edit(file, edit, &mut division.clone()).refusal;
            report.meets("an edit accepted beside another area's damaged sheet", damage && refusal == 0);
            report.meets("an edit refused for a damaged sheet of its own", damage && refusal == 6);
            report.edit_sheet(file, edit, &mut sheet.clone());
        }
        report.run(file, &list_of(&fresh), &mut division.clone(), &mut [7; 20]);
        report.divide(file, &sheet, &mut vec![7; DIVISION]);
        report.merge(file, &division, &mut vec![7; SHEET]);
        let room = if r.one_in(4) { 0 } else { 4000 };
        report.findings(file, &sheet, &mut vec![7; room]);
        for area in 1..=6 {
            report.area_findings(file, part(&division, area.into()), area, &mut vec![7; room]);
            let other = area % 6 + 1;
            let sheets = [part(&division, area.into()), part(&division, other.into())];
            report.pair_findings(file, sheets, [area, other], &mut vec![7; room]);
        }
        report.write(file, &sheet, &mut vec![7; room]);
        if let Some((station, train)) = timetable.visits.keys().next() {
            report.project(file, &sheet, (station.0 as u8, train.0 as u16, 100), &mut [7; MOST_ROWS]);
        }
    }
}

/// Files with faults, each told by its number and place, whatever else is wrong; a wrong length comes before them.
pub fn damaged_files(report: &mut Report, r: &mut Random, railway: &Railway) {
    let Railway { numbers, file, sheet, division, edits, timetable, .. } = railway;
    let edit = r.pick(edits).unwrap_or(vec![11, 1]);
    let list = list_of(&edits[..edits.len().min(10)]);
    let early = early_list(&edits[..edits.len().min(10)]);
    let own = timetable::write(timetable);
    let own_numbers = numbers_in(&own);
    let early_numbers = early_timetable(&own_numbers);
    for _ in 0..12 {
        let other = match r.from(1, 3) {
            1 => damaged(r, file),
            2 => displaced(r, numbers),
            _ => misclosed(r, numbers, Form::Newest),
        };
        network_faults(report, r, railway, &other, &edit);
        let edit = damaged(r, &edit);
        let short = usize::from(r.one_in(4));
        report.names(file, &edit);
        report.edit(file, &edit, &mut division[short..].to_vec());
        report.edit_sheet(file, &edit, &mut sheet[short..].to_vec());
        report.raise(&edit, 0, 0, &mut [1; 4]);
        let room = r.from(0, 40) as usize;
        report.run(file, &damaged(r, &list), &mut division[short..].to_vec(), &mut vec![7; room]);
        report.run_early(file, &damaged(r, &early), &mut division[short..].to_vec(), &mut vec![7; room]);
        report.read(file, &damaged(r, &own), &mut vec![7; SHEET - short]);
        report.read(file, &displaced(r, &own_numbers), &mut vec![7; SHEET]);
        report.read_early(file, &damaged(r, &bytes_of(&early_numbers)), &mut vec![7; SHEET - short]);
        report.read_early(file, &displaced(r, &early_numbers), &mut vec![7; SHEET]);
    }
    report.read(&[], &[], &mut sheet.clone());
    report.read_early(file, &[], &mut sheet.clone());
    report.network(&[]);
    report.names(file, &[]);
    report.run(file, &[], &mut division.clone(), &mut []);
    report.run_early(file, &[], &mut division.clone(), &mut []);
    report.raise(&[], 0, 0, &mut [0; 4]);
}

/// A station with about as many entries as it takes: the first one too many is told, unless one before it is unknown.
pub fn crowded(report: &mut Report, r: &mut Random, railway: &Railway) {
    let listed: Vec<u32> = railway.network.stations.keys().map(|station| station.0).collect();
    for _ in 0..6 {
        let station = listed[r.below(listed.len())];
        let (visits, relations) = (r.from(23, 26), r.from(5, 8));
        let mut numbers = vec![visits];
        for train in 1..=visits {
            let track = if r.one_in(60) { 8 } else { 1 };
            numbers.extend([station, 70 * train, track, r.from(0, 1)]);
            numbers.extend([r.from(90, 200), r.from(0, 1), r.from(90, 200), 0, 0, 0]);
        }
        numbers.push(relations);
        (1..=relations).for_each(|interval| numbers.extend([station, 1, interval, 2, 70, 140]));
        report.read(&railway.file, &bytes_of(&numbers), &mut vec![7; SHEET]);
        report.read_early(&railway.file, &bytes_of(&early_timetable(&numbers)), &mut vec![7; SHEET]);
    }
}

/// A network that may be refused, in every call; it may come with another fault.
fn network_faults(report: &mut Report, r: &mut Random, railway: &Railway, network: &[u8], edit: &[u8]) {
    let (mut sheet, mut division) = (railway.sheet.clone(), railway.division.clone());
    if r.one_in(3) {
        spoil(r, &mut sheet);
        spoil(r, &mut division);
    }
    let edit = if r.one_in(3) { damaged(r, edit) } else { edit.to_vec() };
    let one = r.from(0, 6) as u8;
    let short = usize::from(r.one_in(4));
    let [own, far] = [1, 2].map(|area| part(&division, area)[short..].to_vec());
    let (sheet, division) = (sheet.split_off(short), division.split_off(short));
    if let Some(refusal) = network_of(network).err().filter(|refusal| refusal.number == 4) {
        let numbers = numbers_in(network);
        let closure = refusal.place > bytes_of(&numbers[..closures_at(&numbers, Form::Newest)]).len();
        report.meets("4 of a line", !closure);
        report.meets("4 of a closure", closure);
    }
    report.network(network);
    report.names(network, &edit);
    report.edit(network, &edit, &mut division.clone());
    report.edit_sheet(network, &edit, &mut sheet.clone());
    report.run(network, &[&[1], &edit[..]].concat(), &mut division.clone(), &mut [7; 4]);
    report.run_early(network, &[&[1], &edit[..]].concat(), &mut division.clone(), &mut [7; 4]);
    report.divide(network, &sheet, &mut vec![7; DIVISION]);
    report.merge(network, &division, &mut vec![7; SHEET]);
    report.findings(network, &sheet, &mut vec![7; 4000]);
    report.area_findings(network, &own, one, &mut [7; 400]);
    report.pair_findings(network, [&own, &far], [1, one], &mut [7; 400]);
    let own = timetable::write(&railway.timetable);
    report.read(network, &damaged(r, &own), &mut sheet.clone());
    report.read_early(network, &damaged(r, &own), &mut sheet.clone());
    report.write(network, &sheet, &mut [7; MOST_TIMETABLE]);
    report.project(network, &sheet, (r.from(0, 17) as u8, r.from(0, 40) as u16, 100), &mut [7; MOST_ROWS]);
}

/// Sixteen stations in a ring, joined twice, with numbers of the most bytes, and as many closures as there may be.
fn full_network() -> Vec<u32> {
    let mut numbers = vec![16];
    (1..=16).for_each(|station| numbers.extend([station, (station - 1) % 6 + 1, 8]));
    numbers.extend([30, 32]);
    (0..32).for_each(|line| numbers.extend([line + 1, line % 16 + 1, (line + 1) % 16 + 1, 3, 240, 240, 9]));
    numbers.push(32);
    (1..=16).for_each(|line| numbers.extend([line, 2040, 2050, line, 2879, 2880]));
    numbers
}

/// All its stations full, with numbers of the most bytes.
fn full_timetable(r: &mut Random) -> Vec<u8> {
    let mut numbers = vec![16 * 24];
    for station in 1..=16 {
        let (before, next) = ((station + 14) % 16 + 1, station % 16 + 1);
        for train in 9976..=9999 {
            let arrival = r.from(2000, 2050);
            numbers.extend([station, train, r.from(1, 8), r.from(0, 1), arrival, 0, arrival + r.from(0, 9), 0]);
            numbers.extend([before, before, next, station, r.from(128, 240)]);
        }
    }
    numbers.push(16 * 6);
    for station in 1..=16 {
        (0..6).for_each(|rank| numbers.extend([station, 1, 240, 4, 9970 + rank, 9980, 9990, 9999]));
    }
    bytes_of(&numbers)
}

/// A long list, updated at one station and redone whole: more than a draft has room for.
fn long_rechecks(report: &mut Report, network: &[u8], sheet: &[u8]) {
    let list = whole_list(report, network, sheet).concat();
    for edit in [&[7, 3, 9980, 2000, 2000][..], &[11, 1]] {
        let edit = bytes_of(edit);
        let needed = report.recheck(network, sheet, &edit, &list, &mut []).length;
        assert_eq!(needed, list.len(), "{}: the same sheet", report.place);
        for length in [needed - 1, needed, needed + 1] {
            report.recheck(network, sheet, &edit, &list, &mut vec![7; length]);
        }
        report.recheck(network, sheet, &edit, &[], &mut vec![7; needed]);
    }
    report.meets("a list that a draft of 8,192 numbers has no room for", list.len() > 8192);
}

/// A railway with all its stations full: its files have the most bytes that any have, and no station takes more.
pub fn fullest(report: &mut Report, r: &mut Random) {
    report.place = String::from("the fullest railway");
    let (network, file) = (bytes_of(&full_network()), full_timetable(r));
    assert_eq!([network.len(), file.len()], [MOST_NETWORK, MOST_TIMETABLE]);
    let old = bytes_of(&earlier(&full_network()));
    let mut turned = [7; MOST_NETWORK];
    report.turn(1, &old, &mut turned);
    assert!(turned[..] == network, "{}: turned otherwise", report.place);
    report.turn(1, &old, &mut [7; MOST_NETWORK - 1]);
    let (mut sheet, mut division) = (vec![7; SHEET], vec![7; DIVISION]);
    report.read(&network, &file, &mut sheet);
    report.divide(&network, &sheet, &mut division);
    report.merge(&network, &division, &mut vec![7; SHEET]);
    report.write(&network, &sheet, &mut [7; MOST_TIMETABLE]);
    report.write(&network, &sheet, &mut [7; MOST_TIMETABLE - 1]);
    report.findings(&network, &sheet, &mut vec![7; MOST_FINDINGS]);
    assert_eq!(whole_list(report, &network, &sheet), shared(report, &network, &division), "{}", report.place);
    report.project(&network, &sheet, (16, 9999, 2879), &mut [7; MOST_ROWS]);
    long_rechecks(report, &network, &sheet);
    for edit in [&[1, 3, 7, 1, 0, 100, 101][..], &[9, 3, 2, 5, 2, 7, 8], &[9, 3, 1, 5, 2, 7, 8], &[11, 9999]] {
        report.edit(&network, &bytes_of(edit), &mut division.clone());
        report.edit_sheet(&network, &bytes_of(edit), &mut sheet.clone());
    }
}
