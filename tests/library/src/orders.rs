//! Demand 3 through the library: rooms' edits interleaved in several orders.

use crate::calls::Report;
use crate::files::edit_of;
use crate::model::fours;
use crate::random::Random;
use crate::sheets::{part, whole};
use crate::suites::{list_of, Railway};
use reference::edits::Edit;
use reference::machine::{names, FUTURE};
use reference::railway::Area;
use std::collections::BTreeSet;
use strakewhip::raw::Reply;
use strakewhip::{DIVISION, SHEET};

/// An order in which edits that name an area in common keep theirs.
fn order(r: &mut Random, areas: &[BTreeSet<Area>]) -> Vec<usize> {
    let mut left: Vec<usize> = (0..areas.len()).collect();
    let mut chosen = Vec::new();
    while !left.is_empty() {
        let window = left.len().min(12);
        let free: Vec<usize> = (0..window)
            .filter(|i| left[..*i].iter().all(|before| areas[*before].is_disjoint(&areas[left[*i]])))
            .collect();
        chosen.push(left.remove(free[r.below(free.len())]));
    }
    chosen
}

/// Whether an edit that names no area passed one of its station's area.
fn passed(order: &[usize], areas: &[BTreeSet<Area>], one: usize, own: Area) -> bool {
    let rank = |at: usize| order.iter().position(|now| *now == at);
    (0..areas.len()).any(|at| areas[at].contains(&own) && (at < one) != (rank(at) < rank(one)))
}

/// Answers, sheets, merged timetable, findings and tally in each order are those of the central machine in the first.
pub fn reordered(report: &mut Report, r: &mut Random, railway: &Railway) {
    let Railway { file, network, edits, timetable, .. } = railway;
    let reads: Vec<Edit> = edits.iter().map(|edit| edit_of(edit).expect("a draft")).collect();
    let areas: Vec<_> = reads.iter().map(|edit| names(network, edit)).collect();
    let mut first = vec![0; 2 * edits.len()];
    report.run(file, &list_of(edits), &mut vec![0; DIVISION], &mut first);
    let tally = tally_of(report, edits, &first);
    let futures: Vec<(usize, Area)> = (0..edits.len())
        .filter(|at| u32::from(first[2 * at]) == FUTURE)
        .filter_map(|at| Some((at, reads[at].stations()?[0])))
        .filter(|(_, station)| network.lists(*station))
        .map(|(at, station)| (at, network.area_of(station)))
        .collect();
    for _ in 0..3 {
        let order = order(r, &areas);
        report.meets("a list in another order", !order.is_sorted());
        let passes = futures.iter().any(|(at, own)| passed(&order, &areas, *at, *own));
        report.meets("a report from the future that passes an edit of its area", passes);
        let list: Vec<Vec<u8>> = order.iter().map(|i| edits[*i].clone()).collect();
        let (mut division, mut answers) = (vec![0; DIVISION], vec![0; 2 * edits.len()]);
        report.run(file, &list_of(&list), &mut division, &mut answers);
        for (now, before) in order.iter().enumerate() {
            assert_eq!(answers[2 * now..2 * now + 2], first[2 * before..2 * before + 2], "{}", report.place);
        }
        assert!(division == railway.division, "{}: other sheets in another order", report.place);
        let mut sheet = vec![0; SHEET];
        report.merge(file, &division, &mut sheet);
        assert!(sheet == whole(timetable), "{}: merged in another order", report.place);
        assert_eq!(tally_of(report, &list, &answers), tally, "{}", report.place);
        assert_eq!(shared(report, file, &division), whole_list(report, file, &sheet), "{}", report.place);
    }
}

fn tally_of(report: &mut Report, edits: &[Vec<u8>], answers: &[u8]) -> [u32; 4] {
    let mut tally = [0; 4];
    for (edit, answer) in edits.iter().zip(answers.chunks(2)) {
        report.raise(edit, answer[0], answer[1], &mut tally);
    }
    tally
}

/// The list that a call writes, first asked for its length.
fn list(mut call: impl FnMut(&mut [u16]) -> Reply) -> Vec<[u16; 4]> {
    let mut out = vec![0; call(&mut []).length];
    call(&mut out);
    fours(&out)
}

pub fn whole_list(report: &mut Report, file: &[u8], sheet: &[u8]) -> Vec<[u16; 4]> {
    list(|out| report.findings(file, sheet, out))
}

/// The findings of areas and pairs together, rising.
pub fn shared(report: &mut Report, file: &[u8], division: &[u8]) -> Vec<[u16; 4]> {
    let mut all = Vec::new();
    for one in 1..=6 {
        all.extend(list(|out| report.area_findings(file, part(division, one.into()), one, out)));
        for other in one + 1..=6 {
            let sheets = [part(division, one.into()), part(division, other.into())];
            all.extend(list(|out| report.pair_findings(file, sheets, [one, other], out)));
        }
    }
    all.sort_unstable();
    all
}
