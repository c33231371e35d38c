//! Network files of the earlier form: how they turn into the newest, and the findings under them.

use crate::calls::Report;
use crate::drafts::{closures_at, damaged, displaced, doubled, earlier, lines_of, misclosed};
use crate::files::{bytes_of, network_of};
use crate::model::findings_before;
use crate::orders::{shared, whole_list};
use crate::random::Random;
use crate::suites::Railway;
use reference::network::Form;
use strakewhip::raw::Reply;
use strakewhip::MOST_NETWORK;

/// The number of the earlier form.
const ONE_TIME: u8 = 1;

/// A railway's network in the earlier form turns into the newest with its one time as both, and gives the old findings.
pub fn turned(report: &mut Report, r: &mut Random, railway: &Railway) {
    let old = earlier(&railway.numbers);
    let file = bytes_of(&old);
    let mut out = vec![7; MOST_NETWORK];
    let length = report.turn(ONE_TIME, &file, &mut out).length;
    let newest = &out[..length];
    assert!(newest == bytes_of(&doubled(&old)), "{}: turned otherwise", report.place);
    report.network(newest);
    old_findings(report, railway, &old, newest);
    room(report, &file, length);
    refusals(report, r, railway, &old);
}

/// "Such a network must yield the old findings": the whole list, and those of areas and pairs together.
fn old_findings(report: &mut Report, railway: &Railway, old: &[u32], newest: &[u8]) {
    let Railway { timetable, sheet, division, .. } = railway;
    let least = lines_of(old, Form::OneTime).map(|line| (line[0], line[4])).collect();
    let before = findings_before(&least, &network_of(newest).expect("it is turned"), timetable);
    assert_eq!(whole_list(report, newest, sheet), before, "{}: the old findings", report.place);
    assert_eq!(shared(report, newest, division), before, "{}: the old findings, shared", report.place);
    let freight = |[_, rule, first, _]: &[u16; 4]| *rule == 5 && *first >= 5000;
    report.meets("a freight train found by the old time", before.iter().any(freight));
}

/// Room for less, for just enough and for more, whose rest is kept.
fn room(report: &mut Report, file: &[u8], needed: usize) {
    for length in [0, 1, needed - 1, needed, needed + 1, needed + 50] {
        report.turn(ONE_TIME, file, &mut vec![7; length]);
    }
}

/// Faults of old files, each told by its number and its place in the old file; forms that there are not.
fn refusals(report: &mut Report, r: &mut Random, railway: &Railway, old: &[u32]) {
    let file = bytes_of(old);
    for rank in 0..12 {
        let faulty = match rank % 3 {
            0 => damaged(r, &file),
            1 => displaced(r, old),
            _ => misclosed(r, old, Form::OneTime),
        };
        let length = if r.one_in(4) { r.below(40) } else { MOST_NETWORK };
        report.turn(ONE_TIME, &faulty, &mut vec![7; length]);
    }
    // What is no form is refused whatever else is at fault.
    for form in [0, 2, 255] {
        report.turn(form, &file, &mut [7; MOST_NETWORK]);
        report.turn(form, &damaged(r, &file), &mut []);
    }
    // Document 01's form has no closures: it ends early, as do no bytes at all.
    let without = bytes_of(&old[..closures_at(old, Form::OneTime)]);
    for early in [&without[..], &[]] {
        let reply = report.turn(ONE_TIME, early, &mut [7; MOST_NETWORK]);
        let due = Reply { refusal: 1, removed: 0, file: 1, place: early.len(), length: 0 };
        assert_eq!(reply, due, "{}: a file without closures", report.place);
    }
    // Each form read as the other.
    report.turn(ONE_TIME, &railway.file, &mut [7; MOST_NETWORK]);
    report.network(&file);
}
