//! What the programs `shift` and `inspect` print for an input.

use crate::edits::{self, Form};
use crate::findings::{self, Finding};
use crate::machine;
use crate::network::NetworkPart;
use crate::number::{FileRefusal, Reader, SIZE};
use crate::projection;
use crate::railway::{Area, Timetable, LAST_MINUTE};
use crate::tally::Tally;
use crate::timetable::{self, TimetablePart};
use std::fmt::Write;

/// "One file of at most 16,384 bytes, else 5."
pub const LONGEST_INPUT: usize = 16_384;

/// "A file refusal prints only R, number, place."
fn printed(run: Result<String, FileRefusal>) -> String {
    run.unwrap_or_else(|refusal| format!("R {} {}\n", refusal.number, refusal.place))
}

fn test_size(input: &[u8]) -> Result<(), FileRefusal> {
    if input.len() > LONGEST_INPUT {
        return Err(FileRefusal { number: SIZE, place: 0 });
    }
    Ok(())
}

/// "Network, then edits, from an empty division"; the closures stand between them (W1).
pub fn shift(input: &[u8]) -> String {
    printed(shift_or_refusal(input))
}

fn shift_or_refusal(input: &[u8]) -> Result<String, FileRefusal> {
    test_size(input)?;
    let mut reader = Reader::new(input);
    let part = NetworkPart::read(&mut reader)?;
    let edits = edits::read(&mut reader, Form::Newest)?;
    reader.end()?;
    // "In files the first faulty number by place, then 4"; W1 puts 14 between them.
    part.test_whole()?;
    let network = part.network;

    let mut out = String::new();
    let mut timetable = Timetable::default();
    let mut tally = Tally::default();
    for (before, edit) in edits.iter().enumerate() {
        let answer = machine::run(&network, &mut timetable, edit);
        tally = tally.raised(edit, answer);
        line(&mut out, "E", &[before as i64 + 1, answer.refusal.into(), answer.removed.into()]);
    }
    let found = findings::central(&network, &timetable);
    for finding in &found {
        finding_line(&mut out, "F", &[], finding);
    }
    totals_line(&mut out, &timetable, &found);
    line(&mut out, "A", &[tally.accepted.into(), tally.refused.into(), tally.added.into(), tally.removed.into()]);
    Ok(out)
}

/// A network and then a timetable in one file: its findings, its projections, and whether it is written as it was read.
pub fn inspect(input: &[u8]) -> String {
    printed(inspect_or_refusal(input))
}

fn inspect_or_refusal(input: &[u8]) -> Result<String, FileRefusal> {
    test_size(input)?;
    let mut reader = Reader::new(input);
    let part = NetworkPart::read(&mut reader)?;
    let behind = reader.place();
    let entries = TimetablePart::read(&mut reader, Form::Newest)?;
    reader.end()?;
    part.test_whole()?;
    let network = part.network;
    let timetable = entries.under(&network)?;

    let mut out = String::new();
    let found = findings::central(&network, &timetable);
    for finding in &found {
        finding_line(&mut out, "F", &[], finding);
    }
    for area in 1..=6 {
        for finding in findings::of_area(&network, &timetable, Area(area)) {
            finding_line(&mut out, "D", &[area.into()], &finding);
        }
    }
    for one in 1..=6 {
        for other in one + 1..=6 {
            for finding in findings::of_pair(&network, &timetable, Area(one), Area(other)) {
                finding_line(&mut out, "P", &[one.into(), other.into()], &finding);
            }
        }
    }
    totals_line(&mut out, &timetable, &found);
    journey_lines(&mut out, &timetable);
    line(&mut out, "W", &[i64::from(timetable::write(&timetable) == input[behind..])]);
    Ok(out)
}

/// From each visit, the projection with its stored arrival plus 5 (at most 2879) as the expected arrival.
fn journey_lines(out: &mut String, timetable: &Timetable) {
    for ((station, train), visit) in &timetable.visits {
        let expected = (visit.arrival.time + 5).min(LAST_MINUTE);
        for row in projection::project(timetable, *station, *train, expected) {
            let (start, train, at) = (station.0.into(), train.0.into(), row.station.0.into());
            line(out, "J", &[start, train, at, row.arrival, row.departure, row.lateness]);
        }
    }
}

/// "T: visits, relations, findings."
fn totals_line(out: &mut String, timetable: &Timetable, found: &[Finding]) {
    line(out, "T", &[timetable.visits.len() as i64, timetable.relation_count() as i64, found.len() as i64]);
}

fn finding_line(out: &mut String, letter: &str, before: &[i64], finding: &Finding) {
    let Finding { station, rule, first, second } = *finding;
    let mut numbers = before.to_vec();
    numbers.extend([station.0, rule, first, second].map(i64::from));
    line(out, letter, &numbers);
}

fn line(out: &mut String, letter: &str, numbers: &[i64]) {
    out.push_str(letter);
    for number in numbers {
        write!(out, " {number}").expect("a string takes any text");
    }
    out.push('\n');
}
