//! What has to come about in a full run, so that no part of it passes for want of cases.

use crate::calls::Report;

const NETWORK: &[(u8, u8)] = &[(1, 1), (2, 1), (3, 1), (14, 1), (4, 1)];
const EDIT: &[(u8, u8)] = &[(1, 2), (2, 2), (3, 2)];
const TIMETABLE: &[(u8, u8)] = &[(1, 2), (2, 2), (3, 2), (7, 2), (12, 2)];

/// Each call, the files that it refuses, and the refusals that are of no file; all of them accept something.
const CALLS: &[(&str, &[&[(u8, u8)]], &[u8])] = &[
    ("network", &[NETWORK], &[]),
    ("turn", &[NETWORK], &[3, 13]),
    ("names", &[NETWORK, EDIT], &[15, 7]),
    ("edit", &[NETWORK, EDIT], &[5, 15, 7, 6, 8, 9, 10, 11, 12]),
    ("edit_sheet", &[NETWORK, EDIT], &[5, 15, 7, 6, 8, 9, 10, 11, 12]),
    ("run", &[NETWORK, EDIT], &[5, 13]),
    ("run_early", &[NETWORK, EDIT], &[5, 13]),
    ("divide", &[NETWORK], &[5, 6]),
    ("merge", &[NETWORK], &[5, 6]),
    ("findings", &[NETWORK], &[5, 6, 13]),
    ("area_findings", &[NETWORK], &[5, 3, 6, 13]),
    ("pair_findings", &[NETWORK], &[5, 3, 6, 13]),
    ("recheck", &[NETWORK, EDIT], &[5, 15, 7, 6, 3, 13]),
    ("recheck_area", &[NETWORK, EDIT], &[5, 3, 15, 7, 6, 13]),
    ("read", &[NETWORK, TIMETABLE], &[5]),
    ("read_early", &[NETWORK, TIMETABLE], &[5]),
    ("write", &[NETWORK], &[5, 6, 13]),
    ("project", &[NETWORK], &[5, 3, 7, 6, 9, 13]),
    ("raise", &[EDIT], &[5, 3]),
];

/// What did not come about: a refusal of a call, or what the suites were to meet.
pub fn missing(report: &Report) -> Vec<String> {
    let mut missing = Vec::new();
    for (call, files, own) in CALLS {
        let due = files.concat().into_iter().chain(own.iter().map(|refusal| (*refusal, 0))).chain([(0, 0)]);
        for (refusal, file) in due.filter(|(refusal, file)| !report.answered.contains(&(*call, *refusal, *file))) {
            missing.push(format!("{call} answering {refusal} of file {file}"));
        }
    }
    missing.extend(report.met.iter().filter(|(_, times)| **times == 0).map(|(what, _)| what.to_string()));
    missing
}
