//! Every call of the library on generated inputs, good and damaged, against the second implementation.
//!
//!   library_tests [RAILWAYS [FIRST SEED]]

mod calls;
mod covered;
mod drafts;
mod files;
mod model;
mod orders;
mod random;
mod rechecks;
mod reports;
mod requests;
mod sheets;
mod suites;
mod turns;

use calls::Report;
use random::Random;
use std::time::Instant;

const RAILWAYS: u64 = 600;

fn main() {
    let mut words = std::env::args().skip(1).map(|word| word.parse::<u64>().expect("a number"));
    let railways = words.next().unwrap_or(RAILWAYS);
    let first = words.next().unwrap_or(1);
    let began = Instant::now();
    let mut report = Report::default();
    suites::fullest(&mut report, &mut Random::new(0));
    requests::row(&mut report);
    reports::edges(&mut report);
    for seed in first..first + railways {
        report.place = format!("railway {seed}");
        let mut r = Random::new(seed);
        let railway = suites::traffic(&mut report, &mut r);
        suites::outputs(&mut report, &mut r, &railway);
        suites::lengths(&mut report, &mut r, &railway);
        suites::values(&mut report, &mut r, &railway);
        suites::damaged_sheets(&mut report, &mut r, &railway);
        suites::damaged_files(&mut report, &mut r, &railway);
        suites::crowded(&mut report, &mut r, &railway);
        rechecks::rechecked(&mut report, &mut r, &railway);
        requests::requested(&mut report, &mut r, &railway);
        reports::reported(&mut report, &mut r, &railway);
        turns::turned(&mut report, &mut r, &railway);
        orders::reordered(&mut report, &mut r, &railway);
    }
    let seconds = began.elapsed().as_secs();
    let Report { compared, differing, .. } = report;
    println!("library: {compared} calls on {railways} railways compared, {differing} differ ({seconds} s)");
    println!("library: calls by refusal, 0 to 15: {:?}", report.refusals);
    for (what, times) in &report.met {
        println!("library: {what}: {times} times");
    }
    let mut faults = report.differing;
    if railways >= RAILWAYS {
        for one in covered::missing(&report) {
            println!("library: {one} did not come about");
            faults += 1;
        }
    }
    if faults > 0 {
        std::process::exit(1);
    }
}
