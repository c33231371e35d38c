//! What calls cost. `run.py` beside this folder makes tables of it.
//!
//!   bench files DIR                       writes the inputs of both programs, NAME.shift and NAME.inspect
//!   bench times                           microseconds of each call, the middle of many rounds: library, second one
//!   bench turns CALL SIZE SIDE COUNT      does the call COUNT times (SIDE: library or reference), to be counted;
//!                                         SIZE may also be one of those by which growth is measured
//!   bench insertion WHERE SIDE COUNT      puts a visit in at a station of 23 visits COUNT times (WHERE: front, middle,
//!                                         end or there, where one stands; SIDE: library, page, which copies it, nothing)
//!   bench calls                           the calls' names and what they do
//!   bench sizes                           what each size holds

mod calls;
mod files;
mod insertions;

use calls::{reference, Held, CALLS};
use files::{Size, GROWTH, SIZES};
use std::time::Instant;

/// Rounds whose middle one is told, and the least time that a round takes.
const ROUNDS: usize = 41;
const ROUND_MICROS: u128 = 2000;

/// Microseconds of one turn: the middle of many rounds.
fn median(mut turn: impl FnMut()) -> f64 {
    let mut turns = 1;
    loop {
        let began = Instant::now();
        (0..turns).for_each(|_| turn());
        if began.elapsed().as_micros() >= ROUND_MICROS {
            break;
        }
        turns *= 2;
    }
    let mut rounds: Vec<f64> = (0..ROUNDS)
        .map(|_| {
            let began = Instant::now();
            (0..turns).for_each(|_| turn());
            began.elapsed().as_nanos() as f64 / 1000.0 / turns as f64
        })
        .collect();
    rounds.sort_by(f64::total_cmp);
    rounds[ROUNDS / 2]
}

fn size(name: &str) -> &'static Size {
    SIZES.iter().chain(&GROWTH).find(|size| size.name == name).unwrap_or_else(|| panic!("no size {name}"))
}

fn write_files(folder: &str) {
    for size in &SIZES {
        let railway = size.railway();
        std::fs::write(format!("{folder}/{}.shift", size.name), railway.shift()).expect("the folder is there");
        std::fs::write(format!("{folder}/{}.inspect", size.name), railway.inspect()).expect("the folder is there");
    }
}

fn times() {
    for size in &SIZES {
        let railway = size.railway();
        let mut held = Held::new(&railway);
        for (call, _) in CALLS {
            let own = median(held.library(call, &railway));
            let other = reference(call, &railway).map(median);
            println!("{} {call} {own:.3} {}", size.name, other.map_or("-".into(), |micros| format!("{micros:.3}")));
        }
    }
}

/// With a count of 0 only what stands before the first turn is done.
fn turns(call: &str, size: &Size, side: &str, count: usize) {
    let railway = size.railway();
    let mut held = Held::new(&railway);
    let turn = if side == "library" { Some(held.library(call, &railway)) } else { reference(call, &railway) };
    let mut turn = turn.unwrap_or_else(|| panic!("the second implementation has no {call}"));
    (0..count).for_each(|_| turn());
}

fn sizes() {
    for size in &SIZES {
        let railway = size.railway();
        let found = reference::findings::central(&railway.known, &railway.held).len();
        println!(
            "{} {} {} {} {} {} {found}",
            size.name,
            railway.known.stations.len(),
            railway.known.lines.len(),
            files::read_edits(&railway.edits).len(),
            railway.held.visits.len(),
            railway.held.relation_count(),
        );
    }
}

fn main() {
    let words: Vec<String> = std::env::args().skip(1).collect();
    let words: Vec<&str> = words.iter().map(String::as_str).collect();
    match words[..] {
        ["files", folder] => write_files(folder),
        ["times"] => times(),
        ["turns", call, name, side, count] => turns(call, size(name), side, count.parse().expect("a count")),
        ["insertion", place, side, count] => insertions::turns(place, side, count.parse().expect("a count")),
        ["calls"] => CALLS.iter().for_each(|(call, what)| println!("{call} {what}")),
        ["sizes"] => sizes(),
        _ => panic!("files DIR, times, turns CALL SIZE SIDE COUNT, insertion WHERE SIDE COUNT, calls, or sizes"),
    }
}
