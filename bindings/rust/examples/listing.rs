//! Replays the listing of document 01: the edits run on an empty division, and are printed as `shift` prints them.

use strakewhip::{DIVISION, MOST_ANSWERS, MOST_FINDINGS, SHEET};

/// The bytes of numbers below 128.
const NETWORK: [u8; 17] = [2, 1, 1, 2, 2, 2, 1, 3, 1, 1, 1, 2, 3, 10, 10, 1, 0];
const EDITS: [&[u8]; 4] = [
    &[1, 1, 7, 1, 0, 100, 102],
    &[3, 2, 7, 1, 0, 115, 115, 1, 1, 12],
    &[1, 1, 7, 1, 0, 100, 102],
    &[9, 1, 1, 5, 2, 7, 9],
];

fn main() -> Result<(), strakewhip::Error> {
    let mut file = vec![EDITS.len() as u8];
    file.extend(EDITS.concat());
    let mut division = vec![0; DIVISION];
    let mut answers = vec![0; MOST_ANSWERS];
    let length = strakewhip::run(&NETWORK, &file, &mut division, &mut answers)?;
    let mut tally = [0; 4];
    for (i, answer) in answers[..length].chunks(2).enumerate() {
        println!("E {} {} {}", i + 1, answer[0], answer[1]);
        strakewhip::raise(EDITS[i], answer[0], answer[1], &mut tally)?;
    }

    let mut sheet = vec![0; SHEET];
    strakewhip::merge(&NETWORK, &division, &mut sheet)?;
    let mut found = vec![0; MOST_FINDINGS];
    let count = strakewhip::findings(&NETWORK, &sheet, &mut found)?;
    for finding in found[..count].chunks(4) {
        println!("F {} {} {} {}", finding[0], finding[1], finding[2], finding[3]);
    }
    let visits: u32 = sheet.chunks(512).map(|page| u32::from(page[0])).sum();
    let relations: u32 = sheet.chunks(512).map(|page| u32::from(page[1])).sum();
    println!("T {visits} {relations} {}", count / 4);
    println!("A {} {} {} {}", tally[0], tally[1], tally[2], tally[3]);
    Ok(())
}
