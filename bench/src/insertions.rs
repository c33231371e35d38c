//! A visit put in at a station that has 23: at the front of its table, in the middle and at the end. Beside it stands an
//! insertion that copies the station's page with the record in its place.

use crate::files::edit_bytes;
use std::hint::black_box;
use strakewhip as library;
use strakewhip::SHEET;

/// One station with eight tracks, and no lines.
const NETWORK: [u32; 7] = [1, 1, 1, 8, 3, 0, 0];
/// The bytes of a page, where its visits begin, and those of a record (docs/LAYOUT.md).
const PAGE: usize = 512;
const VISITS: usize = 32;
const RECORD: usize = 16;
/// The visits that are there: trains 2, 4, .. 46.
const THERE: u32 = 23;

fn placing(train: u32) -> Vec<u8> {
    edit_bytes(&[1, 1, train, train % 8 + 1, 0, 100 + 50 * train, 102 + 50 * train])
}

/// The train that is put in, and how many visits stand behind it; `there` is one of those that are there.
fn put(place: &str) -> (u32, usize) {
    match place {
        "front" => (1, 23),
        "middle" => (23, 12),
        "end" => (47, 0),
        "there" => (24, 12),
        _ => panic!("no place {place}"),
    }
}

/// The page as it is with the record in front of the last `behind` ones, made anew and copied back.
fn copy_page(page: &mut [u8], record: &[u8; RECORD], behind: usize) {
    let at = VISITS + RECORD * (THERE as usize - behind);
    let mut next = [0; PAGE];
    next[..at].copy_from_slice(&page[..at]);
    next[at..at + RECORD].copy_from_slice(record);
    let end = VISITS + RECORD * (THERE as usize + 1);
    next[at + RECORD..end].copy_from_slice(&page[at..end - RECORD]);
    next[end..].copy_from_slice(&page[end..]);
    next[0] += 1;
    page.copy_from_slice(&next);
}

/// Each turn starts from the sheet as it was.
pub fn turns(place: &str, side: &str, count: usize) {
    let network = edit_bytes(&NETWORK);
    let mut full = vec![0; SHEET];
    for train in 1..=THERE {
        library::edit_sheet(&network, &placing(2 * train), &mut full).expect("it fits");
    }
    let (train, behind) = put(place);
    let edit = placing(train);
    let record = [1; RECORD];
    let mut sheet = full.clone();
    for _ in 0..count {
        sheet.copy_from_slice(&full);
        match side {
            "library" => drop(black_box(library::edit_sheet(&network, &edit, &mut sheet))),
            "page" => copy_page(black_box(&mut sheet[..PAGE]), black_box(&record), behind),
            _ => drop(black_box(&mut sheet)),
        }
    }
}
