//! Two rooms edit their own sheets of one division; the centre merges them, and projects a train through both.

use strakewhip::{Error, Refusal, DIVISION, MOST_FINDINGS, MOST_ROWS, SHEET};

/// Station 1 in area 1 and station 2 in area 2, and one line between them that is never closed.
const NETWORK: [u8; 17] = [2, 1, 1, 2, 2, 2, 1, 3, 1, 1, 1, 2, 3, 10, 10, 1, 0];

fn main() -> Result<(), Error> {
    let mut division = vec![0; DIVISION];

    // Train 7 waits at station 1; only area 1 is to be locked for it.
    let depart: &[u8] = &[1, 1, 7, 1, 0, 100, 102];
    println!("the first room locks {:?}", strakewhip::names(&NETWORK, depart)?.iter().collect::<Vec<_>>());
    strakewhip::edit(&NETWORK, depart, &mut division)?;

    // Train 9 comes to station 2, in the other room's sheet.
    let arrive: &[u8] = &[1, 2, 9, 1, 0, 110, 111];
    println!("the second room locks {:?}", strakewhip::names(&NETWORK, arrive)?.iter().collect::<Vec<_>>());
    strakewhip::edit(&NETWORK, arrive, &mut division)?;

    // Train 7 goes on to station 2: an edit across both rooms.
    let across: &[u8] = &[3, 2, 7, 1, 0, 115, 115, 1, 1, 12];
    println!("together they lock {:?}", strakewhip::names(&NETWORK, across)?.iter().collect::<Vec<_>>());
    strakewhip::edit(&NETWORK, across, &mut division)?;
    match strakewhip::edit(&NETWORK, across, &mut division) {
        Err(Error { refusal: Refusal::ThereAlready, .. }) => println!("once more: it is there already"),
        other => panic!("{other:?}"),
    }

    let mut sheet = vec![0; SHEET];
    strakewhip::merge(&NETWORK, &division, &mut sheet)?;
    let mut found = vec![0; MOST_FINDINGS];
    let count = strakewhip::findings(&NETWORK, &sheet, &mut found)?;
    for finding in found[..count].chunks(4) {
        println!("station {}: rule {}, first {}, second {}", finding[0], finding[1], finding[2], finding[3]);
    }

    let mut rows = vec![0; MOST_ROWS];
    let count = strakewhip::project(&NETWORK, &sheet, 1, 7, 104, &mut rows)?;
    for row in rows[..count].chunks(4) {
        println!("train 7 at station {}: arrives {}, departs {}, late {}", row[0], row[1], row[2], row[3]);
    }
    Ok(())
}
