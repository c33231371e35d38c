//! Standard input is one file, a network and then a timetable; see `reference::programs::inspect`.

use std::io::{self, Read, Write};

fn main() -> io::Result<()> {
    let mut input = Vec::new();
    io::stdin().lock().read_to_end(&mut input)?;
    io::stdout().lock().write_all(reference::programs::inspect(&input).as_bytes())
}
