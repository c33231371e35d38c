//! The calls of documents 01 and 02 as safe functions over slices; include/strakewhip.h has the same in C.
//!
//! A network, an edit, a list of edits and a timetable are the bytes of their files. In a network's, each line has two
//! least running times, that of passenger trains and then that of freight trains, numbered 5000 and up; it ends with
//! the count of its closures and the closures. Behind a track stands the stop mark of its edit or visit, 1 for a
//! request stop, else 0; the last field of a report is the present minute. Files of edits and of timetables without
//! marks and minutes, the earlier form, have functions of their own. A sheet is [`SHEET`] bytes, a division
//! [`DIVISION`], six sheets by area; all zeros are an empty one. Every function answers on every input. A refusal is an
//! [`Error`], and leaves every lent element as it was; each function names its refusals in the order in which they are
//! tested. "The network" among them stands for 1, 2 or 3, then 14, then 4 of the network's file, with its place.

pub mod raw;
mod refusal;

pub use refusal::{Error, File, Refusal};

use raw::Reply;

/// The bytes of a sheet.
pub const SHEET: usize = 8192;
/// The bytes of a division.
pub const DIVISION: usize = 6 * SHEET;
/// Room for any list of findings, four numbers each.
pub const MOST_FINDINGS: usize = 369_024;
/// Room for any projection, four numbers a row.
pub const MOST_ROWS: usize = 64;
/// Room for the answers to any list of edits, two bytes each.
pub const MOST_ANSWERS: usize = 2000;
/// Room for any timetable's file.
pub const MOST_TIMETABLE: usize = 7779;
/// Room for any network's file.
pub const MOST_NETWORK: usize = 500;

/// The earlier forms of a network's file, by their numbers.
#[derive(Clone, Copy, Debug, PartialEq, Eq, Hash)]
#[repr(u8)]
pub enum Form {
    /// 1: one least running time a line, and closures (document 02, W1).
    OneTime = 1,
}

impl Form {
    /// The number by which the library knows it.
    pub fn number(self) -> u8 {
        self as u8
    }

    /// The form of a number, if there is one.
    pub fn from_number(number: u8) -> Option<Form> {
        [Form::OneTime].into_iter().find(|form| form.number() == number)
    }
}

/// The areas that an edit names.
#[derive(Clone, Copy, Debug, PartialEq, Eq, Hash)]
pub struct Areas(u8);

impl Areas {
    /// Whether an area is among them.
    pub fn has(self, area: u8) -> bool {
        (1..=6).contains(&area) && self.0 & (1 << (area - 1)) != 0
    }

    /// The areas, rising.
    pub fn iter(self) -> impl Iterator<Item = u8> {
        (1..=6).filter(move |area| self.has(*area))
    }
}

/// The part of a division that is one area's sheet; none for a wrong length or an area that is not 1 to 6.
pub fn area_sheet(division: &[u8], area: u8) -> Option<&[u8]> {
    if division.len() != DIVISION || !(1..=6).contains(&area) {
        return None;
    }
    let start = SHEET * usize::from(area - 1);
    Some(&division[start..start + SHEET])
}

fn told(reply: Reply) -> Result<Reply, Error> {
    match Error::of(reply) {
        Some(error) => Err(error),
        None => Ok(reply),
    }
}

/// Reads a network's file, and answers how many bytes it has. Refuses: the network.
pub fn network(network: &[u8]) -> Result<usize, Error> {
    let reply = unsafe { raw::strakewhip_network(network.as_ptr(), network.len()) };
    told(reply).map(|reply| reply.length)
}

/// Turns a network's file of an earlier form into the newest, its closures kept; a line's one least running time
/// becomes both. Answers how many bytes the new file has. Refuses: the network, in the old file; 13.
pub fn turn(form: Form, file: &[u8], out: &mut [u8]) -> Result<usize, Error> {
    let reply = unsafe { raw::strakewhip_turn(form.number(), file.as_ptr(), file.len(), out.as_mut_ptr(), out.len()) };
    told(reply).map(|reply| reply.length)
}

/// The areas that an edit names, so that their sheets can be locked before it runs.
///
/// An edit is the bytes that it has in a file, kind and fields, and nothing behind them. Refuses: the network; 1, 2, 3
/// of the edit; 15, 7. A refused edit names none.
pub fn names(network: &[u8], edit: &[u8]) -> Result<Areas, Error> {
    let reply = unsafe { raw::strakewhip_names(network.as_ptr(), network.len(), edit.as_ptr(), edit.len()) };
    told(reply).map(|reply| Areas(reply.length as u8))
}

/// One edit on a division: it reads and changes only the sheets of the areas that it names. Answers how many visits it
/// removed. Refuses: 5; the network; 1, 2, 3 of the edit; 15, 7, 6, 8, 9, 10, 11, 12.
pub fn edit(network: &[u8], edit: &[u8], division: &mut [u8]) -> Result<u8, Error> {
    let reply = unsafe {
        raw::strakewhip_edit(
            network.as_ptr(),
            network.len(),
            edit.as_ptr(),
            edit.len(),
            division.as_mut_ptr(),
            division.len(),
        )
    };
    told(reply).map(|reply| reply.removed)
}

/// One edit on a sheet of all stations. Refuses as [`edit`] does.
pub fn edit_sheet(network: &[u8], edit: &[u8], sheet: &mut [u8]) -> Result<u8, Error> {
    let reply = unsafe {
        raw::strakewhip_edit_sheet(
            network.as_ptr(),
            network.len(),
            edit.as_ptr(),
            edit.len(),
            sheet.as_mut_ptr(),
            sheet.len(),
        )
    };
    told(reply).map(|reply| reply.removed)
}

/// The edits of a file, each on what the one before left, as if [`edit`] were called for each. Two bytes an edit go
/// into `answers`: its refusal and its removed count. Answers how many bytes of answers there are. Refuses: 5; the
/// network; 1, 2, 3 of the edits; 13.
pub fn run(network: &[u8], edits: &[u8], division: &mut [u8], answers: &mut [u8]) -> Result<usize, Error> {
    let reply = unsafe {
        raw::strakewhip_run(
            network.as_ptr(),
            network.len(),
            edits.as_ptr(),
            edits.len(),
            division.as_mut_ptr(),
            division.len(),
            answers.as_mut_ptr(),
            answers.len(),
        )
    };
    told(reply).map(|reply| reply.length)
}

/// The edits of a file in the earlier form, which have no mark and carry 0; its reports have no minute and carry 2879.
/// Refuses as [`run`] does, with the place in the earlier file.
pub fn run_early(network: &[u8], edits: &[u8], division: &mut [u8], answers: &mut [u8]) -> Result<usize, Error> {
    let reply = unsafe {
        raw::strakewhip_run_early(
            network.as_ptr(),
            network.len(),
            edits.as_ptr(),
            edits.len(),
            division.as_mut_ptr(),
            division.len(),
            answers.as_mut_ptr(),
            answers.len(),
        )
    };
    told(reply).map(|reply| reply.length)
}

/// Puts each station's entries into its area's sheet. Refuses: 5; the network; 6.
pub fn divide(network: &[u8], sheet: &[u8], division: &mut [u8]) -> Result<(), Error> {
    let reply = unsafe {
        raw::strakewhip_divide(
            network.as_ptr(),
            network.len(),
            sheet.as_ptr(),
            sheet.len(),
            division.as_mut_ptr(),
            division.len(),
        )
    };
    told(reply).map(|_| ())
}

/// Collects the six sheets of a division into one. Refuses: 5; the network; 6.
pub fn merge(network: &[u8], division: &[u8], sheet: &mut [u8]) -> Result<(), Error> {
    let reply = unsafe {
        raw::strakewhip_merge(
            network.as_ptr(),
            network.len(),
            division.as_ptr(),
            division.len(),
            sheet.as_mut_ptr(),
            sheet.len(),
        )
    };
    told(reply).map(|_| ())
}

/// The findings of a whole timetable, rising, four numbers each: station, rule, first, second. Answers how many numbers
/// there are. Refuses: 5; the network; 6; 13.
pub fn findings(network: &[u8], sheet: &[u8], out: &mut [u16]) -> Result<usize, Error> {
    let reply = unsafe {
        raw::strakewhip_findings(
            network.as_ptr(),
            network.len(),
            sheet.as_ptr(),
            sheet.len(),
            out.as_mut_ptr(),
            out.len(),
        )
    };
    told(reply).map(|reply| reply.length)
}

/// The findings of one area, from its sheet. Refuses: 5; the network; 3 of the area; 6; 13.
pub fn area_findings(network: &[u8], sheet: &[u8], area: u8, out: &mut [u16]) -> Result<usize, Error> {
    let reply = unsafe {
        raw::strakewhip_area_findings(
            network.as_ptr(),
            network.len(),
            sheet.as_ptr(),
            sheet.len(),
            area,
            out.as_mut_ptr(),
            out.len(),
        )
    };
    told(reply).map(|reply| reply.length)
}

/// The findings across two areas, from the sheet of `one` and that of `other`. Refuses: 5; the network; 3 of an area,
/// or of one area twice; 6; 13.
pub fn pair_findings(
    network: &[u8],
    first: &[u8],
    second: &[u8],
    one: u8,
    other: u8,
    out: &mut [u16],
) -> Result<usize, Error> {
    let reply = unsafe {
        raw::strakewhip_pair_findings(
            network.as_ptr(),
            network.len(),
            first.as_ptr(),
            first.len(),
            second.as_ptr(),
            second.len(),
            one,
            other,
            out.as_mut_ptr(),
            out.len(),
        )
    };
    told(reply).map(|reply| reply.length)
}

/// The list of findings after one edit, from the sheet of all stations after it and the list before it: what the edit
/// does not make stale of `list`, together with what is redone. Given the list of the sheet before, it is that of the
/// sheet after, at the cost of the stations that the edit names and of those joined to them. Answers how many numbers
/// there are. Refuses: 5; the network; 1, 2, 3 of the edit; 15; 7; 6; 3 of a list that does not rise strictly, four
/// numbers a finding; 13.
pub fn recheck(network: &[u8], sheet: &[u8], edit: &[u8], list: &[u16], out: &mut [u16]) -> Result<usize, Error> {
    let reply = unsafe {
        raw::strakewhip_recheck(
            network.as_ptr(),
            network.len(),
            sheet.as_ptr(),
            sheet.len(),
            edit.as_ptr(),
            edit.len(),
            list.as_ptr(),
            list.len(),
            out.as_mut_ptr(),
            out.len(),
        )
    };
    told(reply).map(|reply| reply.length)
}

/// The same for one area, from its sheet, also where the edit names other areas alone. Refuses as [`recheck`] does, 3
/// of the area before 15.
pub fn recheck_area(
    network: &[u8],
    sheet: &[u8],
    edit: &[u8],
    area: u8,
    list: &[u16],
    out: &mut [u16],
) -> Result<usize, Error> {
    let reply = unsafe {
        raw::strakewhip_recheck_area(
            network.as_ptr(),
            network.len(),
            sheet.as_ptr(),
            sheet.len(),
            edit.as_ptr(),
            edit.len(),
            area,
            list.as_ptr(),
            list.len(),
            out.as_mut_ptr(),
            out.len(),
        )
    };
    told(reply).map(|reply| reply.length)
}

/// Reads a timetable's file into a sheet, and answers how many bytes it has. Refuses: 5; the network; 1, 2, 3 of the
/// timetable by place; then 7 and 12, entry by entry.
pub fn read(network: &[u8], timetable: &[u8], sheet: &mut [u8]) -> Result<usize, Error> {
    let reply = unsafe {
        raw::strakewhip_read(
            network.as_ptr(),
            network.len(),
            timetable.as_ptr(),
            timetable.len(),
            sheet.as_mut_ptr(),
            sheet.len(),
        )
    };
    told(reply).map(|reply| reply.length)
}

/// Reads a timetable's file in the earlier form, whose visits have no mark and get 0. Refuses as [`read`] does, with
/// the place in the earlier file.
pub fn read_early(network: &[u8], timetable: &[u8], sheet: &mut [u8]) -> Result<usize, Error> {
    let reply = unsafe {
        raw::strakewhip_read_early(
            network.as_ptr(),
            network.len(),
            timetable.as_ptr(),
            timetable.len(),
            sheet.as_mut_ptr(),
            sheet.len(),
        )
    };
    told(reply).map(|reply| reply.length)
}

/// Writes a sheet as a timetable's file, in the newest form, and answers how many bytes it has. Refuses: 5; the
/// network; 6; 13.
pub fn write(network: &[u8], sheet: &[u8], out: &mut [u8]) -> Result<usize, Error> {
    let reply = unsafe {
        raw::strakewhip_write(network.as_ptr(), network.len(), sheet.as_ptr(), sheet.len(), out.as_mut_ptr(), out.len())
    };
    told(reply).map(|reply| reply.length)
}

/// The expected times of a train from one visit on, four numbers a row: station, expected arrival, expected departure,
/// lateness. Answers how many numbers there are. Refuses: 5; the network; 3 of station, train or arrival; 7, 6, 9, 13.
pub fn project(
    network: &[u8],
    sheet: &[u8],
    station: u8,
    train: u16,
    arrival: u16,
    out: &mut [i32],
) -> Result<usize, Error> {
    let reply = unsafe {
        raw::strakewhip_project(
            network.as_ptr(),
            network.len(),
            sheet.as_ptr(),
            sheet.len(),
            station,
            train,
            arrival,
            out.as_mut_ptr(),
            out.len(),
        )
    };
    told(reply).map(|reply| reply.length)
}

/// The tally, raised by an edit and its answer: edits accepted and refused, visits added and removed. An answer of 5
/// leaves it. Refuses: 5 of a count above 1,000,000; 1, 2, 3 of the edit; 3 of more than 16 removed, or any by a
/// refusal.
pub fn raise(edit: &[u8], refusal: u8, removed: u8, counts: &mut [u32; 4]) -> Result<(), Error> {
    let reply = unsafe { raw::strakewhip_raise(edit.as_ptr(), edit.len(), refusal, removed, counts) };
    told(reply).map(|_| ())
}
