//! What a call is refused with.

use crate::raw::Reply;
use std::fmt;

/// The refusals of documents 01 and 02, by their numbers.
#[derive(Clone, Copy, Debug, PartialEq, Eq, PartialOrd, Ord, Hash)]
#[repr(u8)]
pub enum Refusal {
    /// 1: a file ends early or goes on.
    FileLength = 1,
    /// 2: a number isn't shortest, or its third byte has the top bit set.
    NumberSpelling = 2,
    /// 3: a value or an order is outside the ranges.
    OutOfRange = 3,
    /// 4: a line's ends aren't two different listed stations, or a closure's line isn't listed.
    LineEnds = 4,
    /// 5: a wrong buffer length, or a tally field above 1,000,000.
    BufferLength = 5,
    /// 6: a sheet that the call reads isn't good.
    BadSheet = 6,
    /// 7: station, track or line unknown, or the line doesn't run that way.
    Unknown = 7,
    /// 8: visit or relation there already.
    ThereAlready = 8,
    /// 9: visit or relation missing.
    Missing = 9,
    /// 10: a link stands otherwise than the edit needs.
    Linked = 10,
    /// 11: an amendment alters an occurred time, or the track after an occurred arrival.
    Occurred = 11,
    /// 12: a station limit is reached.
    LimitReached = 12,
    /// 13: the output is too short.
    OutputTooShort = 13,
    /// 14: a closure's end is not after its start.
    ClosureEnd = 14,
    /// 15: a report is from the future: its time is later than the minute that it carries.
    Future = 15,
}

impl Refusal {
    const ALL: [Refusal; 15] = [
        Refusal::FileLength,
        Refusal::NumberSpelling,
        Refusal::OutOfRange,
        Refusal::LineEnds,
        Refusal::BufferLength,
        Refusal::BadSheet,
        Refusal::Unknown,
        Refusal::ThereAlready,
        Refusal::Missing,
        Refusal::Linked,
        Refusal::Occurred,
        Refusal::LimitReached,
        Refusal::OutputTooShort,
        Refusal::ClosureEnd,
        Refusal::Future,
    ];

    /// The documents' number.
    pub fn number(self) -> u8 {
        self as u8
    }

    /// The refusal of a number from 1 to 15.
    pub fn from_number(number: u8) -> Option<Refusal> {
        Refusal::ALL.into_iter().find(|refusal| refusal.number() == number)
    }
}

impl fmt::Display for Refusal {
    fn fmt(&self, f: &mut fmt::Formatter) -> fmt::Result {
        f.write_str(match self {
            Refusal::FileLength => "the file ends early or goes on",
            Refusal::NumberSpelling => "a number isn't shortest, or its third byte has the top bit set",
            Refusal::OutOfRange => "a value or an order is outside the ranges",
            Refusal::LineEnds => "a line's ends aren't two different listed stations, or a closure's line isn't listed",
            Refusal::BufferLength => "a wrong buffer length, or a tally field above 1,000,000",
            Refusal::BadSheet => "a sheet isn't good",
            Refusal::Unknown => "station, track or line unknown, or the line doesn't run that way",
            Refusal::ThereAlready => "visit or relation there already",
            Refusal::Missing => "visit or relation missing",
            Refusal::Linked => "a link stands otherwise than the edit needs",
            Refusal::Occurred => "an amendment alters an occurred time, or the track after an occurred arrival",
            Refusal::LimitReached => "a station limit is reached",
            Refusal::OutputTooShort => "the output is too short",
            Refusal::ClosureEnd => "a closure's end is not after its start",
            Refusal::Future => "the report is from the future: its time is later than the minute that it carries",
        })
    }
}

/// Which of the lent files is refused.
#[derive(Clone, Copy, Debug, PartialEq, Eq, Hash)]
pub enum File {
    /// The network, of the newest form or the one that is turned.
    Network,
    /// The edit, the edits or the timetable.
    Other,
}

/// A refused call. It has left every lent element as it was.
#[derive(Clone, Copy, Debug, PartialEq, Eq, Hash)]
pub struct Error {
    pub refusal: Refusal,
    /// The refused file and the place in it, counted from 0; none where no file is refused.
    pub place: Option<(File, usize)>,
    /// With [`Refusal::OutputTooShort`], how many elements are needed; else 0.
    pub needed: usize,
}

impl Error {
    /// None for a reply that is no refusal.
    pub(crate) fn of(reply: Reply) -> Option<Error> {
        if reply.refusal == 0 {
            return None;
        }
        let refusal = Refusal::from_number(reply.refusal).expect("the library answers 0 to 15");
        let place = match reply.file {
            0 => None,
            1 => Some((File::Network, reply.place)),
            _ => Some((File::Other, reply.place)),
        };
        Some(Error { refusal, place, needed: reply.length })
    }
}

impl fmt::Display for Error {
    fn fmt(&self, f: &mut fmt::Formatter) -> fmt::Result {
        write!(f, "refusal {}: {}", self.refusal.number(), self.refusal)?;
        match self.place {
            None => {}
            Some((File::Network, place)) => write!(f, " (the network, byte {place})")?,
            Some((File::Other, place)) => write!(f, " (byte {place})")?,
        }
        if self.refusal == Refusal::OutputTooShort {
            write!(f, " ({} are needed)", self.needed)?;
        }
        Ok(())
    }
}

impl std::error::Error for Error {}
