//! Numbers in files, and the refusals that reading a file brings.

use std::ops::RangeInclusive;

/// "A file refusal carries the faulty number's first byte, counted from 0."
#[derive(Clone, Copy, Debug, PartialEq, Eq)]
pub struct FileRefusal {
    pub number: u32,
    pub place: usize,
}

/// "1 it ends early or goes on".
pub const LENGTH: u32 = 1;
/// "2 a number isn't shortest or its third byte has the top bit set".
pub const SPELLING: u32 = 2;
/// "3 a value or order is outside the ranges (edits too)".
pub const RANGE: u32 = 3;
/// "4 a line's ends aren't two different listed stations"; W1: "a closure of an unlisted line is refused with 4".
pub const ENDS: u32 = 4;
/// "5 a wrong buffer length".
pub const SIZE: u32 = 5;
/// W1: "It refuses, with 14, a closure (at its first byte) whose end isn't after its start".
pub const WINDOW: u32 = 14;

/// The most bytes that a number has: a third one with the top bit set is refused.
const GROUPS: usize = 3;

/// Writes a number: "groups of seven bits, lowest first, top bit set on all but the last".
pub fn write(number: u32, file: &mut Vec<u8>) {
    let group = (number % 128) as u8;
    let rest = number / 128;
    if rest == 0 {
        file.push(group);
    } else {
        file.push(group + 0x80);
        write(rest, file);
    }
}

/// A number as it stands in a file.
#[derive(Clone, Copy, Debug, PartialEq, Eq)]
pub struct Number {
    pub value: u32,
    /// Its first byte.
    pub place: usize,
}

impl Number {
    pub fn refused(self, number: u32) -> FileRefusal {
        FileRefusal { number, place: self.place }
    }
}

/// Reads a file number by number, so that "the first faulty number by place" is the one that is met first.
pub struct Reader<'a> {
    file: &'a [u8],
    place: usize,
}

impl<'a> Reader<'a> {
    pub fn new(file: &'a [u8]) -> Self {
        Reader { file, place: 0 }
    }

    /// The byte at which the next number begins.
    pub fn place(&self) -> usize {
        self.place
    }

    /// The next number, of any value: "its first group plus 128 times the number in the rest".
    pub fn any(&mut self) -> Result<Number, FileRefusal> {
        let place = self.place;
        let mut value = 0;
        let mut weight = 1;
        for length in 1..=GROUPS {
            // "1: where it ends".
            let Some(&byte) = self.file.get(self.place) else {
                return Err(FileRefusal { number: LENGTH, place: self.file.len() });
            };
            self.place += 1;
            value += weight * u32::from(byte % 0x80);
            weight *= 128;
            if byte < 0x80 {
                let shortest = byte != 0 || length == 1;
                return if shortest { Ok(Number { value, place }) } else { Err(FileRefusal { number: SPELLING, place }) };
            }
        }
        Err(FileRefusal { number: SPELLING, place })
    }

    /// The next number, which has to lie within a range.
    pub fn within(&mut self, range: RangeInclusive<u32>) -> Result<Number, FileRefusal> {
        let number = self.any()?;
        if range.contains(&number.value) {
            Ok(number)
        } else {
            Err(number.refused(RANGE))
        }
    }

    /// "1 it ends early or goes on": here the file has to end.
    pub fn end(&self) -> Result<(), FileRefusal> {
        if self.place == self.file.len() {
            Ok(())
        } else {
            Err(FileRefusal { number: LENGTH, place: self.place })
        }
    }
}

/// The order of entries, compared number by number with the entry before.
///
/// "In an entry out of order the faulty number is the first that falls below the entry before; in an equal one, the last
/// number compared."
#[derive(Default)]
pub struct Rising {
    before: Option<Vec<u32>>,
    now: Vec<u32>,
}

impl Rising {
    /// One more number of the key, which is not its last.
    pub fn compare(&mut self, number: Number) -> Result<(), FileRefusal> {
        self.step(number, false)
    }

    /// The last number of the key; the next one begins a new entry.
    pub fn compare_last(&mut self, number: Number) -> Result<(), FileRefusal> {
        self.step(number, true)?;
        self.before = Some(std::mem::take(&mut self.now));
        Ok(())
    }

    fn step(&mut self, number: Number, last: bool) -> Result<(), FileRefusal> {
        let at = self.now.len();
        if let Some(before) = &self.before {
            if before.len() > at && before[..at] == self.now[..] {
                let falls = number.value < before[at];
                let equal = number.value == before[at] && last;
                if falls || equal {
                    return Err(number.refused(RANGE));
                }
            }
        }
        self.now.push(number.value);
        Ok(())
    }
}

#[cfg(test)]
mod tests {
    use super::*;

    fn read(file: &[u8]) -> Result<u32, (u32, usize)> {
        Reader::new(file).any().map(|n| n.value).map_err(|r| (r.number, r.place))
    }

    #[test]
    fn examples_a_and_b() {
        let mut file = Vec::new();
        write(300, &mut file);
        assert_eq!(file, [0xAC, 0x02]);
        assert_eq!(read(&[0xAC, 0x02]), Ok(300));
        assert_eq!(read(&[0x80, 0x00]), Err((2, 0)));
    }

    #[test]
    fn spelling() {
        assert_eq!(read(&[0x00]), Ok(0));
        assert_eq!(read(&[0x7F]), Ok(127));
        assert_eq!(read(&[0x80, 0x01]), Ok(128));
        assert_eq!(read(&[0x80, 0x80, 0x01]), Ok(16_384));
        assert_eq!(read(&[0xFF, 0xFF, 0x7F]), Ok(2_097_151));
        assert_eq!(read(&[0x80, 0x80, 0x00]), Err((2, 0)));
        assert_eq!(read(&[0x80, 0x80, 0x80]), Err((2, 0)));
        assert_eq!(read(&[0x80, 0x80, 0x80, 0x01]), Err((2, 0)));
    }

    #[test]
    fn ends_early() {
        assert_eq!(read(&[]), Err((1, 0)));
        assert_eq!(read(&[0x80]), Err((1, 1)));
        assert_eq!(read(&[0x80, 0x80]), Err((1, 2)));
    }

    #[test]
    fn written_numbers_are_read() {
        for number in (0..2_097_152).step_by(37).chain([127, 128, 16_383, 16_384, 2_097_151]) {
            let mut file = Vec::new();
            write(number, &mut file);
            assert_eq!(read(&file), Ok(number));
        }
    }

    #[test]
    fn orders() {
        let number = |value, place| Number { value, place };
        let mut rising = Rising::default();
        rising.compare(number(4, 0)).unwrap();
        rising.compare_last(number(9, 1)).unwrap();
        // A higher first number leaves the second one free.
        rising.compare(number(5, 2)).unwrap();
        rising.compare_last(number(3, 3)).unwrap();
        // An equal entry: the last number compared.
        rising.compare(number(5, 4)).unwrap();
        assert_eq!(rising.compare_last(number(3, 5)), Err(FileRefusal { number: 3, place: 5 }));

        let mut rising = Rising::default();
        rising.compare(number(4, 0)).unwrap();
        rising.compare_last(number(9, 1)).unwrap();
        assert_eq!(rising.compare(number(3, 2)), Err(FileRefusal { number: 3, place: 2 }));
    }
}
