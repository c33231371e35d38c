//! Files from numbers, and the lines that a program prints. No test uses all of it.

#![allow(dead_code)]

use reference::number;

/// Two stations in two areas with two tracks, headway 3, one either-way line of least run 10 for passenger and freight
/// trains and of capacity 1; the count of closures is to follow.
pub const NETWORK: &[u32] = &[2, 1, 1, 2, 2, 2, 2, 3, 1, 1, 1, 2, 3, 10, 10, 1];
/// The same with one station, at which both ends of the line are; the line begins at byte 6.
pub const LOOSE: &[u32] = &[1, 1, 1, 1, 3, 1, 1, 1, 1, 3, 10, 10, 1];

pub fn file(numbers: &[u32]) -> Vec<u8> {
    let mut bytes = Vec::new();
    for value in numbers {
        number::write(*value, &mut bytes);
    }
    bytes
}

/// Joins parts that are written down apart.
pub fn join(parts: &[&[u32]]) -> Vec<u32> {
    parts.concat()
}

/// The lines that begin with a letter, without it.
pub fn lines<'a>(output: &'a str, letter: &str) -> Vec<&'a str> {
    output.lines().filter_map(|line| line.strip_prefix(letter)).map(str::trim_start).collect()
}
