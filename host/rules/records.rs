//! The records of a run file, as they are written.

use super::family::Family;

pub const START: u16 = 0x10;
pub const ROUND: u16 = 0x11;
pub const PLANTED: u16 = 0x12;
/// Document 02, A6: the listeners struck in a round, and how many listeners there are.
pub const STRIKE: u16 = 0x13;
pub const LISTENERS: u16 = 0x15;
/// A9: the start of a one-round run.
pub const START_ONE: u16 = 0x14;

/// The most bytes that can be planted on a link.
pub const LONGEST: usize = 140;

/// Length, kind, and what follows. Frames begin so too.
pub fn record(kind: u16, rest: &[u8]) -> Vec<u8> {
    let mut bytes = Vec::with_capacity(4 + rest.len());
    bytes.extend((4 + rest.len() as u16).to_le_bytes());
    bytes.extend(kind.to_le_bytes());
    bytes.extend(rest);
    bytes
}

/// The same bytes with a length field that fits them.
pub fn fitted(mut bytes: Vec<u8>) -> Vec<u8> {
    let length = (bytes.len() as u16).to_le_bytes();
    bytes[..2].copy_from_slice(&length);
    bytes
}

pub fn start(family: Family, n: usize, f: usize, positions: &[i32]) -> Vec<u8> {
    let mut rest = vec![n as u8, f as u8];
    rest.extend(positions.iter().flat_map(|v| v.to_le_bytes()));
    record(if family == Family::OneRound { START_ONE } else { START }, &rest)
}

pub fn round(struck: u32) -> Vec<u8> {
    record(ROUND, &struck.to_le_bytes())
}

pub fn planted(from: usize, to: usize, bytes: &[u8]) -> Vec<u8> {
    record(PLANTED, &[&[from as u8, to as u8], bytes].concat())
}

pub fn listeners(count: usize) -> Vec<u8> {
    record(LISTENERS, &[count as u8])
}

/// Bit j for listener 32 + j.
pub fn strike(struck: u16) -> Vec<u8> {
    record(STRIKE, &struck.to_le_bytes())
}
