//! Frames: length, kind, sender, phase, and the rest. The frame check, what a frame says, and how it is written.

use super::midpoint::{is_position, table, Entry};
use super::records::{fitted, record};

pub const POSITION: u16 = 1;
pub const SILENCE: u16 = 2;
pub const LIST: u16 = 3;
pub const CONFESSION: u16 = 4;

#[derive(Clone, PartialEq, Debug)]
pub enum Said {
    Position(i32),
    Silence,
    List(Vec<Entry>),
    Confession,
}

pub fn half(s: &[u8], at: usize) -> u16 {
    u16::from_le_bytes([s[at], s[at + 1]])
}

pub fn word(s: &[u8], at: usize) -> u32 {
    u32::from_le_bytes([s[at], s[at + 1], s[at + 2], s[at + 3]])
}

/// 6, 7, 8; the rest of the frame.
pub fn check(frame: &[u8]) -> Result<&[u8], u8> {
    if frame.len() < 4 || half(frame, 0) as usize != frame.len() {
        return Err(6);
    }
    let right = match half(frame, 2) {
        POSITION => frame.len() == 11,
        SILENCE | CONFESSION => frame.len() == 7,
        LIST => frame.len() >= 8 && frame.len() == 12 + 4 * frame[7] as usize,
        _ => return Err(7),
    };
    if right { Ok(&frame[7..]) } else { Err(8) }
}

/// What a frame says on a link: 6, 7, 8, 22, 9, 23, 10, 11.
pub fn read(frame: &[u8], n: usize, phase: usize, round: usize, link: usize) -> Result<Said, u8> {
    let rest = check(frame)?;
    let kind = half(frame, 2);
    if matches!(kind, POSITION | SILENCE) != (round == 0) {
        return Err(22);
    }
    if frame[4] as usize != link {
        return Err(9);
    }
    if half(frame, 5) as usize != phase {
        return Err(23);
    }
    match kind {
        POSITION => Some(word(rest, 0) as i32).filter(|&v| is_position(v)).map(Said::Position).ok_or(11),
        SILENCE => Ok(Said::Silence),
        LIST if rest[0] as usize != n => Err(10),
        LIST => table(n, word(rest, 1), &rest[5..]).map(Said::List),
        _ => Ok(Said::Confession),
    }
}

pub fn write(said: &Said, sender: usize, phase: usize) -> Vec<u8> {
    let kind = match said {
        Said::Position(_) => POSITION,
        Said::Silence => SILENCE,
        Said::List(_) => LIST,
        Said::Confession => CONFESSION,
    };
    let mut frame = record(kind, &[sender as u8, phase as u8, (phase >> 8) as u8]);
    match said {
        Said::Position(v) => frame.extend(v.to_le_bytes()),
        Said::List(list) => put_list(&mut frame, list),
        _ => {}
    }
    fitted(frame)
}

/// Count, marks, entries.
fn put_list(frame: &mut Vec<u8>, list: &[Entry]) {
    let marks: u32 = (0..list.len()).filter(|&j| list[j].is_some()).map(|j| 1 << j).sum();
    frame.push(list.len() as u8);
    frame.extend(marks.to_le_bytes());
    for entry in list {
        frame.extend(entry.unwrap_or(0).to_le_bytes());
    }
}

/// The entries of a batch, each a link byte and then a frame as long as its own length field. 15.
pub fn cut(mut batch: &[u8]) -> Result<Vec<(usize, &[u8])>, u8> {
    let mut entries = Vec::new();
    while !batch.is_empty() {
        let field = batch.get(1..3).ok_or(15)?;
        let length = field[0] as usize + 256 * field[1] as usize;
        if length < 4 || batch.len() - 1 < length {
            return Err(15);
        }
        entries.push((batch[0] as usize, &batch[1..1 + length]));
        batch = &batch[1 + length..];
    }
    Ok(entries)
}
