//! One head's shift: a script of calls, a line for each call. crates/headplay/src/main.rt says what a script and a line are.

use rules::family::Family;
use rules::head::Head;
use rules::midpoint::Kept;
use rules::window::Device;
use std::io::{self, Write};

/// The longest script.
pub const MOST: u64 = 65_536;

/// Bytes from a place on, little-endian; one that is missing is 0.
fn field(bytes: &[u8], at: usize, count: usize) -> usize {
    (0..count).rev().fold(0, |sum, k| sum << 8 | *bytes.get(at + k).unwrap_or(&0) as usize)
}

/// Argument k of a record.
fn word(record: &[u8], k: usize) -> usize {
    field(record, 3 + 4 * k, 4)
}

fn kept(kept: Kept) -> String {
    format!(" {} {} {} {}", kept.low, kept.high, kept.trim, kept.position)
}

fn hexadecimal(bytes: &[u8]) -> String {
    bytes.iter().map(|byte| format!(" {byte:02x}")).collect()
}

/// Phase and round.
fn time(device: &Device) -> (usize, usize) {
    let bytes = device.bytes();
    (field(&bytes, 4, 2), (bytes[3] >> 2 & 1) as usize)
}

/// The call of a record: its name, and what it gives.
fn turn(device: &mut Device, record: &[u8]) -> (&'static str, Result<String, u8>) {
    let [n, f, number, fourth, fifth] = [0, 1, 2, 3, 4].map(|k| word(record, k));
    let family = if field(record, 23, 1) == 0 { Family::TwoRounds } else { Family::OneRound };
    let nothing = |()| String::new();
    match record[2] {
        0 => ("start", device.start(family, n, f, number, fourth as u32 as i32).map(nothing)),
        1 => ("restart", device.restart(family, n, f, number, fourth, fifth).map(nothing)),
        2 => ("start_listener", device.start_listener(family, n, f, number).map(nothing)),
        3 => ("restart_listener", device.restart_listener(family, n, f, number, fourth, fifth).map(nothing)),
        4 => ("hear", device.hear(n, record.get(7..).unwrap_or(&[])).map(nothing)),
        5 => {
            let mut answers = vec![0; field(record, 3, 1)];
            let count = device.hear_batch(record.get(4..).unwrap_or(&[]), &mut answers);
            ("hear_batch", count.map(|count| hexadecimal(&answers[..count])))
        }
        6 => {
            let mut buffer = vec![0; field(record, 3, 1)];
            let length = device.head.write(&mut buffer);
            ("write", length.map(|length| hexadecimal(&buffer[..length])))
        }
        7 => {
            let ends = device.head.family == Family::OneRound || time(device).1 == 1;
            let offered = |device: &Device| device.offer.map_or(String::new(), kept);
            ("close", device.close().map(|()| if ends { offered(device) } else { " listed".to_owned() }))
        }
        8 => ("adopt", device.adopt().map(nothing)),
        _ => ("look", Ok(String::new())),
    }
}

/// Plays a script.
pub fn play(script: &[u8], output: &mut impl Write) -> io::Result<()> {
    let head = Head::start(Family::TwoRounds, 1, 0, 0, 0).expect("a ring of one");
    let mut device = Device { head, events: 0, mask: 0, offer: None };
    let mut rest = script;
    while !rest.is_empty() {
        let size = field(rest, 0, 2);
        if size < 3 || rest.len() < size {
            return writeln!(output, "cut");
        }
        let (name, given) = turn(&mut device, &rest[..size]);
        let (gave, number) = given.map_or_else(|number| (String::new(), number), |gave| (gave, 0));
        let (phase, round) = time(&device);
        let position = device.head.position.map_or("none".to_owned(), |v| v.to_string());
        let offer = device.offer.map_or(" none".to_owned(), kept);
        writeln!(output, "{name}{gave}: {number} {phase} {round} {position}{offer}")?;
        rest = &rest[size..];
    }
    writeln!(output, "end")
}
