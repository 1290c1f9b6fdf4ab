//! Scripts of calls on one head, as crates/headplay reads them: the sequence of a seed, written down.

use crate::calls::Call;
use generator::random::Random;
use crate::rounds;
use rules::family::Family;
use rules::head::Head;
use rules::window::Device;

/// A number of no call: the script only looks.
const LOOK: u8 = 255;

/// A record: its length, the call, the numbers and then the bytes.
fn record(call: u8, numbers: &[u32], bytes: &[u8]) -> Vec<u8> {
    let numbers: Vec<u8> = numbers.iter().flat_map(|number| number.to_le_bytes()).collect();
    let length = (3 + numbers.len() + bytes.len()) as u16;
    [&length.to_le_bytes()[..], &[call], &numbers, bytes].concat()
}

/// The byte behind the five numbers that says the family; it may be missing.
fn of(family: Family) -> Vec<u8> {
    if family == Family::OneRound { vec![1] } else { Vec::new() }
}

fn written(call: &Call) -> Vec<u8> {
    match call {
        Call::Start { family, n, f, number, position } => record(0, &[*n, *f, *number, *position as u32, 0], &of(*family)),
        Call::Restart { family, n, f, number, phase, round } => record(1, &[*n, *f, *number, *phase, *round], &of(*family)),
        Call::StartListener { family, n, f, number } => record(2, &[*n, *f, *number, 0, 0], &of(*family)),
        Call::RestartListener { family, n, f, number, phase, round } => record(3, &[*n, *f, *number, *phase, *round], &of(*family)),
        Call::Hear { link, frame } => record(4, &[*link], &frame.0),
        Call::HearBatch { batch, room, .. } => record(5, &[], &[&[*room as u8], &batch.0[..]].concat()),
        Call::Write { room, .. } => record(6, &[], &[*room as u8]),
        Call::Close => record(7, &[], &[]),
        Call::Adopt => record(8, &[], &[]),
        Call::Position { .. } => record(LOOK, &[], &[]),
        _ => Vec::new(), // no call of a script
    }
}

/// The script of a seed; in one case of eight some bytes are cut from its end.
pub fn script(seed: u64) -> Result<Vec<u8>, String> {
    let mut random = Random::new(seed);
    let mut script = Vec::new();
    let head = Head::start(Family::TwoRounds, 1, 0, 0, 0).map_err(|number| format!("refused {number}"))?;
    let mut device = Device { head, events: 0, mask: 0, offer: None };
    rounds::sequence(&mut random, true, &mut |call| {
        script.extend(written(&call));
        Ok(call.plain(&mut device).number)
    })?;
    let spared = if random.chance(1, 8) { random.below(script.len()) } else { script.len() };
    script.truncate(spared);
    Ok(script)
}
