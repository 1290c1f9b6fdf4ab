//! Phases since the last strike (document 02, A10), by the words of the paper: from the marks of the rounds played alone.

use generator::ring::LISTENER;
use rules::family::Family;
use rules::frames::{half, word};
use rules::records::{LISTENERS, ROUND, STRIKE};

/// What host/c/counts.c shows of a file of which these records were accepted, and which ended with this number: 0 if it was played to its end. In a file with a fault
/// the last round given was not played.
pub fn shown(family: Family, accepted: &[Vec<u8>], number: u8) -> String {
    let given = marks(accepted);
    let played = if number == 0 { given.len() } else { given.len().saturating_sub(1) };
    let mut counts: Vec<(usize, usize)> = receivers(accepted).map(|i| (since(family, &given[..played], i), i)).collect();
    counts.sort_unstable();
    let lines: String = counts.into_iter().map(|(count, i)| line(i, count)).collect();
    lines + &if number == 0 { "end\n".to_owned() } else { format!("refused {number}\n") }
}

/// The mark word of each round given: heads from bit 0, listeners from bit 32 on.
fn marks(accepted: &[Vec<u8>]) -> Vec<u64> {
    let mut given: Vec<u64> = Vec::new();
    for record in accepted {
        match half(record, 2) {
            ROUND => given.push(word(record, 4) as u64),
            STRIKE => *given.last_mut().expect("a round") |= (half(record, 4) as u64) << LISTENER,
            _ => {}
        }
    }
    given
}

/// The numbers of all heads and listeners.
fn receivers(accepted: &[Vec<u8>]) -> impl Iterator<Item = usize> {
    let heads = accepted.first().map_or(0, |start| start[4] as usize);
    let listeners = accepted.get(1).filter(|record| half(record, 2) == LISTENERS).map_or(0, |record| record[4] as usize);
    (0..heads).chain(LISTENER..LISTENER + listeners)
}

/// How many phases ended whose last round came after the last round that marks i, or of all if none does; at most 255.
fn since(family: Family, played: &[u64], i: usize) -> usize {
    let after = played.iter().rposition(|struck| struck >> i & 1 == 1).map_or(0, |at| at + 1);
    let ended = |rounds: usize| rounds / family.rounds();
    (ended(played.len()) - ended(after)).min(255)
}

fn line(i: usize, count: usize) -> String {
    let name = if i < LISTENER { "head" } else { "listener" };
    let (more, many) = (if count == 255 { " or more" } else { "" }, if count == 1 { "" } else { "s" });
    format!("{name} {i}: {count}{more} phase{many} since its last strike or the start\n")
}
