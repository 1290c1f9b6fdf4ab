//! From a seed to a run file, with what is known of its listing.

use crate::counts;
use crate::faults::{damaged, Faulty, Right};
use crate::phases::{edge, liars, quiet, stubborn, twofold, TWOFOLD};
use generator::random::Random;
use rules::family::Family::{self, OneRound, TwoRounds};
use rules::frames::half;
use rules::head::{LAST_PHASE, MOST_LISTENERS};
use rules::midpoint::LIMIT;
use rules::records;
use generator::run::Run;

pub const TITLE: &str = "phase low high spread collect confess\n";

#[derive(Clone, Copy, PartialEq, Eq, PartialOrd, Ord, Debug)]
pub enum Kind {
    Quiet,
    Liars,
    Edge,
    Twofold,
    Stubborn,
    Mixed,
    StartFault,
    RoundFault,
    PlantedFault,
    ListenersFault,
    StrikeFault,
    FormFault,
    EndingFault,
    Damaged,
    Long,
}
use Kind::*;

/// How often each kind comes; every 500th file is a long one.
const SHARES: [(Kind, usize); 14] = [
    (Quiet, 3),
    (Liars, 16),
    (Edge, 17),
    (Twofold, 4),
    (Stubborn, 7),
    (Mixed, 8),
    (StartFault, 8),
    (RoundFault, 5),
    (PlantedFault, 9),
    (ListenersFault, 6),
    (StrikeFault, 7),
    (FormFault, 6),
    (EndingFault, 5),
    (Damaged, 13),
];

pub struct File {
    pub kind: Kind,
    pub family: Family,
    pub n: usize,
    pub f: usize,
    pub listeners: usize,
    pub bytes: Vec<u8>,
    /// The listing, or how it begins.
    pub listing: String,
    pub whole: bool,
    /// The phases since the last strike, if all of the listing is known.
    pub counts: Option<String>,
}

pub fn file(seed: u64) -> File {
    let mut random = Random::new(seed);
    if seed % 500 == 499 {
        return long(&mut random, seed / 500);
    }
    let shares = SHARES.iter().flat_map(|&(kind, share)| vec![kind; share]);
    let kind = random.pick(&shares.collect::<Vec<_>>());
    // a third of the files; what is twofold needs lists
    let family = if kind != Twofold && random.chance(1, 3) { OneRound } else { TwoRounds };
    let run = run(&mut random, family, kind);
    let right = Right { family, n: run.ring.n, f: run.ring.f, listeners: run.ring.listeners.len(), records: run.records() };
    let faulty = match kind {
        StartFault => right.start_fault(&mut random),
        RoundFault => right.round_fault(&mut random),
        PlantedFault => right.planted_fault(&mut random),
        ListenersFault => right.listeners_fault(&mut random),
        StrikeFault => right.strike_fault(&mut random),
        FormFault => right.form_fault(&mut random),
        EndingFault => right.ending_fault(&mut random),
        Damaged => return begun(kind, &run, damaged(&mut random, right.records)),
        _ => return played_out(kind, &run),
    };
    refused(kind, &run, faulty)
}

fn played_out(kind: Kind, run: &Run) -> File {
    let listing = [TITLE, &run.ring.lines.concat(), "end\n"].concat();
    let counts = counts::shown(family(run), &run.records(), 0);
    File { counts: Some(counts), ..made(kind, run, run.records().concat(), listing, true) }
}

fn refused(kind: Kind, run: &Run, faulty: Faulty) -> File {
    let accepted = &faulty.records[..faulty.sound];
    let listing = format!("{}refused {}\n", standing(run, accepted), faulty.number);
    let counts = counts::shown(family(run), accepted, faulty.number);
    File { counts: Some(counts), ..made(kind, run, faulty.records.concat(), listing, true) }
}

/// A file whose listing is known as far as its bytes are those of the run.
fn begun(kind: Kind, run: &Run, bytes: Vec<u8>) -> File {
    let records = run.records();
    let same = bytes.iter().zip(records.iter().flatten()).take_while(|(one, other)| one == other).count();
    let mut end = 0;
    let whole = |record: &&Vec<u8>| {
        end += record.len();
        end <= same
    };
    let accepted = records.iter().take_while(whole).count();
    let listing = standing(run, &records[..accepted]);
    made(kind, run, bytes, listing, false)
}

fn family(run: &Run) -> Family {
    if run.ring.one_round { OneRound } else { TwoRounds }
}

fn made(kind: Kind, run: &Run, bytes: Vec<u8>, listing: String, whole: bool) -> File {
    File { kind, family: family(run), n: run.ring.n, f: run.ring.f, listeners: run.ring.listeners.len(), bytes, listing, whole, counts: None }
}

/// The lines that stand when these records were accepted: the last round given is not played yet.
fn standing(run: &Run, accepted: &[Vec<u8>]) -> String {
    let rounds = accepted.iter().filter(|record| half(record, 2) == records::ROUND).count();
    let ends = if accepted.is_empty() { 0 } else { 1 + rounds.saturating_sub(1) / run.ring.phase_rounds() };
    TITLE.to_owned() + &run.ring.lines[..ends].concat()
}

/// The right run from which a file of this kind is made.
fn run(random: &mut Random, family: Family, kind: Kind) -> Run {
    let (n, f) = size(random, family, kind);
    let mut run = Run::new(family, f, &positions(random, n, kind), listeners(random));
    run.zeros = random.chance(1, 4);
    for _ in 0..phases(random, n, kind) {
        match (kind, random.below(8)) {
            (Quiet, _) => quiet(random, &mut run),
            (Liars, _) => liars(random, &mut run),
            (Edge, _) => edge(random, &mut run),
            (Twofold, _) => twofold(random, &mut run),
            (Stubborn, _) => {
                stubborn(random, &mut run);
                let (low, high) = run.ring.range();
                assert!(family == OneRound || (n, f) != (8, 2) || high - low == 2, "document 01's case: spread 2 stays 2");
            }
            (_, 0) => quiet(random, &mut run),
            (_, 1 | 2) if f > 0 => edge(random, &mut run),
            (_, 3) => stubborn(random, &mut run),
            _ => liars(random, &mut run),
        }
    }
    run
}

/// How many phases; now and then more than a byte can count.
fn phases(random: &mut Random, n: usize, kind: Kind) -> usize {
    match kind {
        Stubborn if matches!(n, 5 | 8) && random.chance(1, 8) => 250 + random.below(20),
        Stubborn | Twofold => 1 + random.below(4),
        StartFault | RoundFault | PlantedFault | ListenersFault | StrikeFault | FormFault | EndingFault | Damaged => random.below(5),
        _ if n <= 12 => random.below(13),
        _ => random.below(60 / n + 1),
    }
}

fn size(random: &mut Random, family: Family, kind: Kind) -> (usize, usize) {
    let known: &[(usize, usize)] = match family {
        TwoRounds => &[(5, 1), (8, 2), (9, 2), (12, 3), (22, 6), (23, 6), (32, 8)],
        OneRound => &[(4, 0), (5, 1), (8, 1), (9, 2), (12, 2), (13, 3), (29, 7), (32, 7)],
    };
    let needs_struck = matches!(kind, Edge | PlantedFault);
    let fits = |&(_, f): &(usize, usize)| f > 0 || !needs_struck;
    match random.below(4) {
        _ if kind == Twofold => random.pick(&TWOFOLD),
        0 | 1 => random.pick(&known.iter().copied().filter(fits).collect::<Vec<_>>()),
        2 if kind == Stubborn && family == TwoRounds => (8, 2),
        _ => loop {
            let n = 1 + random.below(32);
            let f = random.below(family.highest_limit(n) + 1);
            if fits(&(n, f)) {
                break (n, f);
            }
        },
    }
}

/// Half of the rings have listeners.
fn listeners(random: &mut Random) -> usize {
    match random.below(10) {
        0..=4 => 0,
        5 => 1,
        6 => MOST_LISTENERS,
        _ => 1 + random.below(MOST_LISTENERS),
    }
}

fn positions(random: &mut Random, n: usize, kind: Kind) -> Vec<i32> {
    let base = random.between(-LIMIT, LIMIT - 40);
    let style = if kind == Stubborn { 0 } else { random.below(8) };
    let position = |i: usize| match style {
        0 => base + 2 * (i as i32 % 2),
        1 => base,
        2 => random.pick(&[-LIMIT, LIMIT]),
        3 => random.pick(&[-LIMIT, 1 - LIMIT, -1, 0, 1, LIMIT - 1, LIMIT]),
        4 => random.between(-9, 2),
        5 => base + i as i32,
        6 => 10 * (1 + i as i32),
        _ => random.between(-LIMIT, LIMIT),
    };
    (0..n).map(position).collect()
}

/// All 65,535 phases, the last ones with strikes; then nothing, or a round record too many. Every other one is of a one-round ring.
fn long(random: &mut Random, turn: u64) -> File {
    let family = if turn % 2 == 1 { OneRound } else { TwoRounds };
    let (n, f) = if turn % 5 == 2 { (5, 1) } else { random.pick(&[(1, 0), (3, 0)]) };
    let mut run = Run::new(family, f, &positions(random, n, Long), if turn % 5 == 2 { 2 } else { random.below(2) });
    while run.ring.phase() <= LAST_PHASE {
        if f > 0 && (run.ring.phase() + 8 > LAST_PHASE || random.chance(1, 4096)) {
            stubborn(random, &mut run);
        } else {
            quiet(random, &mut run);
        }
    }
    let (more, number) = match turn % 5 {
        0 => (records::round(0), 26),
        1 => (records::round(f as u32), 26),
        2 => return played_out(Long, &run),
        3 => (records::round(u32::MAX), 14),
        _ => (records::round(0)[..7].to_vec(), 13),
    };
    let mut records = run.records();
    let sound = records.len();
    records.push(more);
    refused(Long, &run, Faulty { records, sound, number })
}
