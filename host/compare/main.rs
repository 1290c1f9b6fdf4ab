//! Compares two players of run files on files made from seeds, and both with a model that knows what must be printed.
//!
//!     compare OURS OTHER FROM COUNT    plays the files of COUNT seeds from FROM by both programs
//!     compare --counts OURS OTHER FROM COUNT    the same of the phases since the last strike that both show
//!     compare --file SEED              writes the run file of a seed to standard output
//!     compare --about SEED             says in a line what that file is
//!
//! The first difference is printed, its file is written to target/host/difference.run, and the exit status is 1.

mod counts;
mod faults;
mod files;
mod listing;
mod phases;
mod programs;

use files::{File, Kind};
use listing::{halving, End, Listing, NUMBERS};
use rules::family::Family::{self, OneRound, TwoRounds};
use rules::frames::half;
use rules::head::MOST_LISTENERS;
use rules::records::START_ONE;
use std::collections::BTreeMap;
use std::io::{self, Write};
use std::process::ExitCode;
use std::thread;

const DIFFERENCE: &str = "target/host/difference.run";

/// What was seen of all files together.
#[derive(Default)]
struct Seen {
    files: u64,
    kinds: BTreeMap<Kind, u64>,
    numbers: BTreeMap<u8, u64>,
    phases: usize,
    unhalved: usize,
    unstruck: usize,
    largest: usize,
    /// Files of one-round rings, and their phases.
    one_round: u64,
    one_round_phases: usize,
    /// Files whose rings have listeners, and how many of these have the most.
    listeners: u64,
    sixteen: u64,
}

impl Seen {
    fn count(&mut self, file: &File, listing: &Listing) {
        self.files += 1;
        *self.kinds.entry(file.kind).or_default() += 1;
        *self.numbers.entry(listing.number).or_default() += 1;
        let phases = listing.ends.len().saturating_sub(1);
        self.phases += phases;
        if file.family == OneRound {
            (self.one_round, self.one_round_phases) = (self.one_round + 1, self.one_round_phases + phases);
        }
        let unhalved = |pair: &&[End]| pair[1].spread() > (pair[0].spread() + 1) / 2;
        self.unhalved += listing.ends.windows(2).filter(unhalved).count();
        self.unstruck += listing::unstruck(&listing.ends).count();
        self.largest = self.largest.max(file.n);
        self.listeners += (file.listeners > 0) as u64;
        self.sixteen += (file.listeners == MOST_LISTENERS) as u64;
    }

    fn print(&self) {
        let kinds: Vec<String> = self.kinds.iter().map(|(kind, count)| format!("{kind:?} {count}")).collect();
        println!("kinds: {}", kinds.join(", "));
        println!("with listeners: {}, with {MOST_LISTENERS} of them: {}", self.listeners, self.sixteen);
        println!("of one-round rings: {}, with {} phases", self.one_round, self.one_round_phases);
        println!("phases in which the spread did not halve, at sizes without that promise: {}", self.unhalved);
        println!("phases without a strike in the last round, after which all stand at one position: {}", self.unstruck);
        let of = |number: &u8| self.numbers.get(number).copied().unwrap_or(0);
        let refused: Vec<String> = NUMBERS.iter().map(|number| format!("{} by {number}", of(number))).collect();
        let (files, phases, largest) = (self.files, self.phases, self.largest);
        println!("{files} files: {} played out; refused {}; {phases} phases; largest n {largest}", of(&0), refused.join(", "));
    }
}

/// The family and the size in the start record, which stands first wherever a line is printed.
fn ring(file: &File) -> (Family, usize, usize) {
    if file.bytes.len() < 6 {
        return (file.family, file.n, file.f);
    }
    let family = if half(&file.bytes, 2) == START_ONE { OneRound } else { TwoRounds };
    (family, file.bytes[4] as usize, file.bytes[5] as usize)
}

/// One listing against what is known of its file.
fn check(file: &File, bytes: &[u8]) -> Result<Listing, String> {
    let known = file.listing.as_bytes();
    let fits = if file.whole { bytes == known } else { bytes.starts_with(known) };
    if !fits {
        return Err(format!("not as the model has it: {}", first_difference(bytes, known)));
    }
    let (family, n, f) = ring(file);
    let listing = listing::read(bytes, family, n, f)?;
    listing::converges(&listing.ends, family, n, f)?;
    listing::settles(&listing.ends)?;
    Ok(listing)
}

fn first_difference(one: &[u8], other: &[u8]) -> String {
    let (mut ours, mut theirs) = (one.split(|&b| b == b'\n'), other.split(|&b| b == b'\n'));
    for line in 1.. {
        let (one, other) = (ours.next(), theirs.next());
        if one != other || one.is_none() {
            let text = |line: Option<&[u8]>| line.map_or("nothing".to_owned(), |line| format!("{:?}", String::from_utf8_lossy(line)));
            return format!("line {line} is {}, against {}", text(one), text(other));
        }
    }
    unreachable!("a listing has a last line");
}

fn compare_file(file: &File, seed: u64, ours: &str, other: &str) -> Result<Listing, String> {
    let piece = if seed % 4 == 0 { 1 + seed as usize / 4 % 61 } else { 1 << 16 };
    let (one, two) = thread::scope(|scope| {
        let two = scope.spawn(|| programs::play(other, &file.bytes, 1 << 16));
        (programs::play(ours, &file.bytes, piece), two.join().expect("a player's thread"))
    });
    let (one, two) = (one?, two?);
    if one.listing != two.listing {
        return Err(format!("{ours} and {other} differ: {}", first_difference(&one.listing, &two.listing)));
    }
    if one.status != two.status {
        return Err(format!("{ours} ends with status {} and {other} with {}", one.status, two.status));
    }
    check(file, &one.listing).map_err(|what| format!("{ours} and {other} agree, but: {what}"))
}

/// The phases since the last strike, as both programs show them. Ours ends with status 1 if the file is refused.
fn compare_counts(file: &File, ours: &str, other: &str) -> Result<(), String> {
    let (one, two) = (programs::play(ours, &file.bytes, 1 << 16)?, programs::play(other, &file.bytes, 1 << 16)?);
    if one.listing != two.listing {
        return Err(format!("{ours} and {other} differ: {}", first_difference(&one.listing, &two.listing)));
    }
    if one.status != !one.listing.ends_with(b"end\n") as i32 {
        return Err(format!("{ours} ends with status {}", one.status));
    }
    match &file.counts {
        Some(known) if known.as_bytes() != one.listing => Err(format!("not as the marks have it: {}", first_difference(&one.listing, known.as_bytes()))),
        _ => Ok(()),
    }
}

fn about(seed: u64, file: &File) -> String {
    let halves = if halving(file.family, file.n, file.f) { "halving" } else { "not halving" };
    let lines = file.listing.lines().count();
    let known = if file.whole { "the listing" } else { "the beginning of the listing" };
    let size = format!("{:?}, n {}, f {} ({halves}), {} listeners, {} bytes", file.family, file.n, file.f, file.listeners, file.bytes.len());
    format!("seed {seed}: {:?}, {size}; {known} is known, {lines} lines", file.kind)
}

/// A difference, with its file kept.
fn difference(seed: u64, file: &File, what: String) -> String {
    let kept = std::fs::write(DIFFERENCE, &file.bytes).map_or_else(|error| error.to_string(), |()| "written".to_owned());
    format!("{}\n{what}\n{DIFFERENCE}: {kept}", about(seed, file))
}

fn compare(ours: &str, other: &str, from: u64, count: u64) -> Result<Seen, String> {
    let mut seen = Seen::default();
    for seed in from..from + count {
        let file = files::file(seed);
        let listing = compare_file(&file, seed, ours, other).map_err(|what| difference(seed, &file, what))?;
        seen.count(&file, &listing);
    }
    Ok(seen)
}

fn all_counts(ours: &str, other: &str, from: u64, count: u64) -> Result<(), String> {
    let mut known = 0;
    for seed in from..from + count {
        let file = files::file(seed);
        compare_counts(&file, ours, other).map_err(|what| difference(seed, &file, what))?;
        known += file.counts.is_some() as u64;
    }
    println!("the counts of {count} files, {known} of them by their marks too");
    Ok(())
}

fn main() -> ExitCode {
    let words: Vec<String> = std::env::args().skip(1).collect();
    let words: Vec<&str> = words.iter().map(String::as_str).collect();
    let number = |word: &str| word.parse::<u64>().expect("a number");
    let done = match words[..] {
        ["--file", seed] => io::stdout().write_all(&files::file(number(seed)).bytes).map_err(|error| error.to_string()),
        ["--about", seed] => {
            println!("{}", about(number(seed), &files::file(number(seed))));
            Ok(())
        }
        ["--counts", ours, other, from, count] => all_counts(ours, other, number(from), number(count)),
        [ours, other, from, count] => compare(ours, other, number(from), number(count)).map(|seen| seen.print()),
        _ => Err("compare [--counts] OURS OTHER FROM COUNT, compare --file SEED, or compare --about SEED".to_owned()),
    };
    match done {
        Ok(()) => ExitCode::SUCCESS,
        Err(what) => {
            println!("{what}");
            ExitCode::FAILURE
        }
    }
}
