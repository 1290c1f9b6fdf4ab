//! `focus_play` on run files in memory, beside the reference implementation's player on the same bytes.

use crate::clock::{black_box, now};
use rules::player;
use crate::players::failed;
use crate::runs::{runs, Run, Strikes};
use std::io;

/// How often each side is timed.
const TURNS: usize = 10;
const RECEIVERS: usize = 48;

extern "C" {
    fn focus_play(
        file: *const u8,
        bytes: usize,
        out: *mut u8,
        out_size: usize,
        rows: *mut i32,
        rows_size: usize,
        words: *mut u64,
        words_size: usize,
        since: *mut [u8; RECEIVERS],
        length: *mut usize,
        ends: *mut usize,
    ) -> u8;
}

/// The room that a file's listing, rows and words need.
struct Room {
    out: Vec<u8>,
    rows: Vec<i32>,
    words: Vec<u64>,
}

impl Room {
    /// As the header's macros have it.
    fn of(run: &Run, bytes: usize) -> Room {
        let ends = (bytes / (8 * run.family.rounds()) + 1).min(65_536);
        Room { out: vec![0; 64 * (ends + 2)], rows: vec![0; RECEIVERS * ends], words: vec![0; ends] }
    }

    /// The listing.
    fn play(&mut self, file: &[u8]) -> io::Result<&[u8]> {
        let (mut since, mut length, mut ends) = ([0; RECEIVERS], 0, 0);
        let (out, rows, words) = (&mut self.out, &mut self.rows, &mut self.words);
        let number = unsafe {
            let (listing, row, word) = (out.as_mut_ptr(), rows.as_mut_ptr(), words.as_mut_ptr());
            focus_play(file.as_ptr(), file.len(), listing, out.len(), row, rows.len(), word, words.len(), &mut since, &mut length, &mut ends)
        };
        if number != 0 {
            return Err(failed(format!("focus_play answered {number}")));
        }
        Ok(&self.out[..length])
    }
}

/// CPU seconds for a file.
pub struct Timed {
    pub run: Run,
    pub bytes: usize,
    pub export: f64,
    pub plain: f64,
}

/// The runs that are played in memory.
fn in_memory() -> impl Iterator<Item = Run> {
    runs().into_iter().filter(|run| matches!(run.strikes, Strikes::Quiet | Strikes::Others))
}

/// Both sides in turns, the least of each; their listings must be the same.
fn time(run: Run) -> io::Result<Timed> {
    let mut file = Vec::new();
    run.write(&mut file)?;
    let (mut room, mut listing) = (Room::of(&run, file.len()), Vec::new());
    let mut timed = Timed { run, bytes: file.len(), export: f64::MAX, plain: f64::MAX };
    for _ in 0..TURNS {
        let before = now();
        black_box(room.play(&file)?);
        let between = now();
        listing.clear();
        player::play(&file[..], &mut listing)?;
        timed.plain = timed.plain.min(now() - between);
        timed.export = timed.export.min(between - before);
    }
    if room.play(&file)? != listing {
        return Err(failed(format!("the listings of {} differ", timed.run.name())));
    }
    Ok(timed)
}

/// How many files are played between two looks at the clock, where one takes less than a microsecond.
const STRETCH: usize = 1_000;

/// CPU seconds for the first phase of a run: its file up to there, less its start record alone.
pub fn first_phase(run: Run) -> io::Result<f64> {
    let mut file = Vec::new();
    Run { phases: 1, ..run }.write(&mut file)?;
    let start = u16::from_le_bytes([file[0], file[1]]) as usize;
    let mut room = Room::of(&run, file.len());
    let (mut with, mut without) = (f64::MAX, f64::MAX);
    for _ in 0..TURNS {
        for (time, bytes) in [(&mut with, &file[..]), (&mut without, &file[..start])] {
            let before = now();
            for _ in 0..STRETCH {
                black_box(room.play(black_box(bytes))?);
            }
            *time = time.min((now() - before) / STRETCH as f64);
        }
    }
    Ok(with - without)
}

pub fn rows() -> io::Result<Vec<Timed>> {
    in_memory().map(time).collect()
}
