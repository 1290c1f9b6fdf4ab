//! The reference implementation: it reads a run file from standard input and prints its listing, by document 01's rules written once more, plainly. It
//! shares nothing with the proved crates and serves to compare with them. `plain --counts` prints the phases since the last strike of each head
//! and listener instead, as host/c/counts.c does; `plain --shift` reads a script of calls on one head, and prints their lines; `plain --page` reads a
//! run file and prints the host page of its last phase end.

mod shift;

use rules::player;
use std::io::{self, BufReader, BufWriter, Read, Write};

/// A script of calls on one head.
fn shift() -> io::Result<()> {
    let mut script = Vec::new();
    io::stdin().lock().take(shift::MOST).read_to_end(&mut script)?;
    let mut output = BufWriter::new(io::stdout().lock());
    shift::play(&script, &mut output)?;
    output.flush()
}

/// The host page of a run file's last phase end.
fn page() -> io::Result<()> {
    let mut file = Vec::new();
    io::stdin().lock().read_to_end(&mut file)?;
    io::stdout().lock().write_all(player::page(&file)?.as_bytes())
}

fn main() -> io::Result<()> {
    let mode = std::env::args().nth(1);
    match mode.as_deref() {
        Some("--shift") => return shift(),
        Some("--page") => return page(),
        _ => {}
    }
    let input = BufReader::with_capacity(1 << 16, io::stdin().lock());
    let mut output = BufWriter::new(io::stdout().lock());
    match mode.as_deref() {
        Some("--counts") => player::counts(input, &mut output)?,
        _ => player::play(input, &mut output)?,
    }
    output.flush()
}
