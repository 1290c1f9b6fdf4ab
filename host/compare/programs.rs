//! A player as a program: a run file on its standard input, the listing on its standard output.

use std::io::{self, Read, Write};
use std::process::{Child, ChildStdin, Command, Stdio};
use std::sync::mpsc;
use std::thread;
use std::time::Duration;

/// How long a player may take for one file.
const PATIENCE: Duration = Duration::from_secs(60);
/// More bytes than any listing has.
const MOST: u64 = 1 << 24;

pub struct Played {
    pub listing: Vec<u8>,
    pub status: i32,
}

/// Plays a file that is handed over in pieces of this length. Words behind the program's name are its arguments.
pub fn play(program: &str, file: &[u8], piece: usize) -> Result<Played, String> {
    let fault = |what: &str, error: io::Error| format!("{program}: {what}: {error}");
    let mut words = program.split(' ');
    let mut command = Command::new(words.next().unwrap_or(program));
    command.args(words);
    command.stdin(Stdio::piped()).stdout(Stdio::piped());
    let mut child = command.spawn().map_err(|error| fault("no start", error))?;
    let input = child.stdin.take().expect("a piped input");
    let listing = thread::scope(|scope| {
        scope.spawn(|| feed(input, file, piece));
        read(&mut child)
    });
    let listing = listing.map_err(|error| fault("no listing", error))?;
    let status = child.wait().map_err(|error| fault("no end", error))?;
    let status = status.code().ok_or_else(|| format!("{program}: {status}"))?;
    Ok(Played { listing, status })
}

/// A player may stop reading at a fault, so a closed pipe is no failure.
fn feed(mut input: ChildStdin, file: &[u8], piece: usize) {
    for part in file.chunks(piece) {
        if input.write_all(part).is_err() {
            return;
        }
    }
}

/// All that the player prints. One that is not done in time is stopped.
fn read(child: &mut Child) -> io::Result<Vec<u8>> {
    let output = child.stdout.take().expect("a piped output");
    let (send, receive) = mpsc::channel();
    let reader = thread::spawn(move || {
        let mut listing = Vec::new();
        let result = output.take(MOST).read_to_end(&mut listing).map(|_| listing);
        drop(send.send(result));
    });
    let result = receive.recv_timeout(PATIENCE).unwrap_or_else(|_| {
        child.kill()?;
        child.wait()?;
        Err(io::Error::new(io::ErrorKind::TimedOut, "not done in time"))
    });
    reader.join().expect("a reader that ends");
    result
}
