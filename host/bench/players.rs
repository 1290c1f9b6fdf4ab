//! The proved player against the reference implementation, as programs on the same run files, and beside the speed of reading and copying these files.

use crate::clock::{black_box, ended, now, watched, Used};
use crate::runs::Run;
use std::fs::{self, File};
use std::io::{self, BufWriter, Read, Write};
use std::process::{Child, Command, Stdio};
use std::thread;

/// So many bytes are read, or copied, at least for one time.
const PASS: usize = 1 << 24;

pub struct Players {
    pub rigplay: String,
    pub plain: String,
    /// A directory for run files and listings.
    pub place: String,
}

/// CPU times in seconds for one file; its length and the proved player's memory in bytes.
pub struct Timed {
    pub bytes: u64,
    pub resident: u64,
    pub rigplay: f64,
    pub plain: f64,
    /// To read the file, and to copy its bytes in memory.
    pub read: f64,
    pub copy: f64,
}

impl Timed {
    pub fn ratio(&self) -> f64 {
        self.rigplay / self.plain
    }

    /// Millions of bytes of the file a second, if it takes so many seconds.
    pub fn speed(&self, seconds: f64) -> f64 {
        self.bytes as f64 * 1e-6 / seconds
    }
}

pub fn failed(what: String) -> io::Error {
    io::Error::new(io::ErrorKind::Other, what)
}

fn spawn(program: &str, input: Stdio, output: Stdio) -> io::Result<Child> {
    let command = Command::new(program).stdin(input).stdout(output).spawn();
    command.map_err(|error| failed(format!("{program}: {error}")))
}

/// CPU seconds for one of as many passes as there are in PASS bytes.
fn each(bytes: usize, mut pass: impl FnMut() -> io::Result<()>) -> io::Result<f64> {
    let times = PASS / bytes + 1;
    let before = now();
    for _ in 0..times {
        pass()?;
    }
    Ok((now() - before) / times as f64)
}

/// The spreads that a listing shows.
fn spreads(listing: &[u8]) -> impl Iterator<Item = &str> {
    let text = std::str::from_utf8(listing).expect("a listing is text");
    text.lines().skip(1).filter_map(|line| line.split(' ').nth(3))
}

impl Players {
    fn path(&self, name: &str) -> String {
        format!("{}/{name}", self.place)
    }

    fn start(&self, program: &str, file: &str, output: Stdio) -> io::Result<Child> {
        spawn(program, File::open(self.path(file))?.into(), output)
    }

    fn seconds(&self, program: &str, file: &str) -> io::Result<f64> {
        Ok(ended(self.start(program, file, Stdio::null())?)?.seconds)
    }

    /// Both players must print the same, and a spread in each phase if the file is to keep one; this also warms up both, and the file. The proved
    /// player's memory is given.
    fn compare(&self, run: &Run, file: &str) -> io::Result<u64> {
        let listing = |program: &str, name: &str| {
            let used = watched(self.start(program, file, File::create(self.path(name))?.into())?)?;
            Ok::<_, io::Error>((fs::read(self.path(name))?, used.resident))
        };
        let (ours, others) = (listing(&self.rigplay, "rigplay.listing")?, listing(&self.plain, "plain.listing")?);
        if ours.0 != others.0 || !ours.0.ends_with(b"\nend\n") {
            return Err(failed(format!("the listings of {file} differ, or it was not played out")));
        }
        if run.keeps_apart() && spreads(&ours.0).any(|spread| spread == "0") {
            return Err(failed(format!("{} does not keep its spread", run.name())));
        }
        Ok(ours.1)
    }

    fn store(&self, run: &Run, file: &str) -> io::Result<u64> {
        let mut out = BufWriter::new(File::create(self.path(file))?);
        let bytes = run.write(&mut out)?;
        out.flush()?;
        Ok(bytes)
    }

    /// The time to read a file in pieces of 64 KB, as `cat` does.
    fn reading(&self, file: &str, bytes: usize) -> io::Result<f64> {
        let mut piece = vec![0; 1 << 16];
        each(bytes, || {
            let mut input = File::open(self.path(file))?;
            while input.read(&mut piece)? > 0 {
                black_box(&piece);
            }
            Ok(())
        })
    }

    /// The least times, taken in turns.
    pub fn time(&self, run: &Run, turns: usize) -> io::Result<Timed> {
        let file = "timed.run";
        let bytes = self.store(run, file)?;
        let resident = self.compare(run, file)?;
        let content = fs::read(self.path(file))?;
        let mut other = content.clone();
        let mut timed = Timed { bytes, resident, rigplay: f64::MAX, plain: f64::MAX, read: f64::MAX, copy: f64::MAX };
        for _ in 0..turns {
            timed.rigplay = timed.rigplay.min(self.seconds(&self.rigplay, file)?);
            timed.plain = timed.plain.min(self.seconds(&self.plain, file)?);
            timed.read = timed.read.min(self.reading(file, content.len())?);
            timed.copy = timed.copy.min(each(content.len(), || {
                black_box(&mut other).copy_from_slice(black_box(&content));
                Ok(())
            })?);
        }
        Ok(timed)
    }

    /// The proved player's time for another run, as a multiple of that for the run, taken in turns.
    pub fn multiple(&self, run: &Run, other: &Run, turns: usize) -> io::Result<f64> {
        self.store(run, "timed.run")?;
        self.store(other, "other.run")?;
        let (mut one, mut two) = (f64::MAX, f64::MAX);
        for _ in 0..turns {
            one = one.min(self.seconds(&self.rigplay, "timed.run")?);
            two = two.min(self.seconds(&self.rigplay, "other.run")?);
        }
        Ok(two / one)
    }

    /// Plays a run that is made as it is read: the file's length and what the proved player used. Its listing must have a line for every phase.
    pub fn stream(&self, run: &Run) -> io::Result<(u64, Used)> {
        let listing = self.path("long.listing");
        let mut child = spawn(&self.rigplay, Stdio::piped(), File::create(&listing)?.into())?;
        let mut input = child.stdin.take().expect("a piped input");
        let (bytes, used) = thread::scope(|scope| {
            let feeding = scope.spawn(move || run.write(&mut input));
            let used = watched(child)?;
            Ok::<_, io::Error>((feeding.join().expect("a writer that ends")?, used))
        })?;
        let text = fs::read_to_string(&listing)?;
        if text.lines().count() != run.phases + 3 || !text.ends_with("\nend\n") {
            return Err(failed("the long file was not played out".to_owned()));
        }
        Ok((bytes, used))
    }
}
