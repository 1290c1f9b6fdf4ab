//! Compares the proved C exports with the reference implementation of documents 01 and 02 (host/plain) on calls made from seeds: the camera's calls, and
//! whole sequences of calls on a head's block against a head of that implementation.
//!
//!     exports COUNT [SEED]    at least COUNT calls, from the seed on
//!     exports --script SEED   the calls of the seed on a head, written as a script for crates/headplay
//!
//! Return numbers and lent memory must be the same, and a refused call must leave every byte of the block, but for the event of refusal 25; after each
//! call all sixteen bytes of the head's window, its interrupt line and its count of phase ends must be the same. The first difference prints its
//! seed, its call and both answers, and the exit status is 1; `exports 1 SEED` makes the calls of that seed again. From ENOUGH calls on, an answer
//! that no call gave is a failure too.

mod calls;
mod damage;
mod inputs;
mod rounds;
mod script;
mod tally;

use calls::Call;
use exported::{Block, BESIDE, OFFERED, SINCE, SIZE};
use generator::random::Random;
use rules::head::Head;
use rules::window::Device;
use std::io::Write;
use std::panic::{catch_unwind, AssertUnwindSafe};
use std::process::ExitCode;
use tally::{Tally, CALLS};

/// So many calls are known to meet every answer.
const ENOUGH: u64 = 100_000;
/// How often each of the camera's calls is made for a seed.
const EACH: usize = 24;

/// A block between two others that no call may touch, and the reference implementation's head.
struct Pair {
    blocks: [Block; 3],
    device: Device,
    /// Whether the block's record is known: it is zeros, or was started.
    known: bool,
    calls: u64,
}

impl Pair {
    fn new(random: &mut Random, zeros: bool) -> Pair {
        let guard = Block([0xa5; SIZE]);
        let mut block = Block([0; SIZE]);
        if !zeros {
            block.0.copy_from_slice(&random.bytes(SIZE));
            block.0[OFFERED].fill(0); // what was offered before a start is nobody's
        }
        // what stands beside a head that was never started, and its count, are whatever is read there
        let mut window = [0; 16];
        block.window(&mut window);
        let mut head = Head::none();
        head.since = block.since();
        let device = Device { head, events: window[10], mask: window[11], offer: None };
        Pair { blocks: [guard, block, guard], device, known: zeros, calls: 0 }
    }

    /// Whether both sides show the same window, line, count and offer; of a block that was never started the events and all behind them.
    fn alike(&mut self) -> bool {
        let mut window = [0; 16];
        self.blocks[1].window(&mut window);
        let from = if self.known { 0 } else { 10 };
        let block = &mut self.blocks[1];
        let mut offered = [0; 4];
        let stands = block.offer(&mut offered) == 1;
        if (stands, offered) != (self.device.offer.is_some(), self.device.offer.map_or([0; 4], calls::four)) {
            return false;
        }
        window[from..] == self.device.bytes()[from..] && block.interrupt() == self.device.is_up() as u8 && block.since() == self.device.head.since
    }

    /// Puts both counts where they are about to rest; only the low byte of the block's is looked at.
    fn age(&mut self) {
        let count = 252 + (self.calls / 4 % 4) as u8;
        self.blocks[1].0[SINCE].copy_from_slice(&[count, self.calls as u8, 0, 1]);
        self.device.head.since = count;
    }

    fn ask(&mut self, tally: &mut Tally, call: &Call) -> Result<u8, String> {
        self.calls += 1;
        if matches!(call, Call::Adopt) && self.calls % 4 == 0 {
            self.age();
        }
        self.blocks[1].0[BESIDE].fill(self.calls as u8);
        let (export, plain) = (call.exported(&mut self.blocks[1]), call.plain(&mut self.device));
        let opens = matches!(call, Call::Start { .. } | Call::Restart { .. } | Call::StartListener { .. } | Call::RestartListener { .. });
        self.known |= opens && plain.number == 0;
        let known = tally.count(call.index(), plain.number);
        let guarded = [0, 2].iter().all(|&at| self.blocks[at] == Block([0xa5; SIZE]));
        let beside = self.blocks[1].0[BESIDE].iter().all(|&byte| byte == self.calls as u8);
        let alike = self.alike() && self.blocks[1].is_as_formerly(self.calls as i32);
        if export == plain && known && guarded && beside && alike {
            return Ok(plain.number);
        }
        let name = CALLS[call.index()].0;
        let beside = match (guarded, alike) {
            (false, _) => "\nmemory beside the block was changed",
            (_, false) => "\nanother window, another interrupt line, another count, another offer, or another answer under a former name",
            _ => "",
        };
        Err(format!("call {}, focus_{name}: {call:?}\nexport: {export:?}\nplain:  {plain:?}{beside}", self.calls))
    }
}

/// All calls of a seed.
fn compare(seed: u64, tally: &mut Tally) -> Result<(), String> {
    let mut random = Random::new(seed);
    let zeros = random.chance(1, 2);
    let mut pair = Pair::new(&mut random, zeros);
    for _ in 0..EACH {
        pair.ask(tally, &inputs::frame_check(&mut random))?;
        pair.ask(tally, &inputs::midpoint(&mut random))?;
        pair.ask(tally, &inputs::limits(&mut random))?;
        pair.ask(tally, &inputs::reach(&mut random))?;
        pair.ask(tally, &inputs::scale(&mut random))?;
        pair.ask(tally, &inputs::unscale(&mut random))?;
    }
    rounds::sequence(&mut random, zeros, &mut |call| pair.ask(tally, &call))
}

fn run(count: u64, first: u64) -> Result<Tally, String> {
    if !exported::as_in_header() {
        return Err("host/include/focus.h has blocks of another size".to_owned());
    }
    let mut tally = Tally::default();
    for seed in first.. {
        if tally.calls >= count {
            break;
        }
        let done = catch_unwind(AssertUnwindSafe(|| compare(seed, &mut tally)));
        done.unwrap_or_else(|_| Err("the reference implementation panicked".to_owned())).map_err(|what| format!("seed {seed}, {what}"))?;
    }
    let unseen = tally.unseen();
    if count >= ENOUGH && !unseen.is_empty() {
        return Err(format!("no call was answered: {}", unseen.join(", ")));
    }
    Ok(tally)
}

/// Writes the script of a seed to standard output.
fn write_script(seed: &str) -> Result<(), String> {
    let seed = seed.parse().map_err(|_| format!("no seed: {seed}"))?;
    std::io::stdout().write_all(&script::script(seed)?).map_err(|error| error.to_string())
}

fn main() -> ExitCode {
    let words: Vec<String> = std::env::args().skip(1).collect();
    if let [mode, seed] = &words[..] {
        if mode == "--script" {
            return write_script(seed).map_or_else(|what| { eprintln!("{what}"); ExitCode::FAILURE }, |()| ExitCode::SUCCESS);
        }
    }
    let numbers: Vec<u64> = words.iter().filter_map(|word| word.parse().ok()).collect();
    let done = match numbers[..] {
        [count] if words.len() == 1 => run(count, 1),
        [count, seed] => run(count, seed),
        _ => Err("exports COUNT [SEED]".to_owned()),
    };
    match done {
        Ok(tally) => {
            println!("{}", tally.summary());
            ExitCode::SUCCESS
        }
        Err(what) => {
            println!("{what}");
            ExitCode::FAILURE
        }
    }
}
