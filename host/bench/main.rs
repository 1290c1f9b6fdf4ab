//! Times the proved exports and the proved player against the reference implementation, side by side in one run, and prints Markdown.
//!
//!     bench RIGPLAY PLAIN PLACE BYTES      all of it, with a run file of at least BYTES through a pipe; fails if a bar is missed
//!     bench RIGPLAY PLAIN PLACE --quick    the rows that have a bar, on short files; fails beyond MARGIN times a bar
//!
//! PLACE is a directory for run files. host/bench/run builds and starts it.

mod apart;
mod bars;
mod calls;
mod clock;
mod players;
mod runs;
mod whole;

use players::{failed, Players, Timed};
use rules::family::Family;
use rules::head::LAST_PHASE;
use runs::{of_one_round, runs, with_listeners, Run, Strikes};
use std::io;
use std::process::ExitCode;

/// How often each program is timed.
const TURNS: usize = 5;
/// A quick run has one of so many phases.
const QUICK: usize = 3;

/// What a table says of a row's bar: nothing if it has none.
fn held(name: &str, ratio: f64, missed: &mut bool) -> String {
    bars::of(name).map_or(String::new(), |bar| {
        let (met, words) = bars::verdict(ratio, bar, 1.0);
        *missed |= !met;
        words
    })
}

fn megabytes(bytes: u64) -> String {
    format!("{:.1} MB", bytes as f64 * 1e-6)
}

fn print_calls(missed: &mut bool) {
    println!("## Calls\n\nNanoseconds of CPU time a call.\n");
    println!("| Call | proved export | plain Rust | ratio | bar |\n|---|--:|--:|--:|---|");
    for row in calls::rows(&|_| true) {
        let bar = held(&row.name, row.ratio(), missed);
        println!("| {} | {:.0} | {:.0} | {:.2} | {bar} |", row.name, row.export, row.plain, row.ratio());
    }
    println!("\n## Beside the midpoint\n\nProved calls that settle more than once, in nanoseconds of CPU time a call, beside the proved midpoint.\n");
    println!("| Call | this call | midpoint | ratio | bar |\n|---|--:|--:|--:|---|");
    for row in calls::beside(&|_| true) {
        let bar = held(&row.name, row.ratio(), missed);
        println!("| {} | {:.0} | {:.0} | {:.2} | {bar} |", row.name, row.export, row.plain, row.ratio());
    }
}

fn print_players(players: &Players, missed: &mut bool) -> io::Result<()> {
    println!("\n## Players\n\nMilliseconds of CPU time (user and system) for a run file.\n");
    println!("| Run file | phases | bytes | rigplay | plain | ratio | bar | twice as long | resident |");
    println!("|---|--:|--:|--:|--:|--:|---|--:|--:|");
    let mut all = Vec::new();
    for run in runs() {
        let (name, timed) = (run.name(), players.time(&run, TURNS)?);
        let bar = held(&name, timed.ratio(), missed);
        let (ours, others, ratio) = (timed.rigplay * 1e3, timed.plain * 1e3, bars::said(timed.ratio()));
        let twice = Run { phases: 2 * run.phases, ..run };
        let (growth, resident) = (players.multiple(&run, &twice, 2 * TURNS)?, megabytes(timed.resident));
        println!("| {name} | {} | {} | {ours:.1} | {others:.1} | {ratio} | {bar} | {growth:.2} times | {resident} |", run.phases, timed.bytes);
        all.push((name, timed));
    }
    print_speeds(&all);
    Ok(())
}

fn print_speeds(all: &[(String, Timed)]) {
    println!("\n## Bytes\n\nMillions of bytes of run file a second: played by rigplay, read from the file, and copied in memory.\n");
    println!("| Run file | bytes | rigplay | read | copied | rigplay, in times of reading |\n|---|--:|--:|--:|--:|--:|");
    for (name, timed) in all {
        let (ours, read, copied) = (timed.speed(timed.rigplay), timed.speed(timed.read), timed.speed(timed.copy));
        println!("| {name} | {} | {ours:.0} | {read:.0} | {copied:.0} | {:.1} |", timed.bytes, timed.rigplay / timed.read);
    }
}

fn print_whole() -> io::Result<()> {
    println!("\n## Files in memory\n\nMilliseconds of CPU time for a run file in memory: `focus_play`, and plain's player on the same bytes.\n");
    println!("| Run file | phases | bytes | focus_play | plain | ratio |\n|---|--:|--:|--:|--:|--:|");
    for timed in whole::rows()? {
        let (ours, others, ratio) = (timed.export * 1e3, timed.plain * 1e3, bars::said(timed.export / timed.plain));
        println!("| {} | {} | {} | {ours:.1} | {others:.1} | {ratio} |", timed.run.name(), timed.run.phases, timed.bytes);
    }
    Ok(())
}

fn print_listeners(players: &Players, missed: &mut bool) -> io::Result<()> {
    println!("\n## Listeners\n\nThe same, and rigplay's time in times of that for the run without listeners.\n");
    println!("| Run file | phases | bytes | rigplay | plain | ratio | without listeners | bar |\n|---|--:|--:|--:|--:|--:|--:|---|");
    for run in with_listeners() {
        let (name, timed) = (run.name(), players.time(&run, TURNS)?);
        let times = players.multiple(&Run { listeners: 0, ..run }, &run, 2 * TURNS)?;
        let mut bar = String::new();
        if name == bars::LISTENERS.0 {
            let (met, words) = bars::verdict(times, bars::LISTENERS.1, 1.0);
            (*missed, bar) = (*missed | !met, words);
        }
        let (ours, others, ratio) = (timed.rigplay * 1e3, timed.plain * 1e3, bars::said(timed.ratio()));
        println!("| {name} | {} | {} | {ours:.1} | {others:.1} | {ratio} | {times:.2} times | {bar} |", run.phases, timed.bytes);
    }
    Ok(())
}

fn print_one_round(players: &Players, missed: &mut bool) -> io::Result<()> {
    println!("\n## One-round rings\n\nThe same, and rigplay's time for a phase in times of that for a phase of the two-round run named.\n");
    println!("| Run file | phases | bytes | rigplay | plain | ratio | beside | a phase | bar |\n|---|--:|--:|--:|--:|--:|---|--:|---|");
    for (run, beside) in of_one_round() {
        let (name, timed) = (run.name(), players.time(&run, TURNS)?);
        let times = players.multiple(&beside, &run, 2 * TURNS)?;
        let mut bar = String::new();
        if let Some(&(_, most)) = bars::ONE_ROUND.iter().find(|(row, _)| *row == name) {
            let (met, words) = bars::verdict(times, most, 1.0);
            (*missed, bar) = (*missed | !met, words);
        }
        let (ours, others, ratio) = (timed.rigplay * 1e3, timed.plain * 1e3, bars::said(timed.ratio()));
        let (beside, times) = (beside.name(), bars::said(times));
        println!("| {name} | {} | {} | {ours:.1} | {others:.1} | {ratio} | {beside} | {times} | {bar} |", run.phases, timed.bytes);
    }
    print_first_phases(missed)
}

fn print_first_phases(missed: &mut bool) -> io::Result<()> {
    println!("\nThe first phase of a quiet ring, the only one that settles: nanoseconds of CPU time in `focus_play`.\n");
    println!("| Run file | first phase | beside | first phase | ratio | bar |\n|---|--:|---|--:|--:|---|");
    for (run, beside) in of_one_round().into_iter().filter(|(run, _)| run.strikes == Strikes::Quiet) {
        let (ours, others) = (whole::first_phase(run)?, whole::first_phase(beside)?);
        let mut bar = String::new();
        if run.name() == bars::FIRST_PHASE.0 {
            let (met, words) = bars::verdict(ours / others, bars::FIRST_PHASE.1, 1.0);
            (*missed, bar) = (*missed | !met, words);
        }
        let (name, beside, ratio) = (run.name(), beside.name(), bars::said(ours / others));
        println!("| {name} | {:.0} | {beside} | {:.0} | {ratio} | {bar} |", ours * 1e9, others * 1e9);
    }
    Ok(())
}

fn print_memory(players: &Players, bytes: u64, missed: &mut bool) -> io::Result<()> {
    let run = |phases: usize| Run { family: Family::TwoRounds, n: 32, f: 8, strikes: Strikes::Others, phases: phases.min(LAST_PHASE), listeners: 0 };
    let (one, two) = (run(1).write(&mut io::sink())?, run(2).write(&mut io::sink())?);
    let run = run((bytes / (two - one)) as usize + 2);
    let (bytes, used) = players.stream(&run)?;
    let met = used.resident < bars::MEMORY;
    *missed |= !met;
    println!("\n## Memory\n\nA run file of {} through a pipe, made as it is read.\n", run.name());
    println!("| bytes | phases | CPU seconds | resident | bar |\n|--:|--:|--:|--:|---|");
    let bar = format!("below {} {}", megabytes(bars::MEMORY), if met { "ok" } else { "MISSED" });
    println!("| {bytes} | {} | {:.2} | {} | {bar} |", run.phases, used.seconds, megabytes(used.resident));
    Ok(())
}

/// The ratio of the row of this name, taken quickly.
fn ratio(players: &Players, name: &str) -> io::Result<f64> {
    if let Some(run) = runs().iter().find(|run| run.name() == name) {
        return Ok(players.time(&Run { phases: run.phases / QUICK, ..*run }, 3)?.ratio());
    }
    let mut rows = calls::rows(&|row| row == name);
    rows.extend(calls::beside(&|row| row == name));
    rows.first().map(calls::Row::ratio).ok_or_else(|| failed(format!("no row is named {name}")))
}

/// One line; a ratio beyond its bar is taken three times before it counts.
fn quick(players: &Players) -> io::Result<bool> {
    let (mut line, mut missed) = (Vec::new(), false);
    for &(name, bar) in &bars::BARS {
        let mut least = f64::MAX;
        for _ in 0..3 {
            if least > bar {
                least = least.min(ratio(players, name)?);
            }
        }
        let (met, words) = bars::verdict(least, bar, bars::MARGIN);
        missed |= !met;
        line.push(format!("{name} {} of {words}", bars::said(least)));
    }
    println!("{}", line.join("; "));
    Ok(missed)
}

fn all(players: &Players, bytes: u64) -> io::Result<bool> {
    let mut missed = false;
    print_calls(&mut missed);
    print_players(players, &mut missed)?;
    print_whole()?;
    print_memory(players, bytes, &mut missed)?;
    print_listeners(players, &mut missed)?;
    print_one_round(players, &mut missed)?;
    Ok(missed)
}

fn main() -> ExitCode {
    let words: Vec<String> = std::env::args().skip(1).collect();
    let done = match &words[..] {
        [rigplay, plain, place, what] => {
            let players = Players { rigplay: rigplay.clone(), plain: plain.clone(), place: place.clone() };
            if what == "--quick" { quick(&players) } else { all(&players, what.parse().expect("a number of bytes")) }
        }
        _ => Err(failed("bench RIGPLAY PLAIN PLACE BYTES, or --quick".to_owned())),
    };
    match done {
        Ok(false) => ExitCode::SUCCESS,
        Ok(true) => ExitCode::FAILURE,
        Err(what) => {
            println!("{what}");
            ExitCode::FAILURE
        }
    }
}
