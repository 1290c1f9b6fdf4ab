//! The bars: how long a proved call or the proved player may take, in times of plain. `host/bench/run` holds each row to its bar; `--quick` takes
//! the best of up to three tries and allows MARGIN times as much.

pub const MARGIN: f64 = 1.5;
/// The proved player's memory, in bytes.
pub const MEMORY: u64 = 16_000_000;
/// The proved player's time with 16 listeners at (32,8), in times of its own without: of 32 heads 24 hear in a round, of heads and listeners at
/// most 48. Other sizes have no bar, and `--quick` leaves it out.
pub const LISTENERS: (&str, f64) = ("(32,8) struck, other heads in each round, 16 listeners", 48.0 / 24.0);

/// The proved player's time for a phase of a one-round ring, in times of its own for a phase of the two-round ring beside it, (32,8). Other sizes have no
/// bar, and `--quick` leaves it out. Quiet rings agree at the first phase end, and from then on a phase of either family costs little more than its line: their
/// bar is for the first phase, which settles.
pub const ONE_ROUND: [(&str, f64); 1] = [("(29,7) one round, struck, other heads in each round", 1.0 / 4.0)];
pub const FIRST_PHASE: (&str, f64) = ("(29,7) one round, quiet", 1.0 / 2.0);

/// The name of a row, and its bar: in times of plain, and for limits and reach in times of the proved midpoint. A row that is not here has none.
pub const BARS: [(&str, f64); 29] = [
    ("(5,1) struck, other heads in each round", 1.0 / 7.0),
    ("(5,1) struck, the same heads in all rounds", 1.0 / 7.0),
    ("(5,1) quiet", 1.0 / 25.0),
    ("(32,8) quiet", 1.0 / 350.0),
    ("(32,8) struck, other heads in each round", 1.0 / 22.0),
    ("(32,8) struck, the same heads in all rounds", 1.0 / 22.0),
    ("frame check, all kinds, lists of 5", 1.3),
    ("frame check, all kinds, lists of 32", 1.3),
    ("hearing a position, (5,1)", 2.0),
    ("hearing a list, (5,1)", 1.0),
    ("hearing a position, (32,8)", 2.0),
    ("hearing a list, (32,8)", 1.0),
    ("hearing a batch of positions, (32,8)", 2.0),
    ("hearing a batch of lists, (32,8)", 2.0),
    ("starting, (5,1)", 1.0),
    ("restarting, (5,1)", 1.0),
    ("starting, (32,8)", 1.0),
    ("restarting, (32,8)", 1.0),
    ("closing a collection round, (5,1)", 0.5),
    ("closing a collection round, (32,8)", 0.3),
    ("closing a confession round, lists that agree, (5,1)", 0.5),
    ("closing a confession round, lists that agree, (32,8)", 0.15),
    ("closing a confession round, f confessions and f liars, (5,1)", 0.7),
    ("closing a confession round, f confessions and f liars, (32,8)", 0.25),
    ("limits, (5,1)", 3.0),
    ("limits, (32,8)", 3.0),
    ("reach, (5,1)", 3.0),
    ("reach, (32,8)", 3.0),
    ("reach in a one-round ring, (29,7)", 3.0),
];

pub fn of(name: &str) -> Option<f64> {
    BARS.iter().find(|(row, _)| *row == name).map(|&(_, bar)| bar)
}

/// A ratio as it is said: 2.1, or 1/13.5.
pub fn said(ratio: f64) -> String {
    if ratio >= 1.0 { format!("{ratio:.1}") } else { format!("1/{:.1}", 1.0 / ratio) }
}

/// The verdict on a row: whether its ratio is at most `margin` times its bar.
pub fn verdict(ratio: f64, bar: f64, margin: f64) -> (bool, String) {
    let met = ratio <= bar * margin;
    (met, format!("{} {}", said(bar).trim_end_matches(".0"), if met { "ok" } else { "MISSED" }))
}
