//! How often each call gave each number.

/// Each call with the numbers it can give, in the order of its checks. A position, a kept range or an offer is answered 1 if there is one, else 0; the interrupt
/// line 1 if it is up; a reading 0, 1 or 2 for unknown, a point or a range.
pub const CALLS: [(&str, &[u8]); 33] = [
    ("frame_check", &[0, 6, 7, 8]),
    ("midpoint", &[0, 1, 2, 5, 8, 10, 11, 25]),
    ("midpoint_kept", &[0, 1, 2, 5, 8, 10, 11, 25]),
    ("scale", &[0, 12, 4]),
    ("unscale", &[0, 12]),
    ("head_start", &[0, 1, 2, 3, 4]),
    ("head_restart", &[0, 1, 2, 3, 5]),
    ("listener_start", &[0, 1, 2, 3]),
    ("listener_restart", &[0, 1, 2, 3, 5]),
    ("head_hear", &[0, 26, 3, 21, 6, 7, 8, 22, 9, 23, 10, 11]),
    ("head_hear_batch", &[0, 15, 24]),
    ("head_write", &[0, 26, 17, 24]),
    ("head_close", &[0, 26, 25]),
    ("head_has_position", &[0, 1]),
    ("head_has_kept", &[0, 1]),
    ("head_register", &[0, 16]),
    ("head_window", &[0]),
    ("head_set_register", &[0, 16]),
    ("head_has_interrupt", &[0, 1]),
    ("head_adopt", &[0, 27]),
    ("head_has_offer", &[0, 1]),
    ("one_round_start", &[0, 1, 18, 3, 4]),
    ("one_round_restart", &[0, 1, 18, 3, 5]),
    ("one_round_listener_start", &[0, 1, 18, 3]),
    ("one_round_listener_restart", &[0, 1, 18, 3, 5]),
    ("limits", &[0, 1, 2, 5, 8, 10, 19, 25]),
    ("reach", &[0, 1, 2, 5, 3, 8, 10, 11, 25]),
    ("one_round_midpoint", &[0, 1, 18, 5, 8, 10, 11, 25]),
    ("one_round_reach", &[0, 1, 18, 5, 3, 8, 10, 11, 25]),
    ("head_reading", &[0, 1, 2]),
    ("host_page", &[0, 1, 24]),
    ("head_window_reset", &[0]),
    ("one_round_midpoint_kept", &[0, 1, 18, 5, 8, 10, 11, 25]),
];

pub struct Tally {
    counts: [[u64; 32]; CALLS.len()],
    pub calls: u64,
}

impl Default for Tally {
    fn default() -> Self {
        Tally { counts: [[0; 32]; CALLS.len()], calls: 0 }
    }
}

impl Tally {
    /// Whether the number is one that the call can give.
    pub fn count(&mut self, call: usize, number: u8) -> bool {
        self.calls += 1;
        let known = CALLS[call].1.contains(&number);
        if known {
            self.counts[call][number as usize] += 1;
        }
        known
    }

    /// The answers that no call gave.
    pub fn unseen(&self) -> Vec<String> {
        let mut unseen = Vec::new();
        for (call, (name, numbers)) in CALLS.iter().enumerate() {
            let never = numbers.iter().filter(|&&number| self.counts[call][number as usize] == 0);
            unseen.extend(never.map(|number| format!("{name} {number}")));
        }
        unseen
    }

    pub fn summary(&self) -> String {
        let of = |call: usize, number: u8| format!("{number}:{}", self.counts[call][number as usize]);
        let line = |(call, (name, numbers)): (usize, &(&str, &[u8]))| {
            let counts: Vec<String> = numbers.iter().map(|&number| of(call, number)).collect();
            format!("{name} {}", counts.join(" "))
        };
        let lines: Vec<String> = CALLS.iter().enumerate().map(line).collect();
        format!("{} calls, no difference; {}", self.calls, lines.join(", "))
    }
}
