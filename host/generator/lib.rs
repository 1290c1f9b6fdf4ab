//! What makes run files and calls from seeds: numbers by chance, a model of the ring that has no frames and knows what must be printed, the
//! rounds of a run file with strikes and lies, their records, and what spoils a frame. host/compare, host/exports and host/bench use it.

pub mod random;
pub mod ring;
pub mod run;
pub mod spoil;
pub mod wire;
