//! The rules of documents 01 and 02, plainly: frames as bytes, families of rings, a record for each head, its window, the midpoint, limits,
//! reach, the scale, what hosts read, and the records of a run file. They share nothing with the proved crates. The player of run
//! files plays by them, and host/plain is a program of it; host/generator, host/exports, host/compare and host/bench take from them what they need.

pub mod family;
pub mod frames;
pub mod head;
pub mod limits;
pub mod midpoint;
pub mod player;
pub mod reach;
pub mod reading;
pub mod records;
pub mod scale;
pub mod window;
