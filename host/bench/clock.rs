//! CPU time as Linux counts it: of this process, and of a child that has ended, with the child's largest resident memory.

use std::arch::asm;
use std::process::Child;
use std::time::Duration;
use std::{fs, io, thread};

#[repr(C)]
#[derive(Default)]
struct Time {
    seconds: i64,
    /// nanoseconds in a timespec, microseconds in a timeval
    parts: i64,
}

/// struct rusage of x86-64.
#[repr(C)]
#[derive(Default)]
struct Usage {
    user: Time,
    system: Time,
    /// in kilobytes of 1,024
    largest: i64,
    others: [i64; 13],
}

extern "C" {
    fn clock_gettime(clock: i32, time: *mut Time) -> i32;
    fn wait4(child: i32, status: *mut i32, options: i32, usage: *mut Usage) -> i32;
}

const CLOCK_PROCESS_CPUTIME_ID: i32 = 2;

/// Seconds of CPU time that this process has used.
pub fn now() -> f64 {
    let mut time = Time::default();
    unsafe { clock_gettime(CLOCK_PROCESS_CPUTIME_ID, &mut time) };
    time.seconds as f64 + time.parts as f64 * 1e-9
}

/// The same value, of which the compiler may assume nothing. It is std::hint::black_box, which Debian 12's rustc does not have.
pub fn black_box<T>(value: T) -> T {
    unsafe { asm!("/* {0} */", in(reg) &value, options(nostack, preserves_flags)) };
    value
}

/// What a program used: seconds of user and system time, and bytes of memory at most.
pub struct Used {
    pub seconds: f64,
    pub resident: u64,
}

/// Waits for the end of a child, which must end with status 0.
pub fn ended(child: Child) -> io::Result<Used> {
    let (mut status, mut usage) = (0, Usage::default());
    if unsafe { wait4(child.id() as i32, &mut status, 0, &mut usage) } < 0 {
        return Err(io::Error::last_os_error());
    }
    if status != 0 {
        return Err(io::Error::new(io::ErrorKind::Other, format!("a player ended with wait status {status}")));
    }
    let seconds = |time: &Time| time.seconds as f64 + time.parts as f64 * 1e-6;
    Ok(Used { seconds: seconds(&usage.user) + seconds(&usage.system), resident: usage.largest as u64 * 1024 })
}

/// The largest resident memory so far of a program that runs, in bytes; 0 once it has ended.
pub fn resident(child: &Child) -> u64 {
    let status = fs::read_to_string(format!("/proc/{}/status", child.id())).unwrap_or_default();
    let line = status.lines().find_map(|line| line.strip_prefix("VmHWM:"));
    line.and_then(|line| line.split_whitespace().next()).and_then(|word| word.parse().ok()).map_or(0, |number: u64| number * 1024)
}

/// Waits for the end of a child, and looks at its memory until then. What Linux gives at the end counts the memory of its parent before it was
/// loaded.
pub fn watched(child: Child) -> io::Result<Used> {
    let mut largest = 0;
    loop {
        match resident(&child) {
            0 => break,
            bytes => largest = bytes.max(largest),
        }
        thread::sleep(Duration::from_micros(200));
    }
    let used = ended(child)?;
    Ok(if largest == 0 { used } else { Used { resident: largest, ..used } })
}
