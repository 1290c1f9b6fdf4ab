//! The step scale, and from nanometres back to steps.

use super::midpoint::is_position;

/// 12.
fn check(numerator: u32, denominator: u32) -> Result<(), u8> {
    let allowed = 1..=1_000_000;
    if !allowed.contains(&numerator) || !allowed.contains(&denominator) || numerator < denominator {
        return Err(12);
    }
    Ok(())
}

/// 12, 4; nanometres, rounded down.
pub fn scale(steps: i32, numerator: u32, denominator: u32) -> Result<i64, u8> {
    check(numerator, denominator)?;
    if !is_position(steps) {
        return Err(4);
    }
    Ok((steps as i64 * numerator as i64).div_euclid(denominator as i64))
}

/// 12; the step in range whose reading it is, if there is one.
pub fn unscale(nanometres: i64, numerator: u32, denominator: u32) -> Result<Option<i32>, u8> {
    check(numerator, denominator)?;
    let (reading, numerator, denominator) = (nanometres as i128, numerator as i128, denominator as i128);
    // a step reads so if, times numerator, it is at least `low` and below `end`; this is the last one below
    let (low, end) = (reading * denominator, (reading + 1) * denominator);
    let last = (end - 1).div_euclid(numerator);
    let steps = i32::try_from(last).ok().filter(|&steps| is_position(steps));
    Ok(steps.filter(|_| low <= last * numerator))
}
