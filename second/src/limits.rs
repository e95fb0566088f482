//! "Numbers and room": the limits, each with the refusal that guards it.

use crate::refusal::Refusal;
use crate::window::Kind;

/// n, the events per mode, is 1..12.
pub const MOST_EVENTS: usize = 12;
/// m, the modes, is 1..8.
pub const MOST_MODES: usize = 8;
/// V, the positions of the schedule, is 1..16.
pub const MOST_POSITIONS: usize = 16;
/// w is -1,000,000..1,000,000.
pub const GREATEST_VALUE: i32 = 1_000_000;
/// p is 0..1,000,000,000.
pub const GREATEST_P: u64 = 1_000_000_000;
/// q is 1..1000.
pub const GREATEST_Q: u64 = 1000;
/// "No plan time exceeds 382,000,000,000", and no proposed time is "beyond" it "either
/// way" (02, E2).
pub const GREATEST_TIME: i64 = 382_000_000_000;

/// n, if it is within its limit.
pub fn events(number: u64) -> Result<usize, Refusal> {
    from_one_to(number, MOST_EVENTS, Refusal::Size)
}

/// m, if it is within its limit.
pub fn modes(number: u64) -> Result<usize, Refusal> {
    from_one_to(number, MOST_MODES, Refusal::Size)
}

/// V, if it is within its limit.
pub fn positions(number: u64) -> Result<usize, Refusal> {
    from_one_to(number, MOST_POSITIONS, Refusal::Size)
}

/// A mode number of the schedule, if it is below m.
pub fn mode(number: u64, m: usize) -> Result<u64, Refusal> {
    if number < m as u64 {
        Ok(number)
    } else {
        Err(Refusal::Schedule)
    }
}

/// A mode's count of records, if it is not above 4·n².
pub fn count(number: u64, n: usize) -> Result<usize, Refusal> {
    match usize::try_from(number) {
        Ok(count) if count <= 4 * n * n => Ok(count),
        _ => Err(Refusal::Window),
    }
}

/// A kind, if it is not above 3.
pub fn kind(number: u64) -> Result<Kind, Refusal> {
    Kind::from_number(number).ok_or(Refusal::Window)
}

/// An event of a window, if it is 1..n.
pub fn event(number: u64, n: usize) -> Result<usize, Refusal> {
    from_one_to(number, n, Refusal::Window)
}

/// A window's w, if it is within its limit.
pub fn value(number: i64) -> Result<i32, Refusal> {
    match i32::try_from(number) {
        Ok(w) if (-GREATEST_VALUE..=GREATEST_VALUE).contains(&w) => Ok(w),
        _ => Err(Refusal::Window),
    }
}

/// A proposed time, if it is not beyond its limit either way.
pub fn proposed_time(number: i64) -> Result<i64, Refusal> {
    if (-GREATEST_TIME..=GREATEST_TIME).contains(&number) {
        Ok(number)
    } else {
        Err(Refusal::Proposal)
    }
}

fn from_one_to(number: u64, most: usize, refusal: Refusal) -> Result<usize, Refusal> {
    match usize::try_from(number) {
        Ok(within) if (1..=most).contains(&within) => Ok(within),
        _ => Err(refusal),
    }
}
