//! Loans: what a careless caller may hand to the calls in memory.

use crate::arc::Net;
use crate::ends;
use crate::file;
use crate::fraction::Fraction;
use crate::limits::{GREATEST_P, GREATEST_Q, MOST_EVENTS, MOST_MODES, MOST_POSITIONS};
use crate::random::Random;
use crate::sheet::{Lent, Sheet, NO_WINDOW};

use super::Proposed;

/// Everything that is lent to the calls in memory.
#[derive(Clone, Debug, PartialEq, Eq)]
pub struct Loan {
    /// Events per mode.
    pub n: u64,
    /// Modes.
    pub m: u64,
    /// Positions.
    pub v: u64,
    /// The tables, perhaps too short or with surplus.
    pub tables: Vec<i32>,
    /// The schedule, perhaps too short or with surplus.
    pub schedule: Vec<u64>,
    /// The cycle time that Ask is asked and that a proposal is for.
    pub p: u64,
    /// Its bottom.
    pub q: u64,
    /// The places of the buffers to be written.
    pub room: Room,
}

/// The places of the buffers to be written.
#[derive(Clone, Copy, Debug, PartialEq, Eq)]
pub struct Room {
    /// For the writer's file.
    pub file: usize,
    /// For Ask's plan.
    pub plan: usize,
    /// For Ask's circuit, and for the first of Ends.
    pub circuit: usize,
    /// For the second circuit of Ends.
    pub second: usize,
}

impl Loan {
    /// What the calls take of it for a sheet.
    pub fn lent(&self) -> Lent<'_> {
        Lent {
            n: self.n,
            m: self.m,
            v: self.v,
            tables: &self.tables,
            schedule: &self.schedule,
        }
    }

    /// A sheet lent as it should be, with cycle time 0/1 and just enough room.
    fn of(sheet: &Sheet) -> Loan {
        Loan {
            n: sheet.n() as u64,
            m: sheet.m() as u64,
            v: sheet.v() as u64,
            tables: sheet.tables().to_vec(),
            schedule: sheet.schedule().to_vec(),
            p: 0,
            q: 1,
            room: Room {
                file: file::write(sheet).len(),
                plan: sheet.nodes(),
                circuit: 4 * sheet.nodes(),
                second: 4 * sheet.nodes(),
            },
        }
    }
}

/// The loan of an index: of four, one is all right, one has surplus, and two are spoilt,
/// sometimes in several ways at once, which shows the order of the refusals. Not every
/// call sees it: a check takes no buffers to be written, and finds no fault in a short one.
pub fn loan(seed: u64, index: u64) -> Loan {
    lend(seed, index, cycle_time)
}

/// The loan of an index for calls that take no cycle time, with 0/1 for one: to find
/// where the answer turns is most of the work on a [`loan`].
pub fn untimed_loan(seed: u64, index: u64) -> Loan {
    lend(seed, index, |_, _| (0, 1))
}

/// The loan of an index with a proposal: what is proposed for the sheet, whatever then
/// becomes of the loan.
pub fn loan_with<T>(
    seed: u64,
    index: u64,
    propose: fn(&mut Random, &Sheet) -> Proposed<T>,
) -> (Loan, Vec<T>) {
    let mut list = Vec::new();
    let loan = lend(seed, index, |random, sheet| {
        let proposed = propose(random, sheet);
        list = proposed.list;
        (proposed.p, proposed.q)
    });
    (loan, list)
}

fn lend(seed: u64, index: u64, time: impl FnOnce(&mut Random, &Sheet) -> (u64, u64)) -> Loan {
    let mut random = Random::new(seed.rotate_left(32), index);
    let sheet = super::sheet(seed, index / 4);
    let mut loan = Loan::of(&sheet);
    (loan.p, loan.q) = time(&mut random, &sheet);
    if index % 4 > 0 {
        add_surplus(&mut random, &mut loan);
    }
    if index % 4 > 1 {
        for _ in 0..random.size(1, 3) {
            spoil(&mut random, &sheet, &mut loan);
        }
    }
    loan
}

/// A cycle time at an end or next to it, where the answer turns, or any.
pub fn cycle_time(random: &mut Random, sheet: &Sheet) -> (u64, u64) {
    let any = Fraction {
        top: random.between(0, 60),
        bottom: random.between(1, 12),
    };
    let end = match ends::find(&Net::new(sheet)).span() {
        Some(span) if random.chance(50) => span.low,
        Some(span) if random.chance(80) => span.high.unwrap_or(span.low),
        _ => any,
    };
    // Not in lowest terms: p/q is not reduced by Ask, so its plan has other steps.
    let greatest = GREATEST_Q as i64 / end.bottom;
    let times = random.pick(&[1, 1, 2, greatest]);
    let p = end.top * times + random.pick(&[-1, 0, 0, 1]);
    let q = end.bottom * times;
    (p.max(0) as u64, q as u64)
}

/// Makes buffers longer. What the surplus holds must not matter.
fn add_surplus(random: &mut Random, loan: &mut Loan) {
    let more = random.size(0, 30);
    loan.tables.extend((0..more).map(|_| random.bits() as i32));
    let more = random.size(0, 5);
    loan.schedule.extend((0..more).map(|_| random.bits()));
    loan.room.file += random.size(0, 20);
    loan.room.plan += random.size(0, 20);
    loan.room.circuit += random.size(0, 20);
    loan.room.second += random.size(0, 20);
}

/// Spoils one thing in the loan of a sheet, or at least changes it.
fn spoil(random: &mut Random, sheet: &Sheet, loan: &mut Loan) {
    match random.below(17) {
        0 => loan.n = other_size(random, MOST_EVENTS),
        1 => loan.m = other_size(random, MOST_MODES),
        2 => loan.v = other_size(random, MOST_POSITIONS),
        3 => shorten(random, &mut loan.tables, sheet.tables().len()),
        4 => shorten(random, &mut loan.schedule, sheet.v()),
        5..=7 => {
            let mode = loan.m.saturating_add(random.pick(&[0, 0, 1, 1 << 32]));
            replace_one(random, &mut loan.schedule, mode);
        }
        8..=10 => {
            let value = random.pick(&[1_000_001, -1_000_001, i32::MAX, NO_WINDOW + 1]);
            replace_one(random, &mut loan.tables, value);
        }
        11 => loan.q = random.pick(&[0, GREATEST_Q, GREATEST_Q + 1, u64::MAX]),
        12 => loan.p = random.pick(&[GREATEST_P, GREATEST_P + 1, u64::MAX]),
        13 => cut_down(random, &mut loan.room.file),
        14 => cut_down(random, &mut loan.room.plan),
        15 => cut_down(random, &mut loan.room.circuit),
        _ => cut_down(random, &mut loan.room.second),
    }
}

/// A size at its limit, past it, far past it, or so far that its low half is
/// within the limit.
fn other_size(random: &mut Random, most: usize) -> u64 {
    let most = most as u64;
    random.pick(&[0, 1, most, most + 1, u64::MAX, (1 << 32) + 1])
}

/// Cuts a buffer off below the length that is needed.
fn shorten<T>(random: &mut Random, buffer: &mut Vec<T>, needed: usize) {
    buffer.truncate(random.pick(&[0, needed / 2, needed - 1]));
}

fn cut_down(random: &mut Random, places: &mut usize) {
    *places = random.pick(&[0, places.saturating_sub(1), *places / 2]);
}

fn replace_one<T>(random: &mut Random, buffer: &mut [T], item: T) {
    if !buffer.is_empty() {
        buffer[random.index(buffer.len())] = item;
    }
}
