//! Inputs with a file: for the reader, with buffers of all lengths for what is read; for
//! the C call, with cycle times; for the report.

use std::fmt;

use second::file;
use second::generate;
use second::limits::{GREATEST_P, GREATEST_Q, MOST_EVENTS, MOST_MODES, MOST_POSITIONS};
use second::random::Random;

use crate::difference::hex;

/// A file, and the places lent for its sheet.
#[derive(Clone, Debug, PartialEq, Eq)]
pub struct File {
    /// The bytes.
    pub bytes: Vec<u8>,
    /// The places for the tables.
    pub table_places: usize,
    /// The places for the schedule.
    pub schedule_places: usize,
}

/// Sets the seed for the buffers' lengths apart from the seed of the files.
const ROOM: u64 = 0x726f_6f6d_0000_0000;

/// The file of an index: a sheet in two cases of three, else a damaged one.
///
/// A sheet gets buffers that are mostly as long as needed or longer. A file that is
/// none gets any, since nothing may be written to it.
pub fn file(seed: u64, index: u64) -> File {
    let mut random = Random::new(seed ^ ROOM, index);
    let bytes = generate::file(seed, index);
    let (tables, schedule) = match file::read(&bytes) {
        Ok(sheet) => (sheet.tables().len(), sheet.v()),
        Err(_) => (
            random.size(0, 4 * MOST_MODES * MOST_EVENTS * MOST_EVENTS),
            random.size(0, MOST_POSITIONS),
        ),
    };
    File {
        bytes,
        table_places: places(&mut random, tables),
        schedule_places: places(&mut random, schedule),
    }
}

/// A file, and the cycle time that the C call is asked.
#[derive(Clone, Debug, PartialEq, Eq)]
pub struct Question {
    /// The bytes.
    pub bytes: Vec<u8>,
    /// The top of the cycle time.
    pub p: u64,
    /// Its bottom.
    pub q: u64,
}

/// Sets the seed for the cycle times apart from the seed of the files.
const TIMES: u64 = 0x7469_6d65_7300_0000;

/// Cycle times at their limits and past them.
pub(crate) const LIMITS: [(u64, u64); 10] = [
    (0, 0),
    (0, 1),
    (0, GREATEST_Q),
    (0, GREATEST_Q + 1),
    (GREATEST_P, 1),
    (GREATEST_P, GREATEST_Q),
    (GREATEST_P + 1, 1),
    (u64::MAX, 1),
    (0, u64::MAX),
    (u64::MAX, u64::MAX),
];

/// The question of an index: of a sheet mostly about its ends, else one at the limits,
/// since a file is judged first.
pub fn question(seed: u64, index: u64) -> Question {
    let mut random = Random::new(seed ^ TIMES, index);
    let bytes = any(seed, index);
    let (p, q) = match file::read(&bytes) {
        Ok(sheet) if random.chance(75) => generate::cycle_time(&mut random, &sheet),
        _ => random.pick(&LIMITS),
    };
    Question { bytes, p, q }
}

/// The bytes of an index: now and then none.
pub fn any(seed: u64, index: u64) -> Vec<u8> {
    if index % 100 == 99 {
        Vec::new()
    } else {
        generate::file(seed, index)
    }
}

/// As many places as are needed, or more, or too few.
fn places(random: &mut Random, needed: usize) -> usize {
    match random.below(10) {
        0..=4 => needed,
        5..=8 => needed + random.pick(&[1, 2, 30]),
        _ => random.pick(&[0, needed / 2, needed.saturating_sub(1)]),
    }
}

impl fmt::Display for File {
    fn fmt(&self, f: &mut fmt::Formatter<'_>) -> fmt::Result {
        let (tables, schedule) = (self.table_places, self.schedule_places);
        write!(f, "{tables} table places, {schedule} schedule places, ")?;
        write!(f, "file {}", hex(&self.bytes))
    }
}

impl fmt::Display for Question {
    fn fmt(&self, f: &mut fmt::Formatter<'_>) -> fmt::Result {
        let Question { bytes, p, q } = self;
        write!(f, "p {p}, q {q}, file {}", hex(bytes))
    }
}
