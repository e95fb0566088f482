//! A sheet that the proved reader has read, in room for the largest there can be.

use second::limits::{MOST_EVENTS, MOST_MODES, MOST_POSITIONS};

use crate::calls::{Lent, Read, VALUES};

/// The places of the largest tables.
pub const TABLES: usize = 4 * MOST_MODES * MOST_EVENTS * MOST_EVENTS;
/// The places of the longest plan.
pub const PLAN: usize = MOST_POSITIONS * MOST_EVENTS;
/// The places of the longest circuit.
pub const CIRCUIT: usize = 4 * PLAN;

/// A sheet in memory, with surplus.
#[derive(Clone, Debug, PartialEq, Eq)]
pub struct Held {
    sizes: [u64; VALUES],
    tables: Vec<i32>,
    schedule: Vec<u8>,
}

impl Held {
    /// Reads a file, or gives the number of the refusal.
    pub fn read(read: Read, file: &[u8]) -> Result<Held, u32> {
        let mut held = Held {
            sizes: [0; VALUES],
            tables: vec![0; TABLES],
            schedule: vec![0; MOST_POSITIONS],
        };
        match read(file, &mut held.tables, &mut held.schedule, &mut held.sizes) {
            0 => Ok(held),
            number => Err(number),
        }
    }

    /// What the calls in memory take.
    pub fn lent(&self) -> Lent<'_> {
        Lent {
            n: self.sizes[0],
            m: self.sizes[1],
            v: self.sizes[2],
            tables: &self.tables,
            schedule: &self.schedule,
        }
    }
}
