//! The sheets that are measured: as many nodes as there can be, with few windows and
//! with all that there can be.

use second::arc::Net;
use second::ends;
use second::file;
use second::fraction::Fraction;
use second::generate;
use second::limits::{GREATEST_Q, MOST_EVENTS, MOST_POSITIONS};
use second::sheet::Sheet;

/// A sheet in every form in which it is handed over, with its low.
#[derive(Clone, Debug)]
pub struct Measured {
    /// The word for it.
    pub name: &'static str,
    /// The file.
    pub file: Vec<u8>,
    /// n.
    pub n: u64,
    /// m.
    pub m: u64,
    /// V.
    pub v: u64,
    /// The tables.
    pub tables: Vec<i32>,
    /// The schedule.
    pub schedule: Vec<u8>,
    /// The arcs that the windows make.
    pub arcs: usize,
    /// The lowest cycle time, above 0.
    pub low: Fraction,
}

/// The sheets: those of the second program's generator at a seed and two indices. Both
/// have 192 nodes and a low above 0.
pub fn all() -> [Measured; 2] {
    [
        Measured::new("sparse", &generate::sheet(1, 9442)),
        Measured::new("dense", &generate::sheet(1, 1884)),
    ]
}

impl Measured {
    fn new(name: &'static str, sheet: &Sheet) -> Measured {
        assert_eq!(
            (sheet.n(), sheet.v()),
            (MOST_EVENTS, MOST_POSITIONS),
            "the generator has changed: choose other indices"
        );
        let net = Net::new(sheet);
        let span = ends::find(&net).span().expect("the sheet has ends");
        assert!(span.low.top > 0, "there are cycle times below low");
        Measured {
            name,
            file: file::write(sheet),
            n: sheet.n() as u64,
            m: sheet.m() as u64,
            v: sheet.v() as u64,
            tables: sheet.tables().to_vec(),
            schedule: sheet.schedule().iter().map(|&mode| mode as u8).collect(),
            arcs: net.arcs.len(),
            low: span.low,
        }
    }

    /// N.
    pub fn nodes(&self) -> usize {
        (self.n * self.v) as usize
    }

    /// Low, as p and q.
    pub fn at_low(&self) -> (u64, u64) {
        (self.low.top as u64, self.low.bottom as u64)
    }

    /// The greatest cycle time below low, of those with the same steps as low or finer
    /// ones, as far as q goes.
    pub fn below_low(&self) -> (u64, u64) {
        let (p, q) = self.at_low();
        let finer = GREATEST_Q / q;
        (p * finer - 1, q * finer)
    }
}
