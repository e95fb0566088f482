//! The report: what is printed for the bytes of a sheet.

mod reading;

use std::fmt;

use crate::arc::{ArcName, Net};
use crate::ask::{self, Answer};
use crate::ends::{self, Contradiction, Ends, Found, High};
use crate::file;
use crate::fraction::Fraction;
use crate::refusal::PlacedRefusal;
use crate::sheet::Sheet;

pub use self::reading::NoReport;

/// "Of a file over 27,685 bytes the first 27,685 are judged; the answer is the
/// same": one byte more than the longest sheet has.
///
/// The place is the same, too, since no number is cut there: none is read that begins
/// after 27,681, where the longest sheet has its last value, and four groups settle it.
pub const MOST_JUDGED: usize = file::LONGEST + 1;

/// The part of a file that is judged.
pub fn judged(bytes: &[u8]) -> &[u8] {
    &bytes[..bytes.len().min(MOST_JUDGED)]
}

/// A report; its display is the exact text.
#[derive(Clone, Debug, PartialEq, Eq)]
pub enum Report {
    /// "A refusal prints "refused" and the number", and the place "after the number".
    Refused(PlacedRefusal),
    /// The ends, and the plan at low.
    Ends(Found, Plan),
    /// "Without ends: "none", then "first" and "second" with counts and arcs."
    None(Contradiction),
}

/// ""plan" gives q and rounds at low, then one line per position with n times."
#[derive(Clone, Debug, PartialEq, Eq)]
pub struct Plan {
    /// Low's bottom.
    pub q: i64,
    /// The rounds reported at low.
    pub rounds: usize,
    /// For each position, the times of the n events.
    pub times: Vec<Vec<i64>>,
}

impl Report {
    /// The report on any bytes.
    pub fn new(bytes: &[u8]) -> Report {
        match file::read(judged(bytes)) {
            Ok(sheet) => Report::on(&sheet),
            Err(refused) => Report::Refused(refused),
        }
    }

    /// The report on a sheet.
    pub fn on(sheet: &Sheet) -> Report {
        let net = Net::new(sheet);
        match ends::find(&net) {
            Ends::Found(found) => {
                let plan = Plan::at_low(&net, found.low);
                Report::Ends(found, plan)
            }
            Ends::None(none) => Report::None(none),
        }
    }
}

impl Plan {
    fn at_low(net: &Net, low: Fraction) -> Plan {
        match ask::ask(net, low.into()) {
            Answer::Accepted { plan, rounds } => Plan {
                q: low.bottom,
                rounds,
                times: by_position(&plan, net.n),
            },
            Answer::Refuted { circuit } => panic!("low = {low} is refuted by {circuit:?}"),
        }
    }
}

/// The times of a plan, n to a position.
pub fn by_position(plan: &[i64], n: usize) -> Vec<Vec<i64>> {
    plan.chunks(n).map(<[i64]>::to_vec).collect()
}

/// "One arc a line (kind, position, to, from)."
pub fn arc_lines(arcs: &[ArcName]) -> String {
    arcs.iter().map(|arc| format!("{arc}\n")).collect()
}

/// "One line per position with n times."
pub fn time_lines(times: &[Vec<i64>]) -> String {
    let line = |times: &Vec<i64>| {
        let times: Vec<String> = times.iter().map(i64::to_string).collect();
        times.join(" ") + "\n"
    };
    times.iter().map(line).collect()
}

/// "Each line ends in one line feed. Words and numbers are parted by one space."
impl fmt::Display for Report {
    fn fmt(&self, f: &mut fmt::Formatter<'_>) -> fmt::Result {
        match self {
            Report::Refused(refused) => writeln!(f, "{refused}"),
            Report::Ends(found, plan) => write!(f, "{found}{plan}"),
            Report::None(none) => write!(f, "{none}"),
        }
    }
}

impl fmt::Display for Found {
    fn fmt(&self, f: &mut fmt::Formatter<'_>) -> fmt::Result {
        match &self.high {
            High::Open => {
                writeln!(f, "ends {} open", self.low)?;
                write_circuit(f, "low", &self.low_circuit)
            }
            High::At { end, circuit } => {
                writeln!(f, "ends {} {end}", self.low)?;
                write_circuit(f, "low", &self.low_circuit)?;
                write_circuit(f, "high", circuit)
            }
        }
    }
}

impl fmt::Display for Contradiction {
    fn fmt(&self, f: &mut fmt::Formatter<'_>) -> fmt::Result {
        writeln!(f, "none")?;
        write_circuit(f, "first", &self.first)?;
        write_circuit(f, "second", &self.second)
    }
}

impl fmt::Display for Plan {
    fn fmt(&self, f: &mut fmt::Formatter<'_>) -> fmt::Result {
        writeln!(f, "plan {} {}", self.q, self.rounds)?;
        f.write_str(&time_lines(&self.times))
    }
}

fn write_circuit(f: &mut fmt::Formatter<'_>, word: &str, arcs: &[ArcName]) -> fmt::Result {
    writeln!(f, "{word} {}", arcs.len())?;
    f.write_str(&arc_lines(arcs))
}
