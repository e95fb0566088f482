//! Proposals: another engine's answer held to the sheet (02, E2).

use std::fmt;

use crate::arc::ArcName;
use crate::check::{self, Fault};
use crate::cycle_time::CycleTime;
use crate::refusal::{PlacedRefusal, Refusal};
use crate::sheet::Sheet;

/// What is said of a proposal that is not refused.
#[derive(Clone, Copy, Debug, PartialEq, Eq)]
pub enum Verdict {
    /// 0: "a plan that keeps every window, or a refutation as 01 describes".
    Accepted,
    /// 102: "the first window broken (lowest position, then kind, to, from)".
    Broken(ArcName),
    /// 103: "the index, from 0, of the first bad arc".
    BadArc(usize),
    /// 104: the arcs are not closed.
    NotClosed,
    /// 105: a node is left twice.
    LeftTwice,
    /// 106: the first arc does not leave the smallest node.
    NotSmallest,
    /// 107: the total is not above zero.
    NotAboveZero,
}

impl Verdict {
    /// The number the call answers.
    pub fn number(self) -> u64 {
        match self {
            Verdict::Accepted => 0,
            Verdict::Broken(_) => 102,
            Verdict::BadArc(_) => 103,
            Verdict::NotClosed => 104,
            Verdict::LeftTwice => 105,
            Verdict::NotSmallest => 106,
            Verdict::NotAboveZero => 107,
        }
    }

    /// The values that come with it: of a window its position, kind, to and from.
    pub fn values(self) -> Vec<u64> {
        match self {
            Verdict::Broken(ArcName {
                kind,
                position,
                to,
                from,
            }) => vec![position, kind, to, from],
            Verdict::BadArc(index) => vec![index as u64],
            _ => Vec::new(),
        }
    }

    /// The verdict on what was found wrong, if anything was.
    fn on(checked: Result<(), Fault>) -> Verdict {
        match checked {
            Ok(()) => Verdict::Accepted,
            Err(Fault::Broken(window)) => Verdict::Broken(window),
            Err(Fault::NoSuchWindow(index, _) | Fault::NotChained(index)) => Verdict::BadArc(index),
            Err(Fault::NotClosed) => Verdict::NotClosed,
            Err(Fault::LeftTwice) => Verdict::LeftTwice,
            Err(Fault::NotSmallest) => Verdict::NotSmallest,
            Err(Fault::NotAboveZero) => Verdict::NotAboveZero,
            Err(other) => panic!("of a proposal that is not refused: {other}"),
        }
    }
}

/// The verdict on N times of either sign.
///
/// Every window is looked at, at every position, and the first of all that are broken is
/// picked out.
pub fn times(sheet: &Sheet, time: CycleTime, times: &[i64]) -> Verdict {
    Verdict::on(check::keeps_windows(sheet, time, times))
}

/// The verdict on a list of arcs that is not empty.
pub fn arcs(sheet: &Sheet, time: CycleTime, arcs: &[ArcName]) -> Verdict {
    Verdict::on(check::refutes(sheet, time, arcs))
}

/// All that a call answers of a proposal: a number, and the values that come with it.
#[derive(Clone, Debug, PartialEq, Eq)]
pub struct Answered {
    /// The number.
    pub number: u64,
    /// The values, in their order.
    pub values: Vec<u64>,
}

/// A refusal comes with no value.
impl From<Result<Verdict, Refusal>> for Answered {
    fn from(answer: Result<Verdict, Refusal>) -> Answered {
        let (number, values) = match answer {
            Ok(verdict) => (verdict.number(), verdict.values()),
            Err(refusal) => (refusal.number(), Vec::new()),
        };
        Answered { number, values }
    }
}

/// A refusal of the file comes with its place.
impl From<PlacedRefusal> for Answered {
    fn from(refused: PlacedRefusal) -> Answered {
        Answered {
            number: refused.refusal.number(),
            values: vec![refused.place as u64],
        }
    }
}

/// As "accepted 0", "broken 102 1 3 5 4", "wrong 103 7" or "refused 6 17".
impl fmt::Display for Answered {
    fn fmt(&self, f: &mut fmt::Formatter<'_>) -> fmt::Result {
        let word = match self.number {
            0 => "accepted",
            102 => "broken",
            number if Refusal::from_number(number).is_some() => "refused",
            _ => "wrong",
        };
        write!(f, "{word} {}", self.number)?;
        self.values
            .iter()
            .try_for_each(|value| write!(f, " {value}"))
    }
}
