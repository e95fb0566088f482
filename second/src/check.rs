//! Checks of answers, whoever gave them.
//!
//! Nothing here depends on how an answer was found. Plans are held against what
//! the windows say, circuits against the definition of a circuit, and ends
//! against plans and circuits.

mod answer;
mod circuit;
mod ends;
mod plan;

use std::fmt;

use crate::arc::ArcName;
use crate::cycle_time::CycleTime;
use crate::fraction::Fraction;

pub use self::answer::{answer, never_still};
pub use self::circuit::{circuit, refutes};
pub use self::ends::ends;
pub use self::plan::{is_earliest, keeps_windows};

/// What is wrong with an answer.
#[derive(Clone, Debug, PartialEq, Eq)]
pub enum Fault {
    /// The plan has not N times.
    PlanLength,
    /// The time of this node, counted from 1, is below 0.
    NegativeTime(usize),
    /// The plan breaks this window at this position, and none before it: "lowest
    /// position, then kind, to, from".
    Broken(ArcName),
    /// The time of this node, counted from 1, could be smaller.
    NotEarliest(usize),
    /// The circuit has no arcs.
    NoArcs,
    /// The first bad arc, at this index from 0: the mode at that position has no such
    /// window.
    NoSuchWindow(usize, ArcName),
    /// The first bad arc, at this index from 0: it leaves elsewhere than where the one
    /// before arrived.
    NotChained(usize),
    /// The last arc arrives elsewhere than where the first one leaves.
    NotClosed,
    /// A node is left twice.
    LeftTwice,
    /// The first arc leaves another node than the smallest.
    NotSmallest,
    /// The circuit's total is not above zero.
    NotAboveZero,
    /// The rounds are others.
    WrongRounds(usize),
    /// This table equals the one after it, and so the cycle time works.
    StandsStill(usize),
    /// A list that should be empty has arcs.
    NeedlessArcs,
    /// The fraction is not in lowest terms with a bottom of 1..n.
    NotLowest(Fraction),
    /// W or c of the circuit is not as it has to be for this place.
    WrongCircuit,
    /// The cycle time is claimed to work and does not.
    DoesNotWork(CycleTime),
}

impl fmt::Display for Fault {
    fn fmt(&self, f: &mut fmt::Formatter<'_>) -> fmt::Result {
        match self {
            Fault::PlanLength => write!(f, "the plan has not N times"),
            Fault::NegativeTime(node) => write!(f, "the time of node {node} is below 0"),
            Fault::Broken(arc) => write!(f, "the plan breaks the window {arc}"),
            Fault::NotEarliest(node) => write!(f, "the time of node {node} could be smaller"),
            Fault::NoArcs => write!(f, "the circuit has no arcs"),
            Fault::NoSuchWindow(_, arc) => write!(f, "there is no window {arc}"),
            Fault::NotChained(index) => {
                write!(f, "arc {index} does not leave where the one before arrived")
            }
            Fault::NotClosed => write!(f, "the last arc does not arrive where the first leaves"),
            Fault::LeftTwice => write!(f, "a node is left twice"),
            Fault::NotSmallest => write!(f, "the first arc does not leave the smallest node"),
            Fault::NotAboveZero => write!(f, "the circuit's total is not above zero"),
            Fault::WrongRounds(rounds) => write!(f, "the rounds are not {rounds}"),
            Fault::StandsStill(table) => write!(f, "table {table} equals the one after it"),
            Fault::NeedlessArcs => write!(f, "there are arcs where there should be none"),
            Fault::NotLowest(end) => write!(f, "{end} is not in lowest terms with bottom 1..n"),
            Fault::WrongCircuit => write!(f, "W or c of the circuit is wrong for its place"),
            Fault::DoesNotWork(time) => write!(f, "{}/{} does not work", time.p, time.q),
        }
    }
}

impl std::error::Error for Fault {}
