//! Ask: "does cycle time p/q work?"

use crate::arc::{ArcName, Net};
use crate::circuit::Circuit;
use crate::cycle_time::CycleTime;
use crate::paths::{Length, Paths};
use crate::rounds;

/// What Ask answers when it refuses nothing.
#[derive(Clone, Debug, PartialEq, Eq)]
pub enum Answer {
    /// 0: the cycle time works.
    Accepted {
        /// N times in steps of 1/q, node by node: the earliest plan.
        plan: Vec<i64>,
        /// The rounds reported.
        rounds: usize,
    },
    /// 100: it does not. "A refutation writes the circuit's places and no plan, and
    /// returns its arc count": no number of rounds is part of it.
    Refuted {
        /// A circuit with total weight above zero.
        circuit: Vec<ArcName>,
    },
}

impl Answer {
    /// The number the call answers.
    pub fn number(&self) -> u64 {
        match self {
            Answer::Accepted { .. } => 0,
            Answer::Refuted { .. } => 100,
        }
    }
}

/// Ask's answer on a net.
pub fn ask(net: &Net, time: CycleTime) -> Answer {
    match earliest_plan(net, time) {
        Ok(plan) => Answer::Accepted {
            rounds: rounds_to(net, time, &plan),
            plan,
        },
        Err(circuit) => {
            assert_never_still(net, time);
            Answer::Refuted {
                circuit: circuit.names(),
            }
        }
    }
}

/// The earliest plan, or a refutation.
///
/// A plan with times from 0 gives each node at least the weight of every path
/// into it, the empty one included; and giving each node the greatest of these
/// keeps every window. So the greatest is the earliest time.
pub fn earliest_plan(net: &Net, time: CycleTime) -> Result<Vec<i64>, Circuit> {
    let paths = Paths::longest(net, |arc| Some(arc.weight(time)))?;
    let earliest = |to| {
        let into = (0..net.nodes).map(|from| paths.length(from, to));
        into.max().unwrap_or(Length::EMPTY).weight()
    };
    Ok((0..net.nodes).map(earliest).collect())
}

/// The rounds, which only the tables themselves can tell. They end in the plan
/// that the paths gave, or one of the two methods is wrong.
fn rounds_to(net: &Net, time: CycleTime, plan: &[i64]) -> usize {
    let (rounds, table) = rounds::settle(net, time).expect("a plan exists, so the tables settle");
    assert_eq!(table, plan, "the tables end in the earliest plan");
    rounds
}

/// "The rounds reported on acceptance are the least r with table r+1 equal to table r,
/// from 0 to N-1 ... On a refutation the number is N": none of the tables 0 to N-1 is
/// equal to the one after it, or one of the two methods is wrong.
fn assert_never_still(net: &Net, time: CycleTime) {
    let settled = rounds::settle(net, time);
    assert_eq!(settled, None, "no plan exists, so no table stands still");
}
