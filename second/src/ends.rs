//! Ends: "the lowest and highest cycle time".
//!
//! Three methods answer it, and the tests hold them against each other:
//!
//! - [`find`], the one to use, looks at closed walks by how often they cross the
//!   period end;
//! - [`enumeration`] goes through every circuit there is, on small sheets;
//! - [`bisection`] asks at one cycle time after another.

pub mod bisection;
mod crossings;
pub mod enumeration;

use crate::arc::{ArcName, Net};
use crate::circuit::Circuit;
use crate::fraction::Fraction;
use crate::paths::Paths;

/// What Ends answers when it refuses nothing.
#[derive(Clone, Debug, PartialEq, Eq)]
pub enum Ends {
    /// 0: ends found.
    Found(Found),
    /// 101: none.
    None(Contradiction),
}

/// The ends, with the circuits that show that no cycle time lies beyond them.
#[derive(Clone, Debug, PartialEq, Eq)]
pub struct Found {
    /// The lowest cycle time.
    pub low: Fraction,
    /// "A circuit of c below 0 and total zero at low, exactly when low is above
    /// 0; otherwise that circuit has no arcs."
    pub low_circuit: Vec<ArcName>,
    /// The highest cycle time.
    pub high: High,
}

/// "High is a fraction with a circuit ... or "open" with no circuit."
#[derive(Clone, Debug, PartialEq, Eq)]
pub enum High {
    /// Every cycle time from low on works.
    Open,
    /// The highest cycle time.
    At {
        /// The end itself.
        end: Fraction,
        /// A circuit of c above 0 and total zero at high.
        circuit: Vec<ArcName>,
    },
}

/// The circuits that show that no cycle time works.
///
/// ""None" comes with one circuit (W above 0, c at least 0; the second list
/// empty) or with two, the first of c below 0 whose limit W/(-c) is greater than
/// the limit -W/c of the second, with c above 0."
#[derive(Clone, Debug, PartialEq, Eq)]
pub struct Contradiction {
    /// The first circuit.
    pub first: Vec<ArcName>,
    /// The second circuit, or no arcs.
    pub second: Vec<ArcName>,
}

/// The cycle times that work, without circuits: what the three methods must
/// agree in.
#[derive(Clone, Copy, Debug, PartialEq, Eq)]
pub struct Span {
    /// The lowest cycle time.
    pub low: Fraction,
    /// The highest, unless it is open.
    pub high: Option<Fraction>,
}

impl Ends {
    /// The number the call answers.
    pub fn number(&self) -> u64 {
        match self {
            Ends::Found(_) => 0,
            Ends::None(_) => 101,
        }
    }

    /// The cycle times that work, if any do.
    pub fn span(&self) -> Option<Span> {
        let found = match self {
            Ends::Found(found) => found,
            Ends::None(_) => return None,
        };
        let high = match found.high {
            High::Open => None,
            High::At { end, .. } => Some(end),
        };
        let low = found.low;
        Some(Span { low, high })
    }
}

/// The ends of a net.
///
/// Among the arcs that do not cross the period end a circuit above zero says
/// "none" at once. Without one, the heaviest closed walk for each c decides, as
/// the private module `crossings` explains.
pub fn find(net: &Net) -> Ends {
    let mut limits = Limits::default();
    match Paths::longest(net, |arc| (arc.c == 0).then_some(arc.w)) {
        Ok(inner) => limits.extend(crossings::heaviest_circuits(net, &inner)),
        Err(circuit) => limits.extend([circuit]),
    }
    limits.answer()
}

/// The tightest limits that circuits set to the cycle time.
///
/// A circuit's total W + c·λ must not be above zero. This says λ is at least
/// W/(-c) where c is below 0 and at most -W/c where c is above 0. Where W is
/// above 0 and c is not below 0, no λ from 0 on will do.
#[derive(Clone, Debug, Default)]
struct Limits {
    /// A circuit that no cycle time satisfies.
    never: Option<Circuit>,
    /// A circuit of c below 0 with the greatest limit.
    low: Option<Circuit>,
    /// A circuit of c above 0 with the least limit.
    high: Option<Circuit>,
}

impl Extend<Circuit> for Limits {
    fn extend<T: IntoIterator<Item = Circuit>>(&mut self, circuits: T) {
        for circuit in circuits {
            self.take_in(circuit);
        }
    }
}

impl Limits {
    fn take_in(&mut self, circuit: Circuit) {
        if circuit.c() < 0 {
            keep_tighter(&mut self.low, circuit);
        } else if circuit.w() > 0 {
            self.never.get_or_insert(circuit);
        } else if circuit.c() > 0 {
            keep_tighter(&mut self.high, circuit);
        }
    }

    /// The ends between these limits.
    fn answer(self) -> Ends {
        if let Some(never) = self.never {
            return Ends::None(Contradiction {
                first: never.names(),
                second: Vec::new(),
            });
        }
        // A limit at or below zero is no limit to cycle times, which are never
        // negative.
        let low = self.low.filter(|circuit| circuit.w() > 0);
        match (low, self.high) {
            (Some(low), Some(high)) if contradict(&low, &high) => Ends::None(Contradiction {
                first: low.names(),
                second: high.names(),
            }),
            (low, high) => Ends::Found(Found {
                low: low.as_ref().map_or(Fraction::ZERO, limit),
                low_circuit: low.as_ref().map_or_else(Vec::new, Circuit::names),
                high: high.as_ref().map_or(High::Open, |circuit| High::At {
                    end: limit(circuit),
                    circuit: circuit.names(),
                }),
            }),
        }
    }
}

/// Keeps the circuit if its limit is tighter than that of the one known, whose c
/// has the same sign. Low wants the greatest W/(-c) and high the least -W/c, so
/// both want the greatest W/|c|.
fn keep_tighter(known: &mut Option<Circuit>, circuit: Circuit) {
    let is_tighter = match known {
        Some(known) => circuit.w() * known.c().abs() > known.w() * circuit.c().abs(),
        None => true,
    };
    if is_tighter {
        *known = Some(circuit);
    }
}

/// The cycle time at which the circuit's total is zero; it must not be negative.
fn limit(circuit: &Circuit) -> Fraction {
    Fraction::lowest(circuit.w().abs(), circuit.c().abs())
}

/// Whether "the limit W/(-c)" of a circuit of c below 0 "is greater than the
/// limit -W/c of the second, with c above 0".
pub(crate) fn contradict(low: &Circuit, high: &Circuit) -> bool {
    low.w() * high.c() > -high.w() * -low.c()
}
