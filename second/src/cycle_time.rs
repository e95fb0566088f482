//! Cycle times p/q, as Ask is asked them.

use crate::fraction::Fraction;
use crate::limits::{GREATEST_P, GREATEST_Q};
use crate::refusal::Refusal;

/// A cycle time p/q: "each limit w becomes q·w and the cycle time becomes p".
///
/// It "need not be in lowest terms and is not reduced by Ask", since the steps
/// in which the plan is given are steps of 1/q.
#[derive(Clone, Copy, Debug, PartialEq, Eq)]
pub struct CycleTime {
    /// The cycle time in steps.
    pub p: i64,
    /// Steps to the unit.
    pub q: i64,
}

impl CycleTime {
    /// The cycle time p/q, or refusal 10 when p or q is past its limit.
    pub fn within_limits(p: u64, q: u64) -> Result<CycleTime, Refusal> {
        if p <= GREATEST_P && (1..=GREATEST_Q).contains(&q) {
            Ok(CycleTime {
                p: p as i64,
                q: q as i64,
            })
        } else {
            Err(Refusal::CycleTime)
        }
    }
}

impl From<Fraction> for CycleTime {
    fn from(fraction: Fraction) -> CycleTime {
        CycleTime {
            p: fraction.top,
            q: fraction.bottom,
        }
    }
}

#[cfg(test)]
mod tests {
    use super::*;

    #[test]
    fn cycle_times_past_their_limits_are_10() {
        for (p, q) in [(0, 0), (0, 1001), (1_000_000_001, 1), (u64::MAX, u64::MAX)] {
            assert_eq!(CycleTime::within_limits(p, q), Err(Refusal::CycleTime));
        }
        for (p, q) in [(0, 1), (0, 1000), (1_000_000_000, 1000)] {
            assert!(CycleTime::within_limits(p, q).is_ok());
        }
    }
}
