//! Ends by asking at one cycle time after another.
//!
//! An end has a bottom of at most n, so it is a whole number of steps of 1/q
//! where q is a common multiple of 1 to n. Among the cycle times of that many
//! steps, each refutation says on which side those that work must lie.

use crate::arc::Net;
use crate::ask;
use crate::cycle_time::CycleTime;
use crate::fraction::Fraction;
use crate::limits::GREATEST_VALUE;

use super::Span;

/// The ends of a net, without circuits.
pub fn find(net: &Net) -> Option<Span> {
    let q = common_multiple(net.n as i64);
    let past_every_end = q * whole_past_every_end(net.nodes);
    let ask = |p| ask::earliest_plan(net, CycleTime { p, q });

    // Look for a cycle time that works, between two that bound all those.
    let (mut least, mut most) = (0, past_every_end);
    let working = loop {
        if least > most {
            return None;
        }
        let middle = (least + most) / 2;
        match ask(middle).map_err(|circuit| circuit.c().signum()) {
            Ok(_) => break middle,
            Err(-1) => least = middle + 1,
            Err(1) => most = middle - 1,
            Err(_) => return None,
        }
    };

    // From there every cycle time works as far as an end, and none beyond.
    let low = first_that(least, working, |p| ask(p).is_ok());
    let past_high = first_that(working, most + 1, |p| ask(p).is_err());
    let high = past_high - 1;
    Some(Span {
        low: Fraction::lowest(low, q),
        high: (high < past_every_end).then(|| Fraction::lowest(high, q)),
    })
}

/// A whole cycle time greater than any end: of the limits W/(-c) and -W/c none is
/// above N times the greatest w.
pub(crate) fn whole_past_every_end(nodes: usize) -> i64 {
    nodes as i64 * i64::from(GREATEST_VALUE) + 1
}

/// The least number from `least` on that `holds`, knowing that `most` or a
/// smaller one does and then every greater one.
fn first_that(mut least: i64, mut most: i64, holds: impl Fn(i64) -> bool) -> i64 {
    while least < most {
        let middle = (least + most) / 2;
        if holds(middle) {
            most = middle;
        } else {
            least = middle + 1;
        }
    }
    least
}

/// The least common multiple of 1 to n.
fn common_multiple(n: i64) -> i64 {
    (1..=n).fold(1, |multiple, number| {
        multiple * Fraction::lowest(multiple, number).bottom
    })
}

#[cfg(test)]
mod tests {
    use super::*;

    #[test]
    fn common_multiples() {
        assert_eq!([1, 2, 4, 12].map(common_multiple), [1, 2, 12, 27_720]);
    }

    #[test]
    fn the_first_number_that_holds() {
        for first in 3..=9 {
            assert_eq!(first_that(3, 9, |p| p >= first), first);
        }
    }
}
