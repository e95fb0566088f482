//! How often each number was answered.

use std::collections::BTreeMap;
use std::fmt;

use crate::kind::Kind;

/// The numbers answered in a run of one kind, both programs agreeing in each.
#[derive(Clone, Debug, PartialEq, Eq)]
pub struct Tally {
    kind: Kind,
    counts: BTreeMap<u32, u64>,
}

impl Tally {
    /// A tally of nothing yet.
    pub fn new(kind: Kind) -> Tally {
        Tally {
            kind,
            counts: BTreeMap::new(),
        }
    }

    /// Counts an answer.
    pub fn add(&mut self, number: u32) {
        *self.counts.entry(number).or_insert(0) += 1;
    }

    /// The answers counted.
    pub fn total(&self) -> u64 {
        self.counts.values().sum()
    }

    /// How often a number was answered.
    pub fn count(&self, number: u32) -> u64 {
        self.counts.get(&number).copied().unwrap_or(0)
    }
}

/// As "reader: 3 agree (refused 1: 0, 2: 1, ..., read: 2)": every number that calls of
/// the kind can answer is named, so that one which never came up is seen.
impl fmt::Display for Tally {
    fn fmt(&self, f: &mut fmt::Formatter<'_>) -> fmt::Result {
        write!(f, "{}: {} agree (refused", self.kind, self.total())?;
        for &number in self.kind.refusals() {
            write!(f, " {number}: {},", self.count(number))?;
        }
        for (place, &(number, word)) in self.kind.answers().iter().enumerate() {
            let comma = if place > 0 { "," } else { "" };
            write!(f, "{comma} {word}: {}", self.count(number))?;
        }
        write!(f, ")")
    }
}

#[cfg(test)]
mod tests {
    use super::*;

    #[test]
    fn the_summary_names_every_number() {
        let mut tally = Tally::new(Kind::Ask);
        for number in [100, 9, 100] {
            tally.add(number);
        }
        assert_eq!(
            tally.to_string(),
            "ask: 3 agree (refused 4: 0, 5: 0, 6: 0, 10: 0, 9: 1, accepted: 0, refuted: 2)"
        );
    }
}
