//! Cases tried one by one, each printed, and how many hold.

use std::fmt;

/// A case that was tried.
#[derive(Clone, Debug, PartialEq, Eq)]
pub struct Tried {
    line: String,
    /// Whether it came out as it should.
    pub holds: bool,
}

impl Tried {
    /// A case of which one thing was said and this is the outcome.
    pub fn said(case: &str, said: &str, outcome: &str) -> Tried {
        let holds = said == outcome;
        let line = if holds {
            format!("{case}: {said:?}")
        } else {
            format!("FAILED: {case}: {said:?}, not {outcome:?}")
        };
        Tried { line, holds }
    }
}

impl fmt::Display for Tried {
    fn fmt(&self, f: &mut fmt::Formatter<'_>) -> fmt::Result {
        f.write_str(&self.line)
    }
}

/// The last line: "N passed, M failed".
pub fn tally(tried: &[Tried]) -> String {
    let passed = tried.iter().filter(|tried| tried.holds).count();
    format!("{passed} passed, {} failed", tried.len() - passed)
}
