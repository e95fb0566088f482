//! Fractions in lowest terms: the form of an end.

use std::fmt;

/// A fraction as an end of the cycle times is given.
///
/// The fields are open because another program's claim may be any two numbers;
/// [`Fraction::is_lowest`] tells whether it is in the form 01 asks for.
#[derive(Clone, Copy, Debug, PartialEq, Eq, Hash)]
pub struct Fraction {
    /// The top.
    pub top: i64,
    /// The bottom.
    pub bottom: i64,
}

impl Fraction {
    /// "Zero is 0/1."
    pub const ZERO: Fraction = Fraction { top: 0, bottom: 1 };

    /// The fraction top/bottom in lowest terms, for a top from 0 and a bottom
    /// from 1.
    pub fn lowest(top: i64, bottom: i64) -> Fraction {
        debug_assert!(top >= 0 && bottom >= 1, "{top}/{bottom}");
        let divisor = gcd(top, bottom);
        Fraction {
            top: top / divisor,
            bottom: bottom / divisor,
        }
    }

    /// Whether this is in lowest terms, with top from 0 and bottom from 1.
    pub fn is_lowest(&self) -> bool {
        self.top >= 0 && self.bottom >= 1 && gcd(self.top, self.bottom) == 1
    }
}

impl fmt::Display for Fraction {
    fn fmt(&self, f: &mut fmt::Formatter<'_>) -> fmt::Result {
        write!(f, "{}/{}", self.top, self.bottom)
    }
}

/// The greatest common divisor of numbers from 0, not both 0.
fn gcd(a: i64, b: i64) -> i64 {
    if b == 0 {
        a
    } else {
        gcd(b, a % b)
    }
}

#[cfg(test)]
mod tests {
    use super::*;

    #[test]
    fn fractions_are_reduced() {
        assert_eq!(Fraction::lowest(0, 12), Fraction::ZERO);
        assert_eq!(Fraction::lowest(10, 4).to_string(), "5/2");
        assert!(Fraction::lowest(192_000_000, 12).is_lowest());
    }

    #[test]
    fn other_forms_are_not_lowest() {
        for (top, bottom) in [(0, 2), (2, 4), (1, 0), (0, 0), (1, -1), (-1, 1)] {
            assert!(!Fraction { top, bottom }.is_lowest(), "{top}/{bottom}");
        }
    }
}
