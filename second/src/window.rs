//! Windows: the four kinds and what one window says.

use std::fmt;

/// The kind of a window, named after 000's matrix.
///
/// The order of the variants is the order of the kind numbers, so that kinds
/// compare as the records of a sheet file must rise.
#[derive(Clone, Copy, Debug, PartialEq, Eq, PartialOrd, Ord, Hash)]
pub enum Kind {
    /// 0: "x_i(h) - x_j(h) is at least w".
    A0,
    /// 1: "x_i(h) - x_j(h) is at most w".
    B0,
    /// 2: "x_i(h+1) - x_j(h) is at least w".
    A1,
    /// 3: "x_i(h+1) - x_j(h) is at most w".
    B1,
}

impl Kind {
    /// The four kinds, each at the index that is its number.
    pub const ALL: [Kind; 4] = [Kind::A0, Kind::B0, Kind::A1, Kind::B1];

    /// The kind of this number; there is none above 3.
    pub fn from_number(number: u64) -> Option<Kind> {
        let index = usize::try_from(number).ok()?;
        Kind::ALL.get(index).copied()
    }

    /// The number of this kind.
    pub fn number(self) -> usize {
        self as usize
    }

    /// Whether the window says "at most": kinds 1 and 3.
    pub fn is_upper(self) -> bool {
        matches!(self, Kind::B0 | Kind::B1)
    }

    /// Whether the "to" event stands at h+1: kinds 2 and 3.
    pub fn reaches_next(self) -> bool {
        matches!(self, Kind::A1 | Kind::B1)
    }
}

/// A window of a mode: "one of four kinds, an event "to" = i, an event
/// "from" = j, and a whole number w".
#[derive(Clone, Copy, Debug, PartialEq, Eq, Hash)]
pub struct Window {
    /// What the window says.
    pub kind: Kind,
    /// The event i, from 1.
    pub to: usize,
    /// The event j, from 1.
    pub from: usize,
    /// The limit.
    pub w: i32,
}

impl Window {
    /// What records rise by: "by kind, then to, then from".
    pub fn rank(&self) -> (Kind, usize, usize) {
        (self.kind, self.to, self.from)
    }
}

/// Document 01's notation kind:to,from=w.
impl fmt::Display for Window {
    fn fmt(&self, f: &mut fmt::Formatter<'_>) -> fmt::Result {
        let kind = self.kind.number();
        write!(f, "{kind}:{},{}={}", self.to, self.from, self.w)
    }
}
