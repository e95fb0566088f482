//! The kinds of comparison, and the numbers that each can come to.

use std::fmt;

/// What is compared.
#[derive(Clone, Copy, Debug, PartialEq, Eq)]
pub enum Kind {
    /// Files read, and written back.
    Reader,
    /// Sheets written.
    Writer,
    /// Cycle times asked.
    Ask,
    /// Ends found.
    Ends,
    /// Files and cycle times judged by the C call.
    Host,
    /// Reports written.
    Report,
    /// Proposed times held to a sheet in memory.
    Times,
    /// Proposed arcs held to a sheet in memory.
    Arcs,
    /// Both held to a sheet in a file, by the C calls.
    Checker,
}

impl Kind {
    /// All kinds.
    pub const ALL: [Kind; 9] = [
        Kind::Reader,
        Kind::Writer,
        Kind::Ask,
        Kind::Ends,
        Kind::Host,
        Kind::Report,
        Kind::Times,
        Kind::Arcs,
        Kind::Checker,
    ];

    /// The kind of this name.
    pub fn from_name(name: &str) -> Option<Kind> {
        Kind::ALL.into_iter().find(|kind| kind.name() == name)
    }

    /// The word for this kind.
    pub fn name(self) -> &'static str {
        match self {
            Kind::Reader => "reader",
            Kind::Writer => "writer",
            Kind::Ask => "ask",
            Kind::Ends => "ends",
            Kind::Host => "host",
            Kind::Report => "report",
            Kind::Times => "times",
            Kind::Arcs => "arcs",
            Kind::Checker => "checker",
        }
    }

    /// The refusals that calls of this kind can give, in the order in which 01 and 02 have
    /// them checked.
    pub fn refusals(self) -> &'static [u32] {
        match self {
            Kind::Reader | Kind::Report => &[1, 2, 3, 4, 5, 6, 7, 8, 9],
            Kind::Writer | Kind::Ends => &[4, 5, 6, 9],
            Kind::Ask => &[4, 5, 6, 10, 9],
            Kind::Host => &[1, 2, 3, 4, 5, 6, 7, 8, 10],
            Kind::Times | Kind::Arcs => &[4, 5, 6, 10, 11],
            Kind::Checker => &[1, 2, 3, 4, 5, 6, 7, 8, 10, 11],
        }
    }

    /// The other numbers that calls of this kind can give, with their words.
    pub fn answers(self) -> &'static [(u32, &'static str)] {
        match self {
            Kind::Reader => &[(0, "read")],
            Kind::Writer => &[(0, "written")],
            Kind::Ask | Kind::Host => &[(0, "accepted"), (100, "refuted")],
            Kind::Ends | Kind::Report => &[(0, "found"), (101, "none")],
            Kind::Times => &[(0, "accepted"), (102, "broken")],
            Kind::Arcs => &[
                (0, "accepted"),
                (103, "bad arc"),
                (104, "not closed"),
                (105, "left twice"),
                (106, "not smallest first"),
                (107, "not above zero"),
            ],
            Kind::Checker => &[
                (0, "accepted"),
                (102, "broken"),
                (103, "bad arc"),
                (104, "not closed"),
                (105, "left twice"),
                (106, "not smallest first"),
                (107, "not above zero"),
            ],
        }
    }
}

impl fmt::Display for Kind {
    fn fmt(&self, f: &mut fmt::Formatter<'_>) -> fmt::Result {
        f.write_str(self.name())
    }
}

#[cfg(test)]
mod tests {
    use super::*;

    #[test]
    fn kinds_go_by_their_names() {
        for kind in Kind::ALL {
            assert_eq!(Kind::from_name(kind.name()), Some(kind));
        }
        assert_eq!(Kind::from_name("all"), None);
    }
}
