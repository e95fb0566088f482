//! The numbers 1 to 11: why a call gives no answer, and of a file, where.

use std::fmt;

/// A refusal of document 01's table "Numbers a call can answer", or 11 of 02's E2.
///
/// "Numbers 1 to 10 return only the number and alter nothing lent", so a
/// refusal carries nothing but itself; the reader's is a [`PlacedRefusal`].
#[derive(Clone, Copy, Debug, PartialEq, Eq, PartialOrd, Ord, Hash)]
pub enum Refusal {
    /// 1: "file stops before the sheet is complete".
    FileStops = 1,
    /// 2: "number not shortest, or a fourth group marked as followed".
    NumberForm = 2,
    /// 3: "format number not 1".
    Format = 3,
    /// 4: "n, m or V past its limit; in memory also tables shorter than 4·m·n²
    /// or schedule shorter than V".
    Size = 4,
    /// 5: "schedule names a mode not below m".
    Schedule = 5,
    /// 6: "count above 4·n², kind above 3, event not 1..n, value past its
    /// limit; in memory, an inadmissible table value".
    Window = 6,
    /// 7: "records not strictly rising".
    Rising = 7,
    /// 8: "bytes after the sheet".
    Surplus = 8,
    /// 9: "a buffer to be written is too short".
    Room = 9,
    /// 10: "p or q past its limit".
    CycleTime = 10,
    /// 11: "fewer than N proposed times, a proposed time beyond 382,000,000,000 either
    /// way, or an arc list empty or not of whole arcs" (02, E2).
    Proposal = 11,
}

impl Refusal {
    /// All refusals, in the order of the table.
    pub const ALL: [Refusal; 11] = [
        Refusal::FileStops,
        Refusal::NumberForm,
        Refusal::Format,
        Refusal::Size,
        Refusal::Schedule,
        Refusal::Window,
        Refusal::Rising,
        Refusal::Surplus,
        Refusal::Room,
        Refusal::CycleTime,
        Refusal::Proposal,
    ];

    /// The refusal of this number.
    pub fn from_number(number: u64) -> Option<Refusal> {
        let is_meant = |refusal: &Refusal| refusal.number() == number;
        Refusal::ALL.into_iter().find(is_meant)
    }

    /// The number of this refusal in the table.
    pub fn number(self) -> u64 {
        self as u64
    }

    /// This refusal as the reader gives it.
    pub fn at(self, place: usize) -> PlacedRefusal {
        PlacedRefusal {
            refusal: self,
            place,
        }
    }
}

impl fmt::Display for Refusal {
    fn fmt(&self, f: &mut fmt::Formatter<'_>) -> fmt::Result {
        write!(f, "refused {}", self.number())
    }
}

impl std::error::Error for Refusal {}

/// A refusal of the reader and of the report, with its place (02, E1).
///
/// The place is the one "at which that number began or is missing" that was read last;
/// "for 8, the first surplus byte; for 7, the start of the record"; "0 for 9".
#[derive(Clone, Copy, Debug, PartialEq, Eq, Hash)]
pub struct PlacedRefusal {
    /// Why the file is refused.
    pub refusal: Refusal,
    /// "The byte place, from 0."
    pub place: usize,
}

/// "The report prints it after the number."
impl fmt::Display for PlacedRefusal {
    fn fmt(&self, f: &mut fmt::Formatter<'_>) -> fmt::Result {
        write!(f, "{} {}", self.refusal, self.place)
    }
}

impl std::error::Error for PlacedRefusal {}

#[cfg(test)]
mod tests {
    use super::Refusal;

    #[test]
    fn numbers_are_those_of_the_table() {
        let numbers = Refusal::ALL.map(Refusal::number);
        assert_eq!(numbers, [1, 2, 3, 4, 5, 6, 7, 8, 9, 10, 11]);
        for refusal in Refusal::ALL {
            assert_eq!(Refusal::from_number(refusal.number()), Some(refusal));
        }
        for number in [0, 12, 100, u64::MAX] {
            assert_eq!(Refusal::from_number(number), None);
        }
    }

    #[test]
    fn the_place_is_printed_after_the_number() {
        assert_eq!(Refusal::Window.to_string(), "refused 6");
        assert_eq!(Refusal::Window.at(17).to_string(), "refused 6 17");
    }
}
