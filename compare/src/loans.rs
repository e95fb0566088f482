//! Inputs for the calls in memory: the second program's loans, in the form in which
//! both programs take them.

use std::fmt;

use second::generate;
use second::sheet;

use crate::calls;
use crate::difference::hex;

/// A loan whose schedule both programs can be given.
#[derive(Clone, Debug, PartialEq, Eq)]
pub struct Loan {
    /// The loan, every mode number in its schedule below 256.
    loan: generate::Loan,
    /// The same schedule in bytes.
    schedule: Vec<u8>,
}

impl Loan {
    /// The loan, with its schedule cut down to bytes.
    ///
    /// A mode number that is too great for a byte keeps its low bits and gets the top
    /// one, so that it stays past every limit.
    pub fn new(mut loan: generate::Loan) -> Loan {
        let byte = |mode: u64| u8::try_from(mode).unwrap_or(mode as u8 | 0x80);
        let schedule: Vec<u8> = loan.schedule.iter().copied().map(byte).collect();
        loan.schedule = schedule.iter().copied().map(u64::from).collect();
        Loan { loan, schedule }
    }

    /// What the proved calls take of it for a sheet.
    pub fn lent(&self) -> calls::Lent<'_> {
        calls::Lent {
            n: self.loan.n,
            m: self.loan.m,
            v: self.loan.v,
            tables: &self.loan.tables,
            schedule: &self.schedule,
        }
    }

    /// What the second program takes of it for a sheet.
    pub fn lent_to_second(&self) -> sheet::Lent<'_> {
        self.loan.lent()
    }

    /// p of the cycle time that Ask is asked.
    pub fn p(&self) -> u64 {
        self.loan.p
    }

    /// q of the cycle time that Ask is asked.
    pub fn q(&self) -> u64 {
        self.loan.q
    }

    /// The places of the buffers to be written.
    pub fn room(&self) -> generate::Room {
        self.loan.room
    }
}

/// All of the loan: the tables in bytes, lowest first, as they lie in memory.
impl fmt::Display for Loan {
    fn fmt(&self, f: &mut fmt::Formatter<'_>) -> fmt::Result {
        let generate::Loan { n, m, v, p, q, .. } = self.loan;
        let generate::Room {
            file,
            plan,
            circuit,
            second,
        } = self.loan.room;
        write!(f, "n {n}, m {m}, V {v}, p {p}, q {q}, ")?;
        write!(f, "{file} file places, {plan} plan places, ")?;
        write!(f, "{circuit} and {second} circuit places, ")?;
        let tables: Vec<u8> = self
            .loan
            .tables
            .iter()
            .flat_map(|w| w.to_le_bytes())
            .collect();
        write!(
            f,
            "schedule {}, tables {}",
            hex(&self.schedule),
            hex(&tables)
        )
    }
}

#[cfg(test)]
mod tests {
    use super::*;

    #[test]
    fn both_programs_are_lent_the_same_schedule() {
        for index in 0..40 {
            let loan = Loan::new(generate::untimed_loan(3, index));
            let bytes = loan.lent().schedule.iter().copied().map(u64::from);
            assert!(bytes.eq(loan.lent_to_second().schedule.iter().copied()));
        }
    }

    #[test]
    fn a_mode_number_past_a_byte_stays_past_every_limit() {
        let mut loan = generate::untimed_loan(3, 0);
        loan.schedule = vec![7, 255, 256, (1 << 32) + 3, u64::MAX];
        let loan = Loan::new(loan);
        assert_eq!(loan.lent().schedule, [7, 255, 0x80, 0x83, 0xff]);
    }
}
