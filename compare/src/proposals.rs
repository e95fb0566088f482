//! Inputs for the checks of proposals: times, or the numbers of arcs, for a sheet in memory
//! and for one in a file.

use std::fmt;

use second::calls;
use second::file;
use second::generate::{self, Proposed};
use second::proposal::Answered;
use second::random::Random;
use second::sheet::{Lent, Sheet};

use crate::buffer::Cell;
use crate::calls::VALUES;
use crate::files::{self, Question};
use crate::loans::Loan;

/// What a proposal is a list of: times, or the numbers of arcs.
pub trait Item: Cell {
    /// The word for the list.
    const LIST: &'static str;

    /// A proposal for a sheet, right or wrong.
    fn propose(random: &mut Random, sheet: &Sheet) -> Proposed<Self>;

    /// What the second program says of a list, for a sheet in memory.
    fn check(lent: Lent<'_>, p: u64, q: u64, list: &[Self]) -> Answered;

    /// What the second program says of a list, for a sheet in a file.
    fn check_file(file: &[u8], p: u64, q: u64, list: &[Self]) -> Answered;
}

impl Item for i64 {
    const LIST: &'static str = "times";

    fn propose(random: &mut Random, sheet: &Sheet) -> Proposed<i64> {
        generate::times(random, sheet)
    }

    fn check(lent: Lent<'_>, p: u64, q: u64, list: &[i64]) -> Answered {
        calls::check_times(lent, p, q, list).into()
    }

    fn check_file(file: &[u8], p: u64, q: u64, list: &[i64]) -> Answered {
        calls::check_times_of(file, p, q, list)
    }
}

impl Item for u8 {
    const LIST: &'static str = "arcs";

    fn propose(random: &mut Random, sheet: &Sheet) -> Proposed<u8> {
        generate::arcs(random, sheet)
    }

    fn check(lent: Lent<'_>, p: u64, q: u64, list: &[u8]) -> Answered {
        calls::check_arcs(lent, p, q, list).into()
    }

    fn check_file(file: &[u8], p: u64, q: u64, list: &[u8]) -> Answered {
        calls::check_arcs_of(file, p, q, list)
    }
}

/// A list proposed for what is lent as a sheet, `S`.
#[derive(Clone, Debug, PartialEq, Eq)]
pub struct Proposal<S, T> {
    /// What is lent, and the cycle time.
    pub sheet: S,
    /// What is proposed.
    pub list: Vec<T>,
    /// The places lent for values: mostly more than there are values.
    pub room: usize,
}

/// Sets the seed for proposals apart from the seed of the files.
const PROPOSALS: u64 = 0x7072_6f70_6f73_6564;

/// The proposal of an index for a sheet in memory.
pub fn lent<T: Item>(seed: u64, index: u64) -> Proposal<Loan, T> {
    let (loan, list) = generate::loan_with(seed, index, T::propose);
    let mut random = Random::new(seed ^ PROPOSALS, index);
    Proposal {
        sheet: Loan::new(loan),
        list,
        room: room(&mut random),
    }
}

/// The proposal of an index for a sheet in a file, or for a file that is none.
pub fn filed<T: Item>(seed: u64, index: u64) -> Proposal<Question, T> {
    let mut random = Random::new(seed ^ PROPOSALS, index);
    let bytes = files::any(seed, index);
    let proposed = match file::read(&bytes) {
        Ok(sheet) => T::propose(&mut random, &sheet),
        Err(_) => of_any_numbers(&mut random),
    };
    let (p, q) = if random.chance(8) {
        random.pick(&files::LIMITS)
    } else {
        (proposed.p, proposed.q)
    };
    Proposal {
        sheet: Question { bytes, p, q },
        list: proposed.list,
        room: room(&mut random),
    }
}

/// A proposal that is not for any sheet.
fn of_any_numbers<T: Item>(random: &mut Random) -> Proposed<T> {
    let list = generate::any_numbers(random, 20);
    Proposed {
        p: random.below(100),
        q: random.below(100),
        list: list.into_iter().map(T::of_bits).collect(),
    }
}

fn room(random: &mut Random) -> usize {
    random.pick(&[VALUES, VALUES, VALUES, 4, 3, 1, 0])
}

impl<S: fmt::Display, T: Item> fmt::Display for Proposal<S, T> {
    fn fmt(&self, f: &mut fmt::Formatter<'_>) -> fmt::Result {
        let Proposal { sheet, list, room } = self;
        write!(f, "{} {list:?}, {room} places for values, {sheet}", T::LIST)
    }
}
