//! Files, sheets, loans and proposals to compare programs on, the same every time.

mod damage;
mod loans;
mod proposals;
mod sheets;

use crate::file;
use crate::random::Random;
use crate::sheet::Sheet;

pub use self::loans::{cycle_time, loan, loan_with, untimed_loan, Loan, Room};
pub use self::proposals::{any_numbers, arcs, times, Proposed};

/// The file of an index: two sheets, then one that is likely no sheet, and so on.
///
/// Within each sort the families take turns, so that any stretch of a few dozen
/// indices has files of all of them.
pub fn file(seed: u64, index: u64) -> Vec<u8> {
    let turn = index / 3;
    match index % 3 {
        part @ (0 | 1) => file::write(&sheet(seed, 2 * turn + part)),
        _ => damaged(seed, turn),
    }
}

/// The sheet of an index.
pub fn sheet(seed: u64, index: u64) -> Sheet {
    let mut random = Random::new(seed, index);
    let (_, make) = family(&sheets::FAMILIES, index);
    make(&mut random)
}

/// The name of the family that the sheet of an index belongs to.
pub fn sheet_family(index: u64) -> &'static str {
    family(&sheets::FAMILIES, index).0
}

/// The damaged file of an index. Some damage leaves a sheet, if another one.
pub fn damaged(seed: u64, index: u64) -> Vec<u8> {
    let mut random = Random::new(!seed, index);
    let (_, damage) = family(&damage::FAMILIES, index);
    // Mostly small sheets: what is done to a large one is often refused long
    // before its end, or lost in it.
    let mut whole = sheet(seed, random.bits());
    while whole.nodes() > 24 && random.chance(90) {
        whole = sheet(seed, random.bits());
    }
    damage(&mut random, &whole)
}

/// The name of the family that the damaged file of an index belongs to.
pub fn damage_family(index: u64) -> &'static str {
    family(&damage::FAMILIES, index).0
}

fn family<T: Copy>(families: &[T], index: u64) -> T {
    families[(index % families.len() as u64) as usize]
}
