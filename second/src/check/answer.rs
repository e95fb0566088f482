//! Checks of Ask's answers.

use crate::arc::Net;
use crate::ask::Answer;
use crate::cycle_time::CycleTime;
use crate::rounds;
use crate::sheet::Sheet;

use super::{is_earliest, refutes, Fault};

/// Checks the whole of an answer of Ask.
///
/// An earliest plan shows that the cycle time works, a circuit above zero that it
/// does not; so the rounds are all that is left to settle.
pub fn answer(sheet: &Sheet, time: CycleTime, answer: &Answer) -> Result<(), Fault> {
    match answer {
        Answer::Accepted { plan, rounds } => {
            is_earliest(sheet, time, plan)?;
            has_rounds(sheet, time, *rounds)
        }
        Answer::Refuted { circuit } => {
            refutes(sheet, time, circuit)?;
            never_still(sheet, time)
        }
    }
}

/// Checks that a table equals the one after it for the first time after so many
/// rounds.
fn has_rounds(sheet: &Sheet, time: CycleTime, rounds: usize) -> Result<(), Fault> {
    match rounds::settle(&Net::new(sheet), time) {
        Some((right, _)) if right == rounds => Ok(()),
        _ => Err(Fault::WrongRounds(rounds)),
    }
}

/// Checks what "on a refutation the number is N" says: none of the tables 0 to N-1
/// equals the one after it.
pub fn never_still(sheet: &Sheet, time: CycleTime) -> Result<(), Fault> {
    match rounds::settle(&Net::new(sheet), time) {
        Some((rounds, _)) => Err(Fault::StandsStill(rounds)),
        None => Ok(()),
    }
}
