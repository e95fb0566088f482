//! The public calls of 01 and 02 with everything they refuse, in their order.
//!
//! Buffers to be written are given by their lengths in places. An answer is
//! returned whole, so what a call leaves in a buffer is the answer's numbers at
//! its front and the old contents behind; after a refusal, all old contents.

use crate::arc::{ArcName, Net};
use crate::ask::{self, Answer};
use crate::cycle_time::CycleTime;
use crate::ends::{self, Ends};
use crate::file;
use crate::limits;
use crate::proposal::{self, Answered, Verdict};
use crate::refusal::{PlacedRefusal, Refusal};
use crate::sheet::{Lent, Sheet};

/// The reader: 1 to 8 as [`file::read`] finds them, "9 last".
///
/// "It needs 4·m·n² and V places, fills exactly these, and returns n, m and V." With a
/// refusal it returns the place, "0 for 9".
pub fn read(
    bytes: &[u8],
    table_places: usize,
    schedule_places: usize,
) -> Result<Sheet, PlacedRefusal> {
    let sheet = file::read(bytes)?;
    room_for(sheet.tables().len(), table_places)
        .and_then(|()| room_for(sheet.v(), schedule_places))
        .map_err(|no_room| no_room.at(0))?;
    Ok(sheet)
}

/// The writer: "4, 5, 6, 9, where 9 means exactly that the buffer is shorter than
/// the sheet; it returns the sheet's length".
pub fn write(lent: Lent<'_>, buffer_places: usize) -> Result<Vec<u8>, Refusal> {
    let bytes = file::write(&lent.admit()?);
    room_for(bytes.len(), buffer_places)?;
    Ok(bytes)
}

/// Ask: "4, 5, 6, 10, 9; it needs N places for a plan and 4N for a circuit, both
/// always".
pub fn ask(
    lent: Lent<'_>,
    p: u64,
    q: u64,
    plan_places: usize,
    circuit_places: usize,
) -> Result<Answer, Refusal> {
    let sheet = lent.admit()?;
    let time = CycleTime::within_limits(p, q)?;
    room_for(sheet.nodes(), plan_places)?;
    room_for(4 * sheet.nodes(), circuit_places)?;
    Ok(ask::ask(&Net::new(&sheet), time))
}

/// Ends: "4, 5, 6, 9, with 4N places for each circuit".
pub fn ends(lent: Lent<'_>, first_places: usize, second_places: usize) -> Result<Ends, Refusal> {
    let sheet = lent.admit()?;
    room_for(4 * sheet.nodes(), first_places)?;
    room_for(4 * sheet.nodes(), second_places)?;
    Ok(ends::find(&Net::new(&sheet)))
}

/// The call for a C host: "it hands over the sheet's bytes, p and q, and gets 0,
/// 100, or the number of the refusal, 1 to 8 first and then 10". It "stays as it is"
/// where the reader returns a place.
pub fn host(bytes: &[u8], p: u64, q: u64) -> u64 {
    let answer = || -> Result<Answer, Refusal> {
        let sheet = file::read(bytes).map_err(|refused| refused.refusal)?;
        let time = CycleTime::within_limits(p, q)?;
        Ok(ask::ask(&Net::new(&sheet), time))
    };
    answer().map_or_else(Refusal::number, |answer| answer.number())
}

/// The check of proposed times (02, E2): "4, 5, 6, 10, then new 11 for fewer than N proposed
/// times, a proposed time beyond 382,000,000,000 either way". Of more than N times the
/// first N are proposed; "the surplus is neither read nor written".
pub fn check_times(lent: Lent<'_>, p: u64, q: u64, times: &[i64]) -> Result<Verdict, Refusal> {
    let sheet = lent.admit()?;
    let time = CycleTime::within_limits(p, q)?;
    let times = times.get(..sheet.nodes()).ok_or(Refusal::Proposal)?;
    for &at in times {
        limits::proposed_time(at)?;
    }
    Ok(proposal::times(&sheet, time, times))
}

/// The check of a list of arcs, four numbers to each (02, E2): 4, 5, 6, 10, then 11 for "an
/// arc list empty or not of whole arcs".
pub fn check_arcs(lent: Lent<'_>, p: u64, q: u64, arcs: &[u8]) -> Result<Verdict, Refusal> {
    let sheet = lent.admit()?;
    let time = CycleTime::within_limits(p, q)?;
    if arcs.is_empty() || arcs.len() % 4 != 0 {
        return Err(Refusal::Proposal);
    }
    Ok(proposal::arcs(&sheet, time, &ArcName::list(arcs)))
}

/// The check of times against a sheet in a file: the first refusal from 1 to 8 and its
/// place, or what [`check_times`] answers.
pub fn check_times_of(bytes: &[u8], p: u64, q: u64, times: &[i64]) -> Answered {
    of_file(bytes, |lent| check_times(lent, p, q, times))
}

/// The check of arcs against a sheet in a file: the first refusal from 1 to 8 and its
/// place, or what [`check_arcs`] answers.
pub fn check_arcs_of(bytes: &[u8], p: u64, q: u64, arcs: &[u8]) -> Answered {
    of_file(bytes, |lent| check_arcs(lent, p, q, arcs))
}

fn of_file(bytes: &[u8], check: impl FnOnce(Lent<'_>) -> Result<Verdict, Refusal>) -> Answered {
    match file::read(bytes) {
        Ok(sheet) => check(sheet.lend()).into(),
        Err(refused) => refused.into(),
    }
}

fn room_for(needed: usize, places: usize) -> Result<(), Refusal> {
    if places < needed {
        Err(Refusal::Room)
    } else {
        Ok(())
    }
}
