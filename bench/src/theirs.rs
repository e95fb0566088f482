//! Questions to the plain program. It takes what the proved calls take, so laying out
//! the arcs is part of each.

use bench::plain::{self, Answer, Ends};
use bench::sheets::Measured;

use crate::rows::Question;

/// Reads the sheet's file.
pub fn reader(sheet: &Measured) -> Question {
    let file = sheet.file.clone();
    let mut tables = vec![0; sheet.tables.len()];
    let mut schedule = vec![0; sheet.schedule.len()];
    Box::new(
        move || match plain::read(&file, &mut tables, &mut schedule) {
            Ok((n, m, v)) => [0, n as u64, m as u64, v as u64, 0, 0],
            Err((number, place)) => [u64::from(number), place as u64, 0, 0, 0, 0],
        },
    )
}

/// Asks a cycle time.
pub fn ask(sheet: &Measured, (p, q): (u64, u64)) -> Question {
    let sheet = sheet.clone();
    Box::new(move || {
        let arcs = plain::arcs(sheet.n as usize, &sheet.tables, &sheet.schedule);
        match plain::ask(sheet.nodes(), &arcs, p as i64, q as i64) {
            Answer::Accepted { rounds, .. } => [0, rounds as u64, 0, 0, 0, 0],
            Answer::Refuted(_) => [100, 0, 0, 0, 0, 0],
        }
    })
}

/// Asks for the ends.
pub fn ends(sheet: &Measured) -> Question {
    let sheet = sheet.clone();
    Box::new(move || {
        let arcs = plain::arcs(sheet.n as usize, &sheet.tables, &sheet.schedule);
        let fraction = |(top, bottom): (i64, i64)| [top as u64, bottom as u64];
        match plain::ends(sheet.nodes(), &arcs) {
            Ends::Found { low, high, .. } => {
                let [low_top, low_bottom] = fraction(low);
                match high.map(|(end, _)| fraction(end)) {
                    None => [0, low_top, low_bottom, 0, 0, 0],
                    Some([top, bottom]) => [0, low_top, low_bottom, 1, top, bottom],
                }
            }
            Ends::None(..) => [101, 0, 0, 0, 0, 0],
        }
    })
}
