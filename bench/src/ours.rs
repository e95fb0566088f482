//! Questions to the proved calls. Buffers are lent once and for all.

use bench::sheets::Measured;
use compare::calls::{Ask, Ends, Lent, Read, VALUES};

use crate::rows::Question;

/// Reads the sheet's file.
pub fn reader(read: Read, sheet: &Measured) -> Question {
    let file = sheet.file.clone();
    let mut tables = vec![0; sheet.tables.len()];
    let mut schedule = vec![0; sheet.schedule.len()];
    Box::new(move || {
        let mut values = [0; VALUES];
        let number = read(&file, &mut tables, &mut schedule, &mut values);
        [u64::from(number), values[0], values[1], values[2], 0, 0]
    })
}

/// Asks a cycle time.
pub fn ask(ask: Ask, sheet: &Measured, (p, q): (u64, u64)) -> Question {
    let sheet = sheet.clone();
    let mut plan = vec![0; sheet.nodes()];
    let mut circuit = vec![0; 4 * sheet.nodes()];
    Box::new(move || {
        let mut values = [0; VALUES];
        let number = ask(lent(&sheet), p, q, &mut plan, &mut circuit, &mut values);
        let rounds = if number == 0 { values[0] } else { 0 };
        [u64::from(number), rounds, 0, 0, 0, 0]
    })
}

/// Asks for the ends.
pub fn ends(ends: Ends, sheet: &Measured) -> Question {
    let sheet = sheet.clone();
    let mut first = vec![0; 4 * sheet.nodes()];
    let mut second = vec![0; 4 * sheet.nodes()];
    Box::new(move || {
        // no value is so large, so that it tells a place that was not written
        let mut values = [u64::MAX; VALUES];
        let number = ends(lent(&sheet), &mut first, &mut second, &mut values);
        let [low_top, low_bottom, high_top, high_bottom, fifth, ..] = values;
        match (number, fifth) {
            (0, u64::MAX) => [0, low_top, low_bottom, 0, 0, 0],
            (0, _) => [0, low_top, low_bottom, 1, high_top, high_bottom],
            _ => [u64::from(number), 0, 0, 0, 0, 0],
        }
    })
}

fn lent(sheet: &Measured) -> Lent<'_> {
    Lent {
        n: sheet.n,
        m: sheet.m,
        v: sheet.v,
        tables: &sheet.tables,
        schedule: &sheet.schedule,
    }
}
