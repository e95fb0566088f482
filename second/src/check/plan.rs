//! Checks of plans.

use crate::arc::ArcName;
use crate::cycle_time::CycleTime;
use crate::sheet::Sheet;
use crate::window::Window;

use super::Fault;

/// Checks that a plan of any times, even below 0, keeps every window, or finds the first
/// of those that it breaks: "lowest position, then kind, to, from".
pub fn keeps_windows(sheet: &Sheet, time: CycleTime, plan: &[i64]) -> Result<(), Fault> {
    if plan.len() != sheet.nodes() {
        return Err(Fault::PlanLength);
    }
    let broken = bonds(sheet, time, plan).filter(|bond| bond.slack < 0);
    let rank = |name: &ArcName| (name.position, name.kind, name.to, name.from);
    match broken.map(|bond| bond.name).min_by_key(rank) {
        Some(first) => Err(Fault::Broken(first)),
        None => Ok(()),
    }
}

/// Checks that a plan is "the earliest: every time is at least 0 and no plan with
/// times at least 0 has any time smaller".
///
/// A time is the least if it is 0, or if a window without slack holds it up from
/// a time that is the least. Where neither holds, all times not held up in this
/// way could be one smaller together.
pub fn is_earliest(sheet: &Sheet, time: CycleTime, plan: &[i64]) -> Result<(), Fault> {
    keeps_windows(sheet, time, plan)?;
    if let Some(node) = plan.iter().position(|&at| at < 0) {
        return Err(Fault::NegativeTime(node + 1));
    }
    let mut is_least: Vec<bool> = plan.iter().map(|&at| at == 0).collect();
    let tight: Vec<Bond> = bonds(sheet, time, plan)
        .filter(|bond| bond.slack == 0)
        .collect();
    let mut spread = true;
    while spread {
        spread = false;
        for bond in &tight {
            if is_least[bond.holder] && !is_least[bond.held] {
                is_least[bond.held] = true;
                spread = true;
            }
        }
    }
    match is_least.iter().position(|least| !least) {
        Some(node) => Err(Fault::NotEarliest(node + 1)),
        None => Ok(()),
    }
}

/// What a window at a position demands of a plan: the time of node `held` is at
/// least what the time of node `holder` and the window make it, and it is
/// `slack` more than that.
struct Bond {
    name: ArcName,
    holder: usize,
    held: usize,
    slack: i128,
}

/// The demands of all windows, read off the table of kinds in 01 and not off the
/// arcs.
fn bonds<'a>(
    sheet: &'a Sheet,
    time: CycleTime,
    plan: &'a [i64],
) -> impl Iterator<Item = Bond> + 'a {
    (1..=sheet.v()).flat_map(move |position| {
        let windows = sheet.windows(sheet.mode_at(position));
        windows.map(move |window| bond(sheet, time, plan, position, window))
    })
}

fn bond(sheet: &Sheet, time: CycleTime, plan: &[i64], position: usize, window: Window) -> Bond {
    let Window { kind, to, from, w } = window;
    // "After position V comes position 1 of the next period, where x_i is x_i(1)
    // plus the cycle time."
    let (to_position, later) = match (kind.reaches_next(), position == sheet.v()) {
        (false, _) => (position, 0),
        (true, false) => (position + 1, 0),
        (true, true) => (1, i128::from(time.p)),
    };
    let (to_node, from_node) = (sheet.node(to_position, to), sheet.node(position, from));
    let difference = i128::from(plan[to_node]) + later - i128::from(plan[from_node]);
    let limit = i128::from(time.q) * i128::from(w);
    let name = ArcName::new(position, window);
    if kind.is_upper() {
        Bond {
            name,
            holder: to_node,
            held: from_node,
            slack: limit - difference,
        }
    } else {
        Bond {
            name,
            holder: from_node,
            held: to_node,
            slack: difference - limit,
        }
    }
}
