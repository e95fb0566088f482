//! Checks of circuits.

use std::mem;

use crate::arc::{Arc, ArcName};
use crate::circuit::Circuit;
use crate::cycle_time::CycleTime;
use crate::limits;
use crate::sheet::Sheet;

use super::Fault;

/// Checks that these are the names of a circuit of the sheet.
///
/// Of several faults it finds the one that 02 (E2) names first: "the first bad arc ... Then
/// come closing, a node left twice, the smallest node first".
pub fn circuit(sheet: &Sheet, names: &[ArcName]) -> Result<Circuit, Fault> {
    let arcs = chained(sheet, names)?;
    let (first, last) = match arcs[..] {
        [] => return Err(Fault::NoArcs),
        [first, ..] => (first, arcs[arcs.len() - 1]),
    };
    if last.arrives != first.leaves {
        return Err(Fault::NotClosed);
    }
    let mut left = vec![false; sheet.nodes()];
    for arc in &arcs {
        if mem::replace(&mut left[arc.leaves], true) {
            return Err(Fault::LeftTwice);
        }
    }
    if arcs.iter().any(|arc| arc.leaves < first.leaves) {
        return Err(Fault::NotSmallest);
    }
    Ok(Circuit::turned(arcs))
}

/// Checks that a circuit refutes a cycle time.
pub fn refutes(sheet: &Sheet, time: CycleTime, names: &[ArcName]) -> Result<(), Fault> {
    if circuit(sheet, names)?.total(time) > 0 {
        Ok(())
    } else {
        Err(Fault::NotAboveZero)
    }
}

/// The arcs of these names, or the first that is bad: "its window is not present in the
/// sheet or it does not leave where the arc before arrived".
fn chained(sheet: &Sheet, names: &[ArcName]) -> Result<Vec<Arc>, Fault> {
    let arcs: Vec<Option<Arc>> = names.iter().map(|&name| arc(sheet, name)).collect();
    let absent = arcs.iter().position(Option::is_none);
    // the pairs before the first that is absent: what comes behind it is not the first
    let known: Vec<Arc> = arcs.into_iter().map_while(|arc| arc).collect();
    let apart = |pair: &[Arc]| pair[0].arrives != pair[1].leaves;
    match (known.windows(2).position(apart), absent) {
        (Some(before), _) => Err(Fault::NotChained(before + 1)),
        (None, Some(index)) => Err(Fault::NoSuchWindow(index, names[index])),
        (None, None) => Ok(known),
    }
}

/// The arc of this name, if the sheet has it.
fn arc(sheet: &Sheet, name: ArcName) -> Option<Arc> {
    let kind = limits::kind(name.kind).ok()?;
    let to = limits::event(name.to, sheet.n()).ok()?;
    let from = limits::event(name.from, sheet.n()).ok()?;
    let position = usize::try_from(name.position).ok()?;
    let mode = (1..=sheet.v())
        .contains(&position)
        .then(|| sheet.mode_at(position))?;
    let window = sheet.window(mode, kind, to, from)?;
    Some(Arc::new(sheet, position, window))
}
