//! Checks of the ends.

use crate::arc::{ArcName, Net};
use crate::ask;
use crate::circuit::Circuit;
use crate::cycle_time::CycleTime;
use crate::ends::bisection::whole_past_every_end;
use crate::ends::{contradict, Contradiction, Ends, Found, High};
use crate::fraction::Fraction;
use crate::sheet::Sheet;

use super::{circuit, keeps_windows, Fault};

/// Checks the whole of an answer of Ends.
///
/// The circuits show that no cycle time works beyond the ends, or at all; plans
/// show that the ends work, and with them all between.
pub fn ends(sheet: &Sheet, ends: &Ends) -> Result<(), Fault> {
    match ends {
        Ends::Found(found) => {
            low_circuit(sheet, found)?;
            high_circuit(sheet, found)?;
            ends_work(sheet, found)
        }
        Ends::None(contradiction) => no_cycle_time_works(sheet, contradiction),
    }
}

/// "A circuit of c below 0 and total zero at low, exactly when low is above 0."
fn low_circuit(sheet: &Sheet, found: &Found) -> Result<(), Fault> {
    is_end(sheet, found.low)?;
    if found.low == Fraction::ZERO {
        return has_no_arcs(&found.low_circuit);
    }
    let circuit = circuit(sheet, &found.low_circuit)?;
    stands(circuit.c() < 0 && is_zero_at(&circuit, found.low))
}

/// "High is a fraction with a circuit of c above 0 and total zero at high."
fn high_circuit(sheet: &Sheet, found: &Found) -> Result<(), Fault> {
    match &found.high {
        High::Open => Ok(()),
        High::At {
            end,
            circuit: names,
        } => {
            is_end(sheet, *end)?;
            let circuit = circuit(sheet, names)?;
            stands(circuit.c() > 0 && is_zero_at(&circuit, *end))
        }
    }
}

/// Checks that there are plans at both ends. If high is open, a plan past every
/// limit that a circuit can set shows that none sets one.
fn ends_work(sheet: &Sheet, found: &Found) -> Result<(), Fault> {
    let high = match found.high {
        High::Open => CycleTime {
            p: whole_past_every_end(sheet.nodes()),
            q: 1,
        },
        High::At { end, .. } => end.into(),
    };
    let net = Net::new(sheet);
    for time in [found.low.into(), high] {
        let plan = ask::earliest_plan(&net, time).map_err(|_| Fault::DoesNotWork(time))?;
        keeps_windows(sheet, time, &plan)?;
    }
    Ok(())
}

/// Checks either form of "none".
fn no_cycle_time_works(sheet: &Sheet, none: &Contradiction) -> Result<(), Fault> {
    let first = circuit(sheet, &none.first)?;
    if none.second.is_empty() {
        return stands(first.w() > 0 && first.c() >= 0);
    }
    let second = circuit(sheet, &none.second)?;
    stands(first.c() < 0 && second.c() > 0 && contradict(&first, &second))
}

/// "Fractions in lowest terms, with bottom at least 1 and at most n."
fn is_end(sheet: &Sheet, end: Fraction) -> Result<(), Fault> {
    if end.is_lowest() && end.bottom <= sheet.n() as i64 {
        Ok(())
    } else {
        Err(Fault::NotLowest(end))
    }
}

/// Whether W + c·λ is zero at this λ, whatever numbers the claim has.
fn is_zero_at(circuit: &Circuit, end: Fraction) -> bool {
    let [w, c, top, bottom] = [circuit.w(), circuit.c(), end.top, end.bottom].map(i128::from);
    w * bottom + c * top == 0
}

fn has_no_arcs(names: &[ArcName]) -> Result<(), Fault> {
    if names.is_empty() {
        Ok(())
    } else {
        Err(Fault::NeedlessArcs)
    }
}

fn stands(is_right: bool) -> Result<(), Fault> {
    if is_right {
        Ok(())
    } else {
        Err(Fault::WrongCircuit)
    }
}
