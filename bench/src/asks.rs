//! How many Asks the ends of a sheet take: the search of the proved Ends, retraced
//! through Ask, which hands out the same circuits to both.

use compare::calls::{Ask, Lent, VALUES};
use second::arc::ArcName;
use second::check;
use second::fraction::Fraction;
use second::sheet::Sheet;

/// A cycle time above every limit.
const ABOVE: Fraction = Fraction {
    top: 192_000_001,
    bottom: 1,
};

/// What one Ask came to: the cycle time works, or a circuit's W and c.
enum Asked {
    Works,
    Refuted { w: i64, c: i64 },
}

/// The Asks that climb to low and descend to high, or find that there are no ends.
pub fn count(ask: Ask, sheet: &Sheet) -> Result<u64, String> {
    let schedule: Vec<u8> = sheet.schedule().iter().map(|&mode| mode as u8).collect();
    let mut asks = 0;
    let mut at = |time: Fraction| {
        asks += 1;
        asked(ask, sheet, &schedule, time)
    };
    let mut low = Fraction { top: 0, bottom: 1 };
    while let Asked::Refuted { w, c } = at(low)? {
        if c >= 0 {
            return Ok(asks);
        }
        low = Fraction::lowest(w, -c);
    }
    let mut high = ABOVE;
    while let Asked::Refuted { w, c } = at(high)? {
        high = Fraction::lowest(-w, c);
    }
    Ok(asks)
}

fn asked(ask: Ask, sheet: &Sheet, schedule: &[u8], time: Fraction) -> Result<Asked, String> {
    let lent = Lent {
        n: sheet.n() as u64,
        m: sheet.m() as u64,
        v: sheet.v() as u64,
        tables: sheet.tables(),
        schedule,
    };
    let mut plan = vec![0; sheet.nodes()];
    let mut circuit = vec![0; 4 * sheet.nodes()];
    let mut values = [0; VALUES];
    let (p, q) = (time.top as u64, time.bottom as u64);
    match ask(lent, p, q, &mut plan, &mut circuit, &mut values) {
        0 => Ok(Asked::Works),
        100 => {
            let arcs = 4 * values[0] as usize;
            let names: Vec<ArcName> = circuit[..arcs].chunks_exact(4).map(name).collect();
            let circuit = check::circuit(sheet, &names).map_err(|fault| fault.to_string())?;
            Ok(Asked::Refuted {
                w: circuit.w(),
                c: circuit.c(),
            })
        }
        number => Err(format!("Ask at {p}/{q} is {number}")),
    }
}

fn name(arc: &[u8]) -> ArcName {
    ArcName::from([0, 1, 2, 3].map(|part| u64::from(arc[part])))
}
