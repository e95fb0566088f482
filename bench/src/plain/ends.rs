//! Ends: a climb to low and a descent to high, by the circuits that refute.

use super::{ask, Answer, Arc};

/// What Ends answers; circuits are indices of arcs.
#[derive(Clone, Debug, PartialEq, Eq)]
pub enum Ends {
    /// The ends, in lowest terms.
    Found {
        /// Low's top and bottom.
        low: (i64, i64),
        /// A circuit that shows low, unless it is 0/1.
        low_circuit: Vec<usize>,
        /// High's top and bottom, and a circuit that shows it; nothing if it is open.
        high: Option<((i64, i64), Vec<usize>)>,
    },
    /// No cycle time works, as one circuit shows, or two.
    None(Vec<usize>, Vec<usize>),
}

/// The ends of these arcs between so many nodes.
pub fn ends(nodes: usize, arcs: &[Arc]) -> Ends {
    let sums = |circuit: &[usize]| {
        let sum = |part: fn(&Arc) -> i64| circuit.iter().map(|&index| part(&arcs[index])).sum();
        let (w, c): (i64, i64) = (sum(|arc| arc.w), sum(|arc| arc.c));
        (w, c)
    };
    let mut low = (0, 1);
    let mut low_circuit = Vec::new();
    while let Answer::Refuted(circuit) = ask(nodes, arcs, low.0, low.1) {
        match sums(&circuit) {
            (w, c) if c < 0 => low = lowest(w, -c),
            (w, _) if w > 0 => return Ends::None(circuit, Vec::new()),
            _ => return Ends::None(low_circuit, circuit),
        }
        low_circuit = circuit;
    }
    let mut high = None;
    let mut time = (past_every_end(nodes), 1);
    while let Answer::Refuted(circuit) = ask(nodes, arcs, time.0, time.1) {
        // c is above 0: the circuit does not refute low, which is less
        let (w, c) = sums(&circuit);
        time = lowest(-w, c);
        high = Some((time, circuit));
    }
    Ends::Found {
        low,
        low_circuit,
        high,
    }
}

/// A circuit's W is at most a million for each of its arcs, and its c at least 1.
fn past_every_end(nodes: usize) -> i64 {
    1_000_000 * nodes as i64 + 1
}

fn lowest(top: i64, bottom: i64) -> (i64, i64) {
    let divisor = gcd(top, bottom);
    (top / divisor, bottom / divisor)
}

fn gcd(a: i64, b: i64) -> i64 {
    if b == 0 {
        a
    } else {
        gcd(b, a % b)
    }
}

#[cfg(test)]
mod tests {
    use super::super::arcs;
    use super::*;
    use second::arc::{ArcName, Net};
    use second::check;
    use second::ends as right;
    use second::fraction::Fraction;
    use second::generate;

    #[test]
    fn answers_are_right() {
        let mut none = 0;
        for index in 0..400 {
            let sheet = generate::sheet(12, index);
            if sheet.nodes() > 60 {
                continue;
            }
            let schedule: Vec<u8> = sheet.schedule().iter().map(|&mode| mode as u8).collect();
            let arcs = arcs(sheet.n(), sheet.tables(), &schedule);
            let names = |circuit: Vec<usize>| {
                let name = |&index: &usize| ArcName::from(arcs[index].name.map(u64::from));
                circuit.iter().map(name).collect::<Vec<ArcName>>()
            };
            let fraction = |(top, bottom)| Fraction { top, bottom };
            let answer = match ends(sheet.nodes(), &arcs) {
                Ends::Found {
                    low,
                    low_circuit,
                    high,
                } => right::Ends::Found(right::Found {
                    low: fraction(low),
                    low_circuit: names(low_circuit),
                    high: high.map_or(right::High::Open, |(end, circuit)| right::High::At {
                        end: fraction(end),
                        circuit: names(circuit),
                    }),
                }),
                Ends::None(first, second) => {
                    none += 1;
                    right::Ends::None(right::Contradiction {
                        first: names(first),
                        second: names(second),
                    })
                }
            };
            assert_eq!(check::ends(&sheet, &answer), Ok(()), "{index}");
            assert_eq!(answer.span(), right::find(&Net::new(&sheet)).span());
        }
        assert!(none > 20);
    }
}
