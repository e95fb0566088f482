//! Ask: rounds over all arcs.

use super::Arc;

/// What Ask answers.
#[derive(Clone, Debug, PartialEq, Eq)]
pub enum Answer {
    /// The cycle time works.
    Accepted {
        /// The earliest plan.
        plan: Vec<i64>,
        /// The rounds.
        rounds: usize,
    },
    /// It does not, and these arcs are a circuit above zero, by their indices.
    Refuted(Vec<usize>),
}

/// What a round needs of an arc at one cycle time.
struct Step {
    leaves: u32,
    arrives: u32,
    weight: i64,
}

/// Whether the cycle time p/q works for these arcs between so many nodes.
pub fn ask(nodes: usize, arcs: &[Arc], p: i64, q: i64) -> Answer {
    let steps: Vec<Step> = arcs.iter().map(|arc| step(arc, p, q)).collect();
    let mut table = vec![0; nodes];
    let mut next = table.clone();
    // the arc that last raised each node
    let mut raised_by = vec![usize::MAX; nodes];
    for round in 0..nodes {
        walk(&steps, &table, &mut next, &mut raised_by);
        if next == table {
            return Answer::Accepted {
                plan: table,
                rounds: round,
            };
        }
        if round + 1 < nodes {
            table.copy_from_slice(&next);
        }
    }
    let raised = (0..nodes).find(|&node| next[node] > table[node]);
    let raised = raised.expect("the last round raised a node");
    Answer::Refuted(circuit(arcs, &raised_by, raised))
}

fn step(arc: &Arc, p: i64, q: i64) -> Step {
    Step {
        leaves: arc.leaves as u32,
        arrives: arc.arrives as u32,
        weight: q * arc.w + p * arc.c,
    }
}

/// One round. It is kept out of line so that its loop has the registers to itself, which
/// makes it a fifth shorter.
#[inline(never)]
fn walk(steps: &[Step], table: &[i64], next: &mut [i64], raised_by: &mut [usize]) {
    for (index, step) in steps.iter().enumerate() {
        let least = table[step.leaves as usize] + step.weight;
        let arrives = step.arrives as usize;
        if least > next[arrives] {
            next[arrives] = least;
            raised_by[arrives] = index;
        }
    }
}

/// The circuit that one comes to from a node that the last round raised, back along
/// the arcs that raised the nodes.
fn circuit(arcs: &[Arc], raised_by: &[usize], raised: usize) -> Vec<usize> {
    let back = |node: usize| arcs[raised_by[node]].leaves;
    let on_circuit = (0..raised_by.len()).fold(raised, |node, _| back(node));
    let mut circuit = vec![raised_by[on_circuit]];
    let mut node = back(on_circuit);
    while node != on_circuit {
        circuit.push(raised_by[node]);
        node = back(node);
    }
    circuit.reverse();
    let smallest = (0..circuit.len()).min_by_key(|&i| arcs[circuit[i]].leaves);
    circuit.rotate_left(smallest.unwrap_or(0));
    circuit
}

#[cfg(test)]
mod tests {
    use super::super::arcs;
    use super::*;
    use second::arc::{ArcName, Net};
    use second::ask as right;
    use second::check;
    use second::cycle_time::CycleTime;
    use second::generate;

    #[test]
    fn answers_are_right() {
        let mut refuted = 0;
        for index in 0..400 {
            let sheet = generate::sheet(11, index);
            if sheet.nodes() > 60 {
                continue;
            }
            let schedule: Vec<u8> = sheet.schedule().iter().map(|&mode| mode as u8).collect();
            let arcs = arcs(sheet.n(), sheet.tables(), &schedule);
            for time in [(0, 1), (7, 2), (500, 1)].map(|(p, q)| CycleTime { p, q }) {
                match ask(sheet.nodes(), &arcs, time.p, time.q) {
                    Answer::Accepted { plan, rounds } => {
                        let right = right::ask(&Net::new(&sheet), time);
                        assert_eq!(right, right::Answer::Accepted { plan, rounds });
                    }
                    Answer::Refuted(circuit) => {
                        let name = |&index: &usize| ArcName::from(arcs[index].name.map(u64::from));
                        let names: Vec<ArcName> = circuit.iter().map(name).collect();
                        assert_eq!(check::refutes(&sheet, time, &names), Ok(()));
                        refuted += 1;
                    }
                }
            }
        }
        assert!(refuted > 100);
    }
}
