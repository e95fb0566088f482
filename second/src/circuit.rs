//! Circuits, and closed walks cut into circuits.

use crate::arc::{Arc, ArcName};
use crate::cycle_time::CycleTime;

/// "A list of arcs, each leaving where the one before arrived, closed, no node
/// left twice ... The first arc leaves the smallest node."
#[derive(Clone, Debug, PartialEq, Eq)]
pub struct Circuit {
    arcs: Vec<Arc>,
}

impl Circuit {
    /// The circuit of these arcs, turned so that the smallest node comes first.
    ///
    /// The arcs must be chained and closed, and leave no node twice.
    pub(crate) fn turned(mut arcs: Vec<Arc>) -> Circuit {
        debug_assert!(is_chained_and_closed(&arcs));
        let smallest = (0..arcs.len()).min_by_key(|&i| arcs[i].leaves);
        arcs.rotate_left(smallest.unwrap_or(0));
        Circuit { arcs }
    }

    /// The circuits into which a closed walk falls apart.
    ///
    /// Whenever the walk comes back to a node it has not yet been cut away from,
    /// the arcs since then are a circuit. W and c of the walk are the sums of
    /// those of its circuits.
    pub(crate) fn cut(walk: &[Arc]) -> Vec<Circuit> {
        debug_assert!(is_chained_and_closed(walk));
        let mut circuits = Vec::new();
        let mut open: Vec<Arc> = Vec::new();
        for &arc in walk {
            open.push(arc);
            let left_before = open.iter().rposition(|past| past.leaves == arc.arrives);
            if let Some(first) = left_before {
                circuits.push(Circuit::turned(open.split_off(first)));
            }
        }
        circuits
    }

    /// The arcs, from the smallest node on.
    pub fn arcs(&self) -> &[Arc] {
        &self.arcs
    }

    /// The names of the arcs, as a call hands them over.
    pub fn names(&self) -> Vec<ArcName> {
        self.arcs.iter().map(|arc| arc.name).collect()
    }

    /// W: "a circuit's total with q = 1 is W + c·(cycle time)".
    pub fn w(&self) -> i64 {
        self.arcs.iter().map(|arc| arc.w).sum()
    }

    /// c: "its kind-3 crossings less its kind-2 crossings".
    pub fn c(&self) -> i64 {
        self.arcs.iter().map(|arc| arc.c).sum()
    }

    /// The total weight at a cycle time; "a refutation is one with total weight
    /// above zero".
    pub fn total(&self, time: CycleTime) -> i64 {
        time.q * self.w() + time.p * self.c()
    }
}

/// Whether each arc leaves where the one before arrived, the first where the
/// last arrived.
fn is_chained_and_closed(arcs: &[Arc]) -> bool {
    let before = arcs.iter().cycle().skip(arcs.len().saturating_sub(1));
    arcs.iter()
        .zip(before)
        .all(|(arc, before)| before.arrives == arc.leaves)
}

#[cfg(test)]
mod tests {
    use super::*;

    /// An arc named after its nodes.
    fn arc(leaves: usize, arrives: usize) -> Arc {
        Arc {
            name: ArcName::from([0, 1, arrives as u64 + 1, leaves as u64 + 1]),
            leaves,
            arrives,
            w: 1,
            c: 0,
        }
    }

    fn nodes(circuit: &Circuit) -> Vec<usize> {
        circuit.arcs().iter().map(|arc| arc.leaves).collect()
    }

    #[test]
    fn a_circuit_starts_at_its_smallest_node() {
        let circuit = Circuit::turned(vec![arc(5, 2), arc(2, 4), arc(4, 5)]);
        assert_eq!(nodes(&circuit), [2, 4, 5]);
        assert_eq!(circuit.w(), 3);
    }

    #[test]
    fn a_closed_walk_falls_into_its_circuits() {
        let walk = [(1, 2), (2, 2), (2, 3), (3, 1), (1, 4), (4, 1)];
        let walk = walk.map(|(leaves, arrives)| arc(leaves, arrives));
        let circuits: Vec<_> = Circuit::cut(&walk).iter().map(nodes).collect();
        assert_eq!(circuits, [vec![2], vec![1, 2, 3], vec![1, 4]]);
    }

    #[test]
    fn broken_chains_are_seen() {
        assert!(is_chained_and_closed(&[]));
        assert!(is_chained_and_closed(&[arc(0, 0)]));
        assert!(is_chained_and_closed(&[arc(0, 1), arc(1, 0)]));
        assert!(!is_chained_and_closed(&[arc(0, 1)]));
        assert!(!is_chained_and_closed(&[arc(0, 1), arc(2, 0)]));
    }
}
