//! Longest paths between all nodes, after Floyd and Warshall.

use std::iter;
use std::ops::Add;

use crate::arc::{Arc, Net};
use crate::circuit::Circuit;

/// The length of a walk: its weight, and between equal weights fewer arcs count
/// as longer.
///
/// Without the second part a circuit of weight zero could be walked round for
/// ever while a path is traced. With it, every circuit is either longer than
/// the empty walk, and then its weight is above zero, or shorter. Both parts
/// share one number, `weight * ARCS - arcs`, which orders them as wanted.
///
/// The weights are small enough for this. The greatest come up in bisection,
/// with limits of 27,720 steps to the unit and up to 12 crossings that gain a
/// cycle time past every end: less than 10^14.
#[derive(Clone, Copy, Debug, PartialEq, Eq, PartialOrd, Ord)]
pub(crate) struct Length(i64);

impl Length {
    /// More than the arcs of any walk that is measured: 24 crossings of the
    /// period end with at most 191 arcs after each.
    const ARCS: i64 = 1 << 13;
    /// The length of the walk without arcs.
    pub(crate) const EMPTY: Length = Length(0);
    /// Below every length: there is no walk.
    pub(crate) const NO_WALK: Length = Length(i64::MIN);

    /// The length of one arc of this weight.
    pub(crate) fn of_arc(weight: i64) -> Length {
        Length(weight * Length::ARCS - 1)
    }

    /// The weight of a walk of this length.
    pub(crate) fn weight(self) -> i64 {
        -(-self.0).div_euclid(Length::ARCS)
    }

    pub(crate) fn is_walk(self) -> bool {
        self != Length::NO_WALK
    }
}

/// The length of one walk followed by another; neither may be
/// [`Length::NO_WALK`].
impl Add for Length {
    type Output = Length;

    fn add(self, after: Length) -> Length {
        Length(self.0 + after.0)
    }
}

/// The longest path from every node to every node, over some of a net's arcs
/// none of whose circuits has weight above zero.
pub(crate) struct Paths<'a> {
    net: &'a Net,
    /// At `from * nodes + to`.
    lengths: Vec<Length>,
    /// The index of the path's first arc; without meaning where there is no
    /// path or an empty one.
    firsts: Vec<usize>,
}

impl<'a> Paths<'a> {
    /// The longest paths, or a circuit of weight above zero.
    ///
    /// `weight` gives an arc's weight, or nothing for an arc to be left out.
    ///
    /// When node k's turn comes, the lengths are those over paths that pass
    /// through nodes below k only. If such a path from k to itself weighs more
    /// than nothing, it is a circuit of the kind sought, and it leaves no node
    /// twice, since all smaller circuits have been found to be too light. If
    /// not, every length stays that of a path without repetition, hence small.
    pub(crate) fn longest(
        net: &'a Net,
        weight: impl Fn(&Arc) -> Option<i64>,
    ) -> Result<Paths<'a>, Circuit> {
        let mut paths = Paths::of_single_arcs(net, weight);
        for node in 0..net.nodes {
            if paths.length(node, node) > Length::EMPTY {
                return Err(paths.circuit_through(node));
            }
            paths.pass_through(node);
        }
        Ok(paths)
    }

    /// The length of the longest path, [`Length::EMPTY`] from a node to itself.
    pub(crate) fn length(&self, from: usize, to: usize) -> Length {
        self.lengths[from * self.net.nodes + to]
    }

    /// The arcs of the longest path; there must be one.
    pub(crate) fn path(&self, from: usize, to: usize) -> impl Iterator<Item = Arc> + '_ {
        let mut at = from;
        iter::from_fn(move || {
            let arc = (at != to).then(|| self.first_arc(at, to))?;
            at = arc.arrives;
            Some(arc)
        })
    }

    /// The paths of one arc at most.
    fn of_single_arcs(net: &'a Net, weight: impl Fn(&Arc) -> Option<i64>) -> Paths<'a> {
        let nodes = net.nodes;
        let mut lengths = vec![Length::NO_WALK; nodes * nodes];
        let mut firsts = vec![usize::MAX; nodes * nodes];
        for node in 0..nodes {
            lengths[node * nodes + node] = Length::EMPTY;
        }
        for (index, arc) in net.arcs.iter().enumerate() {
            let place = arc.leaves * nodes + arc.arrives;
            if let Some(length) = weight(arc).map(Length::of_arc) {
                if length > lengths[place] {
                    lengths[place] = length;
                    firsts[place] = index;
                }
            }
        }
        Paths {
            net,
            lengths,
            firsts,
        }
    }

    /// Takes in the paths that pass through one more node.
    fn pass_through(&mut self, through: usize) {
        let nodes = self.net.nodes;
        let onward = &self.lengths[through * nodes..(through + 1) * nodes];
        let onward: Vec<(usize, Length)> = (0..)
            .zip(onward.iter().copied())
            .filter(|(_, length)| length.is_walk())
            .collect();
        let rows = self.lengths.chunks_exact_mut(nodes);
        for (lengths, firsts) in rows.zip(self.firsts.chunks_exact_mut(nodes)) {
            let (there, first) = (lengths[through], firsts[through]);
            if there.is_walk() {
                for &(to, length) in &onward {
                    if there + length > lengths[to] {
                        lengths[to] = there + length;
                        firsts[to] = first;
                    }
                }
            }
        }
    }

    /// The path from a node to itself, which must not be the empty one.
    fn circuit_through(&self, node: usize) -> Circuit {
        let first = self.first_arc(node, node);
        let others = self.path(first.arrives, node);
        Circuit::turned(iter::once(first).chain(others).collect())
    }

    fn first_arc(&self, from: usize, to: usize) -> Arc {
        self.net.arcs[self.firsts[from * self.net.nodes + to]]
    }
}

#[cfg(test)]
mod tests {
    use super::*;
    use crate::arc::ArcName;

    fn net(nodes: usize, arcs: &[(usize, usize, i64)]) -> Net {
        let arcs = arcs.iter().map(|&(leaves, arrives, w)| Arc {
            name: ArcName::from([0, 1, 1, 1]),
            leaves,
            arrives,
            w,
            c: 0,
        });
        Net {
            n: nodes,
            nodes,
            arcs: arcs.collect(),
        }
    }

    fn longest(net: &Net) -> Result<Paths<'_>, Circuit> {
        Paths::longest(net, |arc| Some(arc.w))
    }

    #[test]
    fn a_length_orders_by_weight_and_then_by_fewer_arcs() {
        let one_arc = Length::of_arc(5);
        let two_arcs = Length::of_arc(2) + Length::of_arc(3);
        assert!(one_arc > two_arcs && two_arcs > Length::of_arc(4));
        for weight in [-3, -1, 0, 1, 3] {
            assert_eq!(Length::of_arc(weight).weight(), weight);
            assert_eq!(
                (Length::of_arc(weight) + Length::of_arc(0)).weight(),
                weight
            );
        }
        assert_eq!(Length::EMPTY.weight(), 0);
    }

    #[test]
    fn the_longest_path_is_found_and_traced() {
        let net = net(4, &[(0, 1, 5), (1, 2, -3), (0, 2, 1), (2, 0, -2)]);
        let paths = longest(&net).ok().unwrap();
        assert_eq!(paths.length(0, 2).weight(), 2);
        assert!(!paths.length(0, 3).is_walk());
        assert_eq!(paths.length(3, 3), Length::EMPTY);
        let nodes: Vec<_> = paths.path(0, 2).map(|arc| arc.arrives).collect();
        assert_eq!(nodes, [1, 2]);
        assert_eq!(paths.path(1, 1).count(), 0);
    }

    #[test]
    fn circuits_of_weight_zero_are_not_walked_round() {
        let net = net(3, &[(0, 1, 4), (1, 0, -4), (1, 2, 0), (2, 1, 0), (0, 0, 0)]);
        let paths = longest(&net).ok().unwrap();
        assert_eq!(paths.path(0, 2).count(), 2);
        assert_eq!(paths.path(2, 0).count(), 2);
    }

    #[test]
    fn a_circuit_above_zero_is_found() {
        let net = net(3, &[(0, 1, 1), (1, 2, 1), (2, 0, -1), (1, 1, 0)]);
        let circuit = longest(&net).err().unwrap();
        assert_eq!((circuit.w(), circuit.arcs().len()), (1, 3));
    }
}
