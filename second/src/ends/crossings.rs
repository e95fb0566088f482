//! The heaviest closed walks, by how often they cross the period end.
//!
//! Whether a closed walk limits the cycle time, and how, hangs on its W and its
//! c alone. So for each c the heaviest closed walk is enough. Between two
//! crossings of the period end a heaviest walk takes a longest path of arcs that
//! do not cross. What is left are walks that jump from crossing to crossing.
//!
//! A circuit leaves no node twice. Its kind-2 crossings leave n nodes at
//! position V and its kind-3 crossings n nodes at position 1, so it has at most n
//! of each, and on the way c stays between -n and n. All circuits are therefore
//! among the walks looked at. The converse does not hold, but a closed walk falls
//! apart into circuits, and these together limit the cycle time at least as
//! tightly as the walk does: where the walk's total W + c·λ is above zero, that
//! of one of them is. Hence the circuits that the heaviest walks fall into have
//! the tightest limits of all circuits among them, or show that there are no ends.

use crate::arc::{Arc, Net};
use crate::circuit::Circuit;
use crate::paths::{Length, Paths};

/// The circuits of a heaviest closed walk for each c.
///
/// `inner` are the longest paths over the arcs that do not cross the period end.
pub(super) fn heaviest_circuits(net: &Net, inner: &Paths<'_>) -> Vec<Circuit> {
    let crossings = Crossings::new(net, inner);
    let walks = crossings.heaviest_closed_walks();
    let circuits = walks.flat_map(|walk| Circuit::cut(&crossings.arcs_along(&walk.gates)));
    circuits.collect()
}

/// A node that crossing arcs leave, and the c of those arcs.
#[derive(Clone, Copy, PartialEq, Eq)]
struct Gate {
    node: usize,
    c: i64,
}

impl Gate {
    fn of(arc: &Arc) -> Gate {
        Gate {
            node: arc.leaves,
            c: arc.c,
        }
    }
}

/// A longest walk from one gate to another: a crossing arc and then a path that
/// does not cross.
#[derive(Clone, Copy)]
struct Jump {
    crossing: Arc,
    length: Length,
}

impl Jump {
    fn over(crossing: &Arc, to: &Gate, inner: &Paths<'_>) -> Option<Jump> {
        let onward = inner.length(crossing.arrives, to.node);
        onward.is_walk().then(|| Jump {
            crossing: *crossing,
            length: Length::of_arc(crossing.w) + onward,
        })
    }
}

/// A closed walk, by the gates it passes; the last is the first again.
#[derive(Clone)]
struct ClosedWalk {
    gates: Vec<usize>,
    length: Length,
}

/// The longest walks of so many jumps from one gate on: `layer[gate][column]`
/// is the one to a gate with the c that a column stands for.
type Layer = Vec<Vec<Length>>;

/// A walk of a [`Layer`], by the last jump it takes.
struct Arrival {
    from: usize,
    column_before: usize,
    length: Length,
}

/// The crossings of a net, and the jumps between them.
struct Crossings<'a> {
    inner: &'a Paths<'a>,
    gates: Vec<Gate>,
    /// `jumps[from][to]`, where there is one.
    jumps: Vec<Vec<Option<Jump>>>,
    /// The column of c = 0. Columns stand for c from -n to n.
    zero: usize,
}

impl<'a> Crossings<'a> {
    fn new(net: &Net, inner: &'a Paths<'a>) -> Self {
        let crossings: Vec<&Arc> = net.arcs.iter().filter(|arc| arc.c != 0).collect();
        let mut gates = Vec::new();
        for arc in &crossings {
            if !gates.contains(&Gate::of(arc)) {
                gates.push(Gate::of(arc));
            }
        }
        let jump = |from: &Gate, to: &Gate| {
            let leaving = crossings.iter().filter(|arc| Gate::of(arc) == *from);
            let jumps = leaving.filter_map(|arc| Jump::over(arc, to, inner));
            jumps.max_by_key(|jump| jump.length)
        };
        let jumps_from = |from| gates.iter().map(|to| jump(from, to)).collect();
        Crossings {
            inner,
            jumps: gates.iter().map(jumps_from).collect(),
            gates,
            zero: net.n,
        }
    }

    fn columns(&self) -> usize {
        2 * self.zero + 1
    }

    /// A heaviest closed walk for each c that has one.
    fn heaviest_closed_walks(&self) -> impl Iterator<Item = ClosedWalk> {
        let mut heaviest: Vec<Option<ClosedWalk>> = vec![None; self.columns()];
        for start in 0..self.gates.len() {
            let layers = self.layers_from(start);
            for jumps in 1..layers.len() {
                for (column, known) in heaviest.iter_mut().enumerate() {
                    let length = layers[jumps][start][column];
                    let known_length = known.as_ref().map_or(Length::NO_WALK, |walk| walk.length);
                    if length > known_length {
                        let gates = self.trace(&layers[..=jumps], start, column);
                        *known = Some(ClosedWalk { gates, length });
                    }
                }
            }
        }
        heaviest.into_iter().flatten()
    }

    /// The layers of no jump, one jump and so on from a gate, over that gate and
    /// the later ones.
    ///
    /// A circuit can be begun at the first of its gates, so the earlier ones need
    /// not be looked at; and it passes each gate once, so there need be no more
    /// jumps than gates.
    fn layers_from(&self, start: usize) -> Vec<Layer> {
        let mut layer = self.empty_layer();
        layer[start][self.zero] = Length::EMPTY;
        let mut layers = vec![layer];
        for jumps in 0..self.gates.len() - start {
            layers.push(self.layer_after(&layers[jumps], start));
        }
        layers
    }

    fn layer_after(&self, before: &Layer, start: usize) -> Layer {
        let mut layer = self.empty_layer();
        for (to, row) in layer.iter_mut().enumerate().skip(start) {
            for (column, longest) in row.iter_mut().enumerate() {
                let lengths = self.arrivals(before, to, column).map(|last| last.length);
                *longest = lengths.max().unwrap_or(Length::NO_WALK);
            }
        }
        layer
    }

    fn empty_layer(&self) -> Layer {
        vec![vec![Length::NO_WALK; self.columns()]; self.gates.len()]
    }

    /// The last jumps with which the walks of a layer come to a gate and column.
    fn arrivals<'b>(
        &'b self,
        before: &'b Layer,
        to: usize,
        column: usize,
    ) -> impl Iterator<Item = Arrival> + 'b {
        let by_gate = self.gates.iter().zip(&self.jumps).zip(before).enumerate();
        by_gate.filter_map(move |(from, ((gate, jumps), walks))| {
            let column_before = if gate.c > 0 {
                column.checked_sub(1)?
            } else {
                column + 1
            };
            let walked = walks.get(column_before).filter(|length| length.is_walk())?;
            Some(Arrival {
                from,
                column_before,
                length: *walked + jumps[to]?.length,
            })
        })
    }

    /// The gates of the walk of the last layer that ends where it started, in
    /// this column.
    fn trace(&self, layers: &[Layer], start: usize, column: usize) -> Vec<usize> {
        let mut gates = vec![start];
        let (mut to, mut column) = (start, column);
        for pair in layers.windows(2).rev() {
            let length = pair[1][to][column];
            let last = self
                .arrivals(&pair[0], to, column)
                .find(|arrival| arrival.length == length)
                .expect("a walk comes from the layer before");
            to = last.from;
            column = last.column_before;
            gates.push(to);
        }
        gates.reverse();
        gates
    }

    /// The arcs of a walk along these gates.
    fn arcs_along(&self, gates: &[usize]) -> Vec<Arc> {
        let mut arcs = Vec::new();
        for pair in gates.windows(2) {
            let jump = self.jumps[pair[0]][pair[1]].expect("a walk follows jumps");
            let target = self.gates[pair[1]].node;
            arcs.push(jump.crossing);
            arcs.extend(self.inner.path(jump.crossing.arrives, target));
        }
        arcs
    }
}
