//! Ends by going through every circuit there is.
//!
//! This follows 01's definitions without a thought, and takes time that grows
//! with the number of circuits: it is for sheets of a few nodes.

use crate::arc::{Arc, Net};
use crate::circuit::Circuit;

use super::{Ends, Limits};

/// The ends of a small net.
pub fn find(net: &Net) -> Ends {
    let mut limits = Limits::default();
    for_each_circuit(net, &mut |circuit| limits.extend([circuit]));
    limits.answer()
}

/// Hands over each circuit of the net once.
pub fn for_each_circuit(net: &Net, visit: &mut impl FnMut(Circuit)) {
    for smallest in 0..net.nodes {
        let mut walk = Vec::new();
        extend(net, smallest, smallest, &mut walk, visit);
    }
}

/// Goes on from a node with a walk that left the smallest node first and then
/// only greater ones, none of them twice.
fn extend(
    net: &Net,
    smallest: usize,
    at: usize,
    walk: &mut Vec<Arc>,
    visit: &mut impl FnMut(Circuit),
) {
    for arc in net.arcs.iter().filter(|arc| arc.leaves == at) {
        walk.push(*arc);
        let is_new = walk.iter().all(|past| past.leaves != arc.arrives);
        if arc.arrives == smallest {
            visit(Circuit::turned(walk.clone()));
        } else if arc.arrives > smallest && is_new {
            extend(net, smallest, arc.arrives, walk, visit);
        }
        walk.pop();
    }
}
