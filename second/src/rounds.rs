//! Rounds: the tables of 01, worked out just as they are defined.

use crate::arc::Net;
use crate::cycle_time::CycleTime;

/// The rounds and the plan, or nothing if the cycle time is refuted.
///
/// "The rounds reported on acceptance are the least r with table r+1 equal to
/// table r, from 0 to N-1, and table r is the plan. On a refutation the number is
/// N": there is no such r, and all N rounds change something.
pub fn settle(net: &Net, time: CycleTime) -> Option<(usize, Vec<i64>)> {
    settle_from(net, time, vec![0; net.nodes])
}

/// The same with another table 0: the earliest plan whose times are at least those.
pub(crate) fn settle_from(
    net: &Net,
    time: CycleTime,
    mut table: Vec<i64>,
) -> Option<(usize, Vec<i64>)> {
    for round in 0..net.nodes {
        let next = next_table(net, time, &table);
        if next == table {
            return Some((round, table));
        }
        table = next;
    }
    None
}

/// "Table r+1 holds, at each node, the larger of table r there and the largest
/// (table r at departure plus weight) over arcs arriving. Every round reads only
/// the table before it."
fn next_table(net: &Net, time: CycleTime, table: &[i64]) -> Vec<i64> {
    let mut next = table.to_vec();
    for arc in &net.arcs {
        let least = table[arc.leaves] + arc.weight(time);
        next[arc.arrives] = next[arc.arrives].max(least);
    }
    next
}
