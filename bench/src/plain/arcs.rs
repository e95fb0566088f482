//! The arcs of a sheet in memory.

use second::sheet::NO_WINDOW;

/// An arc. Nodes are counted from 0.
#[derive(Clone, Copy, Debug, PartialEq, Eq)]
pub struct Arc {
    /// The node of departure.
    pub leaves: usize,
    /// The node of arrival.
    pub arrives: usize,
    /// What it adds to a circuit's W.
    pub w: i64,
    /// What it adds to a circuit's c.
    pub c: i64,
    /// Kind, position, to, from.
    pub name: [u8; 4],
}

/// The arcs of a sheet of n events, position by position.
pub fn arcs(n: usize, tables: &[i32], schedule: &[u8]) -> Vec<Arc> {
    let part = 4 * n * n;
    let mut arcs = Vec::new();
    for (h, &mode) in schedule.iter().enumerate() {
        let windows = &tables[usize::from(mode) * part..][..part];
        let is_last = h + 1 == schedule.len();
        let next = if is_last { 0 } else { h + 1 };
        for (place, &w) in windows.iter().enumerate() {
            if w == NO_WINDOW {
                continue;
            }
            let (kind, to, from) = (place / (n * n), place / n % n, place % n);
            let reaches_next = kind >= 2;
            let to_node = if reaches_next { next } else { h } * n + to;
            let from_node = h * n + from;
            let crosses = i64::from(reaches_next && is_last);
            let name = [kind, h + 1, to + 1, from + 1].map(|number| number as u8);
            arcs.push(if kind % 2 == 0 {
                Arc {
                    leaves: from_node,
                    arrives: to_node,
                    w: i64::from(w),
                    c: -crosses,
                    name,
                }
            } else {
                Arc {
                    leaves: to_node,
                    arrives: from_node,
                    w: -i64::from(w),
                    c: crosses,
                    name,
                }
            });
        }
    }
    arcs
}
