//! Arcs: "each window at each position is one arc".

use std::fmt;

use crate::cycle_time::CycleTime;
use crate::sheet::Sheet;
use crate::window::Window;

/// How a call names an arc: "an arc is four numbers: kind, position, to, from".
///
/// The numbers may be another program's claim, so nothing is known of them.
#[derive(Clone, Copy, Debug, PartialEq, Eq, Hash)]
pub struct ArcName {
    /// The kind number of the window.
    pub kind: u64,
    /// The position h, from 1.
    pub position: u64,
    /// The event "to", from 1.
    pub to: u64,
    /// The event "from", from 1.
    pub from: u64,
}

impl ArcName {
    /// The name of the arc of a window at a position.
    pub fn new(position: usize, window: Window) -> ArcName {
        ArcName {
            kind: window.kind.number() as u64,
            position: position as u64,
            to: window.to as u64,
            from: window.from as u64,
        }
    }

    /// The four numbers in the order in which they are handed over.
    pub fn numbers(self) -> [u64; 4] {
        [self.kind, self.position, self.to, self.from]
    }

    /// The arcs of a list in bytes, four to an arc; what is left over is none.
    pub fn list(bytes: &[u8]) -> Vec<ArcName> {
        let name = |arc: &[u8]| ArcName::from([0, 1, 2, 3].map(|part| u64::from(arc[part])));
        bytes.chunks_exact(4).map(name).collect()
    }

    /// The list in bytes of arcs whose numbers fit.
    pub fn bytes(names: &[ArcName]) -> Vec<u8> {
        let numbers = names.iter().flat_map(|name| name.numbers());
        numbers.map(|number| number as u8).collect()
    }
}

impl From<[u64; 4]> for ArcName {
    fn from([kind, position, to, from]: [u64; 4]) -> ArcName {
        ArcName {
            kind,
            position,
            to,
            from,
        }
    }
}

/// The four numbers parted by one space, as on a line of the report.
impl fmt::Display for ArcName {
    fn fmt(&self, f: &mut fmt::Formatter<'_>) -> fmt::Result {
        let [kind, position, to, from] = self.numbers();
        write!(f, "{kind} {position} {to} {from}")
    }
}

/// An arc of a sheet: "time at arrival is at least time at departure plus
/// weight".
///
/// Nodes are counted from 0 here, as [`Sheet::node`] counts them.
#[derive(Clone, Copy, Debug, PartialEq, Eq)]
pub struct Arc {
    /// The arc's four numbers.
    pub name: ArcName,
    /// The node of departure.
    pub leaves: usize,
    /// The node of arrival.
    pub arrives: usize,
    /// The arc's share of a circuit's W.
    pub w: i64,
    /// The arc's share of a circuit's c: 1 for a kind-3 crossing of the period
    /// end, -1 for a kind-2 crossing, else 0.
    pub c: i64,
}

impl Arc {
    /// The arc of a window of the mode at a position.
    pub fn new(sheet: &Sheet, position: usize, window: Window) -> Arc {
        let Window { kind, to, from, w } = window;
        let to_position = if kind.reaches_next() {
            sheet.next_position(position)
        } else {
            position
        };
        let from_node = sheet.node(position, from);
        let to_node = sheet.node(to_position, to);
        let crossings = i64::from(kind.reaches_next() && position == sheet.v());
        let name = ArcName::new(position, window);
        let w = i64::from(w);
        if kind.is_upper() {
            Arc {
                name,
                leaves: to_node,
                arrives: from_node,
                w: -w,
                c: crossings,
            }
        } else {
            Arc {
                name,
                leaves: from_node,
                arrives: to_node,
                w,
                c: -crossings,
            }
        }
    }

    /// The weight at a cycle time: ±q·w, less or more p at the period end.
    pub fn weight(&self, time: CycleTime) -> i64 {
        time.q * self.w + time.p * self.c
    }
}

/// The arcs of a sheet between its nodes.
///
/// The methods work on a net and not on its sheet, so that a test can also put
/// a misread net before them.
#[derive(Clone, Debug)]
pub struct Net {
    /// n, the events per position.
    pub n: usize,
    /// N, the nodes.
    pub nodes: usize,
    /// All arcs, position by position.
    pub arcs: Vec<Arc>,
}

impl Net {
    /// The net of a sheet. "The mode at h, not at h+1, supplies kinds 2 and 3."
    pub fn new(sheet: &Sheet) -> Net {
        let mut arcs = Vec::new();
        for position in 1..=sheet.v() {
            let windows = sheet.windows(sheet.mode_at(position));
            arcs.extend(windows.map(|window| Arc::new(sheet, position, window)));
        }
        Net {
            n: sheet.n(),
            nodes: sheet.nodes(),
            arcs,
        }
    }
}

#[cfg(test)]
mod tests {
    use super::*;
    use crate::window::Kind;

    /// Leaves, arrives, w and c of the arc of a window to 2 from 1 with w = 5,
    /// on a sheet of two events and two positions.
    fn arc(kind: Kind, position: usize) -> (usize, usize, i64, i64) {
        let sheet = Sheet::without_windows(2, 1, &[0, 0]).unwrap();
        let window = Window {
            kind,
            to: 2,
            from: 1,
            w: 5,
        };
        let arc = Arc::new(&sheet, position, window);
        (arc.leaves, arc.arrives, arc.w, arc.c)
    }

    #[test]
    fn names_are_lists_of_bytes() {
        let bytes = [0, 1, 2, 1, 255, 16, 0, 12];
        let names = [[0, 1, 2, 1], [255, 16, 0, 12]].map(ArcName::from);
        assert_eq!(ArcName::list(&bytes), names);
        assert_eq!(ArcName::list(&bytes[..7]), names[..1]);
        assert_eq!(ArcName::bytes(&names), bytes);
    }

    #[test]
    fn lower_kinds_leave_the_from_node_and_upper_kinds_the_to_node() {
        assert_eq!(arc(Kind::A0, 1), (0, 1, 5, 0));
        assert_eq!(arc(Kind::B0, 1), (1, 0, -5, 0));
        assert_eq!(arc(Kind::A1, 1), (0, 3, 5, 0));
        assert_eq!(arc(Kind::B1, 1), (3, 0, -5, 0));
    }

    #[test]
    fn only_kinds_2_and_3_cross_the_period_end_and_only_at_position_v() {
        assert_eq!(arc(Kind::A0, 2), (2, 3, 5, 0));
        assert_eq!(arc(Kind::B0, 2), (3, 2, -5, 0));
        assert_eq!(arc(Kind::A1, 2), (2, 1, 5, -1));
        assert_eq!(arc(Kind::B1, 2), (1, 2, -5, 1));
    }

    #[test]
    fn kind_2_loses_p_and_kind_3_gains_p() {
        let sheet = Sheet::without_windows(1, 1, &[0]).unwrap();
        let time = CycleTime { p: 7, q: 2 };
        let weight = |kind| {
            let window = Window {
                kind,
                to: 1,
                from: 1,
                w: 5,
            };
            Arc::new(&sheet, 1, window).weight(time)
        };
        assert_eq!(Kind::ALL.map(weight), [10, -10, 10 - 7, -10 + 7]);
    }
}
