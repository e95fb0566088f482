//! Proposals held to a sheet (02, E2), worked by hand: each with the number, and behind it
//! position, kind, to and from of the first window broken, or the index of the first bad arc.

use super::List::{self, Arcs, Times};
use super::{Drawn, APART, BARE, CROSSED, FIRST, HALVES, OF_THE_REPORT, TWO_MODES};

/// A sheet, p and q, what is proposed, and the answer.
type Row = (Drawn, u64, u64, List, &'static str);

/// All four kinds, each with a limit that two equal times break at 2/1.
const FOUR: Drawn = Drawn(2, "0", &["0:2,1=1 1:2,1=-1 2:1,2=3 3:1,2=1"]);
const LAST_THREE: Drawn = Drawn(2, "0", &["1:2,1=-1 2:1,2=3 3:1,2=1"]);
const LAST_TWO: Drawn = Drawn(2, "0", &["2:1,2=3 3:1,2=1"]);
const LAST: Drawn = Drawn(2, "0", &["3:1,2=1"]);
/// Windows of one kind, for the order by to and then from.
const EVENTS: Drawn = Drawn(3, "0", &["0:1,2=1 0:1,3=1 0:2,1=-5 0:2,3=1 0:3,1=1"]);
/// A late kind at the first position and an early one at the second.
const POSITIONS: Drawn = Drawn(2, "0 1", &["3:1,1=1", "0:2,1=5"]);
/// One mode twice: its window crosses the period end the second time.
const TWICE: Drawn = Drawn(1, "0 0", &["2:1,1=2 3:1,1=5"]);
/// At least 1 after itself.
const NEVER: Drawn = Drawn(2, "0", &["0:2,2=1"]);
/// A limit that times at both ends of their range are far beyond.
const WIDE: Drawn = Drawn(2, "0", &["1:2,1=1000000"]);

/// As late as a proposed time can be.
const LATEST: i64 = 382_000_000_000;

pub(super) const ROWS: [Row; 98] = [
    // plans: neither the earliest, nor from zero
    (FIRST, 5, 1, Times(&[0]), "0"),
    (FIRST, 8, 1, Times(&[-7]), "0"),
    (FIRST, 13, 2, Times(&[LATEST]), "0"),
    (FIRST, 13, 2, Times(&[-LATEST]), "0"),
    (OF_THE_REPORT, 5, 1, Times(&[0, 3]), "0"),
    (OF_THE_REPORT, 5, 1, Times(&[7, 10]), "0"),
    (OF_THE_REPORT, 5, 1, Times(&[-1, 2]), "0"),
    (OF_THE_REPORT, 6, 1, Times(&[-9, -5]), "0"),
    (OF_THE_REPORT, 10, 2, Times(&[0, 6]), "0"),
    (OF_THE_REPORT, 11, 2, Times(&[0, 7]), "0"),
    (HALVES, 5, 2, Times(&[0, 1]), "0"),
    (TWO_MODES, 7, 1, Times(&[0, 3]), "0"),
    (TWO_MODES, 10, 1, Times(&[-4, 0]), "0"),
    (TWICE, 10, 1, Times(&[0, 5]), "0"),
    (BARE, 0, 1000, Times(&[-1]), "0"),
    (WIDE, 0, 1, Times(&[LATEST, -LATEST]), "0"),
    // surplus is not read
    (OF_THE_REPORT, 5, 1, Times(&[0, 3, i64::MIN]), "0"),
    (FIRST, 5, 1, Times(&[0, LATEST + 1]), "0"),
    // each kind broken
    (OF_THE_REPORT, 5, 1, Times(&[0, 2]), "102 1 0 2 1"),
    (OF_THE_REPORT, 6, 1, Times(&[0, 5]), "102 1 1 2 1"),
    (OF_THE_REPORT, 5, 1, Times(&[0, 4]), "102 1 2 1 2"),
    (OF_THE_REPORT, 10, 2, Times(&[0, 3]), "102 1 0 2 1"),
    (FIRST, 4, 1, Times(&[0]), "102 1 2 1 1"),
    (FIRST, 17, 2, Times(&[-3]), "102 1 3 1 1"),
    (WIDE, 0, 1000, Times(&[-LATEST, LATEST]), "102 1 1 2 1"),
    // the first of several: by kind, to, from, and before these by position
    (FOUR, 2, 1, Times(&[0, 0]), "102 1 0 2 1"),
    (LAST_THREE, 2, 1, Times(&[0, 0]), "102 1 1 2 1"),
    (LAST_TWO, 2, 1, Times(&[0, 0]), "102 1 2 1 2"),
    (LAST, 2, 1, Times(&[0, 0]), "102 1 3 1 2"),
    (EVENTS, 0, 1, Times(&[0, 0, 0]), "102 1 0 1 2"),
    (EVENTS, 0, 1, Times(&[0, -1, 0]), "102 1 0 1 3"),
    (EVENTS, 0, 1, Times(&[1, 0, 0]), "102 1 0 2 3"),
    (EVENTS, 0, 1, Times(&[2, 1, 0]), "102 1 0 3 1"),
    (POSITIONS, 10, 1, Times(&[0, 0, 3, 0]), "102 1 3 1 1"),
    (POSITIONS, 10, 1, Times(&[0, 0, 1, 0]), "102 2 0 2 1"),
    // the mode at h, and the period end
    (TWO_MODES, 7, 1, Times(&[0, 2]), "102 1 2 1 1"),
    (TWO_MODES, 7, 1, Times(&[0, 4]), "102 2 2 1 1"),
    (TWO_MODES, 10, 1, Times(&[0, 3]), "102 2 3 1 1"),
    (TWICE, 11, 1, Times(&[0, 5]), "102 2 3 1 1"),
    (TWICE, 11, 1, Times(&[0, 6]), "102 1 3 1 1"),
    (TWICE, 6, 1, Times(&[0, 5]), "102 2 2 1 1"),
    // refused
    (FIRST, 5, 1, Times(&[]), "11"),
    (OF_THE_REPORT, 5, 1, Times(&[0]), "11"),
    (FIRST, 5, 1, Times(&[LATEST + 1]), "11"),
    (FIRST, 5, 1, Times(&[-LATEST - 1]), "11"),
    (FIRST, 5, 1, Times(&[i64::MAX]), "11"),
    (FIRST, 5, 1, Times(&[i64::MIN]), "11"),
    (OF_THE_REPORT, 5, 1, Times(&[0, LATEST + 1]), "11"),
    (FIRST, 5, 0, Times(&[]), "10"),
    (FIRST, 1_000_000_001, 1, Times(&[i64::MIN]), "10"),
    // refutations
    (FIRST, 4, 1, Arcs(&[2, 1, 1, 1]), "0"),
    (FIRST, 17, 2, Arcs(&[3, 1, 1, 1]), "0"),
    (APART, 8, 1, Arcs(&[2, 1, 1, 1]), "0"),
    (APART, 9, 1, Arcs(&[3, 1, 1, 1]), "0"),
    (CROSSED, 0, 1, Arcs(&[0, 1, 2, 1, 1, 1, 2, 1]), "0"),
    (OF_THE_REPORT, 4, 1, Arcs(&[0, 1, 2, 1, 2, 1, 1, 2]), "0"),
    (HALVES, 499, 200, Arcs(&[2, 1, 2, 1, 2, 1, 1, 2]), "0"),
    (TWO_MODES, 6, 1, Arcs(&[2, 1, 1, 1, 2, 2, 1, 1]), "0"),
    (NEVER, 1_000_000_000, 1000, Arcs(&[0, 1, 2, 2]), "0"),
    // the total at zero and below
    (FIRST, 5, 1, Arcs(&[2, 1, 1, 1]), "107"),
    (FIRST, 6, 1, Arcs(&[2, 1, 1, 1]), "107"),
    (FIRST, 16, 2, Arcs(&[3, 1, 1, 1]), "107"),
    (HALVES, 5, 2, Arcs(&[2, 1, 2, 1, 2, 1, 1, 2]), "107"),
    (TWO_MODES, 7, 1, Arcs(&[2, 1, 1, 1, 2, 2, 1, 1]), "107"),
    (TWO_MODES, 7, 1, Arcs(&[3, 2, 1, 1, 2, 2, 1, 1]), "107"),
    // turned, also at zero
    (OF_THE_REPORT, 4, 1, Arcs(&[2, 1, 1, 2, 0, 1, 2, 1]), "106"),
    (OF_THE_REPORT, 5, 1, Arcs(&[2, 1, 1, 2, 0, 1, 2, 1]), "106"),
    // gone round twice, also turned
    (FIRST, 4, 1, Arcs(&[2, 1, 1, 1, 2, 1, 1, 1]), "105"),
    (
        OF_THE_REPORT,
        4,
        1,
        Arcs(&[0, 1, 2, 1, 2, 1, 1, 2, 0, 1, 2, 1, 2, 1, 1, 2]),
        "105",
    ),
    (
        OF_THE_REPORT,
        4,
        1,
        Arcs(&[2, 1, 1, 2, 0, 1, 2, 1, 2, 1, 1, 2, 0, 1, 2, 1]),
        "105",
    ),
    (FIRST, 4, 1, Arcs(&AGAIN), "105"),
    // open, also with a node left twice
    (OF_THE_REPORT, 4, 1, Arcs(&[0, 1, 2, 1]), "104"),
    (OF_THE_REPORT, 4, 1, Arcs(&[2, 1, 1, 2]), "104"),
    (
        OF_THE_REPORT,
        4,
        1,
        Arcs(&[0, 1, 2, 1, 2, 1, 1, 2, 0, 1, 2, 1]),
        "104",
    ),
    (TWO_MODES, 6, 1, Arcs(&[3, 2, 1, 1]), "104"),
    // bad arcs: not where the one before arrived
    (
        OF_THE_REPORT,
        4,
        1,
        Arcs(&[0, 1, 2, 1, 0, 1, 2, 1]),
        "103 1",
    ),
    (
        OF_THE_REPORT,
        4,
        1,
        Arcs(&[0, 1, 2, 1, 2, 1, 1, 2, 2, 1, 1, 2]),
        "103 2",
    ),
    // and no such window: kind, position, to and from
    (OF_THE_REPORT, 4, 1, Arcs(&[3, 1, 1, 1]), "103 0"),
    (OF_THE_REPORT, 4, 1, Arcs(&[4, 1, 2, 1]), "103 0"),
    (OF_THE_REPORT, 4, 1, Arcs(&[255, 255, 255, 255]), "103 0"),
    (OF_THE_REPORT, 4, 1, Arcs(&[0, 0, 2, 1]), "103 0"),
    (OF_THE_REPORT, 4, 1, Arcs(&[0, 2, 2, 1]), "103 0"),
    (OF_THE_REPORT, 4, 1, Arcs(&[0, 1, 0, 1]), "103 0"),
    (OF_THE_REPORT, 4, 1, Arcs(&[0, 1, 3, 1]), "103 0"),
    (OF_THE_REPORT, 4, 1, Arcs(&[0, 1, 2, 0]), "103 0"),
    (OF_THE_REPORT, 4, 1, Arcs(&[0, 1, 2, 3]), "103 0"),
    (TWO_MODES, 6, 1, Arcs(&[3, 1, 1, 1]), "103 0"),
    (
        OF_THE_REPORT,
        4,
        1,
        Arcs(&[0, 1, 2, 1, 4, 1, 1, 2]),
        "103 1",
    ),
    // the first of several
    (
        OF_THE_REPORT,
        4,
        1,
        Arcs(&[0, 1, 2, 1, 0, 1, 2, 1, 4, 1, 1, 1]),
        "103 1",
    ),
    (
        OF_THE_REPORT,
        4,
        1,
        Arcs(&[4, 1, 1, 1, 0, 1, 2, 1, 0, 1, 2, 1]),
        "103 0",
    ),
    // refused
    (FIRST, 4, 1, Arcs(&[]), "11"),
    (FIRST, 4, 1, Arcs(&[2]), "11"),
    (FIRST, 4, 1, Arcs(&[2, 1, 1]), "11"),
    (FIRST, 4, 1, Arcs(&[2, 1, 1, 1, 2]), "11"),
    (FIRST, 4, 1, Arcs(&[9, 9, 9, 9, 9, 9]), "11"),
    (FIRST, 4, 0, Arcs(&[]), "10"),
    (FIRST, 4, 1001, Arcs(&[2, 1, 1, 1]), "10"),
    (FIRST, 1_000_000_001, 1, Arcs(&[2, 1, 1, 1]), "10"),
];

/// The circuit of the first sheet, far more often than there are nodes.
const AGAIN: [u8; 4000] = {
    let mut numbers = [1; 4000];
    let mut arc = 0;
    while arc < numbers.len() {
        numbers[arc] = 2;
        arc += 4;
    }
    numbers
};
