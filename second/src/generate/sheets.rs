//! Families of sheets.

use crate::limits::{GREATEST_VALUE, MOST_EVENTS, MOST_MODES, MOST_POSITIONS};
use crate::random::Random;
use crate::sheet::Sheet;
use crate::window::{Kind, Window};

/// The greatest w.
const GREATEST: i64 = GREATEST_VALUE as i64;

/// A way to make a sheet.
type Make = fn(&mut Random) -> Sheet;

/// The families by name.
pub(super) const FAMILIES: [(&str, Make); 17] = [
    ("free", free),
    ("slack", slack),
    ("tight", tight),
    ("missed", missed),
    ("tiny", tiny),
    ("ring", ring),
    ("torn", torn),
    ("sparse", sparse),
    ("chain", chain),
    ("lower", lower),
    ("idle", idle),
    ("dense", dense),
    ("zero", zero),
    ("extreme", extreme),
    ("large", large),
    ("longest", longest),
    ("bare", bare),
];

/// Any windows of small values; few such sheets have ends.
fn free(random: &mut Random) -> Sheet {
    let mut sheet = up_to(random, 4, 3, 4);
    let share = random.pick(&[5, 10, 25, 100]);
    fill(&mut sheet, |_| {
        random.chance(share).then(|| random.between(-9, 9))
    });
    sheet
}

/// Windows that a hidden plan keeps with room to spare.
fn slack(random: &mut Random) -> Sheet {
    let sheet = up_to(random, 6, 3, 5);
    let share = random.pick(&[10, 30, 80]);
    around_hidden_plan(random, sheet, share, 5)
}

/// Windows that a hidden plan only just keeps.
fn tight(random: &mut Random) -> Sheet {
    let sheet = up_to(random, 5, 3, 5);
    let share = random.pick(&[10, 30, 80]);
    around_hidden_plan(random, sheet, share, 0)
}

/// As "tight", but for one window that is too tight by one.
fn missed(random: &mut Random) -> Sheet {
    let mut sheet = tight(random);
    let mode = sheet.mode_at(random.size(1, sheet.v()));
    let windows: Vec<Window> = sheet.windows(mode).collect();
    if !windows.is_empty() {
        let mut window = random.pick(&windows);
        window.w += if window.kind.is_upper() { -1 } else { 1 };
        put(&mut sheet, mode, window);
    }
    sheet
}

/// One or two events and few positions: every form of answer soon comes up.
fn tiny(random: &mut Random) -> Sheet {
    let mut sheet = up_to(random, 2, 2, 3);
    let share = random.pick(&[20, 40, 60]);
    fill(&mut sheet, |place| {
        let least = if place.kind.is_upper() { 0 } else { -4 };
        let w = random.between(least, least + 5);
        random.chance(share).then_some(w)
    });
    sheet
}

/// Each event waits for another one a position before: ends with great bottoms.
fn ring(random: &mut Random) -> Sheet {
    let mut sheet = up_to(random, MOST_EVENTS, 2, 3);
    let n = sheet.n();
    let upper_share = random.pick(&[0, 10, 100]);
    fill(&mut sheet, |place| {
        let is_next = place.to == place.from % n + 1;
        match place.kind {
            Kind::A1 if is_next => Some(random.between(0, 30)),
            Kind::B1 if is_next && random.chance(upper_share) => Some(random.between(28, 40)),
            _ => None,
        }
    });
    sheet
}

/// A ring of lower limits on some events and one of upper limits on the others:
/// two circuits that may contradict each other, though neither does by itself.
fn torn(random: &mut Random) -> Sheet {
    let mut sheet = up_to(random, MOST_EVENTS, 2, 3);
    let n = sheet.n();
    let lower_ring = random.size(0, n);
    fill(&mut sheet, |place| {
        let (kind, first, last) = if place.from <= lower_ring {
            (Kind::A1, 1, lower_ring)
        } else {
            (Kind::B1, lower_ring + 1, n)
        };
        let next = if place.from == last {
            first
        } else {
            place.from + 1
        };
        let is_on_ring = place.kind == kind && place.to == next;
        is_on_ring.then(|| random.between(10, 30))
    });
    sheet
}

/// Few windows on many nodes.
fn sparse(random: &mut Random) -> Sheet {
    let sheet = up_to(random, MOST_EVENTS, MOST_MODES, MOST_POSITIONS);
    let share = random.pick(&[1, 3, 6]);
    around_hidden_plan(random, sheet, share, 4)
}

/// Each node waits for the one before it, forwards or backwards: many rounds.
fn chain(random: &mut Random) -> Sheet {
    let n = random.size(1, MOST_EVENTS);
    let v = random.size(1, MOST_POSITIONS);
    let w = random.pick(&[1, 7, 1000, GREATEST]);
    let (within, across, w) = if random.chance(70) {
        (Kind::A0, Kind::A1, w)
    } else {
        (Kind::B0, Kind::B1, -w)
    };
    let mut schedule = vec![0; v];
    // A mode of its own at the last position keeps the chain from closing round
    // the period end, where upper limits would leave no plan.
    if within.is_upper() || random.chance(30) {
        schedule[v - 1] = 1;
    }
    let mut sheet = empty(n, 2, &schedule);
    fill(&mut sheet, |place| {
        let is_next = place.kind == within && place.to == place.from + 1;
        let is_across = place.kind == across && place.to == 1 && place.from == n;
        (is_next || is_across && place.mode == 0).then_some(w)
    });
    sheet
}

/// Lower limits only, so that high is open.
fn lower(random: &mut Random) -> Sheet {
    let mut sheet = up_to(random, 6, 3, 6);
    let share = random.pick(&[10, 40, 90]);
    fill(&mut sheet, |place| {
        let most = if place.kind.reaches_next() { 20 } else { 0 };
        let w = random.between(most - 20, most);
        (random.chance(share) && !place.kind.is_upper()).then_some(w)
    });
    sheet
}

/// Many modes, of which the schedule names one or two.
fn idle(random: &mut Random) -> Sheet {
    let n = random.size(1, 4);
    let v = random.size(1, 6);
    let modes = MOST_MODES as u64;
    let named = [random.below(modes), random.below(modes)];
    let schedule: Vec<u64> = (0..v).map(|_| random.pick(&named)).collect();
    let sheet = empty(n, MOST_MODES, &schedule);
    let share = random.pick(&[20, 60]);
    around_hidden_plan(random, sheet, share, 2)
}

/// Every window there can be, around a hidden plan.
fn dense(random: &mut Random) -> Sheet {
    let sheet = up_to(random, 6, 4, 6);
    let slack = random.pick(&[0, 1, 3, 30]);
    around_hidden_plan(random, sheet, 100, slack)
}

/// All values zero.
fn zero(random: &mut Random) -> Sheet {
    let mut sheet = up_to(random, 5, 3, 5);
    let share = random.pick(&[10, 30, 100]);
    fill(&mut sheet, |_| random.chance(share).then_some(0));
    sheet
}

/// Values at the limits and next to them.
fn extreme(random: &mut Random) -> Sheet {
    let mut sheet = up_to(random, MOST_EVENTS, MOST_MODES, MOST_POSITIONS);
    let share = random.pick(&[2, 10, 100]);
    let of_hundred_wide = random.pick(&[50, 99, 100]);
    fill(&mut sheet, |place| {
        let w = GREATEST - random.pick(&[0, 0, 1, 2]);
        let is_wide = random.chance(of_hundred_wide);
        let w = if is_wide == place.kind.is_upper() {
            w
        } else {
            -w
        };
        random.chance(share).then_some(w)
    });
    sheet
}

/// As many nodes as there can be, around a hidden plan.
fn large(random: &mut Random) -> Sheet {
    let sheet = exactly(random, MOST_EVENTS, MOST_MODES, MOST_POSITIONS);
    let (share, slack) = random.pick(&[(100, 0), (100, 2), (40, 10), (100, 1000)]);
    around_hidden_plan(random, sheet, share, slack)
}

/// The longest file there can be: all windows, with values of three groups.
pub(super) fn longest(random: &mut Random) -> Sheet {
    let mut sheet = exactly(random, MOST_EVENTS, MOST_MODES, MOST_POSITIONS);
    let of_hundred_wide = random.pick(&[50, 100, 100]);
    fill(&mut sheet, |place| {
        let w = random.between(1 << 13, GREATEST);
        let is_wide = random.chance(of_hundred_wide);
        Some(if is_wide == place.kind.is_upper() {
            w
        } else {
            -w
        })
    });
    sheet
}

/// No windows.
fn bare(random: &mut Random) -> Sheet {
    up_to(random, MOST_EVENTS, MOST_MODES, MOST_POSITIONS)
}

/// Where a window can stand.
#[derive(Clone, Copy)]
struct Place {
    mode: usize,
    kind: Kind,
    to: usize,
    from: usize,
}

/// A sheet of these sizes and any schedule, without windows.
fn exactly(random: &mut Random, n: usize, m: usize, v: usize) -> Sheet {
    let schedule: Vec<u64> = (0..v).map(|_| random.below(m as u64)).collect();
    empty(n, m, &schedule)
}

/// A sheet of sizes up to these, without windows.
fn up_to(random: &mut Random, n: usize, m: usize, v: usize) -> Sheet {
    let [n, m, v] = [n, m, v].map(|most| random.size(1, most));
    exactly(random, n, m, v)
}

fn empty(n: usize, m: usize, schedule: &[u64]) -> Sheet {
    Sheet::without_windows(n, m, schedule).expect("families keep to the limits")
}

fn put(sheet: &mut Sheet, mode: usize, window: Window) {
    sheet
        .put(mode, window)
        .expect("families keep to the limits");
}

/// Sets a window at each place for which there is a w, at the limit at most.
fn fill(sheet: &mut Sheet, mut w: impl FnMut(Place) -> Option<i64>) {
    let n = sheet.n();
    for mode in 0..sheet.m() {
        for kind in Kind::ALL {
            for (to, from) in (1..=n).flat_map(|to| (1..=n).map(move |from| (to, from))) {
                let place = Place {
                    mode,
                    kind,
                    to,
                    from,
                };
                if let Some(w) = w(place) {
                    let w = w.clamp(-GREATEST, GREATEST) as i32;
                    put(sheet, mode, Window { kind, to, from, w });
                }
            }
        }
    }
}

/// Sets windows at a share of the places so that a hidden plan keeps them, each
/// with slack up to the given one. Modes that the schedule does not name get any.
fn around_hidden_plan(random: &mut Random, mut sheet: Sheet, share: u64, slack: i64) -> Sheet {
    let hidden = HiddenPlan::new(random, &sheet);
    fill(&mut sheet, |place| {
        let slack = random.between(0, slack);
        let w = match hidden.tightest(place) {
            Some(w) if place.kind.is_upper() => w + slack,
            Some(w) => w - slack,
            None => random.between(-GREATEST, GREATEST),
        };
        random.chance(share).then_some(w)
    });
    sheet
}

/// A plan and a cycle time to build windows around.
struct HiddenPlan {
    /// The sheet whose plan it is, without windows.
    sheet: Sheet,
    /// Steps to the unit.
    q: i64,
    /// The cycle time in steps.
    p: i64,
    /// The times in steps.
    times: Vec<i64>,
}

impl HiddenPlan {
    fn new(random: &mut Random, sheet: &Sheet) -> HiddenPlan {
        let q = random.between(1, sheet.n() as i64);
        let spread = q * random.pick(&[0, 3, 20, 500]);
        let per_position = random.between(0, spread);
        let mut times = Vec::new();
        for position in 0..sheet.v() as i64 {
            let earliest = position * per_position;
            times.extend((0..sheet.n()).map(|_| earliest + random.between(0, spread)));
        }
        HiddenPlan {
            sheet: sheet.clone(),
            q,
            p: per_position * sheet.v() as i64 + random.between(0, spread),
            times,
        }
    }

    /// The tightest w of a window at this place that the plan keeps, if the mode
    /// stands at some position.
    fn tightest(&self, place: Place) -> Option<i64> {
        let positions = (1..=self.sheet.v()).filter(|&h| self.sheet.mode_at(h) == place.mode);
        let differences = positions.map(|position| self.difference(place, position));
        if place.kind.is_upper() {
            let most = differences.max()?;
            Some(-(-most).div_euclid(self.q))
        } else {
            Some(differences.min()?.div_euclid(self.q))
        }
    }

    /// The difference in steps that a window at this place limits.
    fn difference(&self, place: Place, position: usize) -> i64 {
        let from = self.times[self.sheet.node(position, place.from)];
        let to = if !place.kind.reaches_next() {
            self.times[self.sheet.node(position, place.to)]
        } else if position < self.sheet.v() {
            self.times[self.sheet.node(position + 1, place.to)]
        } else {
            self.times[self.sheet.node(1, place.to)] + self.p
        };
        to - from
    }
}
