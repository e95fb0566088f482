//! Proposals: what another engine may hand over for a sheet, right and wrong.

use crate::arc::{Arc, ArcName, Net};
use crate::ask;
use crate::circuit::Circuit;
use crate::cycle_time::CycleTime;
use crate::limits::{GREATEST_P, GREATEST_TIME, MOST_EVENTS, MOST_POSITIONS};
use crate::random::Random;
use crate::rounds;
use crate::sheet::Sheet;

use super::cycle_time;

/// A cycle time, and the times or the numbers of arcs that are proposed for it.
#[derive(Clone, Debug, PartialEq, Eq)]
pub struct Proposed<T> {
    /// The top of the cycle time.
    pub p: u64,
    /// Its bottom.
    pub q: u64,
    /// What is proposed.
    pub list: Vec<T>,
}

/// Times for a sheet, and mostly a cycle time at an end or next to it.
pub fn times(random: &mut Random, sheet: &Sheet) -> Proposed<i64> {
    let (p, q) = cycle_time(random, sheet);
    let start = start(random, sheet.nodes());
    let settled = rounds::settle_from(&Net::new(sheet), steps(p, q), start.clone());
    let mut list = settled.map_or(start, |(_, plan)| plan);
    if random.chance(20) {
        move_to_limit(random, &mut list);
    }
    if random.chance(50) {
        spoil_times(random, &mut list);
    }
    if random.chance(25) {
        list.extend(any_numbers(random, 20).iter().map(|&bits| bits as i64));
    }
    Proposed { p, q, list }
}

/// Arcs for a sheet, and mostly a cycle time at an end or next to it.
pub fn arcs(random: &mut Random, sheet: &Sheet) -> Proposed<u8> {
    let (mut p, q) = cycle_time(random, sheet);
    let net = Net::new(sheet);
    let is_circuit = random.chance(75);
    let mut names = match is_circuit.then(|| refutation(&net, p, q)).flatten() {
        Some((top, circuit)) => {
            p = random.pick(&[p, top, top]);
            circuit.names()
        }
        None => walk(random, &net),
    };
    if random.chance(50) {
        spoil_arcs(random, sheet, &net, &mut names);
    }
    let mut list = ArcName::bytes(&names);
    match random.below(30) {
        0 => list.clear(),
        1 => list.push(1),
        2 => list.truncate(list.len().saturating_sub(random.size(1, 3))),
        _ => {}
    }
    Proposed { p, q, list }
}

/// Numbers of any size, so many at most.
pub fn any_numbers(random: &mut Random, most: usize) -> Vec<u64> {
    (0..random.size(0, most)).map(|_| random.bits()).collect()
}

fn steps(p: u64, q: u64) -> CycleTime {
    CycleTime {
        p: p as i64,
        q: q as i64,
    }
}

/// Times that a plan is to lie above: the earliest plan comes of zeros, the same plan
/// moved of equal ones, and later plans and plans that begin below zero of others.
fn start(random: &mut Random, nodes: usize) -> Vec<i64> {
    let spread = random.pick(&[1, 30, 50_000]);
    let mut times = match random.below(4) {
        0 => vec![0; nodes],
        1 => vec![random.between(-spread, spread); nodes],
        _ => {
            let time = |_| random.between(-spread, spread);
            (0..nodes).map(time).collect()
        }
    };
    if random.chance(20) {
        times[random.index(nodes)] += spread;
    }
    times
}

/// Moves all times together, so that the last or the first is as late or as early as one
/// can be, or one step beyond that.
fn move_to_limit(random: &mut Random, times: &mut [i64]) {
    let limit = GREATEST_TIME + random.pick(&[0, 0, 1]);
    let by = if random.chance(50) {
        limit - times.iter().copied().fold(i64::MIN, i64::max)
    } else {
        -limit - times.iter().copied().fold(i64::MAX, i64::min)
    };
    for time in times {
        *time += by;
    }
}

/// Changes times that may have been right.
fn spoil_times(random: &mut Random, times: &mut Vec<i64>) {
    let (one, other) = (random.index(times.len()), random.index(times.len()));
    match random.below(10) {
        0..=3 => times[one] += random.pick(&[-1, 1]),
        4..=5 => times[one] += random.between(-100_000, 100_000),
        6 => times.swap(one, other),
        7 => {
            let beyond = [GREATEST_TIME, GREATEST_TIME + 1, i64::MAX];
            times[one] = random.pick(&beyond) * random.pick(&[-1, 1]);
        }
        8 => times[one] = i64::MIN,
        _ => times.truncate(random.pick(&[0, times.len() / 2, times.len() - 1])),
    }
}

/// A circuit above zero, and the p at which it is: the one that is given or, where that
/// works, one beside it, at which its total is often zero, or one at a limit.
fn refutation(net: &Net, p: u64, q: u64) -> Option<(u64, Circuit)> {
    let tops = [p, p.saturating_sub(1), p + 1, 0, GREATEST_P];
    tops.into_iter().find_map(|top| {
        let circuit = ask::earliest_plan(net, steps(top, q)).err()?;
        Some((top, circuit))
    })
}

/// A walk over any arcs, up to the first time that it comes back where it began, and then
/// perhaps one of the circuits that it falls into. It may also not come back.
fn walk(random: &mut Random, net: &Net) -> Vec<ArcName> {
    let mut walk: Vec<Arc> = Vec::new();
    let is_closed = |walk: &[Arc]| match (walk.first(), walk.last()) {
        (Some(first), Some(last)) => last.arrives == first.leaves,
        _ => false,
    };
    let most = random.size(1, 2 * MOST_EVENTS * MOST_POSITIONS);
    while walk.len() < most && !is_closed(&walk) {
        let at = walk.last().map(|arc| arc.arrives);
        let is_next = |arc: &&Arc| at.map_or(true, |node| arc.leaves == node);
        let next: Vec<&Arc> = net.arcs.iter().filter(is_next).collect();
        if next.is_empty() {
            break;
        }
        walk.push(*random.pick(&next));
    }
    if is_closed(&walk) && random.chance(60) {
        let circuits = Circuit::cut(&walk);
        return circuits[random.index(circuits.len())].names();
    }
    walk.iter().map(|arc| arc.name).collect()
}

/// Changes arcs that may have been right.
fn spoil_arcs(random: &mut Random, sheet: &Sheet, net: &Net, names: &mut Vec<ArcName>) {
    if names.is_empty() {
        *names = vec![ArcName::from([0, 1, 1, 1])];
    }
    let (one, other) = (random.index(names.len()), random.index(names.len()));
    match random.below(13) {
        0..=3 => names.rotate_left(one),
        4..=5 => *names = names.repeat(repeats(random)),
        6..=7 => {
            names.pop();
        }
        8 => {
            names.remove(one);
        }
        9 => names.swap(one, other),
        10 => names[one] = other_name(random, sheet, names[one]),
        11 => names.insert(one, names[other]),
        _ if net.arcs.is_empty() => names.reverse(),
        _ => names[one] = net.arcs[random.index(net.arcs.len())].name,
    }
}

/// Twice, or now and then so often that the list is far longer than any circuit.
fn repeats(random: &mut Random) -> usize {
    if random.chance(5) {
        random.size(200, 2000)
    } else {
        random.size(2, 3)
    }
}

/// The name with one number changed: next to what is within the limits, or any byte.
fn other_name(random: &mut Random, sheet: &Sheet, name: ArcName) -> ArcName {
    let past = [4, sheet.v() + 1, sheet.n() + 1, sheet.n() + 1];
    let part = random.index(4);
    let mut numbers = name.numbers();
    let any = random.below(256);
    let beside = numbers[part].saturating_sub(1);
    numbers[part] = random.pick(&[0, past[part] as u64, beside, numbers[part] + 1, any, 255]);
    ArcName::from(numbers)
}
