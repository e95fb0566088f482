//! The methods held against each other, and their answers against the checks.

mod common;

use common::sheet;
use second::arc::Net;
use second::ask::{self, Answer};
use second::check::{self, Fault};
use second::cycle_time::CycleTime;
use second::ends::{self, Ends, Span};
use second::fraction::Fraction;
use second::generate;
use second::random::Random;
use second::rounds;
use second::sheet::Sheet;

/// Sheets of up to so many nodes, among so many.
fn sheets(seed: u64, count: u64, most_nodes: usize) -> impl Iterator<Item = Sheet> {
    (0..count)
        .map(move |index| generate::sheet(seed, index))
        .filter(move |sheet| sheet.nodes() <= most_nodes)
}

#[test]
fn ends_by_crossings_and_by_enumeration_agree() {
    let mut with_ends = 0;
    for sheet in sheets(21, 6000, 4) {
        let net = Net::new(&sheet);
        let by_crossings = ends::find(&net);
        let by_enumeration = ends::enumeration::find(&net);
        assert_eq!(by_crossings.span(), by_enumeration.span(), "{sheet:?}");
        assert_eq!(check::ends(&sheet, &by_crossings), Ok(()), "{sheet:?}");
        assert_eq!(check::ends(&sheet, &by_enumeration), Ok(()), "{sheet:?}");
        with_ends += u32::from(by_crossings.span().is_some());
    }
    assert!(with_ends > 500);
}

#[test]
fn ends_by_crossings_and_by_bisection_agree() {
    let mut great_bottoms = 0;
    for sheet in sheets(22, 800, 20) {
        let net = Net::new(&sheet);
        let span = ends::find(&net).span();
        assert_eq!(span, ends::bisection::find(&net), "{sheet:?}");
        great_bottoms += u32::from(span.map_or(false, |span| span.low.bottom > 2));
    }
    assert!(great_bottoms > 10);
}

#[test]
fn ends_of_great_sheets_pass_the_checks() {
    for sheet in sheets(23, 34, 192) {
        let ends = ends::find(&Net::new(&sheet));
        assert_eq!(check::ends(&sheet, &ends), Ok(()), "{sheet:?}");
    }
}

/// Cycle times at the ends, next to them and elsewhere.
fn cycle_times(random: &mut Random, span: Option<Span>) -> Vec<CycleTime> {
    let any = Fraction::lowest(random.between(0, 80), random.between(1, 12));
    let low = span.map_or(any, |span| span.low);
    let high = span.and_then(|span| span.high).unwrap_or(low);
    let mut times = Vec::new();
    for end in [any, low, high] {
        let finer = random.between(1, 1000 / end.bottom);
        let (p, q) = (end.top * finer, end.bottom * finer);
        times.extend(
            [-1, 0, 1]
                .map(|step| (p + step).max(0))
                .map(|p| CycleTime { p, q }),
        );
    }
    times
}

/// Whether a cycle time lies between the ends.
fn is_within(time: CycleTime, span: Option<Span>) -> bool {
    let is_at_most = |end: Fraction| time.p * end.bottom <= end.top * time.q;
    let is_at_least = |end: Fraction| time.p * end.bottom >= end.top * time.q;
    span.map_or(false, |span| {
        is_at_least(span.low) && span.high.map_or(true, is_at_most)
    })
}

#[test]
fn ask_accepts_exactly_between_the_ends() {
    let mut random = Random::new(24, 0);
    let mut answers = [0, 0];
    for sheet in sheets(24, 1500, 30) {
        let net = Net::new(&sheet);
        let span = ends::find(&net).span();
        for time in cycle_times(&mut random, span) {
            let answer = ask::ask(&net, time);
            let accepted = matches!(answer, Answer::Accepted { .. });
            assert_eq!(accepted, is_within(time, span), "{time:?} {sheet:?}");
            assert_eq!(accepted, rounds::settle(&net, time).is_some());
            assert_eq!(check::answer(&sheet, time, &answer), Ok(()));
            answers[usize::from(accepted)] += 1;
        }
    }
    assert!(answers[0] > 1000 && answers[1] > 1000);
}

#[test]
fn times_of_the_longest_chain_add_up() {
    let within: Vec<String> = (1..12)
        .map(|i| format!("0:{},{i}=1000000", i + 1))
        .collect();
    let within = within.join(" ");
    let onward = format!("{within} 2:1,12=1000000");
    // All positions but the last hand on to the next.
    let sheet = sheet(12, "0 0 0 0 0 0 0 0 0 0 0 0 0 0 0 1", &[&onward, &within]);
    let time = CycleTime { p: 0, q: 1000 };
    let answer = ask::ask(&Net::new(&sheet), time);
    let plan: Vec<i64> = (0..192).map(|node| node * 1_000_000_000).collect();
    // "No plan time exceeds 382,000,000,000", and "from 0 to N-1" rounds.
    assert!(plan[191] <= 382_000_000_000);
    assert_eq!(answer, Answer::Accepted { plan, rounds: 191 });
}

#[test]
fn a_plan_that_is_changed_is_seen() {
    let mut random = Random::new(25, 0);
    for sheet in sheets(25, 600, 20) {
        let net = Net::new(&sheet);
        let low = match ends::find(&net) {
            Ends::Found(found) => CycleTime::from(found.low),
            Ends::None(_) => continue,
        };
        let plan = ask::earliest_plan(&net, low).unwrap();
        let later: Vec<i64> = plan.iter().map(|at| at + 1).collect();
        assert_eq!(check::keeps_windows(&sheet, low, &later), Ok(()));
        assert!(check::is_earliest(&sheet, low, &later).is_err());
        let earlier: Vec<i64> = plan.iter().map(|at| at - 1).collect();
        assert_eq!(check::keeps_windows(&sheet, low, &earlier), Ok(()));
        assert!(check::is_earliest(&sheet, low, &earlier).is_err());
        let mut other = plan.clone();
        other[random.index(plan.len())] += random.pick(&[-1, 1]);
        assert!(check::is_earliest(&sheet, low, &other).is_err());
        assert_eq!(
            check::is_earliest(&sheet, low, &plan[1..]),
            Err(Fault::PlanLength)
        );
    }
}
