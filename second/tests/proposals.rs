//! Proposals held to a sheet (02, E2), each worked by hand.

mod common;

use common::{bytes, sheet, single};
use second::arc::{Arc, ArcName, Net};
use second::ask::{self, Answer};
use second::calls;
use second::cycle_time::CycleTime;
use second::file;
use second::generate;
use second::proposal::Answered;
use second::sheet::{Lent, Sheet, NO_WINDOW};

fn answered(number: u64, values: &[u64]) -> Answered {
    let values = values.to_vec();
    Answered { number, values }
}

/// What is said of times; of the sheet in memory and of the sheet in a file it is the same.
#[track_caller]
fn times(sheet: &Sheet, (p, q): (u64, u64), times: &[i64], number: u64, values: &[u64]) {
    let right = answered(number, values);
    let said: Answered = calls::check_times(sheet.lend(), p, q, times).into();
    assert_eq!(said, right);
    let file = file::write(sheet);
    assert_eq!(calls::check_times_of(&file, p, q, times), right);
}

/// What is said of the numbers of arcs, in memory and in a file.
#[track_caller]
fn numbers(sheet: &Sheet, (p, q): (u64, u64), arcs: &[u8], number: u64, values: &[u64]) {
    let right = answered(number, values);
    let said: Answered = calls::check_arcs(sheet.lend(), p, q, arcs).into();
    assert_eq!(said, right);
    let file = file::write(sheet);
    assert_eq!(calls::check_arcs_of(&file, p, q, arcs), right);
}

/// What is said of arcs.
#[track_caller]
fn arcs(sheet: &Sheet, time: (u64, u64), arcs: &[[u8; 4]], number: u64, values: &[u64]) {
    numbers(sheet, time, &arcs.concat(), number, values);
}

/// 01's first sheet: one event, again after 5 to 8.
fn five_to_eight() -> Sheet {
    single(1, "2:1,1=5 3:1,1=8")
}

/// The sheet of 01's report: event 2 comes 3 to 4 after event 1, and the next event 1 at
/// least 2 after event 2.
fn of_the_report() -> Sheet {
    single(2, "0:2,1=3 1:2,1=4 2:1,2=2")
}

/// 01's sheet of two positions: 3 from the first to the second, 4 to 6 from there on.
fn two_positions() -> Sheet {
    sheet(1, "0 1", &["2:1,1=3", "2:1,1=4 3:1,1=6"])
}

const OUT: [u8; 4] = [0, 1, 2, 1];
const BACK: [u8; 4] = [2, 1, 1, 2];

#[test]
fn a_plan_need_be_neither_the_earliest_nor_begin_at_zero() {
    let sheet = of_the_report();
    for plan in [[0, 3], [7, 10], [-3, 0], [-1_000_000, -999_997]] {
        times(&sheet, (5, 1), &plan, 0, &[]);
    }
    // 6 leaves room for one more between the two events
    for plan in [[0, 3], [0, 4], [-9, -5]] {
        times(&sheet, (6, 1), &plan, 0, &[]);
    }
    // any time is a plan of one event that binds only itself
    for time in [0, -1, 5, 382_000_000_000, -382_000_000_000] {
        times(&five_to_eight(), (5, 1), &[time], 0, &[]);
    }
}

#[test]
fn times_are_steps_of_1_over_q() {
    let sheet = of_the_report();
    times(&sheet, (10, 2), &[0, 6], 0, &[]);
    times(&sheet, (10, 2), &[0, 3], 102, &[1, 0, 2, 1]);
    times(&sheet, (11, 2), &[0, 7], 0, &[]);
    times(&sheet, (11, 2), &[0, 8], 102, &[1, 2, 1, 2]);
}

#[test]
fn each_kind_can_be_the_one_that_is_broken() {
    let sheet = of_the_report();
    times(&sheet, (5, 1), &[0, 2], 102, &[1, 0, 2, 1]);
    times(&sheet, (6, 1), &[0, 5], 102, &[1, 1, 2, 1]);
    times(&sheet, (5, 1), &[0, 4], 102, &[1, 2, 1, 2]);
    times(&five_to_eight(), (4, 1), &[0], 102, &[1, 2, 1, 1]);
    times(&five_to_eight(), (9, 1), &[-3], 102, &[1, 3, 1, 1]);
    times(&five_to_eight(), (17, 2), &[0], 102, &[1, 3, 1, 1]);
}

#[test]
fn of_several_broken_windows_the_lowest_kind_is_named() {
    // with both times 0, one window after the other is broken until its limit is 0
    let mut windows = ["0:2,1=1", "1:2,1=-1", "2:1,2=3", "3:1,2=1"];
    for kind in 0..4 {
        let event = if kind < 2 { [2, 1] } else { [1, 2] };
        let first = [1, kind, event[0], event[1]];
        times(&single(2, &windows.join(" ")), (2, 1), &[0, 0], 102, &first);
        windows[kind as usize] = "";
    }
    times(&single(2, &windows.join(" ")), (2, 1), &[0, 0], 0, &[]);
}

#[test]
fn then_to_and_then_from() {
    let sheet = single(3, "0:1,2=1 0:1,3=1 0:2,1=-5 0:2,3=1 0:3,1=1");
    times(&sheet, (0, 1), &[0, 0, 0], 102, &[1, 0, 1, 2]);
    times(&sheet, (0, 1), &[0, -1, 0], 102, &[1, 0, 1, 3]);
    times(&sheet, (0, 1), &[1, 0, 0], 102, &[1, 0, 2, 3]);
    times(&sheet, (0, 1), &[2, 1, 0], 102, &[1, 0, 3, 1]);
}

#[test]
fn the_lowest_position_comes_before_the_lowest_kind() {
    let sheet = sheet(2, "0 1", &["3:1,1=1", "0:2,1=5"]);
    times(&sheet, (10, 1), &[0, 0, 3, 0], 102, &[1, 3, 1, 1]);
    times(&sheet, (10, 1), &[0, 0, 1, 0], 102, &[2, 0, 2, 1]);
    times(&sheet, (10, 1), &[0, 0, 1, 6], 0, &[]);
}

#[test]
fn the_mode_at_h_supplies_the_windows_to_the_next_position() {
    let sheet = two_positions();
    times(&sheet, (7, 1), &[0, 3], 0, &[]);
    times(&sheet, (7, 1), &[-50, -47], 0, &[]);
    times(&sheet, (7, 1), &[0, 2], 102, &[1, 2, 1, 1]);
    times(&sheet, (7, 1), &[0, 4], 102, &[2, 2, 1, 1]);
    times(&sheet, (10, 1), &[0, 4], 0, &[]);
    times(&sheet, (10, 1), &[0, 3], 102, &[2, 3, 1, 1]);
}

#[test]
fn a_window_may_be_broken_at_the_period_end_alone() {
    let at_most = sheet(1, "0 0", &["3:1,1=5"]);
    times(&at_most, (10, 1), &[0, 5], 0, &[]);
    times(&at_most, (11, 1), &[0, 5], 102, &[2, 3, 1, 1]);
    times(&at_most, (11, 1), &[0, 6], 102, &[1, 3, 1, 1]);
    let at_least = sheet(1, "0 0", &["2:1,1=5"]);
    times(&at_least, (10, 1), &[0, 5], 0, &[]);
    times(&at_least, (9, 1), &[0, 5], 102, &[2, 2, 1, 1]);
}

#[test]
fn times_at_both_ends_are_far_apart() {
    let (first, last) = (-382_000_000_000, 382_000_000_000);
    let sheet = single(2, "1:2,1=1000000");
    times(&sheet, (0, 1000), &[last, first], 0, &[]);
    times(&sheet, (0, 1000), &[first, last], 102, &[1, 1, 2, 1]);
}

#[test]
fn proposed_times_are_11() {
    let sheet = of_the_report();
    for few in [&[][..], &[0]] {
        times(&sheet, (5, 1), few, 11, &[]);
    }
    for beyond in [382_000_000_001, i64::MAX, -382_000_000_001, i64::MIN] {
        times(&sheet, (5, 1), &[beyond, 3], 11, &[]);
        times(&sheet, (5, 1), &[0, beyond], 11, &[]);
        // surplus is not read
        times(&sheet, (5, 1), &[0, 3, beyond], 0, &[]);
        times(&sheet, (5, 1), &[0, 2, beyond, 0], 102, &[1, 0, 2, 1]);
    }
}

#[test]
fn a_refutation_is_accepted() {
    arcs(&five_to_eight(), (4, 1), &[[2, 1, 1, 1]], 0, &[]);
    arcs(&five_to_eight(), (17, 2), &[[3, 1, 1, 1]], 0, &[]);
    arcs(&of_the_report(), (4, 1), &[OUT, BACK], 0, &[]);
    // at least 1 after itself: no cycle time works
    let never = single(2, "0:2,2=1");
    arcs(&never, (1_000_000_000, 1000), &[[0, 1, 2, 2]], 0, &[]);
}

#[test]
fn a_total_of_zero_refutes_nothing() {
    arcs(&five_to_eight(), (5, 1), &[[2, 1, 1, 1]], 107, &[]);
    arcs(&five_to_eight(), (6, 1), &[[2, 1, 1, 1]], 107, &[]);
    arcs(&five_to_eight(), (16, 2), &[[3, 1, 1, 1]], 107, &[]);
    arcs(&of_the_report(), (5, 1), &[OUT, BACK], 107, &[]);
    arcs(&of_the_report(), (4, 1), &[OUT, [1, 1, 2, 1]], 107, &[]);
}

#[test]
fn arcs_that_are_turned_doubled_or_cut() {
    let sheet = of_the_report();
    arcs(&sheet, (4, 1), &[BACK, OUT], 106, &[]);
    arcs(&sheet, (4, 1), &[OUT, BACK, OUT, BACK], 105, &[]);
    arcs(&sheet, (4, 1), &[OUT], 104, &[]);
    arcs(&sheet, (4, 1), &[BACK], 104, &[]);
    arcs(&sheet, (4, 1), &[OUT, OUT], 103, &[1]);
    arcs(&sheet, (4, 1), &[OUT, BACK, BACK], 103, &[2]);
}

#[test]
fn the_faults_come_in_their_order() {
    let sheet = of_the_report();
    // open, and a node left twice
    arcs(&sheet, (4, 1), &[OUT, BACK, OUT], 104, &[]);
    // a node left twice, and begun at the greater one
    arcs(&sheet, (4, 1), &[BACK, OUT, BACK, OUT], 105, &[]);
    // begun at the greater one, and at zero
    arcs(&sheet, (5, 1), &[BACK, OUT], 106, &[]);
    // a bad arc in all that
    arcs(&sheet, (5, 1), &[BACK, OUT, OUT], 103, &[2]);
}

#[test]
fn the_first_bad_arc_is_named() {
    let sheet = of_the_report();
    let absent = [3, 1, 1, 1];
    arcs(&sheet, (4, 1), &[absent], 103, &[0]);
    arcs(&sheet, (4, 1), &[OUT, absent], 103, &[1]);
    arcs(&sheet, (4, 1), &[absent, OUT, OUT], 103, &[0]);
    arcs(&sheet, (4, 1), &[OUT, OUT, absent], 103, &[1]);
    arcs(&sheet, (4, 1), &[OUT, BACK, absent, OUT], 103, &[2]);
}

#[test]
fn any_byte_may_stand_in_an_arc() {
    let sheet = of_the_report();
    for kind in 4..=255 {
        arcs(&sheet, (4, 1), &[OUT, [kind, 1, 1, 2]], 103, &[1]);
    }
    // position 0, past V, and where a byte is cut down to 1
    for position in [0, 2, 16, 17, 129, 255] {
        arcs(&sheet, (4, 1), &[[0, position, 2, 1], BACK], 103, &[0]);
    }
    for event in [0, 3, 12, 13, 130, 255] {
        arcs(&sheet, (4, 1), &[OUT, [2, 1, event, 2]], 103, &[1]);
        arcs(&sheet, (4, 1), &[OUT, [2, 1, 1, event]], 103, &[1]);
    }
}

#[test]
fn a_window_has_to_be_present_at_its_position() {
    let sheet = two_positions();
    let round = [[2, 1, 1, 1], [2, 2, 1, 1]];
    arcs(&sheet, (6, 1), &round, 0, &[]);
    arcs(&sheet, (7, 1), &round, 107, &[]);
    // only the second position's mode has an upper limit
    arcs(&sheet, (6, 1), &[[3, 1, 1, 1]], 103, &[0]);
    arcs(&sheet, (6, 1), &[[3, 2, 1, 1]], 104, &[]);
    // from the first node by the upper limit to the second, and back by the lower one
    arcs(&sheet, (7, 1), &[[3, 2, 1, 1], [2, 2, 1, 1]], 107, &[]);
}

#[test]
fn arcs_of_kind_3_leave_the_next_position() {
    // 3 to the second position, and from there at most 2 to the next period
    let sheet = sheet(1, "0 1", &["1:1,1=-1 3:1,1=-3", "3:1,1=2"]);
    // node 1 to node 2 by the crossing, which gains p, and back by the other
    let round = [[3, 2, 1, 1], [3, 1, 1, 1]];
    arcs(&sheet, (0, 1), &round, 0, &[]);
    arcs(&sheet, (0, 1), &[round[1], round[0]], 106, &[]);
    // a self window that nothing keeps
    arcs(&sheet, (0, 1), &[[1, 1, 1, 1]], 0, &[]);
    arcs(
        &sheet,
        (0, 1),
        &[round[0], round[1], [1, 1, 1, 1]],
        105,
        &[],
    );
}

#[test]
fn lists_of_any_length() {
    let sheet = five_to_eight();
    let again = |count| vec![[2, 1, 1, 1]; count];
    for count in [2, 193, 300_000] {
        arcs(&sheet, (4, 1), &again(count), 105, &[]);
    }
    let mut bad_at_last = again(300_000);
    bad_at_last[299_999] = [2, 1, 1, 2];
    arcs(&sheet, (4, 1), &bad_at_last, 103, &[299_999]);
    numbers(&sheet, (4, 1), &[2; 1_000_003], 11, &[]);
}

#[test]
fn arc_lists_that_are_11() {
    let sheet = of_the_report();
    let circuit = [OUT, BACK].concat();
    for length in [0, 1, 2, 3, 5, 6, 7] {
        numbers(&sheet, (4, 1), &circuit[..length], 11, &[]);
    }
    // before any arc is looked at
    numbers(&sheet, (4, 1), &[9, 9, 9, 9, 9], 11, &[]);
}

#[test]
fn refusals_come_in_their_order_and_before_the_proposal() {
    let sheet = two_positions();
    let mut tables = sheet.tables().to_vec();
    let mut schedule = sheet.schedule().to_vec();
    let said = |v, tables: &[i32], schedule: &[u64], q| {
        let lent = Lent {
            n: 1,
            m: 2,
            v,
            tables,
            schedule,
        };
        let [times, arcs]: [Answered; 2] = [
            calls::check_times(lent, 7, q, &[]).into(),
            calls::check_arcs(lent, 7, q, &[]).into(),
        ];
        assert_eq!(times, arcs);
        assert_eq!(times.values, []);
        times.number
    };
    schedule[1] = 2;
    tables[7] = 1_000_001;
    assert_eq!(said(3, &tables, &schedule, 0), 4);
    assert_eq!(said(0, &tables, &schedule, 0), 4);
    assert_eq!(said(2, &tables[..7], &schedule, 0), 4);
    assert_eq!(said(2, &tables, &schedule, 0), 5);
    schedule[1] = 1;
    assert_eq!(said(2, &tables, &schedule, 0), 6);
    tables[7] = NO_WINDOW;
    assert_eq!(said(2, &tables, &schedule, 0), 10);
    assert_eq!(said(2, &tables, &schedule, 1001), 10);
    assert_eq!(said(2, &tables, &schedule, 1), 11);
}

#[test]
fn a_file_is_refused_with_its_place_before_anything_else() {
    let refused = answered(6, &[17]);
    let mut file = common::published("hoist-ba");
    file[17] = 13;
    assert_eq!(calls::check_times_of(&file, 77, 0, &[]), refused);
    assert_eq!(calls::check_arcs_of(&file, 77, 0, &[]), refused);
    let stops = answered(1, &[0]);
    assert_eq!(calls::check_times_of(&[], 77, 1, &[0]), stops);
    // surplus, far behind the longest sheet too
    let sheet = bytes("01 01 01 01 00 02 02 01 01 0A 03 01 01 10");
    let long = [&sheet[..], &[0; 40_000]].concat();
    assert_eq!(calls::check_times_of(&long, 5, 1, &[0]), answered(8, &[14]));
}

#[test]
fn answers_in_words() {
    assert_eq!(answered(0, &[]).to_string(), "accepted 0");
    let broken = answered(102, &[1, 3, 5, 4]);
    assert_eq!(broken.to_string(), "broken 102 1 3 5 4");
    assert_eq!(answered(103, &[7]).to_string(), "wrong 103 7");
    assert_eq!(answered(107, &[]).to_string(), "wrong 107");
    assert_eq!(answered(11, &[]).to_string(), "refused 11");
    assert_eq!(answered(6, &[17]).to_string(), "refused 6 17");
}

/// "It must accept every answer that our own Ask gives."
#[test]
fn every_answer_of_ask_is_accepted() {
    let mut counts = [0, 0];
    for index in 0..400 {
        let loan = generate::loan(43, index);
        let (p, q) = (loan.p, loan.q);
        let sheet = match loan.lent().admit() {
            Ok(sheet) if CycleTime::within_limits(p, q).is_ok() => sheet,
            _ => continue,
        };
        let time = CycleTime::within_limits(p, q).unwrap();
        match ask::ask(&Net::new(&sheet), time) {
            Answer::Accepted { plan, .. } => {
                times(&sheet, (p, q), &plan, 0, &[]);
                counts[0] += 1;
            }
            Answer::Refuted { circuit } => {
                let circuit = ArcName::bytes(&circuit);
                numbers(&sheet, (p, q), &circuit, 0, &[]);
                counts[1] += 1;
            }
        }
    }
    assert!(counts.iter().all(|&count| count > 50), "{counts:?}");
}

/// "Each window at each position is one arc": what 01 says of kinds and what it says of arcs
/// come to the same.
#[test]
fn a_plan_keeps_the_windows_if_it_keeps_the_arcs() {
    let mut counts = [0, 0];
    for index in 0..600 {
        let (loan, plan) = generate::loan_with(45, index, generate::times);
        let said = match calls::check_times(loan.lent(), loan.p, loan.q, &plan) {
            Ok(verdict) => Answered::from(Ok(verdict)),
            Err(_) => continue,
        };
        let net = Net::new(&loan.lent().admit().unwrap());
        let time = CycleTime::within_limits(loan.p, loan.q).unwrap();
        let is_broken = |arc: &&Arc| plan[arc.arrives] < plan[arc.leaves] + arc.weight(time);
        let broken = net.arcs.iter().filter(is_broken).map(|arc| {
            let [kind, position, to, from] = arc.name.numbers();
            vec![position, kind, to, from]
        });
        let right = match broken.min() {
            Some(first) => answered(102, &first),
            None => answered(0, &[]),
        };
        assert_eq!(said, right, "{index}");
        counts[usize::from(right.number == 0)] += 1;
    }
    assert!(counts.iter().all(|&count| count > 50), "{counts:?}");
}

#[test]
fn times_of_all_sorts_come_up() {
    let said = (0..1000).map(|index| {
        let (loan, mut times) = generate::loan_with(46, index, generate::times);
        let said = calls::check_times(loan.lent(), loan.p, loan.q, &times);
        times.truncate((loan.n.saturating_mul(loan.v)) as usize);
        (Answered::from(said), times)
    });
    let said: Vec<(Answered, Vec<i64>)> = said.collect();
    // of those that get this number, one like this
    let comes_up = |number, is_like: &dyn Fn(&[i64], &[u64]) -> bool| {
        let mut said = said.iter().filter(|(said, _)| said.number == number);
        said.any(|(said, times)| is_like(times, &said.values))
    };
    for limit in [382_000_000_000, -382_000_000_000_i64] {
        assert!(comes_up(0, &|times, _| times.contains(&limit)));
        let beyond = limit + limit.signum();
        assert!(comes_up(11, &|times, _| times.contains(&beyond)));
    }
    assert!(comes_up(0, &|times, _| times.iter().all(|&time| time < 0)));
    assert!(comes_up(0, &|times, _| times.iter().all(|&time| time > 0)));
    assert!(comes_up(11, &|times, _| times.is_empty()));
    for kind in 0..4 {
        assert!(comes_up(102, &|_, values| values[..2] == [1, kind]));
        assert!(comes_up(102, &|_, values| values[0] > 1 && values[1] == kind));
    }
}

#[test]
fn arcs_of_all_sorts_come_up() {
    let said = (0..1600).map(|index| {
        let (loan, arcs) = generate::loan_with(47, index, generate::arcs);
        let said = calls::check_arcs(loan.lent(), loan.p, loan.q, &arcs);
        (Answered::from(said).number, arcs.len())
    });
    let said: Vec<(u64, usize)> = said.collect();
    let lengths = |number| {
        let said = said.iter().filter(move |said| said.0 == number);
        said.map(|&(_, length)| length)
    };
    assert!(lengths(0).any(|length| length == 4));
    assert!(lengths(0).any(|length| length > 40));
    assert!(lengths(11).any(|length| length == 0));
    for left_over in [1, 2, 3] {
        assert!(lengths(11).any(|length| length % 4 == left_over));
    }
    for number in 103..=107 {
        assert!(lengths(number).count() > 20, "{number}");
    }
    // far more arcs than nodes
    assert!(lengths(105).any(|length| length > 4 * 1000));
}

/// No sheet has a plan and a refutation at one cycle time.
#[test]
fn of_a_plan_and_a_circuit_one_at_most_is_accepted() {
    let mut counts = [0, 0];
    for index in 0..400 {
        let (loan, plan) = generate::loan_with(44, index, generate::times);
        let (p, q) = (loan.p, loan.q);
        let (_, circuit) = generate::loan_with(44, index, generate::arcs);
        let by_times = calls::check_times(loan.lent(), p, q, &plan);
        let by_arcs = calls::check_arcs(loan.lent(), p, q, &circuit);
        let accepted = [by_times, by_arcs].map(|said| Answered::from(said).number == 0);
        assert_ne!(accepted, [true, true], "{index}");
        for (count, is_accepted) in counts.iter_mut().zip(accepted) {
            *count += u32::from(is_accepted);
        }
    }
    assert!(counts.iter().all(|&count| count > 10), "{counts:?}");
}
