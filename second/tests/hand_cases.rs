//! "Sheets tried by hand": every row of 01's table and what stands below it.

mod common;

use common::{arcs, bytes, sheet, single};
use second::arc::Net;
use second::ask::{self, Answer};
use second::calls;
use second::check;
use second::cycle_time::CycleTime;
use second::ends::{self, Contradiction, Ends, Found, High};
use second::file;
use second::fraction::Fraction;
use second::refusal::Refusal;
use second::report::Report;
use second::sheet::Sheet;

fn ask(sheet: &Sheet, p: u64, q: u64) -> Answer {
    let time = CycleTime::within_limits(p, q).unwrap();
    ask::ask(&Net::new(sheet), time)
}

fn assert_accepted(sheet: &Sheet, (p, q): (u64, u64), plan: &[i64], rounds: usize) {
    let plan = plan.to_vec();
    assert_eq!(ask(sheet, p, q), Answer::Accepted { plan, rounds });
}

/// Where there is only one circuit to give.
fn assert_refuted<const COUNT: usize>(
    sheet: &Sheet,
    (p, q): (u64, u64),
    circuit: [[u64; 4]; COUNT],
    total: i64,
) {
    let circuit = arcs(circuit);
    let time = CycleTime::within_limits(p, q).unwrap();
    assert_eq!(check::circuit(sheet, &circuit).unwrap().total(time), total);
    assert_eq!(ask(sheet, p, q), Answer::Refuted { circuit });
}

fn ends(sheet: &Sheet) -> Ends {
    let ends = ends::find(&Net::new(sheet));
    check::ends(sheet, &ends).unwrap();
    ends
}

fn found(sheet: &Sheet) -> Found {
    match ends(sheet) {
        Ends::Found(found) => found,
        Ends::None(none) => panic!("{none}"),
    }
}

fn none(sheet: &Sheet) -> Contradiction {
    match ends(sheet) {
        Ends::Found(found) => panic!("{found}"),
        Ends::None(none) => none,
    }
}

fn five_to_eight() -> Sheet {
    single(1, "2:1,1=5 3:1,1=8")
}

fn of_the_report() -> Sheet {
    single(2, "0:2,1=3 1:2,1=4 2:1,2=2")
}

fn halves() -> Sheet {
    single(2, "2:1,2=2 2:2,1=3")
}

#[test]
fn one_event_at_least_5_at_most_8() {
    let sheet = five_to_eight();
    assert_accepted(&sheet, (5, 1), &[0], 0);
    assert_refuted(&sheet, (4, 1), [[2, 1, 1, 1]], 1);
    assert_refuted(&sheet, (17, 2), [[3, 1, 1, 1]], 1);
    let right = Found {
        low: Fraction { top: 5, bottom: 1 },
        low_circuit: arcs([[2, 1, 1, 1]]),
        high: High::At {
            end: Fraction { top: 8, bottom: 1 },
            circuit: arcs([[3, 1, 1, 1]]),
        },
    };
    assert_eq!(found(&sheet), right);
}

#[test]
fn the_sheet_of_the_report() {
    assert_refuted(&of_the_report(), (4, 1), [[0, 1, 2, 1], [2, 1, 1, 2]], 1);
}

#[test]
fn low_is_5_halves() {
    let sheet = halves();
    let right = Found {
        low: Fraction { top: 5, bottom: 2 },
        low_circuit: arcs([[2, 1, 2, 1], [2, 1, 1, 2]]),
        high: High::Open,
    };
    assert_eq!(found(&sheet), right);
    assert_accepted(&sheet, (5, 2), &[0, 1], 1);
}

#[test]
fn a_lower_limit_above_its_upper_limit() {
    let sheet = single(2, "0:2,1=6 1:2,1=5");
    let none = none(&sheet);
    assert_eq!(none.first, arcs([[0, 1, 2, 1], [1, 1, 2, 1]]));
    assert!(none.second.is_empty());
    let circuit = check::circuit(&sheet, &none.first).unwrap();
    assert_eq!((circuit.w(), circuit.c()), (1, 0));
}

#[test]
fn at_least_9_and_at_most_8() {
    let sheet = single(1, "2:1,1=9 3:1,1=8");
    let none = none(&sheet);
    assert_eq!(none.first, arcs([[2, 1, 1, 1]]));
    assert_eq!(none.second, arcs([[3, 1, 1, 1]]));
    let first = check::circuit(&sheet, &none.first).unwrap();
    let second = check::circuit(&sheet, &none.second).unwrap();
    assert_eq!((first.w(), first.c()), (9, -1));
    assert_eq!((second.w(), second.c()), (-8, 1));
}

#[test]
fn no_windows() {
    let right = Found {
        low: Fraction::ZERO,
        low_circuit: Vec::new(),
        high: High::Open,
    };
    assert_eq!(found(&single(1, "")), right);
}

#[test]
fn at_most_0() {
    let right = Found {
        low: Fraction::ZERO,
        low_circuit: Vec::new(),
        high: High::At {
            end: Fraction::ZERO,
            circuit: arcs([[3, 1, 1, 1]]),
        },
    };
    assert_eq!(found(&single(1, "3:1,1=0")), right);
}

#[test]
fn two_positions() {
    let sheet = sheet(1, "0 1", &["2:1,1=3", "2:1,1=4 3:1,1=6"]);
    assert_accepted(&sheet, (7, 1), &[0, 3], 1);
}

#[test]
fn the_bytes_of_the_first_sheet() {
    let first = bytes("01 01 01 01 00 02 02 01 01 0A 03 01 01 10");
    assert_eq!(file::write(&five_to_eight()), first);
    assert_eq!(file::read(&first), Ok(five_to_eight()));
}

#[test]
fn an_empty_file_is_1() {
    assert_eq!(file::read(&[]), Err(Refusal::FileStops.at(0)));
    assert_eq!(Report::new(&[]).to_string(), "refused 1 0\n");
    assert_eq!(calls::host(&[], 0, 0), 1);
}

#[test]
fn cycle_times_at_their_limits_on_the_sheet_without_windows() {
    let sheet = single(1, "");
    let ask = |p, q| calls::ask(sheet.lend(), p, q, 1, 4);
    assert_eq!(ask(0, 0), Err(Refusal::CycleTime));
    assert_eq!(ask(0, 1001), Err(Refusal::CycleTime));
    let (plan, rounds) = (vec![0], 0);
    assert_eq!(ask(0, 1000), Ok(Answer::Accepted { plan, rounds }));
}

#[test]
fn the_sample_report() {
    let sheet = bytes("01 02 01 01 00 03 00 02 01 06 01 02 01 08 02 01 02 04");
    assert_eq!(file::write(&of_the_report()), sheet);
    let report = "ends 5/1 open\nlow 2\n0 1 2 1\n2 1 1 2\nplan 1 1\n0 3\n";
    assert_eq!(Report::new(&sheet).to_string(), report);
}
