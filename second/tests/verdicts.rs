//! The checks and the judge: what is right passes, what is not is told apart.

mod common;

use common::{arcs, sheet, single};
use second::arc::Net;
use second::ask::Answer;
use second::check::{self, Fault};
use second::cycle_time::CycleTime;
use second::ends::{self, Contradiction, Ends, Found, High};
use second::file;
use second::fraction::Fraction;
use second::generate;
use second::judge::{self, Wrong};
use second::report::{NoReport, Report};
use second::sheet::Sheet;

/// What the check makes of the circuit of these arcs.
fn circuit<const COUNT: usize>(sheet: &Sheet, circuit: [[u64; 4]; COUNT]) -> Result<(), Fault> {
    check::circuit(sheet, &arcs(circuit)).map(|_| ())
}

#[test]
fn circuits_that_are_none() {
    let sheet = sheet(
        2,
        "0 1",
        &["0:2,1=1 1:2,1=1 2:1,1=0 2:2,2=0", "0:1,2=0 2:1,1=0 2:2,2=0"],
    );
    let there = [0, 1, 2, 1];
    let back = [1, 1, 2, 1];
    let no_such = |arc: [u64; 4]| Err(Fault::NoSuchWindow(0, arc.into()));
    assert_eq!(circuit(&sheet, [there, back]), Ok(()));
    assert_eq!(circuit(&sheet, [back, there]), Err(Fault::NotSmallest));
    assert_eq!(circuit(&sheet, []), Err(Fault::NoArcs));
    assert_eq!(circuit(&sheet, [there]), Err(Fault::NotClosed));
    assert_eq!(circuit(&sheet, [there, there]), Err(Fault::NotChained(1)));
    assert_eq!(
        circuit(&sheet, [there, back, there, back]),
        Err(Fault::LeftTwice)
    );
    // The mode at position 2 has no such window, and there is no position 3.
    assert_eq!(circuit(&sheet, [[0, 2, 2, 1]]), no_such([0, 2, 2, 1]));
    assert_eq!(circuit(&sheet, [[0, 3, 2, 1]]), no_such([0, 3, 2, 1]));
    for arc in [[4, 1, 1, 1], [0, 0, 2, 1], [0, 1, 0, 1], [0, 1, 2, 3]] {
        assert_eq!(circuit(&sheet, [arc]), no_such(arc));
    }
    let far = [0, u64::MAX, 2, 1];
    assert_eq!(circuit(&sheet, [far]), no_such(far));
    // Through both positions and back.
    let round = [[2, 1, 1, 1], [2, 2, 1, 1]];
    let circuit = check::circuit(&sheet, &arcs(round)).unwrap();
    assert_eq!((circuit.w(), circuit.c()), (0, -1));
}

#[test]
fn a_circuit_at_zero_refutes_nothing() {
    let sheet = single(1, "2:1,1=5");
    let circuit = arcs([[2, 1, 1, 1]]);
    let refutes = |p, q| check::refutes(&sheet, CycleTime { p, q }, &circuit);
    assert_eq!(refutes(4, 1), Ok(()));
    assert_eq!(refutes(499, 100), Ok(()));
    assert_eq!(refutes(5, 1), Err(Fault::NotAboveZero));
}

#[test]
fn answers_with_other_rounds_are_wrong() {
    let sheet = single(2, "2:1,2=2 2:2,1=3");
    let accepted = |rounds| {
        let (time, plan) = (CycleTime { p: 5, q: 2 }, vec![0, 1]);
        check::answer(&sheet, time, &Answer::Accepted { plan, rounds })
    };
    assert_eq!(accepted(1), Ok(()));
    assert_eq!(accepted(0), Err(Fault::WrongRounds(0)));
    assert_eq!(accepted(2), Err(Fault::WrongRounds(2)));
}

#[test]
fn a_refutation_where_a_table_stands_still_is_wrong() {
    let sheet = single(2, "2:1,2=2 2:2,1=3");
    let refuted = |p, q| {
        let circuit = arcs([[2, 1, 2, 1], [2, 1, 1, 2]]);
        check::answer(&sheet, CycleTime { p, q }, &Answer::Refuted { circuit })
    };
    assert_eq!(refuted(2, 1), Ok(()));
    assert_eq!(refuted(5, 2), Err(Fault::NotAboveZero));
    let still = |p, q| check::never_still(&sheet, CycleTime { p, q });
    assert_eq!(still(2, 1), Ok(()));
    assert_eq!(still(499, 200), Ok(()));
    assert_eq!(still(5, 2), Err(Fault::StandsStill(1)));
    assert_eq!(still(3, 1), Err(Fault::StandsStill(0)));
}

fn fraction(top: i64, bottom: i64) -> Fraction {
    Fraction { top, bottom }
}

#[test]
fn ends_that_are_none() {
    let sheet = single(2, "2:1,2=2 2:2,1=3 3:1,1=9");
    let right = Found {
        low: fraction(5, 2),
        low_circuit: arcs([[2, 1, 2, 1], [2, 1, 1, 2]]),
        high: High::At {
            end: fraction(9, 1),
            circuit: arcs([[3, 1, 1, 1]]),
        },
    };
    assert_eq!(ends::find(&Net::new(&sheet)), Ends::Found(right.clone()));
    let check = |change: fn(&mut Found)| {
        let mut claim = right.clone();
        change(&mut claim);
        check::ends(&sheet, &Ends::Found(claim))
    };
    let not_lowest = |top, bottom| Err(Fault::NotLowest(fraction(top, bottom)));
    assert_eq!(check(|_| ()), Ok(()));
    assert_eq!(
        check(|claim| claim.low = fraction(10, 4)),
        not_lowest(10, 4)
    );
    assert_eq!(check(|claim| claim.low = fraction(5, 3)), not_lowest(5, 3));
    assert_eq!(
        check(|claim| claim.low = fraction(3, 1)),
        Err(Fault::WrongCircuit)
    );
    assert_eq!(
        check(|claim| claim.low = Fraction::ZERO),
        Err(Fault::NeedlessArcs)
    );
    let pretended = |claim: &mut Found| {
        claim.low = Fraction::ZERO;
        claim.low_circuit.clear();
    };
    let at_zero = CycleTime { p: 0, q: 1 };
    assert_eq!(check(pretended), Err(Fault::DoesNotWork(at_zero)));
    let open = check(|claim| claim.high = High::Open);
    assert!(matches!(open, Err(Fault::DoesNotWork(_))));
    let swapped = |claim: &mut Found| {
        if let High::At { end, circuit } = &mut claim.high {
            *end = claim.low;
            *circuit = claim.low_circuit.clone();
        }
    };
    assert_eq!(check(swapped), Err(Fault::WrongCircuit));
}

#[test]
fn contradictions_that_are_none() {
    let sheet = single(1, "2:1,1=9 3:1,1=8");
    let (low, high) = (arcs([[2, 1, 1, 1]]), arcs([[3, 1, 1, 1]]));
    let check = |first: &Vec<_>, second: &Vec<_>| {
        let (first, second) = (first.clone(), second.clone());
        check::ends(&sheet, &Ends::None(Contradiction { first, second }))
    };
    let none = Vec::new();
    assert_eq!(check(&low, &high), Ok(()));
    assert_eq!(check(&high, &low), Err(Fault::WrongCircuit));
    assert_eq!(check(&low, &low), Err(Fault::WrongCircuit));
    assert_eq!(check(&low, &none), Err(Fault::WrongCircuit));
    assert_eq!(check(&high, &none), Err(Fault::WrongCircuit));
    assert_eq!(check(&none, &high), Err(Fault::NoArcs));
}

#[test]
fn a_high_below_zero_takes_one_circuit() {
    let sheet = single(1, "3:1,1=-1");
    let none = Contradiction {
        first: arcs([[3, 1, 1, 1]]),
        second: Vec::new(),
    };
    let ends = ends::find(&Net::new(&sheet));
    assert_eq!(ends, Ends::None(none));
    assert_eq!(check::ends(&sheet, &ends), Ok(()));
}

/// Fast at 5, slow at 9; the two events 3 apart, to the unit: a circuit whose W and c
/// are both zero, and so its total at every cycle time.
const STILL: &str = "0:2,1=3 1:2,1=3 2:1,1=5 3:1,1=9";
const STILL_CIRCUIT: [[u64; 4]; 2] = [[0, 1, 2, 1], [1, 1, 2, 1]];

/// What the check makes of the ends 5/1 and 9/1 of that sheet with these circuits.
fn ends_by<const LOW: usize, const HIGH: usize>(
    low_circuit: [[u64; 4]; LOW],
    high_circuit: [[u64; 4]; HIGH],
) -> Result<(), Fault> {
    let found = Found {
        low: fraction(5, 1),
        low_circuit: arcs(low_circuit),
        high: High::At {
            end: fraction(9, 1),
            circuit: arcs(high_circuit),
        },
    };
    check::ends(&single(2, STILL), &Ends::Found(found))
}

#[test]
fn a_circuit_of_c_zero_is_none_for_low() {
    assert_eq!(ends_by([[2, 1, 1, 1]], [[3, 1, 1, 1]]), Ok(()));
    let still = ends_by(STILL_CIRCUIT, [[3, 1, 1, 1]]);
    assert_eq!(still, Err(Fault::WrongCircuit));
}

#[test]
fn a_circuit_of_c_zero_is_none_for_high() {
    let still = ends_by([[2, 1, 1, 1]], STILL_CIRCUIT);
    assert_eq!(still, Err(Fault::WrongCircuit));
}

/// What the check makes of a "none" of a sheet with two events.
fn none_by<const FIRST: usize, const SECOND: usize>(
    windows: &str,
    first: [[u64; 4]; FIRST],
    second: [[u64; 4]; SECOND],
) -> Result<(), Fault> {
    let none = Contradiction {
        first: arcs(first),
        second: arcs(second),
    };
    check::ends(&single(2, windows), &Ends::None(none))
}

#[test]
fn a_circuit_of_w_zero_contradicts_nothing() {
    // c is at least 0, as it has to be, and every cycle time keeps such windows.
    assert_eq!(none_by("3:1,1=-1", [[3, 1, 1, 1]], []), Ok(()));
    let at_zero = none_by("3:1,1=0", [[3, 1, 1, 1]], []);
    assert_eq!(at_zero, Err(Fault::WrongCircuit));
    assert_eq!(none_by(STILL, STILL_CIRCUIT, []), Err(Fault::WrongCircuit));
}

/// At least 6 apart and at most 5: a circuit of W = 1 and c = 0, which is a "none" by
/// itself and has no limit to be compared with another's.
const CROSSED: [[u64; 4]; 2] = [[0, 1, 2, 1], [1, 1, 2, 1]];

#[test]
fn the_first_of_two_circuits_has_c_below_zero() {
    let windows = "0:2,1=6 1:2,1=5 3:1,1=8";
    assert_eq!(none_by(windows, CROSSED, []), Ok(()));
    let with_high = none_by(windows, CROSSED, [[3, 1, 1, 1]]);
    assert_eq!(with_high, Err(Fault::WrongCircuit));
}

#[test]
fn the_second_of_two_circuits_has_c_above_zero() {
    let windows = "0:2,1=6 1:2,1=5 2:1,1=9";
    assert_eq!(none_by(windows, CROSSED, []), Ok(()));
    let with_low = none_by(windows, [[2, 1, 1, 1]], CROSSED);
    assert_eq!(with_low, Err(Fault::WrongCircuit));
}

const SAMPLE: &str = "ends 5/1 open\nlow 2\n0 1 2 1\n2 1 1 2\nplan 1 1\n0 3\n";

fn judge_on_sample(report: &str) -> Result<(), Wrong> {
    let sheet = single(2, "0:2,1=3 1:2,1=4 2:1,2=2");
    judge::judge(&file::write(&sheet), report.as_bytes())
}

#[test]
fn a_report_in_another_form_is_wrong_at_a_line() {
    assert_eq!(judge_on_sample(SAMPLE), Ok(()));
    for (change, to, line) in [
        ("ends 5/1", "ends  5/1", 1),
        ("ends 5/1", "Ends 5/1", 1),
        ("ends 5/1", "ends +5/1", 1),
        ("ends 5/1", "ends 5", 1),
        ("open\n", "open\r\n", 1),
        ("low 2", "low 02", 2),
        ("low 2", "low 99999999999999999999", 2),
        ("low 2", "low 18446744073709551615", 5),
        ("low 2", "low 3", 5),
        ("low 2", "low 1", 4),
        ("0 1 2 1\n", "0 1 2\n", 3),
        ("2 1 1 2\n", "2 1 1 2 \n", 4),
        ("plan 1 1", "plan 1", 5),
        ("0 3\n", "0 3", 6),
        ("0 3\n", "0 3\n\n", 7),
        ("0 3\n", "0 -0\n", 6),
    ] {
        let wrong = judge_on_sample(&SAMPLE.replace(change, to));
        assert_eq!(wrong, Err(Wrong::Form(NoReport { line })), "{to:?}");
    }
    let no_text = judge::judge(&[], b"refused 1 0\n\xff");
    assert_eq!(no_text, Err(Wrong::Form(NoReport { line: 2 })));
}

#[test]
fn a_report_that_says_something_else_is_wrong() {
    for (change, to) in [
        ("ends 5/1 open", "ends 6/1 open"),
        ("plan 1 1", "plan 2 1"),
        ("plan 1 1", "plan 1 2"),
        ("0 3\n", "0 4\n"),
        ("0 3\n", "0\n3\n"),
        ("0 3\n", ""),
    ] {
        let wrong = judge_on_sample(&SAMPLE.replace(change, to));
        assert!(matches!(wrong, Err(Wrong::Differs { .. })), "{to:?}");
    }
    for (change, to) in [
        ("low 2\n0 1 2 1\n2 1 1 2\n", "low 0\n"),
        ("0 1 2 1\n2 1 1 2\n", "2 1 1 2\n0 1 2 1\n"),
        ("0 1 2 1\n", "0 1 2 2\n"),
    ] {
        let wrong = judge_on_sample(&SAMPLE.replace(change, to));
        assert!(matches!(wrong, Err(Wrong::Circuits(_))), "{to:?}");
    }
    for other in ["none\nfirst 0\nsecond 0\n", "refused 1 0\n"] {
        let wrong = judge_on_sample(other);
        assert!(matches!(wrong, Err(Wrong::Differs { .. })), "{other:?}");
    }
}

#[test]
fn a_refusal_is_right_with_its_number_and_its_place_alone() {
    // n is past its limit, at 1
    let judge = |report: &str| judge::judge(&[1, 13, 1], report.as_bytes());
    assert_eq!(judge("refused 4 1\n"), Ok(()));
    for said in ["refused 4 0", "refused 4 2", "refused 4 3", "refused 5 1"] {
        let wrong = Wrong::Differs {
            right: "refused 4 1".to_owned(),
            said: said.to_owned(),
        };
        assert_eq!(judge(&format!("{said}\n")), Err(wrong));
    }
    for no_report in [
        "refused 4\n",
        "refused 4 \n",
        "refused 4  1\n",
        "refused 4 01\n",
        "refused 4 +1\n",
        "refused 4 -1\n",
        "refused 4 1",
        "refused 4 1 \n",
        "refused 4 1 1\n",
        "refused 4, 1\n",
        "refused 0 1\n",
        "refused 12 1\n",
        "refused 4 99999999999999999999\n",
    ] {
        let wrong = Wrong::Form(NoReport { line: 1 });
        assert_eq!(judge(no_report), Err(wrong), "{no_report:?}");
    }
}

#[test]
fn another_valid_circuit_is_right() {
    let sheet = file::write(&single(2, "2:1,1=5 2:2,2=5"));
    let report = Report::new(&sheet).to_string();
    let other = if report.contains("2 1 1 1\n") {
        report.replace("2 1 1 1\n", "2 1 2 2\n")
    } else {
        report.replace("2 1 2 2\n", "2 1 1 1\n")
    };
    assert_ne!(report, other);
    assert_eq!(judge::judge(&sheet, other.as_bytes()), Ok(()));
}

#[test]
fn either_form_of_none_is_right() {
    // At least 9 and at most 8 at either event, and between the two 6 but not
    // above 5.
    let windows = "0:2,1=6 1:2,1=5 2:1,1=9 3:2,2=8";
    let sheet = file::write(&single(2, windows));
    let one = "none\nfirst 2\n0 1 2 1\n1 1 2 1\nsecond 0\n";
    let two = "none\nfirst 1\n2 1 1 1\nsecond 1\n3 1 2 2\n";
    for report in [one, two] {
        assert_eq!(judge::judge(&sheet, report.as_bytes()), Ok(()));
    }
}

#[test]
fn every_file_gets_a_report_that_is_right() {
    for index in 0..1000 {
        let bytes = generate::file(41, index);
        // Of the largest, which take their time, a few are enough here.
        if bytes.len() > 5000 && index % 16 != 0 {
            continue;
        }
        let report = Report::new(&bytes);
        let text = report.to_string();
        assert_eq!(text.parse(), Ok(report), "{index}");
        assert_eq!(judge::judge(&bytes, text.as_bytes()), Ok(()), "{index}");
    }
}
