//! The comparison of one cycle time asked.

use second::ask::Answer;
use second::calls;
use second::check;
use second::cycle_time::CycleTime;
use second::file;
use second::random::Random;
use second::refusal::Refusal;

use crate::buffer::Buffer;
use crate::calls::{Ask, Check, CheckFile, Checks, VALUES};
use crate::circuit;
use crate::difference::{hex, named, same_number, Difference};
use crate::files::Question;
use crate::loans::Loan;
use crate::proposals::{Item, Proposal};

/// What asking left behind.
struct Left {
    number: u32,
    plan: Buffer<u64>,
    circuit: Buffer<u8>,
    values: Buffer<u64>,
}

/// Asks both programs, and holds the plan or the circuit to the sheet; the number, if they
/// agree and the answer holds.
pub fn compare(
    ask: Ask,
    checks: Checks,
    loan: &Loan,
    random: &mut Random,
) -> Result<u32, Difference> {
    let mut plan = Buffer::new(random, loan.room().plan);
    let mut circuit = Buffer::new(random, loan.room().circuit);
    let mut values = Buffer::new(random, VALUES);
    let number = ask(
        loan.lent(),
        loan.p(),
        loan.q(),
        plan.lend(),
        circuit.lend(),
        values.lend(),
    );
    let left = Left {
        number,
        plan,
        circuit,
        values,
    };
    let right = calls::ask(
        loan.lent_to_second(),
        loan.p(),
        loan.q(),
        loan.room().plan,
        loan.room().circuit,
    );
    let checked = match &right {
        Err(refusal) => is_refused(&left, *refusal),
        // held to the tables of the rounds, whatever the second program answers
        Ok(answer) if number == 100 => {
            is_refuted(&left, loan).and_then(|()| same_number(number, answer.number()))
        }
        Ok(Answer::Accepted { plan, rounds }) => is_accepted(&left, plan, *rounds),
        Ok(Answer::Refuted { .. }) => same_number(number, 100),
    };
    let checked = checked.and_then(|()| is_held(&left, checks, loan, random));
    checked.map(|()| number).map_err(|what| Difference {
        what,
        input: loan.to_string(),
        proved: left.show(),
        second: format!("{right:?}"),
    })
}

/// "Acceptance writes N plan places and nothing of the circuit." There is one earliest
/// plan and one number of rounds.
fn is_accepted(left: &Left, plan: &[i64], rounds: usize) -> Result<(), String> {
    same_number(left.number, 0)?;
    named("values", left.values.holds(&[rounds as u64]))?;
    let times: Vec<u64> = plan.iter().map(|&time| time as u64).collect();
    named("plan", left.plan.holds(&times))?;
    named("circuit", left.circuit.holds(&[]))
}

/// "A refutation writes the circuit's places and no plan, and returns its arc count."
/// Any circuit above zero will do. "On a refutation the number is N": none of the tables
/// 0 to N-1 equals the one after it.
fn is_refuted(left: &Left, loan: &Loan) -> Result<(), String> {
    same_number(left.number, 100)?;
    let sheet = loan
        .lent_to_second()
        .admit()
        .map_err(|refusal| refusal.to_string())?;
    let time =
        CycleTime::within_limits(loan.p(), loan.q()).map_err(|refusal| refusal.to_string())?;
    named("rounds", check::never_still(&sheet, time))?;
    let count = left.values.contents()[0];
    named("values", left.values.holds(&[count]))?;
    let arcs = named("circuit", circuit::taken(&left.circuit, count))?;
    named("circuit", check::refutes(&sheet, time, &arcs))?;
    named("plan", left.plan.holds(&[]))
}

/// "Numbers 1 to 10 return only the number and alter nothing lent."
fn is_refused(left: &Left, refusal: Refusal) -> Result<(), String> {
    same_number(left.number, refusal.number())?;
    named("values", left.values.holds(&[]))?;
    named("plan", left.plan.holds(&[]))?;
    named("circuit", left.circuit.holds(&[]))
}

/// "It must accept every answer that our own Ask gives" (02, E2), for the sheet in memory
/// and in a file. A plan is handed over with the surplus of its buffer.
fn is_held(left: &Left, checks: Checks, loan: &Loan, random: &mut Random) -> Result<(), String> {
    match left.number {
        0 => {
            let plan = left.plan.contents().iter();
            let times = plan.map(|&time| time as i64).collect();
            is_own(checks.times, checks.file_times, loan, times, random)
        }
        100 => {
            let count = left.values.contents()[0] as usize;
            let arcs = left.circuit.contents()[..4 * count].to_vec();
            is_own(checks.arcs, checks.file_arcs, loan, arcs, random)
        }
        _ => Ok(()),
    }
}

/// Checks that both accept a list, without values, and leave alone what is lent.
fn is_own<T: Item>(
    check: Check<T>,
    check_file: CheckFile<T>,
    loan: &Loan,
    list: Vec<T>,
    random: &mut Random,
) -> Result<(), String> {
    let sheet = loan
        .lent_to_second()
        .admit()
        .map_err(|refusal| refusal.to_string())?;
    let filed = Proposal {
        sheet: Question {
            bytes: file::write(&sheet),
            p: loan.p(),
            q: loan.q(),
        },
        list: list.clone(),
        room: VALUES,
    };
    let lent = Proposal {
        sheet: loan.clone(),
        list,
        room: VALUES,
    };
    let said = [
        crate::check::compare(check, &lent, random),
        crate::check::compare_file(check_file, &filed, random),
    ];
    said.into_iter().try_for_each(|said| {
        let accepted = said
            .map_err(|difference| difference.what)
            .and_then(|number| same_number(number, 0));
        named("held to the sheet", accepted)
    })
}

impl Left {
    fn show(&self) -> String {
        let number = self.number;
        let values = self.values.contents();
        let plan = self.plan.contents();
        let circuit = hex(self.circuit.contents());
        format!("{number}, values {values:?}, plan {plan:?}, circuit {circuit}")
    }
}

#[cfg(test)]
mod tests {
    use super::*;
    use crate::stub::{self, CALLS};
    use second::generate;

    /// The first loan that the stub answers with this number.
    fn loan(number: u32) -> Loan {
        (0..)
            .map(|index| Loan::new(generate::loan(5, index)))
            .find(|loan| compared(stub::ask, loan) == Ok(number))
            .unwrap()
    }

    /// The number agreed on, or what is said of a call.
    fn compared(ask: Ask, loan: &Loan) -> Result<u32, String> {
        let compared = compare(ask, CALLS.checks, loan, &mut Random::new(1, 1));
        compared.map_err(|difference| difference.what)
    }

    /// Whether the comparison of a loan that should get a number says this of a call.
    fn says(ask: Ask, number: u32, begins: &str) -> bool {
        let what = compared(ask, &loan(number)).unwrap_err();
        what.starts_with(begins)
    }

    #[test]
    fn wrong_numbers_are_reported() {
        for number in [0, 4, 5, 6, 9, 10, 100] {
            assert!(says(|_, _, _, _, _, _| 7, number, "the number is 7, not "));
        }
    }

    #[test]
    fn wrong_plans_and_rounds_are_reported() {
        let late: Ask = |lent, p, q, plan, circuit, values| {
            let number = stub::ask(lent, p, q, plan, circuit, values);
            plan[0] += 1;
            number
        };
        assert!(says(late, 0, "plan: place 0"));
        let another_round: Ask = |lent, p, q, plan, circuit, values| {
            let number = stub::ask(lent, p, q, plan, circuit, values);
            values[0] += 1;
            number
        };
        assert!(says(another_round, 0, "values: place 0"));
        let needless_arc: Ask = |lent, p, q, plan, circuit, values| {
            circuit[0] ^= 1;
            stub::ask(lent, p, q, plan, circuit, values)
        };
        assert!(says(needless_arc, 0, "circuit: place 0"));
    }

    #[test]
    fn wrong_refutations_are_reported() {
        let always: Ask = |_, _, _, _, _, values| {
            values[0] = 1;
            100
        };
        let still = compared(always, &loan(0)).unwrap_err();
        assert!(still.starts_with("rounds: table "), "{still}");
        assert!(still.ends_with(" equals the one after it"));
        for number in [4, 5, 6, 9, 10] {
            assert!(says(always, number, "the number is 100, not "));
        }
        // the second program refutes, and a circuit is still asked for
        assert!(says(always, 100, "circuit: there is no window"));
    }

    /// Accepts whatever it is, with a value that was not to come.
    fn accept(values: &mut [u64]) -> u32 {
        values[0] ^= 1;
        0
    }

    #[test]
    fn an_answer_that_a_check_does_not_just_accept_is_reported() {
        let said = |checks, number| {
            let compared = compare(stub::ask, checks, &loan(number), &mut Random::new(1, 1));
            compared.map_err(|difference| difference.what)
        };
        type Change = fn(&mut Checks);
        let wrong: [(u32, &str, Change); 8] = [
            (0, "the number is 102, not 0", |checks| {
                checks.times = |_, _, _, _, _| 102
            }),
            (0, "the number is 11, not 0", |checks| {
                checks.file_times = |_, _, _, _, _| 11
            }),
            (100, "the number is 107, not 0", |checks| {
                checks.arcs = |_, _, _, _, _| 107
            }),
            (100, "the number is 103, not 0", |checks| {
                checks.file_arcs = |_, _, _, _, _| 103
            }),
            (0, "values: place 0", |checks| {
                checks.times = |_, _, _, _, values| accept(values)
            }),
            (0, "values: place 0", |checks| {
                checks.file_times = |_, _, _, _, values| accept(values)
            }),
            (100, "values: place 0", |checks| {
                checks.arcs = |_, _, _, _, values| accept(values)
            }),
            (100, "values: place 0", |checks| {
                checks.file_arcs = |_, _, _, _, values| accept(values)
            }),
        ];
        for (number, begins, change) in wrong {
            let mut checks = CALLS.checks;
            change(&mut checks);
            let what = said(checks, number).unwrap_err();
            let begins = format!("held to the sheet: {begins}");
            assert!(what.starts_with(&begins), "{what}");
            // the other answer is none of its business
            assert_eq!(said(checks, 100 - number), Ok(100 - number));
        }
    }

    #[test]
    fn wrong_acceptances_are_reported() {
        assert!(says(|_, _, _, _, _, _| 0, 100, "the number is 0, not 100"));
    }

    #[test]
    fn wrong_circuits_are_reported() {
        let no_such_arc: Ask = |lent, p, q, plan, circuit, values| {
            let number = stub::ask(lent, p, q, plan, circuit, values);
            circuit[0] = 4;
            number
        };
        assert!(says(no_such_arc, 100, "circuit: there is no window"));
        let no_arcs: Ask = |_, _, _, _, _, values| {
            values[0] = 0;
            100
        };
        assert!(says(no_arcs, 100, "circuit: the circuit has no arcs"));
        let many_arcs: Ask = |_, _, _, _, _, values| {
            values[0] = u64::MAX;
            100
        };
        assert!(says(many_arcs, 100, "circuit: 18446744073709551615 arcs"));
        let needless_plan: Ask = |lent, p, q, plan, circuit, values| {
            plan[0] ^= 1;
            stub::ask(lent, p, q, plan, circuit, values)
        };
        assert!(says(needless_plan, 100, "plan: place 0"));
    }
}
