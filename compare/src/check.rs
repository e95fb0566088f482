//! The comparison of one proposal held to a sheet, in memory or in a file.

use second::proposal::Answered;
use second::random::Random;

use crate::buffer::Buffer;
use crate::calls::{Check, CheckFile, Lent};
use crate::difference::{named, same_number, Difference};
use crate::files::Question;
use crate::loans::Loan;
use crate::proposals::{Item, Proposal};

/// Holds a proposal to a sheet in memory with both programs; the number, if they agree.
pub fn compare<T: Item>(
    check: Check<T>,
    proposal: &Proposal<Loan, T>,
    random: &mut Random,
) -> Result<u32, Difference> {
    let loan = &proposal.sheet;
    let (p, q) = (loan.p(), loan.q());
    let tables = Buffer::holding(random, loan.lent().tables);
    let schedule = Buffer::holding(random, loan.lent().schedule);
    let lent = Lent {
        tables: tables.contents(),
        schedule: schedule.contents(),
        ..loan.lent()
    };
    let left = Left::by(proposal, random, |list, values| {
        check(lent, p, q, list, values)
    });
    let right = T::check(loan.lent_to_second(), p, q, &proposal.list);
    let checked = left
        .is(&right)
        .and_then(|()| named("tables", tables.holds(&[])))
        .and_then(|()| named("schedule", schedule.holds(&[])));
    agreed(checked, &left, &right, proposal.to_string())
}

/// Holds a proposal to a sheet in a file with both programs; the number, if they agree.
pub fn compare_file<T: Item>(
    check: CheckFile<T>,
    proposal: &Proposal<Question, T>,
    random: &mut Random,
) -> Result<u32, Difference> {
    let Question { bytes, p, q } = &proposal.sheet;
    let file = Buffer::holding(random, bytes);
    let left = Left::by(proposal, random, |list, values| {
        check(file.contents(), *p, *q, list, values)
    });
    let right = T::check_file(bytes, *p, *q, &proposal.list);
    let checked = left
        .is(&right)
        .and_then(|()| named("file", file.holds(&[])));
    agreed(checked, &left, &right, proposal.to_string())
}

/// What the call left behind.
struct Left<T> {
    number: u32,
    list: Buffer<T>,
    values: Buffer<u64>,
}

impl<T: Item> Left<T> {
    fn by<S>(
        proposal: &Proposal<S, T>,
        random: &mut Random,
        call: impl FnOnce(&[T], &mut [u64]) -> u32,
    ) -> Left<T> {
        let list = Buffer::holding(random, &proposal.list);
        let mut values = Buffer::new(random, proposal.room);
        let number = call(list.contents(), values.lend());
        Left {
            number,
            list,
            values,
        }
    }

    /// Checks the number and its values, of which as many are given as there is room for,
    /// and that nothing else is altered.
    fn is(&self, right: &Answered) -> Result<(), String> {
        same_number(self.number, right.number)?;
        let given = right.values.len().min(self.values.places());
        named("values", self.values.holds(&right.values[..given]))?;
        named(T::LIST, self.list.holds(&[]))
    }
}

fn agreed<T: Item>(
    checked: Result<(), String>,
    left: &Left<T>,
    right: &Answered,
    input: String,
) -> Result<u32, Difference> {
    checked.map(|()| left.number).map_err(|what| Difference {
        what,
        input,
        proved: format!("{}, values {:?}", left.number, left.values.contents()),
        second: right.to_string(),
    })
}

#[cfg(test)]
mod tests {
    use super::*;
    use crate::calls::VALUES;
    use crate::proposals;
    use crate::stub::CALLS;

    /// The first proposal for a sheet in memory that gets this number, with room for it.
    fn lent<T: Item>(number: u64) -> Proposal<Loan, T> {
        let said = |proposal: &Proposal<Loan, T>| {
            let loan = &proposal.sheet;
            T::check(loan.lent_to_second(), loan.p(), loan.q(), &proposal.list).number
        };
        (0..)
            .map(|index| proposals::lent(5, index))
            .find(|proposal| proposal.room == VALUES && said(proposal) == number)
            .unwrap()
    }

    /// What is said of a check of times, on a proposal that should get this number.
    fn of_times(check: Check<i64>, number: u64) -> Result<u32, String> {
        let compared = compare(check, &lent(number), &mut Random::new(1, 1));
        compared.map_err(|difference| difference.what)
    }

    /// What is said of a check of arcs, on a proposal that should get this number.
    fn of_arcs(check: Check<u8>, number: u64) -> Result<u32, String> {
        let compared = compare(check, &lent(number), &mut Random::new(1, 1));
        compared.map_err(|difference| difference.what)
    }

    const OF_TIMES: [u32; 7] = [0, 102, 4, 5, 6, 10, 11];
    const OF_ARCS: [u32; 11] = [0, 103, 104, 105, 106, 107, 4, 5, 6, 10, 11];

    #[test]
    fn right_answers_agree() {
        for number in OF_TIMES {
            assert_eq!(of_times(CALLS.checks.times, number.into()), Ok(number));
        }
        for number in OF_ARCS {
            assert_eq!(of_arcs(CALLS.checks.arcs, number.into()), Ok(number));
        }
    }

    #[test]
    fn wrong_numbers_are_reported() {
        for number in OF_TIMES {
            let what = of_times(|_, _, _, _, _| 7, number.into());
            assert_eq!(what, Err(format!("the number is 7, not {number}")));
        }
        for number in OF_ARCS {
            let what = of_arcs(|_, _, _, _, _| 7, number.into());
            assert_eq!(what, Err(format!("the number is 7, not {number}")));
        }
    }

    #[test]
    fn checks_that_accept_or_refuse_everything_are_reported() {
        let what = of_times(|_, _, _, _, _| 0, 102);
        assert_eq!(what, Err("the number is 0, not 102".to_owned()));
        let what = of_arcs(|_, _, _, _, _| 0, 107);
        assert_eq!(what, Err("the number is 0, not 107".to_owned()));
        let what = of_arcs(|_, _, _, _, _| 11, 0);
        assert_eq!(what, Err("the number is 11, not 0".to_owned()));
    }

    /// A check of times that then does this to the values.
    macro_rules! then {
        ($check:expr, $change:expr) => {
            |lent, p, q, list, values| {
                let number = $check(lent, p, q, list, values);
                let change: fn(&mut [u64]) = $change;
                change(values);
                number
            }
        };
    }

    #[test]
    fn wrong_windows_are_reported() {
        let begins = |check, begins| {
            let what = of_times(check, 102).unwrap_err();
            assert!(what.starts_with(begins), "{what}");
        };
        // as an arc has them: kind, position, to, from
        let as_an_arc: Check<i64> = then!(CALLS.checks.times, |values| {
            values.swap(0, 1);
            values[0] += 5;
        });
        begins(as_an_arc, "values: place 0");
        begins(
            then!(CALLS.checks.times, |values| values[3] += 1),
            "values: place 3",
        );
        begins(
            then!(CALLS.checks.times, |values| values[4] ^= 1),
            "values: place 4",
        );
        begins(|_, _, _, _, _| 102, "values: place 0");
    }

    #[test]
    fn wrong_indices_and_needless_values_are_reported() {
        let one_more: Check<u8> = then!(CALLS.checks.arcs, |values| values[0] ^= 1);
        for number in OF_ARCS {
            let what = of_arcs(one_more, number.into()).unwrap_err();
            assert!(what.starts_with("values: place 0"), "{what}");
        }
    }

    /// 01's first sheet, with p, q and a list.
    fn filed<T: Item>(p: u64, q: u64, list: &[T]) -> Proposal<Question, T> {
        let bytes = vec![1, 1, 1, 1, 0, 2, 2, 1, 1, 0x0a, 3, 1, 1, 0x10];
        Proposal {
            sheet: Question { bytes, p, q },
            list: list.to_vec(),
            room: VALUES,
        }
    }

    /// What is said of the C call for times.
    fn of_file(
        check: CheckFile<i64>,
        proposal: &Proposal<Question, i64>,
    ) -> Result<u32, Difference> {
        compare_file(check, proposal, &mut Random::new(1, 1))
    }

    #[test]
    fn right_answers_of_the_c_calls_agree() {
        let times = |p, q, list: &[i64]| of_file(CALLS.checks.file_times, &filed(p, q, list));
        assert_eq!(times(5, 1, &[-3]), Ok(0));
        assert_eq!(times(4, 1, &[0]), Ok(102));
        assert_eq!(times(4, 0, &[0]), Ok(10));
        assert_eq!(times(4, 1, &[]), Ok(11));
        let arcs = |p, list: &[u8]| {
            let proposal = filed(p, 1, list);
            compare_file(CALLS.checks.file_arcs, &proposal, &mut Random::new(1, 1))
        };
        assert_eq!(arcs(4, &[2, 1, 1, 1]), Ok(0));
        assert_eq!(arcs(5, &[2, 1, 1, 1]), Ok(107));
        assert_eq!(arcs(5, &[2, 1, 1]), Ok(11));
    }

    #[test]
    fn values_are_given_as_far_as_there_is_room() {
        for room in 0..6 {
            let mut broken = filed(4, 1, &[0]);
            broken.room = room;
            assert_eq!(of_file(CALLS.checks.file_times, &broken), Ok(102));
            let none: CheckFile<i64> = |_, _, _, _, _| 102;
            let what = of_file(none, &broken).map_err(|difference| difference.what);
            match what {
                Ok(number) => assert_eq!((number, room), (102, 0)),
                Err(what) => assert!(what.starts_with("values: place 0"), "{what}"),
            }
        }
    }

    #[test]
    fn wrong_answers_of_the_c_calls_are_reported_with_all_of_the_input() {
        let difference = of_file(|_, _, _, _, _| 0, &filed(4, 1, &[-3])).unwrap_err();
        assert_eq!(difference.what, "the number is 0, not 102");
        let input = "times [-3], 9 places for values, p 4, q 1, \
                     file 01 01 01 01 00 02 02 01 01 0a 03 01 01 10";
        assert_eq!(difference.input, input);
        assert_eq!(difference.second, "broken 102 1 2 1 1");
        let mut stops = filed(4, 0, &[]);
        stops.sheet.bytes.truncate(9);
        let no_place: CheckFile<i64> = |_, _, _, _, _| 1;
        let difference = of_file(no_place, &stops).unwrap_err();
        assert!(difference.what.starts_with("values: place 0"));
        let times_first: CheckFile<i64> = |_, _, _, _, _| 10;
        let difference = of_file(times_first, &stops).unwrap_err();
        assert_eq!(difference.what, "the number is 10, not 1");
    }
}
