//! The comparison of the ends of one sheet.

use second::arc::ArcName;
use second::calls;
use second::check;
use second::ends::{Contradiction, Ends as Answer, Found, High, Span};
use second::fraction::Fraction;
use second::random::Random;
use second::refusal::Refusal;

use crate::buffer::Buffer;
use crate::calls::{Ends, VALUES};
use crate::circuit;
use crate::difference::{hex, named, same_number, Difference};
use crate::loans::Loan;

/// What the call left behind.
struct Left {
    number: u32,
    first: Buffer<u8>,
    second: Buffer<u8>,
    values: Buffer<u64>,
}

/// Asks both programs for the ends; the number, if they agree.
pub fn compare(ends: Ends, loan: &Loan, random: &mut Random) -> Result<u32, Difference> {
    let mut first = Buffer::new(random, loan.room().circuit);
    let mut second = Buffer::new(random, loan.room().second);
    let mut values = Buffer::new(random, VALUES);
    let number = ends(loan.lent(), first.lend(), second.lend(), values.lend());
    let left = Left {
        number,
        first,
        second,
        values,
    };
    let right = calls::ends(
        loan.lent_to_second(),
        loan.room().circuit,
        loan.room().second,
    );
    let checked = match &right {
        Ok(answer) => is_answered(&left, loan, answer),
        Err(refusal) => is_refused(&left, *refusal),
    };
    checked.map(|()| number).map_err(|what| Difference {
        what,
        input: loan.to_string(),
        proved: left.show(),
        second: format!("{right:?}"),
    })
}

/// Checks that the ends are the same, since there is one low and one high, and that
/// the circuits given show them; "none" may come with one circuit or with two.
fn is_answered(left: &Left, loan: &Loan, right: &Answer) -> Result<(), String> {
    same_number(left.number, right.number())?;
    let claim = match right.span() {
        Some(right) => Answer::Found(found(left, right)?),
        None => Answer::None(contradiction(left)?),
    };
    let sheet = loan
        .lent_to_second()
        .admit()
        .map_err(|refusal| refusal.to_string())?;
    check::ends(&sheet, &claim).map_err(|fault| fault.to_string())
}

/// The ends as the call gave them, if they are these: low, high where it is not open,
/// and the two arc counts.
fn found(left: &Left, right: Span) -> Result<Found, String> {
    let mut span = vec![right.low.top, right.low.bottom];
    if let Some(high) = right.high {
        span.extend([high.top, high.bottom]);
    }
    let (ends, rest) = left.values.contents().split_at(span.len());
    for (place, (&value, &right)) in ends.iter().zip(&span).enumerate() {
        if i64::try_from(value) != Ok(right) {
            return Err(format!("values: place {place} holds {value}, not {right}"));
        }
    }
    let values: Vec<u64> = [ends, &rest[..2]].concat();
    named("values", left.values.holds(&values))?;
    let low_circuit = arcs("first circuit", &left.first, rest[0])?;
    let high_circuit = arcs("second circuit", &left.second, rest[1])?;
    Ok(Found {
        low: right.low,
        low_circuit,
        high: high(right.high, high_circuit)?,
    })
}

/// "High is a fraction with a circuit ... or "open" with no circuit."
fn high(end: Option<Fraction>, circuit: Vec<ArcName>) -> Result<High, String> {
    match end {
        Some(end) => Ok(High::At { end, circuit }),
        None if circuit.is_empty() => Ok(High::Open),
        None => Err("second circuit: there are arcs where high is open".to_owned()),
    }
}

/// The circuits that the call gave for "none".
fn contradiction(left: &Left) -> Result<Contradiction, String> {
    let values = &left.values.contents()[..2];
    named("values", left.values.holds(values))?;
    Ok(Contradiction {
        first: arcs("first circuit", &left.first, values[0])?,
        second: arcs("second circuit", &left.second, values[1])?,
    })
}

fn arcs(name: &str, buffer: &Buffer<u8>, count: u64) -> Result<Vec<ArcName>, String> {
    named(name, circuit::taken(buffer, count))
}

/// "Numbers 1 to 10 return only the number and alter nothing lent."
fn is_refused(left: &Left, refusal: Refusal) -> Result<(), String> {
    same_number(left.number, refusal.number())?;
    named("values", left.values.holds(&[]))?;
    named("first circuit", left.first.holds(&[]))?;
    named("second circuit", left.second.holds(&[]))
}

impl Left {
    fn show(&self) -> String {
        let number = self.number;
        let values = self.values.contents();
        let first = hex(self.first.contents());
        let second = hex(self.second.contents());
        format!("{number}, values {values:?}, first circuit {first}, second circuit {second}")
    }
}

#[cfg(test)]
mod tests {
    use super::*;
    use crate::stub;
    use second::generate;

    /// The first loan that the stub answers with this number, with values like these.
    fn loan(number: u32, is_like: impl Fn(&[u64]) -> bool) -> Loan {
        let answers = |loan: &Loan| {
            let room = loan.room();
            let (mut first, mut second) = (vec![0; room.circuit], vec![0; room.second]);
            let mut values = [0; VALUES];
            let given = stub::ends(loan.lent(), &mut first, &mut second, &mut values);
            given == number && is_like(&values)
        };
        (0..)
            .map(|index| Loan::new(generate::untimed_loan(6, index)))
            .find(answers)
            .unwrap()
    }

    /// What the comparison says of a call.
    fn said(ends: Ends, loan: &Loan) -> String {
        let difference = compare(ends, loan, &mut Random::new(1, 1)).unwrap_err();
        difference.what
    }

    #[test]
    fn wrong_numbers_are_reported() {
        for number in [0, 4, 5, 6, 9, 101] {
            let what = said(|_, _, _, _| 7, &loan(number, |_| true));
            assert!(what.starts_with("the number is 7, not "), "{what}");
        }
    }

    #[test]
    fn wrong_ends_are_reported() {
        let closed = loan(0, |values| values[0] > 0 && values[5] > 0);
        let higher: Ends = |lent, first, second, values| {
            let number = stub::ends(lent, first, second, values);
            values[2] += 1;
            number
        };
        assert!(said(higher, &closed).starts_with("values: place 2"));
        let open: Ends = |lent, first, second, values| {
            let number = stub::ends(lent, first, second, values);
            values.copy_within(4..6, 2);
            number
        };
        assert!(said(open, &closed).starts_with("values: place "));
        let no_low_circuit: Ends = |lent, first, second, values| {
            let mut room = first.to_vec();
            let number = stub::ends(lent, &mut room, second, values);
            values[4] = 0;
            number
        };
        assert_eq!(said(no_low_circuit, &closed), "the circuit has no arcs");
        let needless_value: Ends = |lent, first, second, values| {
            values[6] ^= 1;
            stub::ends(lent, first, second, values)
        };
        assert!(said(needless_value, &closed).starts_with("values: place 6"));
    }

    #[test]
    fn a_circuit_for_an_open_high_is_reported() {
        let open = loan(0, |values| values[0] > 0 && values[5] == 0);
        let with_circuit: Ends = |lent, first, second, values| {
            let number = stub::ends(lent, first, second, values);
            second[..4].copy_from_slice(&first[..4]);
            values[3] = 1;
            number
        };
        assert!(said(with_circuit, &open).starts_with("second circuit: there are arcs"));
    }

    #[test]
    fn circuits_that_do_not_contradict_are_reported() {
        let two = loan(101, |values| values[1] > 0);
        let turned: Ends = |lent, first, second, values| {
            let number = stub::ends(lent, second, first, values);
            values.swap(0, 1);
            number
        };
        assert_eq!(
            said(turned, &two),
            "W or c of the circuit is wrong for its place"
        );
    }
}
