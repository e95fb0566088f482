//! The comparison of one sheet written.

use second::calls;
use second::random::Random;

use crate::buffer::Buffer;
use crate::calls::{Write, VALUES};
use crate::difference::{hex, named, same_number, Difference};
use crate::loans::Loan;

/// Writes a sheet with both programs; the number, if they agree.
pub fn compare(write: Write, loan: &Loan, random: &mut Random) -> Result<u32, Difference> {
    let mut out = Buffer::new(random, loan.room().file);
    let mut values = Buffer::new(random, VALUES);
    let number = write(loan.lent(), out.lend(), values.lend());
    let right = calls::write(loan.lent_to_second(), loan.room().file);
    let checked = || match &right {
        Ok(bytes) => {
            same_number(number, 0)?;
            named("values", values.holds(&[bytes.len() as u64]))?;
            named("file", out.holds(bytes))
        }
        Err(refusal) => {
            same_number(number, refusal.number())?;
            named("values", values.holds(&[]))?;
            named("file", out.holds(&[]))
        }
    };
    checked().map(|()| number).map_err(|what| Difference {
        what,
        input: loan.to_string(),
        proved: format!(
            "{number}, values {:?}, file {}",
            values.contents(),
            hex(out.contents())
        ),
        second: match &right {
            Ok(bytes) => format!("0, file {}", hex(bytes)),
            Err(refusal) => refusal.to_string(),
        },
    })
}

#[cfg(test)]
mod tests {
    use super::*;
    use crate::stub::CALLS;
    use second::generate;

    /// Whether the comparison of a loan that is all right says this of a call.
    fn says(write: Write, begins: &str) -> bool {
        let loan = Loan::new(generate::untimed_loan(1, 4));
        let difference = compare(write, &loan, &mut Random::new(1, 1)).unwrap_err();
        difference.what.starts_with(begins)
    }

    #[test]
    fn wrong_answers_are_reported() {
        assert!(says(|_, _, _| 9, "the number is 9, not 0"));
        assert!(says(|_, _, _| 0, "values: place 0"));
        let one_off: Write = |lent, out, values| {
            let number = (CALLS.write)(lent, out, values);
            out[4] ^= 1;
            number
        };
        assert!(says(one_off, "file: place 4"));
        let more_values: Write = |lent, out, values| {
            values[1] = !values[1];
            (CALLS.write)(lent, out, values)
        };
        assert!(says(more_values, "values: place 1"));
    }
}
