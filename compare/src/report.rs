//! The comparison of one report.

use second::judge;
use second::random::Random;
use second::report::Report as Right;

use crate::buffer::Buffer;
use crate::calls::{Report, VALUES};
use crate::difference::{hex, named, same_number, Difference};

/// The places that the report asks for, whatever the file.
pub const PLACES: usize = 8192;

/// What the call left behind.
struct Left {
    number: u32,
    out: Buffer<u8>,
    values: Buffer<u64>,
}

/// Has a report written, into a buffer of any length, and judges it.
pub fn compare(report: Report, file: &[u8], random: &mut Random) -> Result<u32, Difference> {
    compare_in(places(random), report, file, random)
}

/// Has a report written into so many places and judges it; the number that its first line
/// stands for, or that of the call, if all is right.
pub fn compare_in(
    places: usize,
    report: Report,
    file: &[u8],
    random: &mut Random,
) -> Result<u32, Difference> {
    let mut out = Buffer::new(random, places);
    let mut values = Buffer::new(random, VALUES);
    let number = report(file, out.lend(), values.lend());
    let left = Left {
        number,
        out,
        values,
    };
    let checked = if places < PLACES {
        is_refused(&left)
    } else {
        is_written(&left, file)
    };
    checked.map_err(|what| Difference {
        what,
        input: format!("{places} places, file {}", hex(file)),
        proved: left.show(),
        second: Right::new(file).to_string(),
    })
}

/// As many places as are asked for, or more, or too few.
fn places(random: &mut Random) -> usize {
    match random.below(10) {
        0 => random.pick(&[0, 50, PLACES - 1]),
        1..=3 => PLACES + random.pick(&[1, 30, 2 * PLACES]),
        _ => PLACES,
    }
}

/// "9: a buffer to be written is too short", and nothing is altered.
fn is_refused(left: &Left) -> Result<u32, String> {
    same_number(left.number, 9)?;
    named("values", left.values.holds(&[]))?;
    named("text", left.out.holds(&[]))?;
    Ok(9)
}

/// The text is at the front and nothing else is written. All of it is settled by the
/// file, to the byte, but for the circuits and the form of "none", which are judged.
fn is_written(left: &Left, file: &[u8]) -> Result<u32, String> {
    same_number(left.number, 0)?;
    let length = left.values.contents()[0];
    named("values", left.values.holds(&[length]))?;
    let text = usize::try_from(length)
        .ok()
        .and_then(|length| left.out.contents().get(..length))
        .ok_or_else(|| format!("text: {length} bytes in {} places", left.out.places()))?;
    named("text", left.out.holds(text))?;
    named("text", judge::judge(file, text))?;
    Ok(number_of(text))
}

/// The number that a right report stands for.
fn number_of(text: &[u8]) -> u32 {
    match text.strip_prefix(b"refused ") {
        // a number of one digit, and behind it the place
        Some(refused) => u32::from(refused[0] - b'0'),
        None if text.starts_with(b"none") => 101,
        None => 0,
    }
}

impl Left {
    fn show(&self) -> String {
        let number = self.number;
        let values = self.values.contents();
        let text = String::from_utf8_lossy(self.out.contents());
        format!("{number}, values {values:?}, text {text}")
    }
}

#[cfg(test)]
mod tests {
    use super::*;
    use crate::stub;

    /// The sheet of 01's report.
    const SAMPLE: [u8; 18] = [1, 2, 1, 1, 0, 3, 0, 2, 1, 6, 1, 2, 1, 8, 2, 1, 2, 4];

    /// What is said of a call, given a buffer that is long enough.
    fn says(report: Report, file: &[u8]) -> Result<u32, String> {
        let enough = (0..)
            .find(|&index| {
                let random = &mut Random::new(1, index);
                compare(stub::report, &[], random) == Ok(1)
            })
            .unwrap();
        let compared = compare(report, file, &mut Random::new(1, enough));
        compared.map_err(|difference| difference.what)
    }

    #[test]
    fn right_reports_agree() {
        assert_eq!(says(stub::report, &SAMPLE), Ok(0));
        assert_eq!(says(stub::report, &SAMPLE[..17]), Ok(1));
        // n = 1, at least 9 and at most 8
        let none = [1, 1, 1, 1, 0, 2, 2, 1, 1, 18, 3, 1, 1, 16];
        assert_eq!(says(stub::report, &none), Ok(101));
    }

    #[test]
    fn wrong_reports_are_reported() {
        type Wrong = (Report, &'static str);
        let wrong: [Wrong; 5] = [
            (|_, _, _| 9, "the number is 9, not 0"),
            (
                |file, out, values| {
                    let number = stub::report(file, out, values);
                    // the low of another sheet
                    out[5] = b'6';
                    number
                },
                "text: \"ends 6/1 open\" should be \"ends 5/1 open\"",
            ),
            (
                |file, out, values| {
                    let number = stub::report(file, out, values);
                    values[0] -= 1;
                    number
                },
                "text: place 48 holds 10, and was to be left alone",
            ),
            (
                |file, out, values| {
                    out[8000] ^= 1;
                    stub::report(file, out, values)
                },
                "text: place 8000",
            ),
            (
                |_, _, values| {
                    values[0] = u64::MAX;
                    0
                },
                "text: 18446744073709551615 bytes",
            ),
        ];
        for (report, begins) in wrong {
            let what = says(report, &SAMPLE).unwrap_err();
            assert!(what.starts_with(begins), "{what}");
        }
    }

    /// What is said of a report on the sample with a kind, at 10, that is none.
    fn says_of_no_kind(report: Report) -> Result<u32, String> {
        let mut file = SAMPLE;
        file[10] = 12;
        says(report, &file)
    }

    #[test]
    fn a_wrong_place_is_reported() {
        assert_eq!(says_of_no_kind(stub::report), Ok(6));
        assert_eq!(
            says_of_no_kind(|_, out, values| told("refused 6 10\n", out, values)),
            Ok(6)
        );
        type Wrong = (Report, &'static str);
        let wrong: [Wrong; 6] = [
            (
                |_, out, values| told("refused 6 9\n", out, values),
                "text: \"refused 6 9\" should be \"refused 6 10\"",
            ),
            (
                |_, out, values| told("refused 6 11\n", out, values),
                "text: \"refused 6 11\" should be \"refused 6 10\"",
            ),
            (
                |_, out, values| told("refused 6 18\n", out, values),
                "text: \"refused 6 18\" should be \"refused 6 10\"",
            ),
            (
                |_, out, values| told("refused 6\n", out, values),
                "text: line 1 is not in the form of a report",
            ),
            (
                |_, out, values| told("refused 10 6\n", out, values),
                "text: \"refused 10 6\" should be \"refused 6 10\"",
            ),
            (
                |_, out, values| told("refused 6 10 \n", out, values),
                "text: line 1 is not in the form of a report",
            ),
        ];
        for (report, what) in wrong {
            assert_eq!(says_of_no_kind(report), Err(what.to_owned()));
        }
    }

    /// Answers with this text.
    fn told(text: &str, out: &mut [u8], values: &mut [u64]) -> u32 {
        out[..text.len()].copy_from_slice(text.as_bytes());
        values[0] = text.len() as u64;
        0
    }

    #[test]
    fn a_value_with_9_is_reported() {
        let too_few = (0..)
            .find(|&index| compare(stub::report, &[], &mut Random::new(1, index)) == Ok(9))
            .unwrap();
        let report: Report = |_, _, values| {
            // the report's 9 has no place, as the reader's has
            values[0] = 0;
            9
        };
        let difference = compare(report, &[], &mut Random::new(1, too_few)).unwrap_err();
        assert!(difference.what.starts_with("values: place 0 holds 0"));
    }

    #[test]
    fn a_circuit_that_shows_nothing_is_reported() {
        let report: Report = |file, out, values| {
            let number = stub::report(file, out, values);
            // kind 1 in the place of kind 0
            out[20] = b'1';
            number
        };
        let what = says(report, &SAMPLE).unwrap_err();
        assert!(what.starts_with("text: "), "{what}");
    }
}
