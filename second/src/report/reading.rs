//! Reading a report back.

use std::fmt;
use std::str::{FromStr, Lines};

use crate::arc::ArcName;
use crate::ends::{Contradiction, Found, High};
use crate::fraction::Fraction;
use crate::refusal::Refusal;

use super::{Plan, Report};

/// A text is no report: this line, counted from 1, is the first that cannot be
/// one of a report, or is missing.
#[derive(Clone, Copy, Debug, PartialEq, Eq)]
pub struct NoReport {
    /// The line.
    pub line: usize,
}

impl fmt::Display for NoReport {
    fn fmt(&self, f: &mut fmt::Formatter<'_>) -> fmt::Result {
        write!(f, "line {} is not in the form of a report", self.line)
    }
}

impl std::error::Error for NoReport {}

/// Reads a report of exactly the form in which reports are printed; what it says
/// may be wrong.
impl FromStr for Report {
    type Err = NoReport;

    fn from_str(text: &str) -> Result<Report, NoReport> {
        let mut reader = Reader {
            lines: text.lines(),
            line: 0,
        };
        let report = reader.report().ok_or(NoReport { line: reader.line })?;
        // What is printed again shows every liberty taken with spaces, line feeds
        // and the form of numbers.
        let exact = report.to_string();
        if exact == text {
            return Ok(report);
        }
        let pairs = exact.split_inclusive('\n').zip(text.split_inclusive('\n'));
        let same = pairs.take_while(|(exact, text)| exact == text).count();
        Err(NoReport { line: same + 1 })
    }
}

/// Takes the lines of a report one by one.
struct Reader<'a> {
    lines: Lines<'a>,
    line: usize,
}

impl<'a> Reader<'a> {
    fn report(&mut self) -> Option<Report> {
        let words = self.words()?;
        match words[..] {
            ["refused", number, place] => {
                let refusal = Refusal::from_number(number.parse().ok()?)?;
                Some(Report::Refused(refusal.at(place.parse().ok()?)))
            }
            ["none"] => Some(Report::None(Contradiction {
                first: self.circuit("first")?,
                second: self.circuit("second")?,
            })),
            ["ends", low, high] => {
                let found = Found {
                    low: fraction(low)?,
                    low_circuit: self.circuit("low")?,
                    high: self.high(high)?,
                };
                Some(Report::Ends(found, self.plan()?))
            }
            _ => None,
        }
    }

    fn high(&mut self, high: &str) -> Option<High> {
        if high == "open" {
            return Some(High::Open);
        }
        Some(High::At {
            end: fraction(high)?,
            circuit: self.circuit("high")?,
        })
    }

    fn circuit(&mut self, word: &str) -> Option<Vec<ArcName>> {
        let words = self.words()?;
        let count = match words[..] {
            [first, count] if first == word => count.parse::<usize>().ok()?,
            _ => return None,
        };
        (0..count).map(|_| self.arc()).collect()
    }

    fn arc(&mut self) -> Option<ArcName> {
        let numbers: Vec<u64> = self.numbers()?;
        Some(<[u64; 4]>::try_from(numbers).ok()?.into())
    }

    fn plan(&mut self) -> Option<Plan> {
        let words = self.words()?;
        let (q, rounds) = match words[..] {
            ["plan", q, rounds] => (q.parse().ok()?, rounds.parse().ok()?),
            _ => return None,
        };
        let mut times = Vec::new();
        while self.lines.clone().next().is_some() {
            times.push(self.numbers()?);
        }
        Some(Plan { q, rounds, times })
    }

    fn numbers<T: FromStr>(&mut self) -> Option<Vec<T>> {
        let words = self.words()?;
        words.iter().map(|word| word.parse().ok()).collect()
    }

    fn words(&mut self) -> Option<Vec<&'a str>> {
        self.line += 1;
        Some(self.lines.next()?.split(' ').collect())
    }
}

fn fraction(word: &str) -> Option<Fraction> {
    let (top, bottom) = word.split_once('/')?;
    Some(Fraction {
        top: top.parse().ok()?,
        bottom: bottom.parse().ok()?,
    })
}
