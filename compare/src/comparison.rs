//! A comparison over many inputs.

use second::generate;
use second::random::Random;

use crate::calls::Calls;
use crate::difference::Difference;
use crate::files;
use crate::kind::Kind;
use crate::loans::Loan;
use crate::proposals;
use crate::tally::Tally;
use crate::{ask, check, ends, host, reader, report, writer};

/// Compares on the input of a seed and an index, and tells the number agreed on. The
/// random numbers are what buffers hold before.
type OnInput = Box<dyn Fn(u64, u64, &mut Random) -> Result<u32, Difference>>;

/// Sets the seed for what buffers hold apart from the seed of the inputs, so that the
/// two are unlike.
const BUFFERS: u64 = 0x6275_6666_6572_7300;

/// A comparison that can be made.
pub struct Comparison {
    kind: Kind,
    on_input: OnInput,
}

impl Comparison {
    /// The comparison of a kind, unless the calls are without it.
    pub fn new(kind: Kind, calls: &Calls) -> Option<Comparison> {
        let Calls {
            read,
            write,
            host,
            checks,
            ..
        } = *calls;
        let on_input: OnInput = match kind {
            Kind::Reader => Box::new(move |seed, index, random| {
                reader::compare(read, write, &files::file(seed, index), random)
            }),
            Kind::Writer => Box::new(move |seed, index, random| {
                writer::compare(write, &untimed(seed, index), random)
            }),
            Kind::Ask => {
                let ask = calls.ask?;
                Box::new(move |seed, index, random| {
                    ask::compare(ask, checks, &timed(seed, index), random)
                })
            }
            Kind::Ends => {
                let ends = calls.ends?;
                Box::new(move |seed, index, random| {
                    ends::compare(ends, &untimed(seed, index), random)
                })
            }
            Kind::Host => {
                Box::new(move |seed, index, _| host::compare(host, &files::question(seed, index)))
            }
            Kind::Report => {
                let report = calls.report?;
                Box::new(move |seed, index, random| {
                    report::compare(report, &files::any(seed, index), random)
                })
            }
            Kind::Times => Box::new(move |seed, index, random| {
                check::compare(checks.times, &proposals::lent(seed, index), random)
            }),
            Kind::Arcs => Box::new(move |seed, index, random| {
                check::compare(checks.arcs, &proposals::lent(seed, index), random)
            }),
            // times and arcs in turn
            Kind::Checker => Box::new(move |seed, index, random| {
                if index % 2 == 0 {
                    let proposal = proposals::filed(seed, index);
                    check::compare_file(checks.file_times, &proposal, random)
                } else {
                    let proposal = proposals::filed(seed, index);
                    check::compare_file(checks.file_arcs, &proposal, random)
                }
            }),
        };
        Some(Comparison { kind, on_input })
    }

    /// Its kind.
    pub fn kind(&self) -> Kind {
        self.kind
    }

    /// Compares on the inputs of all indices below a count.
    ///
    /// A difference comes with the index of its input.
    pub fn run(&self, seed: u64, count: u64) -> Result<Tally, (u64, Difference)> {
        let mut tally = Tally::new(self.kind);
        for index in 0..count {
            let random = &mut Random::new(seed ^ BUFFERS, index);
            let number = (self.on_input)(seed, index, random).map_err(|found| (index, found))?;
            tally.add(number);
        }
        Ok(tally)
    }
}

/// The loan of an index, with a cycle time.
fn timed(seed: u64, index: u64) -> Loan {
    Loan::new(generate::loan(seed, index))
}

/// The loan of an index for calls that take no cycle time.
fn untimed(seed: u64, index: u64) -> Loan {
    Loan::new(generate::untimed_loan(seed, index))
}

#[cfg(test)]
mod tests {
    use super::*;
    use crate::archive;

    /// The stub answers in the place of the archive, through its declarations.
    #[test]
    fn every_number_comes_up() {
        let counts = [1000, 1000, 600, 600, 1000, 1000, 600, 600, 1000];
        for (kind, count) in Kind::ALL.into_iter().zip(counts) {
            let comparison = Comparison::new(kind, &archive::CALLS).unwrap();
            let tally = comparison.run(1, count).unwrap();
            assert_eq!(tally.total(), count);
            let answers = kind.answers().iter().map(|&(number, _)| number);
            for number in kind.refusals().iter().copied().chain(answers) {
                assert!(tally.count(number) > 0, "{number} of {tally}");
            }
        }
    }

    #[test]
    fn a_difference_comes_with_its_index() {
        let mut calls = archive::CALLS;
        calls.write = |_, _, _| 4;
        let comparison = Comparison::new(Kind::Writer, &calls).unwrap();
        let (index, difference) = comparison.run(1, 100).unwrap_err();
        assert_eq!(index, 0);
        assert_eq!(difference.what, "the number is 4, not 0");
        assert!(difference.to_string().contains("\ninput: n "));
    }

    #[test]
    fn a_call_that_is_not_there_is_not_compared() {
        let mut calls = archive::CALLS;
        calls.ends = None;
        assert!(Comparison::new(Kind::Ends, &calls).is_none());
        assert!(Comparison::new(Kind::Ask, &calls).is_some());
    }
}
