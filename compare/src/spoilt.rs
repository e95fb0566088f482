//! Sheets spoilt in every way there is to cut one off, or to change one byte of it: the
//! comparison of the reader and of the report on all of them.

use std::fmt;

use second::limits::MOST_POSITIONS;
use second::random::Random;

use crate::calls::Calls;
use crate::difference::Difference;
use crate::files::File;
use crate::held::TABLES;
use crate::kind::Kind;
use crate::tally::Tally;
use crate::{reader, report};

/// What is done to a sheet's file. Some of it leaves a sheet, if another one.
#[derive(Clone, Copy, Debug, PartialEq, Eq)]
pub enum Spoilt {
    /// Only so many bytes are left, which may be all.
    Cut(usize),
    /// The byte at this place is this one.
    Changed(usize, u8),
}

use Spoilt::{Changed, Cut};

impl Spoilt {
    /// Everything that can be done to a sheet's file.
    pub fn all(sheet: &[u8]) -> impl Iterator<Item = Spoilt> + '_ {
        let cuts = (0..=sheet.len()).map(Cut);
        let bytes = |place| (0..=u8::MAX).map(move |byte| Changed(place, byte));
        let changes = (0..sheet.len()).flat_map(bytes);
        cuts.chain(changes.filter(move |change| change.of(sheet) != sheet))
    }

    /// The file that is left of a sheet's.
    pub fn of(self, sheet: &[u8]) -> Vec<u8> {
        let mut file = sheet.to_vec();
        match self {
            Cut(length) => file.truncate(length),
            Changed(place, byte) => file[place] = byte,
        }
        file
    }
}

impl fmt::Display for Spoilt {
    fn fmt(&self, f: &mut fmt::Formatter<'_>) -> fmt::Result {
        match self {
            Cut(length) => write!(f, "cut to {length} bytes"),
            Changed(place, byte) => write!(f, "byte {place} as {byte:02x}"),
        }
    }
}

/// Compares on a file, with room for all that it may hold, and tells the number agreed on.
type OnFile = Box<dyn Fn(Vec<u8>, &mut Random) -> Result<u32, Difference>>;

/// Settles what buffers hold before.
const BUFFERS: u64 = 0x7370_6f69_6c74_0000;

/// A comparison on spoilt sheets.
pub struct Comparison {
    kind: Kind,
    on_file: OnFile,
}

impl Comparison {
    /// The comparison of a kind, if it is one of a file alone and the calls have it.
    pub fn new(kind: Kind, calls: &Calls) -> Option<Comparison> {
        let Calls { read, write, .. } = *calls;
        let on_file: OnFile = match kind {
            Kind::Reader => Box::new(move |bytes, random| {
                let file = File {
                    bytes,
                    table_places: TABLES,
                    schedule_places: MOST_POSITIONS,
                };
                reader::compare(read, write, &file, random)
            }),
            Kind::Report => {
                let report = calls.report?;
                Box::new(move |bytes, random| {
                    report::compare_in(report::PLACES, report, &bytes, random)
                })
            }
            _ => return None,
        };
        Some(Comparison { kind, on_file })
    }

    /// Its kind.
    pub fn kind(&self) -> Kind {
        self.kind
    }

    /// Compares on a sheet spoilt in every way.
    ///
    /// A difference comes with what was done to the sheet.
    pub fn run(&self, sheet: &[u8]) -> Result<Tally, (Spoilt, Difference)> {
        let mut tally = Tally::new(self.kind);
        for (index, spoilt) in (0..).zip(Spoilt::all(sheet)) {
            let random = &mut Random::new(BUFFERS, index);
            let number =
                (self.on_file)(spoilt.of(sheet), random).map_err(|found| (spoilt, found))?;
            tally.add(number);
        }
        Ok(tally)
    }
}

#[cfg(test)]
mod tests {
    use super::*;
    use crate::stub::{self, CALLS};
    use std::collections::BTreeSet;

    /// Document 01's first sheet.
    const FIRST: [u8; 14] = [1, 1, 1, 1, 0, 2, 2, 1, 1, 0x0a, 3, 1, 1, 0x10];

    #[test]
    fn every_cut_and_every_change_comes_once() {
        let files: BTreeSet<Vec<u8>> = Spoilt::all(&FIRST).map(|way| way.of(&FIRST)).collect();
        assert_eq!(files.len(), 15 + 14 * 255);
        assert_eq!(Spoilt::all(&FIRST).count(), files.len());
        for length in 0..=FIRST.len() {
            assert!(files.contains(&FIRST[..length]));
        }
        let is_near = |file: &Vec<u8>| {
            let pairs = file.iter().zip(&FIRST);
            let others = pairs.filter(|(byte, first)| byte != first).count();
            others == 0 || others == 1 && file.len() == FIRST.len()
        };
        assert!(files.iter().all(is_near));
    }

    fn run(kind: Kind, calls: &Calls) -> Result<Tally, (Spoilt, Difference)> {
        Comparison::new(kind, calls).unwrap().run(&FIRST)
    }

    #[test]
    fn right_calls_agree_and_every_refusal_of_a_file_comes_up() {
        let [reader, report] = [Kind::Reader, Kind::Report].map(|kind| run(kind, &CALLS).unwrap());
        assert_eq!(reader.total(), 15 + 14 * 255);
        assert_eq!(report.total(), reader.total());
        // every other first byte, and room for every sheet
        assert_eq!((reader.count(3), reader.count(9)), (255, 0));
        for number in 1..=8 {
            assert!(reader.count(number) > 0, "{number} of {reader}");
            assert_eq!(reader.count(number), report.count(number));
        }
        let read = report.count(0) + report.count(101);
        assert_eq!(reader.count(0), read);
    }

    /// What differs, of which file.
    fn found(kind: Kind, calls: &Calls) -> (Spoilt, String) {
        let (spoilt, difference) = run(kind, calls).unwrap_err();
        (spoilt, difference.what)
    }

    #[test]
    fn a_wrong_place_is_found() {
        let mut calls = CALLS;
        calls.read = |file, tables, schedule, values| {
            let number = (CALLS.read)(file, tables, schedule, values);
            // where reading 6 stopped, and not where its number began
            values[0] += u64::from(number == 6);
            number
        };
        let what = "values: place 0 holds 6, not 5".to_owned();
        assert_eq!(found(Kind::Reader, &calls), (Changed(5, 5), what));
        calls.report = Some(|file, out, values| {
            let number = stub::report(file, out, values);
            if out.starts_with(b"refused 7 10") {
                // the number after the record's kind
                out[11] = b'1';
            }
            number
        });
        let what = r#"text: "refused 7 11" should be "refused 7 10""#.to_owned();
        assert_eq!(found(Kind::Report, &calls), (Changed(6, 3), what));
    }

    #[test]
    fn a_fault_on_one_file_is_found() {
        let mut calls = CALLS;
        calls.read = |file, tables, schedule, values| {
            let number = (CALLS.read)(file, tables, schedule, values);
            schedule[0] ^= u8::from(file.ends_with(&[3, 1, 1, 0x7f]));
            number
        };
        let what = "schedule: place 0 holds 1, not 0".to_owned();
        assert_eq!(found(Kind::Reader, &calls), (Changed(13, 0x7f), what));
        calls.report = Some(|file, out, values| match file.len() {
            9 => 9,
            _ => stub::report(file, out, values),
        });
        let what = "the number is 9, not 0".to_owned();
        assert_eq!(found(Kind::Report, &calls), (Cut(9), what));
    }

    #[test]
    fn only_calls_of_a_file_alone_are_compared() {
        let mut calls = CALLS;
        let compared = |calls: &Calls| Kind::ALL.map(|kind| Comparison::new(kind, calls).is_some());
        let of_all = Kind::ALL.map(|kind| matches!(kind, Kind::Reader | Kind::Report));
        assert_eq!(compared(&calls), of_all);
        calls.report = None;
        let of_reader = Kind::ALL.map(|kind| kind == Kind::Reader);
        assert_eq!(compared(&calls), of_reader);
    }

    #[test]
    fn what_was_done_is_told() {
        assert_eq!(Cut(17).to_string(), "cut to 17 bytes");
        assert_eq!(Changed(3, 0x0a).to_string(), "byte 3 as 0a");
    }
}
