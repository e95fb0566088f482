//! The comparison of one file read.

use second::calls;
use second::random::Random;
use second::refusal::PlacedRefusal;
use second::sheet::Sheet;

use crate::buffer::Buffer;
use crate::calls::{Lent, Read, Write, VALUES};
use crate::difference::{hex, named, same_number, Difference};
use crate::files::File;

/// What reading left behind.
struct Left {
    number: u32,
    tables: Buffer<i32>,
    schedule: Buffer<u8>,
    values: Buffer<u64>,
}

/// Reads a file with both programs and writes what was read back; the number, if they
/// agree.
pub fn compare(
    read: Read,
    write: Write,
    file: &File,
    random: &mut Random,
) -> Result<u32, Difference> {
    let mut tables = Buffer::new(random, file.table_places);
    let mut schedule = Buffer::new(random, file.schedule_places);
    let mut values = Buffer::new(random, VALUES);
    let number = read(&file.bytes, tables.lend(), schedule.lend(), values.lend());
    let left = Left {
        number,
        tables,
        schedule,
        values,
    };
    let right = calls::read(&file.bytes, file.table_places, file.schedule_places);
    let checked = match &right {
        Ok(sheet) => is_read(&left, sheet).and_then(|()| goes_back(write, file, &left, random)),
        Err(refused) => is_refused(&left, *refused),
    };
    checked.map(|()| number).map_err(|what| Difference {
        what,
        input: file.to_string(),
        proved: left.show(),
        second: format!("{right:?}"),
    })
}

/// "It needs 4·m·n² and V places, fills exactly these, and returns n, m and V."
fn is_read(left: &Left, sheet: &Sheet) -> Result<(), String> {
    same_number(left.number, 0)?;
    let sizes = [sheet.n(), sheet.m(), sheet.v()].map(|size| size as u64);
    named("values", left.values.holds(&sizes))?;
    named("tables", left.tables.holds(sheet.tables()))?;
    let schedule: Vec<u8> = sheet.schedule().iter().map(|&mode| mode as u8).collect();
    named("schedule", left.schedule.holds(&schedule))
}

/// "Numbers 1 to 10 return only the number and alter nothing lent", and "the reader's
/// also return the place" (02, E1).
fn is_refused(left: &Left, refused: PlacedRefusal) -> Result<(), String> {
    same_number(left.number, refused.refusal.number())?;
    named("values", left.values.holds(&[refused.place as u64]))?;
    named("tables", left.tables.holds(&[]))?;
    named("schedule", left.schedule.holds(&[]))
}

/// Checks that what was read is written as the same file.
fn goes_back(write: Write, file: &File, left: &Left, random: &mut Random) -> Result<(), String> {
    let mut out = Buffer::new(random, file.bytes.len());
    let mut values = Buffer::new(random, VALUES);
    let sizes = left.values.contents();
    let lent = Lent {
        n: sizes[0],
        m: sizes[1],
        v: sizes[2],
        tables: left.tables.contents(),
        schedule: left.schedule.contents(),
    };
    let number = write(lent, out.lend(), values.lend());
    named("written back", same_number(number, 0))?;
    named("written back", out.holds(&file.bytes))?;
    named("written back", values.holds(&[file.bytes.len() as u64]))
}

impl Left {
    fn show(&self) -> String {
        let number = self.number;
        let values = self.values.contents();
        let tables = self.tables.contents();
        let schedule = hex(self.schedule.contents());
        format!("{number}, values {values:?}, schedule {schedule}, tables {tables:?}")
    }
}

#[cfg(test)]
mod tests {
    use super::*;
    use crate::stub::CALLS;

    /// Document 01's first sheet, with buffers of so many places.
    fn first_sheet(table_places: usize, schedule_places: usize) -> File {
        let bytes = vec![1, 1, 1, 1, 0, 2, 2, 1, 1, 0x0a, 3, 1, 1, 0x10];
        File {
            bytes,
            table_places,
            schedule_places,
        }
    }

    fn compared(read: Read, write: Write, file: &File) -> Result<u32, String> {
        compare(read, write, file, &mut Random::new(1, 1)).map_err(|difference| difference.what)
    }

    #[test]
    fn right_answers_agree() {
        let agreed = |file: &File| compared(CALLS.read, CALLS.write, file);
        assert_eq!(agreed(&first_sheet(4, 1)), Ok(0));
        assert_eq!(agreed(&first_sheet(9, 3)), Ok(0));
        assert_eq!(agreed(&first_sheet(3, 1)), Ok(9));
        let mut file = first_sheet(4, 1);
        file.bytes.clear();
        assert_eq!(agreed(&file), Ok(1));
    }

    #[test]
    fn wrong_answers_are_reported() {
        type Wrong = (Read, &'static str);
        let wrong: [Wrong; 6] = [
            (|_, _, _, _| 9, "the number is 9, not 0"),
            (|_, _, _, _| 0, "values: place 0"),
            (
                |file, tables, schedule, values| {
                    values[3] = !values[3];
                    (CALLS.read)(file, tables, schedule, values)
                },
                "values: place 3",
            ),
            (
                |file, tables, schedule, values| {
                    let number = (CALLS.read)(file, tables, schedule, values);
                    tables[0] += 1;
                    number
                },
                "tables: place 0",
            ),
            (
                |file, tables, schedule, values| {
                    tables[5] = !tables[5];
                    (CALLS.read)(file, tables, schedule, values)
                },
                "tables: place 5",
            ),
            (
                |file, tables, schedule, values| {
                    let number = (CALLS.read)(file, tables, schedule, values);
                    schedule[0] ^= 1;
                    number
                },
                "schedule: place 0",
            ),
        ];
        for (read, begins) in wrong {
            let what = compared(read, CALLS.write, &first_sheet(6, 2)).unwrap_err();
            assert!(what.starts_with(begins), "{what}");
        }
    }

    /// Document 01's first sheet with a value past its limit, in three groups: 6 at 9.
    fn refused_at_9() -> File {
        let mut file = first_sheet(4, 1);
        file.bytes.splice(9..10, [0x82, 0x89, 0x7a]);
        file
    }

    #[test]
    fn right_places_agree() {
        let agreed = |file: &File| compared(CALLS.read, CALLS.write, file);
        assert_eq!(agreed(&refused_at_9()), Ok(6));
        let mut values = [u64::MAX; VALUES];
        let number = (CALLS.read)(&refused_at_9().bytes, &mut [0; 4], &mut [0; 1], &mut values);
        assert_eq!((number, values[..2].to_vec()), (6, vec![9, u64::MAX]));
    }

    #[test]
    fn a_wrong_place_is_reported() {
        type Wrong = (Read, &'static str);
        let wrong: [Wrong; 5] = [
            (
                |file, tables, schedule, values| {
                    let number = (CALLS.read)(file, tables, schedule, values);
                    values[0] -= 1;
                    number
                },
                "values: place 0 holds 8, not 9",
            ),
            (
                |file, tables, schedule, values| {
                    let number = (CALLS.read)(file, tables, schedule, values);
                    // behind the number, and not where it began
                    values[0] += 3;
                    number
                },
                "values: place 0 holds 12, not 9",
            ),
            (
                |file, tables, schedule, values| {
                    let number = (CALLS.read)(file, tables, schedule, values);
                    // where the record begins, as if it were 7
                    values[0] = 6;
                    number
                },
                "values: place 0 holds 6, not 9",
            ),
            (
                // no place at all
                |file, tables, schedule, _| (CALLS.read)(file, tables, schedule, &mut [0; VALUES]),
                "values: place 0 holds ",
            ),
            (
                |file, tables, schedule, values| {
                    values[1] = !values[1];
                    (CALLS.read)(file, tables, schedule, values)
                },
                "values: place 1 holds ",
            ),
        ];
        for (read, begins) in wrong {
            let what = compared(read, CALLS.write, &refused_at_9()).unwrap_err();
            assert!(what.starts_with(begins), "{what}");
        }
    }

    #[test]
    fn a_place_with_9_is_reported() {
        let read: Read = |file, tables, schedule, values| {
            let number = (CALLS.read)(file, tables, schedule, values);
            values[0] = file.len() as u64;
            number
        };
        let what = compared(read, CALLS.write, &first_sheet(3, 1)).unwrap_err();
        assert_eq!(what, "values: place 0 holds 14, not 0");
    }

    #[test]
    fn a_refusal_that_writes_is_reported() {
        let read: Read = |file, tables, schedule, values| {
            tables[2] = !tables[2];
            (CALLS.read)(file, tables, schedule, values)
        };
        let what = compared(read, CALLS.write, &first_sheet(3, 1)).unwrap_err();
        assert!(what.starts_with("tables: place 2"), "{what}");
    }

    #[test]
    fn a_sheet_that_is_not_written_back_is_reported() {
        let write: Write = |lent, out, values| {
            let number = (CALLS.write)(lent, out, values);
            out[13] ^= 1;
            number
        };
        let what = compared(CALLS.read, write, &first_sheet(4, 1)).unwrap_err();
        assert!(what.starts_with("written back: place 13"), "{what}");
    }
}
