//! The reader: one walk into lists of its own, then a copy.

use std::slice;

use second::limits::{GREATEST_VALUE, MOST_EVENTS, MOST_MODES, MOST_POSITIONS};
use second::sheet::NO_WINDOW;

/// Reads a file into tables and schedule: n, m and V, or the number of the refusal and its
/// place.
pub fn read(
    file: &[u8],
    tables: &mut [i32],
    schedule: &mut [u8],
) -> Result<(usize, usize, usize), (u32, usize)> {
    let mut rest = Rest {
        file,
        bytes: file.iter(),
    };
    rest.within(1, 1, 3)?;
    let n = rest.within(1, MOST_EVENTS, 4)?;
    let m = rest.within(1, MOST_MODES, 4)?;
    let v = rest.within(1, MOST_POSITIONS, 4)?;
    let mut modes = Vec::with_capacity(v);
    for _ in 0..v {
        modes.push(rest.within(0, m - 1, 5)? as u8);
    }
    let part = 4 * n * n;
    let mut windows = vec![NO_WINDOW; m * part];
    for windows in windows.chunks_exact_mut(part) {
        let mut least_place = 0;
        for _ in 0..rest.within(0, part, 6)? {
            let start = rest.place();
            let kind = rest.within(0, 3, 6)?;
            let to = rest.within(1, n, 6)?;
            let from = rest.within(1, n, 6)?;
            let code = rest.within(0, 2 * GREATEST_VALUE as usize, 6)?;
            let place = (kind * n + to - 1) * n + from - 1;
            if place < least_place {
                return Err((7, start));
            }
            least_place = place + 1;
            windows[place] = value(code);
        }
    }
    if rest.place() < file.len() {
        return Err((8, rest.place()));
    }
    if tables.len() < windows.len() || schedule.len() < v {
        return Err((9, 0));
    }
    tables[..windows.len()].copy_from_slice(&windows);
    schedule[..v].copy_from_slice(&modes);
    Ok((n, m, v))
}

/// A file, and what of it is still to be read.
struct Rest<'a> {
    file: &'a [u8],
    bytes: slice::Iter<'a, u8>,
}

impl Rest<'_> {
    /// The place of the next byte.
    fn place(&self) -> usize {
        self.file.len() - self.bytes.len()
    }

    /// The next number, which has to be one of these.
    fn within(&mut self, least: usize, most: usize, refusal: u32) -> Result<usize, (u32, usize)> {
        let place = self.place();
        match number(&mut self.bytes) {
            Ok(value) if (least..=most).contains(&value) => Ok(value),
            Ok(_) => Err((refusal, place)),
            Err(refusal) => Err((refusal, place)),
        }
    }
}

/// The next number: groups of seven bits, at most four, the lowest first.
fn number<'a>(bytes: &mut impl Iterator<Item = &'a u8>) -> Result<usize, u32> {
    let mut value = 0;
    for group in 0..4 {
        let byte = *bytes.next().ok_or(1_u32)?;
        value |= usize::from(byte & 0x7f) << (7 * group);
        if byte < 0x80 {
            return if byte == 0 && group > 0 {
                Err(2)
            } else {
                Ok(value)
            };
        }
    }
    Err(2)
}

/// The value of which this is the code, 2v or -2v - 1.
fn value(code: usize) -> i32 {
    let half = (code / 2) as i32;
    if code % 2 == 0 {
        half
    } else {
        -half - 1
    }
}

#[cfg(test)]
mod tests {
    use super::*;
    use second::calls;
    use second::generate;

    #[test]
    fn answers_are_right() {
        for index in 0..3000 {
            let file = generate::file(13, index);
            let (mut tables, mut schedule) = ([7; 4000], [7; 16]);
            let read = read(&file, &mut tables, &mut schedule);
            match calls::read(&file, tables.len(), schedule.len()) {
                Ok(sheet) => {
                    assert_eq!(read, Ok((sheet.n(), sheet.m(), sheet.v())));
                    assert!(tables.starts_with(sheet.tables()));
                    let modes = schedule.iter().copied().map(u64::from);
                    assert!(modes.take(sheet.v()).eq(sheet.schedule().iter().copied()));
                }
                Err(refused) => {
                    let number = refused.refusal.number() as u32;
                    assert_eq!(read, Err((number, refused.place)), "{index}");
                    assert_eq!((tables, schedule), ([7; 4000], [7; 16]));
                }
            }
        }
    }
}
