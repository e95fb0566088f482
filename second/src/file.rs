//! The sheet file: reader and writer.

use crate::limits;
use crate::number::{self, Numbers};
use crate::refusal::{PlacedRefusal, Refusal};
use crate::sheet::Sheet;
use crate::window::Window;

/// "Format number 1."
const FORMAT: u64 = 1;

/// "The longest sheet has 27,684 bytes."
pub const LONGEST: usize = 27_684;

/// The sheet in a file, or the first refusal from 1 to 8 and its place.
///
/// "The reader checks each number as soon as it is read, left to right; 7
/// follows a record's fourth number; 8 after the last record." That leaves 9,
/// which only a call with buffers can give. Places are 02's, E1.
pub fn read(bytes: &[u8]) -> Result<Sheet, PlacedRefusal> {
    let mut numbers = Numbers::new(bytes);
    let mut sheet = read_head(&mut numbers)?;
    for mode in 0..sheet.m() {
        read_mode(&mut numbers, mode, &mut sheet)?;
    }
    match numbers.surplus() {
        None => Ok(sheet),
        // "for 8, the first surplus byte"
        Some(place) => Err(Refusal::Surplus.at(place)),
    }
}

/// "Format number 1; n; m; V; V mode numbers from 0."
fn read_head(numbers: &mut Numbers<'_>) -> Result<Sheet, PlacedRefusal> {
    numbers.take().within(format)?;
    let n = numbers.take().within(limits::events)?;
    let m = numbers.take().within(limits::modes)?;
    let v = numbers.take().within(limits::positions)?;
    let mut schedule = Vec::with_capacity(v);
    for _ in 0..v {
        schedule.push(numbers.take().within(|mode| limits::mode(mode, m))?);
    }
    let sheet = Sheet::without_windows(n, m, &schedule);
    Ok(sheet.expect("each number was checked as it was read"))
}

fn format(number: u64) -> Result<(), Refusal> {
    if number == FORMAT {
        Ok(())
    } else {
        Err(Refusal::Format)
    }
}

/// "For each mode a count and that many records ... Records strictly rise by
/// kind, then to, then from."
fn read_mode(
    numbers: &mut Numbers<'_>,
    mode: usize,
    sheet: &mut Sheet,
) -> Result<(), PlacedRefusal> {
    let n = sheet.n();
    let count = numbers.take().within(|count| limits::count(count, n))?;
    let mut before = None;
    for _ in 0..count {
        let Record { start, window } = read_record(numbers, n)?;
        let rank = Some(window.rank());
        if before >= rank {
            // "for 7, the start of the record"
            return Err(Refusal::Rising.at(start));
        }
        before = rank;
        sheet
            .put(mode, window)
            .expect("each number was checked as it was read");
    }
    Ok(())
}

/// A record that was read.
struct Record {
    /// The place of its first number, the kind.
    start: usize,
    window: Window,
}

/// "Kind, to, from, value."
fn read_record(numbers: &mut Numbers<'_>, n: usize) -> Result<Record, PlacedRefusal> {
    let kind = numbers.take();
    let event = |number| limits::event(number, n);
    let value = |number| limits::value(number::to_value(number));
    Ok(Record {
        start: kind.place,
        window: Window {
            kind: kind.within(limits::kind)?,
            to: numbers.take().within(event)?,
            from: numbers.take().within(event)?,
            w: numbers.take().within(value)?,
        },
    })
}

/// The file of a sheet.
pub fn write(sheet: &Sheet) -> Vec<u8> {
    let mut bytes = Vec::new();
    for number in numbers(sheet) {
        number::append(&mut bytes, number);
    }
    bytes
}

/// The numbers of a sheet's file, in order.
pub fn numbers(sheet: &Sheet) -> Vec<u64> {
    let sizes = [sheet.n(), sheet.m(), sheet.v()];
    let mut numbers = vec![FORMAT];
    numbers.extend(sizes.map(|size| size as u64));
    numbers.extend(sheet.schedule());
    for mode in 0..sheet.m() {
        numbers.push(sheet.windows(mode).count() as u64);
        numbers.extend(sheet.windows(mode).flat_map(record));
    }
    numbers
}

/// The four numbers of a window's record.
fn record(window: Window) -> [u64; 4] {
    [
        window.kind.number() as u64,
        window.to as u64,
        window.from as u64,
        number::from_value(window.w),
    ]
}
