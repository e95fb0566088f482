//! Families of damaged files.

use crate::file;
use crate::number;
use crate::random::Random;
use crate::report::MOST_JUDGED;
use crate::sheet::Sheet;

use super::sheets::longest;

/// A way to damage the file of a sheet.
type Damage = fn(&mut Random, &Sheet) -> Vec<u8>;

/// The families by name.
pub(super) const FAMILIES: [(&str, Damage); 16] = [
    ("truncated", truncated),
    ("surplus", surplus),
    ("flipped bits", flipped_bits),
    ("other bytes", other_bytes),
    ("byte lost", byte_lost),
    ("byte added", byte_added),
    ("other number", other_number),
    ("number not shortest", not_shortest),
    ("fourth group followed", fourth_group_followed),
    ("records swapped", records_swapped),
    ("record doubled", record_doubled),
    ("other count", other_count),
    ("over-long", over_long),
    ("longest, drawn out", longest_drawn_out),
    ("longest, followed", longest_followed),
    ("noise", noise),
];

/// The file stops early.
fn truncated(random: &mut Random, sheet: &Sheet) -> Vec<u8> {
    let mut bytes = file::write(sheet);
    bytes.truncate(random.index(bytes.len()));
    bytes
}

/// Bytes follow the sheet.
fn surplus(random: &mut Random, sheet: &Sheet) -> Vec<u8> {
    let mut bytes = file::write(sheet);
    let more = random.pick(&[1, 1, 2, 5, 300]);
    append_any(random, &mut bytes, more);
    bytes
}

/// A few bits are turned over.
fn flipped_bits(random: &mut Random, sheet: &Sheet) -> Vec<u8> {
    let mut bytes = file::write(sheet);
    for _ in 0..random.size(1, 3) {
        let at = random.index(bytes.len());
        bytes[at] ^= 1 << random.below(8);
    }
    bytes
}

/// A few bytes are others.
fn other_bytes(random: &mut Random, sheet: &Sheet) -> Vec<u8> {
    let mut bytes = file::write(sheet);
    for _ in 0..random.size(1, 3) {
        let at = random.index(bytes.len());
        bytes[at] = any_byte(random);
    }
    bytes
}

/// A byte is missing.
fn byte_lost(random: &mut Random, sheet: &Sheet) -> Vec<u8> {
    let mut bytes = file::write(sheet);
    bytes.remove(random.index(bytes.len()));
    bytes
}

/// There is a byte too many.
fn byte_added(random: &mut Random, sheet: &Sheet) -> Vec<u8> {
    let mut bytes = file::write(sheet);
    let byte = any_byte(random);
    bytes.insert(random.size(0, bytes.len()), byte);
    bytes
}

/// One number is another, at a limit or past it.
fn other_number(random: &mut Random, sheet: &Sheet) -> Vec<u8> {
    let mut numbers = file::numbers(sheet);
    let at = any_number_place(random, &numbers);
    let n = sheet.n() as u64;
    numbers[at] = random.pick(&[
        0,
        1,
        3,
        4,
        n,
        n + 1,
        sheet.m() as u64,
        4 * n * n,
        4 * n * n + 1,
        9,
        13,
        17,
        127,
        128,
        1_999_999,
        2_000_000,
        2_000_001,
        2_000_002,
        (1 << 21) - 1,
        1 << 21,
        (1 << 28) - 1,
    ]);
    in_shortest_form(&numbers)
}

/// One number has a group of zero too many.
fn not_shortest(random: &mut Random, sheet: &Sheet) -> Vec<u8> {
    let groups = random.size(1, 3);
    with_one_number_as(random, sheet, |bytes| {
        for _ in 0..groups {
            if let Some(last) = bytes.last_mut() {
                *last |= 0x80;
            }
            bytes.push(0);
        }
    })
}

/// One number goes on past its fourth group, or would if the file did.
fn fourth_group_followed(random: &mut Random, sheet: &Sheet) -> Vec<u8> {
    let filler = 0x80 | any_byte(random);
    let after = random.pick(&[None, Some(0x00), Some(0x01)]);
    with_one_number_as(random, sheet, |bytes| {
        bytes.resize(4, filler);
        bytes.iter_mut().for_each(|byte| *byte |= 0x80);
        bytes.extend(after);
    })
}

/// Two records change places.
fn records_swapped(random: &mut Random, sheet: &Sheet) -> Vec<u8> {
    let mut numbers = file::numbers(sheet);
    let records = records(sheet);
    if !records.is_empty() {
        let (one, other) = (random.pick(&records), random.pick(&records));
        for part in 0..4 {
            numbers.swap(one + part, other + part);
        }
    }
    in_shortest_form(&numbers)
}

/// One record stands twice, in the place of the next or beside it.
fn record_doubled(random: &mut Random, sheet: &Sheet) -> Vec<u8> {
    let mut numbers = file::numbers(sheet);
    let records = records(sheet);
    if !records.is_empty() {
        let at = random.pick(&records);
        let mut record = numbers[at..at + 4].to_vec();
        record[3] = random.pick(&[record[3], 0, 2_000_001]);
        let replaced = random.pick(&[0, 4]);
        let end = numbers.len().min(at + 4 + replaced);
        numbers.splice(at + 4..end, record);
    }
    in_shortest_form(&numbers)
}

/// A count is one too great or too small.
fn other_count(random: &mut Random, sheet: &Sheet) -> Vec<u8> {
    let mut numbers = file::numbers(sheet);
    let at = random.pick(&counts(sheet));
    numbers[at] = if random.chance(50) {
        numbers[at] + 1
    } else {
        numbers[at].saturating_sub(1)
    };
    in_shortest_form(&numbers)
}

/// About as many bytes as are judged, or more.
fn over_long(random: &mut Random, sheet: &Sheet) -> Vec<u8> {
    let mut bytes = file::write(sheet);
    let length = MOST_JUDGED - 2 + random.index(40);
    let more = length.saturating_sub(bytes.len());
    append_any(random, &mut bytes, more);
    bytes
}

/// The longest sheet, with a last number of four groups and perhaps more bytes:
/// its number is judged just before the file is too long for a sheet.
fn longest_drawn_out(random: &mut Random, _: &Sheet) -> Vec<u8> {
    let mut bytes = file::write(&longest(random));
    let last_group = random.pick(&[0x00, 0x01, 0x7f, 0x80, 0xff]);
    if let Some(last) = bytes.last_mut() {
        *last |= 0x80;
    }
    bytes.push(last_group);
    let more = random.pick(&[0, 0, 1, 2, 50]);
    append_any(random, &mut bytes, more);
    bytes
}

/// The longest sheet and bytes after it, of which the first is the last that is judged:
/// no place is greater.
fn longest_followed(random: &mut Random, _: &Sheet) -> Vec<u8> {
    let mut bytes = file::write(&longest(random));
    let more = random.pick(&[1, 2, 3, 50, 5000]);
    append_any(random, &mut bytes, more);
    bytes
}

/// Any bytes, sometimes after the beginning of a sheet.
fn noise(random: &mut Random, sheet: &Sheet) -> Vec<u8> {
    let mut bytes = file::write(sheet);
    bytes.truncate(random.pick(&[0, 0, 1, 4, 6, 10]));
    let more = random.pick(&[0, 1, 3, 10, 100, 1000]);
    append_any(random, &mut bytes, more);
    bytes
}

/// Any byte, the small ones more often since they mean more.
fn any_byte(random: &mut Random) -> u8 {
    let bound = random.pick(&[4, 16, 256]);
    random.below(bound) as u8
}

fn append_any(random: &mut Random, bytes: &mut Vec<u8>, count: usize) {
    bytes.extend((0..count).map(|_| any_byte(random)));
}

/// Where a number stands, the first ones more often than their share.
fn any_number_place(random: &mut Random, numbers: &[u64]) -> usize {
    if random.chance(30) {
        random.index(numbers.len().min(12))
    } else {
        random.index(numbers.len())
    }
}

/// Where the counts stand among the numbers of the file.
fn counts(sheet: &Sheet) -> Vec<usize> {
    let mut at = 4 + sheet.v();
    let mut counts = Vec::new();
    for mode in 0..sheet.m() {
        counts.push(at);
        at += 1 + 4 * sheet.windows(mode).count();
    }
    counts
}

/// Where the records begin among the numbers of the file.
fn records(sheet: &Sheet) -> Vec<usize> {
    let numbers = file::numbers(sheet);
    let of_mode = |count: usize| (0..numbers[count] as usize).map(move |k| count + 1 + 4 * k);
    counts(sheet).into_iter().flat_map(of_mode).collect()
}

fn in_shortest_form(numbers: &[u64]) -> Vec<u8> {
    let mut bytes = Vec::new();
    for &number in numbers {
        number::append(&mut bytes, number);
    }
    bytes
}

/// The file with the bytes of one number changed.
fn with_one_number_as(
    random: &mut Random,
    sheet: &Sheet,
    change: impl Fn(&mut Vec<u8>),
) -> Vec<u8> {
    let numbers = file::numbers(sheet);
    let at = any_number_place(random, &numbers);
    let mut bytes = in_shortest_form(&numbers[..at]);
    let mut one = in_shortest_form(&numbers[at..=at]);
    change(&mut one);
    bytes.extend(one);
    bytes.extend(in_shortest_form(&numbers[at + 1..]));
    bytes
}
