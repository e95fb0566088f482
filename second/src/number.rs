//! Numbers in the sheet file: groups of seven bits, and signed values in them.

use crate::refusal::{PlacedRefusal, Refusal};

/// "At most four groups."
const MOST_GROUPS: u32 = 4;
const GROUP_BITS: u32 = 7;
/// "Top bit of a byte set when another follows."
const FOLLOWED: u8 = 0x80;

/// Takes numbers off the front of a file.
#[derive(Clone, Debug)]
pub struct Numbers<'a> {
    bytes: &'a [u8],
    /// The place of the byte to be taken next.
    place: usize,
}

/// What taking a number comes to: "beside its value or refusal, the byte place, from 0,
/// at which that number began or is missing" (02, E1).
#[derive(Clone, Copy, Debug, PartialEq, Eq)]
pub struct Taken {
    /// The number, or refusal 1 or 2.
    pub value: Result<u64, Refusal>,
    /// The place of its first group, which is that of the file's end where none is left.
    pub place: usize,
}

impl Taken {
    /// What a limit makes of the number. Whatever is wrong with it is wrong at its place.
    pub fn within<T>(
        self,
        limit: impl FnOnce(u64) -> Result<T, Refusal>,
    ) -> Result<T, PlacedRefusal> {
        let limited = self.value.and_then(limit);
        limited.map_err(|refusal| refusal.at(self.place))
    }
}

impl<'a> Numbers<'a> {
    /// The numbers of these bytes.
    pub fn new(bytes: &'a [u8]) -> Self {
        Numbers { bytes, place: 0 }
    }

    /// The next number, or refusal 1 or 2, and its place.
    pub fn take(&mut self) -> Taken {
        let place = self.place;
        let value = self.take_groups();
        Taken { value, place }
    }

    /// The place of the first byte that is left, if one is.
    pub fn surplus(&self) -> Option<usize> {
        (self.place < self.bytes.len()).then_some(self.place)
    }

    /// A number is judged byte by byte: a fourth group marked as followed is
    /// refused without looking for a fifth.
    fn take_groups(&mut self) -> Result<u64, Refusal> {
        let mut number = 0;
        for group in 0..MOST_GROUPS {
            let byte = self.take_byte()?;
            number |= u64::from(byte & !FOLLOWED) << (GROUP_BITS * group);
            if byte & FOLLOWED == 0 {
                let shortest = byte != 0 || group == 0;
                return if shortest {
                    Ok(number)
                } else {
                    Err(Refusal::NumberForm)
                };
            }
        }
        Err(Refusal::NumberForm)
    }

    fn take_byte(&mut self) -> Result<u8, Refusal> {
        let byte = *self.bytes.get(self.place).ok_or(Refusal::FileStops)?;
        self.place += 1;
        Ok(byte)
    }
}

/// Appends a number in its shortest form.
///
/// Every number of an admissible sheet has at most three groups.
pub fn append(bytes: &mut Vec<u8>, mut number: u64) {
    while number >= u64::from(FOLLOWED) {
        bytes.push((number & 0x7f) as u8 | FOLLOWED);
        number >>= GROUP_BITS;
    }
    bytes.push(number as u8);
}

/// "Value v is written as 2v when v is not negative, else as -2v - 1."
pub fn from_value(v: i32) -> u64 {
    let magnitude = u64::from(v.unsigned_abs());
    if v >= 0 {
        2 * magnitude
    } else {
        2 * magnitude - 1
    }
}

/// The value that is written as this number, whether within its limit or not.
pub fn to_value(number: u64) -> i64 {
    let half = (number / 2) as i64;
    if number % 2 == 0 {
        half
    } else {
        -half - 1
    }
}

#[cfg(test)]
mod tests {
    use super::*;

    fn only(bytes: &[u8]) -> Result<u64, Refusal> {
        Numbers::new(bytes).take().value
    }

    #[test]
    fn groups_come_lowest_first() {
        assert_eq!(only(&[0x00]), Ok(0));
        assert_eq!(only(&[0x7f]), Ok(127));
        assert_eq!(only(&[0x80, 0x01]), Ok(128));
        assert_eq!(only(&[0xff, 0xff, 0xff, 0x7f]), Ok((1 << 28) - 1));
    }

    #[test]
    fn a_number_that_stops_is_1() {
        assert_eq!(only(&[]), Err(Refusal::FileStops));
        assert_eq!(only(&[0x80]), Err(Refusal::FileStops));
        assert_eq!(only(&[0xff, 0xff, 0xff]), Err(Refusal::FileStops));
    }

    #[test]
    fn a_number_not_shortest_is_2() {
        assert_eq!(only(&[0x80, 0x00]), Err(Refusal::NumberForm));
        assert_eq!(only(&[0x81, 0x80, 0x00]), Err(Refusal::NumberForm));
        assert_eq!(only(&[0xff, 0xff, 0xff, 0x00]), Err(Refusal::NumberForm));
    }

    #[test]
    fn a_fourth_group_marked_as_followed_is_2_without_a_fifth() {
        assert_eq!(only(&[0x80, 0x80, 0x80, 0x80]), Err(Refusal::NumberForm));
        assert_eq!(only(&[0xff, 0xff, 0xff, 0xff]), Err(Refusal::NumberForm));
    }

    #[test]
    fn a_number_is_at_its_first_group_or_where_that_is_missing() {
        let bytes = [0x05, 0x80, 0x89, 0x7a, 0x81, 0x00, 0x7f, 0xff];
        let mut numbers = Numbers::new(&bytes);
        for (value, place) in [
            (Ok(5), 0),
            (Ok(2_000_000), 1),
            (Err(Refusal::NumberForm), 4),
            (Ok(127), 6),
            (Err(Refusal::FileStops), 7),
            (Err(Refusal::FileStops), 8),
        ] {
            assert_eq!(numbers.take(), Taken { value, place });
        }
    }

    #[test]
    fn a_number_past_its_limit_is_refused_at_its_place() {
        let at_most_9 = |number| {
            if number < 10 {
                Ok(number)
            } else {
                Err(Refusal::Size)
            }
        };
        let taken = |value| Taken { value, place: 3 };
        assert_eq!(taken(Ok(9)).within(at_most_9), Ok(9));
        assert_eq!(taken(Ok(10)).within(at_most_9), Err(Refusal::Size.at(3)));
        // what stands there is no number, and its limit is not asked
        let no_number = taken(Err(Refusal::NumberForm));
        let refused = Err(Refusal::NumberForm.at(3));
        assert_eq!(no_number.within(at_most_9), refused);
    }

    #[test]
    fn bytes_that_are_left_begin_behind_the_numbers_taken() {
        let bytes = [0x80, 0x01, 0x00];
        let mut numbers = Numbers::new(&bytes);
        let mut surplus = vec![numbers.surplus()];
        for _ in 0..2 {
            numbers.take();
            surplus.push(numbers.surplus());
        }
        assert_eq!(surplus, [Some(0), Some(2), None]);
    }

    #[test]
    fn numbers_survive_writing_and_reading() {
        let edges = [0, 1, 127, 128, 16_383, 16_384, 2_000_000, 2_097_151];
        for number in edges.into_iter().chain([2_097_152, (1 << 28) - 1]) {
            let mut bytes = Vec::new();
            append(&mut bytes, number);
            assert_eq!(only(&bytes), Ok(number));
        }
    }

    #[test]
    fn values_map_to_numbers_and_back() {
        let pairs = [(0, 0), (-1, 1), (1, 2), (-2, 3)];
        let ends = [(1_000_000, 2_000_000), (-1_000_000, 1_999_999)];
        for (v, number) in pairs.into_iter().chain(ends) {
            assert_eq!(from_value(v), number);
            assert_eq!(to_value(number), i64::from(v));
        }
        assert_eq!(to_value(2_000_001), -1_000_001);
        assert_eq!(to_value(2_000_002), 1_000_001);
        assert_eq!(to_value((1 << 28) - 1), -(1 << 27));
    }
}
