//! Buffers lent to be written, or to be read and left alone.

use std::fmt::Debug;

use second::random::Random;

/// What a buffer holds in one place.
pub trait Cell: Copy + PartialEq + Debug {
    /// A cell of these bits, as many of them as it has.
    fn of_bits(bits: u64) -> Self;
}

impl Cell for u8 {
    fn of_bits(bits: u64) -> u8 {
        bits as u8
    }
}

impl Cell for i32 {
    fn of_bits(bits: u64) -> i32 {
        bits as i32
    }
}

impl Cell for i64 {
    fn of_bits(bits: u64) -> i64 {
        bits as i64
    }
}

impl Cell for u64 {
    fn of_bits(bits: u64) -> u64 {
        bits
    }
}

/// A buffer to be lent, filled with numbers that look random.
///
/// On both sides of what is lent stand a few places that are not, to show a call that
/// writes outside its buffer.
#[derive(Clone, Debug)]
pub struct Buffer<T> {
    places: usize,
    before: Vec<T>,
    cells: Vec<T>,
}

/// The places that are not lent, on either side.
const MARGIN: usize = 4;

impl<T: Cell> Buffer<T> {
    /// A buffer of so many places.
    pub fn new(random: &mut Random, places: usize) -> Buffer<T> {
        let cells: Vec<T> = (0..places + 2 * MARGIN)
            .map(|_| T::of_bits(random.bits()))
            .collect();
        Buffer {
            places,
            before: cells.clone(),
            cells,
        }
    }

    /// A buffer that holds this.
    pub fn holding(random: &mut Random, contents: &[T]) -> Buffer<T> {
        let mut buffer = Buffer::new(random, contents.len());
        buffer.lend().copy_from_slice(contents);
        buffer.before.clone_from(&buffer.cells);
        buffer
    }

    /// The places lent.
    pub fn places(&self) -> usize {
        self.places
    }

    /// The buffer as a call gets it.
    pub fn lend(&mut self) -> &mut [T] {
        &mut self.cells[MARGIN..MARGIN + self.places]
    }

    /// The buffer as a call left it.
    pub fn contents(&self) -> &[T] {
        &self.cells[MARGIN..MARGIN + self.places]
    }

    /// Checks that the buffer holds this at its front, and the old contents in every
    /// other place; or says which place holds what.
    pub fn holds(&self, written: &[T]) -> Result<(), String> {
        if written.len() > self.places {
            let (needed, places) = (written.len(), self.places);
            return Err(format!("{needed} places to be written, of {places} lent"));
        }
        let end = MARGIN + written.len();
        let margin = self.before[..MARGIN].iter();
        let expected = margin.chain(written).chain(&self.before[end..]);
        match self.cells.iter().zip(expected).position(|(a, b)| a != b) {
            None => Ok(()),
            Some(at) => {
                let held = self.cells[at];
                let place = at as i64 - MARGIN as i64;
                Err(match written.get(at.wrapping_sub(MARGIN)) {
                    Some(right) => format!("place {place} holds {held:?}, not {right:?}"),
                    None => format!("place {place} holds {held:?}, and was to be left alone"),
                })
            }
        }
    }
}

#[cfg(test)]
mod tests {
    use super::*;

    fn buffer(places: usize) -> Buffer<u8> {
        Buffer::new(&mut Random::new(1, 2), places)
    }

    #[test]
    fn what_is_written_is_compared_and_what_is_behind_it() {
        let mut buffer = buffer(3);
        assert_eq!(buffer.holds(&[]), Ok(()));
        let old = buffer.contents().to_vec();
        buffer.lend()[0] = !old[0];
        assert_eq!(buffer.holds(&[!old[0]]), Ok(()));
        assert_eq!(buffer.holds(&[!old[0], old[1], old[2]]), Ok(()));
        assert!(buffer.holds(&[]).unwrap_err().starts_with("place 0"));
        assert!(buffer.holds(&[old[0]]).unwrap_err().starts_with("place 0"));
        buffer.lend()[2] ^= 1;
        let fault = buffer.holds(&[!old[0]]).unwrap_err();
        assert!(fault.starts_with("place 2") && fault.ends_with("left alone"));
    }

    #[test]
    fn what_is_lent_to_be_read_is_to_stay() {
        let mut buffer = Buffer::holding(&mut Random::new(1, 2), &[5, -6]);
        assert_eq!(buffer.contents(), [5, -6]);
        assert_eq!(buffer.holds(&[]), Ok(()));
        buffer.lend()[1] = 6;
        let fault = buffer.holds(&[]).unwrap_err();
        assert_eq!(fault, "place 1 holds 6, and was to be left alone");
    }

    #[test]
    fn places_outside_the_buffer_are_compared() {
        for (at, place) in [(0, "place -4"), (MARGIN + 2, "place 2")] {
            let mut buffer = buffer(2);
            buffer.cells[at] ^= 1;
            assert!(buffer.holds(&[]).unwrap_err().starts_with(place));
        }
    }

    #[test]
    fn no_more_is_written_than_was_lent() {
        assert!(buffer(2).holds(&[0; 3]).is_err());
        assert_eq!(buffer(0).holds(&[]), Ok(()));
    }
}
