//! Circuits in buffers: "an arc is four numbers: kind, position, to, from".

use second::arc::ArcName;

use crate::buffer::Buffer;

/// The arcs at the front of a buffer, so many of them, if nothing else was written.
///
/// Which circuit it is, is the call's choice; so what it wrote is taken as it stands
/// and only the places behind are compared here.
pub fn taken(buffer: &Buffer<u8>, count: u64) -> Result<Vec<ArcName>, String> {
    let bytes = usize::try_from(count)
        .ok()
        .and_then(|count| count.checked_mul(4))
        .and_then(|end| buffer.contents().get(..end))
        .ok_or_else(|| format!("{count} arcs in {} places", buffer.places()))?;
    buffer.holds(bytes)?;
    Ok(ArcName::list(bytes))
}

#[cfg(test)]
mod tests {
    use super::*;
    use second::random::Random;

    #[test]
    fn arcs_are_taken_from_the_front() {
        let names = [ArcName::from([0, 1, 2, 1]), ArcName::from([2, 16, 12, 11])];
        let mut buffer = Buffer::new(&mut Random::new(1, 1), 11);
        buffer.lend()[..8].copy_from_slice(&ArcName::bytes(&names));
        assert_eq!(taken(&buffer, 2), Ok(names.to_vec()));
    }

    #[test]
    fn arcs_beyond_the_buffer_and_bytes_behind_the_arcs_are_faults() {
        let mut buffer = Buffer::new(&mut Random::new(1, 1), 11);
        for count in [3, u64::MAX / 4 + 1, u64::MAX] {
            assert!(taken(&buffer, count).is_err());
        }
        buffer.lend()[10] ^= 1;
        assert!(taken(&buffer, 2).is_err());
    }
}
