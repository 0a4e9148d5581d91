//! A buffer as a caller lends it: part of a larger one, and not empty before.

/// How many bytes there are before and behind what is lent.
const MARGIN: usize = 64;

/// A buffer with a pattern in it, of which a part is lent to a call.
pub struct Lent {
    bytes: Vec<u8>,
    salt: u8,
}

impl Lent {
    /// A buffer of which `room` bytes are lent. The salt varies the pattern, so that no byte is always what a call would write.
    pub fn new(room: usize, salt: u8) -> Lent {
        let bytes = (0..MARGIN + room + MARGIN)
            .map(|place| pattern(place, salt))
            .collect();
        Lent { bytes, salt }
    }

    /// The part that is lent.
    pub fn out(&mut self) -> &mut [u8] {
        let end = self.bytes.len() - MARGIN;
        &mut self.bytes[MARGIN..end]
    }

    /// Whether the part begins with `written`, which fits into it, and everything else is as it came.
    pub fn check(&self, written: &[u8]) -> Result<(), String> {
        let mut expected = Lent::new(self.bytes.len() - 2 * MARGIN, self.salt);
        expected.out()[..written.len()].copy_from_slice(written);
        if self.bytes == expected.bytes {
            return Ok(());
        }
        let mut pairs = self.bytes.iter().zip(&expected.bytes);
        let place = pairs.position(|(is, should)| is != should).unwrap_or(0);
        let (is, should) = (self.bytes[place], expected.bytes[place]);
        let index = place as isize - MARGIN as isize;
        Err(format!(
            "byte {index} of the lent buffer is {is}, not {should}"
        ))
    }
}

fn pattern(place: usize, salt: u8) -> u8 {
    (place as u8).wrapping_mul(37) ^ (place >> 8) as u8 ^ salt
}

#[cfg(test)]
mod tests {
    use super::{Lent, MARGIN};

    #[test]
    fn every_changed_byte_is_noticed() {
        let written = [9, 8, 7];
        let mut lent = Lent::new(5, 3);
        assert!(lent.check(&[]).is_ok());
        lent.out()[..3].copy_from_slice(&written);
        assert!(lent.check(&written).is_ok());
        assert!(lent.check(&written[..2]).is_err());
        for place in 0..lent.bytes.len() {
            lent.bytes[place] ^= 1;
            assert!(lent.check(&written).is_err(), "place {place}");
            lent.bytes[place] ^= 1;
        }
        assert_eq!(lent.bytes.len(), MARGIN + 5 + MARGIN);
    }
}
