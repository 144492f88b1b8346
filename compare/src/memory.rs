//! Board memory: over a caller's bytes, or over a caller's 16-bit words.

use crate::refusal::Refusal;

pub trait Memory {
    fn size(&self) -> usize;

    /// The byte at `address`, which is below the size.
    fn get(&self, address: usize) -> u8;

    /// Makes the byte at `address`, which is below the size, be `value`.
    fn set(&mut self, address: usize, value: u8);

    /// Copies the bytes from `start` on to `out`.
    fn copy_to(&self, start: usize, out: &mut [u8]);

    fn read(&self, address: u32) -> Result<u8, Refusal> {
        let at = address as usize;
        if at < self.size() { Ok(self.get(at)) } else { Err(Refusal::Outside(address)) }
    }

    fn write(&mut self, address: u32, value: u8) -> Result<(), Refusal> {
        let at = address as usize;
        if at >= self.size() {
            return Err(Refusal::Outside(address));
        }
        self.set(at, value);
        Ok(())
    }
}

pub struct Bytes<'a>(pub &'a mut [u8]);

impl Memory for Bytes<'_> {
    #[inline]
    fn size(&self) -> usize {
        self.0.len()
    }

    #[inline]
    fn get(&self, address: usize) -> u8 {
        self.0[address]
    }

    #[inline]
    fn set(&mut self, address: usize, value: u8) {
        self.0[address] = value;
    }

    #[inline]
    fn copy_to(&self, start: usize, out: &mut [u8]) {
        out.copy_from_slice(&self.0[start..start + out.len()]);
    }
}

/// The even address is the low half of a word.
pub struct Words<'a>(pub &'a mut [u16]);

impl Memory for Words<'_> {
    #[inline]
    fn size(&self) -> usize {
        2 * self.0.len()
    }

    #[inline]
    fn get(&self, address: usize) -> u8 {
        let word = self.0[address / 2];
        if address.is_multiple_of(2) { word as u8 } else { (word >> 8) as u8 }
    }

    #[inline]
    fn set(&mut self, address: usize, value: u8) {
        let word = &mut self.0[address / 2];
        *word = if address.is_multiple_of(2) {
            *word & 0xFF00 | u16::from(value)
        } else {
            *word & 0x00FF | u16::from(value) << 8
        };
    }

    #[inline]
    fn copy_to(&self, start: usize, out: &mut [u8]) {
        let end = start + out.len();
        let (head, rest) = out.split_at_mut((start % 2).min(out.len()));
        let (pairs, tail) = rest.as_chunks_mut::<2>();
        if let [byte] = head {
            *byte = self.get(start);
        }
        for (pair, word) in pairs.iter_mut().zip(&self.0[start.div_ceil(2)..]) {
            *pair = word.to_le_bytes();
        }
        if let [byte] = tail {
            *byte = self.get(end - 1);
        }
    }
}

#[cfg(test)]
mod tests {
    use super::*;

    #[test]
    fn words_copy_as_their_bytes_do() {
        let mut words: Vec<u16> = (0..16).map(|i| i * 0x0907 + 3).collect();
        let mut bytes: Vec<u8> = words.iter().flat_map(|word| word.to_le_bytes()).collect();
        let words = Words(&mut words);
        let bytes = Bytes(&mut bytes);
        for start in 0..=32 {
            for end in start..=32 {
                let mut by_words = vec![0; end - start];
                let mut by_bytes = vec![0; end - start];
                words.copy_to(start, &mut by_words);
                bytes.copy_to(start, &mut by_bytes);
                assert_eq!(by_words, by_bytes);
            }
        }
    }

    #[test]
    fn writing_a_word_half_leaves_the_other() {
        let mut words = [0x1122, 0x3344];
        let mut memory = Words(&mut words);
        assert_eq!(memory.write(1, 0xAA), Ok(()));
        assert_eq!(memory.write(2, 0xBB), Ok(()));
        assert_eq!(memory.read(2), Ok(0xBB));
        assert_eq!(memory.read(4), Err(Refusal::Outside(4)));
        assert_eq!(words, [0xAA22, 0x33BB]);
    }
}
