//! The CRC register of IEEE 802.3, by tables.
//!
//! The register is kept with its bits reversed, so that the low byte of it meets the data.

const POLYNOMIAL: u32 = 0x04C1_1DB7u32.reverse_bits();
const MATCH: u32 = 0xC704_DD7Bu32.reverse_bits();
const STRIDE: usize = 8;

/// Row r has the effect of each byte that has r bytes behind it.
static TABLES: [[u32; 256]; STRIDE] = tables();

const fn tables() -> [[u32; 256]; STRIDE] {
    let mut tables = [[0; 256]; STRIDE];
    let mut byte = 0;
    while byte < 256 {
        let mut register = byte as u32;
        let mut bit = 0;
        while bit < 8 {
            register = (register >> 1) ^ (POLYNOMIAL * (register & 1));
            bit += 1;
        }
        tables[0][byte] = register;
        byte += 1;
    }
    let mut row = 1;
    while row < STRIDE {
        let mut byte = 0;
        while byte < 256 {
            let before = tables[row - 1][byte];
            tables[row][byte] = (before >> 8) ^ tables[0][(before & 0xFF) as usize];
            byte += 1;
        }
        row += 1;
    }
    tables
}

#[derive(Clone, Copy, Debug, PartialEq, Eq)]
pub struct Crc(u32);

impl Crc {
    pub const START: Crc = Crc(!0);

    /// One byte, by one entry of the table; or by an entry for the data and one for the register, as
    /// on the proved board, so that the data's entry does not wait for the register.
    #[inline]
    pub fn byte(self, value: u8) -> Crc {
        let entry = |byte: u8| TABLES[0][usize::from(byte)];
        if cfg!(feature = "two-entries") {
            Crc(entry(value) ^ (self.0 >> 8) ^ entry(self.0 as u8))
        } else {
            Crc((self.0 >> 8) ^ entry(self.0 as u8 ^ value))
        }
    }

    /// The register after all of `bytes`, eight at a time.
    pub fn slice(self, bytes: &[u8]) -> Crc {
        let (chunks, rest) = bytes.as_chunks::<STRIDE>();
        let mut register = self.0;
        for &[a, b, c, d, e, f, g, h] in chunks {
            let [p, q, r, s] = (register ^ u32::from_le_bytes([a, b, c, d])).to_le_bytes();
            register = TABLES[0][usize::from(h)]
                ^ TABLES[1][usize::from(g)]
                ^ TABLES[2][usize::from(f)]
                ^ TABLES[3][usize::from(e)]
                ^ TABLES[4][usize::from(s)]
                ^ TABLES[5][usize::from(r)]
                ^ TABLES[6][usize::from(q)]
                ^ TABLES[7][usize::from(p)];
        }
        rest.iter().fold(Crc(register), |crc, &byte| crc.byte(byte))
    }

    #[inline]
    pub fn matches(self) -> bool {
        self.0 == MATCH
    }

    /// The register as the rules have it: bit 31 is the one that meets the data.
    #[inline]
    pub fn register(self) -> u32 {
        self.0.reverse_bits()
    }
}

#[cfg(test)]
mod tests {
    use super::Crc;

    /// One data bit after the other, as the rules say.
    fn by_bits(bytes: &[u8]) -> u32 {
        let mut register = !0u32;
        for byte in bytes {
            for bit in 0..8 {
                let differs = u32::from(byte >> bit & 1) != register >> 31;
                register = register << 1 ^ if differs { 0x04C1_1DB7 } else { 0 };
            }
        }
        register
    }

    #[test]
    fn bytes_and_slices_run_the_register_of_the_rules() {
        let bytes: Vec<u8> = (0..200u32).map(|i| (i * i * 7 + i) as u8).collect();
        for length in 0..bytes.len() {
            let bytes = &bytes[..length];
            assert_eq!(Crc::START.slice(bytes).register(), by_bits(bytes));
            let one_by_one = bytes.iter().fold(Crc::START, |crc, &byte| crc.byte(byte));
            assert_eq!(one_by_one, Crc::START.slice(bytes));
        }
    }

    #[test]
    fn published_check_value() {
        let crc = Crc::START.slice(b"123456789").register();
        assert_eq!(!crc.reverse_bits(), 0xCBF4_3926);
        assert!(Crc::START.slice(b"123456789\x26\x39\xF4\xCB").matches());
    }
}
