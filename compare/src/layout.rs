//! Where the receive table and the buffers are.

use crate::refusal::Refusal;

pub const PAGE: usize = 256;
pub const DESCRIPTOR: usize = 8;
const TABLE_PAGES: u8 = 2;

#[derive(Clone, Copy, Debug, PartialEq, Eq)]
pub struct Buffer {
    pub start: u16,
    pub length: u16,
}

#[derive(Clone, Debug, Default)]
pub struct Layout {
    pub(crate) size: usize,
    pub(crate) rbegin: u8,
    pub(crate) rend: u8,
    pub(crate) buffers: Vec<Buffer>,
}

/// Whether two ranges `(start, end)`, neither of them empty, share a number.
pub(crate) fn overlap(a: (usize, usize), b: (usize, usize)) -> bool {
    a.0 < b.1 && b.0 < a.1
}

impl Layout {
    pub fn blank() -> Layout {
        Layout::default()
    }

    pub fn table(&mut self, size: u32, rbegin: u8, rend: u8) -> Result<(), Refusal> {
        let size = size as usize;
        if !size.is_multiple_of(PAGE) || !(512..=65_536).contains(&size) {
            return Err(Refusal::BadSize);
        }
        if rbegin >= rend || rend - rbegin > TABLE_PAGES || usize::from(rend) * PAGE > size {
            return Err(Refusal::BadTable);
        }
        *self = Layout { size, rbegin, rend, buffers: Vec::new() };
        Ok(())
    }

    pub fn add(&mut self, start: u32, length: u16) -> Result<(), Refusal> {
        let room = usize::from(self.rend - self.rbegin) * PAGE / DESCRIPTOR;
        if self.buffers.len() >= room {
            return Err(Refusal::LayoutFull);
        }
        let from = start as usize;
        let range = (from, from + usize::from(length));
        if length == 0 || range.1 > self.size {
            return Err(Refusal::BadBuffer);
        }
        let shares = |other: &Buffer| {
            let start = usize::from(other.start);
            overlap(range, (start, start + usize::from(other.length)))
        };
        if overlap(range, self.table_range()) || self.buffers.iter().any(shares) {
            return Err(Refusal::Shared);
        }
        // A buffer of one byte or more ends at 65,536 at most, so its start has 16 bits.
        self.buffers.push(Buffer { start: start as u16, length });
        Ok(())
    }

    pub(crate) fn table_range(&self) -> (usize, usize) {
        (usize::from(self.rbegin) * PAGE, usize::from(self.rend) * PAGE)
    }
}
