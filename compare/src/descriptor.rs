//! The descriptors of the receive table.

use crate::layout::{DESCRIPTOR, Layout, overlap};
use crate::memory::Memory;
use crate::refusal::Refusal;

pub const HELD: u8 = 1 << 0;
pub const FIRST: u8 = 1 << 1;
pub const LAST: u8 = 1 << 2;
pub const TAKEN: u8 = 1 << 3;

#[derive(Clone, Copy, Debug)]
pub struct Descriptor {
    pub flags: u8,
    pub status: u8,
    pub start: u16,
    pub length: u16,
    pub fill: u16,
}

impl Descriptor {
    pub fn has(&self, flag: u8) -> bool {
        self.flags & flag != 0
    }

    fn range(&self) -> (usize, usize) {
        let start = usize::from(self.start);
        (start, start + usize::from(self.length))
    }

    pub fn buffer_start(&self) -> usize {
        self.range().0
    }

    pub fn buffer_end(&self) -> usize {
        self.range().1
    }
}

/// The receive table of an open board.
#[derive(Clone, Copy, Debug)]
pub struct Table {
    pub rbegin: u8,
    pub rend: u8,
    range: (usize, usize),
    count: u8,
}

impl Table {
    pub fn of(layout: &Layout) -> Table {
        Table {
            rbegin: layout.rbegin,
            rend: layout.rend,
            range: layout.table_range(),
            count: layout.buffers.len() as u8,
        }
    }

    pub fn count(&self) -> u8 {
        self.count
    }

    /// The descriptor `steps` after `d`, with 0 after the last; `steps` is the count at most.
    pub fn after(&self, d: u8, steps: u8) -> u8 {
        let next = d + steps;
        if next < self.count { next } else { next - self.count }
    }

    fn place(&self, d: u8) -> usize {
        self.range.0 + DESCRIPTOR * usize::from(d)
    }

    pub fn get(&self, memory: &impl Memory, d: u8) -> Descriptor {
        let mut bytes = [0; DESCRIPTOR];
        memory.copy_to(self.place(d), &mut bytes);
        let [flags, status, s0, s1, l0, l1, f0, f1] = bytes;
        Descriptor {
            flags,
            status,
            start: u16::from_le_bytes([s0, s1]),
            length: u16::from_le_bytes([l0, l1]),
            fill: u16::from_le_bytes([f0, f1]),
        }
    }

    pub fn set_flags(&self, memory: &mut impl Memory, d: u8, flags: u8) {
        memory.set(self.place(d), flags);
    }

    /// Writes all of descriptor `d` but its start and length.
    pub fn mark(&self, memory: &mut impl Memory, d: u8, flags: u8, status: u8, fill: u16) {
        let place = self.place(d);
        let [low, high] = fill.to_le_bytes();
        memory.set(place, flags);
        memory.set(place + 1, status);
        memory.set(place + 6, low);
        memory.set(place + 7, high);
    }

    pub fn set_buffer(&self, memory: &mut impl Memory, d: u8, start: u16, length: u16) {
        let place = self.place(d);
        for (address, byte) in (place + 2..).zip(start.to_le_bytes()) {
            memory.set(address, byte);
        }
        for (address, byte) in (place + 4..).zip(length.to_le_bytes()) {
            memory.set(address, byte);
        }
    }

    pub fn lawful(&self, memory: &impl Memory, descriptor: &Descriptor) -> bool {
        let flags_lawful =
            descriptor.flags >> 4 == 0 && (descriptor.has(HELD) || descriptor.flags == 0);
        flags_lawful
            && descriptor.length > 0
            && descriptor.buffer_end() <= memory.size()
            && !overlap(descriptor.range(), self.range)
            && descriptor.fill <= descriptor.length
    }

    /// The run that begins at `first`: how many descriptors it has and its bytes.
    pub fn run(&self, memory: &impl Memory, first: u8) -> Result<Run, Refusal> {
        let mut run = Run { first, descriptors: 0, length: 0, status: 0 };
        let mut taken = 0;
        loop {
            let d = self.after(first, run.descriptors);
            let descriptor = self.get(memory, d);
            let at_start = run.descriptors == 0;
            if at_start {
                taken = descriptor.flags & TAKEN;
            }
            run.descriptors += 1;
            let in_place = descriptor.has(HELD)
                && descriptor.flags & TAKEN == taken
                && descriptor.has(FIRST) == at_start
                && (descriptor.has(LAST) || run.descriptors < self.count);
            if !self.lawful(memory, &descriptor) || !in_place {
                return Err(Refusal::Broken(d));
            }
            run.length += usize::from(descriptor.fill);
            if descriptor.has(LAST) {
                run.status = descriptor.status;
                return Ok(run);
            }
        }
    }
}

/// A frame in the table.
#[derive(Clone, Copy, Debug)]
pub struct Run {
    pub first: u8,
    pub descriptors: u8,
    pub length: usize,
    pub status: u8,
}
