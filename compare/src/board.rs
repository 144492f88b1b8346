//! The receive board.

use crate::crc::Crc;
use crate::descriptor::{FIRST, HELD, LAST, TAKEN, Table};
use crate::layout::Layout;
use crate::memory::Memory;
use crate::recogniser::Recogniser;
use crate::refusal::Refusal;

pub mod rcon {
    pub const SEP: u8 = 1 << 0;
    pub const RUNTS: u8 = 1 << 1;
}

mod rstat {
    pub const PRX: u8 = 1 << 0;
    pub const CRC: u8 = 1 << 1;
    pub const FAE: u8 = 1 << 2;
    pub const OVER: u8 = 1 << 3;
    pub const MPA: u8 = 1 << 4;
    pub const GROUP: u8 = 1 << 5;
}

mod intstat {
    pub const PRX: u8 = 1 << 0;
    pub const RXE: u8 = 1 << 2;
    pub const OVW: u8 = 1 << 4;
    pub const CNT: u8 = 1 << 5;
}

const HIGH_COUNT: u8 = 128;
const SHORTEST: usize = 64;
const INTMASK_BITS: u8 = 0x7F;

#[derive(Clone, Copy, Debug, PartialEq, Eq)]
pub enum LastByte {
    Whole,
    Ragged,
}

#[derive(Clone, Copy, Debug, PartialEq, Eq)]
pub enum Reason {
    Collision,
    Overrun,
}

/// What a take answers.
#[derive(Clone, Copy, Debug, PartialEq, Eq)]
pub struct Receipt {
    pub first: u8,
    pub descriptors: u8,
    pub length: u32,
    pub status: u8,
}

#[derive(Clone, Copy, Debug, Default)]
struct Registers {
    rstat: u8,
    intstat: u8,
    intmask: u8,
    alicnt: u8,
    crccnt: u8,
    mpcnt: u8,
}

/// One more on `counter`.
fn count(counter: &mut u8, intstat: &mut u8) {
    *counter = counter.saturating_add(1);
    if *counter >= HIGH_COUNT {
        *intstat |= intstat::CNT;
    }
}

#[derive(Clone, Copy, Debug)]
struct Storing {
    /// How many descriptors the arrival has, from CURR on.
    descriptors: u8,
    /// The next place in the latest buffer, and the end of that buffer.
    next: usize,
    end: usize,
    /// How many bytes are stored.
    bytes: usize,
}

#[derive(Clone, Copy, Debug)]
enum Arrival {
    None,
    Address { bytes: [u8; 6], count: usize },
    Storing(Storing),
    Ignored,
    Missed,
}

struct Open {
    rcon: u8,
    table: Table,
    curr: u8,
    host: u8,
    registers: Registers,
    crc: Crc,
    arrival: Arrival,
}

impl Open {
    fn under_way(&self) -> bool {
        !matches!(self.arrival, Arrival::None)
    }

    fn miss(&mut self) {
        self.registers.rstat |= rstat::MPA;
        self.registers.intstat |= intstat::OVW;
        count(&mut self.registers.mpcnt, &mut self.registers.intstat);
        self.arrival = Arrival::Missed;
    }

    /// Gives the arrival the next descriptor's buffer, if that is free.
    fn next_buffer(&self, memory: &impl Memory, storing: &mut Storing) -> bool {
        if storing.descriptors == self.table.count() {
            return false;
        }
        let d = self.table.after(self.curr, storing.descriptors);
        let descriptor = self.table.get(memory, d);
        if descriptor.has(HELD) || !self.table.lawful(memory, &descriptor) {
            return false;
        }
        storing.descriptors += 1;
        storing.next = descriptor.buffer_start();
        storing.end = descriptor.buffer_end();
        true
    }

    /// Stores `bytes`, or as many as there is room for.
    fn store(&mut self, memory: &mut impl Memory, mut storing: Storing, bytes: &[u8]) {
        for &byte in bytes {
            if storing.next == storing.end && !self.next_buffer(memory, &mut storing) {
                return self.miss();
            }
            memory.set(storing.next, byte);
            storing.next += 1;
            storing.bytes += 1;
        }
        self.arrival = Arrival::Storing(storing);
    }

    /// A byte of the address, or one for which the latest buffer has no place.
    #[cold]
    #[inline(never)]
    fn unplaced_byte(&mut self, memory: &mut impl Memory, recogniser: &impl Recogniser, value: u8) {
        match &mut self.arrival {
            Arrival::Address { bytes, count } => {
                bytes[*count] = value;
                *count += 1;
                if *count == bytes.len() {
                    let address = *bytes;
                    self.recognise(memory, recogniser, address);
                }
            }
            Arrival::Storing(storing) => {
                let storing = *storing;
                self.store(memory, storing, &[value]);
            }
            Arrival::None | Arrival::Ignored | Arrival::Missed => {}
        }
    }

    fn recognise(
        &mut self,
        memory: &mut impl Memory,
        recogniser: &impl Recogniser,
        address: [u8; 6],
    ) {
        if !recogniser.accepts(&address) {
            self.arrival = Arrival::Ignored;
            return;
        }
        if address[0] % 2 == 1 {
            self.registers.rstat |= rstat::GROUP;
        }
        let storing = Storing { descriptors: 0, next: 0, end: 0, bytes: 0 };
        self.store(memory, storing, &address);
    }

    /// Judges a storing arrival at its end.
    fn judge(&mut self, memory: &mut impl Memory, storing: Storing, last: LastByte) {
        if storing.bytes < SHORTEST && self.rcon & rcon::RUNTS == 0 {
            return;
        }
        let registers = &mut self.registers;
        if self.crc.matches() {
            registers.rstat |= rstat::PRX;
            registers.intstat |= intstat::PRX;
            return self.keep(memory, storing);
        }
        match last {
            LastByte::Ragged => {
                registers.rstat |= rstat::FAE;
                count(&mut registers.alicnt, &mut registers.intstat);
            }
            LastByte::Whole => {
                registers.rstat |= rstat::CRC;
                count(&mut registers.crccnt, &mut registers.intstat);
            }
        }
        if self.rcon & rcon::SEP != 0 {
            registers.intstat |= intstat::RXE;
            self.keep(memory, storing);
        }
    }

    fn keep(&mut self, memory: &mut impl Memory, storing: Storing) {
        let last = storing.descriptors - 1;
        for step in 0..=last {
            let d = self.table.after(self.curr, step);
            let length = self.table.get(memory, d).length;
            let first = if step == 0 { HELD | FIRST } else { HELD };
            if step < last {
                self.table.mark(memory, d, first, 0, length);
            } else {
                let fill = length - (storing.end - storing.next) as u16;
                self.table.mark(memory, d, first | LAST, self.registers.rstat, fill);
            }
        }
        self.curr = self.table.after(self.curr, storing.descriptors);
    }

    fn overrun(&mut self) {
        self.registers.rstat |= rstat::OVER;
        self.registers.intstat |= intstat::RXE;
        count(&mut self.registers.mpcnt, &mut self.registers.intstat);
    }
}

pub struct Board<M, R> {
    memory: M,
    recogniser: R,
    open: Option<Open>,
}

impl<M: Memory, R: Recogniser> Board<M, R> {
    pub fn new(memory: M, recogniser: R) -> Self {
        Board { memory, recogniser, open: None }
    }

    pub fn open(&mut self, layout: &Layout, rcon: u8) -> Result<(), Refusal> {
        if layout.buffers.is_empty() {
            return Err(Refusal::NoBuffer);
        }
        if layout.size != self.memory.size() {
            return Err(Refusal::OtherSize);
        }
        if rcon & !(rcon::SEP | rcon::RUNTS) != 0 {
            return Err(Refusal::BadRcon);
        }
        let table = Table::of(layout);
        for (d, buffer) in (0..).zip(&layout.buffers) {
            table.mark(&mut self.memory, d, 0, 0, 0);
            table.set_buffer(&mut self.memory, d, buffer.start, buffer.length);
        }
        self.open = Some(Open {
            rcon,
            table,
            curr: 0,
            host: 0,
            registers: Registers::default(),
            crc: Crc::START,
            arrival: Arrival::None,
        });
        Ok(())
    }

    fn opened(&mut self) -> Result<(&mut Open, &mut M), Refusal> {
        match &mut self.open {
            Some(open) => Ok((open, &mut self.memory)),
            None => Err(Refusal::Shut),
        }
    }

    fn arriving(&mut self) -> Result<(&mut Open, &mut M), Refusal> {
        let (open, memory) = self.opened()?;
        if open.under_way() { Ok((open, memory)) } else { Err(Refusal::NoArrival) }
    }

    pub fn begin(&mut self) -> Result<(), Refusal> {
        let (open, _) = self.opened()?;
        if open.under_way() {
            return Err(Refusal::UnderWay);
        }
        open.registers.rstat = 0;
        open.crc = Crc::START;
        open.arrival = Arrival::Address { bytes: [0; 6], count: 0 };
        Ok(())
    }

    #[inline]
    pub fn byte(&mut self, value: u8) -> Result<(), Refusal> {
        let Some(open) = &mut self.open else { return Err(Refusal::Shut) };
        match &mut open.arrival {
            Arrival::None => return Err(Refusal::NoArrival),
            Arrival::Storing(storing) if storing.next < storing.end => {
                self.memory.set(storing.next, value);
                storing.next += 1;
                storing.bytes += 1;
            }
            Arrival::Address { .. } | Arrival::Storing(_) => {
                open.unplaced_byte(&mut self.memory, &self.recogniser, value);
            }
            Arrival::Ignored | Arrival::Missed => {}
        }
        open.crc = open.crc.byte(value);
        Ok(())
    }

    pub fn end(&mut self, last: LastByte) -> Result<(), Refusal> {
        let (open, memory) = self.arriving()?;
        if let Arrival::Storing(storing) = open.arrival {
            open.judge(memory, storing, last);
        }
        open.arrival = Arrival::None;
        Ok(())
    }

    pub fn abort(&mut self, reason: Reason) -> Result<(), Refusal> {
        let (open, _) = self.arriving()?;
        if let (Arrival::Storing(_), Reason::Overrun) = (open.arrival, reason) {
            open.overrun();
        }
        open.arrival = Arrival::None;
        Ok(())
    }

    pub fn take(&mut self, out: &mut [u8]) -> Result<Receipt, Refusal> {
        let (open, memory) = self.opened()?;
        let table = open.table;
        let host = table.get(memory, open.host);
        if !table.lawful(memory, &host) {
            return Err(Refusal::Broken(open.host));
        }
        if !host.has(HELD) || host.has(TAKEN) {
            return Err(Refusal::NoFrame);
        }
        let run = table.run(memory, open.host)?;
        if out.len() < run.length {
            return Err(Refusal::ShortBuffer);
        }
        let mut filled = 0;
        for step in 0..run.descriptors {
            let d = table.after(run.first, step);
            let descriptor = table.get(memory, d);
            let part = &mut out[filled..filled + usize::from(descriptor.fill)];
            memory.copy_to(descriptor.buffer_start(), part);
            filled += part.len();
            table.set_flags(memory, d, descriptor.flags | TAKEN);
        }
        open.host = table.after(run.first, run.descriptors);
        Ok(Receipt {
            first: run.first,
            descriptors: run.descriptors,
            length: run.length as u32,
            status: run.status,
        })
    }

    pub fn release(&mut self, d: u8) -> Result<(), Refusal> {
        let (open, memory) = self.opened()?;
        let table = open.table;
        if d >= table.count() {
            return Err(Refusal::NotTaken);
        }
        let first = table.get(memory, d);
        if !table.lawful(memory, &first) {
            return Err(Refusal::Broken(d));
        }
        if !(first.has(HELD) && first.has(FIRST) && first.has(TAKEN)) {
            return Err(Refusal::NotTaken);
        }
        let run = table.run(memory, d)?;
        for step in 0..run.descriptors {
            table.mark(memory, table.after(d, step), 0, 0, 0);
        }
        Ok(())
    }

    pub fn peek(&self, address: u32) -> Result<u8, Refusal> {
        self.memory.read(address)
    }

    pub fn poke(&mut self, address: u32, value: u8) -> Result<(), Refusal> {
        if self.open.as_ref().is_some_and(Open::under_way) {
            return Err(Refusal::UnderWay);
        }
        self.memory.write(address, value)
    }

    pub fn read_register(&mut self, page: u8, address: u8) -> Result<u8, Refusal> {
        let (open, _) = self.opened()?;
        let registers = &mut open.registers;
        match (page % 4, address) {
            (0, 0x17) => Ok(registers.intstat),
            (0, 0x1C) => Ok(registers.rstat),
            (0, 0x1D) => Ok(std::mem::take(&mut registers.alicnt)),
            (0, 0x1E) => Ok(std::mem::take(&mut registers.crccnt)),
            (0, 0x1F) => Ok(std::mem::take(&mut registers.mpcnt)),
            (2, 0x11) => Ok(open.table.rbegin),
            (2, 0x12) => Ok(open.table.rend),
            (2, 0x1C) => Ok(open.rcon),
            (2, 0x1F) => Ok(registers.intmask),
            _ => Err(Refusal::NoRegister),
        }
    }

    pub fn write_register(&mut self, page: u8, address: u8, value: u8) -> Result<(), Refusal> {
        let (open, _) = self.opened()?;
        match (page % 4, address) {
            (0, 0x17) => open.registers.intstat &= !value,
            (0, 0x1F) => open.registers.intmask = value & INTMASK_BITS,
            _ => return Err(Refusal::NoRegister),
        }
        Ok(())
    }

    pub fn cause(&mut self) -> Result<Option<u8>, Refusal> {
        let (open, _) = self.opened()?;
        let pending = open.registers.intstat & open.registers.intmask;
        Ok((pending != 0).then(|| pending.trailing_zeros() as u8))
    }
}
