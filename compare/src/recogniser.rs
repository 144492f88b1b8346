//! The station: which addresses of six bytes are recognised.

use crate::crc::Crc;

pub trait Recogniser {
    fn accepts(&self, address: &[u8; 6]) -> bool;
}

#[derive(Clone, Copy, Debug)]
pub struct Station {
    pub address: [u8; 6],
    pub switches: u8,
    pub groups: [u8; 8],
}

impl Station {
    pub const PROM: u8 = 1 << 4;
    pub const GROUP: u8 = 1 << 3;
    pub const BROAD: u8 = 1 << 2;

    fn has(&self, switch: u8) -> bool {
        self.switches & switch != 0
    }

    fn in_group_table(&self, address: &[u8; 6]) -> bool {
        let index = Crc::START.slice(address).register() >> 26;
        self.groups[index as usize / 8] >> (index % 8) & 1 != 0
    }
}

impl Recogniser for Station {
    fn accepts(&self, address: &[u8; 6]) -> bool {
        if address[0].is_multiple_of(2) {
            *address == self.address || self.has(Self::PROM)
        } else if *address == [0xFF; 6] {
            self.has(Self::BROAD)
        } else {
            self.has(Self::GROUP) && self.in_group_table(address)
        }
    }
}
