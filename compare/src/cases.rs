//! The cases that are measured.

use crate::board::rcon::{RUNTS, SEP};
use crate::crc::Crc;
use crate::descriptor::HELD;
use crate::layout::PAGE;
use crate::player::{Player, Work};
use crate::random::Random;
use crate::recogniser::Station;

pub const SMALL: usize = 4_096;
pub const LARGE: usize = 65_536;
const KEEP_ALL: u8 = SEP | RUNTS;
const LONG: Buffers = Buffers { count: 2, length: 1_536 };
const SHORT: Buffers = Buffers { count: 30, length: 128 };
const TINY: Buffers = Buffers { count: 30, length: 64 };
const MANY: Buffers = Buffers { count: 32, length: 1_536 };
const FRAMES: [usize; 3] = [64, 512, 1_518];
const SLICES: [usize; 4] = [64, 512, 1_518, 65_536];

#[derive(Clone, Copy)]
pub struct Buffers {
    pub count: u8,
    pub length: u16,
}

#[derive(Clone, Copy, PartialEq, Eq)]
pub enum Cells {
    Bytes,
    Words,
}

/// What becomes of each frame.
#[derive(Clone, Copy, Debug, PartialEq, Eq)]
pub enum Fate {
    /// It is kept, taken and released.
    Kept,
    /// It is stored, does not match and is dropped.
    Dropped,
    /// Its address is not recognised.
    Ignored,
    /// It finds the table full.
    Missed,
}

#[derive(Clone, Copy)]
pub enum Subject {
    Crc,
    Frame { fate: Fate, cells: Cells, size: usize, buffers: Buffers, waiting: u8 },
}

/// A case: its subject, and the number of bytes of the slice or the frame.
#[derive(Clone, Copy)]
pub struct Case {
    pub subject: Subject,
    pub length: usize,
}

pub fn all() -> Vec<Case> {
    let mut cases: Vec<Case> = SLICES.map(|length| Case { subject: Subject::Crc, length }).to_vec();
    for cells in [Cells::Bytes, Cells::Words] {
        let mut add = |length, fate, size, buffers, waiting| {
            let subject = Subject::Frame { fate, cells, size, buffers, waiting };
            cases.push(Case { subject, length });
        };
        for length in FRAMES {
            add(length, Fate::Kept, SMALL, LONG, 0);
        }
        for buffers in [SHORT, TINY] {
            add(1_518, Fate::Kept, SMALL, buffers, 0);
        }
        for waiting in [0, 16, 31] {
            add(1_518, Fate::Kept, LARGE, MANY, waiting);
        }
        for buffers in [LONG, SHORT] {
            add(1_518, Fate::Dropped, SMALL, buffers, 0);
        }
        for fate in [Fate::Ignored, Fate::Missed] {
            add(1_518, fate, SMALL, LONG, 0);
        }
    }
    cases
}

/// A frame for a station that is not its own: of even address, with a CRC that matches or not.
fn frame(length: usize, matching: bool) -> Vec<u8> {
    let mut frame = Random(length as u64).bytes(length - 4);
    frame[0] &= 0xFE;
    let crc = !Crc::START.slice(&frame).register().reverse_bits();
    frame.extend(if matching { crc } else { !crc }.to_le_bytes());
    frame
}

impl Case {
    pub fn name(&self) -> String {
        let length = self.length;
        let Subject::Frame { fate, cells, size, buffers, waiting } = self.subject else {
            return format!("CRC of a slice of {length}");
        };
        let cells = match cells {
            Cells::Bytes => "bytes",
            Cells::Words => "words",
        };
        let fate = match fate {
            Fate::Kept => "kept",
            Fate::Dropped => "dropped",
            Fate::Ignored => "ignored",
            Fate::Missed => "missed",
        };
        let Buffers { count, length: each } = buffers;
        let waiting =
            if waiting == 0 { String::new() } else { format!(", {waiting} frames waiting") };
        format!("{cells}, frame of {length} {fate}, {count} buffers of {each} in {size}{waiting}")
    }

    /// Plays the case `rounds` times on a player, and answers a number over all that it answered and left.
    pub fn play<P: Player>(&self, desk: &mut Desk, rounds: u32) -> u64 {
        let Subject::Frame { fate, cells, size, buffers, waiting } = self.subject else {
            return P::crc(&desk.frame, rounds).into();
        };
        let work = Work {
            rounds,
            length: buffers.length,
            count: buffers.count,
            rcon: if fate == Fate::Dropped { RUNTS } else { KEEP_ALL },
            switches: if fate == Fate::Ignored { 0 } else { Station::PROM },
            hosted: fate == Fate::Kept,
            waiting,
        };
        let Desk { frame, out, bytes, words } = desk;
        match cells {
            Cells::Bytes => P::receive_bytes(&mut bytes[..size], frame, out, &work),
            Cells::Words => P::receive_words(&mut words[..size / 2], frame, out, &work),
        }
    }
}

/// Plays a case on both players. They must answer the same and leave the same, and the fate of the
/// frames must be that of the case.
pub fn assert_same<P: Player, Q: Player>(case: &Case) {
    let rounds = 100;
    let (mut one, mut other) = (Desk::new(case), Desk::new(case));
    let sum = case.play::<P>(&mut one, rounds);
    assert_eq!(sum, case.play::<Q>(&mut other, rounds), "{}", case.name());
    assert!(one == other, "{}: the boards leave different memories", case.name());
    if let Subject::Frame { fate, cells, .. } = case.subject {
        assert_eq!(one.fate(cells, sum), Some(fate), "{}", case.name());
    }
}

/// The frame or slice of a case, and the room that it is played in.
#[derive(Clone, PartialEq, Eq)]
pub struct Desk {
    frame: Vec<u8>,
    out: Vec<u8>,
    bytes: Vec<u8>,
    words: Vec<u16>,
}

impl Desk {
    /// What became of the frames, by the memory after a first play that answered `sum`.
    fn fate(&self, cells: Cells, sum: u64) -> Option<Fate> {
        let (flags, stored) = match cells {
            Cells::Bytes => (self.bytes[0], self.bytes[PAGE..].iter().any(|&byte| byte != 0)),
            Cells::Words => {
                (self.words[0] as u8, self.words[PAGE / 2..].iter().any(|&word| word != 0))
            }
        };
        match (flags & HELD != 0, stored, sum != 0) {
            (_, true, true) => Some(Fate::Kept),
            (false, true, false) => Some(Fate::Dropped),
            (false, false, false) => Some(Fate::Ignored),
            (true, true, false) => Some(Fate::Missed),
            _ => None,
        }
    }

    pub fn new(case: &Case) -> Desk {
        let matching = !matches!(case.subject, Subject::Frame { fate: Fate::Dropped, .. });
        Desk {
            frame: frame(case.length, matching),
            out: vec![0; 2_048],
            bytes: vec![0; LARGE],
            words: vec![0; LARGE / 2],
        }
    }
}
