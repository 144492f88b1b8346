//! Scripts of calls, and playing them on both boards and both memories.

use compare::plain::Plain;
use compare::player::{Answer, Player, Step, call};
use compare::proved::Proved;

#[derive(Clone, Default, Debug)]
pub struct Script(pub Vec<Step>);

#[allow(dead_code)]
impl Script {
    fn push(&mut self, step: Step) -> &mut Script {
        self.0.push(step);
        self
    }

    pub fn table(&mut self, size: u32, rbegin: u8, rend: u8) -> &mut Script {
        self.push(Step { call: call::TABLE, a: rbegin, b: rend, number: size, ..Step::default() })
    }

    pub fn add(&mut self, start: u32, length: u16) -> &mut Script {
        self.push(Step { call: call::ADD, number: start, length, ..Step::default() })
    }

    pub fn open(&mut self, rcon: u8) -> &mut Script {
        self.push(Step { call: call::OPEN, a: rcon, ..Step::default() })
    }

    pub fn begin(&mut self) -> &mut Script {
        self.push(Step { call: call::BEGIN, ..Step::default() })
    }

    pub fn byte(&mut self, value: u8) -> &mut Script {
        self.push(Step { call: call::BYTE, a: value, ..Step::default() })
    }

    pub fn bytes(&mut self, values: &[u8]) -> &mut Script {
        values.iter().fold(self, |script, &value| script.byte(value))
    }

    pub fn end(&mut self, ragged: bool) -> &mut Script {
        self.push(Step { call: call::END, a: if ragged { 255 } else { 0 }, ..Step::default() })
    }

    pub fn abort(&mut self, overrun: bool) -> &mut Script {
        self.push(Step { call: call::ABORT, a: if overrun { 255 } else { 0 }, ..Step::default() })
    }

    pub fn take(&mut self) -> &mut Script {
        self.push(Step { call: call::TAKE, ..Step::default() })
    }

    pub fn release(&mut self, descriptor: u8) -> &mut Script {
        self.push(Step { call: call::RELEASE, a: descriptor, ..Step::default() })
    }

    pub fn peek(&mut self, address: u32) -> &mut Script {
        self.push(Step { call: call::PEEK, number: address, ..Step::default() })
    }

    pub fn poke(&mut self, address: u32, value: u8) -> &mut Script {
        self.push(Step { call: call::POKE, number: address, a: value, ..Step::default() })
    }

    pub fn cause(&mut self) -> &mut Script {
        self.push(Step { call: call::CAUSE, ..Step::default() })
    }

    pub fn read_register(&mut self, page: u8, address: u8) -> &mut Script {
        self.push(Step { call: call::READ_REGISTER, a: page, b: address, ..Step::default() })
    }

    pub fn write_register(&mut self, page: u8, address: u8, value: u8) -> &mut Script {
        let number = value.into();
        self.push(Step {
            call: call::WRITE_REGISTER,
            a: page,
            b: address,
            number,
            ..Step::default()
        })
    }
}

/// All that a script leaves.
#[derive(Clone, PartialEq, Eq, Debug)]
pub struct Left {
    pub log: Vec<Answer>,
    pub memory: Vec<u8>,
    pub out: Vec<u8>,
}

fn play_bytes<P: Player>(script: &Script, memory: &[u8], station: &[u8; 15], out: &[u8]) -> Left {
    let mut cells = memory.to_vec();
    let mut out = out.to_vec();
    let mut log = vec![Answer::default(); script.0.len()];
    P::script_bytes(&mut cells, station, &mut out, &script.0, &mut log);
    Left { log, memory: cells, out }
}

fn play_words<P: Player>(script: &Script, memory: &[u8], station: &[u8; 15], out: &[u8]) -> Left {
    let (pairs, _) = memory.as_chunks::<2>();
    let mut cells: Vec<u16> = pairs.iter().map(|&pair| u16::from_le_bytes(pair)).collect();
    let mut out = out.to_vec();
    let mut log = vec![Answer::default(); script.0.len()];
    P::script_words(&mut cells, station, &mut out, &script.0, &mut log);
    let memory = cells.iter().flat_map(|word| word.to_le_bytes()).collect();
    Left { log, memory, out }
}

/// Plays a script on both boards, over bytes and over words; all four must leave the same.
pub fn play(script: &Script, memory: &[u8], station: &[u8; 15], out: &[u8]) -> Left {
    assert_eq!(memory.len() % 2, 0, "a memory over words has an even number of bytes");
    let left = play_bytes::<Plain>(script, memory, station, out);
    let others = [
        ("plain, words", play_words::<Plain>(script, memory, station, out)),
        ("proved, bytes", play_bytes::<Proved>(script, memory, station, out)),
        ("proved, words", play_words::<Proved>(script, memory, station, out)),
    ];
    for (name, other) in others {
        if let Some(at) = (0..left.log.len()).find(|&at| left.log[at] != other.log[at]) {
            let before = &script.0[at.saturating_sub(20)..=at];
            panic!("{name}: step {at} of {before:#?}: {:?}, but {:?}", left.log[at], other.log[at]);
        }
        assert!(left == other, "{name}: memory or the caller's buffer differs: {script:?}");
    }
    left
}
