//! Pseudo-random scripts, which both boards must answer alike, and leave the same memory after.

mod common;

use common::Script;
use compare::crc::Crc;
use compare::plain::Plain;
use compare::player::{Answer, Player, Step, call};
use compare::proved::Proved;
use compare::random::Random;

const SCRIPTS: u32 = 20_000;
const SIZES: [u32; 5] = [512, 768, 1024, 4096, 65_536];
const REGISTERS: [u8; 6] = [0x11, 0x12, 0x17, 0x1C, 0x1D, 0x1E];

/// A board under test, as far as a script's writer has to know it.
struct Bench {
    random: Random,
    script: Script,
    size: u32,
    station: [u8; 15],
    table: (u8, u8),
    buffers: u8,
}

impl Bench {
    fn new(seed: u64) -> Bench {
        let mut random = Random(seed);
        let size = random.pick(&SIZES[..4]);
        let mut bench = Bench {
            size: if random.once_in(50) { 65_536 } else { size },
            station: [0; 15],
            script: Script::default(),
            table: (0, 1),
            buffers: 0,
            random,
        };
        bench.station.copy_from_slice(&bench.random.bytes(15));
        bench.station[0] &= 0xFE;
        bench.station[6] |= bench.random.pick(&[0x00, 0x10, 0x1C]);
        bench
    }

    /// A table and buffers, mostly such as the layout accepts.
    fn lay_out(&mut self) {
        let random = &mut self.random;
        let pages = self.size / 256;
        let rbegin = random.below(pages / 2) as u8;
        let rend = rbegin + 1 + u8::from(random.once_in(4));
        self.table = (rbegin, rend);
        if random.once_in(20) {
            self.script.table(random.below(70_000), random.byte(), random.byte());
            self.script.table(self.size, random.below(4) as u8, random.below(6) as u8);
        }
        if random.once_in(20) {
            self.script.add(random.below(1000), 5);
        }
        let size = if random.once_in(30) { random.pick(&SIZES) } else { self.size };
        self.script.table(size, rbegin, rend);
        let many = random.once_in(30);
        self.buffers = if many { 70 } else { random.below(8) as u8 };
        let longest = random.pick(&[8, 20, 40, 100]);
        let before = rbegin > 0 && random.once_in(2);
        let mut start = if before { 0 } else { u32::from(rend) * 256 };
        for _ in 0..self.buffers {
            start += random.below(4) * random.below(2);
            let length = if many { 1 } else { 1 + random.below(longest) };
            self.script.add(start, length as u16);
            start += length;
            if random.once_in(20) {
                self.script.add(random.below(self.size + 100), random.below(50) as u16);
                self.buffers += 1;
            }
        }
        let rcon =
            if random.once_in(20) { random.byte() } else { random.pick(&[0, 1, 2, 3, 3, 3]) };
        self.script.open(rcon);
    }

    /// An address that the station may or may not recognise.
    fn address(&mut self) -> [u8; 6] {
        let mut address = [0xFF; 6];
        match self.random.below(4) {
            0 => address.copy_from_slice(&self.station[..6]),
            1 => {}
            _ => address.copy_from_slice(&self.random.bytes(6)),
        }
        address
    }

    /// A frame, half of the time with a CRC that matches.
    fn frame(&mut self) -> Vec<u8> {
        let mut frame = self.address().to_vec();
        let length = if self.random.once_in(4) { 100 } else { 20 };
        let length = self.random.below(length) as usize;
        frame.extend(self.random.bytes(length));
        if self.random.once_in(2) {
            let crc = !Crc::START.slice(&frame).register().reverse_bits();
            frame.extend(crc.to_le_bytes());
        }
        if self.random.once_in(8) {
            frame.truncate(self.random.below(8) as usize);
        }
        frame
    }

    fn arrival(&mut self) {
        let frame = self.frame();
        let interrupted = self.random.once_in(3);
        self.script.begin();
        for byte in frame {
            self.script.byte(byte);
            if interrupted && self.random.once_in(6) {
                self.host_call();
            }
        }
        let high = self.random.once_in(3);
        match self.random.below(12) {
            0 => self.script.abort(high),
            1 => &mut self.script,
            _ => self.script.end(high),
        };
    }

    fn descriptor(&mut self) -> u8 {
        if self.random.once_in(10) {
            self.random.byte()
        } else {
            self.random.below(u32::from(self.buffers) + 1) as u8
        }
    }

    /// An address of memory, often in a descriptor.
    fn place(&mut self) -> u32 {
        match self.random.below(10) {
            0 => self.random.number() as u32,
            1..3 => self.random.below(self.size + 2),
            _ => {
                let d = u32::from(self.descriptor());
                u32::from(self.table.0) * 256 + 8 * d + self.random.below(8)
            }
        }
    }

    fn host_call(&mut self) {
        let page = self.random.pick(&[0, 0, 0, 1, 2, 2, 3, 4, 6, 255]);
        let register = match self.random.below(10) {
            0 => self.random.byte(),
            1..4 => 0x1F,
            _ => self.random.pick(&REGISTERS),
        };
        let value = self.random.byte();
        match self.random.below(12) {
            0..5 => self.script.take(),
            5..7 => {
                for _ in 0..3 {
                    let d = self.descriptor();
                    self.script.release(d);
                }
                &mut self.script
            }
            7 => {
                let place = self.place();
                self.script.peek(place)
            }
            8 => self.script.read_register(page, register),
            9 => self.script.write_register(page, register, value),
            10 => self.script.cause(),
            _ => self.script.begin(),
        };
    }

    fn poke(&mut self) {
        let place = self.place();
        let value =
            if self.random.once_in(4) { self.random.byte() } else { self.random.below(16) as u8 };
        self.script.poke(place, value);
    }

    /// Pokes flags that a lawful table could have into each descriptor.
    fn poke_table(&mut self) {
        let taken = self.random.pick(&[0, 0, 8]);
        for d in 0..u32::from(self.buffers) {
            let first = if d == 0 || self.random.once_in(8) { 2 } else { 0 };
            let last = if self.random.once_in(4) { 4 } else { 0 };
            let place = u32::from(self.table.0) * 256 + 8 * d;
            self.script.poke(place, 1 + first + last + taken).poke(place + 6, 1).poke(place + 7, 0);
        }
        self.script.take().release(0);
    }

    /// So many arrivals that a counter comes to its end.
    fn count_up(&mut self) {
        let ragged = self.random.once_in(2);
        let overrun = self.random.once_in(3);
        for _ in 0..120 + self.random.below(200) {
            let address = self.address();
            self.script.begin().bytes(&address);
            if overrun {
                self.script.abort(true)
            } else {
                self.script.end(ragged)
            };
            match self.random.below(30) {
                0 => self.script.read_register(0, 0x17),
                1 => self.script.write_register(0, 0x17, 0xFF),
                _ => &mut self.script,
            };
        }
    }

    /// A call with any arguments.
    fn any_call(&mut self) {
        let step = Step {
            call: self.random.below(14) as u8,
            a: self.random.byte(),
            b: self.random.byte(),
            length: self.random.number() as u16,
            number: self.random.number() as u32,
        };
        self.script.0.push(step);
    }

    fn write(&mut self) {
        if self.random.once_in(10) {
            self.host_call();
            self.poke();
        }
        self.lay_out();
        let poking = self.random.once_in(3);
        for _ in 0..1 + self.random.below(40) {
            match self.random.below(10) {
                0..5 => self.arrival(),
                5..8 => self.host_call(),
                8 if poking && self.random.once_in(3) => self.poke_table(),
                8 if poking => self.poke(),
                8 => self.host_call(),
                _ if self.random.once_in(8) => self.lay_out(),
                _ => self.any_call(),
            }
        }
        if self.random.once_in(20) {
            self.count_up();
        }
        for register in REGISTERS.into_iter().chain([0x1F]) {
            self.script.read_register(0, register).read_register(2, register);
        }
    }
}

/// How often each call was accepted, and each refusal was answered.
#[derive(Default, Debug)]
struct Tally {
    accepted: [u32; 14],
    refused: [u32; 18],
    receipts_of_many: u32,
}

impl Tally {
    fn note(&mut self, step: &Step, answer: &Answer) {
        if answer.refusal == 0 {
            self.accepted[usize::from(step.call)] += 1;
        } else {
            self.refused[usize::from(answer.refusal)] += 1;
        }
        if step.call == call::TAKE && answer.count > 1 {
            self.receipts_of_many += 1;
        }
    }
}

#[test]
fn both_boards_answer_alike() {
    let mut tally = Tally::default();
    for seed in 0..SCRIPTS {
        let mut bench = Bench::new(u64::from(seed));
        bench.write();
        let memory = bench.random.bytes(bench.size as usize);
        let room = bench.random.pick(&[0, 40, 200, 1000, 1000]);
        let out = bench.random.bytes(room);
        let left = common::play(&bench.script, &memory, &bench.station, &out);
        for (step, answer) in bench.script.0.iter().zip(&left.log) {
            tally.note(step, answer);
        }
    }
    println!("{tally:#?}");
    assert!(tally.accepted.iter().all(|&count| count > 100), "{tally:?}");
    assert!(tally.refused[1..].iter().all(|&count| count > 100), "{tally:?}");
    assert!(tally.receipts_of_many > 100, "{tally:?}");
}

#[test]
fn both_run_the_crc_register_alike() {
    let mut random = Random(0);
    for _ in 0..2_000 {
        let length = random.below(300) as usize;
        let bytes = random.bytes(length);
        let rounds = random.below(4);
        assert_eq!(Plain::crc(&bytes, rounds), Proved::crc(&bytes, rounds));
    }
}
