//! What both boards are asked to play.

/// A board, and how often it receives a frame.
#[repr(C)]
#[derive(Clone, Copy, Debug)]
pub struct Work {
    pub rounds: u32,
    /// The buffers: `count` of this length, one after the other behind a table of one page.
    pub length: u16,
    pub count: u8,
    pub rcon: u8,
    /// The switches of the station, whose address is `STATION`.
    pub switches: u8,
    /// Whether each frame is taken and released.
    pub hosted: bool,
    /// How many frames are received before, which then wait in the table throughout.
    pub waiting: u8,
}

pub const STATION: [u8; 6] = [2, 0, 0, 0, 0, 1];

/// The calls of a script.
pub mod call {
    pub const TABLE: u8 = 0;
    pub const ADD: u8 = 1;
    pub const OPEN: u8 = 2;
    pub const BEGIN: u8 = 3;
    pub const BYTE: u8 = 4;
    pub const END: u8 = 5;
    pub const ABORT: u8 = 6;
    pub const TAKE: u8 = 7;
    pub const RELEASE: u8 = 8;
    pub const PEEK: u8 = 9;
    pub const POKE: u8 = 10;
    pub const CAUSE: u8 = 11;
    pub const READ_REGISTER: u8 = 12;
    pub const WRITE_REGISTER: u8 = 13;
}

/// A call of a script, with its arguments.
#[repr(C)]
#[derive(Clone, Copy, Debug, Default)]
pub struct Step {
    pub call: u8,
    pub a: u8,
    pub b: u8,
    pub length: u16,
    pub number: u32,
}

/// What a call answers: the number and the place of its refusal, or up to four numbers.
#[repr(C)]
#[derive(Clone, Copy, Debug, Default, PartialEq, Eq)]
pub struct Answer {
    pub refusal: u8,
    pub first: u8,
    pub count: u8,
    pub status: u8,
    pub number: u32,
}

/// What `cause` answers if there is none.
pub const NO_CAUSE: u8 = 8;

pub trait Player {
    /// The CRC register, started as all ones, after `rounds` times the bytes.
    fn crc(bytes: &[u8], rounds: u32) -> u32;

    /// Receives a frame time and again on a board over bytes. Answers a sum over the answers.
    fn receive_bytes(cells: &mut [u8], frame: &[u8], out: &mut [u8], work: &Work) -> u64;

    /// The same on a board over words.
    fn receive_words(cells: &mut [u16], frame: &[u8], out: &mut [u8], work: &Work) -> u64;

    /// Plays the steps on a board over bytes. The station is its address, switches and group table.
    fn script_bytes(
        cells: &mut [u8],
        station: &[u8; 15],
        out: &mut [u8],
        steps: &[Step],
        log: &mut [Answer],
    );

    /// The same on a board over words.
    fn script_words(
        cells: &mut [u16],
        station: &[u8; 15],
        out: &mut [u8],
        steps: &[Step],
        log: &mut [Answer],
    );
}
