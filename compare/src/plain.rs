//! The board in plain Rust, playing.

use crate::board::{Board, LastByte, Reason, Receipt};
use crate::crc::Crc;
use crate::layout::{Layout, PAGE};
use crate::memory::{Bytes, Memory, Words};
use crate::player::{Answer, NO_CAUSE, Player, STATION, Step, Work, call};
use crate::recogniser::Station;
use crate::refusal::Refusal;

pub struct Plain;

impl Player for Plain {
    fn crc(bytes: &[u8], rounds: u32) -> u32 {
        #[inline(never)]
        fn slice(crc: Crc, bytes: &[u8]) -> Crc {
            crc.slice(bytes)
        }
        (0..rounds).fold(Crc::START, |crc, _| slice(crc, bytes)).register()
    }

    #[inline(never)]
    fn receive_bytes(cells: &mut [u8], frame: &[u8], out: &mut [u8], work: &Work) -> u64 {
        rounds(Bytes(cells), frame, out, work)
    }

    #[inline(never)]
    fn receive_words(cells: &mut [u16], frame: &[u8], out: &mut [u8], work: &Work) -> u64 {
        rounds(Words(cells), frame, out, work)
    }

    fn script_bytes(
        cells: &mut [u8],
        station: &[u8; 15],
        out: &mut [u8],
        steps: &[Step],
        log: &mut [Answer],
    ) {
        play(Bytes(cells), station, out, steps, log);
    }

    fn script_words(
        cells: &mut [u16],
        station: &[u8; 15],
        out: &mut [u8],
        steps: &[Step],
        log: &mut [Answer],
    ) {
        play(Words(cells), station, out, steps, log);
    }
}

fn layout(size: usize, work: &Work) -> Layout {
    let mut layout = Layout::blank();
    if let Ok(size) = u32::try_from(size) {
        let _ = layout.table(size, 0, 1);
    }
    for i in 0..u32::from(work.count) {
        let _ = layout.add(PAGE as u32 + i * u32::from(work.length), work.length);
    }
    layout
}

fn receive<M: Memory>(board: &mut Board<M, Station>, frame: &[u8]) -> Result<(), Refusal> {
    board.begin()?;
    for &value in frame {
        board.byte(value)?;
    }
    board.end(LastByte::Whole)
}

fn collect<M: Memory>(board: &mut Board<M, Station>, out: &mut [u8]) -> Result<u64, Refusal> {
    let Receipt { first, descriptors, length, status } = board.take(out)?;
    board.release(first)?;
    let low = u32::from_le_bytes([first, descriptors, status, 0]);
    Ok(u64::from(low) + (u64::from(length) << 24))
}

fn round<M: Memory>(
    board: &mut Board<M, Station>,
    frame: &[u8],
    out: &mut [u8],
    hosted: bool,
) -> Result<u64, Refusal> {
    receive(board, frame)?;
    if hosted { collect(board, out) } else { Ok(0) }
}

fn rounds<M: Memory>(memory: M, frame: &[u8], out: &mut [u8], work: &Work) -> u64 {
    let station = Station { address: STATION, switches: work.switches, groups: [0; 8] };
    let layout = layout(memory.size(), work);
    let mut board = Board::new(memory, station);
    let _ = board.open(&layout, work.rcon);
    for _ in 0..work.waiting {
        let _ = receive(&mut board, frame);
    }
    let mut sum = 0u64;
    for _ in 0..work.rounds {
        let number = round(&mut board, frame, out, work.hosted)
            .unwrap_or_else(|refusal| refusal.number().into());
        sum = sum.wrapping_add(number);
    }
    sum
}

impl From<Result<(), Refusal>> for Answer {
    fn from(answer: Result<(), Refusal>) -> Answer {
        answer.map(|()| 0).into()
    }
}

impl From<Result<u8, Refusal>> for Answer {
    fn from(answer: Result<u8, Refusal>) -> Answer {
        match answer {
            Ok(value) => Answer { number: value.into(), ..Answer::default() },
            Err(refusal) => {
                Answer { refusal: refusal.number(), number: refusal.place(), ..Answer::default() }
            }
        }
    }
}

impl From<Result<Receipt, Refusal>> for Answer {
    fn from(answer: Result<Receipt, Refusal>) -> Answer {
        match answer {
            Ok(Receipt { first, descriptors, length, status }) => {
                Answer { refusal: 0, first, count: descriptors, status, number: length }
            }
            Err(refusal) => Err::<(), _>(refusal).into(),
        }
    }
}

fn play<M: Memory>(
    memory: M,
    station: &[u8; 15],
    out: &mut [u8],
    steps: &[Step],
    log: &mut [Answer],
) {
    let &[a0, a1, a2, a3, a4, a5, switches, ref groups @ ..] = station;
    let station = Station { address: [a0, a1, a2, a3, a4, a5], switches, groups: *groups };
    let mut board = Board::new(memory, station);
    let mut layout = Layout::blank();
    for (step, answer) in steps.iter().zip(log) {
        *answer = played(&mut board, &mut layout, out, step);
    }
}

fn played<M: Memory>(
    board: &mut Board<M, Station>,
    layout: &mut Layout,
    out: &mut [u8],
    step: &Step,
) -> Answer {
    let &Step { call, a, b, length, number } = step;
    let high = a > 127;
    match call {
        call::TABLE => layout.table(number, a, b).into(),
        call::ADD => layout.add(number, length).into(),
        call::OPEN => board.open(layout, a).into(),
        call::BEGIN => board.begin().into(),
        call::BYTE => board.byte(a).into(),
        call::END => board.end(if high { LastByte::Ragged } else { LastByte::Whole }).into(),
        call::ABORT => board.abort(if high { Reason::Overrun } else { Reason::Collision }).into(),
        call::TAKE => board.take(out).into(),
        call::RELEASE => board.release(a).into(),
        call::PEEK => board.peek(number).into(),
        call::POKE => board.poke(number, a).into(),
        call::CAUSE => board.cause().map(|cause| cause.unwrap_or(NO_CAUSE)).into(),
        call::READ_REGISTER => board.read_register(a, b).into(),
        _ => board.write_register(a, b, number as u8).into(),
    }
}
