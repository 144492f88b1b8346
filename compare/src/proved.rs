//! The proved board, through the functions that the crates `player` and `script` export.
//!
//! A slice crosses as its pointer and its length. The functions ask nothing else of their callers.

use crate::player::{Answer, Player, Step, Work};

#[link(name = "player", kind = "static")]
unsafe extern "C" {
    fn player_crc(register: u32, bytes: *const u8, length: usize) -> u32;

    fn player_receive_bytes(
        cells: *mut u8,
        cell_count: usize,
        frame: *const u8,
        frame_length: usize,
        out: *mut u8,
        out_length: usize,
        work: &Work,
    ) -> u64;

    fn player_receive_words(
        cells: *mut u16,
        cell_count: usize,
        frame: *const u8,
        frame_length: usize,
        out: *mut u8,
        out_length: usize,
        work: &Work,
    ) -> u64;
}

#[link(name = "script", kind = "static")]
unsafe extern "C" {
    fn script_bytes(
        cells: *mut u8,
        cell_count: usize,
        station: &[u8; 15],
        out: *mut u8,
        out_length: usize,
        steps: *const Step,
        step_count: usize,
        log: *mut Answer,
        log_length: usize,
    );

    fn script_words(
        cells: *mut u16,
        cell_count: usize,
        station: &[u8; 15],
        out: *mut u8,
        out_length: usize,
        steps: *const Step,
        step_count: usize,
        log: *mut Answer,
        log_length: usize,
    );
}

pub struct Proved;

impl Player for Proved {
    fn crc(bytes: &[u8], rounds: u32) -> u32 {
        let mut register = !0;
        for _ in 0..rounds {
            register = unsafe { player_crc(register, bytes.as_ptr(), bytes.len()) };
        }
        register
    }

    fn receive_bytes(cells: &mut [u8], frame: &[u8], out: &mut [u8], work: &Work) -> u64 {
        unsafe {
            player_receive_bytes(
                cells.as_mut_ptr(),
                cells.len(),
                frame.as_ptr(),
                frame.len(),
                out.as_mut_ptr(),
                out.len(),
                work,
            )
        }
    }

    fn receive_words(cells: &mut [u16], frame: &[u8], out: &mut [u8], work: &Work) -> u64 {
        unsafe {
            player_receive_words(
                cells.as_mut_ptr(),
                cells.len(),
                frame.as_ptr(),
                frame.len(),
                out.as_mut_ptr(),
                out.len(),
                work,
            )
        }
    }

    fn script_bytes(
        cells: &mut [u8],
        station: &[u8; 15],
        out: &mut [u8],
        steps: &[Step],
        log: &mut [Answer],
    ) {
        unsafe {
            script_bytes(
                cells.as_mut_ptr(),
                cells.len(),
                station,
                out.as_mut_ptr(),
                out.len(),
                steps.as_ptr(),
                steps.len(),
                log.as_mut_ptr(),
                log.len(),
            );
        }
    }

    fn script_words(
        cells: &mut [u16],
        station: &[u8; 15],
        out: &mut [u8],
        steps: &[Step],
        log: &mut [Answer],
    ) {
        unsafe {
            script_words(
                cells.as_mut_ptr(),
                cells.len(),
                station,
                out.as_mut_ptr(),
                out.len(),
                steps.as_ptr(),
                steps.len(),
                log.as_mut_ptr(),
                log.len(),
            );
        }
    }
}
