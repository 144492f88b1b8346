//! The bench examples of the rules, on both boards.

mod common;

use common::{Left, Script};
use compare::player::Answer;

const BROAD: [u8; 15] = [2, 0, 0, 0, 0, 1, 0x04, 0, 0, 0, 0, 0, 0, 0, 0];
const ONES: [u8; 13] = [0xFF; 13];

const INTSTAT: (u8, u8) = (0, 0x17);
const RSTAT: (u8, u8) = (0, 0x1C);
const ALICNT: (u8, u8) = (0, 0x1D);
const CRCCNT: (u8, u8) = (0, 0x1E);
const MPCNT: (u8, u8) = (0, 0x1F);

fn opened(rcon: u8) -> Script {
    let mut script = Script::default();
    script.table(512, 0, 1).add(256, 4).add(260, 4).add(264, 4).open(rcon);
    script
}

fn frame(script: &mut Script, length: usize, ragged: bool) -> &mut Script {
    script.begin().bytes(&ONES[..length]).end(ragged)
}

fn play(script: &Script) -> Left {
    common::play(script, &[0; 512], &BROAD, &[0; 16])
}

/// The last answer of a script, after one more call.
fn last(script: &Script, call: impl FnOnce(&mut Script) -> &mut Script) -> Answer {
    let mut script = script.clone();
    call(&mut script);
    *play(&script).log.last().expect("a call was made")
}

fn register(script: &Script, (page, address): (u8, u8)) -> u32 {
    last(script, |script| script.read_register(page, address)).number
}

fn receipt(script: &Script) -> (u8, u8, u32, u8) {
    let answer = last(script, Script::take);
    assert_eq!(answer.refusal, 0);
    (answer.first, answer.count, answer.number, answer.status)
}

#[test]
fn a_broadcast_frame_is_kept() {
    let mut script = opened(3);
    frame(&mut script, 8, false);
    assert_eq!(receipt(&script), (0, 2, 8, 0x21));
    assert_eq!(register(&script, INTSTAT), 0x01);
}

#[test]
fn a_full_table_misses_the_next_frame() {
    let mut script = opened(3);
    frame(&mut script, 8, false).begin().bytes(&ONES[..5]);
    assert_eq!(register(&script, RSTAT), 0);
    script.byte(0xFF);
    assert_eq!(register(&script, RSTAT), 0x30);
    script.bytes(&ONES[..2]);
    assert_eq!(register(&script, RSTAT), 0x30);
    assert_eq!(register(&script, MPCNT), 1);
}

#[test]
fn a_release_in_mid_arrival_makes_room() {
    let mut script = opened(3);
    frame(&mut script, 8, false).take().begin().bytes(&ONES[..5]).release(0);
    script.bytes(&ONES[..3]).end(false);
    assert_eq!(receipt(&script), (2, 2, 8, 0x21));
}

#[test]
fn a_mismatch_is_kept_with_its_reason() {
    let mut script = opened(3);
    frame(&mut script, 7, false);
    assert_eq!(receipt(&script).3, 0x22);
    assert_eq!((register(&script, CRCCNT), register(&script, INTSTAT)), (1, 0x04));
    let mut script = opened(3);
    frame(&mut script, 7, true);
    assert_eq!(receipt(&script).3, 0x24);
    assert_eq!(register(&script, ALICNT), 1);
}

#[test]
fn a_ragged_frame_that_matches_is_good() {
    let mut script = opened(3);
    frame(&mut script, 8, true);
    assert_eq!(receipt(&script).3, 0x21);
}

#[test]
fn a_runt_is_dropped_uncounted() {
    let mut script = opened(0);
    frame(&mut script, 8, false);
    assert_eq!(last(&script, Script::take).refusal, 12);
    assert_eq!((register(&script, RSTAT), register(&script, INTSTAT)), (0x20, 0));
}

#[test]
fn a_frame_may_fill_every_buffer_but_not_one_byte_more() {
    let mut script = opened(3);
    frame(&mut script, 12, false);
    assert_eq!(receipt(&script), (0, 3, 12, 0x22));
    let mut script = opened(3);
    frame(&mut script, 13, false);
    assert_eq!(last(&script, Script::take).refusal, 12);
    assert_eq!(register(&script, RSTAT), 0x30);
}

#[test]
fn a_group_index_and_a_frame_of_six_bytes() {
    let mut station = [0; 15];
    station[6] = 0x08;
    station[7 + 6] = 0x02;
    let mut script = opened(3);
    script.begin().bytes(&[0xFF, 0xFF, 0, 0, 0xFF, 0xFF]).end(false).take();
    let answer = common::play(&script, &[0; 512], &station, &[0; 16]).log.pop();
    assert_eq!(answer, Some(Answer { refusal: 0, first: 0, count: 2, status: 0x21, number: 6 }));
}

#[test]
fn a_release_names_the_first_descriptor_of_a_taken_frame_once() {
    let mut script = opened(3);
    frame(&mut script, 8, false).take();
    assert_eq!(last(&script, |script| script.release(1)).refusal, 15);
    assert_eq!(last(&script, |script| script.release(0)).refusal, 0);
    assert_eq!(last(&script, |script| script.release(0).release(0)).refusal, 15);
}

#[test]
fn a_buffer_fits_in_the_memory_and_shares_no_byte() {
    let script = opened(3);
    assert_eq!(last(&script, |script| script.add(259, 2)).refusal, 5);
    assert_eq!(last(&script, |script| script.add(511, 2)).refusal, 4);
    assert_eq!(last(&script, |script| script.add(510, 2)).refusal, 0);
}
