//! The record: lengths, the order of load's checks, spare bits, and the calls for C over it.

use super::state::State;
use crate::checks::*;
use crate::record::{load, record_length, save};
use crate::record_calls;

fn saved() -> Vec<u8> {
    let mut state = State::new(3, 1, 0, 2);
    state.plan().unwrap();
    state.save().unwrap()
}

fn loaded(bytes: &[u8], room: usize) -> Result<(), Refusal> {
    load(bytes, &mut State::with_room(room).map()).map(|_| ())
}

#[test]
fn lengths() {
    assert_eq!(record_length(4096), 12_827);
    assert_eq!(record_length(1), 31);
    assert_eq!(State::new(1, 1, 0, 0).save().unwrap().len(), 31);
}

#[test]
fn a_save_buffer_holds_the_record() {
    let mut state = State::new(3, 1, 0, 2);
    let mut bytes = vec![7; 50];
    let (head, length) = (state.head, record_length(3));
    assert_eq!(save(head, &state.map(), &mut bytes[..length - 1]), Err(SHORT));
    assert_eq!(bytes, [7; 50]);
    assert_eq!(save(head, &state.map(), &mut bytes), Ok(length));
    assert!(bytes[length..].iter().all(|&byte| byte == 7));
    state.link[0] = 9;
    assert_eq!(save(head, &state.map(), &mut []), Err(UNSOUND));
}

#[test]
fn what_is_saved_loads_again() {
    let mut state = State::new(5, 3, 1, 14);
    state.report(7).unwrap();
    state.plan().unwrap();
    let bytes = state.save().unwrap();
    let mut other = State::with_room(15 + 3);
    assert_eq!(other.load(&bytes), Ok(state.head));
    assert_eq!(other.ground[..15], state.ground[..15]);
    assert_eq!(other.learned[..15], state.learned[..15]);
    assert_eq!(other.link[..15], state.link[..15]);
    assert!(other.beyond_untouched());
}

#[test]
fn every_cut_breaks_the_form() {
    let bytes = saved();
    for length in 0..bytes.len() {
        assert_eq!(loaded(&bytes[..length], 3), Err(FORM));
    }
    assert_eq!(loaded(&bytes, 3), Ok(()));
    assert_eq!(loaded(&[&bytes[..], &[0]].concat(), 3), Err(FORM));
}

#[test]
fn the_order_of_loads_refusals() {
    let mut bytes = saved();
    bytes[26] = 9; // learned at cell 0
    assert_eq!(loaded(&bytes, 3), Err(UNSOUND));
    assert_eq!(loaded(&bytes, 2), Err(SHORT));
    bytes[12] = 3; // goal
    assert_eq!(loaded(&bytes, 2), Err(OUTSIDE));
    bytes[21] |= 8; // the lowest spare bit of the ground
    assert_eq!(loaded(&bytes, 2), Err(FORM));
    bytes[7] = 0; // height
    assert_eq!(loaded(&bytes, 2), Err(SIDES));
    assert_eq!(loaded(&bytes[..8], 2), Err(SIDES));
    bytes[4] = 1; // the second tag
    assert_eq!(loaded(&bytes, 2), Err(FORM));
}

#[test]
fn each_spare_bit_is_0() {
    for bit in 3..8 {
        let mut bytes = saved();
        bytes[21] |= 1 << bit;
        assert_eq!(loaded(&bytes, 3), Err(FORM));
    }
}

#[test]
fn the_calls_over_a_record() {
    let mut bytes = State::new(3, 2, 0, 2).save().unwrap();
    assert_eq!(record_calls::advance(&mut bytes), 70_006);
    assert_eq!(record_calls::report(&mut bytes, 6), 70_003);
    assert_eq!(record_calls::report(&mut bytes, u32::MAX), 70_003);
    assert_eq!(record_calls::report(&mut bytes, 0), 70_005);
    assert_eq!(record_calls::report(&mut bytes, 1), 0);
    assert_eq!(record_calls::plan(&mut bytes), 4);
    let moves: Vec<u32> = (0..5).map(|_| record_calls::advance(&mut bytes)).collect();
    assert_eq!(moves, [3, 4, 5, 2, 2]);
    assert_eq!(record_calls::plan(&mut bytes), 0);
    assert_eq!(record_calls::report(&mut bytes, 5), 0);
    assert_eq!(loaded(&bytes, 6), Ok(()));
}

#[test]
fn no_way_and_refusals_leave_the_record() {
    let mut bytes = State::new(3, 1, 0, 2).save().unwrap();
    assert_eq!(record_calls::report(&mut bytes, 1), 0);
    let before = bytes.clone();
    assert_eq!(record_calls::plan(&mut bytes), 65_535);
    assert_eq!(bytes, before);
    bytes[26] = 9;
    let before = bytes.clone();
    assert_eq!(record_calls::report(&mut bytes, 3), 70_004);
    assert_eq!(bytes, before);
    bytes.push(0);
    assert_eq!(record_calls::plan(&mut bytes), 70_008);
}
