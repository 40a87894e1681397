//! The edges: sizes, cells, lengths of buffers, the order of refusals, and what each refusal leaves.

use super::state::{route, State, ARRIVED};
use crate::buffers;
use crate::checks::*;
use crate::ground::layout;
use crate::plot::Head;
use crate::route::question;

fn lay_out(width: usize, height: usize, start: usize, goal: usize, room: usize) -> Result<Head, Refusal> {
    layout(width, height, start, goal, &mut State::with_room(room).map())
}

#[test]
fn sides_are_1_to_64() {
    for side in [1, 64] {
        assert!(lay_out(side, 1, 0, 0, 64).is_ok());
        assert!(lay_out(1, side, 0, 0, 64).is_ok());
    }
    for side in [0, 65, usize::MAX] {
        assert_eq!(lay_out(side, 1, 0, 0, 4096), Err(SIDES));
        assert_eq!(lay_out(1, side, 0, 0, 4096), Err(SIDES));
    }
    assert!(lay_out(64, 64, 4095, 0, 4096).is_ok());
}

#[test]
fn cells_are_below_n() {
    assert!(lay_out(3, 2, 5, 5, 6).is_ok());
    assert_eq!(lay_out(3, 2, 6, 5, 6), Err(OUTSIDE));
    assert_eq!(lay_out(3, 2, 5, 6, 6), Err(OUTSIDE));
    let mut state = State::new(3, 2, 0, 2);
    assert_eq!(state.report(5), Ok(()));
    assert_eq!(state.report(6), Err(OUTSIDE));
}

#[test]
fn buffers_hold_n_entries() {
    assert!(lay_out(3, 2, 0, 2, 6).is_ok());
    assert_eq!(lay_out(3, 2, 0, 2, 5), Err(SHORT));
    for short in 0..6 {
        let mut state = State::new(3, 2, 0, 0);
        let n = state.n();
        let cut = if short < 3 { n - 1 } else { n };
        match short {
            0 | 3 => state.ground.truncate(cut),
            1 | 4 => state.learned.truncate(cut),
            _ => state.link.truncate(cut),
        }
        let expected = if short < 3 { Err(SHORT) } else { Ok(()) };
        assert_eq!(state.report(1), expected);
        assert_eq!(state.plan().map(|_| ()), expected);
        assert_eq!(state.advance().map(|_| ()), expected);
        assert_eq!(state.list(6).map(|_| ()), expected);
        assert_eq!(state.save().map(|_| ()), expected);
    }
}

#[test]
fn scratch_holds_n_entries_even_on_the_goal() {
    for start in [0, 2] {
        let mut state = State::new(3, 2, start, 2);
        state.mark.truncate(5);
        assert_eq!(state.plan(), Err(SHORT));
        let mut state = State::new(3, 2, start, 2);
        state.cost.truncate(5);
        assert_eq!(state.plan(), Err(SHORT));
        let mut state = State::new(3, 2, start, 2);
        state.trail.truncate(5);
        assert_eq!(state.plan(), Err(SHORT));
        let mut state = State::new(3, 2, start, 2);
        state.trail.truncate(6);
        assert!(state.plan().is_ok());
    }
}

#[test]
fn the_carts_own_cell_is_not_reported() {
    let mut state = State::new(3, 1, 0, 2);
    assert_eq!(state.report(0), Err(OWN_CELL));
    let mut state = State::new(3, 1, 2, 2);
    assert_eq!(state.report(2), Err(OWN_CELL));
}

#[test]
fn the_goal_may_be_reported_and_twice() {
    let mut state = State::new(3, 1, 0, 2);
    assert!(state.plan().is_ok());
    assert_eq!(state.report(2), Ok(()));
    assert_eq!((state.ground[2], &state.link[..3]), (1, &[1, 0, 0][..]));
    assert_eq!(state.report(2), Ok(()));
    assert_eq!(state.ground[..3], [0, 0, 1]);
}

#[test]
fn on_the_goal_a_move_and_a_plan_change_nothing() {
    let mut state = State::new(2, 2, 3, 3);
    assert_eq!(state.plan(), ARRIVED);
    assert_eq!(state.advance(), Ok(3));
    assert_eq!(state.list(1), Ok(vec![3]));
    assert!(state.mark.iter().all(|&mark| mark == 0xA5));
}

#[test]
fn the_list_buffer_holds_the_route() {
    let mut state = State::new(3, 2, 0, 5);
    assert_eq!(state.list(0), Err(NO_ROUTE));
    assert_eq!(state.plan(), route(3, 3));
    assert_eq!(state.list(3), Err(SHORT));
    assert_eq!(state.list(4), Ok(vec![0, 1, 2, 5]));
    assert_eq!(state.list(9), Ok(vec![0, 1, 2, 5]));
}

#[test]
fn the_order_of_refusals() {
    let mut state = State::new(3, 1, 0, 2);
    let map = |state: &mut State, head: Head| question(head, &state.map(), 0);
    let good = state.head;
    assert_eq!(map(&mut state, good), NO_ROUTE);
    state.ground[1] = 7;
    assert_eq!(map(&mut state, good), UNSOUND);
    let outside = Head { goal: 3, ..good };
    assert_eq!(map(&mut state, outside), OUTSIDE);
    state.link.truncate(2);
    assert_eq!(map(&mut state, outside), SHORT);
    assert_eq!(map(&mut state, Head { width: 65, ..outside }), SIDES);
    let mut state = State::new(3, 1, 0, 2);
    state.ground[1] = 7;
    assert_eq!(state.report(3), Err(OUTSIDE));
    assert_eq!(state.report(0), Err(UNSOUND));
}

#[test]
fn a_head_array_holds_five() {
    let mut state = State::new(3, 1, 0, 2);
    let mut array = [0, 1, 2, 0, 9, 9];
    for length in 0..5 {
        assert_eq!(buffers::report(&array[..length], &mut state.map(), 0), 70_002);
        assert_eq!(buffers::question(&array[..length], &state.map(), &[]), 2);
        assert_eq!(buffers::layout([0, 0], 0, 0, &mut array[..length], &mut state.map()), 70_002);
        assert_eq!(buffers::load(&[], &mut array[..length], &mut state.map()), 70_002);
    }
    assert_eq!(buffers::question(&array, &state.map(), &[]), SIDES);
    assert_eq!(buffers::load(&[], &mut array, &mut state.map()), 70_008);
    assert_eq!(buffers::layout([3, 1], 0, 3, &mut array, &mut state.map()), 70_003);
    assert_eq!(array, [0, 1, 2, 0, 9, 9]);
    assert_eq!(buffers::layout([3, 1], 1, 2, &mut array, &mut state.map()), 0);
    assert_eq!(array, [3, 1, 2, 1, 0, 9]);
    assert_eq!(buffers::advance(&mut array, &mut state.map()), 70_006);
    array[3] = 2;
    assert_eq!(buffers::advance(&mut array, &mut state.map()), 2);
}
