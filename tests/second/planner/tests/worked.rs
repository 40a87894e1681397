//! P1 to P11 of document 01.

use super::state::{no_way, route, State, ARRIVED};
use crate::checks::{NO_ROUTE, UNSOUND};

fn p2() -> State {
    let mut state = State::new(3, 1, 0, 2);
    assert_eq!(state.plan(), route(2, 2));
    state
}

fn p10() -> Vec<u8> {
    State::new(2, 1, 0, 1).save().unwrap()
}

#[test]
fn p1_one_cell_is_arrived() {
    let mut state = State::new(1, 1, 0, 0);
    assert_eq!(state.learned[0], 0);
    let scratch = (state.mark.clone(), state.cost.clone(), state.trail.clone());
    assert_eq!(state.plan(), ARRIVED);
    assert_eq!(scratch, (state.mark, state.cost, state.trail));
}

#[test]
fn p2_a_plan_along_a_strip() {
    let state = p2();
    assert_eq!(state.learned[..3], [2, 1, 0]);
    assert_eq!(state.link[..3], [1, 1, 0]);
    assert_eq!(state.mark[..3], [2, 2, 1]);
    assert_eq!(state.cost[..3], [0, 1, 2]);
    assert_eq!(state.trail[..3], [0, 1, 1]);
    assert!(state.beyond_untouched());
}

#[test]
fn p3_planned_again() {
    let mut state = p2();
    assert_eq!(state.plan(), route(2, 0));
    assert_eq!(state.mark[..3], [1, 0, 0]);
    assert_eq!(state.cost[..3], [0, 65_535, 65_535]);
    assert_eq!(state.trail[..3], [0, 0, 0]);
}

#[test]
fn p4_a_move() {
    let mut state = p2();
    assert_eq!(state.advance(), Ok(1));
    assert_eq!(state.link[..3], [0, 1, 0]);
}

#[test]
fn p5_no_way() {
    let mut state = State::new(3, 1, 0, 2);
    assert_eq!(state.report(1), Ok(()));
    assert_eq!(state.plan(), no_way(1));
    assert_eq!(state.learned[..3], [2, 1, 0]);
    assert_eq!(state.mark[..3], [2, 0, 0]);
}

#[test]
fn p6_a_report_on_the_route() {
    let mut state = p2();
    assert_eq!(state.report(1), Ok(()));
    assert_eq!(state.link[..3], [0, 0, 0]);
    assert_eq!(state.advance(), Err(NO_ROUTE));
}

#[test]
fn p7_the_drive_inputs_first_plan() {
    let mut state = State::new(3, 2, 0, 2);
    assert_eq!(state.report(1), Ok(()));
    assert_eq!(state.plan(), route(4, 4));
    assert_eq!(state.learned[..6], [4, 1, 0, 3, 2, 1]);
    assert_eq!(state.link[..6], [2, 0, 0, 1, 1, 4]);
}

#[test]
fn p8_the_lower_cell_first() {
    let mut state = State::new(2, 2, 0, 3);
    assert_eq!(state.plan(), route(2, 2));
    assert_eq!(state.link[..4], [1, 2, 0, 0]);
    assert_eq!(state.mark[..4], [2, 2, 1, 1]);
}

#[test]
fn p9_the_larger_cost_first() {
    let mut state = State::new(3, 2, 3, 2);
    assert_eq!(state.plan(), route(3, 3));
    assert_eq!(state.link[..6], [1, 1, 0, 4, 0, 0]);
}

#[test]
fn p10_a_fresh_record() {
    let expected = [1, 0, 1, 2, 2, 0, 1, 1, 3, 0, 2, 0, 1, 4, 0, 2, 0, 0, 5, 0, 1, 0, 6, 0, 4, 0, 1, 0, 0, 7, 0, 2, 0, 0];
    assert_eq!(expected.len(), 34);
    assert_eq!(p10(), expected);
}

#[test]
fn p11_an_unsound_record() {
    let mut bytes = p10();
    let learned_of_cell_0 = 26;
    assert_eq!(bytes[learned_of_cell_0 - 1..=learned_of_cell_0], [0, 1]);
    bytes[learned_of_cell_0] = 2;
    assert_eq!(State::new(2, 1, 0, 1).load(&bytes), Err(UNSOUND));
}
