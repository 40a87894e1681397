//! The shortcuts that look right, each on a plot that tells it apart.

use super::state::{no_way, route, State};
use crate::checks::NO_ROUTE;

#[test]
fn waiting_cells_keep_their_learned_values() {
    let mut state = State::new(2, 2, 0, 3);
    assert_eq!(state.plan(), route(2, 2));
    assert_eq!(state.learned[..4], [2, 1, 1, 0]);
    assert_eq!(state.mark[2], 1);
}

#[test]
fn a_stop_before_the_goal_counts_what_lies_behind_it() {
    let mut state = State::new(4, 2, 1, 3);
    assert_eq!(state.plan(), route(2, 2));
    state.head.cell = 0;
    assert_eq!(state.plan(), route(3, 1));
    assert_eq!(state.mark[1], 1);
    assert_eq!((state.learned[0], state.link[0]), (3, 1));
}

#[test]
fn an_old_link_beside_a_grown_value_is_no_route() {
    let mut state = State::new(4, 2, 0, 3);
    assert_eq!(state.plan(), route(3, 3));
    state.head.cell = 1;
    assert_eq!(state.report(2), Ok(()));
    assert_eq!(state.plan(), route(4, 5));
    // The old link at 0 still leads to 1 and by new links to the goal, but the value at 1 has grown past the one at 0.
    state.head.cell = 0;
    assert_eq!(state.link[..8], [1, 2, 0, 0, 0, 1, 1, 4]);
    assert_eq!(state.learned[..2], [3, 4]);
    assert_eq!(state.advance(), Err(NO_ROUTE));
    // Planned anew it expands 0 alone: from 1 the links lead on with the value falling.
    assert_eq!(state.plan(), route(5, 1));
    assert_eq!((state.learned[0], state.mark[1]), (5, 1));
}

#[test]
fn a_report_clears_every_link_to_the_cell() {
    let mut state = State::new(3, 3, 0, 8);
    for (cell, direction) in [(1, 2), (3, 1), (5, 3), (7, 4), (4, 1), (0, 1)] {
        state.link[cell] = direction;
    }
    assert_eq!(state.report(4), Ok(()));
    assert_eq!(state.link[..9], [1, 0, 0, 0, 0, 0, 0, 0, 0]);
    assert!(state.beyond_untouched());
}

#[test]
fn no_way_teaches_nothing() {
    let mut state = State::new(4, 1, 0, 3);
    assert_eq!(state.report(2), Ok(()));
    assert_eq!(state.plan(), no_way(2));
    assert_eq!(state.learned[..4], [3, 2, 1, 0]);
    assert_eq!(state.link[..4], [0, 0, 0, 0]);
    assert_eq!(state.mark[..4], [2, 2, 0, 0]);
    assert_eq!(state.cost[..4], [0, 1, 65_535, 65_535]);
    assert_eq!(state.trail[..4], [0, 1, 0, 0]);
}

#[test]
fn a_reported_goal_is_never_reached() {
    let mut state = State::new(3, 1, 0, 2);
    assert_eq!(state.plan(), route(2, 2));
    assert_eq!(state.report(2), Ok(()));
    assert_eq!(state.plan(), no_way(2));
}
