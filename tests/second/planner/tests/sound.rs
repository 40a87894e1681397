//! What sound data are: each breach alone, and what looks like a breach and is none.

use super::state::State;
use crate::checks::sound;

/// A 3×3 plot with the goal at 8, the cart at 0 and the middle blocked.
fn plot() -> State {
    let mut state = State::new(3, 3, 0, 8);
    state.report(4).unwrap();
    state
}

fn holds(change: impl FnOnce(&mut State)) -> bool {
    let mut state = plot();
    change(&mut state);
    let head = state.head;
    sound(head, &state.map())
}

#[test]
fn the_ground() {
    assert!(holds(|_| ()));
    assert!(holds(|state| state.ground[8] = 1));
    assert!(!holds(|state| state.ground[0] = 1));
    assert!(!holds(|state| state.ground[3] = 2));
}

#[test]
fn learned_values() {
    assert!(holds(|state| state.learned[4] = 8));
    assert!(!holds(|state| state.learned[4] = 9));
    assert!(!holds(|state| state.learned[8] = 1));
    assert!(holds(|state| state.learned[0] = 2));
    assert!(!holds(|state| state.learned[0] = 1));
    assert!(!holds(|state| state.learned[6] = 4));
    assert!(holds(|state| state.learned[..9].fill(0)));
    assert!(holds(|state| state.learned[9] = 9));
}

#[test]
fn the_largest_learned_value_of_a_strip() {
    let mut state = State::new(3, 1, 0, 2);
    let head = state.head;
    assert_eq!(state.learned[0], 2);
    assert!(sound(head, &state.map()));
}

#[test]
fn links() {
    assert!(holds(|state| state.link[..2].copy_from_slice(&[1, 3])));
    assert!(!holds(|state| state.link[0] = 5));
    assert!(!holds(|state| state.link[8] = 3));
    assert!(!holds(|state| state.link[4] = 1));
    assert!(!holds(|state| state.link[1] = 2));
    for (cell, direction) in [(2, 1), (6, 2), (3, 3), (2, 4), (5, 1), (6, 3)] {
        assert!(!holds(|state| state.link[cell] = direction));
    }
}
