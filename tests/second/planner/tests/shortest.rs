//! Plans against the fewest steps, found by spreading out from the cart's cell, on every ground of a 3×3 plot.

use super::state::State;
use crate::plot::DIRECTIONS;
use crate::search::Outcome;

/// The fewest steps from the cart's cell to the goal over cells not known blocked.
fn fewest(state: &mut State) -> Option<usize> {
    let head = state.head;
    let mut reached = vec![None; state.n()];
    let mut front = vec![head.cell];
    let mut steps = 0;
    while !front.is_empty() {
        front.iter().for_each(|&cell| reached[cell] = Some(steps));
        let beside = front.iter().flat_map(|&cell| DIRECTIONS.map(|direction| head.step(cell, direction)));
        let next: Vec<usize> = beside.flatten().filter(|&cell| reached[cell].is_none()).collect();
        front = next.into_iter().filter(|&cell| state.map().free(cell)).collect();
        steps += 1;
    }
    reached[head.goal]
}

fn check(state: &mut State) {
    let before = state.learned.clone();
    let fewest = fewest(state);
    let planned = state.plan().unwrap();
    match planned.outcome {
        Outcome::Arrived => assert_eq!(fewest, Some(0)),
        Outcome::NoWay => assert_eq!(fewest, None),
        Outcome::Route(length) => {
            assert_eq!(fewest, Some(length));
            assert_eq!(state.list(9).unwrap().len(), length + 1);
        }
    }
    let free = state.ground[..state.n()].iter().filter(|&&ground| ground == 0).count();
    assert!(planned.expanded <= free);
    assert!(before.iter().zip(&state.learned).all(|(before, after)| before <= after));
    assert!(state.beyond_untouched());
}

#[test]
fn every_plan_on_every_ground_is_shortest() {
    for ground in 0..512usize {
        for goal in 0..9 {
            let mut state = State::new(3, 3, goal, goal);
            state.mark[..9].fill(0);
            state.cost[..9].fill(0);
            state.trail[..9].fill(0);
            let blocked = |cell: &usize| ground >> cell & 1 == 1;
            // One cell after another becomes known, with a plan from every free cell between.
            for known in 0..9 {
                if blocked(&known) {
                    state.head.cell = (0..9).find(|cell| !blocked(cell)).unwrap_or(0);
                    let _ = state.report(known);
                }
                for cell in (0..9).filter(|cell| !blocked(cell)) {
                    state.head.cell = cell;
                    check(&mut state);
                }
            }
        }
    }
}
