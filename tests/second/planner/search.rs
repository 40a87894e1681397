//! Plan: the search, and what is learned from it. The next cell is found by looking at all cells.

use crate::checks::{self, Refusal};
use crate::fault::{planted, Fault};
use crate::plot::{opposite, Head, Map, Scratch, DIRECTIONS, EXPANDED, UNSEEN, UNSEEN_COST, WAITING};
use crate::route::cells_to_goal;

#[derive(Clone, Copy, Debug, PartialEq, Eq)]
pub enum Outcome {
    Route(usize),
    NoWay,
    Arrived,
}

#[derive(Clone, Copy, Debug, PartialEq, Eq)]
pub struct Planned {
    pub outcome: Outcome,
    pub expanded: usize,
}

pub fn plan(head: Head, map: &mut Map, scratch: &mut Scratch) -> Result<Planned, Refusal> {
    let lengths = [scratch.mark.len(), scratch.cost.len(), scratch.trail.len()];
    checks::accepted(head, map, &lengths, &[])?;
    if head.cell == head.goal {
        return Ok(Planned { outcome: Outcome::Arrived, expanded: 0 });
    }
    begin(head, scratch);
    let outcome = match search(head, map, scratch) {
        Some(stop) => {
            let length = total(map, scratch, stop);
            learn(head, map, scratch, length, stop);
            link_trail(head, map, scratch, stop);
            Outcome::Route(length)
        }
        None => {
            if planted(Fault::LearnsFromNoWay) {
                learn(head, map, scratch, head.cells() - 1, head.cell);
            }
            Outcome::NoWay
        }
    };
    let mut expanded = (0..head.cells()).filter(|&cell| scratch.mark[cell] == EXPANDED).count();
    if planted(Fault::CountsStop) && outcome != Outcome::NoWay {
        expanded += 1;
    }
    Ok(Planned { outcome, expanded })
}

/// All unseen; the cart's cell waits at cost 0.
fn begin(head: Head, scratch: &mut Scratch) {
    for cell in 0..head.cells() {
        scratch.mark[cell] = UNSEEN;
        scratch.cost[cell] = UNSEEN_COST;
        scratch.trail[cell] = 0;
    }
    scratch.mark[head.cell] = WAITING;
    scratch.cost[head.cell] = 0;
}

/// The cell at which the search stops, or none where nothing waits any more.
fn search(head: Head, map: &Map, scratch: &mut Scratch) -> Option<usize> {
    loop {
        let cell = next_waiting(head, map, scratch)?;
        if cells_to_goal(head, map, cell).is_some() {
            return Some(cell);
        }
        expand(head, map, scratch, cell);
    }
}

/// Cost + learned of a cell that was reached.
fn total(map: &Map, scratch: &Scratch, cell: usize) -> usize {
    usize::from(scratch.cost[cell]) + usize::from(map.learned[cell])
}

/// The waiting cell with the smallest cost + learned; among these the larger cost; among these the lower number.
fn next_waiting(head: Head, map: &Map, scratch: &Scratch) -> Option<usize> {
    let (small_cost, high_number) = (planted(Fault::SmallerCostFirst), planted(Fault::HigherCellFirst));
    let mut best: Option<usize> = None;
    for cell in 0..head.cells() {
        if scratch.mark[cell] != WAITING {
            continue;
        }
        let better = best.map_or(true, |best| {
            let (here, there) = (total(map, scratch, cell), total(map, scratch, best));
            let (cost, best_cost) = (scratch.cost[cell], scratch.cost[best]);
            let larger = if small_cost { cost < best_cost } else { cost > best_cost };
            here < there || here == there && (larger || cost == best_cost && high_number)
        });
        if better {
            best = Some(cell);
        }
    }
    best
}

/// Marks the cell expanded, and reaches its free neighbours at one more step where that is less.
fn expand(head: Head, map: &Map, scratch: &mut Scratch, cell: usize) {
    scratch.mark[cell] = EXPANDED;
    for direction in DIRECTIONS {
        let Some(next) = head.step(cell, direction) else { continue };
        if map.free(next) && scratch.cost[cell] + 1 < scratch.cost[next] {
            scratch.cost[next] = scratch.cost[cell] + 1;
            scratch.trail[next] = direction;
            scratch.mark[next] = WAITING;
        }
    }
}

/// Each expanded cell's learned value becomes the route's length less the cell's cost.
fn learn(head: Head, map: &mut Map, scratch: &Scratch, length: usize, stop: usize) {
    let length = if planted(Fault::ForgetsLearnedAtStop) { usize::from(scratch.cost[stop]) } else { length };
    for cell in 0..head.cells() {
        let raised = scratch.mark[cell] == WAITING && planted(Fault::RaisesWaiting);
        if scratch.mark[cell] == EXPANDED || raised {
            map.learned[cell] = length.saturating_sub(usize::from(scratch.cost[cell])) as u16;
        }
    }
}

/// Links along the trail, found by walking it backwards from the stop to the cart's cell.
fn link_trail(head: Head, map: &mut Map, scratch: &Scratch, stop: usize) {
    let mut cell = stop;
    while cell != head.cell {
        let direction = scratch.trail[cell];
        let Some(before) = head.step(cell, opposite(direction)) else { return };
        map.link[before] = direction;
        cell = before;
    }
}
