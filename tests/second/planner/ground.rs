//! Layout and report: the calls that make the ground and block a cell of it.

use crate::checks::{self, Refusal, OWN_CELL};
use crate::fault::{planted, Fault};
use crate::plot::{opposite, Head, Map, DIRECTIONS};

/// Ground all free, learned the Manhattan distance to the goal, no links.
pub fn layout(width: usize, height: usize, start: usize, goal: usize, map: &mut Map) -> Result<Head, Refusal> {
    checks::sides(width, height)?;
    let head = Head { width, height, goal, cell: start };
    checks::room(head.cells(), &map.lengths())?;
    checks::inside(head.cells(), &[start, goal])?;
    for cell in 0..head.cells() {
        map.ground[cell] = 0;
        map.learned[cell] = head.manhattan(cell, goal) as u16;
        map.link[cell] = 0;
    }
    if planted(Fault::WritesBeyond) && map.link.len() > head.cells() {
        map.link[head.cells()] = 0;
    }
    Ok(head)
}

/// The cell is blocked, and no link leaves it or leads to it any more. One already blocked has none, and stays as it is.
pub fn report(head: Head, map: &mut Map, cell: usize) -> Result<(), Refusal> {
    checks::accepted(head, map, &[], &[cell])?;
    checks::require(cell != head.cell, OWN_CELL)?;
    if !map.free(cell) {
        return Ok(());
    }
    map.ground[cell] = 1;
    map.link[cell] = 0;
    if planted(Fault::KeepsNeighbourLinks) {
        return Ok(());
    }
    for direction in DIRECTIONS {
        if let Some(neighbour) = head.step(cell, direction) {
            if map.link[neighbour] == opposite(direction) {
                map.link[neighbour] = 0;
            }
        }
    }
    Ok(())
}
