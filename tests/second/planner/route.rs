//! The route: whether one stands, the move along it, its listing, and the question whether list would write.

use crate::checks::{self, Refusal, NO_ROUTE, SHORT};
use crate::fault::{planted, Fault};
use crate::plot::{Head, Map};

/// The number of cells from `from` to the goal, both counted, where links lead there with the learned value falling by
/// exactly 1 at each step. It is 1 at the goal itself.
pub fn cells_to_goal(head: Head, map: &Map, from: usize) -> Option<usize> {
    let mut cell = from;
    let mut count = 1;
    while cell != head.goal {
        let next = head.step(cell, map.link[cell])?;
        let falls = map.learned[cell] == map.learned[next] + 1;
        // The learned value bounds the walk; without the comparison only the number of cells does.
        if !falls && !(planted(Fault::TrustsOldLinks) && count < head.cells()) {
            return None;
        }
        cell = next;
        count += 1;
    }
    Some(count)
}

/// One step along the route. The next head; on the goal, the head as it was.
pub fn advance(head: Head, map: &mut Map) -> Result<Head, Refusal> {
    checks::accepted(head, map, &[], &[])?;
    if head.cell == head.goal {
        return Ok(head);
    }
    cells_to_goal(head, map, head.cell).ok_or(NO_ROUTE)?;
    let next = head.step(head.cell, map.link[head.cell]).ok_or(NO_ROUTE)?;
    if !planted(Fault::MoveKeepsLink) {
        map.link[head.cell] = 0;
    }
    Ok(Head { cell: next, ..head })
}

/// How many cells list would write to a buffer of `room` entries. The buffer's own 2 comes last.
fn listed(head: Head, map: &Map, room: usize) -> Result<usize, Refusal> {
    checks::accepted(head, map, &[], &[])?;
    let count = cells_to_goal(head, map, head.cell).ok_or(NO_ROUTE)?;
    checks::require(room >= count, SHORT)?;
    Ok(count)
}

/// Writes the route's cells from the cart's to the goal, and gives their number.
pub fn list(head: Head, map: &Map, list: &mut [u16]) -> Result<usize, Refusal> {
    let count = listed(head, map, list.len())?;
    let mut cell = head.cell;
    for entry in list[..count].iter_mut() {
        *entry = cell as u16;
        // After the last entry, the goal's, there is no step, and none is needed.
        cell = head.step(cell, map.link[cell]).unwrap_or(cell);
    }
    Ok(count)
}

/// The refusal that list would give, or 0 where it would write.
pub fn question(head: Head, map: &Map, room: usize) -> u32 {
    listed(head, map, room).err().unwrap_or(0)
}
