//! The refusals by number, and the checks that give 1 to 4. Each check is a plain walk over all that it speaks of.

use crate::fault::{planted, Fault};
use crate::plot::{Head, Map, DIRECTIONS, MAX_SIDE};

pub type Refusal = u32;
pub const SIDES: Refusal = 1;
pub const SHORT: Refusal = 2;
pub const OUTSIDE: Refusal = 3;
pub const UNSOUND: Refusal = 4;
pub const OWN_CELL: Refusal = 5;
pub const NO_ROUTE: Refusal = 6;
pub const FORM: Refusal = 8;

/// Ok where `holds`, and the refusal otherwise.
pub fn require(holds: bool, refusal: Refusal) -> Result<(), Refusal> {
    if holds {
        Ok(())
    } else {
        Err(refusal)
    }
}

pub fn sides(width: usize, height: usize) -> Result<(), Refusal> {
    let fits = |side: usize| (1..=MAX_SIDE).contains(&side);
    require(fits(width) && fits(height), SIDES)
}

pub fn room(n: usize, lengths: &[usize]) -> Result<(), Refusal> {
    require(lengths.iter().all(|&length| length >= n), SHORT)
}

pub fn inside(n: usize, cells: &[usize]) -> Result<(), Refusal> {
    require(cells.iter().all(|&cell| cell < n), OUTSIDE)
}

/// The checks that every call on a head begins with, in the order 1, 2, 3, 4. `lengths` are those of buffers lent beside the
/// map that need N entries too, `cells` the cells named beside the head's.
pub fn accepted(head: Head, map: &Map, lengths: &[usize], cells: &[usize]) -> Result<(), Refusal> {
    sides(head.width, head.height)?;
    let n = head.cells();
    let short = room(n, &map.lengths()).and(room(n, lengths));
    let outside = inside(n, &[head.goal, head.cell]).and(inside(n, cells));
    if planted(Fault::OutsideBeforeShort) {
        outside.and(short)?;
    }
    short?;
    outside?;
    require(sound(head, map), UNSOUND)
}

/// Whether the data are sound. The head's sides and cells are in order, and the buffers are long enough.
pub fn sound(head: Head, map: &Map) -> bool {
    let all_cells = 0..head.cells();
    map.ground[head.cell] == 0
        && map.learned[head.goal] == 0
        && map.link[head.goal] == 0
        && all_cells.clone().all(|cell| map.ground[cell] <= 1)
        && all_cells.clone().all(|cell| usize::from(map.learned[cell]) <= head.cells() - 1)
        && all_cells.clone().all(|cell| neighbours_agree(head, map, cell))
        && all_cells.clone().all(|cell| link_leads_on(head, map, cell))
}

/// Two neighbours that are both free differ by at most 1 in learned value.
fn neighbours_agree(head: Head, map: &Map, cell: usize) -> bool {
    DIRECTIONS.iter().all(|&direction| match head.step(cell, direction) {
        Some(next) if map.free(cell) && map.free(next) => map.learned[cell].abs_diff(map.learned[next]) <= 1,
        _ => true,
    })
}

/// A link is 0, or leaves a free cell for a free cell of the plot. A number above 4 is no direction and leads nowhere.
fn link_leads_on(head: Head, map: &Map, cell: usize) -> bool {
    match map.link[cell] {
        0 => true,
        direction => map.free(cell) && head.step(cell, direction).is_some_and(|next| map.free(next)),
    }
}
