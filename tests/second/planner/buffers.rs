//! The calls for C over buffers: a head array of five numbers (width, height, goal, cart's cell, the last plan's count of
//! expanded cells) beside the lent buffers. An array shorter than five is refused with 2 before anything else.

use crate::checks::{self, Refusal, SHORT};
use crate::ground;
use crate::plot::{Head, Map, Scratch};
use crate::record;
use crate::record_calls::{answer_of, REFUSED};
use crate::route;
use crate::search;

pub const HEAD: usize = 5;

fn long_enough(head: &[usize]) -> Result<(), Refusal> {
    checks::require(head.len() >= HEAD, SHORT)
}

fn head_of(head: &[usize]) -> Result<Head, Refusal> {
    long_enough(head)?;
    Ok(Head { width: head[0], height: head[1], goal: head[2], cell: head[3] })
}

/// Sets the whole head array as a layout or a load leaves it.
fn set_head(array: &mut [usize], head: Head) {
    array[..HEAD].copy_from_slice(&[head.width, head.height, head.goal, head.cell, 0]);
}

fn answer(result: Result<u32, Refusal>) -> u32 {
    result.unwrap_or_else(|refusal| REFUSED + refusal)
}

pub fn layout(sides: [usize; 2], start: usize, goal: usize, head: &mut [usize], map: &mut Map) -> u32 {
    answer(long_enough(head).and_then(|()| {
        set_head(head, ground::layout(sides[0], sides[1], start, goal, map)?);
        Ok(0)
    }))
}

pub fn report(head: &[usize], map: &mut Map, cell: usize) -> u32 {
    answer(head_of(head).and_then(|head| {
        ground::report(head, map, cell)?;
        Ok(0)
    }))
}

pub fn plan(head: &mut [usize], map: &mut Map, scratch: &mut Scratch) -> u32 {
    answer(head_of(head).and_then(|given| {
        let planned = search::plan(given, map, scratch)?;
        head[4] = planned.expanded;
        Ok(answer_of(planned.outcome))
    }))
}

pub fn advance(head: &mut [usize], map: &mut Map) -> u32 {
    answer(head_of(head).and_then(|given| {
        head[3] = route::advance(given, map)?.cell;
        Ok(head[3] as u32)
    }))
}

pub fn list(head: &[usize], map: &Map, list: &mut [u16]) -> u32 {
    answer(head_of(head).and_then(|head| Ok(route::list(head, map, list)? as u32)))
}

/// The bare number of list's refusal, or 0.
pub fn question(head: &[usize], map: &Map, list: &[u16]) -> u32 {
    match head_of(head) {
        Ok(head) => route::question(head, map, list.len()),
        Err(refusal) => refusal,
    }
}

pub fn save(head: &[usize], map: &Map, bytes: &mut [u8]) -> u32 {
    answer(head_of(head).and_then(|head| Ok(record::save(head, map, bytes)? as u32)))
}

pub fn load(bytes: &[u8], head: &mut [usize], map: &mut Map) -> u32 {
    answer(long_enough(head).and_then(|()| {
        set_head(head, record::load(bytes, map)?);
        Ok(0)
    }))
}
