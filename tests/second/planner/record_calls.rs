//! The calls for C over a record in the caller's bytes: report, plan and move. Load's checks come first, then the call's
//! own, and the record is rewritten where it stands.

use crate::checks::Refusal;
use crate::ground;
use crate::plot::{Head, Scratch};
use crate::record::{self, Read};
use crate::route;
use crate::search::{self, Outcome};

/// A refusal n answers this + n.
pub const REFUSED: u32 = 70_000;
pub const NO_WAY: u32 = 65_535;

pub fn answer_of(outcome: Outcome) -> u32 {
    match outcome {
        Outcome::Route(length) => length as u32,
        Outcome::NoWay => NO_WAY,
        Outcome::Arrived => 0,
    }
}

/// Reads the record, makes the call on what it holds, and writes the record again with the head that the call gives.
fn over(bytes: &mut [u8], call: impl FnOnce(&mut Read) -> Result<(u32, Head), Refusal>) -> u32 {
    let done = record::read(bytes, &[]).and_then(|mut read| {
        let (answer, head) = call(&mut read)?;
        record::save(head, &read.map(), bytes)?;
        Ok(answer)
    });
    done.unwrap_or_else(|refusal| REFUSED + refusal)
}

pub fn report(bytes: &mut [u8], cell: u32) -> u32 {
    over(bytes, |read| {
        let head = read.head;
        ground::report(head, &mut read.map(), cell as usize)?;
        Ok((0, head))
    })
}

pub fn plan(bytes: &mut [u8]) -> u32 {
    over(bytes, |read| {
        let head = read.head;
        let n = head.cells();
        let (mut mark, mut cost, mut trail) = (vec![0; n], vec![0; n], vec![0; n]);
        let mut scratch = Scratch { mark: &mut mark, cost: &mut cost, trail: &mut trail };
        let planned = search::plan(head, &mut read.map(), &mut scratch)?;
        Ok((answer_of(planned.outcome), head))
    })
}

pub fn advance(bytes: &mut [u8]) -> u32 {
    over(bytes, |read| {
        let head = route::advance(read.head, &mut read.map())?;
        Ok((head.cell as u32, head))
    })
}
