//! Report, plan and move over a record in the caller's bytes, as [`Cart::save`](crate::Cart::save) wrote it: for a host that
//! keeps its cart's state as bytes. Each call tests the whole record first, and rewrites it in place with the same length.

use crate::calls;
use crate::refusal::{accepted, Refusal};

/// What a plan over a record answers; the count of expanded cells is told by [`Cart::plan`](crate::Cart::plan) only.
#[derive(Clone, Copy, Debug, PartialEq, Eq, Hash)]
pub enum Plan {
    /// The cart is on the goal.
    Arrived,
    /// A route stands.
    Route {
        /// Its steps: the fewest there are over cells not known blocked.
        length: u32,
    },
    /// No way leads to the goal over cells not known blocked.
    NoWay,
}

/// A cell is blocked. A cell already known blocked is accepted.
pub fn report(record: &mut [u8], cell: u32) -> Result<(), Refusal> {
    accepted(calls::record_report(record, cell)).map(drop)
}

/// Plans a shortest way to the goal.
pub fn plan(record: &mut [u8]) -> Result<Plan, Refusal> {
    Ok(match accepted(calls::record_plan(record))? {
        0 => Plan::Arrived,
        calls::NO_WAY => Plan::NoWay,
        length => Plan::Route { length },
    })
}

/// One step along the route. Answers the cell that the cart is then on; on the goal it stays.
pub fn advance(record: &mut [u8]) -> Result<u32, Refusal> {
    accepted(calls::record_move(record))
}
