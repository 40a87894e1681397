//! The plot that the directed cases start from: 4×3, cart at 0, goal at 11, cell 5 blocked, and a planned route.

use crate::case::Builder;
use crate::op::{Buffer, Call};
use second::plot::Head;

pub const N: usize = 12;
pub const RECORD: usize = 65;
/// How many cells the planned route has.
pub const ROUTE: usize = 6;
pub const HEAD: Head = Head { width: 4, height: 3, goal: 11, cell: 0 };

pub fn lay_out() -> Call {
    Call::Layout { sides: [HEAD.width, HEAD.height], start: HEAD.cell, goal: HEAD.goal }
}

/// Buffers with some entries to spare, and the record of the state in `bytes`, lent as long as it is.
pub fn planned(family: &'static str) -> Builder {
    let mut build = Builder::new(family, N + 4, RECORD + 4, 7);
    build.accepted(lay_out());
    build.accepted(Call::Report(5));
    build.accepted(Call::Plan);
    build.save_and_fit();
    build
}

/// The same with the cart on the goal.
pub fn arrived(family: &'static str) -> Builder {
    let mut build = planned(family);
    build.set(Buffer::Head, 3, HEAD.goal as u64);
    build
}

/// The calls that are given a head; the reported cell is in order.
pub const HEAD_CALLS: [Call; 6] = [Call::Report(6), Call::Plan, Call::Move, Call::List, Call::Question, Call::Save];

/// The calls that are given a record.
pub const RECORD_CALLS: [Call; 4] = [Call::RecordReport(6), Call::RecordPlan, Call::RecordMove, Call::Load];

/// Where in a record of N cells the parts lie.
pub const RECORD_GOAL: usize = 11;
pub const RECORD_CELL: usize = 16;
pub const RECORD_GROUND: usize = 21;
pub fn record_learned(n: usize) -> usize {
    RECORD_GROUND + n.div_ceil(8) + 3
}
pub fn record_link(n: usize) -> usize {
    record_learned(n) + 2 * n + 3
}
