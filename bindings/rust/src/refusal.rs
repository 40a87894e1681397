//! Why a call is refused, by document 01's numbers, and how the archive's answers tell it.

use std::error::Error;
use std::fmt;

/// Why a call was refused. A refused call has changed nothing.
#[derive(Clone, Copy, Debug, PartialEq, Eq, Hash)]
#[repr(u8)]
pub enum Refusal {
    /// A side is 0 or above 64.
    Sides = 1,
    /// A lent slice is shorter than what is to be written there.
    Short = 2,
    /// The goal, the cart's cell, the start or a reported cell is not on the plot.
    Outside = 3,
    /// The data of a record do not fit together.
    Unsound = 4,
    /// The reported cell is the cart's own.
    OwnCell = 5,
    /// No route stands.
    NoRoute = 6,
    /// The bytes are no record.
    Form = 8,
}

impl Refusal {
    /// Document 01's number for this refusal.
    pub fn number(self) -> u8 {
        self as u8
    }
}

impl fmt::Display for Refusal {
    fn fmt(&self, out: &mut fmt::Formatter<'_>) -> fmt::Result {
        out.write_str(match self {
            Refusal::Sides => "a side is 0 or above 64: correct the sizes",
            Refusal::Short => "a lent slice is too short: lend more room",
            Refusal::Outside => "a cell is not on the plot: correct the cell",
            Refusal::Unsound => "what was learned does not fit the ground: lay out or load anew",
            Refusal::OwnCell => "the reported cell is the cart's own: look again, the cart stands there",
            Refusal::NoRoute => "no route stands: plan first",
            Refusal::Form => "the bytes are no record, or a damaged one: use another",
        })
    }
}

impl Error for Refusal {}

/// A refusal n answers this + n; every answer below is an accepted call's.
const REFUSED: u32 = 70_000;

/// The archive's answer, or the refusal that it tells.
pub(crate) fn accepted(answer: u32) -> Result<u32, Refusal> {
    match answer.checked_sub(REFUSED) {
        None => Ok(answer),
        Some(1) => Err(Refusal::Sides),
        Some(2) => Err(Refusal::Short),
        Some(3) => Err(Refusal::Outside),
        Some(4) => Err(Refusal::Unsound),
        Some(5) => Err(Refusal::OwnCell),
        Some(6) => Err(Refusal::NoRoute),
        // 8: the archive is proved to answer no other
        Some(_) => Err(Refusal::Form),
    }
}
