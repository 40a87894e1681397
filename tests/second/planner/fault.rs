//! Faults that can be planted in this planner, so that the comparison can show that it finds them. None is planted by
//! itself. Most are document 01's "shortcuts that look right".

use std::sync::atomic::{AtomicUsize, Ordering};

#[derive(Clone, Copy, Debug, PartialEq, Eq)]
pub enum Fault {
    SmallerCostFirst,
    HigherCellFirst,
    RaisesWaiting,
    ForgetsLearnedAtStop,
    TrustsOldLinks,
    KeepsNeighbourLinks,
    LearnsFromNoWay,
    CountsStop,
    MoveKeepsLink,
    WritesBeyond,
    OutsideBeforeShort,
    TakesSpareBits,
}

pub const ALL: [Fault; 12] = [
    Fault::SmallerCostFirst,
    Fault::HigherCellFirst,
    Fault::RaisesWaiting,
    Fault::ForgetsLearnedAtStop,
    Fault::TrustsOldLinks,
    Fault::KeepsNeighbourLinks,
    Fault::LearnsFromNoWay,
    Fault::CountsStop,
    Fault::MoveKeepsLink,
    Fault::WritesBeyond,
    Fault::OutsideBeforeShort,
    Fault::TakesSpareBits,
];

/// 0, or one more than the planted fault's place among all.
static PLANTED: AtomicUsize = AtomicUsize::new(0);

pub fn plant(fault: Option<Fault>) {
    PLANTED.store(fault.map_or(0, |fault| fault as usize + 1), Ordering::Relaxed);
}

pub fn planted(fault: Fault) -> bool {
    PLANTED.load(Ordering::Relaxed) == fault as usize + 1
}

pub fn named(name: &str) -> Option<Fault> {
    ALL.into_iter().find(|fault| format!("{fault:?}") == name)
}
