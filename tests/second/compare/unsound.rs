//! Data that are not sound, in each way that document 01 names and in that way alone; and data that only look unsound.

use crate::base::{planned, record_learned, record_link, HEAD, HEAD_CALLS, N, RECORD_CALLS, RECORD_GROUND};
use crate::case::{Builder, Case};
use crate::op::{Buffer, Call};
use second::plot::DIRECTIONS;

pub fn all(sink: &mut dyn FnMut(Case)) {
    for (family, all, unsound) in [("unsound data", breaches(), true), ("data that only look unsound", likenesses(), false)]
    {
        for changes in all {
            sink(in_buffers(planned(family), &changes, unsound));
            // A bit of a record's ground is 0 or 1, and there is nothing in it beyond the last cell.
            if changes.iter().all(|&(buffer, index, value)| index < N && (buffer != Buffer::Ground || value < 2)) {
                sink(in_record(planned(family), &changes, unsound));
            }
        }
    }
    for across in [false, true] {
        for step in 1..STRIP {
            for (rise, unsound) in [(1, false), (2, true)] {
                sink(strip(across, step, rise, unsound));
            }
        }
    }
    for (value, unsound) in [(N as u64 - 1, false), (N as u64, true), (65_535, true)] {
        sink(alone(value, unsound));
    }
}

/// Entries of the base plot that are changed together.
type Changes = Vec<(Buffer, usize, u64)>;

/// Each breach on the base plot: blocked 5; links 1, 1, 1, 2 from 0 to 3, and 2 from 7 to the goal.
fn breaches() -> Vec<Changes> {
    let mut all: Vec<Changes> = Vec::new();
    // A byte of ground that is neither 0 nor 1.
    for cell in 0..N {
        all.extend([2, 255].map(|value| vec![(Buffer::Ground, cell, value)]));
    }
    // The cart's cell is blocked; its link goes with it, as at any blocked cell.
    all.push(vec![(Buffer::Ground, HEAD.cell, 1), (Buffer::Link, HEAD.cell, 0)]);
    // A learned value above N-1, at a blocked cell, where no neighbour matters.
    all.extend([N as u64, 255, 256, 65_535].map(|value| vec![(Buffer::Learned, 5, value)]));
    // The goal's learned value, free and blocked.
    all.push(vec![(Buffer::Learned, HEAD.goal, 1)]);
    all.push(vec![(Buffer::Learned, HEAD.goal, 1), (Buffer::Ground, HEAD.goal, 1), (Buffer::Link, 7, 0)]);
    // A learned value 2 above its least free neighbour's, and one 2 below the greatest's.
    for cell in (0..N).filter(|&cell| cell != 5 && cell != HEAD.goal) {
        let beside = DIRECTIONS.iter().filter_map(|&direction| HEAD.step(cell, direction)).filter(|&next| next != 5);
        let values: Vec<u64> = beside.map(|next| HEAD.manhattan(next, HEAD.goal) as u64).collect();
        let (least, greatest) =
            values.iter().fold((99, 0), |(least, greatest), &value| (value.min(least), value.max(greatest)));
        all.push(vec![(Buffer::Learned, cell, least + 2)]);
        all.extend(greatest.checked_sub(2).map(|value| vec![(Buffer::Learned, cell, value)]));
    }
    // Links that are no direction.
    for cell in (0..N).filter(|&cell| cell != 5 && cell != HEAD.goal) {
        all.extend([5, 6, 128, 255].map(|value| vec![(Buffer::Link, cell, value)]));
    }
    for cell in 0..N {
        for direction in DIRECTIONS {
            let link = vec![(Buffer::Link, cell, u64::from(direction))];
            let next = HEAD.step(cell, direction);
            // At the goal, at the blocked cell, off the plot, or to the blocked cell.
            if cell == HEAD.goal || cell == 5 || next.is_none() || next == Some(5) {
                all.push(link);
            }
        }
    }
    all
}

/// Changes that leave the base plot sound.
fn likenesses() -> Vec<Changes> {
    let mut all = vec![
        vec![(Buffer::Learned, 5, N as u64 - 1)],
        vec![(Buffer::Learned, 5, 0)],
        vec![(Buffer::Ground, HEAD.goal, 1), (Buffer::Link, 7, 0)],
        vec![(Buffer::Ground, 8, 1)],
        vec![(Buffer::Ground, 5, 0)],
        (0..N).map(|cell| (Buffer::Learned, cell, 0)).collect(),
        (0..N).map(|cell| (Buffer::Link, cell, 0)).collect(),
        // Two links that lead to each other.
        vec![(Buffer::Link, 8, 1), (Buffer::Link, 9, 3)],
        // Entries beyond the last cell are not looked at.
        vec![(Buffer::Ground, N, 7), (Buffer::Learned, N, 9999), (Buffer::Link, N, 9)],
    ];
    for cell in (0..N).filter(|&cell| cell != HEAD.goal && cell != 5) {
        for direction in DIRECTIONS {
            if HEAD.step(cell, direction).is_some_and(|next| next != 5) {
                all.push(vec![(Buffer::Link, cell, u64::from(direction))]);
            }
        }
    }
    all
}

fn make(build: &mut Builder, call: Call, unsound: bool) {
    if unsound {
        build.refused(call, 4);
    } else {
        build.call(call);
    }
}

fn in_buffers(mut build: Builder, changes: &Changes, unsound: bool) -> Case {
    for &(buffer, index, value) in changes {
        build.set(buffer, index, value);
    }
    // The question first: it changes nothing, and tells that what looks unsound is none.
    let asked = build.call(Call::Question);
    if (asked == 4) != unsound {
        build.case.missed = Some(format!("the question answers {asked}"));
    }
    for call in HEAD_CALLS.into_iter().chain([Call::Report(HEAD.cell)]) {
        make(&mut build, call, unsound);
    }
    build.refused(Call::Report(N), 3);
    build.case
}

/// The same changes in a record.
fn in_record(mut build: Builder, changes: &Changes, unsound: bool) -> Case {
    for &(buffer, index, value) in changes {
        match buffer {
            Buffer::Ground => {
                let at = RECORD_GROUND + index / 8;
                let others = build.world.entry(Buffer::Bytes, at) & !(1 << (index % 8));
                build.set(Buffer::Bytes, at, others | value << (index % 8));
            }
            Buffer::Learned => {
                let at = record_learned(N) + 2 * index;
                build.set(Buffer::Bytes, at, value >> 8);
                build.set(Buffer::Bytes, at + 1, value & 255);
            }
            _ => build.set(Buffer::Bytes, record_link(N) + index, value),
        }
    }
    for call in RECORD_CALLS {
        make(&mut build, call, unsound);
    }
    // In an unsound record a cell outside gives 4, for load's checks come first.
    build.refused(Call::RecordReport(N as u32), if unsound { 4 } else { 3 });
    build.case
}

const STRIP: usize = 7;

/// A strip on which the learned value rises at one step only: by 1 it is sound, by 2 it isn't.
fn strip(across: bool, step: usize, rise: u64, unsound: bool) -> Case {
    let mut build = Builder::new("unsound data", STRIP + 1, 60, 2);
    let sides = if across { [STRIP, 1] } else { [1, STRIP] };
    build.accepted(Call::Layout { sides, start: STRIP - 1, goal: 0 });
    for cell in 0..STRIP {
        build.set(Buffer::Learned, cell, if cell < step { 0 } else { rise });
    }
    for call in [Call::Question, Call::List, Call::Move, Call::Save, Call::Report(3), Call::Plan] {
        make(&mut build, call, unsound);
    }
    build.case
}

/// A free cell between blocked ones: its learned value is bound by N alone.
fn alone(value: u64, unsound: bool) -> Case {
    let mut build = planned("unsound data");
    build.accepted(Call::Report(1));
    build.accepted(Call::Report(4));
    build.set(Buffer::Learned, HEAD.cell, value);
    for call in HEAD_CALLS {
        make(&mut build, call, unsound);
    }
    build.case
}
