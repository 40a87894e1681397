//! Sizes and cells at 0, at the limit, one past it, and where fewer bits would cut them down to good ones.

use crate::base::{lay_out, planned, HEAD, HEAD_CALLS, N};
use crate::case::{Builder, Case};
use crate::op::{Buffer, Call};
use crate::random::NUMBERS;
use second::record::record_length;

pub fn all(sink: &mut dyn FnMut(Case)) {
    head_entries(sink);
    reported_cells(sink);
    layouts(sink);
    layout_sides(sink);
    sink(largest());
    sink(smallest());
}

/// Each entry of the head array at each number, before every call.
fn head_entries(sink: &mut dyn FnMut(Case)) {
    for entry in 0..4 {
        for number in NUMBERS.into_iter().chain([N - 1, N, N + 1]) {
            let mut build = planned("numbers");
            build.set(Buffer::Head, entry, number as u64);
            for call in HEAD_CALLS {
                if entry < 2 && !(1..=64).contains(&number) {
                    build.refused(call, 1);
                } else if entry >= 2 && number >= N {
                    build.refused(call, 3);
                } else {
                    build.call(call);
                }
            }
            sink(build.case);
        }
    }
}

fn reported_cells(sink: &mut dyn FnMut(Case)) {
    for number in NUMBERS.into_iter().chain([N - 1, N, N + 1]) {
        let mut build = planned("numbers");
        // The call over a record takes 32 bits; cut to these, the number is another.
        let cut = number as u32;
        for (call, cell) in [(Call::Report(number), number), (Call::RecordReport(cut), cut as usize)] {
            if cell >= N {
                build.refused(call, 3);
            } else if cell == HEAD.cell {
                build.refused(call, 5);
            } else {
                build.accepted(call);
            }
        }
        sink(build.case);
    }
}

/// Each number of a layout in turn, in buffers that hold the plot and in some that do not.
fn layouts(sink: &mut dyn FnMut(Case)) {
    for place in 0..4 {
        for number in NUMBERS.into_iter().chain([N - 1, N, N + 1]) {
            let mut numbers = [HEAD.width, HEAD.height, HEAD.cell, HEAD.goal];
            numbers[place] = number;
            let call = Call::Layout { sides: [numbers[0], numbers[1]], start: numbers[2], goal: numbers[3] };
            for room in [N, 64 * 4] {
                let mut build = Builder::new("numbers", room, 40, number as u64 % 100);
                if place < 2 && !(1..=64).contains(&number) {
                    build.refused(call, 1);
                } else if numbers[0] * numbers[1] > room {
                    build.refused(call, 2);
                } else if place >= 2 && number >= N {
                    build.refused(call, 3);
                } else {
                    build.call(call);
                }
                build.call(Call::Plan);
                sink(build.case);
            }
        }
    }
}

/// Every pair of sides; a product that runs over must not be taken for a small plot.
fn layout_sides(sink: &mut dyn FnMut(Case)) {
    for width in NUMBERS {
        let mut build = Builder::new("numbers", 140, 40, 3);
        for height in NUMBERS {
            build.call(Call::Layout { sides: [width, height], start: 0, goal: 0 });
        }
        sink(build.case);
    }
}

/// 64×64 with exactly so many entries, from corner to corner and back.
fn largest() -> Case {
    let mut build = Builder::new("numbers", 4096, 12_827, 5);
    build.accepted(Call::Layout { sides: [64, 64], start: 0, goal: 4095 });
    build.refused(Call::Report(4096), 3);
    build.accepted(Call::Report(4094));
    build.accepted(Call::Plan);
    build.accepted(Call::List);
    build.accepted(Call::Move);
    build.accepted(Call::Save);
    build.refused(Call::RecordReport(4096), 3);
    build.accepted(Call::RecordReport(4031));
    build.accepted(Call::RecordPlan);
    build.refused(Call::RecordMove, 6);
    build.accepted(Call::Load);
    build.accepted(Call::Plan);
    build.accepted(Call::Layout { sides: [64, 64], start: 4095, goal: 0 });
    build.accepted(Call::Plan);
    build.accepted(Call::List);
    for (buffer, length) in [(Buffer::Ground, 4095), (Buffer::Ground, 4096), (Buffer::Link, 4095), (Buffer::Link, 0)] {
        build.lend(buffer, length);
        build.call(Call::Plan);
        build.call(Call::Layout { sides: [64, 64], start: 4095, goal: 4095 });
    }
    build.case
}

/// One cell: all is on the goal.
fn smallest() -> Case {
    let mut build = Builder::new("numbers", 1, record_length(1), 5);
    build.accepted(Call::Layout { sides: [1, 1], start: 0, goal: 0 });
    for call in [Call::Plan, Call::Move, Call::List, Call::Question, Call::Save] {
        build.accepted(call);
    }
    for call in [Call::RecordPlan, Call::RecordMove, Call::Load] {
        build.accepted(call);
    }
    build.refused(Call::Report(0), 5);
    build.refused(Call::Report(1), 3);
    build.refused(Call::RecordReport(0), 5);
    build.refused(Call::RecordReport(1), 3);
    build.refused(lay_out(), 2);
    build.case
}
