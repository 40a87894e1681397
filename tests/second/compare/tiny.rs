//! Every plot of up to six cells: every ground, start and goal; first planned with nothing known, then with all.

use crate::case::{Builder, Case};
use crate::op::{Buffer, Call};
use second::record::record_length;

const CELLS: usize = 6;

pub fn all(sink: &mut dyn FnMut(Case)) {
    let all_sides = (1..=CELLS).flat_map(|width| (1..=CELLS / width).map(move |height| [width, height]));
    all_sides.for_each(|sides| all_of(sides, sink));
}

pub fn all_of(sides: [usize; 2], sink: &mut dyn FnMut(Case)) {
    let n = sides[0] * sides[1];
    for ground in 0..1 << n {
        for start in (0..n).filter(|start| ground >> start & 1 == 0) {
            for goal in 0..n {
                sink(case(sides, ground, start, goal));
            }
        }
    }
}

fn case(sides: [usize; 2], ground: usize, start: usize, goal: usize) -> Case {
    let n = sides[0] * sides[1];
    let mut build = Builder::new("every small plot", n + 1, record_length(n), 1);
    build.accepted(Call::Layout { sides, start, goal });
    // The first plan knows nothing, so that the reports meet links.
    build.accepted(Call::Plan);
    for cell in (0..n).filter(|cell| ground >> cell & 1 == 1) {
        build.accepted(Call::Report(cell));
    }
    build.accepted(Call::Plan);
    build.save_and_fit();
    build.call(Call::List);
    for _ in 0..n {
        if build.call(Call::Move) >= 70_000 || build.head(3) == goal {
            break;
        }
    }
    build.call(Call::RecordMove);
    build.accepted(Call::RecordPlan);
    // From every other cell, with what was learned and linked before.
    for cell in (0..n).filter(|cell| ground >> cell & 1 == 0) {
        build.set(Buffer::Head, 3, cell as u64);
        build.accepted(Call::Plan);
    }
    build.case
}
