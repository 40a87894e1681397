//! Whole drives over larger plots: to the goal or until there is no way, and then again from another cell.

use crate::case::{Builder, Case};
use crate::op::{Buffer, Call};
use crate::plots::{plot, Plot};
use crate::random::Random;
use second::plot::{Head, DIRECTIONS};
use second::record::record_length;

/// What comes back after a call is large here, so that a case may make only so many.
const CALLS: usize = 300;

pub fn case(random: &mut Random) -> Case {
    let (width, height) = (random.from_to(12, 64), random.from_to(12, 64));
    let mut plot = plot(random, width, height);
    let n = plot.n();
    let mut build = Builder::new("whole drives", n, record_length(n), random.next() % 1000);
    let start = plot.free_cell(random);
    // Now and then the goal is truly blocked, and all that can be reached is searched.
    let goal = if random.one_in(3) { random.below(n) } else { plot.free_cell(random) };
    build.accepted(Call::Layout { sides: [width, height], start, goal });
    while build.calls() < CALLS {
        drive(&mut build, &plot);
        let cell = plot.free_cell(random);
        build.set(Buffer::Head, 3, cell as u64);
        if random.one_in(3) {
            build.save_and_fit();
            build.accepted(Call::RecordPlan);
        }
    }
    build.case
}

fn drive(build: &mut Builder, plot: &Plot) {
    while build.calls() < CALLS {
        let head = Head { width: plot.width, height: plot.height, goal: build.head(2), cell: build.head(3) };
        for cell in DIRECTIONS.iter().filter_map(|&direction| head.step(head.cell, direction)) {
            if plot.blocked[cell] && build.world.entry(Buffer::Ground, cell) == 0 {
                build.accepted(Call::Report(cell));
            }
        }
        if build.call(Call::Move) >= 70_000 && build.call(Call::Plan) == 65_535 {
            return;
        }
        if head.cell == head.goal {
            return;
        }
    }
}
