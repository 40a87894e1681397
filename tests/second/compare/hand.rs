//! States made by hand, entry by entry: sound, but such as no sequence of calls need ever leave.

use crate::case::{Builder, Case};
use crate::op::{Buffer, Call};
use crate::plots::plot;
use crate::random::Random;
use second::plot::{Head, DIRECTIONS};

/// The largest values that are nowhere above these, 0 at the goal, and differ by at most 1 between free neighbours.
fn fitted(head: Head, free: &[bool], mut values: Vec<usize>) -> Vec<usize> {
    values[head.goal] = 0;
    for _ in 0..head.cells() {
        for cell in 0..head.cells() {
            for next in DIRECTIONS.iter().filter_map(|&direction| head.step(cell, direction)) {
                if free[cell] && free[next] {
                    values[cell] = values[cell].min(values[next] + 1);
                }
            }
        }
    }
    values
}

/// A link that is sound there: most often the one along which the learned value falls, if there is one.
fn link(random: &mut Random, head: Head, free: &[bool], learned: &[usize], cell: usize) -> u8 {
    let leads = |direction: &u8| head.step(cell, *direction).is_some_and(|next| free[next]);
    let good: Vec<u8> = DIRECTIONS.into_iter().filter(leads).collect();
    if cell == head.goal || !free[cell] || good.is_empty() || random.one_in(5) {
        return 0;
    }
    let falls = |direction: &u8| head.step(cell, *direction).is_some_and(|next| learned[next] + 1 == learned[cell]);
    match good.iter().copied().find(falls) {
        Some(direction) if !random.one_in(4) => direction,
        _ => random.pick(&good),
    }
}

/// Gives the state another goal, and learned values and links to fit it and the ground.
pub fn state(random: &mut Random, build: &mut Builder, goal: usize) {
    let head = Head { width: build.head(0), height: build.head(1), goal, cell: build.head(3) };
    let n = head.cells();
    let free: Vec<bool> = (0..n).map(|cell| build.world.entry(Buffer::Ground, cell) == 0).collect();
    let most = random.pick(&[1, 3, n, n, n]).min(n);
    let values = (0..n).map(|_| if random.one_in(3) { random.below(most) } else { n - 1 }).collect();
    let learned = fitted(head, &free, values);
    build.set(Buffer::Head, 2, goal as u64);
    for cell in 0..n {
        let link = link(random, head, &free, &learned, cell);
        build.set(Buffer::Learned, cell, learned[cell] as u64);
        build.set(Buffer::Link, cell, u64::from(link));
    }
}

/// A small plot with a state made by hand, and calls on it; every call must take it as sound.
pub fn case(random: &mut Random) -> Case {
    let (width, height) = (random.from_to(1, 6), random.from_to(1, 6));
    let mut plot = plot(random, width, height);
    let (n, start) = (plot.n(), plot.free_cell(random));
    let mut build = Builder::new("sound states made by hand", n + 2, 200, random.next() % 1000);
    build.accepted(Call::Layout { sides: [width, height], start, goal: start });
    for cell in (0..n).filter(|&cell| plot.blocked[cell]) {
        build.set(Buffer::Ground, cell, 1);
    }
    let goal = random.below(n);
    state(random, &mut build, goal);
    let asked = build.call(Call::Question);
    if [1, 2, 3, 4].contains(&asked) {
        build.case.missed = Some(format!("the state made by hand is refused with {asked}"));
    }
    for _ in 0..random.from_to(1, 3) {
        build.accepted(Call::Plan);
        build.call(Call::List);
        build.call(Call::Move);
        build.save_and_fit();
        build.accepted(Call::RecordPlan);
        let cell = random.below(n);
        build.call(Call::Report(cell));
        build.call(Call::RecordReport(cell as u32));
        build.call(Call::RecordMove);
        let cell = plot.free_cell(random);
        if build.world.entry(Buffer::Ground, cell) == 0 {
            build.set(Buffer::Head, 3, cell as u64);
        }
    }
    build.case
}
