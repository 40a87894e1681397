//! Several things wrong at once, at random: which refusal is given depends on their order alone.

use crate::base::{planned, record_learned, HEAD_CALLS, N, RECORD_CALLS, RECORD_CELL, RECORD_GOAL, RECORD_GROUND};
use crate::case::{Builder, Case};
use crate::op::{Buffer, Call, BUFFERS};
use crate::random::{Random, NUMBERS};

pub fn case(random: &mut Random) -> Case {
    let mut build = planned("several things wrong");
    for _ in 0..random.from_to(2, 4) {
        wrong(random, &mut build);
    }
    for call in HEAD_CALLS.into_iter().chain(RECORD_CALLS) {
        if !random.one_in(3) {
            build.call(call);
        }
    }
    let cell = random.pick(&[0, 5, N - 1, N, usize::MAX]);
    build.call(Call::Report(cell));
    build.call(Call::RecordReport(cell as u32));
    let sides = [random.pick(&[4, 4, 0, 65]), random.pick(&[3, 3, 64, 65])];
    let (start, goal) = (random.pick(&[0, N]), random.pick(&[0, N - 1, N]));
    build.call(Call::Layout { sides, start, goal });
    build.case
}

fn wrong(random: &mut Random, build: &mut Builder) {
    let at = random.below(N);
    match random.below(12) {
        0 => build.set(Buffer::Head, random.below(2), random.pick(&[0, 65, 64, 1, u64::MAX])),
        1 => build.set(Buffer::Head, random.from_to(2, 3), random.pick(&NUMBERS) as u64),
        2 => build.set(Buffer::Head, random.from_to(2, 3), random.pick(&[0, 5, N as u64 - 1, N as u64])),
        3 => build.set(Buffer::Ground, at, random.pick(&[0, 1, 2])),
        4 => build.set(Buffer::Learned, at, random.below(N + 2) as u64),
        5 => build.set(Buffer::Link, at, random.below(6) as u64),
        6 | 7 => {
            let buffer = BUFFERS[random.from_to(1, 7)].0;
            build.lend(buffer, random.pick(&[0, 1, N - 1, N]));
        }
        8 if random.one_in(3) => build.lend(Buffer::Head, random.pick(&[0, 4, 5, 8])),
        _ => wrong_record(random, build),
    }
}

fn wrong_record(random: &mut Random, build: &mut Builder) {
    match random.below(8) {
        // Tags and lengths of the first two fields, and of the rest.
        0 => build.set(Buffer::Bytes, random.pick(&[0, 2, 4, 6]), random.below(3) as u64),
        1 => build.set(Buffer::Bytes, random.pick(&[8, 10, 13, 15, 18, 20]), random.below(9) as u64),
        // Sides, which may stay in order and have another product.
        2 => build.set(Buffer::Bytes, random.pick(&[3, 7]), random.pick(&[0, 1, 3, 4, 6, 12, 64, 65, 255])),
        3 => build.set(Buffer::Bytes, RECORD_GOAL + random.below(2), random.pick(&[0, 1, 11, 12, 255])),
        4 => build.set(Buffer::Bytes, RECORD_CELL + random.below(2), random.pick(&[0, 1, 11, 12, 255])),
        // The ground's second byte holds four cells and four spare bits.
        5 => build.set(Buffer::Bytes, RECORD_GROUND + random.below(2), 1 << random.below(8)),
        6 => build.set(Buffer::Bytes, record_learned(N) + random.below(3 * N), random.below(6) as u64),
        _ => {
            let room = build.world.room(Buffer::Bytes);
            build.lend(Buffer::Bytes, random.pick(&[0, 4, 8, 20, room - 5, room - 4, room - 3, room]));
        }
    }
}
