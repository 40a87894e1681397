//! Records damaged at each byte, cut at each length, with fields left out, doubled or in another order.

use crate::case::{Builder, Case};
use crate::op::{Buffer, Call};
use crate::plots::{plot, sides};
use crate::random::Random;
use second::record::record_length;

/// Every byte and every length of these plots' records; 8 cells leave no spare bit, 9 and 6 do.
const SMALL: [(usize, usize); 5] = [(1, 1), (2, 1), (4, 2), (3, 3), (2, 3)];

/// Its fields of 512 and of 256 bytes need both bytes of their lengths.
const WIDE: (usize, usize) = (16, 16);

pub fn all(sink: &mut dyn FnMut(Case)) {
    for (width, height) in SMALL {
        for at in 0..record_length(width * height) {
            for change in 0..10 {
                sink(damaged(width, height, at, change));
            }
        }
        sink(cut(width, height));
        for first in 0..7 {
            for second in 0..7 {
                sink(rearranged(width, height, first, second));
            }
        }
    }
    let (width, height) = WIDE;
    for at in 0..record_length(width * height) {
        for change in [at % 8, 8, 9] {
            sink(damaged(width, height, at, change));
        }
    }
    for start in starts(width * height) {
        for at in start..start + 3 {
            for change in 0..8 {
                sink(damaged(width, height, at, change));
            }
        }
    }
    sink(cut(width, height));
}

/// How many bytes each field holds behind its tag and its length.
fn sizes(n: usize) -> [usize; 7] {
    [1, 1, 2, 2, n.div_ceil(8), 2 * n, n]
}

/// Where each field begins.
fn starts(n: usize) -> impl Iterator<Item = usize> {
    sizes(n).into_iter().scan(0, |next, size| {
        let start = *next;
        *next += 3 + size;
        Some(start)
    })
}

/// A plot with a plan, and with one cell blocked where it has more than two, saved, with the record lent exactly.
fn saved(width: usize, height: usize) -> Builder {
    let n = width * height;
    let mut build = Builder::new("damaged records, each byte", n + 1, 2 * record_length(n), 11);
    build.accepted(Call::Layout { sides: [width, height], start: 0, goal: n - 1 });
    if n > 2 {
        build.accepted(Call::Report(1));
    }
    build.accepted(Call::Plan);
    build.save_and_fit();
    build
}

fn calls(build: &mut Builder) {
    let n = build.n() as u32;
    for call in [Call::Load, Call::RecordMove, Call::RecordPlan, Call::RecordReport(n - 1), Call::RecordReport(n)] {
        build.call(call);
    }
}

/// One byte changed: one bit the other way, or all 0, or all 1.
fn damaged(width: usize, height: usize, at: usize, change: usize) -> Case {
    let mut build = saved(width, height);
    let old = build.world.entry(Buffer::Bytes, at);
    let new = match change {
        8 if old == 0 => 128,
        8 => 0,
        9 => 255,
        bit => old ^ (1 << bit),
    };
    build.set(Buffer::Bytes, at, new);
    calls(&mut build);
    build.case
}

/// Every length up to the record's gives 8, and so do bytes after it; between them it is taken.
fn cut(width: usize, height: usize) -> Case {
    let mut build = saved(width, height);
    let n = width * height;
    for length in (0..record_length(n)).chain(record_length(n) + 1..record_length(n) + 9) {
        build.lend(Buffer::Bytes, length);
        for call in [Call::Load, Call::RecordMove, Call::RecordPlan, Call::RecordReport(n as u32)] {
            build.refused(call, 8);
        }
    }
    build.lend(Buffer::Bytes, record_length(n));
    build.accepted(Call::Load);
    build.accepted(Call::RecordPlan);
    build.case
}

/// Two fields change places; where they are the same, that field stands twice.
fn rearranged(width: usize, height: usize, first: usize, second: usize) -> Case {
    let mut build = saved(width, height);
    let n = width * height;
    let bytes: Vec<u64> = (0..record_length(n)).map(|at| build.world.entry(Buffer::Bytes, at)).collect();
    let mut fields: Vec<&[u64]> = starts(n).zip(sizes(n)).map(|(start, size)| &bytes[start..start + 3 + size]).collect();
    match first == second {
        true => fields.insert(first, fields[first]),
        false => fields.swap(first, second),
    }
    let record = fields.concat();
    for (at, byte) in record.iter().enumerate() {
        build.set(Buffer::Bytes, at, *byte);
    }
    build.lend(Buffer::Bytes, record.len());
    for call in [Call::RecordPlan, Call::RecordMove, Call::RecordReport(0), Call::Load] {
        build.refused(call, 8);
    }
    // Without the field at the end it is no better, unless that is the one too many.
    let short = record.len() - fields[fields.len() - 1].len();
    build.lend(Buffer::Bytes, short);
    if (first, second) == (6, 6) {
        build.accepted(Call::Load);
    } else {
        build.refused(Call::Load, 8);
    }
    build.case
}

/// A record of any plot, damaged or cut at random places, most often at those that hold tags, lengths and the head.
pub fn random_case(random: &mut Random) -> Case {
    let (width, height) = sides(random);
    let mut plot = plot(random, width, height);
    let (n, start) = (plot.n(), plot.free_cell(random));
    let length = record_length(n);
    let mut build = Builder::new("damaged records, any", n, length + 2, random.next() % 100);
    let goal = random.below(n);
    build.accepted(Call::Layout { sides: [width, height], start, goal });
    for cell in (0..n).filter(|&cell| plot.blocked[cell]).take(5) {
        build.call(Call::Report(cell));
    }
    build.call(Call::Plan);
    build.save_and_fit();
    let ground_end = 21 + n.div_ceil(8);
    for _ in 0..random.from_to(1, 4) {
        let at = match random.below(4) {
            0 => random.below(21),
            1 => random.pick(&[ground_end - 1, ground_end, ground_end + 2 * n + 3]) + random.below(3),
            _ => random.below(length),
        };
        let old = build.world.entry(Buffer::Bytes, at);
        let other = random.next() % 256;
        let flipped = old ^ (1 << random.below(8));
        let new = random.pick(&[old ^ 1, flipped, other]);
        build.set(Buffer::Bytes, at, new);
        calls(&mut build);
        if random.one_in(3) {
            let below = random.below(length);
            build.lend(Buffer::Bytes, random.pick(&[below, length - 1, length + 1]));
            calls(&mut build);
            build.lend(Buffer::Bytes, length);
        }
        if random.one_in(2) {
            build.set(Buffer::Bytes, at, old);
        }
    }
    build.case
}
