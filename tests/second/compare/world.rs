//! The buffers as the harness has them, and the second planner's calls over them.

use crate::op::{Buffer, Call, Op, BUFFERS};
use second::plot::{Map, Scratch};
use second::{buffers, record_calls};
use std::mem;

/// Entries before and after each buffer that no call is lent. harness.c has the same numbers.
pub const GUARD: usize = 8;
pub const HEAD_ROOM: usize = 8;
pub const CELL_ROOM: usize = 4096 + 32;
pub const BYTE_ROOM: usize = 12_827 + 32;

pub trait Entry: Copy {
    fn cut(value: u64) -> Self;
    fn value(self) -> u64;
    fn write(self, out: &mut Vec<u8>);
}

macro_rules! entry {
    ($($type:ty)*) => {$(
        impl Entry for $type {
            fn cut(value: u64) -> Self {
                value as $type
            }
            fn value(self) -> u64 {
                self as u64
            }
            fn write(self, out: &mut Vec<u8>) {
                out.extend(self.to_le_bytes());
            }
        }
    )*};
}
entry!(u8 u16 usize);

struct Lent<T> {
    store: Vec<T>,
    lent: usize,
}

impl<T: Entry> Lent<T> {
    /// Room between two guards, all filled with a pattern that is the buffer's own.
    fn new(buffer: Buffer, room: usize, lent: usize, seed: u64) -> Lent<T> {
        let start = seed.wrapping_add(16 * buffer as u64 + 1).wrapping_mul(0x9E37_79B9_7F4A_7C15);
        let entries = (1..).take(GUARD + room + GUARD);
        let store = entries.map(|at: u64| T::cut(start.wrapping_mul(at) >> 20)).collect();
        Lent { store, lent }
    }

    fn lend(&mut self) -> &mut [T] {
        &mut self.store[GUARD..GUARD + self.lent]
    }
}

/// What is done with a buffer whatever its entries are.
trait Slot {
    /// How many entries there are with the guards, and how many bytes each has.
    fn extent(&self) -> (usize, usize);
    fn entry(&self, index: usize) -> u64;
    fn set(&mut self, index: usize, value: u64);
    fn change_lent(&mut self, length: usize);
    fn write(&self, out: &mut Vec<u8>);

    fn room(&self) -> usize {
        self.extent().0 - 2 * GUARD
    }
}

impl<T: Entry> Slot for Lent<T> {
    fn extent(&self) -> (usize, usize) {
        (self.store.len(), mem::size_of::<T>())
    }

    fn entry(&self, index: usize) -> u64 {
        self.store[GUARD + index].value()
    }

    fn set(&mut self, index: usize, value: u64) {
        assert!(index < self.room());
        self.store[GUARD + index] = T::cut(value);
    }

    fn change_lent(&mut self, length: usize) {
        assert!(length <= self.room());
        self.lent = length;
    }

    fn write(&self, out: &mut Vec<u8>) {
        self.store.iter().for_each(|entry| entry.write(out));
    }
}

pub struct World {
    head: Lent<usize>,
    ground: Lent<u8>,
    learned: Lent<u16>,
    link: Lent<u8>,
    mark: Lent<u8>,
    cost: Lent<u16>,
    trail: Lent<u8>,
    list: Lent<u16>,
    bytes: Lent<u8>,
}

impl World {
    pub fn new(cells: usize, bytes: usize, seed: u64) -> World {
        assert!(cells <= CELL_ROOM && bytes <= BYTE_ROOM);
        World {
            head: Lent::new(Buffer::Head, HEAD_ROOM, buffers::HEAD, seed),
            ground: Lent::new(Buffer::Ground, cells, cells, seed),
            learned: Lent::new(Buffer::Learned, cells, cells, seed),
            link: Lent::new(Buffer::Link, cells, cells, seed),
            mark: Lent::new(Buffer::Mark, cells, cells, seed),
            cost: Lent::new(Buffer::Cost, cells, cells, seed),
            trail: Lent::new(Buffer::Trail, cells, cells, seed),
            list: Lent::new(Buffer::List, cells, cells, seed),
            bytes: Lent::new(Buffer::Bytes, bytes, bytes, seed),
        }
    }

    fn slot(&mut self, buffer: Buffer) -> &mut dyn Slot {
        match buffer {
            Buffer::Head => &mut self.head,
            Buffer::Ground => &mut self.ground,
            Buffer::Learned => &mut self.learned,
            Buffer::Link => &mut self.link,
            Buffer::Mark => &mut self.mark,
            Buffer::Cost => &mut self.cost,
            Buffer::Trail => &mut self.trail,
            Buffer::List => &mut self.list,
            Buffer::Bytes => &mut self.bytes,
        }
    }

    pub fn entry(&mut self, buffer: Buffer, index: usize) -> u64 {
        self.slot(buffer).entry(index)
    }

    pub fn room(&mut self, buffer: Buffer) -> usize {
        self.slot(buffer).room()
    }

    /// Carries the operation out. A call's answer.
    pub fn carry_out(&mut self, op: Op) -> Option<u32> {
        match op {
            Op::Room { cells, bytes, seed } => *self = World::new(cells, bytes, seed),
            Op::Lend(buffer, length) => self.slot(buffer).change_lent(length),
            Op::Set(buffer, index, value) => self.slot(buffer).set(index, value),
            Op::Call(call) => return Some(self.call(call)),
        }
        None
    }

    fn call(&mut self, call: Call) -> u32 {
        let head = self.head.lend();
        let map = &mut Map { ground: self.ground.lend(), learned: self.learned.lend(), link: self.link.lend() };
        let scratch = &mut Scratch { mark: self.mark.lend(), cost: self.cost.lend(), trail: self.trail.lend() };
        let (list, bytes) = (self.list.lend(), self.bytes.lend());
        match call {
            Call::Layout { sides, start, goal } => buffers::layout(sides, start, goal, head, map),
            Call::Report(cell) => buffers::report(head, map, cell),
            Call::Plan => buffers::plan(head, map, scratch),
            Call::Move => buffers::advance(head, map),
            Call::List => buffers::list(head, map, list),
            Call::Question => buffers::question(head, map, list),
            Call::Save => buffers::save(head, map, bytes),
            Call::Load => buffers::load(bytes, head, map),
            Call::RecordReport(cell) => record_calls::report(bytes, cell),
            Call::RecordPlan => record_calls::plan(bytes),
            Call::RecordMove => record_calls::advance(bytes),
        }
    }

    /// What the harness writes after a call: the answer and every buffer with its guards.
    pub fn write(&mut self, answer: u32, out: &mut Vec<u8>) {
        out.extend(answer.to_le_bytes());
        for (buffer, _) in BUFFERS {
            self.slot(buffer).write(out);
        }
    }

    /// Where in that text a place lies: the buffer, the entry (below 0 and from the room on in the guards) and the entry's
    /// first byte and width.
    pub fn place(&mut self, offset: usize) -> (Buffer, isize, usize, usize) {
        let mut start = 4;
        for (buffer, _) in BUFFERS {
            let (entries, width) = self.slot(buffer).extent();
            if offset < start + entries * width {
                let entry = (offset - start) / width;
                return (buffer, entry as isize - GUARD as isize, start + entry * width, width);
            }
            start += entries * width;
        }
        unreachable!("an offset within the text of a call")
    }
}
