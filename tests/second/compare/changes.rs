//! What a host may do to the state of a walk by hand, sound or not, and the calls that it then makes.

use crate::hand;
use crate::op::{Buffer, Call, BUFFERS};
use crate::random::NUMBERS;
use crate::walks::Walk;
use second::record::record_length;

impl Walk<'_> {
    pub fn spoiled_entry(&mut self) {
        let (buffer, values) = match self.random.below(3) {
            0 => (Buffer::Ground, [0, 1, 1, 2, 255]),
            1 => (Buffer::Learned, [0, 1, 2, self.plot.n() as u64 - 1, self.plot.n() as u64]),
            _ => (Buffer::Link, [1, 2, 3, 4, 5]),
        };
        let at = self.random.below(self.plot.n());
        let old = self.build.world.entry(buffer, at);
        let near = old.wrapping_add(self.random.below(3) as u64).wrapping_sub(1) & 0xFFFF;
        let new = if self.random.one_in(2) { near } else { self.random.pick(&values) };
        self.build.set(buffer, at, new);
        self.some_calls();
        if self.random.one_in(2) {
            self.build.set(buffer, at, old);
        }
        self.recover();
    }

    pub fn changed_head(&mut self) {
        let entry = self.random.below(5);
        let old = self.build.head(entry) as u64;
        let new = if self.random.one_in(2) { self.random.pick(&NUMBERS) } else { self.random.below(self.plot.n() + 1) };
        self.build.set(Buffer::Head, entry, new as u64);
        self.some_calls();
        // A call that was accepted may have made this head the right one.
        if self.random.one_in(2) {
            self.build.set(Buffer::Head, entry, old);
        }
        self.recover();
    }

    pub fn short_buffer(&mut self) {
        let buffer = BUFFERS[self.random.below(9)].0;
        let least = match buffer {
            Buffer::Head => 5,
            Buffer::Bytes => record_length(self.plot.n()),
            _ => self.plot.n(),
        };
        let below = self.random.below(least);
        let length = self.random.pick(&[0, least - 1, below]);
        self.build.lend(buffer, length);
        self.some_calls();
        self.build.lend(buffer, least);
        self.recover();
    }

    /// Whatever the scratch buffers and the list hold, a call is to give the same.
    pub fn scratch(&mut self) {
        for buffer in [Buffer::Mark, Buffer::Cost, Buffer::Trail, Buffer::List] {
            let (at, value) = (self.random.below(self.plot.n()), self.random.next() % 65_536);
            self.build.set(buffer, at, value);
        }
        self.build.call(Call::Plan);
    }

    /// The cart is carried to another cell; what was learned fits there too, unless the cell is known blocked.
    pub fn other_cell(&mut self) {
        let cell = if self.random.one_in(8) { self.random.below(self.plot.n()) } else { self.plot.free_cell(self.random) };
        self.build.set(Buffer::Head, 3, cell as u64);
        self.build.call(Call::Plan);
        self.recover();
    }

    /// Another goal by hand: with nothing else changed it seldom fits; with learned values made to fit it does.
    pub fn new_goal(&mut self) {
        let goal = self.random.below(self.plot.n());
        if self.plot.n() <= 36 && self.random.one_in(2) {
            hand::state(self.random, &mut self.build, goal);
        } else {
            self.build.set(Buffer::Head, 2, goal as u64);
        }
        self.some_calls();
        self.recover();
    }
}
