//! Long random sequences of calls on one state: a cart that drives, and between its steps whatever else a host may do.

use crate::base::RECORD_CELL;
use crate::case::{Builder, Case};
use crate::op::{Buffer, Call, BUFFERS};
use crate::plots::{plot, sides, Plot};
use crate::random::{Random, NUMBERS};
use crate::world::{BYTE_ROOM, CELL_ROOM};
use second::plot::{Head, DIRECTIONS};
use second::record::record_length;

pub struct Walk<'a> {
    pub random: &'a mut Random,
    pub build: Builder,
    pub plot: Plot,
}

pub fn walk(random: &mut Random) -> Case {
    let (width, height) = sides(random);
    let plot = plot(random, width, height);
    let n = plot.n();
    let spare = random.pick(&[0, 0, 1, 5, 20]);
    let (cells, bytes) = ((n + spare).min(CELL_ROOM), (record_length(n) + spare).min(BYTE_ROOM));
    let build = Builder::new("random walks", cells, bytes, random.next() % 1000);
    let most = if n > 600 { 60 } else { random.pick(&[40, 160, 160, 800]) };
    let calls = random.from_to(10, most);
    let mut walk = Walk { random, build, plot };
    walk.lend_again();
    walk.lay_out();
    while walk.build.calls() < calls {
        walk.act();
        if !walk.same_plot() {
            walk.lay_out();
        }
    }
    walk.build.case
}

impl Walk<'_> {
    fn act(&mut self) {
        match self.random.below(40) {
            0..=17 => self.drive_step(),
            18 | 19 => self.any_call(),
            20..=22 => self.over_record(),
            23 | 24 => self.damaged_record(),
            25..=27 => self.spoiled_entry(),
            28 | 29 => self.changed_head(),
            30 | 31 => self.short_buffer(),
            32 => self.scratch(),
            33 | 34 => self.other_cell(),
            35 | 36 => self.report_some(),
            37 => self.new_goal(),
            38 => self.new_plot(),
            _ => self.lend_again(),
        }
    }

    fn lay_out(&mut self) {
        let start = self.plot.free_cell(self.random);
        let goal = if self.random.one_in(8) { self.random.below(self.plot.n()) } else { self.plot.free_cell(self.random) };
        self.build.accepted(Call::Layout { sides: [self.plot.width, self.plot.height], start, goal });
    }

    /// Each buffer of cells is lent with N entries or more, as the room allows.
    fn lend_again(&mut self) {
        let n = self.plot.n();
        for (buffer, _) in &BUFFERS[1..8] {
            let room = self.build.world.room(*buffer);
            let length = self.random.from_to(n, room);
            self.build.lend(*buffer, length);
        }
    }

    /// The neighbours of a cell that are truly blocked, in direction order.
    fn blocked_beside(&self, cell: usize) -> Vec<usize> {
        let head = Head { width: self.plot.width, height: self.plot.height, goal: 0, cell };
        let beside = DIRECTIONS.iter().filter_map(|&direction| head.step(cell, direction));
        beside.filter(|&cell| self.plot.blocked[cell]).collect()
    }

    /// What the drive program does: look, plan where no route stands, move. On the goal the cart is put somewhere else.
    fn drive_step(&mut self) {
        let here = self.build.head(3);
        for cell in self.blocked_beside(here) {
            if self.build.world.entry(Buffer::Ground, cell) == 0 {
                self.build.call(Call::Report(cell));
            }
        }
        let asked = self.random.one_in(3).then(|| self.build.call(Call::Question));
        if asked.is_some_and(|asked| asked != 0) || self.build.call(Call::Move) >= 70_000 {
            let planned = self.build.call(Call::Plan);
            if planned == 65_535 || self.random.one_in(4) {
                self.build.call(Call::List);
            }
            if planned == 65_535 {
                self.lay_out();
            }
        }
        if self.build.head(2) == self.build.head(3) && !self.random.one_in(4) {
            self.other_cell();
        }
    }

    fn any_cell(&mut self) -> usize {
        match self.random.below(6) {
            0 => self.random.pick(&NUMBERS),
            1 => self.plot.n() + self.random.below(2),
            _ => self.random.below(self.plot.n()),
        }
    }

    fn any_call(&mut self) {
        let cell = self.any_cell();
        let call = match self.random.below(14) {
            0 | 1 => Call::Report(cell),
            2..=4 => Call::Plan,
            5 | 6 => Call::Move,
            7 => Call::List,
            8 => Call::Question,
            9 => Call::Save,
            10 => Call::Load,
            11 => Call::RecordReport(cell as u32),
            12 => Call::RecordPlan,
            _ => Call::RecordMove,
        };
        self.build.call(call);
    }

    pub fn some_calls(&mut self) {
        for _ in 0..self.random.from_to(1, 3) {
            self.any_call();
        }
    }

    /// A state that was changed by hand is laid out anew where it can't be used any more.
    pub fn recover(&mut self) {
        if (1..=4).contains(&self.build.call(Call::Question)) {
            self.lay_out();
        }
    }

    /// A record from before, of another plot, may have been loaded.
    fn same_plot(&mut self) -> bool {
        [self.build.head(0), self.build.head(1)] == [self.plot.width, self.plot.height]
    }

    /// The cart goes on by the calls over a record, and the buffers are loaded from it in the end.
    fn over_record(&mut self) {
        if !self.build.save_and_fit() {
            return self.recover();
        }
        for _ in 0..self.random.from_to(1, 4) {
            let here = [0, 1].map(|byte| self.build.world.entry(Buffer::Bytes, RECORD_CELL + byte));
            for cell in self.blocked_beside((here[0] * 256 + here[1]) as usize) {
                self.build.call(Call::RecordReport(cell as u32));
            }
            if self.build.call(Call::RecordMove) >= 70_000 {
                self.build.call(Call::RecordPlan);
            }
        }
        self.build.call(Call::Load);
    }

    fn damaged_record(&mut self) {
        self.build.save_and_fit();
        let length = record_length(self.plot.n());
        for _ in 0..self.random.from_to(1, 2) {
            let at = if self.random.one_in(3) { self.random.below(24) } else { self.random.below(length) };
            let old = self.build.world.entry(Buffer::Bytes, at);
            let new = if self.random.one_in(2) { old ^ (1 << self.random.below(8)) } else { self.random.next() % 256 };
            self.build.set(Buffer::Bytes, at, new);
        }
        for call in [Call::RecordReport(0), Call::RecordPlan, Call::RecordMove, Call::Load] {
            if self.random.one_in(2) {
                self.build.call(call);
            }
        }
        self.recover();
    }

    fn report_some(&mut self) {
        for _ in 0..self.random.from_to(1, 4) {
            let cell = self.any_cell();
            self.build.call(Call::Report(cell));
        }
    }

    /// Another plot in the same buffers.
    fn new_plot(&mut self) {
        let (width, height) = sides(self.random);
        if width * height <= self.plot.n() {
            self.plot = plot(self.random, width, height);
            self.lend_again();
            self.lay_out();
        }
    }
}
