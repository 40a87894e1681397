//! A case: a sequence of operations on one state, with what the second planner answers and leaves after each call.

use crate::op::{Buffer, Call, Op};
use crate::world::World;
use second::record::record_length;

/// A call of a case, and where its text ends among all that is expected of the case.
pub struct Made {
    pub op: usize,
    pub call: Call,
    pub answer: u32,
    pub end: usize,
}

pub struct Case {
    pub family: &'static str,
    pub ops: Vec<Op>,
    pub expected: Vec<u8>,
    pub made: Vec<Made>,
    /// A call that was to be refused with a certain number, or not at all, and was not so by the second planner.
    pub missed: Option<String>,
}

impl Case {
    /// The case of these operations, the first of which gives the room.
    pub fn of(family: &'static str, ops: &[Op]) -> Option<Case> {
        let Some(&Op::Room { cells, bytes, seed }) = ops.first() else { return None };
        let mut builder = Builder::new(family, cells, bytes, seed);
        ops[1..].iter().for_each(|&op| {
            builder.carry_out(op);
        });
        Some(builder.case)
    }
}

/// Makes a case operation by operation. The second planner carries each out, so that the next can depend on it.
pub struct Builder {
    pub world: World,
    pub case: Case,
}

impl Builder {
    pub fn new(family: &'static str, cells: usize, bytes: usize, seed: u64) -> Builder {
        let ops = vec![Op::Room { cells, bytes, seed }];
        let case = Case { family, ops, expected: Vec::new(), made: Vec::new(), missed: None };
        Builder { world: World::new(cells, bytes, seed), case }
    }

    fn carry_out(&mut self, op: Op) -> Option<u32> {
        let answer = self.world.carry_out(op);
        if let (Op::Call(call), Some(answer)) = (op, answer) {
            self.world.write(answer, &mut self.case.expected);
            let (op, end) = (self.case.ops.len(), self.case.expected.len());
            self.case.made.push(Made { op, call, answer, end });
        }
        self.case.ops.push(op);
        answer
    }

    pub fn set(&mut self, buffer: Buffer, index: usize, value: u64) {
        self.carry_out(Op::Set(buffer, index, value));
    }

    pub fn lend(&mut self, buffer: Buffer, length: usize) {
        self.carry_out(Op::Lend(buffer, length));
    }

    pub fn call(&mut self, call: Call) -> u32 {
        self.carry_out(Op::Call(call)).unwrap_or(0)
    }

    fn meant(&mut self, call: Call, refusal: Option<u32>) {
        let answer = self.call(call);
        if call.refusal(answer) != refusal && self.case.missed.is_none() {
            let op = self.case.ops.len() - 1;
            self.case.missed = Some(format!("operation {op} {call:?} answers {answer}, but refusal {refusal:?} was meant"));
        }
    }

    /// A call that is made in order to be refused with this number.
    pub fn refused(&mut self, call: Call, refusal: u32) {
        self.meant(call, Some(refusal));
    }

    /// A call that is made in order to be accepted.
    pub fn accepted(&mut self, call: Call) {
        self.meant(call, None);
    }

    pub fn calls(&self) -> usize {
        self.case.made.len()
    }

    pub fn head(&mut self, entry: usize) -> usize {
        self.world.entry(Buffer::Head, entry) as usize
    }

    /// N by the head array. Only asked for where that is in order.
    pub fn n(&mut self) -> usize {
        self.head(0) * self.head(1)
    }

    /// Saves the state and lends exactly the record. Whether it was saved.
    pub fn save_and_fit(&mut self) -> bool {
        let room = self.world.room(Buffer::Bytes);
        self.lend(Buffer::Bytes, room);
        let saved = self.call(Call::Save) < 70_000;
        if saved {
            let length = record_length(self.n());
            self.lend(Buffer::Bytes, length);
        }
        saved
    }
}
