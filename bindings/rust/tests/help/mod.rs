//! What the tests share: random numbers, a record written by hand, and a breadth-first search apart from the library.
#![allow(dead_code)] // each file of tests takes a part

use std::collections::VecDeque;

/// Numbers that are the same in every run (xorshift).
pub struct Random(pub u64);

impl Random {
    /// A number below `limit`, which is not 0.
    pub fn below(&mut self, limit: usize) -> usize {
        self.0 ^= self.0 << 13;
        self.0 ^= self.0 >> 7;
        self.0 ^= self.0 << 17;
        (self.0 >> 16) as usize % limit
    }

    pub fn one_in(&mut self, chances: usize) -> bool {
        self.below(chances) == 0
    }
}

/// The cells beside one: right, down, left, up.
pub fn beside(width: usize, height: usize, cell: usize) -> impl Iterator<Item = usize> {
    let (row, column) = (cell / width, cell % width);
    let right = (column + 1 < width).then_some(cell + 1);
    let down = (row + 1 < height).then_some(cell + width);
    let left = (column > 0).then(|| cell - 1);
    let up = (row > 0).then(|| cell - width);
    [right, down, left, up].into_iter().flatten()
}

/// The fewest steps between two cells over cells that are not blocked, or none.
pub fn fewest_steps(width: usize, height: usize, blocked: &[bool], from: usize, to: usize) -> Option<usize> {
    let mut steps = vec![None; width * height];
    let mut waiting = VecDeque::from([(from, 0)]);
    steps[from] = Some(0);
    while let Some((cell, count)) = waiting.pop_front() {
        for next in beside(width, height, cell) {
            if !blocked[next] && steps[next].is_none() {
                steps[next] = Some(count + 1);
                waiting.push_back((next, count + 1));
            }
        }
    }
    steps[to]
}

/// A state as a record is written from it, field by field.
#[derive(Clone)]
pub struct State {
    pub width: u8,
    pub height: u8,
    pub goal: u16,
    pub cell: u16,
    /// One bit for each cell, the lowest first.
    pub ground: Vec<u8>,
    pub learned: Vec<u16>,
    pub link: Vec<u8>,
}

impl State {
    /// 3 × 2 cells, the cart on 3, the goal 2, cell 4 blocked, and a route 3, 0, 1, 2. It is sound.
    pub fn sample() -> State {
        let (ground, learned, link) = (vec![1 << 4], vec![2, 1, 0, 3, 2, 1], vec![1, 1, 0, 4, 0, 4]);
        State { width: 3, height: 2, goal: 2, cell: 3, ground, learned, link }
    }

    /// The sample, changed.
    pub fn with(change: impl FnOnce(&mut State)) -> State {
        let mut state = State::sample();
        change(&mut state);
        state
    }

    pub fn record(&self) -> Vec<u8> {
        let learned: Vec<u8> = self.learned.iter().flat_map(|value| value.to_be_bytes()).collect();
        let (goal, cell) = (self.goal.to_be_bytes(), self.cell.to_be_bytes());
        let fields: [&[u8]; 7] = [&[self.width], &[self.height], &goal, &cell, &self.ground, &learned, &self.link];
        let mut record = Vec::new();
        for (tag, bytes) in (1..).zip(fields) {
            record.push(tag);
            record.extend((bytes.len() as u16).to_be_bytes());
            record.extend(bytes);
        }
        record
    }
}
