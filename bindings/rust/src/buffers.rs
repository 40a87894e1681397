//! The buffers of a cart, under the header's names. Their contents are the archive's to test; nothing here relies on them.

use crate::MAX_CELLS;

/// The entries of a head.
pub const WIDTH: usize = 0;
pub const HEIGHT: usize = 1;
pub const GOAL: usize = 2;
pub const CELL: usize = 3;
pub const EXPANDED: usize = 4;

#[derive(Clone, Debug)]
pub struct Buffers {
    pub head: [usize; 5],
    pub ground: Vec<u8>,
    pub learned: Vec<u16>,
    pub link: Vec<u8>,
    pub mark: Vec<u8>,
    pub cost: Vec<u16>,
    pub trail: Vec<u8>,
}

impl Buffers {
    /// Room for every plot, with scratch as before any search: all unseen.
    pub fn new() -> Buffers {
        let (bytes, numbers) = (|| vec![0; MAX_CELLS], |value| vec![value; MAX_CELLS]);
        Buffers {
            head: [0; 5],
            ground: bytes(),
            learned: numbers(0),
            link: bytes(),
            mark: bytes(),
            cost: numbers(u16::MAX),
            trail: bytes(),
        }
    }

    /// Keeps the entries of the first `n` cells.
    pub fn keep(&mut self, n: usize) {
        for bytes in [&mut self.ground, &mut self.link, &mut self.mark, &mut self.trail] {
            bytes.truncate(n);
            bytes.shrink_to_fit();
        }
        for numbers in [&mut self.learned, &mut self.cost] {
            numbers.truncate(n);
            numbers.shrink_to_fit();
        }
    }
}
