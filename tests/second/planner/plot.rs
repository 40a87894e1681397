//! The plot: cell numbers, directions and steps; the head; and the buffers that a caller lends.

pub const MAX_SIDE: usize = 64;
pub const DIRECTIONS: [u8; 4] = [1, 2, 3, 4];

#[derive(Clone, Copy, Debug, Default, PartialEq, Eq)]
pub struct Head {
    pub width: usize,
    pub height: usize,
    pub goal: usize,
    pub cell: usize,
}

impl Head {
    /// N, the number of cells. Only asked for once the sides are known to be 1 to 64.
    pub fn cells(self) -> usize {
        self.width * self.height
    }

    /// The cell one step from `cell`: 1 right, 2 down, 3 left, 4 up. None off the plot, and for any other direction.
    pub fn step(self, cell: usize, direction: u8) -> Option<usize> {
        let (row, column) = (cell / self.width, cell % self.width);
        match direction {
            1 if column + 1 < self.width => Some(cell + 1),
            2 if row + 1 < self.height => Some(cell + self.width),
            3 if column > 0 => Some(cell - 1),
            4 if row > 0 => Some(cell - self.width),
            _ => None,
        }
    }

    pub fn manhattan(self, from: usize, to: usize) -> usize {
        let across = (from % self.width).abs_diff(to % self.width);
        let down = (from / self.width).abs_diff(to / self.width);
        across + down
    }
}

/// The direction that leads back.
pub fn opposite(direction: u8) -> u8 {
    match direction {
        1 => 3,
        2 => 4,
        3 => 1,
        _ => 2,
    }
}

/// What is known of the plot, with N entries or more each.
pub struct Map<'a> {
    pub ground: &'a mut [u8],
    pub learned: &'a mut [u16],
    pub link: &'a mut [u8],
}

impl Map<'_> {
    pub fn free(&self, cell: usize) -> bool {
        self.ground[cell] == 0
    }

    pub fn lengths(&self) -> [usize; 3] {
        [self.ground.len(), self.learned.len(), self.link.len()]
    }
}

pub const UNSEEN: u8 = 0;
pub const WAITING: u8 = 1;
pub const EXPANDED: u8 = 2;
pub const UNSEEN_COST: u16 = 65_535;

/// What a plan leaves of its search, with N entries or more each.
pub struct Scratch<'a> {
    pub mark: &'a mut [u8],
    pub cost: &'a mut [u16],
    pub trail: &'a mut [u8],
}
