//! Random plots: open ground, scattered blocks, strips, mazes, rooms with doors, and nursery rows, of all sizes.

use crate::random::Random;

pub struct Plot {
    pub width: usize,
    pub height: usize,
    /// The true ground, which a cart finds out as it goes.
    pub blocked: Vec<bool>,
}

impl Plot {
    fn new(width: usize, height: usize, blocked: bool) -> Plot {
        Plot { width, height, blocked: vec![blocked; width * height] }
    }

    pub fn n(&self) -> usize {
        self.width * self.height
    }

    fn set(&mut self, row: usize, column: usize, blocked: bool) {
        self.blocked[row * self.width + column] = blocked;
    }

    /// A cell that is truly free; one is made where there is none.
    pub fn free_cell(&mut self, random: &mut Random) -> usize {
        let free: Vec<usize> = (0..self.n()).filter(|&cell| !self.blocked[cell]).collect();
        if free.is_empty() {
            self.blocked[0] = false;
            return 0;
        }
        random.pick(&free)
    }
}

/// Width and height: mostly small, so that many calls can be compared, and now and then up to 64×64.
pub fn sides(random: &mut Random) -> (usize, usize) {
    let most = match random.below(100) {
        0..=24 => 4,
        25..=59 => 9,
        60..=79 => 16,
        80..=90 => 32,
        91..=95 => 64,
        _ => {
            let length = random.from_to(1, 64);
            return if random.one_in(2) { (length, 1) } else { (1, length) };
        }
    };
    (random.from_to(1, most), random.from_to(1, most))
}

pub fn plot(random: &mut Random, width: usize, height: usize) -> Plot {
    match random.below(10) {
        0 => Plot::new(width, height, false),
        1..=4 => scatter(random, width, height),
        5 | 6 => maze(random, width, height),
        7 => rooms(random, width, height),
        _ => rows(random, width, height),
    }
}

/// Each cell is blocked with the same chance, between 0 and 60 in a hundred.
fn scatter(random: &mut Random, width: usize, height: usize) -> Plot {
    let density = random.below(61);
    let mut plot = Plot::new(width, height, false);
    plot.blocked.iter_mut().for_each(|blocked| *blocked = random.below(100) < density);
    plot
}

/// Passages between the cells of even row and column, so that there is one way between any two of them.
fn maze(random: &mut Random, width: usize, height: usize) -> Plot {
    let mut plot = Plot::new(width, height, true);
    plot.set(0, 0, false);
    let mut open = vec![(0, 0)];
    while let Some(&(row, column)) = open.last() {
        let mut beyond = Vec::new();
        for (down, across) in [(0, 2), (2, 0), (0, -2), (-2, 0)] {
            let (to_row, to_column) = (row as isize + down, column as isize + across);
            let inside = (0..height as isize).contains(&to_row) && (0..width as isize).contains(&to_column);
            if inside && plot.blocked[to_row as usize * width + to_column as usize] {
                beyond.push((to_row as usize, to_column as usize));
            }
        }
        if beyond.is_empty() {
            open.pop();
            continue;
        }
        let (to_row, to_column) = random.pick(&beyond);
        plot.set((row + to_row) / 2, (column + to_column) / 2, false);
        plot.set(to_row, to_column, false);
        open.push((to_row, to_column));
    }
    plot
}

/// Walls every few cells both ways, with doors broken into them.
fn rooms(random: &mut Random, width: usize, height: usize) -> Plot {
    let (apart, doors) = (random.from_to(3, 6), random.from_to(2, 6));
    let mut plot = Plot::new(width, height, false);
    for row in 0..height {
        for column in 0..width {
            let wall = row % apart == apart - 1 || column % apart == apart - 1;
            plot.set(row, column, wall && !random.one_in(doors));
        }
    }
    plot
}

/// Beds of containers with an aisle after every few rows, free paths at both ends, and now and then something in an aisle.
fn rows(random: &mut Random, width: usize, height: usize) -> Plot {
    let (bed, litter) = (random.from_to(1, 3), random.from_to(4, 30));
    let mut plot = Plot::new(width, height, false);
    for row in 0..height {
        for column in 0..width {
            let bed_here = row % (bed + 1) != 0 && column > 0 && column + 1 < width;
            plot.set(row, column, bed_here || random.one_in(litter));
        }
    }
    plot
}
