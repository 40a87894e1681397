//! A cart that owns its buffers, and what its calls answer.

use crate::buffers::{Buffers, CELL, EXPANDED, GOAL, HEIGHT, WIDTH};
use crate::calls::NO_WAY;
use crate::refusal::{accepted, Refusal};
use crate::MAX_RECORD;

/// What a plan answers.
#[derive(Clone, Copy, Debug, PartialEq, Eq, Hash)]
pub enum Plan {
    /// The cart is on the goal; nothing was searched.
    Arrived,
    /// A route stands.
    Route {
        /// Its steps: the fewest there are over cells not known blocked.
        length: usize,
        /// The cells that the search expanded.
        expanded: usize,
    },
    /// No way leads to the goal over cells not known blocked.
    NoWay {
        /// The cells that the search expanded.
        expanded: usize,
    },
}

/// What an advance answers.
#[derive(Clone, Copy, Debug, PartialEq, Eq, Hash)]
pub enum Step {
    /// The cart went to this cell, which may be the goal.
    Moved(usize),
    /// The cart was on the goal already, and stays.
    Arrived,
}

/// A cart on its plot: what it knows of the ground, what it learned, and its route.
#[derive(Clone, Debug)]
pub struct Cart {
    buffers: Buffers,
}

impl Cart {
    /// A fresh plot of which nothing is known to be blocked. The start may be the goal.
    pub fn lay_out(width: usize, height: usize, start: usize, goal: usize) -> Result<Cart, Refusal> {
        let mut buffers = Buffers::new();
        accepted(buffers.layout(width, height, start, goal))?;
        Ok(Cart::fitted(buffers))
    }

    /// The cart of a record, which is all of `bytes`.
    pub fn load(bytes: &[u8]) -> Result<Cart, Refusal> {
        let mut buffers = Buffers::new();
        accepted(buffers.load(bytes))?;
        Ok(Cart::fitted(buffers))
    }

    /// The size of the plot is not known before layout or load has accepted it, so that they get room for every plot; then
    /// N entries stay.
    fn fitted(mut buffers: Buffers) -> Cart {
        buffers.keep(buffers.head[WIDTH] * buffers.head[HEIGHT]);
        Cart { buffers }
    }

    /// A cell is blocked: every link to it falls, and with them a route over it. A cell already known blocked is accepted, and
    /// so is the goal, unless the cart is on it.
    pub fn report(&mut self, cell: usize) -> Result<(), Refusal> {
        accepted(self.buffers.report(cell)).map(drop)
    }

    /// Plans a shortest way to the goal over cells not known blocked.
    pub fn plan(&mut self) -> Result<Plan, Refusal> {
        let answer = accepted(self.buffers.plan())?;
        let expanded = self.buffers.head[EXPANDED];
        Ok(match answer {
            0 => Plan::Arrived,
            NO_WAY => Plan::NoWay { expanded },
            length => Plan::Route { length: length as usize, expanded },
        })
    }

    /// One step along the route (document 01's move).
    pub fn advance(&mut self) -> Result<Step, Refusal> {
        let on_goal = self.cell() == self.goal();
        let cell = accepted(self.buffers.advance())?;
        Ok(if on_goal { Step::Arrived } else { Step::Moved(cell as usize) })
    }

    /// Whether a route stands, so that [`advance`](Cart::advance) and [`route`](Cart::route) are accepted. It stands on the
    /// goal.
    pub fn route_stands(&self) -> bool {
        self.buffers.question(self.ground().len()) == 0
    }

    /// The route's cells, from the cart's to the goal.
    pub fn route(&self) -> Result<Vec<u16>, Refusal> {
        // no route has a cell twice
        let mut list = vec![0; self.ground().len()];
        let count = self.route_into(&mut list)?.len();
        list.truncate(count);
        Ok(list)
    }

    /// The route's cells, from the cart's to the goal, at the front of `list`; that front comes back, and what follows it
    /// stays. [`MAX_CELLS`](crate::MAX_CELLS) entries suffice for every route.
    pub fn route_into<'a>(&self, list: &'a mut [u16]) -> Result<&'a [u16], Refusal> {
        let count = accepted(self.buffers.list(list))?;
        Ok(&list[..count as usize])
    }

    /// The record of this state, for [`load`](Cart::load) and the calls of [`record`](crate::record).
    pub fn save(&self) -> Result<Vec<u8>, Refusal> {
        let mut bytes = vec![0; MAX_RECORD];
        let length = self.save_into(&mut bytes)?.len();
        bytes.truncate(length);
        Ok(bytes)
    }

    /// The record of this state at the front of `bytes`; that front comes back, and what follows it stays.
    /// [`MAX_RECORD`] bytes suffice for every record.
    pub fn save_into<'a>(&self, bytes: &'a mut [u8]) -> Result<&'a [u8], Refusal> {
        let length = accepted(self.buffers.save(bytes))?;
        Ok(&bytes[..length as usize])
    }

    /// The plot's width.
    pub fn width(&self) -> usize {
        self.buffers.head[WIDTH]
    }

    /// The plot's height.
    pub fn height(&self) -> usize {
        self.buffers.head[HEIGHT]
    }

    /// The goal's cell.
    pub fn goal(&self) -> usize {
        self.buffers.head[GOAL]
    }

    /// The cell that the cart is on.
    pub fn cell(&self) -> usize {
        self.buffers.head[CELL]
    }

    /// For each cell: 0 free, 1 known blocked.
    pub fn ground(&self) -> &[u8] {
        &self.buffers.ground
    }

    /// For each cell: the learned distance to the goal.
    pub fn learned(&self) -> &[u16] {
        &self.buffers.learned
    }

    /// For each cell: the direction of the next step (1 right, 2 down, 3 left, 4 up), or 0.
    pub fn link(&self) -> &[u8] {
        &self.buffers.link
    }

    /// For each cell, as the last search left it: 0 unseen, 1 waiting, 2 expanded.
    pub fn mark(&self) -> &[u8] {
        &self.buffers.mark
    }

    /// For each cell, as the last search left it: the steps from where the cart was, or 65,535 for unseen.
    pub fn cost(&self) -> &[u16] {
        &self.buffers.cost
    }

    /// For each cell, as the last search left it: the direction of the step by which it was reached, or 0.
    pub fn trail(&self) -> &[u8] {
        &self.buffers.trail
    }
}
