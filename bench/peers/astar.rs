//! A peer: A* from scratch at each plan, over the standard library's binary heap, with the same order of ties. A cell that is
//! lowered is put in again, and what was taken out before is passed over. It checks nothing.
use std::cmp::Reverse;
use std::collections::BinaryHeap;
use std::sync::{Mutex, MutexGuard};

const FAR: u16 = u16::MAX;

struct Planner {
    width: usize,
    cart: usize,
    goal: usize,
    ground: Vec<u8>,
    distance: Vec<u16>,
    cost: Vec<u16>,
    trail: Vec<u8>,
    heap: BinaryHeap<Reverse<u64>>,
    route: Vec<u16>,
}

static PLANNER: Mutex<Planner> = Mutex::new(Planner {
    width: 0,
    cart: 0,
    goal: 0,
    ground: Vec::new(),
    distance: Vec::new(),
    cost: Vec::new(),
    trail: Vec::new(),
    heap: BinaryHeap::new(),
    route: Vec::new(),
});

fn planner() -> MutexGuard<'static, Planner> {
    PLANNER.lock().expect("one thread alone plans")
}

impl Planner {
    fn wait(&mut self, cell: usize, cost: u16, direction: u8) {
        self.cost[cell] = cost;
        self.trail[cell] = direction;
        let sum = u64::from(cost) + u64::from(self.distance[cell]);
        self.heap.push(Reverse(sum << 32 | u64::from(FAR - cost) << 16 | cell as u64));
    }

    fn expand(&mut self, cell: usize) {
        let column = cell % self.width;
        let cost = self.cost[cell] + 1;
        let beside = [
            (column + 1 < self.width, cell + 1),
            (cell + self.width < self.ground.len(), cell + self.width),
            (column > 0, cell.wrapping_sub(1)),
            (cell >= self.width, cell.wrapping_sub(self.width)),
        ];
        for (direction, (inside, next)) in (1..).zip(beside) {
            if inside && self.ground[next] == 0 && cost < self.cost[next] {
                self.wait(next, cost, direction);
            }
        }
    }

    /// The route from the cart to the goal, read backwards from the trail.
    fn lay_route(&mut self) -> usize {
        let mut cell = self.goal;
        self.route.clear();
        while cell != self.cart {
            self.route.push(cell as u16);
            cell = match self.trail[cell] {
                1 => cell - 1,
                2 => cell - self.width,
                3 => cell + 1,
                _ => cell + self.width,
            };
        }
        self.route.len()
    }

    fn plan(&mut self) -> usize {
        self.cost.fill(FAR);
        self.heap.clear();
        self.wait(self.cart, 0, 0);
        while let Some(Reverse(key)) = self.heap.pop() {
            let cell = (key & 65535) as usize;
            if cell == self.goal {
                return self.lay_route();
            }
            if FAR - (key >> 16 & 65535) as u16 == self.cost[cell] {
                self.expand(cell);
            }
        }
        usize::from(FAR)
    }
}

#[no_mangle]
pub extern "C" fn astar_lay_out(width: usize, height: usize, start: usize, goal: usize) {
    let n = width * height;
    let mut p = planner();
    (p.width, p.cart, p.goal) = (width, start, goal);
    p.ground = vec![0; n];
    let apart = |c: usize| (c / width).abs_diff(goal / width) + (c % width).abs_diff(goal % width);
    p.distance = (0..n).map(|c| apart(c) as u16).collect();
    p.cost = vec![FAR; n];
    p.trail = vec![0; n];
}

#[no_mangle]
pub extern "C" fn astar_report(cell: usize) {
    planner().ground[cell] = 1;
}

#[no_mangle]
pub extern "C" fn astar_plan() -> usize {
    planner().plan()
}

#[no_mangle]
pub extern "C" fn astar_move(cell: usize) {
    planner().cart = cell;
}
