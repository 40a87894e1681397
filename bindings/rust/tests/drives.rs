//! Random drives over unknown ground: every plan's length is compared with a breadth-first search over what is known, and
//! every route is walked.

mod help;

use help::{beside, fewest_steps, Random};
use salenduro::{Cart, Plan, Refusal, Step};

/// A cart, its true ground, and what the test knows to be blocked.
struct Drive {
    cart: Cart,
    truth: Vec<bool>,
    known: Vec<bool>,
}

impl Drive {
    fn new(random: &mut Random, most: usize) -> Drive {
        let (width, height, percent) = (1 + random.below(most), 1 + random.below(most), random.below(50));
        let n = width * height;
        let (start, goal) = (random.below(n), random.below(n));
        let mut truth: Vec<bool> = (0..n).map(|_| random.below(100) < percent).collect();
        truth[start] = false;
        Drive { cart: Cart::lay_out(width, height, start, goal).unwrap(), truth, known: vec![false; n] }
    }

    fn report(&mut self, cell: usize) {
        assert_eq!(self.cart.report(cell), Ok(()));
        self.known[cell] = true;
        assert!(self.cart.ground().iter().zip(&self.known).all(|(&ground, &known)| ground == u8::from(known)));
    }

    /// Reports what is blocked beside the cart; at times a cell farther off, or one known already.
    fn look(&mut self, random: &mut Random) {
        let far = random.below(self.truth.len());
        let near = beside(self.cart.width(), self.cart.height(), self.cart.cell());
        let seen: Vec<usize> = near.chain(random.one_in(4).then_some(far)).filter(|&cell| self.truth[cell]).collect();
        seen.into_iter().for_each(|cell| self.report(cell));
    }

    /// Plans, and holds the answer and what it left to the search. Whether a route stands then.
    fn plan(&mut self) -> bool {
        let before = self.cart.learned().to_vec();
        let (width, height, cell, goal) = (self.cart.width(), self.cart.height(), self.cart.cell(), self.cart.goal());
        let fewest = fewest_steps(width, height, &self.known, cell, goal);
        let answer = self.cart.plan().unwrap();
        let marked = self.cart.mark().iter().filter(|&&mark| mark == 2).count();
        match fewest {
            Some(0) => assert_eq!(answer, Plan::Arrived),
            Some(length) => assert_eq!(answer, Plan::Route { length, expanded: marked }),
            None => assert_eq!(answer, Plan::NoWay { expanded: marked }),
        }
        assert!(self.cart.learned().iter().zip(before).all(|(&now, then)| now >= then));
        self.walk(fewest);
        fewest.is_some()
    }

    /// The route, cell by cell, has so many steps and leads to the goal over cells not known blocked.
    fn walk(&self, steps: Option<usize>) {
        assert_eq!(self.cart.route_stands(), steps.is_some());
        let Some(steps) = steps else {
            assert_eq!(self.cart.route(), Err(Refusal::NoRoute));
            return;
        };
        let route: Vec<usize> = self.cart.route().unwrap().into_iter().map(usize::from).collect();
        assert_eq!((route.len(), route[0], route[steps]), (steps + 1, self.cart.cell(), self.cart.goal()));
        for pair in route.windows(2) {
            assert!(beside(self.cart.width(), self.cart.height(), pair[0]).any(|next| next == pair[1]));
            assert!(!self.known[pair[1]]);
        }
    }

    /// Drives to the goal, or until there is no way; the plans that it took.
    fn run(mut self, random: &mut Random) -> usize {
        let mut plans = 0;
        loop {
            self.look(random);
            if !self.cart.route_stands() || random.one_in(8) {
                plans += 1;
                if !self.plan() {
                    return plans;
                }
            }
            if random.one_in(16) {
                self.cart = Cart::load(&self.cart.save().unwrap()).unwrap();
            }
            let (from, on_goal) = (self.cart.cell(), self.cart.cell() == self.cart.goal());
            match self.cart.advance().unwrap() {
                Step::Arrived => {
                    assert!(on_goal);
                    return plans;
                }
                Step::Moved(cell) => {
                    assert!(!on_goal && cell == self.cart.cell() && !self.truth[cell]);
                    assert!(beside(self.cart.width(), self.cart.height(), from).any(|next| next == cell));
                }
            }
        }
    }
}

fn drives(seed: u64, count: usize, most: usize) -> usize {
    let mut random = Random(seed);
    (0..count).map(|_| Drive::new(&mut random, most).run(&mut random)).sum()
}

#[test]
fn small_plots() {
    assert!(drives(0x0001_5eed, 600, 6) > 600);
}

#[test]
fn plots_of_all_sizes() {
    assert!(drives(0x0002_5eed, 40, 64) > 200);
}
