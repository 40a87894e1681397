//! Document 01's bench of examples, P1 to P11, and its edges, through the crate.

mod help;

use help::State;
use salenduro::{Cart, Plan, Refusal, Step, MAX_RECORD};

fn fresh(width: usize, height: usize, start: usize, goal: usize) -> Cart {
    Cart::lay_out(width, height, start, goal).unwrap()
}

/// A fresh plot of 3 × 1, after its first plan: P2's.
fn p2() -> Cart {
    let mut cart = fresh(3, 1, 0, 2);
    assert_eq!(cart.plan(), Ok(Plan::Route { length: 2, expanded: 2 }));
    cart
}

/// P10's record, in hex as document 01 has it.
const P10: &str = "01 0001 02, 02 0001 01, 03 0002 0001, 04 0002 0000, 05 0001 00, 06 0004 0001 0000, 07 0002 0000";

fn bytes(hex: &str) -> Vec<u8> {
    let digits: Vec<u32> = hex.chars().filter_map(|digit| digit.to_digit(16)).collect();
    digits.chunks(2).map(|pair| (pair[0] * 16 + pair[1]) as u8).collect()
}

#[test]
fn p1_on_the_goal_it_is_arrived() {
    let mut cart = fresh(1, 1, 0, 0);
    assert_eq!(cart.learned(), [0]);
    assert_eq!(cart.plan(), Ok(Plan::Arrived));
}

#[test]
fn p2_a_first_plan() {
    let cart = p2();
    assert_eq!((cart.learned(), cart.link()), (&[2, 1, 0][..], &[1, 1, 0][..]));
    assert_eq!((cart.mark(), cart.cost(), cart.trail()), (&[2, 2, 1][..], &[0, 1, 2][..], &[0, 1, 1][..]));
}

#[test]
fn p3_planned_again_nothing_is_expanded() {
    let mut cart = p2();
    assert_eq!(cart.plan(), Ok(Plan::Route { length: 2, expanded: 0 }));
    assert_eq!((cart.mark(), cart.cost()), (&[1, 0, 0][..], &[0, 65_535, 65_535][..]));
}

#[test]
fn p4_a_move() {
    let mut cart = p2();
    assert_eq!(cart.advance(), Ok(Step::Moved(1)));
    assert_eq!((cart.cell(), cart.link()), (1, &[0, 1, 0][..]));
}

#[test]
fn p5_no_way() {
    let mut cart = fresh(3, 1, 0, 2);
    cart.report(1).unwrap();
    assert_eq!(cart.plan(), Ok(Plan::NoWay { expanded: 1 }));
    assert_eq!((cart.learned(), cart.mark()), (&[2, 1, 0][..], &[2, 0, 0][..]));
}

#[test]
fn p6_a_report_on_the_route_ends_it() {
    let mut cart = p2();
    cart.report(1).unwrap();
    assert_eq!(cart.link(), [0, 0, 0]);
    assert_eq!(cart.advance(), Err(Refusal::NoRoute));
}

#[test]
fn p7_the_first_plan_of_the_drive() {
    let mut cart = fresh(3, 2, 0, 2);
    cart.report(1).unwrap();
    assert_eq!(cart.plan(), Ok(Plan::Route { length: 4, expanded: 4 }));
    assert_eq!((cart.learned(), cart.link()), (&[4, 1, 0, 3, 2, 1][..], &[2, 0, 0, 1, 1, 4][..]));
}

#[test]
fn p8_ties_between_cells() {
    let mut cart = fresh(2, 2, 0, 3);
    assert_eq!(cart.plan(), Ok(Plan::Route { length: 2, expanded: 2 }));
    assert_eq!((cart.link(), cart.mark()), (&[1, 2, 0, 0][..], &[2, 2, 1, 1][..]));
}

#[test]
fn p9_up_first_by_cell_number() {
    let mut cart = fresh(3, 2, 3, 2);
    assert_eq!(cart.plan(), Ok(Plan::Route { length: 3, expanded: 3 }));
    assert_eq!(cart.link(), [1, 1, 0, 4, 0, 0]);
}

#[test]
fn p10_the_record_of_a_fresh_plot() {
    let record = fresh(2, 1, 0, 1).save().unwrap();
    assert_eq!(record, bytes(P10));
    assert_eq!(record.len(), 34);
}

#[test]
fn p11_a_record_that_is_not_sound() {
    let mut record = bytes(P10);
    let learned = 4 + 4 + 5 + 5 + 4 + 3;
    record[learned + 1] = 2;
    assert_eq!(Cart::load(&record).err(), Some(Refusal::Unsound));
}

#[test]
fn sides_of_64_and_of_1_are_accepted() {
    for (width, height) in [(64, 64), (64, 1), (1, 64), (1, 1)] {
        let n = width * height;
        let cart = fresh(width, height, 0, n - 1);
        assert_eq!((cart.width(), cart.height(), cart.cell(), cart.goal()), (width, height, 0, n - 1));
        assert_eq!((cart.ground().len(), cart.learned().len(), cart.link().len()), (n, n, n));
        assert_eq!((cart.mark().len(), cart.cost().len(), cart.trail().len()), (n, n, n));
    }
    assert_eq!(fresh(64, 64, 0, 0).save().unwrap().len(), MAX_RECORD);
    assert_eq!(fresh(1, 1, 0, 0).save().unwrap().len(), 31);
}

#[test]
fn the_longest_plot_is_driven_to_its_end() {
    let mut cart = fresh(64, 64, 0, 4095);
    assert!(matches!(cart.plan(), Ok(Plan::Route { length: 126, .. })));
    assert_eq!(cart.route().unwrap().len(), 127);
    for _ in 0..126 {
        assert!(matches!(cart.advance(), Ok(Step::Moved(_))));
    }
    assert_eq!((cart.cell(), cart.advance(), cart.plan()), (4095, Ok(Step::Arrived), Ok(Plan::Arrived)));
    assert_eq!(cart.route(), Ok(vec![4095]));
}

#[test]
fn the_last_cell_is_accepted() {
    let mut cart = fresh(3, 2, 5, 5);
    assert_eq!(cart.route(), Ok(vec![5]));
    cart = fresh(3, 2, 0, 2);
    assert_eq!(cart.report(5), Ok(()));
    assert_eq!(cart.report(5), Ok(())); // known already
    assert_eq!(cart.ground(), [0, 0, 0, 0, 0, 1]);
}

#[test]
fn the_goal_may_be_reported() {
    let mut cart = p2();
    assert_eq!(cart.report(2), Ok(()));
    assert_eq!(cart.plan(), Ok(Plan::NoWay { expanded: 2 }));
}

#[test]
fn a_learned_value_below_the_cells_can_be_sound() {
    // cell 4 is free and all beside it are blocked, so that only the bound N = 6 decides
    let ground = vec![1 << 1 | 1 << 3 | 1 << 5];
    let load = |value| {
        let learned = vec![2, 1, 0, 3, value, 1];
        Cart::load(
            &State { width: 3, height: 2, goal: 2, cell: 0, ground: ground.clone(), learned, link: vec![0; 6] }.record(),
        )
    };
    assert_eq!(load(5).unwrap().learned()[4], 5);
    assert_eq!(load(6).err(), Some(Refusal::Unsound));
}
