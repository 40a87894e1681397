//! Save and load, and the calls over a record beside the same calls on a cart.

mod help;

use help::{Random, State};
use salenduro::{record, Cart, Plan, Step, MAX_CELLS, MAX_RECORD};

/// What a cart shows of its state.
fn state(cart: &Cart) -> ([usize; 4], &[u8], &[u16], &[u8]) {
    ([cart.width(), cart.height(), cart.goal(), cart.cell()], cart.ground(), cart.learned(), cart.link())
}

/// A plan's answer without its count, as the call over a record gives it.
fn plain(plan: Plan) -> record::Plan {
    match plan {
        Plan::Arrived => record::Plan::Arrived,
        Plan::Route { length, .. } => record::Plan::Route { length: length as u32 },
        Plan::NoWay { .. } => record::Plan::NoWay,
    }
}

#[test]
fn a_record_reads_back_as_the_state_it_was_written_from() {
    let sample = State::sample();
    let cart = Cart::load(&sample.record()).unwrap();
    assert_eq!(state(&cart), ([3, 2, 2, 3], &[0, 0, 0, 0, 1, 0][..], &sample.learned[..], &sample.link[..]));
    assert_eq!(cart.save().unwrap(), sample.record());
    assert_eq!(cart.route().unwrap(), [3, 0, 1, 2]);
    assert_eq!((cart.mark(), cart.cost(), cart.trail()), (&[0; 6][..], &[65_535; 6][..], &[0; 6][..]));
    // nothing searched
}

#[test]
fn what_follows_a_record_and_a_route_stays() {
    let cart = Cart::load(&State::sample().record()).unwrap();
    let (mut bytes, mut list) = ([7; MAX_RECORD], [7; MAX_CELLS]);
    let (length, count) = (cart.save_into(&mut bytes).unwrap().len(), cart.route_into(&mut list).unwrap().len());
    assert_eq!((&bytes[..length], &list[..count]), (&cart.save().unwrap()[..], &cart.route().unwrap()[..]));
    assert!(bytes[length..].iter().all(|&byte| byte == 7) && list[count..].iter().all(|&cell| cell == 7));
}

#[test]
fn every_damaged_byte_is_refused_or_another_state() {
    let sample = State::sample().record();
    for place in 0..sample.len() {
        for byte in 0..=255 {
            let mut bytes = sample.clone();
            bytes[place] = byte;
            // a state has one record
            if let Ok(cart) = Cart::load(&bytes) {
                assert_eq!(cart.save().unwrap(), bytes);
            }
        }
    }
}

/// Random calls on a cart, each made on its record too; after each the record is the cart's, and reads back as its state.
#[test]
fn the_calls_over_a_record_do_what_the_calls_on_a_cart_do() {
    let mut random = Random(0x5a1e_d0c5);
    for _ in 0..60 {
        let (width, height) = (1 + random.below(9), 1 + random.below(9));
        let n = width * height;
        let mut cart = Cart::lay_out(width, height, random.below(n), random.below(n)).unwrap();
        let mut bytes = cart.save().unwrap();
        for _ in 0..60 {
            match random.below(4) {
                0 => {
                    let cell = random.below(n + 1);
                    assert_eq!(cart.report(cell), record::report(&mut bytes, cell as u32));
                }
                1 => assert_eq!(cart.plan().map(plain), record::plan(&mut bytes)),
                _ => {
                    let was_on = cart.cell();
                    let cell = cart.advance().map(|step| match step {
                        Step::Moved(cell) => cell as u32,
                        Step::Arrived => was_on as u32,
                    });
                    assert_eq!(cell, record::advance(&mut bytes));
                }
            }
            assert_eq!(cart.save().unwrap(), bytes);
            assert_eq!(state(&Cart::load(&bytes).unwrap()), state(&cart));
        }
    }
}

#[test]
fn a_clone_and_a_cart_on_another_thread_are_carts_of_their_own() {
    let cart = Cart::lay_out(64, 64, 0, 4095).unwrap();
    let mut other = cart.clone();
    let planned = std::thread::spawn(move || (other.plan(), other.route_stands())).join().unwrap();
    assert!(matches!(planned, (Ok(Plan::Route { length: 126, .. }), true)));
    assert!(!cart.route_stands());
}
