//! Every refusal, by every call that can give it, with nothing changed; and which comes first where several hold.

mod help;

use help::State;
use salenduro::{record, Cart, Plan, Refusal, MAX_CELLS, MAX_RECORD};
use std::error::Error;
use Refusal::*;

/// Numbers that are too large, some of which would be 0 or small if they were cut to 8, 16 or 32 bits.
const LARGE: [usize; 8] = [65, 256, 257, 1 << 16, (1 << 16) + 1, 1 << 32, (1 << 32) + 1, usize::MAX];

/// A fresh cart, and one with a route.
fn carts() -> [Cart; 2] {
    [Cart::lay_out(3, 2, 3, 2).unwrap(), Cart::load(&State::sample().record()).unwrap()]
}

/// Load and the calls over a record refuse these bytes, for this reason; the bytes stay.
fn refused(bytes: &[u8], why: Refusal) {
    assert_eq!(Cart::load(bytes).err(), Some(why), "load of {bytes:?}");
    let mut record = bytes.to_vec();
    assert_eq!(record::report(&mut record, 0), Err(why));
    assert_eq!(record::report(&mut record, u32::MAX), Err(why));
    assert_eq!(record::plan(&mut record), Err(why));
    assert_eq!(record::advance(&mut record), Err(why));
    assert_eq!(record, bytes);
}

#[test]
fn sides() {
    for side in LARGE.into_iter().chain([0]) {
        assert_eq!(Cart::lay_out(side, 1, 0, 0).err(), Some(Sides));
        assert_eq!(Cart::lay_out(1, side, 0, 0).err(), Some(Sides));
        assert_eq!(Cart::lay_out(side, side, usize::MAX, usize::MAX).err(), Some(Sides));
    }
    for side in [0, 65, 255] {
        refused(&State::with(|state| state.width = side).record(), Sides);
        refused(&State::with(|state| state.height = side).record(), Sides);
    }
}

#[test]
fn short() {
    let [_, cart] = carts();
    let route = cart.route().unwrap();
    let record = cart.save().unwrap();
    for room in 0..route.len() {
        let mut list = vec![7; room];
        assert_eq!(cart.route_into(&mut list), Err(Short));
        assert_eq!(list, vec![7; room]);
    }
    for room in 0..record.len() {
        let mut bytes = vec![7; room];
        assert_eq!(cart.save_into(&mut bytes), Err(Short));
        assert_eq!(bytes, vec![7; room]);
    }
    // just enough is accepted
    assert_eq!(cart.route_into(&mut vec![7; route.len()]), Ok(&route[..]));
    assert_eq!(cart.save_into(&mut vec![7; record.len()]), Ok(&record[..]));
}

#[test]
fn outside() {
    for cell in LARGE.into_iter().chain([6]) {
        assert_eq!(Cart::lay_out(3, 2, cell, 2).err(), Some(Outside));
        assert_eq!(Cart::lay_out(3, 2, 0, cell).err(), Some(Outside));
        for mut cart in carts() {
            let before = cart.save();
            assert_eq!(cart.report(cell), Err(Outside));
            assert_eq!(cart.save(), before);
        }
    }
    let sample = State::sample().record();
    for cell in [6, 256, 1 << 16, u32::MAX] {
        let mut bytes = sample.clone();
        assert_eq!(record::report(&mut bytes, cell), Err(Outside));
        assert_eq!(bytes, sample);
    }
    for cell in [6, 256, u16::MAX] {
        refused(&State::with(|state| state.goal = cell).record(), Outside);
        refused(&State::with(|state| state.cell = cell).record(), Outside);
    }
}

#[test]
fn unsound() {
    // the sample: the cart on 3, the goal 2, cell 4 blocked, learned 2 1 0 3 2 1, links 1 1 0 4 0 4
    let changes: [fn(&mut State); 9] = [
        |state| state.ground[0] |= 1 << 3, // the cart's cell blocked
        |state| state.learned[2] = 1,      // the goal's learned value
        |state| state.learned[0] = 5,      // more than 1 above a free neighbour
        |state| state.learned[4] = 6,      // at a blocked cell, but N
        |state| state.link[2] = 3,         // a link at the goal
        |state| state.link[4] = 1,         // a link at a blocked cell
        |state| state.link[1] = 2,         // a link to a blocked cell
        |state| state.link[5] = 1,         // a link off the plot
        |state| state.link[1] = 5,         // a link that is no direction
    ];
    for change in changes {
        refused(&State::with(change).record(), Unsound);
    }
    assert!(Cart::load(&State::sample().record()).is_ok());
}

#[test]
fn own_cell() {
    for mut cart in carts() {
        let before = cart.save().unwrap();
        assert_eq!(cart.report(3), Err(OwnCell));
        assert_eq!(cart.save().unwrap(), before);
        let mut bytes = before.clone();
        assert_eq!(record::report(&mut bytes, 3), Err(OwnCell));
        assert_eq!(bytes, before);
    }
    assert_eq!(Cart::lay_out(1, 1, 0, 0).unwrap().report(0), Err(OwnCell)); // on the goal
}

#[test]
fn no_route() {
    let [mut cart, _] = carts();
    let before = cart.save().unwrap();
    let mut list = [7; MAX_CELLS];
    assert!(!cart.route_stands());
    assert_eq!(cart.advance(), Err(NoRoute));
    assert_eq!(cart.route(), Err(NoRoute));
    assert_eq!(cart.route_into(&mut list), Err(NoRoute));
    assert_eq!(list, [7; MAX_CELLS]);
    assert_eq!(cart.save().unwrap(), before);
    let mut bytes = before.clone();
    assert_eq!(record::advance(&mut bytes), Err(NoRoute));
    assert_eq!(bytes, before);
    assert_eq!(cart.plan(), Ok(Plan::Route { length: 3, expanded: 3 }));
    assert!(cart.route_stands());
}

#[test]
fn form() {
    let sample = State::sample().record();
    for length in 0..sample.len() {
        refused(&sample[..length], Form);
    }
    refused(&[&sample[..], &[0]].concat(), Form);
    refused(&[0; MAX_RECORD + 1], Form);
    refused(&[&sample[..], &sample].concat(), Form);
    for field in [0, 4, 8, 13, 18, 22, 37] {
        for (place, byte) in [(0, 0), (0, 8), (1, 1), (2, 9)] {
            let mut bytes = sample.clone();
            bytes[field + place] = byte;
            refused(&bytes, Form);
        }
    }
    refused(&State::with(|state| state.ground[0] |= 1 << 6).record(), Form); // a spare bit
}

#[test]
fn the_order_where_several_hold() {
    let [mut fresh, mut routed] = carts();
    assert_eq!(Cart::lay_out(65, 1, 99, 0).err(), Some(Sides));
    // a list's room is asked for last
    assert_eq!(fresh.route_into(&mut []), Err(NoRoute));
    assert_eq!(routed.route_into(&mut []), Err(Short));
    assert_eq!((fresh.report(6), routed.report(6)), (Err(Outside), Err(Outside)));
    // form of the first two fields, sides, form of the rest, cells, soundness
    let mut wrong = State::with(|state| (state.width, state.goal, state.link[2]) = (0, 99, 3));
    let mut bytes = wrong.record();
    bytes[37] = 0; // the last field's tag
    refused(&[&[9], &bytes[1..]].concat(), Form);
    refused(&bytes, Sides);
    bytes[3] = 3;
    refused(&bytes, Form);
    wrong.width = 3;
    refused(&wrong.record(), Outside);
    wrong.goal = 2;
    refused(&wrong.record(), Unsound);
}

#[test]
fn each_has_its_number_and_says_what_to_do() {
    let all = [(Sides, 1), (Short, 2), (Outside, 3), (Unsound, 4), (OwnCell, 5), (NoRoute, 6), (Form, 8)];
    for (refusal, number) in all {
        assert_eq!(refusal.number(), number);
        let error: Box<dyn Error + Send + Sync> = refusal.into();
        let (means, to_do) = error.to_string().split_once(": ").map(|(a, b)| (a.len(), b.len())).unwrap();
        assert!(means > 0 && to_do > 0);
    }
}
