//! Planning and replanning for driverless carts on a four-connected grid, over the proved archive `libsalenduro.a`.
//!
//! A [`Cart`] owns its state: the plot, what is known of its ground, and what was learned about the distance to the goal.
//! Sides are 1 to 64. A cell's number is row × width + column, row 0 at the top; every step is right, down, left or up and
//! costs 1; a cell not known blocked counts as free, and a cell once known blocked stays blocked.
//!
//! ```
//! use salenduro::{Cart, Plan, Refusal, Step};
//!
//! fn main() -> Result<(), Refusal> {
//!     // 3 × 2 cells, the cart on cell 0, its goal cell 2
//!     let mut cart = Cart::lay_out(3, 2, 0, 2)?;
//!     assert_eq!(cart.plan()?, Plan::Route { length: 2, expanded: 2 });
//!
//!     // its sensors see that cell 1 is blocked: no route stands any more, and the next plan leads around
//!     cart.report(1)?;
//!     assert_eq!(cart.advance(), Err(Refusal::NoRoute));
//!     assert_eq!(cart.plan()?, Plan::Route { length: 4, expanded: 4 });
//!     assert_eq!(cart.route()?, [0, 3, 4, 5, 2]);
//!
//!     // another day
//!     let mut cart = Cart::load(&cart.save()?)?;
//!     while let Step::Moved(cell) = cart.advance()? {
//!         println!("on cell {cell}");
//!     }
//!     assert_eq!(cart.cell(), cart.goal());
//!     Ok(())
//! }
//! ```
//!
//! Every call takes every input: sizes, cells and bytes are tested by the library, and whatever is wrong comes back as a
//! [`Refusal`], with nothing changed. A plan needs 52 KiB of stack, [`record::plan`] 84 KiB, and a little more for frames.

#![deny(missing_docs, unsafe_code)]

mod buffers;
#[allow(unsafe_code)]
mod calls;
mod cart;
pub mod record;
mod refusal;

pub use cart::{Cart, Plan, Step};
pub use refusal::Refusal;

/// The largest width and height.
pub const MAX_SIDE: usize = 64;

/// The most cells of a plot: so many entries suffice for every route.
pub const MAX_CELLS: usize = MAX_SIDE * MAX_SIDE;

/// The length of the longest record: so many bytes suffice for every save.
pub const MAX_RECORD: usize = 12_827;
