//! A cart drives a small plot of which it knows nothing at first: it looks around, reports what is blocked, plans where no
//! route stands, and moves. It prints what it does, in the words of document 01's drive program.

use salenduro::{Cart, Plan, Refusal, Step};

/// The true ground, which only the cart's sensors see.
const PLOT: [&str; 4] = [
    "......", //
    ".####.", //
    "....#.", //
    "###.#.", //
];
const WIDTH: usize = 6;
const START: usize = 2 * WIDTH;
const GOAL: usize = 3 * WIDTH + 5;

/// The cells beside one: right, down, left, up.
fn beside(cell: usize) -> impl Iterator<Item = usize> {
    let (row, column) = (cell / WIDTH, cell % WIDTH);
    let right = (column + 1 < WIDTH).then_some(cell + 1);
    let down = (row + 1 < PLOT.len()).then_some(cell + WIDTH);
    let left = (column > 0).then(|| cell - 1);
    let up = (row > 0).then(|| cell - WIDTH);
    [right, down, left, up].into_iter().flatten()
}

fn blocked(cell: usize) -> bool {
    PLOT[cell / WIDTH].as_bytes()[cell % WIDTH] == b'#'
}

/// Reports the blocked cells beside the cart that it does not know yet.
fn look(cart: &mut Cart) -> Result<(), Refusal> {
    for cell in beside(cart.cell()) {
        if blocked(cell) && cart.ground()[cell] == 0 {
            cart.report(cell)?;
            println!("blocked {cell}");
        }
    }
    Ok(())
}

fn main() -> Result<(), Refusal> {
    let mut cart = Cart::lay_out(WIDTH, PLOT.len(), START, GOAL)?;
    let mut moves = 0;
    loop {
        look(&mut cart)?;
        if !cart.route_stands() {
            match cart.plan()? {
                Plan::Route { length, expanded } => println!("plan {length} {expanded}"),
                Plan::NoWay { expanded } => {
                    println!("no way {expanded}");
                    return Ok(());
                }
                Plan::Arrived => {}
            }
        }
        match cart.advance()? {
            Step::Moved(cell) => println!("move {cell}"),
            Step::Arrived => break,
        }
        moves += 1;
    }
    println!("arrived {moves}");
    println!("saved in {} bytes", cart.save()?.len());

    // What breaks a rule is refused, and says what to do.
    for refused in [cart.report(GOAL), cart.report(usize::MAX), Cart::load(b"no record").map(drop)] {
        if let Err(why) = refused {
            println!("refused {}: {why}", why.number());
        }
    }
    Ok(())
}
