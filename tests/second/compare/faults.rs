//! The test of the test: with a fault planted in the second planner, the same comparison must find a difference.

use crate::case::Case;
use crate::op::text;
use crate::random::Random;
use crate::run::Library;
use crate::{hand, orders, records, walks};
use second::fault::{plant, Fault};
use std::io;

/// A fault that is not found within so many calls counts as missed.
const CALLS: usize = 200_000;
const BATCH: usize = 20;

fn any_case(random: &mut Random) -> Case {
    match random.below(8) {
        0..=3 => walks::walk(random),
        4 => hand::case(random),
        5 => records::random_case(random),
        _ => orders::case(random),
    }
}

/// The number of calls after which the fault was found, and its smallest case; or none.
pub fn find(command: &[String], fault: Fault, seed: u64) -> io::Result<Option<(usize, String)>> {
    let mut library = Library::start(command)?;
    plant(Some(fault));
    let found = look(&mut library, seed);
    plant(None);
    library.end();
    found
}

fn look(library: &mut Library, seed: u64) -> io::Result<Option<(usize, String)>> {
    let mut random = Random(seed);
    let mut calls = 0;
    while calls < CALLS {
        let batch: Vec<Case> = (0..BATCH).map(|_| any_case(&mut random)).collect();
        let differences = library.run(&batch)?;
        for (case, difference) in batch.iter().zip(differences) {
            if let Some(difference) = difference {
                let (ops, how) = library.smallest(case.family, &case.ops[..=difference.op])?;
                calls += case.made.iter().take_while(|made| made.op <= difference.op).count();
                return Ok(Some((calls, format!("{how}\n  {}", text(&ops)))));
            }
            calls += case.made.len();
        }
    }
    Ok(None)
}
