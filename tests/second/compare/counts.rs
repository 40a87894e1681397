//! Counts what was called and refused, and says where document 01 allows a refusal that no call reached.

use crate::case::Case;
use crate::op::{Call, CALLS};

const NUMBERS: [u32; 7] = [1, 2, 3, 4, 5, 6, 8];

/// The refusals that document 01 allows each call, by `Call::kind`. A call over a record has room of its own, so no 2.
const ALLOWED: [&[u32]; 11] = [
    &[1, 2, 3],
    &[1, 2, 3, 4, 5],
    &[1, 2, 3, 4],
    &[1, 2, 3, 4, 6],
    &[1, 2, 3, 4, 6],
    &[1, 2, 3, 4, 6],
    &[1, 2, 3, 4],
    &[1, 2, 3, 4, 8],
    &[1, 3, 4, 5, 8],
    &[1, 3, 4, 8],
    &[1, 3, 4, 6, 8],
];

#[derive(Default)]
pub struct Counts {
    calls: [usize; 11],
    accepted: [usize; 11],
    refused: [[usize; 9]; 11],
    /// Plans over buffers and over records: arrived, a route, no way.
    plans: [[usize; 3]; 2],
    families: Vec<(&'static str, usize, usize)>,
}

impl Counts {
    pub fn add(&mut self, case: &Case) {
        for made in &case.made {
            let kind = made.call.kind();
            self.calls[kind] += 1;
            match made.call.refusal(made.answer) {
                Some(refusal) => self.refused[kind][refusal as usize] += 1,
                None => self.add_accepted(made.call, made.answer),
            }
        }
        match self.families.iter_mut().find(|(family, ..)| *family == case.family) {
            Some((_, cases, calls)) => (*cases, *calls) = (*cases + 1, *calls + case.made.len()),
            None => self.families.push((case.family, 1, case.made.len())),
        }
    }

    fn add_accepted(&mut self, call: Call, answer: u32) {
        self.accepted[call.kind()] += 1;
        let outcome = match answer {
            0 => 0,
            65_535 => 2,
            _ => 1,
        };
        match call {
            Call::Plan => self.plans[0][outcome] += 1,
            Call::RecordPlan => self.plans[1][outcome] += 1,
            _ => {}
        }
    }

    pub fn calls(&self) -> usize {
        self.calls.iter().sum()
    }

    /// What should have been reached and was not, or was and should not have been.
    pub fn gaps(&self) -> Vec<String> {
        let mut gaps = Vec::new();
        for (kind, name) in CALLS.iter().enumerate() {
            if self.accepted[kind] == 0 {
                gaps.push(format!("{name} was never accepted"));
            }
            for number in NUMBERS {
                let allowed = ALLOWED[kind].contains(&number);
                if allowed != (self.refused[kind][number as usize] > 0) {
                    let times = if allowed { "never" } else { "against document 01" };
                    gaps.push(format!("{name} was {times} refused with {number}"));
                }
            }
        }
        for (plans, over) in self.plans.iter().zip(["buffers", "a record"]) {
            for (count, outcome) in plans.iter().zip(["arrived", "a route", "no way"]) {
                if *count == 0 {
                    gaps.push(format!("plan over {over} never answered {outcome}"));
                }
            }
        }
        gaps
    }

    pub fn print(&self) {
        println!("{:<32}{:>9}{:>9}", "cases", "cases", "calls");
        for (family, cases, calls) in &self.families {
            println!("{family:<32}{cases:>9}{calls:>9}");
        }
        println!();
        let numbers: String = NUMBERS.iter().map(|number| format!("{number:>8}")).collect();
        println!("{:<14}{:>9}{:>9}  refused with:{}", "call", "calls", "accepted", &numbers[6..]);
        for (kind, name) in CALLS.iter().enumerate() {
            let cell = |number: &u32| match ALLOWED[kind].contains(number) {
                true => format!("{:>8}", self.refused[kind][*number as usize]),
                false => format!("{:>8}", "-"),
            };
            let row: String = NUMBERS.iter().map(cell).collect();
            println!("{name:<14}{:>9}{:>9}        {row}", self.calls[kind], self.accepted[kind]);
        }
        let [[arrived, routes, none], [over_arrived, over_routes, over_none]] = self.plans;
        println!("plan: arrived {arrived}, a route {routes}, no way {none}");
        println!("record-plan: arrived {over_arrived}, a route {over_routes}, no way {over_none}");
    }
}
