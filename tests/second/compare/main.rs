//! Compares the proved library with the second planner: every answer, and every entry of every buffer after every call.
//! compare [--seed N] [--calls N] [--long] [--replay CASE] [--fault NAME] -- HARNESS ARGUMENT..

mod base;
mod case;
mod changes;
mod child;
mod counts;
mod drives;
mod faults;
mod hand;
mod lengths;
mod numbers;
mod op;
mod orders;
mod plots;
mod random;
mod records;
mod run;
mod shrink;
mod tiny;
mod unsound;
mod walks;
mod world;

use case::Case;
use random::Random;
use run::{Library, Run};
use second::fault::{self, Fault};
use std::io;
use std::process::ExitCode;
use std::time::{Instant, SystemTime, UNIX_EPOCH};

const CALLS: usize = 400_000;
const LONG: usize = 4_000_000;

struct Options {
    seed: u64,
    calls: usize,
    replay: Option<String>,
    /// A fault that is planted from the start, to see how a failing run looks.
    fault: Option<Fault>,
    command: Vec<String>,
}

fn options() -> Option<Options> {
    let now = SystemTime::now().duration_since(UNIX_EPOCH).map_or(0, |since| since.as_secs());
    let mut options = Options { seed: now, calls: CALLS, replay: None, fault: None, command: Vec::new() };
    let mut words = std::env::args().skip(1);
    while let Some(word) = words.next() {
        match word.as_str() {
            "--seed" => options.seed = words.next()?.parse().ok()?,
            "--calls" => options.calls = words.next()?.parse().ok()?,
            "--long" => options.calls = LONG,
            "--replay" => options.replay = Some(words.next()?),
            "--fault" => options.fault = Some(fault::named(&words.next()?)?),
            "--" => options.command = words.by_ref().collect(),
            _ => return None,
        }
    }
    (!options.command.is_empty()).then_some(options)
}

/// The directed cases, then random ones of each kind, and walks until there are calls enough.
fn all_cases(run: &mut Run, options: &Options) -> io::Result<()> {
    let mut trouble = Ok(());
    let mut sink = |case: Case| {
        if trouble.is_ok() {
            trouble = run.add(case);
        }
    };
    for family in [numbers::all, lengths::all, unsound::all, records::all, tiny::all] {
        family(&mut sink);
    }
    if options.calls >= LONG {
        tiny::all_of([3, 3], &mut sink);
    }
    trouble?;
    let mut random = Random(options.seed);
    for _ in 0..options.calls / 250 {
        run.add(orders::case(&mut random))?;
        run.add(hand::case(&mut random))?;
    }
    for _ in 0..options.calls / 1000 {
        run.add(records::random_case(&mut random))?;
    }
    for _ in 0..options.calls / 5000 {
        run.add(drives::case(&mut random))?;
    }
    while run.counts.calls() < options.calls {
        run.add(walks::walk(&mut random))?;
    }
    run.flush()
}

fn planted(run: &mut Run, options: &Options) -> io::Result<()> {
    for fault in fault::ALL {
        match faults::find(&options.command, fault, options.seed)? {
            Some((calls, how)) => {
                println!("planted {fault:?}: found after {calls} calls; {how}");
                run.judge(true, "");
            }
            None => run.judge(false, &format!("planted {fault:?} was not found")),
        }
    }
    Ok(())
}

fn compare(options: &Options) -> io::Result<bool> {
    println!("seed {} (again with: tests/second/run --seed {0} --calls {})", options.seed, options.calls);
    let begun = Instant::now();
    let mut run = Run::start(&options.command)?;
    all_cases(&mut run, options)?;
    let (seconds, calls) = (begun.elapsed().as_secs_f64(), run.counts.calls());
    if options.fault.is_none() {
        planted(&mut run, options)?;
        println!();
    }
    run.counts.print();
    println!("{calls} calls compared in {seconds:.1} s, {:.0} a second", calls as f64 / seconds);
    for gap in run.counts.gaps() {
        run.judge(false, &gap);
    }
    let (passed, failed) = run.end()?;
    println!("{passed} passed, {failed} failed");
    Ok(failed == 0)
}

/// Runs one case that was printed before, and says what differs.
fn replay(options: &Options, text: &str) -> io::Result<bool> {
    let case = op::parse(text).and_then(|ops| Case::of("replay", &ops));
    let case = case.ok_or_else(|| io::Error::other("this is no case"))?;
    for made in &case.made {
        println!("operation {} {}: {}", made.op, case.ops[made.op], made.answer);
    }
    let mut library = Library::start(&options.command)?;
    let difference = library.run(&[case])?.remove(0);
    match &difference {
        Some(difference) => println!("operation {}: {}", difference.op, difference.how),
        None => println!("no difference"),
    }
    Ok(difference.is_none() && library.end())
}

fn main() -> ExitCode {
    let Some(options) = options() else {
        eprintln!("compare [--seed N] [--calls N] [--long] [--replay CASE] [--fault NAME] -- HARNESS ARGUMENT..");
        return ExitCode::from(2);
    };
    fault::plant(options.fault);
    let done = match &options.replay {
        Some(text) => replay(&options, text),
        None => compare(&options),
    };
    match done {
        Ok(true) => ExitCode::SUCCESS,
        Ok(false) => ExitCode::FAILURE,
        Err(error) => {
            println!("FAILED: {error}\n0 passed, 1 failed");
            ExitCode::FAILURE
        }
    }
}
