//! Runs cases through the harness in batches, counts what passed, and shows each failure as its smallest case.

use crate::case::Case;
use crate::child::{Child, Difference};
use crate::counts::Counts;
use crate::op::{text, Op};
use crate::shrink::shrink;
use std::io;
use std::time::{Duration, Instant};

/// A batch goes to the harness when so many bytes are expected back.
const BATCH: usize = 4 << 20;
/// So many failures are made small and shown; the others are counted.
const SHOWN: usize = 5;
/// How often and how long a smaller case is looked for.
const ATTEMPTS: usize = 600;
const TIME: Duration = Duration::from_secs(30);

pub struct Run {
    library: Library,
    batch: Vec<Case>,
    waiting: usize,
    pub counts: Counts,
    pub passed: usize,
    pub failed: usize,
}

/// The library behind the harness, which is started again where a call ended it.
pub struct Library {
    command: Vec<String>,
    child: Child,
}

impl Library {
    pub fn start(command: &[String]) -> io::Result<Library> {
        Ok(Library { command: command.to_vec(), child: Child::start(command)? })
    }

    /// What differs in each of the cases.
    pub fn run(&mut self, cases: &[Case]) -> io::Result<Vec<Option<Difference>>> {
        let mut differences = Vec::new();
        while differences.len() < cases.len() {
            differences.extend(self.run_some(&cases[differences.len()..])?);
            if self.child.ended {
                // Answers that it had not yet written out are lost with it, so the call that ended it may be of a later
                // case. Run alone, this case tells.
                differences.pop();
                let at = differences.len();
                differences.extend(self.run_some(&cases[at..=at])?);
            }
        }
        Ok(differences)
    }

    fn run_some(&mut self, cases: &[Case]) -> io::Result<Vec<Option<Difference>>> {
        if self.child.ended {
            let ended = std::mem::replace(&mut self.child, Child::start(&self.command)?);
            ended.end();
        }
        Ok(self.child.run(cases))
    }

    /// The smallest case in which these operations still fail, and what differs in it.
    pub fn smallest(&mut self, family: &'static str, ops: &[Op]) -> io::Result<(Vec<Op>, String)> {
        let mut differs = |ops: &[Op]| -> io::Result<Option<String>> {
            let Some(case) = Case::of(family, ops) else { return Ok(None) };
            Ok(self.run(&[case])?.remove(0).map(|difference| difference.how))
        };
        let begun = Instant::now();
        let ops = shrink(ops, ATTEMPTS, |ops| begun.elapsed() < TIME && matches!(differs(ops), Ok(Some(_))));
        let how = differs(&ops)?.unwrap_or_else(|| "it does not fail when it is run again".into());
        Ok((ops, how))
    }

    /// Whether the harness ends well when its input does.
    pub fn end(self) -> bool {
        self.child.end()
    }
}

impl Run {
    pub fn start(command: &[String]) -> io::Result<Run> {
        let library = Library::start(command)?;
        Ok(Run { library, batch: Vec::new(), waiting: 0, counts: Counts::default(), passed: 0, failed: 0 })
    }

    pub fn add(&mut self, case: Case) -> io::Result<()> {
        self.counts.add(&case);
        self.waiting += case.expected.len();
        self.batch.push(case);
        if self.waiting >= BATCH {
            self.flush()?;
        }
        Ok(())
    }

    pub fn flush(&mut self) -> io::Result<()> {
        let batch = std::mem::take(&mut self.batch);
        self.waiting = 0;
        let differences = self.library.run(&batch)?;
        for (case, difference) in batch.iter().zip(differences) {
            match (difference, &case.missed) {
                (Some(difference), _) => self.differs(case, &difference)?,
                (None, Some(missed)) => self.fail(&format!("{}: {missed}\n  {}", case.family, text(&case.ops))),
                (None, None) => self.passed += 1,
            }
        }
        Ok(())
    }

    fn differs(&mut self, case: &Case, difference: &Difference) -> io::Result<()> {
        if self.failed >= SHOWN {
            self.failed += 1;
            return Ok(());
        }
        let (ops, how) = self.library.smallest(case.family, &case.ops[..=difference.op])?;
        self.fail(&format!("{}: {how}\n  tests/second/run --replay '{}'", case.family, text(&ops)));
        Ok(())
    }

    /// One thing more that holds or does not.
    pub fn judge(&mut self, holds: bool, what: &str) {
        match holds {
            true => self.passed += 1,
            false => self.fail(what),
        }
    }

    fn fail(&mut self, what: &str) {
        self.failed += 1;
        if self.failed <= SHOWN {
            println!("FAILED: {what}");
        }
    }

    pub fn end(mut self) -> io::Result<(usize, usize)> {
        self.flush()?;
        let well = self.library.child.end();
        if !well {
            println!("FAILED: the harness did not end well");
        }
        Ok((self.passed + usize::from(well), self.failed + usize::from(!well)))
    }
}
