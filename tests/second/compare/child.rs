//! The harness as a child process: many cases go in at once, and what comes out is compared byte by byte.

use crate::case::{Case, Made};
use crate::op::Op;
use crate::world::World;
use std::io::{self, Read, Write};
use std::process::{self, ChildStdin, ChildStdout, Command, Stdio};
use std::sync::mpsc::{self, RecvTimeoutError};
use std::thread;
use std::time::Duration;

/// So long a harness may take over the cases that it is given at once.
const PATIENCE: Duration = Duration::from_secs(60);

pub struct Child {
    process: process::Child,
    input: ChildStdin,
    output: ChildStdout,
    /// It came to its end in the middle of a case.
    pub ended: bool,
}

/// The first operation of a case after which the library and the second planner differ, and how. Where the library did not
/// come back it is the last of the case, for the call can be any.
pub struct Difference {
    pub op: usize,
    pub how: String,
}

impl Child {
    pub fn start(command: &[String]) -> io::Result<Child> {
        let mut start = Command::new(&command[0]);
        let mut process = start.args(&command[1..]).stdin(Stdio::piped()).stdout(Stdio::piped()).spawn()?;
        let pipes = process.stdin.take().zip(process.stdout.take());
        let (input, output) = pipes.ok_or_else(|| io::Error::other("the harness has no pipes"))?;
        Ok(Child { process, input, output, ended: false })
    }

    /// Runs the cases in order. What differs in each; fewer than the cases where the harness ended early, with the last of
    /// them the case that it ended in.
    pub fn run(&mut self, cases: &[Case]) -> Vec<Option<Difference>> {
        let mut text = String::new();
        for op in cases.iter().flat_map(|case| &case.ops) {
            text.push_str(&op.to_string());
            text.push('\n');
        }
        let (process, input, output) = (&mut self.process, &mut self.input, &mut self.output);
        let (done, wait) = mpsc::channel::<()>();
        thread::scope(|scope| {
            // A thread of its own writes: were it this one, both sides could wait for the other to read. Where the harness
            // has ended the writing fails, and the reading tells.
            scope.spawn(move || input.write_all(text.as_bytes()));
            // Another ends a harness that a call does not come back to.
            scope.spawn(move || match wait.recv_timeout(PATIENCE) {
                Err(RecvTimeoutError::Timeout) => process.kill(),
                _ => Ok(()),
            });
            let mut differences = Vec::new();
            for case in cases {
                let answer = read_up_to(output, case.expected.len());
                differences.push(difference(case, &answer));
                self.ended = answer.len() < case.expected.len();
                if self.ended {
                    break;
                }
            }
            drop(done);
            differences
        })
    }

    /// Closes the input and waits for the end. Whether the harness ended well.
    pub fn end(mut self) -> bool {
        drop(self.input);
        let mut rest = Vec::new();
        let quiet = self.output.read_to_end(&mut rest).is_ok() && rest.is_empty();
        self.process.wait().is_ok_and(|status| status.success()) && quiet
    }
}

/// So many bytes, or fewer where the harness ended before.
fn read_up_to(output: &mut ChildStdout, length: usize) -> Vec<u8> {
    let mut bytes = Vec::with_capacity(length);
    let _ = output.take(length as u64).read_to_end(&mut bytes);
    bytes
}

fn difference(case: &Case, answer: &[u8]) -> Option<Difference> {
    if case.expected == answer {
        return None;
    }
    let same = case.expected.iter().zip(answer).take_while(|(ours, theirs)| ours == theirs).count();
    let at = case.made.iter().position(|made| same < made.end)?;
    let start = if at == 0 { 0 } else { case.made[at - 1].end };
    let Made { op, end, .. } = case.made[at];
    Some(match answer.get(start..end) {
        None => Difference { op: case.ops.len() - 1, how: "the library does not come back".into() },
        Some(theirs) => Difference { op, how: describe(case, &case.expected[start..end], theirs, same - start) },
    })
}

/// Says in which number two texts of one call first differ.
fn describe(case: &Case, ours: &[u8], theirs: &[u8], offset: usize) -> String {
    let number = |bytes: &[u8]| bytes.iter().rev().fold(0u64, |sum, &byte| (sum << 8) | u64::from(byte));
    let Op::Room { cells, bytes, seed } = case.ops[0] else { return "no room".into() };
    let (what, start, width) = if offset < 4 {
        ("the answer".to_string(), 0, 4)
    } else {
        let (buffer, entry, start, width) = World::new(cells, bytes, seed).place(offset);
        (format!("{}[{entry}]", buffer.name()), start, width)
    };
    let (ours, theirs) = (number(&ours[start..start + width]), number(&theirs[start..start + width]));
    format!("{what} is {theirs} by the library and {ours} by the second planner")
}

#[cfg(test)]
mod tests {
    use super::difference;
    use crate::case::Case;
    use crate::op::parse;

    fn case() -> Case {
        Case::of("test", &parse("room 4 40 1; layout 3 1 0 2; lend list 2; plan").unwrap()).unwrap()
    }

    /// What is said where one byte of what the library writes is another.
    fn said(at: usize) -> (usize, String) {
        let case = case();
        let mut answer = case.expected.clone();
        answer[at] ^= 1;
        let difference = difference(&case, &answer).unwrap();
        (difference.op, difference.how)
    }

    #[test]
    fn the_same_bytes_are_no_difference() {
        let case = case();
        assert!(difference(&case, &case.expected).is_none());
    }

    #[test]
    fn a_difference_is_said_where_it_is() {
        let second = case().made[0].end;
        let head = second + 4 + 8 * 8;
        let ground = second + 4 + 8 * 24;
        assert_eq!(said(second), (3, "the answer is 3 by the library and 2 by the second planner".into()));
        assert_eq!(said(head), (3, "head[0] is 2 by the library and 3 by the second planner".into()));
        assert_eq!(said(ground + 8 + 2), (3, "ground[2] is 1 by the library and 0 by the second planner".into()));
        assert!(said(ground + 7).1.starts_with("ground[-1] is "));
        assert!(said(ground + 8 + 4).1.starts_with("ground[4] is "));
        assert!(said(ground + 20 + 2 * 8 + 1).1.starts_with("learned[0] is "));
        assert!(said(case().expected.len() - 1).1.starts_with("bytes[47] is "));
    }

    #[test]
    fn a_library_that_does_not_come_back_is_a_difference() {
        let case = case();
        for length in [0, 1, case.made[0].end - 1, case.made[0].end, case.expected.len() - 1] {
            let difference = difference(&case, &case.expected[..length]).unwrap();
            assert_eq!((difference.op, difference.how.as_str()), (3, "the library does not come back"));
        }
    }
}
