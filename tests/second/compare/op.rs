//! The operations that the harness and the second planner both carry out, and their text: what goes to the harness, and
//! what a failed case is printed as and replayed from.

use std::fmt;

#[derive(Clone, Copy, Debug, PartialEq, Eq)]
pub enum Buffer {
    Head,
    Ground,
    Learned,
    Link,
    Mark,
    Cost,
    Trail,
    List,
    Bytes,
}

/// In the order in which the harness writes them.
pub const BUFFERS: [(Buffer, &str); 9] = [
    (Buffer::Head, "head"),
    (Buffer::Ground, "ground"),
    (Buffer::Learned, "learned"),
    (Buffer::Link, "link"),
    (Buffer::Mark, "mark"),
    (Buffer::Cost, "cost"),
    (Buffer::Trail, "trail"),
    (Buffer::List, "list"),
    (Buffer::Bytes, "bytes"),
];

impl Buffer {
    pub fn name(self) -> &'static str {
        BUFFERS[self as usize].1
    }
}

#[derive(Clone, Copy, Debug, PartialEq, Eq)]
pub enum Call {
    Layout { sides: [usize; 2], start: usize, goal: usize },
    Report(usize),
    Plan,
    Move,
    List,
    Question,
    Save,
    Load,
    RecordReport(u32),
    RecordPlan,
    RecordMove,
}

/// The calls' names, by `Call::kind`. The last three are salenduro_report, salenduro_plan and salenduro_move.
pub const CALLS: [&str; 11] =
    ["layout", "report", "plan", "move", "list", "question", "save", "load", "record-report", "record-plan", "record-move"];

impl Call {
    pub fn kind(self) -> usize {
        match self {
            Call::Layout { .. } => 0,
            Call::Report(_) => 1,
            Call::Plan => 2,
            Call::Move => 3,
            Call::List => 4,
            Call::Question => 5,
            Call::Save => 6,
            Call::Load => 7,
            Call::RecordReport(_) => 8,
            Call::RecordPlan => 9,
            Call::RecordMove => 10,
        }
    }

    /// The refusal that an answer to this call is. The question alone answers the bare number.
    pub fn refusal(self, answer: u32) -> Option<u32> {
        let bare = if self == Call::Question { answer } else { answer.saturating_sub(70_000) };
        (bare != 0 || answer == 70_000).then_some(bare)
    }
}

#[derive(Clone, Copy, Debug, PartialEq, Eq)]
pub enum Op {
    /// The first of every case: the room of the buffers of cells and of the record, and the pattern that fills them.
    Room {
        cells: usize,
        bytes: usize,
        seed: u64,
    },
    /// From here on calls are told that the buffer is this long.
    Lend(Buffer, usize),
    Set(Buffer, usize, u64),
    Call(Call),
}

impl fmt::Display for Op {
    fn fmt(&self, f: &mut fmt::Formatter) -> fmt::Result {
        match *self {
            Op::Room { cells, bytes, seed } => write!(f, "room {cells} {bytes} {seed}"),
            Op::Lend(buffer, length) => write!(f, "lend {} {length}", buffer.name()),
            Op::Set(buffer, index, value) => write!(f, "set {} {index} {value}", buffer.name()),
            Op::Call(call) => {
                f.write_str(CALLS[call.kind()])?;
                match call {
                    Call::Layout { sides: [width, height], start, goal } => write!(f, " {width} {height} {start} {goal}"),
                    Call::Report(cell) => write!(f, " {cell}"),
                    Call::RecordReport(cell) => write!(f, " {cell}"),
                    _ => Ok(()),
                }
            }
        }
    }
}

/// One case on one line.
pub fn text(ops: &[Op]) -> String {
    ops.iter().map(Op::to_string).collect::<Vec<_>>().join("; ")
}

/// Reads what `text` writes.
pub fn parse(text: &str) -> Option<Vec<Op>> {
    text.split([';', '\n']).map(str::trim).filter(|line| !line.is_empty()).map(parse_op).collect()
}

fn parse_op(line: &str) -> Option<Op> {
    let words: Vec<&str> = line.split_whitespace().collect();
    let number = |at: usize| words.get(at).and_then(|word| word.parse::<u64>().ok());
    let size = |at: usize| number(at).map(|number| number as usize);
    let buffer = |at: usize| BUFFERS.iter().find(|(_, name)| words.get(at) == Some(name)).map(|&(buffer, _)| buffer);
    Some(match words[0] {
        "room" => Op::Room { cells: size(1)?, bytes: size(2)?, seed: number(3)? },
        "lend" => Op::Lend(buffer(1)?, size(2)?),
        "set" => Op::Set(buffer(1)?, size(2)?, number(3)?),
        "layout" => Op::Call(Call::Layout { sides: [size(1)?, size(2)?], start: size(3)?, goal: size(4)? }),
        "report" => Op::Call(Call::Report(size(1)?)),
        "record-report" => Op::Call(Call::RecordReport(number(1)? as u32)),
        name => {
            let plain = [Call::Plan, Call::Move, Call::List, Call::Question, Call::Save, Call::Load];
            let all = plain.iter().chain(&[Call::RecordPlan, Call::RecordMove]);
            Op::Call(*all.into_iter().find(|call| CALLS[call.kind()] == name)?)
        }
    })
}

#[cfg(test)]
mod tests {
    use super::{parse, text};

    #[test]
    fn what_is_written_reads_back() {
        let case = "room 9 60 1; lend ground 9; set head 4 18446744073709551615; layout 3 3 0 8; report 4; plan; move; \
                    list; question; save; load; record-report 4294967295; record-plan; record-move";
        assert_eq!(text(&parse(case).unwrap()), case);
    }

    #[test]
    fn what_is_no_operation_is_not_read() {
        for wrong in ["room 1 2", "set sky 0 0", "layout 1 1 0", "report", "report x", "planned", "move-on"] {
            assert!(parse(wrong).is_none(), "{wrong}");
        }
    }
}
