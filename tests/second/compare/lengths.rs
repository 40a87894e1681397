//! Buffers that are empty, one short, or just long enough, of each call in turn.

use crate::base::{arrived, lay_out, planned, HEAD, HEAD_CALLS, N, RECORD, RECORD_CALLS, ROUTE};
use crate::case::{Builder, Case};
use crate::op::{Buffer, Call, BUFFERS};

const MAP: [Buffer; 3] = [Buffer::Ground, Buffer::Learned, Buffer::Link];
const SCRATCH: [Buffer; 3] = [Buffer::Mark, Buffer::Cost, Buffer::Trail];

pub fn all(sink: &mut dyn FnMut(Case)) {
    for start in [planned, arrived] {
        for buffer in MAP {
            for length in [0, 1, N - 1] {
                sink(short_map(start("lengths"), buffer, length));
            }
        }
        for buffer in SCRATCH {
            for length in [0, 1, N - 1] {
                sink(short_scratch(start("lengths"), buffer, length));
            }
        }
        sink(exact(start("lengths")));
        for length in 0..5 {
            sink(short_head(start("lengths"), length));
        }
    }
    sink(list_room());
    sink(save_room());
    sink(longer_head());
}

fn short_map(mut build: Builder, buffer: Buffer, length: usize) -> Case {
    build.lend(buffer, length);
    for call in HEAD_CALLS {
        build.refused(call, 2);
    }
    build.refused(lay_out(), 2);
    build.refused(Call::Load, 2);
    // The calls over a record have room of their own.
    build.accepted(Call::RecordPlan);
    build.case
}

/// Only plan asks for scratch, and on the goal it does too.
fn short_scratch(mut build: Builder, buffer: Buffer, length: usize) -> Case {
    build.lend(buffer, length);
    build.refused(Call::Plan, 2);
    for call in [Call::Question, Call::List, Call::Report(8), Call::Save, Call::Load, Call::Move, lay_out()] {
        build.accepted(call);
    }
    build.case
}

/// All buffers have exactly what is asked for.
fn exact(mut build: Builder) -> Case {
    for buffer in MAP.into_iter().chain(SCRATCH) {
        build.lend(buffer, N);
    }
    build.lend(Buffer::List, ROUTE);
    for call in [Call::Save, Call::Load, Call::Plan, Call::Question, Call::List, Call::Move, Call::Report(8), lay_out()] {
        build.accepted(call);
    }
    for call in RECORD_CALLS {
        build.accepted(call);
    }
    build.case
}

/// A head array's 2 comes before all: also where everything else is out of order.
fn short_head(mut build: Builder, length: usize) -> Case {
    build.lend(Buffer::Head, length);
    for wrong in [false, true] {
        if wrong {
            for (buffer, _) in &BUFFERS[1..] {
                build.lend(*buffer, 0);
            }
            for entry in 0..4 {
                build.set(Buffer::Head, entry, 0);
            }
        }
        for call in HEAD_CALLS {
            build.refused(call, 2);
        }
        build.refused(Call::Report(0), 2);
        build.refused(lay_out(), 2);
        build.refused(Call::Layout { sides: [0, 65], start: N, goal: N }, 2);
        build.refused(Call::Load, 2);
    }
    build.lend(Buffer::Head, 5);
    for call in HEAD_CALLS {
        build.refused(call, 1);
    }
    build.refused(Call::Load, 8);
    build.case
}

/// The list's own 2 comes after 6: empty where no route stands gives 6.
fn list_room() -> Case {
    let mut build = planned("lengths");
    for length in 0..=ROUTE + 2 {
        build.lend(Buffer::List, length);
        for call in [Call::Question, Call::List] {
            if length < ROUTE {
                build.refused(call, 2);
            } else {
                build.accepted(call);
            }
        }
    }
    build.accepted(Call::Report(HEAD.goal));
    for length in [0, 1, N] {
        build.lend(Buffer::List, length);
        build.refused(Call::Question, 6);
        build.refused(Call::List, 6);
    }
    build.case
}

/// The save buffer's own 2 comes after 4.
fn save_room() -> Case {
    let mut build = planned("lengths");
    for length in 0..=RECORD + 2 {
        build.lend(Buffer::Bytes, length);
        if length < RECORD {
            build.refused(Call::Save, 2);
        } else {
            build.accepted(Call::Save);
        }
    }
    build.set(Buffer::Link, 0, 9);
    build.lend(Buffer::Bytes, 0);
    build.refused(Call::Save, 4);
    build.case
}

/// Entries of the head array after the fifth are not touched.
fn longer_head() -> Case {
    let mut build = planned("lengths");
    for length in [6, 8] {
        build.lend(Buffer::Head, length);
        for call in HEAD_CALLS {
            build.call(call);
        }
        build.accepted(lay_out());
        build.accepted(Call::Plan);
        build.accepted(Call::Save);
        build.accepted(Call::Load);
    }
    build.case
}
