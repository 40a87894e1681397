//! The second planner: document 01 by the plainest means, written from that document alone, so that the proved library has
//! something independent to be compared with.

pub mod buffers;
pub mod checks;
pub mod drive;
pub mod fault;
pub mod ground;
pub mod plot;
pub mod record;
pub mod record_calls;
pub mod route;
pub mod search;

#[cfg(test)]
mod tests;
