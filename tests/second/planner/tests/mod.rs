//! Document 01's examples, edges and shortcuts, run on this planner.

mod drives;
mod edges;
mod records;
mod shortcuts;
mod shortest;
mod sound;
mod state;
mod worked;
