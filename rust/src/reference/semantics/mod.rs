//! What lists of moves do, over unlimited whole numbers, and what none can do.
//!
//! Nothing here uses the code of layers or plans, so it can judge their answers. Tables may have
//! moves that do nothing, as stored ones do.

mod real;
mod relaxed;
mod repeat;
mod saturate;
mod whole;

pub use real::{real_run, RealRun, RealState};
pub use relaxed::{relaxed_solves, relaxed_solves_one_by_one};
pub use saturate::{saturate, saturate_table, Saturation};
pub use whole::Whole;
