//! Inputs from a seed: tasks, damaged tables, closure days, schedules, bytes at random, and calls.

mod blocked;
mod brink;
mod call;
mod closure;
mod damage;
mod day;
mod grid;
mod helpful;
mod maker;
mod moves;
mod rig;
mod rng;
mod scale;
mod schedule;
mod sizes;
mod stored;
mod task;
mod text;
mod tuned;
mod waves;

pub use crate::hex::hex;
pub use blocked::{blocked, long_goal};
pub use brink::brink;
pub use call::{
    blocking_call, call, calls_within_rig, campaign_call, normal_length, pddl_call, plan_call,
    rewrite_call, rig_calls, sized_calls,
};
pub use closure::{
    alter, damaged_place_call, faulty_place_call, long_day, place_call, sound_place_call,
};
pub use damage::{
    command_string, damage, deletions, insertions, random_bytes, single_byte_changes, spoil,
    truncations, wrong_state,
};
pub use day::{
    joined, minute_bytes, minutes, window_bytes, windows, Day, DURATION_LIMIT, MINUTE_LIMIT,
    WINDOW_LIMIT,
};
pub use grid::{grid, long_sum, m1_grid};
pub use helpful::helpful;
pub use maker::{task, task_of};
pub use rig::{deep, near_ceiling};
pub use rng::Rng;
pub use scale::state_for;
pub use schedule::{
    check_calls, damaged_check_calls, long_schedule, refused_check_calls, relisted,
    sound_check_calls,
};
pub use sizes::Sizes;
pub use stored::{long_stored, rewritten_length, stored};
pub use task::{in_normal_form, Task};
pub use text::{text_length, wordy};
pub use tuned::{at_value_limit, dense, full_length, large_values, m1, many_records, steep};
pub use waves::waves;
