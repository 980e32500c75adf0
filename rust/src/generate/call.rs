//! Calls with inputs of all sorts, for comparing engines.

use super::blocked::blocked;
use super::damage::{command_string, misname_comparison, random_bytes, spoil, wrong_state};
use super::grid::long_sum;
use super::helpful::helpful;
use super::maker::task;
use super::rig::{deep, near_ceiling, rig_numbers, within_ceiling};
use super::rng::Rng;
use super::scale::state_for;
use super::sizes::Sizes;
use super::stored::{rewritten_length, stored};
use super::task::Task;
use super::text::text_length;
use super::tuned::at_value_limit;
use super::waves::waves;
use crate::call::{Call, CallKind, Field};
use crate::reference::table::{Block, Kind};
use crate::reference::{normal_form, parse_stored_table, parse_table};

/// A call of any kind that takes a table and has not the rig's limits.
pub fn call(rng: &mut Rng) -> Call {
    let kind = any_kind(rng);
    let call = any_call(rng, kind);
    let mut task = any_task(rng, kind, task);
    // Few campaigns are accepted, and few of those tell sets of helpful moves apart otherwise.
    if call == CallKind::Campaign && rng.chance(3, 4) {
        task = helpful(rng, &task);
    }
    call_of(rng, call, &task, || Sizes::of(&task.in_normal_form()))
}

/// Calls with the rig's limits, each another one, all of one table, which is mostly around them and now
/// and then of the wrong kind.
pub fn rig_calls(rng: &mut Rng, count: usize) -> Vec<Call> {
    calls_with_limits(rng, count, near_ceiling)
}

/// The same of a table that is mostly within them.
pub fn calls_within_rig(rng: &mut Rng, count: usize) -> Vec<Call> {
    calls_with_limits(rng, count, within_ceiling)
}

fn calls_with_limits(rng: &mut Rng, count: usize, make: Make) -> Vec<Call> {
    let kind = any_kind(rng);
    let task = any_task(rng, kind, make);
    let sizes = Sizes::of(&task.in_normal_form());
    let mut calls = Vec::new();
    while calls.len() < count {
        let taken = match rng.chance(1, 10) {
            true => any_kind(rng),
            false => kind,
        };
        let kind = any_rig_call(rng, taken);
        let mut call = call_of(rng, kind.full(), &task, || sizes);
        if kind.has(Field::Numbers) && rng.chance(1, 4) {
            call.numbers = rig_numbers(rng);
        }
        let call = Call { kind, ..call };
        if !calls.contains(&call) {
            calls.push(call);
        }
    }
    calls
}

fn any_kind(rng: &mut Rng) -> Kind {
    *rng.pick(&[Kind::Written, Kind::Normal])
}

/// Which call is made of a table that is mostly of this kind.
fn any_call(rng: &mut Rng, kind: Kind) -> CallKind {
    match (kind, rng.below(14)) {
        (_, 0 | 13) => CallKind::Read,
        (_, 1) => CallKind::Block,
        (_, 2) => CallKind::Rewrite,
        (Kind::Written, 3 | 4) => CallKind::Listing,
        (Kind::Written, 5 | 6) => CallKind::Normalise,
        (Kind::Written, 7 | 8) => CallKind::Campaign,
        (Kind::Written, 9 | 10) => CallKind::Pddl,
        (Kind::Written, _) => CallKind::Step,
        (Kind::Normal, 3..=5) => CallKind::Blocking,
        (Kind::Normal, 6 | 7) => CallKind::Decide,
        (Kind::Normal, _) => CallKind::Plan,
    }
}

/// The same of the calls with the rig's limits.
fn any_rig_call(rng: &mut Rng, kind: Kind) -> CallKind {
    match (kind, rng.below(8)) {
        (_, 0) => CallKind::RigRead,
        (_, 1) => CallKind::RigBlock,
        (Kind::Written, 2 | 3) => CallKind::RigNormalise,
        (Kind::Written, 4 | 5) => CallKind::RigCampaign,
        (Kind::Written, _) => CallKind::RigStep,
        (Kind::Normal, 2 | 3) => CallKind::RigDecide,
        (Kind::Normal, _) => CallKind::RigPlan,
    }
}

/// A call of a task without the rig's limits, given the sizes that its normal form needs.
fn call_of(rng: &mut Rng, kind: CallKind, task: &Task, sizes: impl Fn() -> Sizes) -> Call {
    let bare = task.call(kind);
    match kind {
        CallKind::Block => Call {
            index: any_index(rng, &task.table),
            ..bare
        },
        CallKind::Normalise => Call {
            room: around(rng, normal_length(&task.table)),
            ..bare
        },
        CallKind::Step => Call {
            index: any_index(rng, &task.table),
            room: around(rng, task.state.len()),
            ..bare
        },
        CallKind::Decide => task.decide(planning_sizes(rng, &sizes()).0),
        CallKind::Plan => {
            let (numbers, room) = planning_sizes(rng, &sizes());
            task.plan(numbers, room)
        }
        CallKind::Campaign => campaign_of(rng, task, &sizes()),
        CallKind::Pddl => pddl_of(rng, task),
        CallKind::Blocking => blocking_of(rng, task),
        CallKind::Rewrite => rewrite_of(rng, task),
        _ => bare,
    }
}

/// A `campaign` of a table that is mostly accepted, with sizes that are mostly enough.
pub fn campaign_call(rng: &mut Rng) -> Call {
    let task = any_task(rng, Kind::Written, task);
    campaign_of(rng, &task, &Sizes::of(&task.in_normal_form()))
}

/// A `plan` of a table that is mostly accepted, with memory and output that are mostly enough.
pub fn plan_call(rng: &mut Rng) -> Call {
    let task = any_task(rng, Kind::Normal, task);
    let (numbers, room) = planning_sizes(rng, &Sizes::of(&task));
    task.plan(numbers, room)
}

/// A `pddl` of a table that is mostly accepted, with an output that is mostly enough.
pub fn pddl_call(rng: &mut Rng) -> Call {
    let task = any_task(rng, Kind::Written, task);
    pddl_of(rng, &task)
}

/// A `blocking` of a table that is mostly accepted and whose goal mostly cannot be reached, with
/// memory that is mostly enough.
pub fn blocking_call(rng: &mut Rng) -> Call {
    let task = any_task(rng, Kind::Normal, task);
    blocking_of(rng, &task)
}

/// A `rewrite` of a table of either kind that is mostly accepted, with an output that is mostly
/// enough.
pub fn rewrite_call(rng: &mut Rng) -> Call {
    let kind = any_kind(rng);
    let task = any_task(rng, kind, task);
    rewrite_of(rng, &task)
}

/// `decide` and `plan` of a task with every size of memory and of output that matters:
/// one short of each layer and of the records, exactly enough, and more.
pub fn sized_calls(task: &Task) -> Vec<Call> {
    let Sizes {
        entries,
        layer,
        plan,
        ..
    } = Sizes::of(task);
    let layers = plan.map_or(0, |plan| plan.layers as usize);
    let records = plan.map_or(0, |plan| 10 * plan.records as usize);
    let exact = entries + layer * (layers + 1);
    let mut calls = Vec::new();
    for layers in 1..=layers + 1 {
        let short = (entries + layer * layers).saturating_sub(1);
        calls.push(task.decide(short));
        calls.push(task.plan(short, records));
    }
    for numbers in [exact, exact + 5] {
        calls.push(task.decide(numbers));
        for room in [records.saturating_sub(1), records, records + 3] {
            calls.push(task.plan(numbers, room));
        }
    }
    calls
}

/// What makes an accepted task of a kind.
pub(super) type Make = fn(&mut Rng, Kind) -> Task;

/// A table that is mostly accepted and of the given kind, with a state that is now and then
/// wrong.
fn any_task(rng: &mut Rng, kind: Kind, make: Make) -> Task {
    let mut task = match rng.below(25) {
        0 => at_value_limit(rng),
        1 => deep(rng, kind),
        24 => {
            let (half, gates) = (1 + rng.below(4), 1 + rng.below(6));
            waves(rng, kind, 2 * half, gates)
        }
        2 => Task {
            table: random_bytes(rng, 60),
            state: Vec::new(),
        },
        3..=6 => spoilt_task(rng, kind, make),
        7 if kind == Kind::Written => long_sum(rng),
        _ => make(rng, kind),
    };
    if kind == Kind::Normal && rng.chance(1, 2) {
        task = task.in_normal_form();
    }
    if rng.chance(1, 3) {
        task = helpful(rng, &task);
    }
    if rng.chance(1, 12) {
        task = stored(rng, &task);
    }
    if rng.chance(1, 8) {
        task.state = wrong_state(rng, &task.state);
    }
    task
}

pub(super) fn spoilt_task(rng: &mut Rng, kind: Kind, make: Make) -> Task {
    if rng.chance(1, 5) {
        return command_task(rng);
    }
    let task = make(rng, kind);
    match rng.below(4) {
        0 => byte_spoilt_task(rng, task),
        1 => comparison_spoilt_task(rng, kind, task),
        2 if rng.chance(1, 2) => miscounted_task(rng, &task),
        2 => {
            let task = stored(rng, &task);
            entry_spoilt_task(rng, task)
        }
        _ => entry_spoilt_task(rng, task),
    }
}

fn command_task(rng: &mut Rng) -> Task {
    let table = command_string(rng);
    let state = match parse_table(&table) {
        Ok(table) => state_for(rng, &table),
        Err(_) => random_bytes(rng, 12),
    };
    Task { table, state }
}

fn byte_spoilt_task(rng: &mut Rng, mut task: Task) -> Task {
    let at = rng.below(task.table.len());
    match rng.below(4) {
        0 => task.table.truncate(at),
        1 => task.table.insert(at, rng.byte()),
        2 => task.table[at] = rng.byte(),
        _ => task.table[at] ^= 1 << rng.below(8),
    }
    task
}

fn comparison_spoilt_task(rng: &mut Rng, kind: Kind, mut task: Task) -> Task {
    misname_comparison(rng, kind, &mut task.table);
    task
}

fn entry_spoilt_task(rng: &mut Rng, mut task: Task) -> Task {
    let table = parse_stored_table(&task.table);
    let mut table = table.expect("all checks of a generated table but 16 pass");
    spoil(rng, &mut table);
    task.table = table.encode();
    task
}

/// The head says one move more or fewer than there are; mostly some moves do nothing, half of the time
/// only the one that ends where the count turns out wrong.
fn miscounted_task(rng: &mut Rng, task: &Task) -> Task {
    let fewer = rng.chance(1, 2);
    let mut changed = match parse_table(&task.table) {
        Ok(mut table) if !table.moves.is_empty() && rng.chance(1, 2) => {
            let at = table.moves.len() - usize::from(fewer);
            table.moves.insert(at, Block::default());
            Task {
                table: table.encode(),
                state: task.state.clone(),
            }
        }
        _ => stored(rng, task),
    };
    let count = changed.table[3];
    changed.table[3] = match fewer {
        true => count.saturating_sub(1),
        false => count + 1,
    };
    changed
}

/// A block or move that mostly exists.
fn any_index(rng: &mut Rng, table: &[u8]) -> u64 {
    if rng.chance(1, 16) {
        return *rng.pick(&[255, 256, 1 << 32, u64::MAX]);
    }
    let moves = table.get(3).copied().unwrap_or(0);
    rng.below(usize::from(moves) + 2) as u64
}

/// The length of the normal form, or that of the table itself if it has none.
pub fn normal_length(table: &[u8]) -> usize {
    match parse_table(table) {
        Ok(written) if written.kind == Kind::Written => normal_form(&written).encode().len(),
        _ => table.len(),
    }
}

fn campaign_of(rng: &mut Rng, task: &Task, sizes: &Sizes) -> Call {
    let (numbers, room) = planning_sizes(rng, sizes);
    task.campaign(around(rng, normal_length(&task.table)), numbers, room)
}

fn pddl_of(rng: &mut Rng, task: &Task) -> Call {
    task.pddl(around(rng, text_length(task)))
}

fn rewrite_of(rng: &mut Rng, task: &Task) -> Call {
    let task = match rng.chance(3, 4) {
        true => stored(rng, task),
        false => task.clone(),
    };
    task.rewrite(around(rng, rewritten_length(&task.table)))
}

fn blocking_of(rng: &mut Rng, task: &Task) -> Call {
    let task = match rng.chance(7, 8) {
        true => blocked(rng, task),
        false => task.clone(),
    };
    let (numbers, _) = planning_sizes(rng, &Sizes::of(&task));
    task.blocking(numbers)
}

/// Numbers of memory and bytes of output at or around what a normal table needs.
fn planning_sizes(rng: &mut Rng, sizes: &Sizes) -> (usize, usize) {
    let Sizes {
        entries,
        layer,
        plan,
        ..
    } = *sizes;
    let layers = plan.map_or(4, |plan| plan.layers as usize + 1);
    let numbers = match rng.below(6) {
        0 => around(rng, entries + layer),
        1 => rng.below(entries + layer * layers + 4),
        _ => around(rng, entries + layer * layers),
    };
    let records = plan.map_or(2, |plan| plan.records as usize);
    (numbers, around(rng, 10 * records))
}

/// A size at or around the one that is needed.
pub(super) fn around(rng: &mut Rng, needed: usize) -> usize {
    match rng.below(8) {
        0 => needed.saturating_sub(1),
        1 => rng.below(needed + 1),
        2..=4 => needed,
        _ => needed + rng.below(20),
    }
}
