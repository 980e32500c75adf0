//! A long comparison of the proved engine with the reference, outside the gate: calls of all
//! kinds, a quarter of them with the rig's limits, an eighth of closure days and an eighth of schedules,
//! half of all with damaged inputs, and memories behind fences.
//!
//! usage: damage SECONDS SEED
//!
//! The first difference ends the run and is shown in hexadecimal.

use campaign::call::{Call, CallKind};
use campaign::fenced::Fenced;
use campaign::generate::{
    call, check_calls, damage, full_length, grid, long_day, long_goal, long_schedule, long_stored,
    place_call, rewritten_length, rig_calls, Rng, Task,
};
use campaign::proved::PROVED;
use campaign::reference::table::Kind;
use campaign::room;
use campaign::tally::Tally;
use std::env::args;
use std::time::{Duration, Instant};

fn main() {
    let mut numbers = args().skip(1).map(|text| text.parse::<u64>());
    let (Some(Ok(seconds)), Some(Ok(seed)), None) =
        (numbers.next(), numbers.next(), numbers.next())
    else {
        panic!("usage: damage SECONDS SEED");
    };
    let (end, mut rng) = (
        Instant::now() + Duration::from_secs(seconds),
        Rng::new(seed),
    );
    let engine = Fenced(PROVED);
    let mut tally = Tally::new(&engine, seed);
    while Instant::now() < end {
        let mut call = match rng.below(400) {
            0 => long_call(&mut rng),
            1..=100 => rig_calls(&mut rng, 1).remove(0),
            101..=150 => place_call(&mut rng),
            151..=200 => check_calls(&mut rng, 1).remove(0),
            _ => call(&mut rng),
        };
        if rng.chance(1, 2) {
            damage(&mut rng, &mut call);
        }
        tally.check(&call);
    }
    let every_refusal: Vec<usize> = (0..20).collect();
    tally.expect(1, &every_refusal);
}

/// A table within five bytes of a limit of length, or a list of up to 20,000 entries or moves.
fn long_call(rng: &mut Rng) -> Call {
    let length = *rng.pick(&[32_000, 64_000]) + rng.below(11) - 5;
    let kind = *rng.pick(&[Kind::Written, Kind::Normal]);
    let Task { table, state } = match rng.chance(1, 3) {
        true => grid(rng, length),
        false => full_length(rng, kind, length),
    };
    match rng.below(9) {
        0 => Call {
            table,
            ..CallKind::Read.call()
        },
        1 => Call {
            table,
            room: 64_000,
            ..CallKind::Normalise.call()
        },
        2 => Task { table, state }.decide(1_000),
        3 => long_goal(rng, length).blocking(1_000),
        4 => {
            let stored = long_stored(rng, kind, length);
            let room = rewritten_length(&stored.table) + rng.below(3);
            stored.rewrite(room.saturating_sub(1))
        }
        5 | 6 => long_list(rng),
        7 => {
            let (moves, room) = (table[3], state.len());
            let list: Vec<u8> = (0..=moves).cycle().take(rng.below(400)).collect();
            Task { table, state }.check(&list, room)
        }
        _ => Task { table, state }.pddl(room::text_bytes(length)),
    }
}

/// A list of entries to be placed, or of moves.
fn long_list(rng: &mut Rng) -> Call {
    let (windows, entries) = (1 + rng.below(64), 1 + rng.below(20_000));
    if rng.chance(1, 2) {
        let day = long_day(rng, windows, entries);
        return day.place(day.length() + rng.below(3) - 1);
    }
    let (task, list) = long_schedule(rng, entries);
    task.check(&list, 13 + rng.below(3))
}
