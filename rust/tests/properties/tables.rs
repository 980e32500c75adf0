//! Properties of tables, states and calls: accepted, damaged and refused ones.

use super::{check_plan, normal_task, normal_tasks, tasks, ENGINE};
use campaign::answer::{Reason, Refusal};
use campaign::call::Call;
use campaign::generate::{
    call, command_string, deletions, full_length, insertions, m1, random_bytes,
    single_byte_changes, sized_calls, state_for, truncations, wrong_state, Rng,
};
use campaign::harness::{compare, normalised};
use campaign::reference::table::Kind;
use campaign::reference::{parse_table, State};

#[test]
fn full_tables_are_accepted_and_longer_ones_are_not() {
    let mut rng = Rng::new(16);
    for (kind, limit) in [(Kind::Written, 32_000), (Kind::Normal, 64_000)] {
        for length in [limit - 1, limit] {
            let task = full_length(&mut rng, kind, length);
            assert_eq!(task.table.len(), length);
            assert!(ENGINE.read(&task.table).is_ok());
            if kind == Kind::Written {
                assert!(check_plan(&normal_task(&task)).records.is_empty());
            }
        }
        let task = full_length(&mut rng, kind, limit + 1);
        assert_eq!(ENGINE.read(&task.table), Err(Reason::TableTooLong.at(0)));
    }
}

#[test]
fn blocks_make_up_the_table() {
    for kind in [Kind::Written, Kind::Normal] {
        for task in tasks(17, 500, kind) {
            let moves = u64::from(task.table[3]);
            let mut joined = task.table[..4].to_vec();
            for b in 0..=moves {
                let block = ENGINE.block(&task.table, b).unwrap();
                assert_eq!(block[0], if b < moves { 0x41 } else { 0x47 });
                joined.extend(block);
            }
            joined.push(0x45);
            assert_eq!(joined, task.table);
            let beyond = ENGINE.block(&task.table, moves + 1);
            assert_eq!(beyond, Err(Reason::NoSuchBlock.at(0)));
        }
    }
}

/// An accepted table is what its data encode to; a refusal lies within the table, and
/// one for a command or for a move count needs no byte after that command.
fn check_read(table: &[u8]) -> Option<Refusal> {
    match ENGINE.read(table) {
        Ok(head) => {
            let data = parse_table(table).unwrap();
            assert_eq!(data.encode(), table);
            assert_eq!(head.kind, data.kind.byte());
            None
        }
        Err(refusal) => {
            let place = refusal.place as usize;
            assert!(place <= table.len());
            let at_command = [Reason::Misplaced, Reason::MoveCount, Reason::IdleMove];
            if at_command.contains(&refusal.reason) {
                assert_eq!(ENGINE.read(&table[..=place]), Err(refusal));
            }
            Some(refusal)
        }
    }
}

#[test]
fn damaged_tables_are_refused_within_themselves() {
    let written = m1().table;
    let normal = normalised(ENGINE, &written).unwrap();
    let mut seen = [0; 17];
    for table in [&written, &normal] {
        let damaged = single_byte_changes(table)
            .chain(insertions(table))
            .chain(deletions(table));
        for table in damaged {
            let number = check_read(&table).map_or(0, |r| r.reason.number());
            seen[usize::from(number)] += 1;
        }
    }
    for number in [0, 2, 3, 4, 5, 6, 16] {
        assert!(seen[number] > 10, "refusal {number}: {}", seen[number]);
    }
}

/// The offsets of all commands of an accepted table, by their widths.
fn command_offsets(table: &[u8]) -> Vec<usize> {
    let mut offsets = Vec::new();
    let mut at = 0;
    while at < table.len() {
        offsets.push(at);
        at += match table[at] {
            0x54 | 0x4E | 0x57 => 4,
            0x50 | 0x2B | 0x2D => 2,
            0x43 => 6,
            0x46 => 7,
            _ => 1,
        };
    }
    offsets
}

/// A beginning of a table is cut at the command it ends in, or has none where one is due.
#[test]
fn truncated_tables_are_cut() {
    let tables = tasks(18, 150, Kind::Written).chain(tasks(18, 150, Kind::Normal));
    for task in tables.filter(|task| task.table.len() < 600) {
        let offsets = command_offsets(&task.table);
        for cut in truncations(&task.table) {
            let next = offsets.partition_point(|offset| *offset < cut.len());
            let place = match offsets[next] == cut.len() {
                true => cut.len(),
                false => offsets[next - 1],
            };
            assert_eq!(ENGINE.read(&cut), Err(Reason::Cut.at(place)), "{task}");
        }
    }
}

#[test]
fn random_commands_are_read_or_refused_within_themselves() {
    let mut rng = Rng::new(19);
    let mut seen = [0; 17];
    for _ in 0..20_000 {
        let table = command_string(&mut rng);
        let number = check_read(&table).map_or(0, |r| r.reason.number());
        seen[usize::from(number)] += 1;
    }
    for number in [0, 2, 3, 4, 5, 6, 7, 16] {
        assert!(seen[number] > 10, "{seen:?}");
    }
    for _ in 0..2_000 {
        check_read(&random_bytes(&mut rng, 80));
    }
}

#[test]
fn wrong_states_are_refused() {
    let mut rng = Rng::new(20);
    let (mut length, mut range) = (0, 0);
    for task in normal_tasks(21, 1_000) {
        let table = parse_table(&task.table).unwrap();
        let state = state_for(&mut rng, &table);
        let wrong = wrong_state(&mut rng, &state);
        assert!(State::parse(&table, &state).is_ok());
        let mut memory = [];
        let answer = ENGINE.decide(&task.table, &wrong, &mut memory);
        if wrong.len() != state.len() {
            assert_eq!(answer, Err(Reason::StateLength.at(0)));
            length += 1;
        } else if let Err(refusal) = State::parse(&table, &wrong) {
            let place = refusal.place as usize;
            let mut right = wrong.clone();
            right[..place].copy_from_slice(&state[..place]);
            assert_eq!(refusal.reason, Reason::StateRange);
            assert_eq!(answer, Err(refusal));
            assert_eq!(ENGINE.decide(&task.table, &right, &mut memory), answer);
            range += 1;
        }
    }
    assert!(length > 200 && range > 100);
}

/// The part of an outcome after a word, up to the next word.
fn field<'o>(outcome: &'o str, name: &str) -> Option<&'o str> {
    let (_, rest) = outcome.split_once(name)?;
    Some(rest.split(" memory ").next().unwrap_or(rest))
}

/// Refusals keep outputs, and all but 13 to 15 keep layer memory.
#[test]
fn refused_calls_keep_their_buffers() {
    let mut rng = Rng::new(22);
    let (mut refused, mut memories) = (0, 0);
    for _ in 0..4_000 {
        let call = call(&mut rng);
        let outcome = call.run(ENGINE).unwrap().to_string();
        let Some(refusal) = outcome.strip_prefix("refusal ") else {
            continue;
        };
        refused += 1;
        if let Some(out) = field(&outcome, " out ") {
            assert!(out == "-" || out.replace("a5", "").is_empty(), "{call}");
        }
        let number: u8 = refusal.split(' ').next().unwrap().parse().unwrap();
        let keeps = number < 13 || refusal.starts_with("14 place 0 ");
        if let Some((_, memory)) = outcome.split_once(" memory ").filter(|_| keeps) {
            let kept = |(i, n): (usize, &str)| n == "-" || n == (-1000 - i as i64).to_string();
            assert!(memory.split(' ').enumerate().all(kept), "{call}");
            memories += 1;
        }
    }
    assert!(refused > 1_000 && memories > 300);
}

/// Calls are printed as they are read, and have one outcome.
#[test]
fn calls_are_repeatable() {
    let mut rng = Rng::new(23);
    for _ in 0..500 {
        let one = call(&mut rng);
        assert_eq!(Call::parse(one.kind, &one.to_string()), Ok(one.clone()));
        compare(&one, ENGINE, ENGINE).unwrap();
    }
    for task in normal_tasks(24, 100) {
        for call in sized_calls(&task) {
            compare(&call, ENGINE, ENGINE).unwrap();
        }
    }
}
