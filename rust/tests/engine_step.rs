//! The proved engine's normalise and step, over their C functions.

use crate::common::rooms::rooms;
use campaign::answer::Reason;
use campaign::call::{Call, CallKind};
use campaign::engine::{Calls, Engine, REFERENCE};
use campaign::generate::{
    command_string, dense, full_length, grid, insertions, long_sum, m1, m1_grid, normal_length,
    single_byte_changes, spoil, state_for, task, task_of, truncations, waves, wrong_state, Rng,
    Task,
};
use campaign::guarded::Guarded;
use campaign::harness::{check_lines, normalised};
use campaign::proved;
use campaign::reference::parse_table;
use campaign::reference::semantics::{real_run, RealRun, RealState};
use campaign::reference::table::Kind;
use campaign::tally::Tally;

const ENGINE: &dyn Engine = &Calls {
    normalise: proved::normalise,
    step: proved::step,
    ..Calls::NONE
};

#[test]
fn recorded_normal_forms() {
    check_lines(ENGINE, CallKind::Normalise);
}

#[test]
fn recorded_steps() {
    check_lines(ENGINE, CallKind::Step);
}

fn check_normalise(tally: &mut Tally, rng: &mut Rng, table: &[u8]) {
    for room in rooms(rng, normal_length(table)) {
        let table = table.to_vec();
        tally.check(&Call {
            table,
            room,
            ..CallKind::Normalise.call()
        });
    }
}

#[test]
fn normal_forms_in_outputs_of_all_lengths() {
    let mut rng = Rng::new(201);
    let mut tally = Tally::new(ENGINE, 202);
    for _ in 0..11_000 {
        let table = task(&mut rng, Kind::Written).table;
        check_normalise(&mut tally, &mut rng, &table);
    }
    for chosen in 0..8 {
        let counts = [0, 1, 2].map(|i| [120, 16, 64][i] * (chosen >> i & 1));
        let table = task_of(&mut rng, Kind::Written, counts).table;
        check_normalise(&mut tally, &mut rng, &table);
    }
    tally.expect(88_000, &[0, 13]);
    tally.expect_zero_terms(30_000);
}

#[test]
fn normal_forms_of_damaged_tables() {
    let mut rng = Rng::new(203);
    let mut tally = Tally::new(ENGINE, 204);
    for table in [m1().table, m1_grid().table] {
        let damaged = single_byte_changes(&table)
            .chain(truncations(&table))
            .chain(insertions(&table));
        for table in damaged {
            let room = 80 + rng.below(20);
            tally.check(&Call {
                table,
                room,
                ..CallKind::Normalise.call()
            });
        }
    }
    for _ in 0..25_000 {
        let table = command_string(&mut rng);
        let room = (normal_length(&table) + rng.below(3)).saturating_sub(1);
        tally.check(&Call {
            table,
            room,
            ..CallKind::Normalise.call()
        });
    }
    for _ in 0..2_000 {
        let mut table = parse_table(&task(&mut rng, Kind::Written).table).unwrap();
        spoil(&mut rng, &mut table);
        check_normalise(&mut tally, &mut rng, &table.encode());
        let Task { table, state } = long_sum(&mut rng);
        check_normalise(&mut tally, &mut rng, &table);
        check_steps(&mut tally, &mut rng, &table, &state);
    }
    tally.expect(120_000, &[0, 2, 3, 4, 5, 6, 7, 13, 16]);
    tally.expect_zero_terms(40_000);
}

#[test]
fn normal_forms_at_the_limits_of_length() {
    let mut rng = Rng::new(205);
    let mut tally = Tally::new(ENGINE, 206);
    for length in [31_999, 32_000, 32_001, 64_000, 64_001] {
        for kind in [Kind::Written, Kind::Normal] {
            for made in [full_length, dense] {
                let Task { table, state } = made(&mut rng, kind, length);
                check_normalise(&mut tally, &mut rng, &table);
                check_steps(&mut tally, &mut rng, &table, &state);
            }
        }
        let Task { table, state } = grid(&mut rng, length);
        check_normalise(&mut tally, &mut rng, &table);
        check_steps(&mut tally, &mut rng, &table, &state);
    }
    tally.expect(160, &[0, 1, 3, 13]);
    tally.expect_zero_terms(80);
}

/// A move that the table has, or not.
fn any_move(rng: &mut Rng, table: &[u8]) -> u64 {
    let moves = table.get(3).copied().unwrap_or(0);
    match rng.below(20) {
        0 => *rng.pick(&[64, 255, 256, 1 << 32, u64::MAX]),
        1 => u64::from(moves),
        _ => rng.below(usize::from(moves).max(1)) as u64,
    }
}

/// Mostly a move whose conditions hold, if there is one.
fn usable_move(rng: &mut Rng, table: &[u8], state: &[u8]) -> u64 {
    let mut out = vec![0; state.len()];
    let usable = |mv: &u64| {
        let answer = REFERENCE.step(table, state, *mv, &mut out);
        answer != Err(Reason::ConditionsFail.at(0))
    };
    let tried: Vec<u64> = (0..8).map(|_| any_move(rng, table)).collect();
    tried.iter().copied().find(usable).unwrap_or(tried[0])
}

/// One step into outputs of all lengths around the result's.
fn check_steps(tally: &mut Tally, rng: &mut Rng, table: &[u8], state: &[u8]) {
    let mv = usable_move(rng, table, state);
    for room in rooms(rng, state.len()) {
        tally.check(&Call {
            table: table.to_vec(),
            state: state.to_vec(),
            index: mv,
            room,
            ..CallKind::Step.call()
        });
    }
}

#[test]
fn steps_into_outputs_of_all_lengths() {
    let mut rng = Rng::new(207);
    let mut tally = Tally::new(ENGINE, 208);
    for _ in 0..4_000 {
        let Task { table, state } = task(&mut rng, Kind::Written);
        let data = parse_table(&table).unwrap();
        for i in 0..5 {
            let state = match i {
                0 => wrong_state(&mut rng, &state),
                1 => state_for(&mut rng, &data),
                _ => state.clone(),
            };
            check_steps(&mut tally, &mut rng, &table, &state);
        }
    }
    tally.expect(150_000, &[0, 8, 9, 10, 11, 12, 13]);
    tally.expect_zero_terms(50_000);
}

#[test]
fn steps_of_damaged_and_of_normal_tables() {
    let mut rng = Rng::new(209);
    let mut tally = Tally::new(ENGINE, 210);
    let Task { table, state } = m1();
    for table in single_byte_changes(&table).chain(truncations(&table)) {
        tally.check(&Call {
            index: any_move(&mut rng, &table),
            room: rng.below(12),
            state: state.clone(),
            table,
            ..CallKind::Step.call()
        });
    }
    for _ in 0..400 {
        let Task { table, state } = task(&mut rng, Kind::Normal);
        check_steps(&mut tally, &mut rng, &table, &state);
    }
    for counts in [[0, 0, 0], [120, 0, 64], [0, 16, 64], [120, 16, 64]] {
        for _ in 0..20 {
            let Task { table, state } = task_of(&mut rng, Kind::Written, counts);
            check_steps(&mut tally, &mut rng, &table, &state);
        }
    }
    tally.expect(20_000, &[0, 2, 3, 4, 6, 8, 10, 11, 13, 16]);
}

/// The values of a written state as those of signed variables.
fn signed(state: &RealState) -> RealState {
    RealState {
        propositions: state.propositions.clone(),
        values: state.values.iter().flat_map(|v| [v.clone(), -v]).collect(),
    }
}

/// The state that bytes stand for.
fn state_of(table: &[u8], state: &[u8]) -> RealState {
    match real_run(table, state, &[]) {
        Ok(RealRun::Finished { state, .. }) => state,
        other => panic!("a list of no moves runs: {other:?}"),
    }
}

/// Steps through random moves; each state is that of the same list on the normal form.
///
/// Answers how many steps went well and the refusal that ended them, if one did.
fn check_list(rng: &mut Rng, task: &Task) -> (usize, Option<Reason>) {
    let normal = normalised(ENGINE, &task.table).expect("a written table has a normal form");
    let mut state = task.state.clone();
    let mut list = Vec::new();
    for _ in 0..12 {
        let mv = rng.below(usize::from(task.table[3])) as u64;
        list.push(mv);
        let mut out = Guarded::filled(state.len(), |_| 0xA5);
        let answer = ENGINE.step(&task.table, &state, mv, out.lend());
        out.check("state").expect("all canaries are whole");
        let run = real_run(&normal, &task.state, &list).expect("the normal form is accepted");
        match (answer, run) {
            (Ok(_), RealRun::Finished { state: real, .. }) => {
                state = out.lent().to_vec();
                let stepped = signed(&state_of(&task.table, &state));
                assert_eq!(stepped, real, "{task} {list:?}");
            }
            (Err(refusal), RealRun::Finished { state: real, .. }) => {
                assert_eq!(refusal, Reason::ResultRange.at(0), "{task} {list:?}");
                assert!(real.values.iter().any(|v| *v > 1_000_000.into()));
                return (list.len() - 1, Some(refusal.reason));
            }
            (Err(refusal), RealRun::Stuck { at }) => {
                assert_eq!(refusal, Reason::ConditionsFail.at(0), "{task} {list:?}");
                assert_eq!(at, list.len() - 1, "{task} {list:?}");
                list.pop();
            }
            (Ok(_), RealRun::Stuck { .. }) => panic!("{task} {list:?}"),
        }
    }
    (list.len(), None)
}

#[test]
fn lists_of_steps_agree_with_the_normal_form() {
    let mut rng = Rng::new(211);
    let (mut steps, mut beyond) = (0, 0);
    for _ in 0..2_500 {
        let task = task(&mut rng, Kind::Written);
        if task.table[3] > 0 {
            let (went, ended) = check_list(&mut rng, &task);
            steps += went;
            beyond += usize::from(ended.is_some());
        }
    }
    for _ in 0..50 {
        let task = waves(&mut rng, Kind::Written, 16, 20);
        steps += check_list(&mut rng, &task).0;
    }
    assert!(
        steps > 5_000 && beyond > 50,
        "{steps} steps, {beyond} beyond"
    );
}

/// The normal form is the same for both engines, and accepted.
#[test]
fn normal_forms_are_accepted() {
    let mut rng = Rng::new(212);
    for _ in 0..1_000 {
        let Task { table, .. } = task(&mut rng, Kind::Written);
        let normal = normalised(ENGINE, &table).unwrap();
        let head = REFERENCE.read(&normal).expect("a normal form is accepted");
        assert_eq!([head.kind, head.p, head.a], [0x4E, table[1], table[3]]);
        assert_eq!(head.v_or_n, 2 * table[2]);
    }
}
