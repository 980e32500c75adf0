//! Long lists: answered as the reference does, in linear time.

use super::ENGINE;
use campaign::answer::{Checked, Fault};
use campaign::engine::Check;
use campaign::generate::{dense, full_length, long_schedule, m1, Rng, Task};
use campaign::reference::table::Kind;
use campaign::tally::Tally;
use campaign::{proved, reference};
use std::time::Instant;

/// The answer, with an output of just the length of the state.
fn checked(check: Check, task: &Task, list: &[u8]) -> Checked {
    let mut out = vec![0; task.state.len()];
    let answer = check(&task.table, &task.state, list, &mut out);
    answer.expect("an accepted task and room")
}

/// All entries are made, the last cannot be, or one in the first half; and the goal is not met.
#[test]
fn a_million_moves() {
    let (task, list) = long_schedule(&mut Rng::new(941), 1_000_000);
    let yes = Checked::Yes { length: 14 };
    assert_eq!(checked(proved::check, &task, &list), yes);
    for (index, fault) in [
        (999_999, Fault::Missing),
        (400_000, Fault::Missing),
        (999_999, Fault::NotAllowed),
    ] {
        let fails = Checked::Fails { index, fault };
        let faulty = with_fault(&list, index as usize, fault);
        assert_eq!(checked(proved::check, &task, &faulty), fails);
    }
    let table = with_goal(&task.table, 1_000_000);
    let other = Task { table, ..task };
    assert_eq!(checked(proved::check, &other, &list), Checked::GoalNotMet);
}

/// The list of a long schedule with an entry that is missing, or not allowed behind the same one.
fn with_fault(list: &[u8], index: usize, fault: Fault) -> Vec<u8> {
    let mut faulty = list.to_vec();
    match fault {
        Fault::Missing => faulty[index] = 3,
        _ => faulty[index - 2..=index].copy_from_slice(&[0, 1, 1]),
    }
    faulty
}

#[test]
fn entries_by_the_ten_thousand() {
    let mut rng = Rng::new(947);
    let mut tally = Tally::new(ENGINE, 942);
    for entries in [20_000, 65_535, 65_536, 65_537, 100_000] {
        let (task, list) = long_schedule(&mut rng, entries);
        tally.check(&task.check(&list, 14));
        tally.check(&task.check(&list, 13));
        for fault in [Fault::Missing, Fault::NotAllowed] {
            let faulty = with_fault(&list, entries - 1, fault);
            tally.check(&task.check(&faulty, 14));
        }
        let table = with_goal(&task.table, 1_000_000);
        tally.check(&Task { table, ..task }.check(&list, 14));
    }
    tally.expect(25, &[0, 13]);
    for name in [
        "yes to 1,000 moves",
        "one byte short",
        "missing",
        "not allowed",
    ] {
        assert_eq!(tally.schedules().count(name), 5, "{name}");
    }
    assert_eq!(tally.schedules().count("index above 255"), 10);
    assert_eq!(tally.schedules().count("goal not met"), 5);
}

/// The long schedule's table with v0 >= this in its goal.
fn with_goal(table: &[u8], value: i32) -> Vec<u8> {
    let mut table = table.to_vec();
    let at = table.len() - 5;
    table[at..at + 4].copy_from_slice(&value.to_be_bytes());
    table
}

/// v += 1 up to 1,000,000 and one more; the same downwards.
#[test]
fn out_of_range_at_the_millionth_entry() {
    for (change, end) in [(1, 1_000_000), (2, -1_000_000_i32)] {
        let table = [
            &[0x54, 0, 1, 1, 0x41, 0x46, change, 0, 0, 0, 0, 1, 0x47][..],
            &[0x57, 0, 0, 1, 0x43, 4],
            &end.to_be_bytes(),
            &[0x45],
        ];
        let task = Task {
            table: table.concat(),
            state: vec![0; 4],
        };
        let list = vec![0; 1_000_001];
        let beyond = Checked::Fails {
            index: 1_000_000,
            fault: Fault::OutOfRange,
        };
        assert_eq!(checked(proved::check, &task, &list), beyond);
        let yes = Checked::Yes { length: 4 };
        assert_eq!(checked(proved::check, &task, &list[1..]), yes);
        assert_eq!(
            checked(proved::check, &task, &list[2..]),
            Checked::GoalNotMet
        );
    }
}

/// Tables around 32,000 bytes, with lists; beyond them 1, whatever the list.
#[test]
fn tables_at_the_limits_of_length() {
    let mut rng = Rng::new(943);
    let mut tally = Tally::new(ENGINE, 944);
    for length in [31_999, 32_000, 32_001, 64_000, 64_001] {
        for make in [dense, full_length] {
            let task = make(&mut rng, Kind::Written, length);
            let moves = task.table[3];
            let list: Vec<u8> = (0..moves).cycle().take(300).collect();
            tally.check(&task.check(&list, task.state.len()));
            tally.check(&task.check(&[moves], 0));
            tally.check(&task.check(&[], 0));
        }
    }
    tally.expect(30, &[0, 1]);
    assert_eq!(tally.counts()[13], 2);
    assert_eq!(tally.schedules().count("yes to more than 255 moves"), 4);
}

/// Seconds of the fastest of some calls with so many entries.
fn seconds(check: Check, entries: usize) -> f64 {
    let (task, list) = long_schedule(&mut Rng::new(945), entries);
    let times = (0..5).map(|_| {
        let start = Instant::now();
        assert_eq!(checked(check, &task, &list), Checked::Yes { length: 14 });
        start.elapsed()
    });
    times.min().expect("some calls").as_secs_f64()
}

/// How much longer sixteen times as many entries take: 16 times in linear time, 256 times in quadratic.
fn growth(check: Check, entries: usize) -> f64 {
    seconds(check, 16 * entries) / seconds(check, entries)
}

#[test]
fn time_is_linear() {
    let growth = growth(proved::check, 10_000);
    println!("16 times as many entries take {growth:.1} times as long");
    assert!(growth < 64.0, "{growth}");
}

/// A call that begins anew with each entry.
#[test]
fn time_that_is_not_linear_is_found() {
    let growth = growth(
        |table, state, list, out| {
            for entries in 1..list.len() {
                reference::check(table, state, &list[..entries], out)?;
            }
            reference::check(table, state, list, out)
        },
        200,
    );
    assert!(growth > 64.0, "{growth}");
}

/// M1's moves in turn, a thousand times over: the first that cannot be made ends it.
#[test]
fn moves_in_turn() {
    let task = m1();
    let list: Vec<u8> = (0..3).cycle().take(3_000).collect();
    let answer = checked(proved::check, &task, &list);
    assert_eq!(answer, checked(reference::check, &task, &list));
    assert!(matches!(
        answer,
        Checked::Fails {
            fault: Fault::NotAllowed,
            ..
        }
    ));
}
