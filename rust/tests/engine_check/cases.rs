//! Lists by hand, on the reference and on the proved engine.

use campaign::answer::Checked::{self, Fails, GoalNotMet, Yes};
use campaign::answer::Fault::{Missing, NotAllowed, OutOfRange};
use campaign::answer::{Reason, Refusal};
use campaign::engine::Check;
use campaign::generate::{m1, Task};
use campaign::hex::bytes;
use campaign::{proved, reference};

const ENGINES: [Check; 2] = [reference::check, proved::check];

/// The answer of both engines; what is written is behind a yes only.
fn checked(task: &Task, list: &[u8], room: usize) -> (Result<Checked, Refusal>, Vec<u8>) {
    let answers = ENGINES.map(|check| {
        let mut out = vec![0xA5; room];
        let answer = check(&task.table, &task.state, list, &mut out);
        let length = match answer {
            Ok(Yes { length }) => length,
            _ => 0,
        };
        assert!(out[length..].iter().all(|byte| *byte == 0xA5), "{list:?}");
        (answer, out[..length].to_vec())
    });
    let [one, other] = answers;
    assert_eq!(one, other, "{list:?}");
    one
}

/// The answer with just enough room.
fn answered(task: &Task, list: &[u8]) -> Checked {
    let answer = checked(task, list, task.state.len()).0;
    answer.expect("an accepted task and room")
}

fn task(table: &str, state: &str) -> Task {
    let [table, state] = [table, state].map(bytes);
    Task { table, state }
}

#[test]
fn m1_is_solved_by_its_plan() {
    let list = [0, 0, 2, 0, 1, 1, 1, 1];
    let end = bytes("01 00000003 00000008");
    assert_eq!(checked(&m1(), &list, 9), (Ok(Yes { length: 9 }), end));
    let short = Err(Reason::OutputShort.at(0));
    assert_eq!(checked(&m1(), &list, 8), (short, Vec::new()));
    assert_eq!(answered(&m1(), &list[..7]), GoalNotMet);
    assert_eq!(answered(&m1(), &[]), GoalNotMet);
}

/// Missing, not allowed and out of range, each the first of several.
#[test]
fn the_first_of_several_faults() {
    let fails = |index, fault| Fails { index, fault };
    assert_eq!(answered(&m1(), &[0, 3, 2]), fails(1, Missing));
    assert_eq!(answered(&m1(), &[0, 2, 3]), fails(1, NotAllowed));
    assert_eq!(answered(&m1(), &[255, 2]), fails(0, Missing));
    let rising = task("54 00 01 01 41 46 01 00 00000001 47 45", "000f423f");
    assert_eq!(answered(&rising, &[0, 0, 1]), fails(1, OutOfRange));
    assert_eq!(answered(&rising, &[0, 1, 0]), fails(1, Missing));
}

/// A table without moves has none that a byte could name.
#[test]
fn a_table_of_nothing() {
    let nothing = task("54 00 00 00 47 45", "");
    assert_eq!(answered(&nothing, &[]), Yes { length: 0 });
    let missing = Fails {
        index: 0,
        fault: Missing,
    };
    assert_eq!(answered(&nothing, &[0]), missing);
}

/// v += 1 and v -= 1 with the goal v = 1,000,000, from there.
#[test]
fn a_list_that_leaves_the_range_and_comes_back() {
    let brink = task(
        "54 00 01 02 41 46 01 00 00000001 41 46 02 00 00000001 47 57 00 0001 43 04 000f4240 45",
        "000f4240",
    );
    assert_eq!(answered(&brink, &[]), Yes { length: 4 });
    assert_eq!(answered(&brink, &[1, 0]), Yes { length: 4 });
    let beyond = Fails {
        index: 0,
        fault: OutOfRange,
    };
    assert_eq!(answered(&brink, &[0, 1]), beyond);
}

/// The move needs v > 1,000,000 and adds 1: it is not allowed before it is out of range.
#[test]
fn conditions_come_before_the_range() {
    let table = "54 00 01 01 41 57 00 0001 43 01 000f4240 46 01 00 00000001 47 45";
    let fault = NotAllowed;
    let answer = answered(&task(table, "000f4240"), &[0]);
    assert_eq!(answer, Fails { index: 0, fault });
}

/// v += 1 with the goal v = 1: met on the way, at the start, at the end.
#[test]
fn the_goal_counts_at_the_end() {
    let table = "54 00 01 01 41 46 01 00 00000001 47 57 00 0001 43 04 00000001 45";
    let zero = task(table, "00000000");
    assert_eq!(answered(&zero, &[0]), Yes { length: 4 });
    assert_eq!(answered(&zero, &[0, 0]), GoalNotMet);
    assert_eq!(answered(&task(table, "00000001"), &[0]), GoalNotMet);
    let behind = Fails {
        index: 1,
        fault: Missing,
    };
    assert_eq!(answered(&zero, &[0, 1]), behind);
}

/// Table, then state, then the list and the goal, and the output last.
#[test]
fn refusals_come_in_order() {
    let refused = |table: &str, state: &str, list: &[u8]| {
        let (answer, _) = checked(&task(table, state), list, 0);
        answer.map_err(|refusal| (refusal.reason.number(), refusal.place))
    };
    let table = "54 01 01 01 41 2b 00 47 50 00 45";
    assert_eq!(refused("54 01 01 01 41 47 45", "", &[9]), Err((16, 5)));
    assert_eq!(refused("4e 01 02 00 47 45", "", &[9]), Err((3, 0)));
    assert_eq!(refused(&table[..29], "", &[9]), Err((2, 10)));
    assert_eq!(refused(table, "", &[9]), Err((8, 0)));
    assert_eq!(refused(table, "02 00000000", &[9]), Err((9, 0)));
    assert_eq!(refused(table, "01 000f4241", &[9]), Err((9, 1)));
    let missing = Fails {
        index: 0,
        fault: Missing,
    };
    assert_eq!(refused(table, "01 00000000", &[9]), Ok(missing));
    assert_eq!(refused(table, "00 00000000", &[]), Ok(GoalNotMet));
    assert_eq!(refused(table, "00 00000000", &[0]), Err((13, 0)));
}

/// Move 0 adds the goal's proposition; 300 entries of it, and one behind them that is missing.
#[test]
fn more_entries_than_a_byte_counts() {
    let adding = task("54 01 00 01 41 2b 00 47 50 00 45", "00");
    let mut list = vec![0; 300];
    assert_eq!(answered(&adding, &list), Yes { length: 1 });
    list.push(1);
    let fault = Missing;
    assert_eq!(answered(&adding, &list), Fails { index: 300, fault });
}
