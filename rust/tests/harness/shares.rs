//! Tallies: what calls have to tell apart is counted, and a missing share is found.

use campaign::call::{Call, CallKind};
use campaign::engine::REFERENCE;
use campaign::generate::{m1, Day, Task};
use campaign::hex::bytes;
use campaign::placements::Window;
use campaign::tally::Tally;

#[test]
#[should_panic(expected = "refusal 2")]
fn a_missing_refusal_is_found() {
    Tally::new(&REFERENCE, 1).expect(0, &[2]);
}

#[test]
#[should_panic(expected = "behind a met part: 0 only")]
fn a_missing_share_of_blocking_is_found() {
    let tally = Tally::new(&REFERENCE, 1);
    tally.blocking().expect(&[("behind a met part", 1)]);
}

/// A call that a part behind a met one blocks, one where nothing blocks, and both with less memory.
#[test]
fn shares_of_blocking_are_counted() {
    let mut tally = Tally::new(&REFERENCE, 1);
    for table in ["4e 02 00 00 47 50 00 50 01 45", "4e 02 00 00 47 50 00 45"] {
        let [table, state] = [table, "01 00"].map(bytes);
        let task = Task { table, state };
        tally.check(&task.blocking(2));
        tally.check(&task.blocking(1));
    }
    let shares = ["blocks", "behind a met part", "a proposition", "nothing"];
    for name in shares {
        assert_eq!(tally.blocking().count(name), 1, "{name}");
    }
    assert_eq!(tally.blocking().count("14 at layer 0"), 2);
    assert_eq!(tally.blocking().count("layers"), 0);
}

#[test]
#[should_panic(expected = "a later answer layer: 0 only")]
fn a_missing_share_of_planning_is_found() {
    let tally = Tally::new(&REFERENCE, 1);
    tally.planning().expect(&[("a later answer layer", 1)]);
}

#[test]
#[should_panic(expected = "the moves that the plan takes: 0 only")]
fn a_missing_share_of_a_fault_is_found() {
    let mut tally = Tally::new(&REFERENCE, 1);
    let task = Task {
        table: bytes("4e 00 02 01 41 46 01 00 00000001 47 57 00 0001 43 00 00000004 45"),
        state: vec![0; 4],
    };
    tally.check(&task.plan(5, 10));
    tally.planning().expect_faults(1);
}

/// Two moves add the goal's proposition, and a third could where another one is true; the state has
/// the goal's other one. The same in one call, and with an output that is too short.
#[test]
fn shares_of_planning_are_counted() {
    let mut tally = Tally::new(&REFERENCE, 1);
    let moves = "41 2b 00 41 2b 00 41 50 02 2b 00 41 2b 01";
    let [written, normal] = ["54", "4e"].map(|head| Task {
        table: bytes(&format!("{head} 03 00 04 {moves} 47 50 00 50 01 45")),
        state: vec![0, 1, 0],
    });
    tally.check(&normal.plan(7, 10));
    tally.check(&normal.plan(7, 9));
    tally.check(&written.campaign(24, 7, 10));
    for (name, count) in [
        ("answer layer 1", 2),
        ("a later answer layer", 0),
        ("no plan", 0),
        ("the moves that the plan takes", 2),
        ("a move need not be usable", 2),
        ("a move may be usable in a later layer", 0),
        ("a proposition that layer 0 has counts", 2),
        ("a target that layer 0 reaches counts", 0),
        ("propositions only", 0),
        ("targets only", 2),
    ] {
        assert_eq!(tally.planning().count(name), count, "{name}");
    }
}

#[test]
#[should_panic(expected = "several in a row: 0 only")]
fn a_missing_share_of_rewriting_is_found() {
    let tally = Tally::new(&REFERENCE, 1);
    tally.rewriting().expect(&[("several in a row", 1)]);
}

/// A table whose first and third moves do nothing, with just enough room and one byte short.
#[test]
fn shares_of_rewriting_are_counted() {
    let mut tally = Tally::new(&REFERENCE, 1);
    let task = Task {
        table: bytes("54 01 00 03 41 41 2b 00 41 50 00 47 45"),
        state: vec![0],
    };
    tally.check(&task.rewrite(9));
    tally.check(&task.rewrite(8));
    for (name, count) in [
        ("the first does nothing", 2),
        ("the last does nothing", 2),
        ("nothing at all", 2),
        ("propositions alone", 2),
        ("several in a row", 0),
        ("sums alone", 0),
        ("written", 2),
        ("just enough", 1),
        ("one byte short", 1),
        ("enough, and shorter than the table", 1),
    ] {
        assert_eq!(tally.rewriting().count(name), count, "{name}");
    }
}

#[test]
#[should_panic(expected = "19 at entry 0: 0 only")]
fn a_missing_share_of_closure_hours_is_found() {
    let tally = Tally::new(&REFERENCE, 1);
    tally.closure().expect(&[("19 at entry 0", 1)]);
}

/// An entry that two touching windows together would hold, and a short one behind it; the same with one
/// more that has no room, and one byte short. Full touching windows; faults; nothing at all.
#[test]
fn shares_of_closure_hours_are_counted() {
    let mut tally = Tally::new(&REFERENCE, 1);
    let waiting = [(0, 5), (5, 7), (9, 20)];
    let days: [(&[Window], &[u64], usize); 7] = [
        (&waiting, &[6, 2], 8),
        (&waiting, &[6, 2, 9], 0),
        (&waiting, &[6, 2], 7),
        (&[(0, 5), (5, 10)], &[5, 5], 9),
        (&[(0, 5), (4, 9)], &[0], 4),
        (&[(0, 5)], &[6, 0], 8),
        (&[], &[], 0),
    ];
    for (windows, durations, room) in days {
        let (windows, durations) = (windows.to_vec(), durations.to_vec());
        tally.check(&Day { windows, durations }.place(room));
    }
    for (name, count) in [
        ("just enough", 1),
        ("bytes behind", 1),
        ("one byte short", 1),
        ("passes over several windows", 1),
        ("passes over a window", 0),
        ("misses a window by a minute", 1),
        ("would reach across touching windows", 1),
        ("would fit a window passed over before", 1),
        ("a gap between entries", 0),
        ("starts at an opening", 2),
        ("starts at an end", 1),
        ("starts at both", 1),
        ("ends at a shutting minute", 1),
        ("ends at the last one", 1),
        ("fills a window", 1),
        ("19 at entry 0", 0),
        ("19 at a later entry", 1),
        ("19 at the last entry", 1),
        ("19 with a short output", 1),
        ("19 across touching windows", 1),
        ("an overlap of a minute", 1),
        ("a window behind sound ones", 1),
        ("a window, and a duration at an earlier place", 1),
        ("a duration of 0", 1),
        ("a duration behind entries without a placement", 1),
        ("no entries and no windows", 1),
    ] {
        assert_eq!(tally.closure().count(name), count, "{name}");
    }
}

#[test]
#[should_panic(expected = "goal met on the way only: 0 only")]
fn a_missing_share_of_schedules_is_found() {
    let tally = Tally::new(&REFERENCE, 1);
    tally.schedules().expect(&[("goal met on the way only", 1)]);
}

/// What is counted in the calls below.
const SCHEDULES: [(&str, usize); 23] = [
    ("yes", 1),
    ("just enough", 1),
    ("one byte short", 1),
    ("goal not met", 3),
    ("goal not met, and a short output", 1),
    ("goal met at the start only", 1),
    ("goal met on the way only", 1),
    ("goal met but for one part", 3),
    ("missing by one", 1),
    ("missing 255", 0),
    ("another fault behind", 1),
    ("not allowed", 1),
    ("not allowed, and out of range", 0),
    ("index 0", 2),
    ("index in the middle", 1),
    ("index of the last entry", 0),
    ("out of range by one", 1),
    ("out of range above", 1),
    ("comes back and meets the goal", 1),
    ("an index behind a met goal", 1),
    ("a move again at once", 2),
    ("a refused state and a missing move", 1),
    ("a refused table and a list", 0),
];

/// M1's list, one byte short, and cut; v += 1 with the goal v = 1,000,000 beyond it and back; faults; a
/// refused state.
#[test]
fn shares_of_schedules_are_counted() {
    let mut tally = Tally::new(&REFERENCE, 1);
    let list = [0, 0, 2, 0, 1, 1, 1, 1];
    tally.check(&m1().check(&list, 9));
    tally.check(&m1().check(&list, 8));
    tally.check(&m1().check(&list[..7], 0));
    tally.check(&m1().check(&[0, 3, 255], 9));
    tally.check(&m1().check(&[2], 9));
    let moves = "41 46 01 00 00000001 41 46 02 00 00000001";
    let brink = Task {
        table: bytes(&format!(
            "54 00 01 02 {moves} 47 57 00 0001 43 04 000f4240 45"
        )),
        state: bytes("000f4240"),
    };
    tally.check(&brink.check(&[0, 1], 4));
    tally.check(&brink.check(&[1], 4));
    tally.check(&brink.check(&[1, 0, 1], 4));
    let state = vec![0; 3];
    tally.check(&Task { state, ..brink }.check(&[2], 4));
    for (name, count) in SCHEDULES {
        assert_eq!(tally.schedules().count(name), count, "{name}");
    }
}

#[test]
#[should_panic(expected = "17 before 8: 0 only")]
fn a_missing_share_of_the_rig_is_found() {
    let tally = Tally::new(&REFERENCE, 1);
    tally.rig().expect(&[("17 before 8", 1)]);
}

/// A ninth variable with a state of the wrong length, with one that fits and in the wrong kind of table,
/// a seventeenth move of a table with a circle, and counts at the limits.
#[test]
fn shares_of_the_rig_are_counted() {
    let mut tally = Tally::new(&REFERENCE, 1);
    let nine = bytes("54 00 09 01 41 46 01 00 00000000 47 45");
    for state in [vec![], vec![0; 36]] {
        let table = nine.clone();
        let task = Task { table, state };
        tally.check(&task.call(CallKind::RigStep));
        tally.check(&task.call(CallKind::RigDecide));
    }
    let moves = |count| "41 57 00 0001 46 00 01 00000000".repeat(count);
    for table in [
        format!(
            "54 00 02 11 41 57 01 0001 46 00 00 00000000 {} 47 45",
            moves(16)
        ),
        format!("4e 78 10 10 {} 47 45", moves(16)),
    ] {
        let (table, state) = (bytes(&table), Vec::new());
        tally.check(&Task { table, state }.call(CallKind::RigRead));
    }
    for (name, count) in [
        ("rig_step", 2),
        ("rig_read", 2),
        ("rig_decide", 2),
        ("the wrong head before 17", 2),
        ("17 before 8", 1),
        ("17 before 13", 1),
        ("9 variables alone", 2),
        ("17 moves alone", 0),
        ("7 before 17", 1),
        ("16 moves", 1),
        ("8 variables", 1),
        ("120 propositions", 1),
    ] {
        assert_eq!(tally.rig().count(name), count, "{name}");
    }
}

#[test]
#[should_panic(expected = "1 with an idle move only")]
fn a_missing_share_of_idle_moves_is_found() {
    let mut tally = Tally::new(&REFERENCE, 1);
    tally.check(&Call {
        table: bytes("54 00 00 01 41 47 45"),
        ..CallKind::Read.call()
    });
    tally.expect_idle_moves(2);
}

#[test]
#[should_panic(expected = "0 with a weight 0 only")]
fn a_missing_share_of_weight_0_is_found() {
    Tally::new(&REFERENCE, 1).expect_zero_terms(1);
}
