//! The proved engine's PDDL text, over its C function; texts are the reference's too.

mod weight_zero;

use crate::common::rooms::rooms;
use campaign::answer::Refusal;
use campaign::call::CallKind;
use campaign::engine::{Calls, Engine, REFERENCE};
use campaign::fenced::Fenced;
use campaign::generate::{
    damage, dense, full_length, insertions, m1, pddl_call, single_byte_changes, spoil, state_for,
    task, task_of, text_length, truncations, wordy, wrong_state, Rng, Task,
};
use campaign::harness::{check_lines, texted};
use campaign::hex::bytes;
use campaign::proved;
use campaign::reference::parse_table;
use campaign::reference::table::Kind;
use campaign::tally::Tally;
use std::collections::HashSet;

const CALLS: Calls = Calls {
    pddl: proved::pddl,
    ..Calls::NONE
};

const ENGINE: &dyn Engine = &CALLS;

#[test]
fn recorded_texts() {
    check_lines(ENGINE, CallKind::Pddl);
}

/// What both engines answer.
fn answer(task: &Task) -> Result<String, Refusal> {
    let [expected, got] = [&REFERENCE, ENGINE].map(|engine| texted(engine, task));
    assert_eq!(got, expected, "{task}");
    got
}

/// The text of a table and a state in hexadecimal.
fn text(table: &str, state: &str) -> String {
    let [table, state] = [table, state].map(bytes);
    answer(&Task { table, state }).expect("the task is accepted")
}

/// What stands between two parts of a text.
fn between<'t>(text: &'t str, before: &str, behind: &str) -> &'t str {
    let (_, rest) = text.split_once(before).expect("the part before");
    rest.split_once(behind).expect("the part behind").0
}

#[test]
fn the_text_of_m1_is_the_documented_one() {
    let document = include_str!("../../docs/PDDL.md");
    let example = between(document, "M1 in state 0, 0, 0:\n\n```\n", "```\n");
    assert_eq!(answer(&m1()).as_deref(), Ok(example));
}

#[test]
fn the_shortest_text() {
    let expected = "(define (domain campaign)
  (:requirements :strips :fluents))
(define (problem start)
  (:domain campaign)
  (:init)
  (:goal (and)))
";
    assert_eq!(text("54 00 00 00 47 45", ""), expected);
}

#[test]
fn names_that_blocks_use_or_not() {
    let expected = "(define (domain campaign)
  (:requirements :strips :fluents)
  (:predicates
    (p0)
    (p1)
    (p2))
  (:functions
    (v0)
    (v1))
  (:action a0
    :parameters ()
    :precondition (and)
    :effect (and
      (not (p1)))))
(define (problem start)
  (:domain campaign)
  (:init
    (p0)
    (p2)
    (= (v0) -1000000)
    (= (v1) 10))
  (:goal (and)))
";
    let found = text("54 03 02 01 41 2d 01 47 45", "01 00 01 fff0bdc0 0000000a");
    assert_eq!(found, expected);
}

/// Propositions alone, or variables alone.
#[test]
fn lists_of_no_names_are_left_out() {
    let propositions = text("54 01 00 00 47 45", "00");
    let variables = text("54 00 01 00 47 45", "00000000");
    assert!(propositions.contains("fluents)\n  (:predicates\n    (p0)))\n(define"));
    assert!(propositions.contains("\n  (:init)\n"));
    assert!(variables.contains("fluents)\n  (:functions\n    (v0)))\n(define"));
    assert!(variables.contains("\n  (:init\n    (= (v0) 0))\n"));
}

/// The goal of commands over two propositions and nine variables, a condition a line.
fn goal(commands: &str) -> Vec<String> {
    let table = format!("54 02 09 00 47 {commands} 45");
    let text = text(&table, &"00".repeat(38));
    let goal = between(&text, "\n  (:goal (and", ")))\n");
    lines(goal, "\n    ")
}

/// Conditions and effects of a move of commands over the same names.
fn action(commands: &str) -> [Vec<String>; 2] {
    let table = format!("54 02 09 01 41 {commands} 47 45");
    let text = text(&table, &"00".repeat(38));
    let conditions = between(&text, "\n    :precondition (and", ")\n    :effect (and");
    let effects = between(&text, "\n    :effect (and", ")))\n(define");
    [conditions, effects].map(|part| lines(part, "\n      "))
}

fn lines(part: &str, margin: &str) -> Vec<String> {
    let mut lines = part.split(margin);
    assert_eq!(lines.next(), Some(""), "{part}");
    lines.map(String::from).collect()
}

#[test]
fn every_comparison() {
    let commands = "57 03 0001 43 00 00000005 57 03 0001 43 01 00000005 57 03 0001 43 02 00000005 \
                    57 03 0001 43 03 00000005 57 03 0001 43 04 00000005";
    let expected = [">=", ">", "<=", "<", "="].map(|o| format!("({o} (+ (* 1 (v3)) 0) 5)"));
    assert_eq!(goal(commands), expected);
    let [conditions, effects] = action(&format!("{commands} 2b 01"));
    assert_eq!(conditions, expected);
    assert_eq!(effects, ["(p1)"]);
}

#[test]
fn every_effect() {
    let [conditions, effects] = action(
        "2b 01 2d 00 46 00 00 00000007 46 01 01 fffffff9 46 02 02 00000000 \
         57 03 fffe 46 00 04 000f4240 57 05 0001 57 08 03e8 46 02 05 fff0bdc0",
    );
    assert!(conditions.is_empty(), "{conditions:?}");
    let expected = [
        "(p1)",
        "(not (p0))",
        "(assign (v0) 7)",
        "(increase (v1) -7)",
        "(decrease (v2) 0)",
        "(assign (v4) (+ (* -2 (v3)) 1000000))",
        "(decrease (v5) (+ (* 1 (v5)) (+ (* 1000 (v8)) -1000000)))",
    ];
    assert_eq!(effects, expected);
}

#[test]
fn sums_of_no_terms_and_of_eight() {
    let terms: String = (0..8).map(|v| format!("57 {:02x} fc18 ", v + 1)).collect();
    let found = goal(&format!(
        "43 00 00000000 43 03 ffffffff {terms} 43 01 fff0bdc0"
    ));
    let terms: String = (0..8)
        .map(|v| format!("(+ (* -1000 (v{})) ", v + 1))
        .collect();
    let long = format!("(> {terms}0)))))))) -1000000)");
    assert_eq!(found, ["(>= 0 0)", "(< 0 -1)", &long]);
}

/// Conditions keep their order whatever their kind, and effects theirs.
#[test]
fn conditions_and_effects_in_their_order() {
    let mixed = "50 01 43 00 00000001 50 00 43 02 00000002";
    assert_eq!(goal(mixed), ["(p1)", "(>= 0 1)", "(p0)", "(<= 0 2)"]);
    let found = action(
        "2d 01 43 04 00000001 46 01 08 00000002 50 01 2b 00 57 00 0001 43 01 00000003 \
         46 02 00 00000004 50 00",
    );
    let conditions = ["(= 0 1)", "(p1)", "(> (+ (* 1 (v0)) 0) 3)", "(p0)"];
    let effects = [
        "(not (p1))",
        "(increase (v8) 2)",
        "(p0)",
        "(decrease (v0) 4)",
    ];
    assert_eq!(
        found,
        [conditions, effects].map(|part| part.map(String::from).to_vec())
    );
}

#[test]
fn names_of_several_digits() {
    let moves = "41 2b 00".repeat(10);
    let table = format!("54 78 10 0b {moves} 41 50 63 2b 77 46 00 0f 00000063 47 50 64 45");
    let text = text(
        &table,
        &format!("{} {}", "01".repeat(120), "000186a0".repeat(16)),
    );
    for part in [
        "\n    (p9)\n    (p10)\n",
        "\n    (p99)\n    (p100)\n",
        "\n    (p119))\n",
        "\n    (v9)\n    (v10)\n",
        "\n    (v15))\n",
        "\n  (:action a9\n",
        "\n  (:action a10\n",
        "(and\n      (p99))\n    :effect (and\n      (p119)\n      (assign (v15) 99))))\n",
        "\n    (p119)\n    (= (v0) 100000)\n",
        "\n    (= (v15) 100000))\n  (:goal (and\n    (p100))))\n",
    ] {
        assert!(text.contains(part), "{part}");
    }
}

/// The refusal of both engines, which keep the output.
fn refusal(table: &[u8], state: &str, room: usize) -> Option<(u8, u64)> {
    let [expected, got] = [&REFERENCE, ENGINE].map(|engine| {
        let mut out = vec![0xA5; room];
        let answer = engine.pddl(table, &bytes(state), &mut out);
        assert!(answer.is_ok() || out == vec![0xA5; room]);
        answer.err().map(|r| (r.reason.number(), r.place))
    });
    assert_eq!(got, expected);
    got
}

/// Each of these has faults that are found later, too.
#[test]
fn refusals_in_their_order() {
    let wrong = "02 000f4241 00";
    assert_eq!(refusal(&[0; 32_001], wrong, 0), Some((1, 0)));
    let tables = [
        ("", 2, 0),
        ("4e 01 02 00 47", 3, 0),
        ("54 79 11", 2, 0),
        ("54 01 01 00 47 57 00 0001 45", 3, 9),
        ("54 01 01 01 47 50", 6, 4),
        ("54 01 11 41 47", 4, 2),
        ("54 01 01 01 41 57 00 03e9 43 05 000f4241", 4, 7),
        ("54 01 01 01 41 2b 00 2d 00", 5, 7),
        (
            "54 01 01 01 41 57 00 0001 46 00 00 00000000 47 45 45",
            3,
            18,
        ),
        ("54 01 01 01 41 57 00 0001 46 00 00 00000000 47 45", 7, 0),
        ("54 01 01 01 41 57 00 0001 46 01 00 00000000 47 45", 8, 0),
    ];
    for (table, number, place) in tables {
        let found = refusal(&bytes(table), wrong, 0);
        assert_eq!(found, Some((number, place)), "{table}");
    }
    let table = bytes("54 02 02 00 47 45");
    assert_eq!(refusal(&table, "00 02 000f4241 00000000", 0), Some((9, 1)));
    assert_eq!(refusal(&table, "00 01 000f4241 fff0bdbf", 0), Some((9, 2)));
    assert_eq!(refusal(&table, "00 01 000f4240 fff0bdbf", 0), Some((9, 6)));
    assert_eq!(refusal(&table, "00 01 000f4240 fff0bdc0", 0), Some((13, 0)));
    assert_eq!(refusal(&table, "00 01 000f4240 fff0bdc0", 300), None);
}

#[test]
fn m1_in_outputs_of_every_length() {
    let mut tally = Tally::new(ENGINE, 702);
    for room in 0..700 {
        tally.check(&m1().pddl(room));
    }
    assert_eq!(tally.counts()[13], 631);
}

fn check_rooms(tally: &mut Tally, rng: &mut Rng, task: &Task) {
    for room in rooms(rng, text_length(task)) {
        tally.check(&task.pddl(room));
    }
}

#[test]
fn texts_in_outputs_of_all_lengths() {
    let mut rng = Rng::new(703);
    let mut tally = Tally::new(ENGINE, 704);
    for _ in 0..8_000 {
        let task = task(&mut rng, Kind::Written);
        check_rooms(&mut tally, &mut rng, &task);
    }
    for chosen in 0..8 {
        let counts = [0, 1, 2].map(|i| [120, 16, 64][i] * (chosen >> i & 1));
        let task = task_of(&mut rng, Kind::Written, counts);
        check_rooms(&mut tally, &mut rng, &task);
    }
    tally.expect(64_000, &[0, 13]);
    tally.expect_zero_terms(20_000);
}

#[test]
fn damaged_tables() {
    let mut rng = Rng::new(705);
    let mut tally = Tally::new(ENGINE, 706);
    let Task { table, state } = m1();
    let damaged = single_byte_changes(&table)
        .chain(truncations(&table))
        .chain(insertions(&table));
    for table in damaged {
        let state = state.clone();
        let room = 620 + rng.below(60);
        tally.check(&Task { table, state }.pddl(room));
    }
    for _ in 0..1_000 {
        let Task { table, state } = task(&mut rng, Kind::Written);
        let mut table = parse_table(&table).unwrap();
        spoil(&mut rng, &mut table);
        let table = table.encode();
        check_rooms(&mut tally, &mut rng, &Task { table, state });
    }
    tally.expect(40_000, &[0, 2, 3, 4, 5, 6, 7, 8, 13, 16]);
    tally.expect_zero_terms(3_000);
}

#[test]
fn states_of_all_kinds() {
    let mut rng = Rng::new(707);
    let mut tally = Tally::new(ENGINE, 708);
    for _ in 0..2_000 {
        let mut task = task(&mut rng, Kind::Written);
        let table = parse_table(&task.table).unwrap();
        for i in 0..6 {
            task.state = state_for(&mut rng, &table);
            if i % 2 == 0 {
                task.state = wrong_state(&mut rng, &task.state);
            }
            tally.check(&task.pddl(text_length(&task)));
        }
    }
    tally.expect(12_000, &[0, 8, 9]);
}

#[test]
fn damaged_calls_behind_fences() {
    let mut rng = Rng::new(709);
    let engine = Fenced(CALLS);
    let mut tally = Tally::new(&engine, 710);
    for _ in 0..5_000 {
        let mut call = pddl_call(&mut rng);
        tally.check(&call);
        damage(&mut rng, &mut call);
        tally.check(&call);
    }
    tally.expect(10_000, &[0, 2, 3, 4, 5, 6, 7, 8, 9, 13, 16]);
    tally.expect_zero_terms(2_500);
}

#[test]
fn lengths_at_the_limits() {
    let mut rng = Rng::new(711);
    let mut tally = Tally::new(ENGINE, 712);
    for length in [31_999, 32_000, 32_001, 64_000, 64_001] {
        for kind in [Kind::Written, Kind::Normal] {
            for made in [full_length, dense] {
                let task = made(&mut rng, kind, length);
                check_rooms(&mut tally, &mut rng, &task);
            }
        }
    }
    check_rooms(&mut tally, &mut rng, &wordy());
    tally.expect(168, &[0, 1, 13]);
}

/// No two of the tables and states that differ in a byte have one text.
#[test]
fn texts_that_differ() {
    let Task { table, state } = m1();
    let tables = single_byte_changes(&table).map(|table| (table, state.clone()));
    let states = single_byte_changes(&state).map(|state| (table.clone(), state));
    let tasks = tables
        .chain(states)
        .map(|(table, state)| Task { table, state });
    let mut texts = HashSet::from([texted(ENGINE, &m1()).unwrap()]);
    for text in tasks.filter_map(|task| texted(ENGINE, &task).ok()) {
        assert!(texts.insert(text.clone()), "{text}");
    }
    assert!(texts.len() > 2_000, "{}", texts.len());
}
