//! The trial campaigns of the specification.

use campaign::answer::{Answer, Decision, Head, Plan, Reason, Refusal};
use campaign::engine::{Engine, REFERENCE};
use campaign::generate;
use campaign::guarded::Guarded;
use campaign::harness::{self, Planned};
use campaign::hex::bytes;
use campaign::reference::semantics::{real_run, RealRun};

const ENGINE: &dyn Engine = &REFERENCE;
const U: i64 = i64::MAX;

fn m1() -> Vec<u8> {
    generate::m1().table
}

/// A written table with one variable and no proposition.
fn one_variable(moves: &str, goal: &str) -> Vec<u8> {
    let count = bytes(moves).len().min(1);
    bytes(&format!("54 00 01 {count:02x} {moves} 47 {goal} 45"))
}

fn normalised(table: &[u8]) -> Result<Vec<u8>, Refusal> {
    harness::normalised(ENGINE, table)
}

/// What `plan` answers for a written table.
fn planned(table: &[u8], state: &[u8]) -> Result<Planned, Refusal> {
    harness::planned(ENGINE, &normalised(table)?, state)
}

fn four(value: i32) -> Vec<u8> {
    value.to_be_bytes().to_vec()
}

#[test]
fn m1_is_64_bytes_and_its_normal_form_85() {
    assert_eq!(m1().len(), 64);
    let normal = normalised(&m1()).unwrap();
    let expected = bytes(
        "4E 01 04 03; 41 46 01 00 00000005 46 01 01 FFFFFFFB; \
         41 57 00 0001 43 00 00000003 46 01 02 00000002 46 01 03 FFFFFFFE \
         46 01 00 FFFFFFFD 46 01 01 00000003; 41 57 00 0001 43 00 0000000A 2B 00; \
         47 50 00 57 02 0001 43 00 00000007; 45",
    );
    assert_eq!(expected.len(), 85);
    assert_eq!(normal, expected);
}

#[test]
fn m1_is_read() {
    let head = |kind, v_or_n| Head {
        kind,
        p: 1,
        v_or_n,
        a: 3,
    };
    assert_eq!(ENGINE.read(&m1()), Ok(head(0x54, 2)));
    assert_eq!(ENGINE.read(&normalised(&m1()).unwrap()), Ok(head(0x4E, 4)));
}

#[test]
fn m1_is_listed() {
    let text = ENGINE.listing(&m1(), &[0; 9]);
    assert_eq!(text, "plan 3 layers 2\n0 2\n1 4\n2 1\n");
}

#[test]
fn m1_leaves_its_layers_in_memory() {
    let normal = normalised(&m1()).unwrap();
    let mut memory = Guarded::filled(16, |_| 77);
    let decision = ENGINE.decide(&normal, &[0; 9], memory.lend());
    let expected = Decision {
        answer: Answer::Layer(2),
        layers: 2,
    };
    assert_eq!(decision, Ok(expected));
    let layers = [2, 0, 1, 1, 0, 0, 0, 0, U, 0, 0, 0, U, U, U, 0];
    assert_eq!(memory.lent(), layers);
    memory.check("memory").unwrap();
}

#[test]
fn m1_with_15_numbers_is_refusal_14_at_layer_2() {
    let normal = normalised(&m1()).unwrap();
    let mut memory = Guarded::filled(15, |_| 77);
    let refusal = ENGINE.decide(&normal, &[0; 9], memory.lend());
    assert_eq!(refusal, Err(Reason::MemoryShort.at(2)));
    let layers = [-1, 0, -1, -1, 0, 0, 0, 0, U, 0, 0, 0, 77, 77, 77];
    assert_eq!(memory.lent(), layers);
    memory.check("memory").unwrap();
}

#[test]
fn m1_has_one_first_move() {
    let planned = planned(&m1(), &[0; 9]).unwrap();
    assert_eq!(planned.plan.first, 1);
    assert_eq!(planned.records, [(0, 2), (1, 4), (2, 1)]);
}

#[test]
fn an_empty_goal_needs_no_record() {
    let planned = planned(&bytes("54 00 00 00 47 45"), &[]).unwrap();
    let expected = Plan {
        answer: Answer::Layer(0),
        layers: 0,
        records: 0,
        first: 0,
    };
    assert_eq!(planned.plan, expected);
    assert!(planned.records.is_empty());
    assert_eq!(
        ENGINE.listing(&bytes("54 00 00 00 47 45"), &[]),
        "plan 0 layers 0\n"
    );
}

#[test]
fn doubling_needs_a_start_above_0() {
    let table = one_variable(
        "41 57 00 0001 46 01 00 00000000",
        "57 00 0001 43 00 00000008",
    );
    assert_eq!(ENGINE.listing(&table, &four(0)), "no plan layers 0\n");
    assert_eq!(ENGINE.listing(&table, &four(1)), "plan 1 layers 1\n0 7\n");
}

#[test]
fn an_odd_goal_has_a_relaxed_plan_only() {
    let table = one_variable("41 46 01 00 00000002", "57 00 0001 43 04 00000001");
    let records = planned(&table, &four(0)).unwrap().records;
    assert_eq!(records, [(0, 1)]);
    for length in 0..50 {
        let run = real_run(&table, &four(0), &vec![0; length]).unwrap();
        assert!(matches!(run, RealRun::Finished { goal: false, .. }));
    }
}

#[test]
fn below_the_lowest_constant_is_1_000_001() {
    let table = one_variable("", "57 00 0001 43 03 FFF0BDC0");
    let expected = bytes("4E 00 02 00 47 57 01 0001 43 00 000F4241 45");
    assert_eq!(normalised(&table), Ok(expected));
}

#[test]
fn a_trillion_passes_and_one_more_is_refusal_15() {
    let table = |constant: &str| {
        bytes(&format!(
            "54 00 03 02; 41 57 02 03E8 46 00 01 00000000; 41 57 01 03E8 46 00 00 {constant}; \
             47 43 00 00000001; 45"
        ))
    };
    let state = [four(0), four(0), four(1_000_000)].concat();
    let plan = planned(&table("00000000"), &state).unwrap().plan;
    assert_eq!((plan.answer, plan.layers), (Answer::NoPlan, 2));
    let refusal = planned(&table("00000001"), &state).unwrap_err();
    assert_eq!(refusal, Reason::ValueRange.at(2));
}

#[test]
fn a_variable_set_from_itself_is_refusal_7() {
    let table = one_variable("41 57 00 0001 46 00 00 00000001", "");
    assert_eq!(ENGINE.read(&table), Err(Reason::Circle.at(0)));
    assert_eq!(normalised(&table), Err(Reason::Circle.at(0)));
}

#[test]
fn weight_1000_passes_and_1001_is_refusal_4() {
    let table = |weight: i16| {
        let weight = weight as u16;
        one_variable("", &format!("57 00 {weight:04x} 43 00 00000000"))
    };
    for weight in [1000, -1000, 1, -1, 0] {
        assert!(ENGINE.read(&table(weight)).is_ok(), "{weight}");
    }
    for weight in [1001, -1001, i16::MAX, i16::MIN] {
        assert_eq!(ENGINE.read(&table(weight)), Err(Reason::OperandRange.at(7)));
    }
}

#[test]
fn state_value_1_000_001_is_refusal_9() {
    let table = bytes("54 01 02 01 41 2b 00 47 45");
    let state = |a: i32, b: i32| [vec![1], four(a), four(b)].concat();
    let step = |state: &[u8]| ENGINE.step(&table, state, 0, &mut [0; 9]);
    assert_eq!(step(&state(1_000_000, -1_000_000)), Ok(9));
    assert_eq!(step(&state(1_000_001, 0)), Err(Reason::StateRange.at(1)));
    assert_eq!(step(&state(0, -1_000_001)), Err(Reason::StateRange.at(5)));
    let normal = normalised(&table).unwrap();
    let decide = |state: &[u8]| ENGINE.decide(&normal, state, &mut [0; 6]);
    assert!(decide(&state(1_000_000, -1_000_000)).is_ok());
    assert_eq!(decide(&state(0, 1_000_001)), Err(Reason::StateRange.at(5)));
}

#[test]
fn effects_read_the_state_before() {
    let table =
        bytes("54 00 02 01 41 57 01 0001 46 01 00 00000000 57 00 0001 46 02 01 00000000 47 45");
    let mut out = [0; 8];
    let state = [four(10), four(3)].concat();
    assert_eq!(ENGINE.step(&table, &state, 0, &mut out), Ok(8));
    assert_eq!(out.to_vec(), [four(13), four(-7)].concat());
}

/// v1 += v0 helps only once v0 is above 0, which the first move brings about.
#[test]
fn an_increase_is_judged_in_its_layer() {
    let table = bytes(
        "54 00 02 02; 41 46 00 00 00000003; 41 57 00 0001 46 01 01 00000000; \
         47 57 01 0001 43 00 00000007; 45",
    );
    let state = [four(-5), four(0)].concat();
    assert_eq!(
        ENGINE.listing(&table, &state),
        "plan 2 layers 2\n0 1\n1 3\n"
    );
}

/// The target of v0 is (0 - 7 + 0)/2 rounded up: -3, which needs 2 times 1 from -5.
#[test]
fn targets_are_rounded_up() {
    let table = bytes("54 00 01 01; 41 46 01 00 00000001; 47 57 00 0002 43 00 FFFFFFF9; 45");
    assert_eq!(ENGINE.listing(&table, &four(-5)), "plan 1 layers 1\n0 2\n");
}

/// Deleting p0 and lowering v0 leave the next layer as it was.
#[test]
fn deletes_and_falling_effects_leave_layers_alone() {
    let table = bytes("54 01 01 01; 41 2D 00 46 00 00 FFFFFFFF; 47 57 00 0001 43 00 00000001; 45");
    let normal = normalised(&table).unwrap();
    let state = [vec![1], four(0)].concat();
    let mut memory = [9; 6];
    let decision = ENGINE.decide(&normal, &state, &mut memory).unwrap();
    assert_eq!(decision.answer, Answer::NoPlan);
    assert_eq!(decision.layers, 1);
    assert_eq!(memory, [0, 0, 0, 0, 0, 1]);
    let mut longer = [9; 9];
    assert_eq!(ENGINE.decide(&normal, &state, &mut longer), Ok(decision));
    assert_eq!(longer, [0, 0, 0, 0, 0, 1, 9, 9, 9]);
}
