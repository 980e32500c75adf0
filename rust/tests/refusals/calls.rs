//! Refusals of states, moves, blocks, memories and outputs.

use super::{pair, ENGINE};
use campaign::answer::{Reason, Refusal};
use campaign::hex::bytes;

#[test]
fn states() {
    let table = bytes("54 02 02 01 41 2d 00 47 45");
    let step = |state: &[u8]| pair(ENGINE.step(&table, state, 9, &mut []));
    assert_eq!(step(&[0; 9]), Some((8, 0)));
    assert_eq!(step(&[9; 11]), Some((8, 0)));
    assert_eq!(step(&[]), Some((8, 0)));
    assert_eq!(step(&bytes("02 00 7fffffff 00000000")), Some((9, 0)));
    assert_eq!(step(&bytes("00 ff 7fffffff 00000000")), Some((9, 1)));
    assert_eq!(step(&bytes("01 00 7fffffff 80000000")), Some((9, 2)));
    assert_eq!(step(&bytes("01 01 00000000 fff0bdbf")), Some((9, 6)));
    assert_eq!(step(&bytes("01 01 000f4240 fff0bdc0")), Some((10, 0)));
}

/// A normal table's state has a value for every two signed variables.
#[test]
fn states_of_normal_tables() {
    let table = bytes("4e 01 04 00 47 45");
    let decide = |state: &[u8]| pair(ENGINE.decide(&table, state, &mut [0; 5]));
    assert_eq!(decide(&[0; 9]), None);
    assert_eq!(decide(&[0; 17]), Some((8, 0)));
    assert_eq!(decide(&[0; 5]), Some((8, 0)));
    assert_eq!(decide(&bytes("01 00000000 80000000")), Some((9, 5)));
}

/// One move: v0 >= 1 needed, v0 += 999,999.
fn stepping(state: i32, mv: u64, room: usize) -> (Option<(u8, u64)>, Vec<u8>) {
    let table = bytes("54000101 41 57 00 0001 43 00 00000001 46 01 00 000f423f 47 45");
    let mut out = vec![0xA5; room];
    let answer = ENGINE.step(&table, &state.to_be_bytes(), mv, &mut out);
    (pair(answer), out)
}

#[test]
fn steps_are_refused_in_order_and_keep_their_output() {
    let kept = |room| vec![0xA5; room];
    assert_eq!(stepping(0, 1, 3), (Some((10, 0)), kept(3)));
    assert_eq!(stepping(0, u64::MAX, 4), (Some((10, 0)), kept(4)));
    assert_eq!(stepping(0, 0, 3), (Some((11, 0)), kept(3)));
    assert_eq!(stepping(2, 0, 3), (Some((12, 0)), kept(3)));
    assert_eq!(stepping(2, 0, 4), (Some((12, 0)), kept(4)));
    assert_eq!(stepping(1, 0, 3), (Some((13, 0)), kept(3)));
    assert_eq!(stepping(1, 0, 4), (None, bytes("000f4240")));
    assert_eq!(stepping(1, 0, 6), (None, bytes("000f4240 a5a5")));
}

#[test]
fn blocks_beyond_the_goal() {
    let table = bytes("54 01 00 02 41 2b 00 41 2d 00 47 45");
    assert_eq!(ENGINE.block(&table, 2), Ok(&[0x47][..]));
    for b in [3, 255, 256, 1 << 32, 1 << 63, u64::MAX] {
        assert_eq!(pair(ENGINE.block(&table, b)), Some((10, 0)));
    }
    assert_eq!(pair(ENGINE.block(&table[..11], 9)), Some((2, 11)));
}

/// v1 := 1000 v0, v2 := 1000 v1 + 1 of signed variables, from v0 = 1,000,000.
fn past_the_value_limit(numbers: usize) -> (Result<(), Refusal>, Vec<i64>) {
    let table = bytes(
        "4e 00 04 02; 41 57 00 03e8 46 00 01 00000000; 41 57 01 03e8 46 00 02 00000001; \
         47 43 00 00000001; 45",
    );
    let mut memory = vec![5; numbers];
    let state = bytes("000f4240 00000000");
    let answer = ENGINE.decide(&table, &state, &mut memory);
    (answer.map(|_| ()), memory)
}

#[test]
fn a_value_too_large_comes_before_memory_too_short() {
    const M: i64 = 1_000_000;
    let at = |reason: Reason, layer| Err(reason.at(layer));
    assert_eq!(
        past_the_value_limit(5),
        (at(Reason::MemoryShort, 0), vec![5; 5])
    );
    let layer_0 = vec![-1, -1, M, -M, 0, 0];
    assert_eq!(
        past_the_value_limit(6),
        (at(Reason::MemoryShort, 1), layer_0)
    );
    let layer_1 = vec![0, 0, M, -M, 0, 0, M, 1_000 * M, 0, 0];
    assert_eq!(
        past_the_value_limit(10),
        (at(Reason::ValueRange, 2), layer_1)
    );
}

#[test]
fn a_plan_output_too_short_leaves_memory_as_decide_does() {
    let table = bytes("4e 00 02 01; 41 46 01 00 00000001; 47 57 00 0001 43 00 00000003; 45");
    let mut decided = [5; 6];
    let mut planned = [5; 6];
    let mut out = [0xA5; 9];
    let decision = ENGINE.decide(&table, &[0; 4], &mut decided);
    assert_eq!(decision.map(|d| d.layers), Ok(1));
    let refusal = ENGINE.plan(&table, &[0; 4], &mut planned, &mut out);
    assert_eq!(refusal, Err(Reason::OutputShort.at(0)));
    assert_eq!(planned, decided);
    assert_eq!(decided, [0, 0, 0, i64::MAX, 0, 5]);
    assert_eq!(out, [0xA5; 9]);
}

#[test]
fn normalise_keeps_a_short_output_and_the_bytes_behind() {
    let table = bytes("54 00 00 00 47 45");
    let mut short = [0xA5; 5];
    assert_eq!(pair(ENGINE.normalise(&table, &mut short)), Some((13, 0)));
    assert_eq!(short, [0xA5; 5]);
    let mut long = [0xA5; 8];
    assert_eq!(ENGINE.normalise(&table, &mut long), Ok(6));
    assert_eq!(long.to_vec(), bytes("4e 00 00 00 47 45 a5 a5"));
}
