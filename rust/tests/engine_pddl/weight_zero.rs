//! Terms of weight 0 in the text.

use super::{action, check_rooms, goal, ENGINE};
use campaign::generate::{
    grid, insertions, m1, m1_grid, single_byte_changes, truncations, Rng, Task,
};
use campaign::harness::texted;
use campaign::tally::Tally;

#[test]
fn they_are_written_out() {
    let found = goal("57 03 0000 43 00 00000005 57 00 0000 57 03 0001 57 08 0000 43 04 ffffffff");
    let expected = [
        "(>= (+ (* 0 (v3)) 0) 5)",
        "(= (+ (* 0 (v0)) (+ (* 1 (v3)) (+ (* 0 (v8)) 0))) -1)",
    ];
    assert_eq!(found, expected);
    let [conditions, effects] = action(
        "57 01 0000 43 03 00000000 57 01 0000 46 00 01 00000007 \
         57 02 0000 57 03 fc18 46 02 02 00000000",
    );
    assert_eq!(conditions, ["(< (+ (* 0 (v1)) 0) 0)"]);
    let expected = [
        "(assign (v1) (+ (* 0 (v1)) 7))",
        "(decrease (v2) (+ (* 0 (v2)) (+ (* -1000 (v3)) 0)))",
    ];
    assert_eq!(effects, expected);
}

#[test]
fn a_sum_of_eight() {
    let terms: String = (0..8).map(|v| format!("57 {v:02x} 0000 ")).collect();
    let written: String = (0..8).map(|v| format!("(+ (* 0 (v{v})) ")).collect();
    let expected = [format!("(<= {written}0)))))))) 3)")];
    assert_eq!(goal(&format!("{terms} 43 02 00000003")), expected);
}

#[test]
fn a_grid_has_a_text_of_its_own() {
    let [grid, plain] = [m1_grid(), m1()].map(|task| texted(ENGINE, &task).expect("a text"));
    assert_eq!(grid.matches("(* 0 (v").count(), 9);
    assert_ne!(grid, plain);
}

#[test]
fn damaged_grids() {
    let mut rng = Rng::new(713);
    let mut tally = Tally::new(ENGINE, 714);
    let Task { table, state } = m1_grid();
    let damaged = single_byte_changes(&table)
        .chain(truncations(&table))
        .chain(insertions(&table));
    for table in damaged {
        let state = state.clone();
        let room = 750 + rng.below(40);
        tally.check(&Task { table, state }.pddl(room));
    }
    tally.expect(50_000, &[0, 2, 3, 4, 5, 6, 8, 13]);
    tally.expect_zero_terms(40_000);
}

#[test]
fn grids_at_the_limit_of_length() {
    let mut rng = Rng::new(715);
    let mut tally = Tally::new(ENGINE, 716);
    for length in [31_999, 32_000, 32_001] {
        let task = grid(&mut rng, length);
        check_rooms(&mut tally, &mut rng, &task);
    }
    tally.expect(24, &[0, 1, 13]);
    tally.expect_zero_terms(24);
}
