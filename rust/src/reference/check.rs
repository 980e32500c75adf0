//! Checking a list of moves: what becomes of it, move by move.

use super::parse::{parse, Wanted};
use super::state::State;
use super::table::{Block, Change, Effect, Kind, Table, NUMBER_LIMIT};
use super::{deliver, step};
use crate::answer::{Checked, Fault, Refusal};

/// Runs a list of move bytes of a written table from a state.
pub fn check(table: &[u8], state: &[u8], list: &[u8], out: &mut [u8]) -> Result<Checked, Refusal> {
    let written = parse(table, Wanted::Only(Kind::Written))?.table;
    let mut run = Run::from(State::parse(&written, state)?);
    for (index, mv) in (0..).zip(list) {
        if let Err(fault) = run.take(&written, *mv) {
            return Ok(Checked::Fails { index, fault });
        }
    }
    if !step::holds(&written.goal, &run.state) {
        return Ok(Checked::GoalNotMet);
    }
    let length = deliver(&run.state.encode(), out)?;
    Ok(Checked::Yes { length })
}

/// A state that moves change in place.
struct Run {
    state: State,
    /// Variables with their new values: all are read from the state before any is set.
    staged: Vec<(usize, i128)>,
}

impl From<State> for Run {
    fn from(state: State) -> Run {
        let staged = Vec::with_capacity(state.values.len());
        Run { state, staged }
    }
}

impl Run {
    /// Makes the move of this number; the state is of no use after a fault.
    fn take(&mut self, table: &Table, mv: u8) -> Result<(), Fault> {
        let block = table.moves.get(usize::from(mv)).ok_or(Fault::Missing)?;
        if !step::holds(block, &self.state) {
            return Err(Fault::NotAllowed);
        }
        self.stage(block)?;
        for (variable, value) in self.staged.drain(..) {
            self.state.values[variable] = value;
        }
        let propositions = &mut self.state.propositions;
        block.added().for_each(|p| propositions[p] = true);
        block.deleted().for_each(|p| propositions[p] = false);
        Ok(())
    }

    /// Works out all new values.
    fn stage(&mut self, block: &Block) -> Result<(), Fault> {
        for effect in block.effects() {
            let value = changed(effect, &self.state.values);
            if !(-NUMBER_LIMIT..=NUMBER_LIMIT).contains(&value) {
                return Err(Fault::OutOfRange);
            }
            self.staged.push((effect.variable, value));
        }
        Ok(())
    }
}

/// The new value of an effect's variable: below 10^10 in size, as all values are in range.
fn changed(effect: &Effect, values: &[i128]) -> i128 {
    let terms = effect.terms.iter().map(|t| t.weight * values[t.variable]);
    let value = terms.sum::<i128>() + effect.constant;
    match effect.change {
        Change::Assign => value,
        Change::Increase => values[effect.variable] + value,
        Change::Decrease => values[effect.variable] - value,
    }
}

#[cfg(test)]
mod tests {
    use super::*;
    use crate::answer::Reason;
    use crate::generate::m1;
    use crate::hex::bytes;

    const HELD: u8 = 0xA5;

    /// The answer, and the output of this length afterwards.
    fn outcome(
        table: &str,
        state: &str,
        list: &[u8],
        room: usize,
    ) -> (Result<Checked, Refusal>, Vec<u8>) {
        let mut out = vec![HELD; room];
        let answer = check(&bytes(table), &bytes(state), list, &mut out);
        (answer, out)
    }

    /// With more room than any state here needs; an answer other than yes writes nothing.
    fn answer(table: &str, state: &str, list: &[u8]) -> Checked {
        let (answer, out) = outcome(table, state, list, 20);
        let answer = answer.expect("no refusal");
        let written = match answer {
            Checked::Yes { length } => length,
            _ => 0,
        };
        assert!(out[written..].iter().all(|byte| *byte == HELD), "{out:?}");
        answer
    }

    /// The end state of a list that is a yes.
    fn end(table: &str, state: &str, list: &[u8]) -> Vec<u8> {
        let length = match answer(table, state, list) {
            Checked::Yes { length } => length,
            other => panic!("{other:?}"),
        };
        outcome(table, state, list, length).1
    }

    fn m1_answer(list: &[u8]) -> Checked {
        let task = m1();
        let mut out = [HELD; 9];
        let answer = check(&task.table, &task.state, list, &mut out).expect("no refusal");
        let yes = matches!(answer, Checked::Yes { .. });
        assert_eq!(out == [HELD; 9], !yes);
        answer
    }

    fn fails(index: u64, fault: Fault) -> Checked {
        Checked::Fails { index, fault }
    }

    /// Move 0 is v += 1, move 1 is v −= 400,000, move 2 is v += 1000 v; the goal is v ≥ 0.
    const COUNTING: &str = "54 00 01 03; 41 46 01 00 00000001; 41 46 02 00 00061a80; \
                            41 57 00 03e8 46 01 00 00000000; 47 57 00 0001 43 00 00000000; 45";

    #[test]
    fn m1_is_carried_out() {
        let list = [0, 0, 2, 0, 1, 1, 1, 1];
        let task = m1();
        let mut out = [HELD; 10];
        let answer = check(&task.table, &task.state, &list, &mut out);
        assert_eq!(answer, Ok(Checked::Yes { length: 9 }));
        assert_eq!(out[..], bytes("01 00000003 00000008 a5"));
    }

    #[test]
    fn a_goal_is_missed() {
        assert_eq!(m1_answer(&[0, 0, 2, 0, 1, 1, 1]), Checked::GoalNotMet);
        assert_eq!(m1_answer(&[0, 0, 0, 1, 1, 1, 1]), Checked::GoalNotMet);
        assert_eq!(m1_answer(&[]), Checked::GoalNotMet);
    }

    #[test]
    fn every_fault_has_the_index_of_its_entry() {
        assert_eq!(m1_answer(&[0, 0, 9]), fails(2, Fault::Missing));
        assert_eq!(m1_answer(&[1, 0]), fails(0, Fault::NotAllowed));
        assert_eq!(m1_answer(&[0, 2]), fails(1, Fault::NotAllowed));
        let list = [1, 1, 1, 0];
        assert_eq!(
            answer(COUNTING, "00000000", &list),
            fails(2, Fault::OutOfRange)
        );
    }

    #[test]
    fn the_number_of_moves_is_no_move() {
        assert_eq!(m1_answer(&[3]), fails(0, Fault::Missing));
        assert_eq!(m1_answer(&[0, 0, 2, 0xFF]), fails(3, Fault::Missing));
        let none = "54 00 00 00 47 45";
        assert_eq!(answer(none, "", &[0]), fails(0, Fault::Missing));
        assert_eq!(answer(none, "", &[]), Checked::Yes { length: 0 });
    }

    /// The first entry that cannot be made counts, whatever is wrong with those behind it.
    #[test]
    fn the_first_index_wins() {
        assert_eq!(m1_answer(&[0, 3, 2]), fails(1, Fault::Missing));
        assert_eq!(m1_answer(&[0, 2, 3]), fails(1, Fault::NotAllowed));
        let behind = [1, 1, 1, 7];
        assert_eq!(
            answer(COUNTING, "00000000", &behind),
            fails(2, Fault::OutOfRange)
        );
    }

    #[test]
    fn lists_are_longer_than_255_entries() {
        let mut list = vec![0; 70_000];
        assert_eq!(end(COUNTING, "00000000", &list), bytes("00011170"));
        list[66_000] = 3;
        let fault = fails(66_000, Fault::Missing);
        assert_eq!(answer(COUNTING, "00000000", &list), fault);
    }

    /// The edges are inside. A value that comes back is no excuse, and one far beyond 32 bits none.
    #[test]
    fn values_stay_in_range() {
        let at_top = "000f423f";
        assert_eq!(end(COUNTING, at_top, &[0]), bytes("000f4240"));
        assert_eq!(
            answer(COUNTING, at_top, &[0, 0, 1]),
            fails(1, Fault::OutOfRange)
        );
        assert_eq!(answer(COUNTING, "fff0bdc0", &[]), Checked::GoalNotMet);
        assert_eq!(answer(COUNTING, "fff0bdc0", &[0]), Checked::GoalNotMet);
        assert_eq!(
            answer(COUNTING, "fff0bdc0", &[1, 0]),
            fails(0, Fault::OutOfRange)
        );
        assert_eq!(
            answer(COUNTING, "000f4240", &[2]),
            fails(0, Fault::OutOfRange)
        );
    }

    #[test]
    fn an_empty_list_asks_for_the_goal() {
        assert_eq!(end(COUNTING, "00000000", &[]), bytes("00000000"));
        assert_eq!(answer(COUNTING, "ffffffff", &[]), Checked::GoalNotMet);
    }

    #[test]
    fn an_output_too_short_comes_last() {
        let (short, out) = outcome(COUNTING, "00000007", &[0], 3);
        assert_eq!(short, Err(Reason::OutputShort.at(0)));
        assert_eq!(out, [HELD; 3]);
        let (missed, _) = outcome(COUNTING, "00000007", &[1], 0);
        assert_eq!(missed, Ok(Checked::GoalNotMet));
        let (missing, _) = outcome(COUNTING, "00000007", &[3], 0);
        assert_eq!(missing, Ok(fails(0, Fault::Missing)));
    }

    #[test]
    fn table_and_state_come_before_the_list() {
        let refused = |table, state| outcome(table, state, &[9], 0).0.expect_err("a refusal");
        let normal = "4e 00 02 01; 41 46 01 00 00000001; 47 45";
        assert_eq!(refused(normal, "00"), Reason::Misplaced.at(0));
        let idle = "54 00 01 01; 41 47 45";
        assert_eq!(refused(idle, "00"), Reason::IdleMove.at(5));
        assert_eq!(refused(COUNTING, "00"), Reason::StateLength.at(0));
        assert_eq!(refused(COUNTING, "000f4241"), Reason::StateRange.at(0));
    }

    /// One move: v0 += v1, v1 += v0, and p1 takes the place of p0, which it asks for.
    #[test]
    fn effects_read_the_state_before_the_move() {
        let table = "54 02 02 01; 41 2d 00 57 01 0001 46 01 00 00000000 \
                     57 00 0001 46 01 01 00000000 2b 01 50 00; 47 45";
        let state = "01 00 00000001 0000000a";
        let after = bytes("00 01 0000000b 0000000b");
        assert_eq!(end(table, state, &[0]), after);
        assert_eq!(answer(table, state, &[0, 0]), fails(1, Fault::NotAllowed));
    }
}
