//! How a list of moves is run and what is asked of its states: as it should be, or with one rule
//! changed.

use crate::answer::{Checked, Fault, Reason, Refusal};
use crate::impostors::changed::delivered;
use crate::reference::table::{Block, Table};
use crate::reference::{parse_task, step, State};
use crate::schedule::{after, allows, in_range};

/// The rules of an engine.
#[derive(Clone, Copy)]
pub struct Rules {
    /// The entries that are made.
    pub entries: fn(&[u8]) -> Vec<u8>,
    /// The block that a byte names in a table with so many moves; the goal is behind them.
    pub named: fn(usize, usize) -> Option<usize>,
    /// Whether a move may be made in a state.
    pub allows: fn(&Block, &State) -> bool,
    /// The state after a move, in range or not.
    pub after: fn(&Block, &State) -> State,
    /// Whether the state after a move is in range.
    pub in_range: fn(&Block, &State) -> bool,
    /// Whether an entry that has this fault is passed over.
    pub skips: fn(Fault) -> bool,
    /// Whether the goal is met, given all states from the first on.
    pub meets: fn(&Block, &[State]) -> bool,
}

/// As document 02 has it.
pub const RULES: Rules = Rules {
    entries: <[u8]>::to_vec,
    named: |mv, moves| (mv < moves).then_some(mv),
    allows,
    after,
    in_range: |_, state| in_range(state),
    skips: |_| false,
    meets: |goal, states| states.last().is_some_and(|end| allows(goal, end)),
};

impl Rules {
    pub fn check(
        &self,
        table: &[u8],
        state: &[u8],
        list: &[u8],
        out: &mut [u8],
    ) -> Result<Checked, Refusal> {
        let (table, state) = accepted(table, state)?;
        self.checked(&table, state, list, out)
    }

    /// The same of a table and a state that are taken, whatever they are.
    pub fn checked(
        &self,
        table: &Table,
        state: State,
        list: &[u8],
        out: &mut [u8],
    ) -> Result<Checked, Refusal> {
        match self.states(table, state, list) {
            Err((index, fault)) => Ok(Checked::Fails {
                index: index as u64,
                fault,
            }),
            Ok(states) if !(self.meets)(&table.goal, &states) => Ok(Checked::GoalNotMet),
            Ok(states) => yes(&states[states.len() - 1], out),
        }
    }

    /// The states that a list runs through from the first on, or the first entry that cannot be made.
    pub fn states(
        &self,
        table: &Table,
        state: State,
        list: &[u8],
    ) -> Result<Vec<State>, (usize, Fault)> {
        let mut states = vec![state];
        for (index, mv) in (self.entries)(list).into_iter().enumerate() {
            let made = self.entry(table, &states[states.len() - 1], mv);
            match made {
                Ok(after) => states.push(after),
                Err(fault) if (self.skips)(fault) => {}
                Err(fault) => return Err((index, fault)),
            }
        }
        Ok(states)
    }

    fn entry(&self, table: &Table, state: &State, mv: u8) -> Result<State, Fault> {
        let named = (self.named)(mv.into(), table.moves.len());
        let block = table.moves.iter().chain([&table.goal]);
        let mut block = block.skip(named.ok_or(Fault::Missing)?);
        let block = block.next().ok_or(Fault::Missing)?;
        if !(self.allows)(block, state) {
            return Err(Fault::NotAllowed);
        }
        let after = (self.after)(block, state);
        match (self.in_range)(block, &after) {
            true => Ok(after),
            false => Err(Fault::OutOfRange),
        }
    }
}

/// A table and a state with no reason to turn them away.
pub fn accepted(table: &[u8], state: &[u8]) -> Result<(Table, State), Refusal> {
    match step(table, state, u64::MAX, &mut []) {
        Err(refusal) if refusal.reason != Reason::NoSuchBlock => Err(refusal),
        _ => parse_task(table, state),
    }
}

/// Yes with this end state, if the output has room for it.
pub fn yes(end: &State, out: &mut [u8]) -> Result<Checked, Refusal> {
    let length = delivered(&bytes_of(end), out)?;
    Ok(Checked::Yes { length })
}

/// The bytes of a state whose values may be too large for theirs.
pub fn bytes_of(state: &State) -> Vec<u8> {
    let (least, most) = (i32::MIN.into(), i32::MAX.into());
    let values = state.values.iter().map(|value| *value.clamp(&least, &most));
    let state = State {
        propositions: state.propositions.clone(),
        values: values.collect(),
    };
    state.encode()
}
