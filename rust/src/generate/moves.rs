//! Walks through the states that a table's moves lead to, and goals that hold there.

use super::rng::Rng;
use super::schedule::missing;
use crate::answer::Fault;
use crate::reference::table::{
    Block, Comparison, Condition, Item, Table, Term, NUMBER_LIMIT, TERM_LIMIT,
};
use crate::reference::State;
use crate::schedule::{after, allows, entry, in_range, sum};

/// A list of moves, and the states that it runs through.
pub struct Walk<'t> {
    table: &'t Table,
    pub list: Vec<u8>,
    /// Before the first move and after each; the first of long walks only.
    states: Vec<State>,
    end: State,
}

/// The states that are kept of a walk.
const KEPT: usize = 20;

impl<'t> Walk<'t> {
    /// A walk of so many moves, or of fewer where no more are found.
    pub fn new(rng: &mut Rng, table: &'t Table, state: &State, most: usize) -> Walk<'t> {
        let mut walk = Walk {
            table,
            list: Vec::new(),
            states: vec![state.clone()],
            end: state.clone(),
        };
        walk.go_on(rng, most);
        walk
    }

    /// The state that all moves but those inserted lead to.
    pub fn end(&self) -> &State {
        &self.end
    }

    /// One of the states on the way.
    pub fn somewhere(&self, rng: &mut Rng) -> &State {
        rng.pick(&self.states)
    }

    fn go_on(&mut self, rng: &mut Rng, most: usize) {
        for _ in 0..most {
            let Some((mv, after)) = self.next(rng) else {
                return;
            };
            self.list.push(mv);
            if self.states.len() < KEPT {
                self.states.push(after.clone());
            }
            self.end = after;
        }
    }

    /// A move that can be made next: the last one again now and then, or any.
    fn next(&self, rng: &mut Rng) -> Option<(u8, State)> {
        let again = self.list.last().filter(|_| rng.chance(1, 4)).copied();
        let tried = again.into_iter().chain(self.moves_from(rng).take(12));
        let mut made = tried.filter_map(|mv| Some((mv, entry(self.table, &self.end, mv).ok()?)));
        made.next()
    }

    /// All moves, in order from any of them on.
    fn moves_from(&self, rng: &mut Rng) -> impl Iterator<Item = u8> {
        let count = self.table.moves.len();
        let first = rng.below(count.max(1));
        (0..count).map(move |i| ((first + i) % count) as u8)
    }

    /// Puts in an entry that names no move.
    pub fn insert_missing(&mut self, rng: &mut Rng) {
        let at = self.place(rng, self.list.len());
        let byte = missing(rng, self.table.moves.len());
        self.list.insert(at, byte);
    }

    /// A place up to the last one; half of the time that one.
    fn place(&self, rng: &mut Rng, last: usize) -> usize {
        match rng.chance(1, 2) {
            true => last,
            false => rng.below(last + 1),
        }
    }

    /// A place before a kept state and a move that has this fault there, if one is found.
    fn fault(&self, rng: &mut Rng, fault: Fault) -> Option<(usize, u8)> {
        (0..4).find_map(|_| {
            let at = self.place(rng, self.states.len() - 1);
            let state = &self.states[at];
            let mut moves = self.moves_from(rng).take(16);
            let mv = moves.find(|mv| entry(self.table, state, *mv) == Err(fault))?;
            Some((at, mv))
        })
    }

    /// Puts in a move whose conditions fail.
    pub fn insert_not_allowed(&mut self, rng: &mut Rng) {
        if let Some((at, mv)) = self.fault(rng, Fault::NotAllowed) {
            self.list.insert(at, mv);
        }
    }

    /// Puts in a move that leads out of range. Mostly the list goes on from there, with a move that leads
    /// back if there is one, and a few more.
    pub fn go_beyond(&mut self, rng: &mut Rng) {
        let Some((at, mv)) = self.fault(rng, Fault::OutOfRange) else {
            return;
        };
        if rng.chance(1, 4) {
            return self.list.insert(at, mv);
        }
        let beyond = after(&self.table.moves[usize::from(mv)], &self.states[at]);
        self.list.truncate(at);
        self.list.push(mv);
        let table = self.table;
        let back = |mv: u8| {
            let block = &table.moves[usize::from(mv)];
            let back = allows(block, &beyond).then(|| after(block, &beyond))?;
            in_range(&back).then_some((mv, back))
        };
        if let Some((mv, back)) = self.moves_from(rng).find_map(back) {
            self.list.push(mv);
            self.end = back;
            let more = rng.below(4);
            self.go_on(rng, more);
        }
    }
}

/// A goal that holds in a state, mostly; otherwise one part of it nearly holds.
pub fn goal_at(rng: &mut Rng, state: &State) -> Block {
    let all: Vec<usize> = (0..state.propositions.len()).collect();
    let held = all.iter().filter(|p| state.propositions[**p]);
    let mut held: Vec<usize> = held.copied().collect();
    rng.shuffle(&mut held);
    held.truncate(rng.below(4));
    let mut items: Vec<Item> = held.into_iter().map(Item::Require).collect();
    if !state.values.is_empty() {
        items.extend((0..rng.below(4)).map(|_| Item::Condition(true_condition(rng, state))));
    }
    rng.shuffle(&mut items);
    if rng.chance(1, 6) {
        miss(rng, state, &mut items);
    }
    Block { items }
}

/// Any sum that is small enough for a constant, against its value or next to it.
fn true_condition(rng: &mut Rng, state: &State) -> Condition {
    let most = *rng.pick(&[1, 1, 2, TERM_LIMIT]);
    let chosen = rng.subset(most, state.values.len());
    let term = |variable| Term {
        variable,
        weight: *rng.pick(&[1, 1, -1, 2, 0, 1_000]),
    };
    let mut terms: Vec<Term> = chosen.into_iter().map(term).collect();
    if sum(&terms, state).abs() >= NUMBER_LIMIT {
        terms.truncate(1);
        terms[0].weight = terms[0].weight.signum();
    }
    let value = sum(&terms, state);
    let comparison = *rng.pick(&Comparison::ALL);
    let slack = *rng.pick(&[0, 0, 0, 1]);
    let constant = match comparison {
        Comparison::AtLeast => value - slack,
        Comparison::Above => value - 1 - slack,
        Comparison::AtMost => value + slack,
        Comparison::Below => value + 1 + slack,
        Comparison::Equal => value,
    };
    Condition {
        terms,
        comparison,
        constant: constant.clamp(-NUMBER_LIMIT, NUMBER_LIMIT),
    }
}

/// One condition fails by a little, or a proposition that the state lacks is named too.
fn miss(rng: &mut Rng, state: &State, items: &mut Vec<Item>) {
    let at = rng.below(items.len() + 1);
    match items.get_mut(at) {
        Some(Item::Condition(condition)) => {
            let apart = *rng.pick(&[-1, 1]);
            let constant = condition.constant + apart;
            condition.constant = constant.clamp(-NUMBER_LIMIT, NUMBER_LIMIT);
        }
        _ => {
            let lacking = state.propositions.iter().position(|held| !held);
            items.extend(lacking.map(Item::Require));
        }
    }
}
