//! Accepted tables with states, most of them with a plan.

use super::grid::Unused;
use super::rng::Rng;
use super::scale::{random_number, random_state, Scale};
use super::task::Task;
use crate::reference::semantics::{saturate_table, Saturation};
use crate::reference::table::{
    Block, Change, Comparison, Condition, Effect, Item, Kind, Table, Term, MOVE_LIMIT,
    NUMBER_LIMIT, PROPOSITION_LIMIT, TERM_LIMIT, WEIGHT_LIMIT,
};
use crate::reference::{normal_conditions, normal_form, State};

/// A task of any size, with a table of the given kind.
///
/// Conditions ask for what the moves before can reach, so plans have several layers; the
/// moves are mixed afterwards.
pub fn task(rng: &mut Rng, kind: Kind) -> Task {
    let names = random_names(rng, kind);
    let mut maker = Maker::new(rng, kind, names);
    let moves = maker.random_move_count();
    maker.task(moves)
}

/// A task with these counts of propositions, variables and moves; without propositions and variables
/// it has no moves, as none could do anything.
pub fn task_of(rng: &mut Rng, kind: Kind, [propositions, variables, moves]: [usize; 3]) -> Task {
    Maker::new(rng, kind, [propositions, variables]).task(moves)
}

/// Counts of propositions and variables.
fn random_names(rng: &mut Rng, kind: Kind) -> [usize; 2] {
    let limits = [PROPOSITION_LIMIT, kind.variable_limit()];
    let [propositions, variables] = match rng.below(16) {
        0 => limits,
        1..=3 => limits.map(|limit| rng.below(limit + 1)),
        _ => [rng.below(5), rng.below(6)],
    };
    match kind {
        Kind::Written => [propositions, variables],
        Kind::Normal => [propositions, variables / 2 * 2],
    }
}

/// Takes entries away until the table is short enough; a move keeps something that it does.
fn shorten(table: &mut Table) {
    while table.encode().len() > table.kind.length_limit() {
        let longest = table.moves.iter_mut().max_by_key(|m| m.items.len());
        let block = longest.unwrap_or(&mut table.goal);
        let kept = block.items.len() * 3 / 4;
        if let Some(change) = block.items.iter().position(Item::is_change) {
            block.items.swap(0, change);
        }
        block.items.truncate(kept);
    }
}

/// What the entries of one table are made from.
struct Maker<'r> {
    rng: &'r mut Rng,
    kind: Kind,
    propositions: usize,
    variables: usize,
    /// The highest counts of entries of a block.
    density: usize,
    terms: usize,
    /// Terms of weight 0 beside these.
    unused: Unused,
    scale: Scale,
    state: State,
    /// What the moves so far can reach.
    bound: Saturation,
    /// What conditions within reach ask to exceed: the state, or on a ladder what could
    /// be reached before the last move.
    floor: Saturation,
    /// Each move asks for what the one before it brings.
    ladder: bool,
    /// A `:=` reads only variables of lower rank than its own.
    rank: Vec<usize>,
}

impl<'r> Maker<'r> {
    fn new(rng: &'r mut Rng, kind: Kind, [propositions, variables]: [usize; 2]) -> Maker<'r> {
        let values = match kind {
            Kind::Written => variables,
            Kind::Normal => variables / 2,
        };
        let scale = *rng.pick(&[Scale::Small, Scale::Small, Scale::Mixed]);
        let state = random_state(rng, propositions, values, scale);
        let start = Saturation {
            propositions: state.propositions.clone(),
            values: state.signed_values().into_iter().map(Some).collect(),
            goal: false,
        };
        let mut rank: Vec<usize> = (0..variables).collect();
        rng.shuffle(&mut rank);
        Maker {
            kind,
            propositions,
            variables,
            density: *rng.pick(&[2, 2, 3, 3, 4, 20]),
            terms: *rng.pick(&[2, 2, 3, TERM_LIMIT]),
            unused: Unused::new(rng, kind),
            scale,
            bound: start.clone(),
            floor: start,
            ladder: rng.chance(1, 3),
            state,
            rank,
            rng,
        }
    }

    fn task(mut self, moves: usize) -> Task {
        let mut table = self.empty_table();
        let moves = match self.propositions + self.variables {
            0 => 0,
            _ => moves,
        };
        for i in 0..moves {
            table.moves.push(self.random_move());
            if i < 12 || i % 8 == 0 {
                self.reach(&table);
            }
        }
        self.reach(&table);
        self.rng.shuffle(&mut table.moves);
        table.goal = self.random_goal();
        shorten(&mut table);
        Task {
            table: table.encode(),
            state: self.state.encode(),
        }
    }

    /// Takes note of what the moves of a table can reach.
    fn reach(&mut self, table: &Table) {
        let bound = match self.kind {
            Kind::Written => saturate_table(&normal_form(table), &self.state),
            Kind::Normal => saturate_table(table, &self.state),
        };
        let before = std::mem::replace(&mut self.bound, bound);
        if self.ladder && before != self.bound {
            self.floor = before;
        }
    }

    fn random_move_count(&mut self) -> usize {
        match self.rng.below(16) {
            0 => MOVE_LIMIT,
            1..=3 => self.rng.below(MOVE_LIMIT + 1),
            _ => self.rng.below(8),
        }
    }

    fn empty_table(&self) -> Table {
        Table {
            kind: self.kind,
            propositions: self.propositions,
            variables: self.variables,
            moves: Vec::new(),
            goal: Block::default(),
        }
    }

    fn random_move(&mut self) -> Block {
        let mut items = self.random_requirements(1);
        if self.ladder && self.variables > 0 {
            items.push(Item::Condition(self.condition_within_reach()));
        }
        let some = self.rng.below(self.density);
        for p in self.rng.subset(some, self.propositions) {
            items.push(if self.rng.chance(2, 3) {
                Item::Add(p)
            } else {
                Item::Delete(p)
            });
        }
        for _ in 0..self.rng.below(self.density) {
            items.push(Item::Condition(self.random_condition()));
        }
        let some = self.rng.below(self.density + 1);
        for v in self.rng.subset(some, self.variables) {
            items.push(Item::Effect(self.random_effect(v)));
        }
        if !items.iter().any(Item::is_change) {
            items.push(self.random_change());
        }
        self.rng.shuffle(&mut items);
        Block { items }
    }

    /// A change of one proposition or variable.
    fn random_change(&mut self) -> Item {
        let name = self.rng.below(self.propositions + self.variables);
        match name.checked_sub(self.propositions) {
            Some(v) => Item::Effect(self.random_effect(v)),
            None if self.rng.chance(2, 3) => Item::Add(name),
            None => Item::Delete(name),
        }
    }

    /// Propositions to require, nearly all within reach.
    fn random_requirements(&mut self, limit: usize) -> Vec<Item> {
        let wanted = self.rng.below(limit + 1);
        let mut within: Vec<usize> = (0..self.propositions)
            .filter(|p| self.bound.propositions[*p] || self.rng.chance(1, 60))
            .collect();
        self.rng.shuffle(&mut within);
        within.sort_by_key(|p| self.floor.propositions[*p]);
        within.into_iter().take(wanted).map(Item::Require).collect()
    }

    fn random_condition(&mut self) -> Condition {
        if self.rng.chance(1, 2) {
            self.condition_within_reach()
        } else {
            self.condition_near_start()
        }
    }

    /// A condition that often holds in the state, or nearly so.
    fn condition_near_start(&mut self) -> Condition {
        let variables: Vec<usize> = (0..self.variables).collect();
        let terms = self.random_terms(&variables);
        let value = self.value_at_start(&terms);
        let comparison = self.random_comparison();
        let slack = match self.rng.below(8) {
            0 => random_number(self.rng, self.scale),
            1 | 2 => -self.rng.between(1, 9),
            _ => self.rng.between(0, 9),
        };
        let constant = match comparison {
            Comparison::AtLeast | Comparison::Above => value - slack,
            Comparison::AtMost | Comparison::Below => value + slack,
            Comparison::Equal => value + i128::from(self.rng.chance(1, 2)),
        };
        self.condition(terms, comparison, constant)
    }

    fn condition(&self, terms: Vec<Term>, comparison: Comparison, constant: i128) -> Condition {
        let highest = match self.kind {
            Kind::Written => NUMBER_LIMIT,
            Kind::Normal => NUMBER_LIMIT + 1,
        };
        Condition {
            terms,
            comparison,
            constant: constant.clamp(-NUMBER_LIMIT, highest),
        }
    }

    fn random_comparison(&mut self) -> Comparison {
        match self.kind {
            Kind::Written => *self.rng.pick(&Comparison::ALL),
            Kind::Normal => Comparison::AtLeast,
        }
    }

    fn random_effect(&mut self, variable: usize) -> Effect {
        let change = match self.kind {
            Kind::Written => *self.rng.pick(&Change::ALL),
            Kind::Normal => *self.rng.pick(&[Change::Assign, Change::Increase]),
        };
        let readable: Vec<usize> = match change {
            Change::Assign => (0..self.variables)
                .filter(|u| self.rank[*u] < self.rank[variable])
                .collect(),
            _ => (0..self.variables).collect(),
        };
        Effect {
            terms: self.random_terms(&readable),
            change,
            variable,
            constant: random_number(self.rng, self.scale),
        }
    }

    fn random_terms(&mut self, variables: &[usize]) -> Vec<Term> {
        let count = self.rng.below(self.terms + 1);
        let chosen = self.rng.subset(count, variables.len()).into_iter();
        let term = |i: usize| Term {
            variable: variables[i],
            weight: self.random_weight(),
        };
        let mut terms = chosen.map(term).collect();
        self.unused.fill(self.variables, &mut terms);
        terms
    }

    fn random_weight(&mut self) -> i128 {
        let size = match (self.scale, self.rng.below(8)) {
            (Scale::Mixed, 0) => WEIGHT_LIMIT,
            (Scale::Mixed, 1) => self.rng.between(1, WEIGHT_LIMIT),
            (_, 2..=5) => 1,
            _ => self.rng.between(1, 4),
        };
        let negative = self.kind == Kind::Written && self.rng.chance(2, 5);
        if negative {
            -size
        } else {
            size
        }
    }

    fn value_at_start(&self, terms: &[Term]) -> i128 {
        let values = match self.kind {
            Kind::Written => self.state.values.clone(),
            Kind::Normal => self.state.signed_values(),
        };
        terms.iter().map(|t| t.weight * values[t.variable]).sum()
    }

    /// A goal that can mostly be reached, but not at the start.
    fn random_goal(&mut self) -> Block {
        let mut items = self.random_requirements(3);
        for _ in 0..self.rng.below(4).max(self.variables.min(1)) {
            items.push(Item::Condition(self.condition_within_reach()));
        }
        self.rng.shuffle(&mut items);
        Block { items }
    }

    /// A condition that the moves so far can make true, mostly.
    fn condition_within_reach(&mut self) -> Condition {
        let (mut terms, mut comparison) = self.random_sum();
        for _ in 0..6 {
            if self.can_rise(&terms, comparison) {
                break;
            }
            (terms, comparison) = self.random_sum();
        }
        let (floor, most) = self.reachable(&terms, comparison);
        let value = self.value_between(floor.unwrap_or(0), most);
        let constant = match comparison {
            Comparison::AtLeast | Comparison::Equal => value,
            Comparison::Above => value - 1,
            Comparison::AtMost => -value,
            Comparison::Below => 1 - value,
        };
        self.condition(terms, comparison, constant)
    }

    fn random_sum(&mut self) -> (Vec<Term>, Comparison) {
        let variables: Vec<usize> = (0..self.variables).collect();
        (self.random_terms(&variables), self.random_comparison())
    }

    /// Whether the moves so far raise a sum above its floor.
    fn can_rise(&self, terms: &[Term], comparison: Comparison) -> bool {
        match self.reachable(terms, comparison) {
            (None, _) => false,
            (Some(_), None) => true,
            (Some(floor), Some(most)) => most > floor,
        }
    }

    /// The floor and the largest value of the sum that a comparison wants large.
    fn reachable(&self, terms: &[Term], comparison: Comparison) -> (Option<i128>, Option<i128>) {
        let condition = self.condition(terms.to_vec(), comparison, 0);
        let sum = match self.kind {
            Kind::Written => normal_conditions(&condition).swap_remove(0).terms,
            Kind::Normal => condition.terms,
        };
        (self.floor.largest(&sum, 0), self.bound.largest(&sum, 0))
    }

    /// A value above the floor and at most the largest, nearly always.
    fn value_between(&mut self, floor: i128, most: Option<i128>) -> i128 {
        if self.rng.chance(1, 40) {
            return random_number(self.rng, self.scale);
        }
        let far = match self.rng.below(4) {
            0 => 2_000_000,
            1 => 2_000,
            _ => 12,
        };
        match most {
            None => floor + self.rng.between(1, far),
            Some(most) if most > floor => self.rng.between((floor + 1).max(most - far), most),
            Some(most) => most - self.rng.between(0, 3),
        }
    }
}
