//! More moves for a table, which help with what is wanted at layer 1 or nearly do.

use super::rng::Rng;
use super::task::{in_normal_form, Task};
use super::tuned::terms_of;
use crate::reference::table::{
    Block, Change, Comparison, Condition, Effect, Item, Kind, Table, Term, MOVE_LIMIT,
    NUMBER_LIMIT, PROPOSITION_LIMIT, TERM_LIMIT, WEIGHT_LIMIT,
};
use crate::reference::{decide, parse_table, parse_task, State};
use crate::room;
use crate::walk::{walked, Walk};

/// The task with such moves anywhere among its own, a few or as many as there is room for, half of the
/// time with a goal some layers further, and half of the time with more variables, of large values. A
/// task without a plan, or one that would be refused so, comes back as it is.
pub fn helpful(rng: &mut Rng, task: &Task) -> Task {
    let Ok((mut table, mut state)) = parse_task(&task.table, &task.state) else {
        return task.clone();
    };
    if rng.chance(1, 2) {
        put_ladder(rng, &mut table, &mut state);
    }
    if rng.chance(1, 2) {
        put_large_values(rng, &mut table, &mut state);
    }
    let state = state.encode();
    let Some(moves) = more_moves(rng, &table, &state) else {
        return task.clone();
    };
    put_moves(rng, &mut table, moves);
    let table = table.encode();
    match parse_table(&table) {
        Ok(_) => Task { table, state },
        Err(_) => task.clone(),
    }
}

/// Two more propositions or three, each of which a move adds where the one before it is true; the goal
/// needs the last.
fn put_ladder(rng: &mut Rng, table: &mut Table, state: &mut State) {
    let first = table.propositions;
    let end = first + 2 + rng.below(2);
    if end > PROPOSITION_LIMIT || table.moves.len() + end - first > MOVE_LIMIT {
        return;
    }
    table.propositions = end;
    state.propositions.resize(end, false);
    let needs = |p| (p > first).then(|| Item::Require(p - 1));
    let steps = (first..end).map(|p| Block {
        items: needs(p).into_iter().chain([Item::Add(p)]).collect(),
    });
    put_moves(rng, table, steps.collect());
    table.goal.items.push(Item::Require(end - 1));
}

/// Four to eight more variables with the largest values and the lowest.
fn put_large_values(rng: &mut Rng, table: &mut Table, state: &mut State) {
    let more = 4 + rng.below(5);
    let variables = table.variables
        + match table.kind {
            Kind::Written => more,
            Kind::Normal => 2 * more,
        };
    if variables <= table.kind.variable_limit() {
        table.variables = variables;
        let values = (0..more).map(|_| *rng.pick(&[NUMBER_LIMIT, -NUMBER_LIMIT]));
        state.values.extend(values);
    }
}

fn put_moves(rng: &mut Rng, table: &mut Table, moves: Vec<Block>) {
    for block in moves {
        let at = rng.below(table.moves.len() + 1);
        table.moves.insert(at, block);
    }
}

/// Such moves by the way down the task's plan; none without a plan.
fn more_moves(rng: &mut Rng, table: &Table, state: &[u8]) -> Option<Vec<Block>> {
    let normal = in_normal_form(table.clone());
    let mut numbers = vec![0; room::layer_numbers(normal.counts())];
    let answer = decide(&normal.encode(), state, &mut numbers).ok()?.answer;
    walked(&normal, &numbers, answer, |walk| {
        moves_for(rng, table, walk)
    })
}

/// As many moves as there is room for, or fewer.
fn moves_for(rng: &mut Rng, table: &Table, walk: &Walk) -> Vec<Block> {
    let free = MOVE_LIMIT - table.moves.len();
    let count = match rng.below(16) {
        0 => free,
        _ => free.min(1 + rng.below(5)),
    };
    let mut blocks: Vec<Block> = (0..count)
        .map(|_| Helper::new(rng, table.kind, walk).block(table))
        .filter(|block| !block.is_idle())
        .collect();
    if rng.chance(1, 2) {
        blocks.splice(..0, late_growth(rng, table.kind, walk));
    }
    blocks.splice(..0, Helper::new(rng, table.kind, walk).large_block());
    blocks.truncate(free);
    blocks
}

/// Moves that set a variable of the goal to several values, and one that lets it grow from layer 1
/// on: its target there is then below its value.
fn late_growth(rng: &mut Rng, kind: Kind, walk: &Walk) -> Vec<Block> {
    let goal = walk.wanted.last().filter(|_| walk.taken.len() > 1);
    let finite = |(v, target): (&usize, &i128)| {
        let [start, next] = [0, 1].map(|layer| walk.value(*v, layer));
        (start < *target && next != i64::MAX.into()).then_some((*v, *target))
    };
    let targets = goal.into_iter().flat_map(|wants| &wants.targets);
    let targets: Vec<(usize, i128)> = targets.filter_map(finite).collect();
    if targets.is_empty() {
        return Vec::new();
    }
    let (variable, target) = *rng.pick(&targets);
    let mut block = |change, value| {
        let mut helper = Helper::new(rng, kind, walk);
        let effect = helper.effect(change, variable, value);
        helper.put(effect);
        if change == Change::Increase {
            let condition = helper.late_condition();
            helper.put(condition);
        }
        Block {
            items: helper.items,
        }
    };
    let blocks = vec![
        block(Change::Assign, target),
        block(Change::Assign, target + 1),
        block(Change::Increase, 1),
    ];
    blocks
        .into_iter()
        .filter(|block| !block.is_idle())
        .collect()
}

/// Something that is wanted.
#[derive(Clone, Copy)]
enum Want {
    Proposition(usize),
    /// A signed variable and its target.
    Target(usize, i128),
}

/// What one move is made from.
struct Helper<'h, 'w> {
    rng: &'h mut Rng,
    kind: Kind,
    walk: &'h Walk<'w>,
    items: Vec<Item>,
}

impl<'h, 'w> Helper<'h, 'w> {
    fn new(rng: &'h mut Rng, kind: Kind, walk: &'h Walk<'w>) -> Helper<'h, 'w> {
        Helper {
            rng,
            kind,
            walk,
            items: Vec::new(),
        }
    }

    /// A move with one change or two, and now and then with a condition; or a copy of another one.
    fn block(mut self, table: &Table) -> Block {
        if !table.moves.is_empty() && self.rng.chance(1, 8) {
            return self.rng.pick(&table.moves).clone();
        }
        for _ in 0..1 + self.rng.below(2) {
            let item = self.change();
            self.put(item);
        }
        if self.rng.chance(1, 3) {
            let item = self.condition();
            self.put(item);
        }
        self.rng.shuffle(&mut self.items);
        Block { items: self.items }
    }

    /// Adds an item, unless the move already names its proposition or variable so.
    fn put(&mut self, item: Option<Item>) {
        let name = |item: &Item| match item {
            Item::Require(p) => Some((0, *p)),
            Item::Add(p) | Item::Delete(p) => Some((1, *p)),
            Item::Effect(effect) => Some((2, effect.variable)),
            Item::Condition(_) => None,
        };
        let Some(item) = item else { return };
        let named = name(&item).is_some() && self.items.iter().any(|i| name(i) == name(&item));
        if !named {
            self.items.push(item);
        }
    }

    /// Something wanted at layer 1, mostly; or at another layer, or anything.
    fn want(&mut self) -> Option<Want> {
        let layer = match self.rng.chance(1, 6) {
            true => self.rng.below(self.walk.wanted.len()),
            false => 1.min(self.walk.wanted.len() - 1),
        };
        let wants = &self.walk.wanted[layer];
        let propositions = wants.propositions.iter().map(|p| Want::Proposition(*p));
        let targets = wants.targets.iter().map(|(v, t)| Want::Target(*v, *t));
        let all: Vec<Want> = propositions.chain(targets).collect();
        (!all.is_empty()).then(|| *self.rng.pick(&all))
    }

    /// What brings that about, or nearly does.
    fn change(&mut self) -> Option<Item> {
        match self.want()? {
            Want::Proposition(p) if self.rng.chance(1, 12) => Some(Item::Delete(p)),
            Want::Proposition(p) => Some(Item::Add(p)),
            Want::Target(v, _) if self.has_large_values() && self.rng.chance(1, 2) => {
                Some(self.large_effect(v))
            }
            Want::Target(v, target) if self.rng.chance(1, 2) => {
                let value = match self.rng.below(6) {
                    0 => target - 1,
                    1 => target + self.rng.between(1, 3),
                    2 => self.rng.between(0, 2),
                    _ => target,
                };
                self.effect(Change::Assign, v, value)
            }
            Want::Target(v, _) => {
                let value = *self.rng.pick(&[0, 0, 0, 1, 1, -1, 2, -2]);
                self.effect(Change::Increase, v, value)
            }
        }
    }

    /// An effect on a signed variable with this value in layer 0, if a constant in range gives it.
    fn effect(&mut self, change: Change, signed: usize, value: i128) -> Option<Item> {
        let (variable, mut value) = match (self.kind, signed % 2) {
            (Kind::Normal, _) => (signed, value),
            (Kind::Written, 0) => (signed / 2, value),
            (Kind::Written, _) => (signed / 2, -value),
        };
        let falls = self.kind == Kind::Written && change == Change::Increase;
        let change = match falls && self.rng.chance(1, 2) {
            true => Change::Decrease,
            false => change,
        };
        if change == Change::Decrease {
            value = -value;
        }
        let one_of = if change == Change::Assign { 6 } else { 2 };
        let terms = match self.rng.chance(1, one_of) {
            true => self.term(),
            false => Vec::new(),
        };
        let constant = value - self.sum(&terms);
        let in_range = constant.abs() <= NUMBER_LIMIT;
        in_range.then_some(Item::Effect(Effect {
            terms,
            change,
            variable,
            constant,
        }))
    }

    fn has_large_values(&self) -> bool {
        let last = self.walk.table.variables - 1;
        self.walk.value(last, 0).abs() == NUMBER_LIMIT
    }

    /// A move with a large effect on a variable that is to be larger, if there are large values.
    fn large_block(mut self) -> Option<Block> {
        let wants = self.walk.wanted.get(1)?;
        let missed = |(v, target): &(&usize, &i128)| self.walk.value(**v, 0) < **target;
        let missed = wants.targets.iter().filter(missed);
        let missed: Vec<usize> = missed.map(|(v, _)| *v).collect();
        if missed.is_empty() || !self.has_large_values() {
            return None;
        }
        let signed = *self.rng.pick(&missed);
        let items = vec![self.large_effect(signed)];
        Some(Block { items })
    }

    /// An effect on a signed variable with a value in layer 0 that is as far above 0 as can be, or
    /// now and then as far below it.
    fn large_effect(&mut self, signed: usize) -> Item {
        let change = *self
            .rng
            .pick(&[Change::Increase, Change::Increase, Change::Assign]);
        let names = self.rng.subset(TERM_LIMIT, self.walk.table.variables / 2);
        let falls = usize::from(self.rng.chance(1, 4));
        let upwards = |i: &usize| usize::from(self.walk.value(2 * i, 0) < 0) ^ falls;
        let (variable, terms): (usize, Vec<_>) = match self.kind {
            Kind::Normal => {
                let term = |i: usize| (2 * i + upwards(&i), WEIGHT_LIMIT);
                (signed, names.into_iter().map(term).collect())
            }
            Kind::Written => {
                let sign = |i: &usize| [1, -1][upwards(i) ^ (signed % 2)];
                let term = |i: usize| (i, sign(&i) * WEIGHT_LIMIT);
                (signed / 2, names.into_iter().map(term).collect())
            }
        };
        Item::Effect(Effect {
            terms: terms_of(&terms),
            change,
            variable,
            constant: 0,
        })
    }

    /// A term of a variable, which often rises in the first layers.
    fn term(&mut self) -> Vec<Term> {
        let layers = &self.walk.memory.layers;
        let rising = |v: &usize| layers.last().is_some_and(|last| last[*v] > layers[0][*v]);
        let all: Vec<usize> = (0..self.walk.table.variables).collect();
        let some: Vec<usize> = all.iter().copied().filter(rising).collect();
        let from = match some.is_empty() || self.rng.chance(1, 4) {
            true => &all,
            false => &some,
        };
        let signed = *self.rng.pick(from);
        let weight = *self.rng.pick(&[1, 1, 2, 3]);
        vec![match self.kind {
            Kind::Normal => Term {
                variable: signed,
                weight,
            },
            Kind::Written => Term {
                variable: signed / 2,
                weight: [weight, -weight][signed % 2],
            },
        }]
    }

    /// The terms added up in the state.
    fn sum(&self, terms: &[Term]) -> i128 {
        let signed = |variable| match self.kind {
            Kind::Normal => variable,
            Kind::Written => 2 * variable,
        };
        let value = |term: &Term| term.weight * self.walk.value(signed(term.variable), 0);
        terms.iter().map(value).sum()
    }

    /// A condition that layer 0 just meets, or just does not.
    fn condition(&mut self) -> Option<Item> {
        let names = self.walk.table.propositions;
        let variables = self.walk.table.variables;
        if variables == 0 || names > 0 && self.rng.chance(1, 2) {
            return (names > 0).then(|| Item::Require(self.rng.below(names)));
        }
        let signed = self.rng.below(variables);
        let more = i128::from(self.rng.chance(2, 3));
        self.at_least(signed, self.walk.value(signed, 0) + more)
    }

    /// A condition that layer 1 meets and layer 0 does not, if there is one.
    fn late_condition(&mut self) -> Option<Item> {
        let memory = self.walk.memory;
        let late = (0..)
            .zip(memory.propositions)
            .filter(|(_, entry)| **entry == 1);
        let late: Vec<usize> = late.map(|(p, _)| p).collect();
        let raised = |v: &usize| memory.layers[1][*v] > memory.layers[0][*v];
        let raised: Vec<usize> = (0..self.walk.table.variables).filter(raised).collect();
        match late.is_empty() || !raised.is_empty() && self.rng.chance(1, 2) {
            true if raised.is_empty() => None,
            true => {
                let signed = *self.rng.pick(&raised);
                self.at_least(signed, self.walk.value(signed, 0) + 1)
            }
            false => Some(Item::Require(*self.rng.pick(&late))),
        }
    }

    /// A signed variable is to have at least this value, if such a constant is in range.
    fn at_least(&self, signed: usize, least: i128) -> Option<Item> {
        let (variable, comparison, constant) = match (self.kind, signed % 2) {
            (Kind::Normal, _) => (signed, Comparison::AtLeast, least),
            (Kind::Written, 0) => (signed / 2, Comparison::Above, least - 1),
            (Kind::Written, _) => (signed / 2, Comparison::AtMost, -least),
        };
        let weight = 1;
        let in_range = constant.abs() <= NUMBER_LIMIT;
        in_range.then_some(Item::Condition(Condition {
            terms: vec![Term { variable, weight }],
            comparison,
            constant,
        }))
    }
}
