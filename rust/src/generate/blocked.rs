//! Goals that mostly cannot be reached, with parts that can be reached beside those that cannot.

use super::rng::Rng;
use super::task::Task;
use crate::reference::parse_task;
use crate::reference::semantics::{saturate_table, Saturation};
use crate::reference::table::{
    Block, Change, Comparison, Condition, Effect, Item, Kind, Table, Term, NUMBER_LIMIT,
    TERM_LIMIT, WEIGHT_LIMIT,
};
use crate::reference::State;

/// The most parts of such a goal.
const PARTS: usize = 7;

/// The task of a normal table with another goal: parts that the last layer just meets, parts that
/// it just misses, and sums with unbounded terms, in any order. Another task comes back as it is.
pub fn blocked(rng: &mut Rng, task: &Task) -> Task {
    let Ok((mut table, state)) = parse_task(&task.table, &task.state) else {
        return task.clone();
    };
    if table.kind != Kind::Normal {
        return task.clone();
    }
    let bound = saturate_table(&table, &state);
    table.goal = Goal::new(rng, &bound, &state).block();
    let changed = Task {
        table: table.encode(),
        state: task.state.clone(),
    };
    match changed.table.len() <= Kind::Normal.length_limit() {
        true => changed,
        false => task.clone(),
    }
}

/// What the parts of a goal are made from.
struct Goal<'r> {
    rng: &'r mut Rng,
    bound: &'r Saturation,
    /// Propositions that no part names yet: those within reach, and the others.
    reached: Vec<usize>,
    missed: Vec<usize>,
    finite: Vec<usize>,
    unbounded: Vec<usize>,
    /// Finite variables that the moves raise.
    raised: Vec<usize>,
}

impl<'r> Goal<'r> {
    fn new(rng: &'r mut Rng, bound: &'r Saturation, state: &State) -> Goal<'r> {
        let mut names: Vec<usize> = (0..bound.propositions.len()).collect();
        rng.shuffle(&mut names);
        names.sort_by_key(|p| !state.propositions[*p]);
        let (reached, missed) = names.into_iter().partition(|p| bound.propositions[*p]);
        let variables = 0..bound.values.len();
        let (finite, unbounded): (Vec<_>, _) = variables.partition(|v| bound.values[*v].is_some());
        let start = state.signed_values();
        let raised = |v: &usize| bound.values[*v] > Some(start[*v]);
        Goal {
            raised: finite.iter().copied().filter(raised).collect(),
            rng,
            bound,
            reached,
            missed,
            finite,
            unbounded,
        }
    }

    /// Now and then without a part that is out of reach.
    fn block(mut self) -> Block {
        let missed = *self.rng.pick(&[0, 2, 2, 3, 3]);
        let mut items = Vec::new();
        for _ in 0..self.rng.below(PARTS + 1).max(self.rng.below(PARTS + 1)) {
            match self.rng.chance(1, 8) {
                true => items.extend(self.halves().into_iter().flatten().map(Item::Condition)),
                false => {
                    let met = !self.rng.chance(missed, 6);
                    items.push(self.part(met));
                }
            }
        }
        Block { items }
    }

    /// The two parts of an =, of which the bound mostly misses the second only; none if no
    /// constant in range does that.
    fn halves(&mut self) -> Option<[Condition; 2]> {
        let variables: Vec<usize> = (0..self.bound.values.len()).collect();
        let one = self.one_of(&variables);
        let sum = self.terms(&variables, one);
        let mut mirrored = sum.clone();
        mirrored.iter_mut().for_each(|term| term.variable ^= 1);
        mirrored.sort_by_key(|term| term.variable);
        let most = self.bound.largest(&mirrored, 0).unwrap_or(0);
        let constant = most + i128::from(!self.rng.chance(1, 4));
        let within = (-NUMBER_LIMIT..=NUMBER_LIMIT).contains(&constant);
        within.then(|| [at_least(sum, -constant), at_least(mirrored, constant)])
    }

    fn part(&mut self, met: bool) -> Item {
        let names = match met {
            true => &mut self.reached,
            false => &mut self.missed,
        };
        if self.rng.chance(1, 3) {
            if let Some(p) = names.pop() {
                return Item::Require(p);
            }
        }
        let condition = match met && self.rng.chance(1, 2) {
            true => self.unbounded_sum(),
            false => (0..4).find_map(|_| self.finite_sum(met)),
        };
        Item::Condition(condition.unwrap_or_else(|| at_least(Vec::new(), i128::from(!met))))
    }

    /// Some of these variables, rising, with one more if there is one; at most eight.
    fn terms(&mut self, from: &[usize], one: Option<usize>) -> Vec<Term> {
        let count = match self.rng.chance(1, 3) {
            true => self.rng.below(TERM_LIMIT + 1),
            false => *self.rng.pick(&[0, 1, 1, 2, 2, 3, 4]),
        };
        let chosen = self.rng.subset(count, from.len()).into_iter();
        let mut names: Vec<usize> = chosen.map(|i| from[i]).collect();
        if let Some(one) = one {
            names.truncate(TERM_LIMIT - 1);
            names.push(one);
        }
        names.sort_unstable();
        names.dedup();
        let weigh = |variable| Term {
            variable,
            weight: match self.rng.below(4) {
                0 => self.rng.between(1, WEIGHT_LIMIT),
                1 => *self.rng.pick(&[2, 3, WEIGHT_LIMIT]),
                _ => 1,
            },
        };
        names.into_iter().map(weigh).collect()
    }

    fn one_of(&mut self, from: &[usize]) -> Option<usize> {
        (!from.is_empty()).then(|| *self.rng.pick(from))
    }

    /// A sum that the bound just meets, or just misses; none if no constant in range does that.
    fn finite_sum(&mut self, met: bool) -> Option<Condition> {
        let (finite, raised) = (self.finite.clone(), self.raised.clone());
        let one = match self.rng.chance(2, 3) {
            true => self.one_of(&raised),
            false => None,
        };
        let terms = self.terms(&finite, one);
        let most = self.bound.largest(&terms, 0).expect("all are finite");
        let slack = *self.rng.pick(&[0, 0, 0, 1, 2, 1_000]);
        let constant = match met {
            true => most - slack,
            false => most + 1 + slack,
        };
        let constant = constant.clamp(-NUMBER_LIMIT, NUMBER_LIMIT + 1);
        ((most >= constant) == met).then_some(at_least(terms, constant))
    }

    /// A sum with an unbounded term, for a constant that is mostly high.
    fn unbounded_sum(&mut self) -> Option<Condition> {
        let (finite, unbounded) = (self.finite.clone(), self.unbounded.clone());
        let one = self.one_of(&unbounded)?;
        let from: Vec<usize> = match self.rng.chance(1, 3) {
            true => unbounded,
            false => finite,
        };
        let terms = self.terms(&from, Some(one));
        let limits = [-NUMBER_LIMIT, 0, 1, NUMBER_LIMIT, NUMBER_LIMIT + 1];
        Some(at_least(terms, *self.rng.pick(&limits)))
    }
}

/// A normal table of exactly `length` bytes, at least 50, nearly all of them in its goal: parts that
/// are met, those with an unbounded term not before layer 1, then two that are not.
pub fn long_goal(rng: &mut Rng, length: usize) -> Task {
    let grows = Item::Effect(Effect {
        terms: Vec::new(),
        change: Change::Increase,
        variable: 0,
        constant: 1,
    });
    let mut moves = vec![vec![grows]];
    if length % 2 == 1 {
        moves.push(vec![Item::Add(0)]);
    }
    let unmet = Term {
        variable: 1,
        weight: 1,
    };
    let mut table = Table {
        kind: Kind::Normal,
        propositions: 2,
        variables: Kind::Normal.variable_limit(),
        moves: moves.into_iter().map(|items| Block { items }).collect(),
        goal: Block {
            items: [vec![unmet], Vec::new()]
                .map(|terms| Item::Condition(at_least(terms, 1)))
                .into(),
        },
    };
    let met = met_parts(rng, length - table.encode().len());
    table.goal.items.splice(..0, met);
    let mut state = vec![1; table.propositions];
    state.resize(table.state_length(), 0);
    Task {
        table: table.encode(),
        state,
    }
}

/// Parts of an even number of bytes in all, which hold where variable 0 is above 0 and the others
/// are 0.
fn met_parts(rng: &mut Rng, bytes: usize) -> Vec<Item> {
    let (mut left, mut items) = (bytes, Vec::new());
    while left >= 6 {
        let count = rng.below(TERM_LIMIT + 1).min((left - 6) / 4);
        let names = rng.subset(count, Kind::Normal.variable_limit());
        let constant = i128::from(names.first() == Some(&0));
        let term = |variable| Term {
            variable,
            weight: rng.between(1, WEIGHT_LIMIT),
        };
        let terms = names.into_iter().map(term).collect();
        items.push(Item::Condition(at_least(terms, constant)));
        left -= 6 + 4 * count;
    }
    items.extend((0..left / 2).map(Item::Require));
    items
}

fn at_least(terms: Vec<Term>, constant: i128) -> Condition {
    Condition {
        terms,
        comparison: Comparison::AtLeast,
        constant,
    }
}
