//! One more move, which shows what is wanted at layer 1 and lacking.

use super::{each_case, has, parsed_tasks, passes, planned_with, set_of, Case};
use campaign::answer::Plan;
use campaign::reference::table::{Block, Change, Effect, Item, Table, NUMBER_LIMIT};

/// What a variable that grows without bound has in memory.
const UNBOUNDED: i128 = i64::MAX as i128;

impl Case<'_> {
    /// Whether a move with this change alone is helpful behind all others. It brings nothing that
    /// layer 1 does not have, so all else stays.
    fn helps(&self, change: Item) -> bool {
        let mut moves = self.table.moves.clone();
        let last = moves.len();
        let items = vec![change];
        moves.push(Block { items });
        let is = planned_with(self.engine, self.task, self.table, &moves);
        let is = is.expect("the same layers");
        let helps = has(is.plan.first, last);
        let plan = Plan {
            first: is.plan.first & !(1 << last),
            ..is.plan
        };
        assert_eq!(plan, self.was.plan, "{}", self.task);
        assert_eq!(is.records, self.was.records, "{}", self.task);
        helps
    }

    fn value_helps(&self, variable: usize, change: Change, constant: i128) -> bool {
        self.helps(Item::Effect(Effect {
            terms: Vec::new(),
            change,
            variable,
            constant,
        }))
    }

    /// The value of a variable in a layer.
    fn value(&self, variable: usize, layer: usize) -> i128 {
        let entries = self.table.propositions + self.table.moves.len();
        let place = entries + layer * self.table.variables + variable;
        self.was.memory[place].into()
    }

    /// The least value that helps, above that of layer 0 and up to that of layer 1; none if none
    /// does. An error if it cannot be told with a constant in range.
    fn target(&self, variable: usize) -> Result<Option<i128>, ()> {
        let [mut below, highest] = [0, 1].map(|layer| self.value(variable, layer));
        let (unbounded, mut above) = (highest == UNBOUNDED, highest.min(NUMBER_LIMIT));
        let grows = unbounded && self.value_helps(variable, Change::Increase, 1);
        if !unbounded && highest > NUMBER_LIMIT {
            return Err(());
        }
        match self.value_helps(variable, Change::Assign, above) {
            false if grows => return Err(()),
            false => return Ok(None),
            true => assert_eq!(grows, unbounded, "{}", self.task),
        }
        while above - below > 1 {
            let middle = below + (above - below) / 2;
            match self.value_helps(variable, Change::Assign, middle) {
                true => above = middle,
                false => below = middle,
            }
        }
        Ok(Some(above))
    }

    /// The set that follows from what single changes help with.
    fn set(&self) -> Result<u64, ()> {
        let entries = self.was.memory.iter().take(self.table.propositions);
        let wanted: Vec<bool> = (0..)
            .zip(entries)
            .map(|(p, entry)| (0..=1).contains(entry) && self.helps(Item::Add(p)))
            .collect();
        let targets: Result<Vec<Option<i128>>, ()> =
            (0..self.table.variables).map(|v| self.target(v)).collect();
        let targets = targets?;
        let start: Vec<i128> = (0..targets.len()).map(|v| self.value(v, 0)).collect();
        let reaches = |effect: &Effect| {
            let target = targets[effect.variable];
            target.is_some_and(|target| passes(effect, &start, target))
        };
        let helps =
            |block: &Block| block.added().any(|p| wanted[p]) || block.effects().any(reaches);
        let used = &self.was.memory[self.table.propositions..];
        let is_in = |b: usize, block: &Block| used[b] == 0 && helps(block);
        Ok(set_of(&self.table.moves, is_in))
    }
}

/// One more move shows for each proposition and each value whether it is wanted at layer 1 and lacking.
/// The set is made up of the moves that bring these.
#[test]
fn single_changes_tell_the_set() {
    let (mut found, mut deep) = (0, 0);
    let small = |table: &Table| table.moves.len() < 20 && table.variables < 13;
    let tasks = parsed_tasks(89, 900).filter(|(_, table, _)| small(table));
    each_case(tasks, |case| {
        if let Ok(set) = case.set() {
            assert_eq!(case.was.plan.first, set, "{}", case.task);
            found += 1;
            deep += usize::from(case.was.plan.layers > 1);
        }
    });
    assert!(found > 600 && deep > 300, "{found} {deep}");
}
