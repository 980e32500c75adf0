//! What a written table and a state mean, printed as in the recorded outcomes.

use campaign::generate::Task;
use campaign::reference::parse_task;
use campaign::reference::table::{Block, Change, Comparison, Item, Term};

/// The meaning of an accepted task.
pub fn meaning_of(task: &Task) -> String {
    let (table, state) = parse_task(&task.table, &task.state).expect("the task is accepted");
    let mut parts = vec![String::from("state")];
    for (p, truth) in state.propositions.iter().enumerate() {
        parts.push(format!("p{p}={}", u8::from(*truth)));
    }
    for (v, value) in state.values.iter().enumerate() {
        parts.push(format!("v{v}={value}"));
    }
    if parts.len() == 1 {
        parts.push("-".into());
    }
    for (a, block) in table.moves.iter().enumerate() {
        let [conditions, effects] = halves(block);
        parts.push(format!("| a{a} [{conditions}] => [{effects}]"));
    }
    let [conditions, _] = halves(&table.goal);
    parts.push(format!("| goal [{conditions}]"));
    parts.join(" ")
}

/// A block's conditions and its effects.
fn halves(block: &Block) -> [String; 2] {
    let mut halves = [Vec::new(), Vec::new()];
    for item in &block.items {
        let (half, text) = printed(item);
        halves[half].push(text);
    }
    halves.map(|half| half.join("; "))
}

/// An entry of a block, and whether it is a condition (0) or an effect (1).
fn printed(item: &Item) -> (usize, String) {
    match item {
        Item::Require(p) => (0, format!("p{p}")),
        Item::Add(p) => (1, format!("add p{p}")),
        Item::Delete(p) => (1, format!("delete p{p}")),
        Item::Condition(condition) => {
            let sign = sign(condition.comparison);
            let mut sum = weighted(&condition.terms);
            if sum.is_empty() {
                sum.push("0".into());
            }
            (
                0,
                format!("{} {sign} {}", sum.join(" + "), condition.constant),
            )
        }
        Item::Effect(effect) => {
            let mut sum = weighted(&effect.terms);
            sum.push(effect.constant.to_string());
            let change = match effect.change {
                Change::Assign => ":=",
                Change::Increase => "+=",
                Change::Decrease => "-=",
            };
            (
                1,
                format!("v{} {change} {}", effect.variable, sum.join(" + ")),
            )
        }
    }
}

fn sign(comparison: Comparison) -> &'static str {
    match comparison {
        Comparison::AtLeast => ">=",
        Comparison::Above => ">",
        Comparison::AtMost => "<=",
        Comparison::Below => "<",
        Comparison::Equal => "=",
    }
}

fn weighted(terms: &[Term]) -> Vec<String> {
    let term = |term: &Term| format!("{}*v{}", term.weight, term.variable);
    terms.iter().map(term).collect()
}
