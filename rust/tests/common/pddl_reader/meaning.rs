//! What a text means: a state, moves and a goal; printed as in the recorded outcomes.

use std::fmt::{self, Display};

/// Terms, each a weight and a variable, and a constant behind them.
#[derive(Clone, Debug, PartialEq, Eq)]
pub struct Sum {
    pub terms: Vec<(i64, usize)>,
    pub constant: i64,
}

#[derive(Clone, Debug, PartialEq, Eq)]
pub enum Condition {
    Proposition(usize),
    Comparison {
        terms: Vec<(i64, usize)>,
        comparison: &'static str,
        constant: i64,
    },
}

#[derive(Clone, Debug, PartialEq, Eq)]
pub enum Effect {
    Add(usize),
    Delete(usize),
    Change {
        variable: usize,
        change: &'static str,
        value: Sum,
    },
}

#[derive(Clone, Debug, PartialEq, Eq)]
pub struct Action {
    pub conditions: Vec<Condition>,
    pub effects: Vec<Effect>,
}

#[derive(Clone, Debug, PartialEq, Eq)]
pub struct Meaning {
    pub propositions: Vec<bool>,
    pub values: Vec<i64>,
    pub actions: Vec<Action>,
    pub goal: Vec<Condition>,
}

/// Elements in their order, with a separator between them.
fn joined<E: Display>(elements: impl IntoIterator<Item = E>, separator: &str) -> String {
    let texts: Vec<String> = elements.into_iter().map(|e| e.to_string()).collect();
    texts.join(separator)
}

/// The terms, `0` for none.
fn sum_of(terms: &[(i64, usize)]) -> String {
    match terms {
        [] => "0".into(),
        _ => joined(terms.iter().map(|(w, v)| format!("{w}*v{v}")), " + "),
    }
}

impl Display for Sum {
    fn fmt(&self, f: &mut fmt::Formatter<'_>) -> fmt::Result {
        match self.terms[..] {
            [] => write!(f, "{}", self.constant),
            _ => write!(f, "{} + {}", sum_of(&self.terms), self.constant),
        }
    }
}

impl Display for Condition {
    fn fmt(&self, f: &mut fmt::Formatter<'_>) -> fmt::Result {
        match self {
            Condition::Proposition(p) => write!(f, "p{p}"),
            Condition::Comparison {
                terms,
                comparison,
                constant,
            } => write!(f, "{} {comparison} {constant}", sum_of(terms)),
        }
    }
}

impl Display for Effect {
    fn fmt(&self, f: &mut fmt::Formatter<'_>) -> fmt::Result {
        match self {
            Effect::Add(p) => write!(f, "add p{p}"),
            Effect::Delete(p) => write!(f, "delete p{p}"),
            Effect::Change {
                variable,
                change,
                value,
            } => write!(f, "v{variable} {change} {value}"),
        }
    }
}

impl Display for Action {
    fn fmt(&self, f: &mut fmt::Formatter<'_>) -> fmt::Result {
        let conditions = joined(&self.conditions, "; ");
        write!(f, "[{conditions}] => [{}]", joined(&self.effects, "; "))
    }
}

impl Display for Meaning {
    fn fmt(&self, f: &mut fmt::Formatter<'_>) -> fmt::Result {
        let truths = self.propositions.iter().map(|truth| i64::from(*truth));
        let truths = truths.enumerate().map(|(p, truth)| format!("p{p}={truth}"));
        let values = self.values.iter().enumerate();
        let values = values.map(|(v, value)| format!("v{v}={value}"));
        match joined(truths.chain(values), " ").as_str() {
            "" => f.write_str("state -")?,
            state => write!(f, "state {state}")?,
        }
        for (a, action) in self.actions.iter().enumerate() {
            write!(f, " | a{a} {action}")?;
        }
        write!(f, " | goal [{}]", joined(&self.goal, "; "))
    }
}
