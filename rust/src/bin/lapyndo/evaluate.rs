//! Sums and conditions worked out, to say which of them is behind a refusal.

use crate::scan::{Block, Code, Line, Scan};

/// A whole number; none is unbounded, which is above every number.
pub type Value = Option<i128>;

/// How things stand: in a state, or in a layer.
pub struct Standing<'s> {
    pub proposition: &'s dyn Fn(usize) -> bool,
    pub variable: &'s dyn Fn(usize) -> Value,
}

impl Standing<'_> {
    /// The sum of a condition; the value of an effect, with its constant.
    pub fn sum(&self, line: &Line) -> Value {
        let constant = match line.form.code {
            Code::Effect => line.operand(2),
            _ => 0,
        };
        let products = line.contributing().map(|term| {
            let value = (self.variable)(term.variable);
            value.map(|value| value * i128::from(term.weight))
        });
        products
            .sum::<Value>()
            .map(|sum| sum + i128::from(constant))
    }

    /// Whether a condition is met; an effect asks for nothing.
    pub fn holds(&self, line: &Line) -> bool {
        match line.form.code {
            Code::Needs => (self.proposition)(line.index(0)),
            Code::Condition => {
                let constant = i128::from(line.operand(1));
                self.sum(line)
                    .is_none_or(|sum| compare(line.index(0), sum, constant))
            }
            _ => true,
        }
    }

    /// The conditions of a block that fail.
    pub fn failing<'l>(&self, scan: &'l Scan, block: Block) -> Vec<&'l Line<'l>> {
        let items = scan.items(block);
        items.filter(|line| !self.holds(line)).collect()
    }

    /// What an effect makes of its variable.
    pub fn result(&self, line: &Line) -> Value {
        let (value, old) = (self.sum(line)?, (self.variable)(line.index(1))?);
        Some(match line.operand(0) {
            0 => value,
            1 => old + value,
            _ => old - value,
        })
    }
}

/// A comparison by the number of its operator.
fn compare(operator: usize, sum: i128, constant: i128) -> bool {
    match operator {
        0 => sum >= constant,
        1 => sum > constant,
        2 => sum <= constant,
        3 => sum < constant,
        _ => sum == constant,
    }
}

/// The effects of a block.
pub fn effects<'l>(scan: &'l Scan, block: Block) -> impl Iterator<Item = &'l Line<'l>> {
    let items = scan.items(block);
    items.filter(|line| line.form.code == Code::Effect)
}
