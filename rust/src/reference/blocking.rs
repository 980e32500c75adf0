//! The first part of a goal that a layer does not meet, from the goal's bytes.

use super::layers::{Layer, Value};
use crate::commands::commands;
use std::mem;

/// The offset, in a goal's bytes, of the first 50 or 43 that a layer does not meet.
pub fn first_unmet(goal: &[u8], layer: &Layer) -> Option<usize> {
    let mut terms = Vec::new();
    for (offset, command) in commands(goal) {
        let met = match *command {
            [0x50, p] => layer.propositions[usize::from(p)],
            [0x57, variable, high, low] => {
                let weight = i16::from_be_bytes([high, low]);
                terms.push((usize::from(variable), i128::from(weight)));
                true
            }
            [0x43, 0, a, b, c, d] => {
                let constant = i32::from_be_bytes([a, b, c, d]);
                reaches(layer, &mem::take(&mut terms), constant.into())
            }
            [0x47] => true,
            _ => unreachable!("the goal of a normal table has no such command"),
        };
        if !met {
            return Some(offset);
        }
    }
    None
}

/// Whether a sum is at least a constant. One with an unbounded term is, and is not added up.
fn reaches(layer: &Layer, terms: &[(usize, i128)], constant: i128) -> bool {
    let mut total = 0;
    for (variable, weight) in terms {
        match layer.values[*variable] {
            Value::Finite(value) => total += weight * value,
            Value::Unbounded => return true,
        }
    }
    total >= constant
}
