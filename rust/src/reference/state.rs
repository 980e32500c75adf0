//! A state as data, and its bytes.

use super::table::{four_bytes, Table, NUMBER_LIMIT};
use crate::answer::{Reason, Refusal};

/// The propositions, then one value for each written variable.
#[derive(Clone, Debug, PartialEq, Eq)]
pub struct State {
    pub propositions: Vec<bool>,
    pub values: Vec<i128>,
}

impl State {
    /// Makes all checks of a state of this table.
    pub fn parse(table: &Table, bytes: &[u8]) -> Result<State, Refusal> {
        if bytes.len() != table.state_length() {
            return Err(Reason::StateLength.at(0));
        }
        let (first, rest) = bytes.split_at(table.propositions);
        let mut state = State {
            propositions: Vec::new(),
            values: Vec::new(),
        };
        for (place, byte) in first.iter().enumerate() {
            state.propositions.push(truth(*byte, place)?);
        }
        for (i, four) in rest.chunks_exact(4).enumerate() {
            state.values.push(value(four, first.len() + 4 * i)?);
        }
        Ok(state)
    }

    pub fn encode(&self) -> Vec<u8> {
        let propositions = self.propositions.iter().map(|p| u8::from(*p));
        let values = self.values.iter().flat_map(|v| four_bytes(*v));
        propositions.chain(values).collect()
    }

    /// The values of the signed variables: each value, then its negative.
    pub fn signed_values(&self) -> Vec<i128> {
        self.values.iter().flat_map(|v| [*v, -*v]).collect()
    }
}

fn truth(byte: u8, place: usize) -> Result<bool, Refusal> {
    match byte {
        0 => Ok(false),
        1 => Ok(true),
        _ => Err(Reason::StateRange.at(place)),
    }
}

fn value(four: &[u8], place: usize) -> Result<i128, Refusal> {
    let four = four.try_into().expect("a value has four bytes");
    let value = i128::from(i32::from_be_bytes(four));
    if (-NUMBER_LIMIT..=NUMBER_LIMIT).contains(&value) {
        Ok(value)
    } else {
        Err(Reason::StateRange.at(place))
    }
}
