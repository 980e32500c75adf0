//! A state taken apart: its propositions and its values.

use crate::scan::Scan;
use std::fmt::Display;

/// How many values a state of this table has: one for each written variable.
pub fn value_count(scan: &Scan) -> usize {
    let [_, variables, _] = scan.counts();
    match scan.is_normal() {
        false => variables,
        true => variables / 2,
    }
}

pub struct State {
    pub propositions: Vec<bool>,
    pub values: Vec<i64>,
}

impl State {
    /// Of a state that the engine accepts with this table.
    pub fn of(scan: &Scan, bytes: &[u8]) -> State {
        let [propositions, _, _] = scan.counts();
        let (propositions, values) = bytes.split_at(propositions.min(bytes.len()));
        State {
            propositions: propositions.iter().map(|byte| *byte == 1).collect(),
            values: values.chunks_exact(4).map(value).collect(),
        }
    }
}

/// A value from its four bytes.
pub fn value(bytes: &[u8]) -> i64 {
    let four = bytes.try_into().expect("a value has four bytes");
    i32::from_be_bytes(four).into()
}

/// Every variable, and of the propositions those that changed and those that are true.
pub fn changes(before: &State, after: &State) -> String {
    let mut text = String::new();
    let propositions = before.propositions.iter().zip(&after.propositions);
    for (p, (old, new)) in propositions
        .enumerate()
        .filter(|(_, (old, new))| old != new)
    {
        text += &line(&format!("p{p}"), old, new);
    }
    for (v, (old, new)) in before.values.iter().zip(&after.values).enumerate() {
        text += &line(&format!("v{v}"), old, new);
    }
    let all = after.propositions.iter().enumerate();
    let held: Vec<String> = all
        .filter(|(_, held)| **held)
        .map(|(p, _)| format!("p{p}"))
        .collect();
    let held = match held.is_empty() {
        true => "none".into(),
        false => held.join(", "),
    };
    text + &format!("  true  {held}\n")
}

fn line<T: Display + PartialEq>(name: &str, old: &T, new: &T) -> String {
    match old == new {
        true => format!("  {name:4}  {new}\n"),
        false => format!("  {name:4}  {old} -> {new}\n"),
    }
}
