//! Written tables put together from words.

use campaign::generate::Task;

/// A command with its operands, behind its terms if it has some.
pub type Entry = Vec<u8>;

/// A proposition must be true.
pub fn needs(p: u8) -> Entry {
    vec![0x50, p]
}

pub fn adds(p: u8) -> Entry {
    vec![0x2B, p]
}

pub fn deletes(p: u8) -> Entry {
    vec![0x2D, p]
}

/// A variable must have at least a value.
pub fn at_least(variable: u8, value: i32) -> Entry {
    plus(variable, comparison(0, value))
}

/// A variable must have at most a value.
pub fn at_most(variable: u8, value: i32) -> Entry {
    plus(variable, comparison(2, value))
}

/// The same as `at_least` for a sum, of the terms that `plus` puts before it.
pub fn sum_at_least(value: i32) -> Entry {
    comparison(0, value)
}

fn comparison(number: u8, value: i32) -> Entry {
    [&[0x43, number][..], &value.to_be_bytes()].concat()
}

pub fn becomes(variable: u8, value: i32) -> Entry {
    effect(0, variable, value)
}

pub fn grows(variable: u8, by: i32) -> Entry {
    effect(1, variable, by)
}

pub fn falls(variable: u8, by: i32) -> Entry {
    effect(2, variable, by)
}

fn effect(number: u8, variable: u8, value: i32) -> Entry {
    [&[0x46, number, variable][..], &value.to_be_bytes()].concat()
}

/// An entry with one more term before it, of weight 1.
pub fn plus(variable: u8, entry: Entry) -> Entry {
    plus_times(1, variable, entry)
}

/// The same with a term of another weight.
pub fn plus_times(weight: i16, variable: u8, entry: Entry) -> Entry {
    [&[0x57, variable][..], &weight.to_be_bytes(), &entry].concat()
}

/// The table with these moves and this goal, in the state with these propositions and values.
pub fn task(propositions: &[u8], values: &[i32], moves: &[&[Entry]], goal: &[Entry]) -> Task {
    let counts = [propositions.len(), values.len(), moves.len()];
    let mut table = vec![0x54];
    table.extend(counts.map(|count| count as u8));
    for block in moves {
        table.push(0x41);
        table.extend(block.concat());
    }
    table.push(0x47);
    table.extend(goal.concat());
    table.push(0x45);
    let values = values.iter().flat_map(|value| value.to_be_bytes());
    Task {
        table,
        state: propositions.iter().copied().chain(values).collect(),
    }
}
