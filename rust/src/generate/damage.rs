//! Inputs that are wrong, or likely to be.

use super::rng::Rng;
use crate::call::{Call, CallKind, Field};
use crate::commands::commands;
use crate::reference::table::{
    Block, Change, Effect, Item, Kind, Table, Term, MOVE_LIMIT, NUMBER_LIMIT, PROPOSITION_LIMIT,
    TERM_LIMIT, WEIGHT_LIMIT,
};

/// The table with each byte changed to each other value.
pub fn single_byte_changes(table: &[u8]) -> impl Iterator<Item = Vec<u8>> + '_ {
    (0..table.len()).flat_map(move |at| {
        (1..=255).map(move |change: u8| {
            let mut damaged = table.to_vec();
            damaged[at] ^= change;
            damaged
        })
    })
}

/// All proper beginnings of the table.
pub fn truncations(table: &[u8]) -> impl Iterator<Item = Vec<u8>> + '_ {
    (0..table.len()).map(|length| table[..length].to_vec())
}

/// The table with each byte inserted at each place.
pub fn insertions(table: &[u8]) -> impl Iterator<Item = Vec<u8>> + '_ {
    (0..=table.len()).flat_map(move |at| {
        (0..=255).map(move |byte: u8| {
            let mut damaged = table.to_vec();
            damaged.insert(at, byte);
            damaged
        })
    })
}

/// The table with each byte taken out.
pub fn deletions(table: &[u8]) -> impl Iterator<Item = Vec<u8>> + '_ {
    (0..table.len()).map(|at| {
        let mut damaged = table.to_vec();
        damaged.remove(at);
        damaged
    })
}

/// Fewer than `limit` bytes, all at random.
pub fn random_bytes(rng: &mut Rng, limit: usize) -> Vec<u8> {
    (0..rng.below(limit)).map(|_| rng.byte()).collect()
}

/// Commands that nearly make up a small table, some of them in the wrong place.
pub fn command_string(rng: &mut Rng) -> Vec<u8> {
    let counts = [
        rng.below(4) as u8,
        2 * rng.below(3) as u8,
        rng.below(4) as u8,
    ];
    let mut commands = vec![random_head(rng, counts)];
    for block in 0..=counts[2] {
        let goal = block == counts[2];
        commands.push(vec![if goal { 0x47 } else { 0x41 }]);
        for _ in 0..rng.below(4) {
            random_entry(rng, counts, goal, &mut commands);
        }
        if !goal && rng.chance(9, 10) {
            random_change(rng, counts, &mut commands);
        }
    }
    commands.push(vec![0x45]);
    let share = match commands[0][0] == Kind::Written.byte() {
        true => 2,
        false => 4,
    };
    if rng.chance(1, share) {
        set_weights_to_0(rng, &mut commands);
    }
    while rng.chance(2, 5) {
        disorder(rng, counts, &mut commands);
    }
    let mut bytes = commands.concat();
    if rng.chance(1, 12) {
        bytes.truncate(rng.below(bytes.len() + 1));
    }
    bytes
}

/// About half of the terms get weight 0.
fn set_weights_to_0(rng: &mut Rng, commands: &mut [Vec<u8>]) {
    for term in commands.iter_mut().filter(|command| command[0] == 0x57) {
        if rng.chance(1, 2) {
            term[2..].fill(0);
        }
    }
}

fn random_head(rng: &mut Rng, counts: [u8; 3]) -> Vec<u8> {
    let head = *rng.pick(&[0x54, 0x54, 0x54, 0x4E, 0x4E, 0x4E, 0x41]);
    let mut bytes = vec![head];
    bytes.extend(counts);
    if rng.chance(1, 20) {
        bytes[1] = (PROPOSITION_LIMIT + rng.below(3)) as u8;
        bytes[2] = rng.below(36) as u8;
        bytes[3] = (MOVE_LIMIT + rng.below(3)) as u8;
    }
    bytes
}

/// The commands of one entry of a block.
fn random_entry(rng: &mut Rng, counts: [u8; 3], goal: bool, commands: &mut Vec<Vec<u8>>) {
    let closing: &[u8] = if goal { &[0x43] } else { &[0x43, 0x46, 0x46] };
    let single: &[u8] = if goal { &[0x50] } else { &[0x50, 0x2B, 0x2D] };
    let command = if counts[0] > 0 && rng.chance(1, 3) {
        *rng.pick(single)
    } else if counts[1] > 0 {
        for _ in 0..rng.below(3) {
            commands.push(command_of(rng, 0x57, counts));
        }
        *rng.pick(closing)
    } else {
        0x43
    };
    commands.push(command_of(rng, command, counts));
}

/// The command of something that a move does, if there is a name for it.
fn random_change(rng: &mut Rng, counts: [u8; 3], commands: &mut Vec<Vec<u8>>) {
    let change = match counts {
        [0, 0, _] => return,
        [0, _, _] => 0x46,
        _ => *rng.pick(&[0x2B, 0x2D]),
    };
    commands.push(command_of(rng, change, counts));
}

/// Takes a command away, puts one in, doubles one or exchanges two.
fn disorder(rng: &mut Rng, counts: [u8; 3], commands: &mut Vec<Vec<u8>>) {
    if commands.is_empty() {
        return;
    }
    let [one, other] = [0, 1].map(|_| rng.below(commands.len()));
    match rng.below(4) {
        0 => drop(commands.remove(one)),
        1 => commands.insert(one, any_command(rng, counts)),
        2 => commands.insert(one, commands[other].clone()),
        _ => commands.swap(one, other),
    }
}

fn any_command(rng: &mut Rng, counts: [u8; 3]) -> Vec<u8> {
    const COMMANDS: [u8; 11] = [
        0x41, 0x47, 0x45, 0x50, 0x2B, 0x2D, 0x57, 0x43, 0x46, 0x54, 0x4E,
    ];
    let command = if rng.chance(1, 8) {
        rng.byte()
    } else {
        *rng.pick(&COMMANDS)
    };
    command_of(rng, command, counts)
}

/// A command with operands that are mostly in range.
fn command_of(rng: &mut Rng, command: u8, [p, v, a]: [u8; 3]) -> Vec<u8> {
    let mut bytes = vec![command];
    match command {
        0x50 | 0x2B | 0x2D => bytes.push(operand(rng, p)),
        0x57 => {
            bytes.push(operand(rng, v));
            bytes.extend(weight(rng).to_be_bytes());
        }
        0x43 => {
            let comparison = if rng.chance(1, 2) { 0 } else { operand(rng, 5) };
            bytes.push(comparison);
            bytes.extend(constant(rng).to_be_bytes());
        }
        0x46 => {
            bytes.extend([operand(rng, 3), operand(rng, v)]);
            bytes.extend(constant(rng).to_be_bytes());
        }
        0x54 | 0x4E => bytes.extend([p, v, a]),
        _ => {}
    }
    bytes
}

/// Mostly a number below `limit`.
fn operand(rng: &mut Rng, limit: u8) -> u8 {
    if limit == 0 || rng.chance(1, 40) {
        return rng.below(7) as u8;
    }
    rng.below(usize::from(limit)) as u8
}

fn weight(rng: &mut Rng) -> i16 {
    if rng.chance(1, 16) {
        return *rng.pick(&[-1, -1000, 0, 1001, -1001]);
    }
    *rng.pick(&[1, 1, 2, 3, 1000])
}

fn constant(rng: &mut Rng) -> i32 {
    if rng.chance(1, 16) {
        return *rng.pick(&[1_000_001, -1_000_001, 1_000_002, i32::MAX, i32::MIN]);
    }
    *rng.pick(&[0, 0, 1, -1, 7, 1_000_000, -1_000_000])
}

/// Spoils one entry of a table; it may still be accepted.
pub fn spoil(rng: &mut Rng, table: &mut Table) {
    let kind = table.kind;
    let variables = table.variables;
    let blocks = table.moves.len() + 1;
    let chosen = rng.below(blocks);
    let block = table.moves.get_mut(chosen).unwrap_or(&mut table.goal);
    let weight = neutral_weight(rng, kind);
    if variables > 0 && rng.chance(2, 5) {
        return close_circle(rng, block, variables, weight);
    }
    if block.items.is_empty() {
        return block.items.push(Item::Require(PROPOSITION_LIMIT));
    }
    let at = rng.below(block.items.len());
    if rng.chance(1, 4) {
        let again = block.items[at].clone();
        return block.items.push(again);
    }
    spoil_item(rng, kind, weight, &mut block.items[at]);
}

/// Gives a condition, if there is one, a number that is no comparison; half of the time the lowest
/// such number.
pub fn misname_comparison(rng: &mut Rng, kind: Kind, table: &mut [u8]) {
    let conditions = commands(table).filter(|(_, command)| command[0] == 0x43);
    let offsets: Vec<usize> = conditions.map(|(at, _)| at).collect();
    let lowest = match kind {
        Kind::Written => 5,
        Kind::Normal => 1,
    };
    if !offsets.is_empty() {
        let number = match rng.chance(1, 2) {
            true => lowest,
            false => rng.byte().max(lowest),
        };
        table[rng.pick(&offsets) + 1] = number;
    }
}

/// A weight that is in range; in a written table it is 0 half of the time.
fn neutral_weight(rng: &mut Rng, kind: Kind) -> i128 {
    match kind {
        Kind::Written => *rng.pick(&[0, 1]),
        Kind::Normal => 1,
    }
}

/// Adds a `:=` that reads its own variable or any one.
fn close_circle(rng: &mut Rng, block: &mut Block, variables: usize, weight: i128) {
    let [any, variable] = [0, 1].map(|_| rng.below(variables));
    let read = *rng.pick(&[any, variable]);
    let term = Term {
        variable: read,
        weight,
    };
    block.items.push(Item::Effect(Effect {
        terms: vec![term],
        change: Change::Assign,
        variable,
        constant: 0,
    }));
}

fn spoil_item(rng: &mut Rng, kind: Kind, weight: i128, item: &mut Item) {
    let (terms, constant) = match item {
        Item::Require(p) | Item::Add(p) | Item::Delete(p) => {
            *p += rng.below(PROPOSITION_LIMIT);
            return;
        }
        Item::Condition(condition) => (&mut condition.terms, &mut condition.constant),
        Item::Effect(effect) => (&mut effect.terms, &mut effect.constant),
    };
    if terms.is_empty() || rng.chance(1, 4) {
        *constant = *rng.pick(&[NUMBER_LIMIT + 1, NUMBER_LIMIT + 2, -NUMBER_LIMIT - 1]);
        return;
    }
    let at = rng.below(terms.len());
    match rng.below(5) {
        0 => terms[at].weight = 0,
        1 => terms[at].weight = *rng.pick(&[0, -1, WEIGHT_LIMIT + 1, -WEIGHT_LIMIT - 1]),
        2 => terms[at].variable += 1 + rng.below(kind.variable_limit()),
        3 => {
            let variable = terms[at].variable;
            terms.insert(at + rng.below(2), Term { variable, weight });
        }
        _ => *terms = eight_or_nine(rng, kind),
    }
}

/// Terms with rising variables, which most tables do not have.
fn eight_or_nine(rng: &mut Rng, kind: Kind) -> Vec<Term> {
    let count = TERM_LIMIT + rng.below(2);
    let term = |variable| Term {
        variable,
        weight: neutral_weight(rng, kind),
    };
    (0..count).map(term).collect()
}

/// A state spoilt in its length or in one place; it may still be accepted.
pub fn wrong_state(rng: &mut Rng, state: &[u8]) -> Vec<u8> {
    let mut wrong = state.to_vec();
    match rng.below(4) {
        0 => wrong.push(rng.byte()),
        1 => wrong.truncate(state.len().saturating_sub(1 + rng.below(4))),
        2 if state.len() >= 4 => {
            let value: i32 = *rng.pick(&[1_000_001, -1_000_001, i32::MAX, i32::MIN]);
            let at = state.len() - 4;
            wrong[at..].copy_from_slice(&value.to_be_bytes());
        }
        _ if !state.is_empty() => wrong[rng.below(state.len())] = rng.byte(),
        _ => wrong.push(0),
    }
    wrong
}

/// Damages the table, now and then the state, and of `check` the list; of `place` the windows or the
/// durations.
pub fn damage(rng: &mut Rng, call: &mut Call) {
    let damaged = match call.kind {
        CallKind::Place if rng.chance(1, 2) => &mut call.windows,
        CallKind::Place => &mut call.durations,
        CallKind::Check if rng.chance(1, 3) => &mut call.list,
        kind if kind.has(Field::State) && rng.chance(1, 4) => &mut call.state,
        _ => &mut call.table,
    };
    damage_bytes(rng, damaged);
}

/// Up to four changes: a byte set, stepped, put in, taken out, or a stretch moved.
fn damage_bytes(rng: &mut Rng, bytes: &mut Vec<u8>) {
    for _ in 0..=rng.below(4) {
        if bytes.is_empty() {
            return;
        }
        let at = rng.below(bytes.len());
        match rng.below(6) {
            0 => bytes[at] = rng.byte(),
            1 => bytes[at] = bytes[at].wrapping_add(1),
            2 => bytes[at] = bytes[at].wrapping_sub(1),
            3 => bytes.insert(at, rng.byte()),
            4 => drop(bytes.remove(at)),
            _ => bytes[at..].rotate_left(1),
        }
    }
}
