//! Commands in words: p3, v0, a1, sums and counts.

use crate::scan::{Block, Code, Line, Scan};
use std::fmt::Write;

/// The operators of conditions by their number.
pub const COMPARISONS: [&str; 5] = [">=", ">", "<=", "<", "="];
/// The operators of effects by their number.
pub const CHANGES: [&str; 3] = [":=", "+=", "-="];

/// A variable's name: in a normal table 2i is v_i and 2i+1 is -v_i.
pub fn variable(normal: bool, v: usize) -> String {
    match (normal, v % 2) {
        (false, _) => format!("v{v}"),
        (true, 0) => format!("v{}", v / 2),
        (true, _) => format!("(-v{})", v / 2),
    }
}

pub fn block(block: Block) -> String {
    match block {
        Block::Move(b) => format!("move a{b}"),
        Block::Goal => "the goal".into(),
    }
}

/// Names of moves.
pub fn moves(numbers: &[usize]) -> String {
    let names: Vec<String> = numbers.iter().map(|b| format!("a{b}")).collect();
    names.join(", ")
}

/// The sum of a condition or an effect without terms of weight 0, and a constant that is left out
/// beside terms if it is 0.
pub fn sum(normal: bool, line: &Line, constant: i64) -> String {
    let mut text = String::new();
    for term in line.contributing() {
        add(&mut text, term.weight, &variable(normal, term.variable));
    }
    if text.is_empty() || constant != 0 {
        add(&mut text, constant, "");
    }
    text
}

/// Adds a weight times a name, or a number that has no name.
fn add(text: &mut String, weight: i64, name: &str) {
    text.push_str(match (text.is_empty(), weight < 0) {
        (true, false) => "",
        (true, true) => "-",
        (false, false) => " + ",
        (false, true) => " - ",
    });
    let size = weight.unsigned_abs();
    let product = match (size, name) {
        (_, "") => size.to_string(),
        (1, _) => name.into(),
        _ => format!("{size} {name}"),
    };
    text.push_str(&product);
}

/// Names in a row: `a, b and c`.
pub fn list(names: &[&str]) -> String {
    match names {
        [before @ .., last] if !before.is_empty() => format!("{} and {last}", before.join(", ")),
        _ => names.concat(),
    }
}

/// A count and the word for what is counted.
pub fn count(number: usize, one: &str) -> String {
    match number {
        1 => format!("1 {one}"),
        _ => format!("{number} {one}s"),
    }
}

/// A command in words.
pub fn line(normal: bool, line: &Line) -> String {
    match line.form.code {
        Code::Head => head(normal, [0, 1, 2].map(|i| line.index(i))),
        Code::Move => line.block.map_or_else(String::new, block),
        Code::Goal => "goal".into(),
        Code::End => "end".into(),
        Code::Needs => format!("needs p{}", line.index(0)),
        Code::Adds => format!("adds p{}", line.index(0)),
        Code::Deletes => format!("deletes p{}", line.index(0)),
        Code::Term => {
            let (weight, variable) = (line.operand(1), variable(normal, line.index(0)));
            let remark = if weight == 0 { ": no contribution" } else { "" };
            format!("term {weight} {variable}{remark}")
        }
        Code::Condition => {
            let (sum, constant) = (sum(normal, line, 0), line.operand(1));
            format!("needs {sum} {} {constant}", sign(&COMPARISONS, line))
        }
        Code::Effect => {
            let (variable, sum) = (
                variable(normal, line.index(1)),
                sum(normal, line, line.operand(2)),
            );
            format!("{variable} {} {sum}", sign(&CHANGES, line))
        }
    }
}

/// The operator that a command's first operand names.
fn sign(signs: &[&'static str], line: &Line) -> &'static str {
    signs.get(line.index(0)).copied().unwrap_or("?")
}

pub fn kind(normal: bool) -> &'static str {
    match normal {
        false => "written",
        true => "normal",
    }
}

fn head(normal: bool, [p, v, a]: [usize; 3]) -> String {
    let variables = match normal {
        false => "variable",
        true => "signed variable",
    };
    let counts = [(p, "proposition"), (v, variables), (a, "move")];
    let [p, v, a] = counts.map(|(number, one)| count(number, one));
    format!("{} table: {p}, {v}, {a}", kind(normal))
}

/// What a block needs and does, in one line.
pub fn items(scan: &Scan, block: Block) -> String {
    let items: Vec<String> = scan
        .items(block)
        .map(|item| line(scan.is_normal(), item))
        .collect();
    match items.is_empty() {
        true => "needs nothing".into(),
        false => items.join("; "),
    }
}

/// Bytes in hexadecimal, parted as given.
pub fn hex(bytes: &[u8], widths: impl IntoIterator<Item = usize>) -> String {
    let mut widths = widths.into_iter();
    let (mut text, mut left) = (String::new(), widths.next());
    for byte in bytes {
        if left == Some(0) {
            text.push(' ');
            left = widths.next();
        }
        write!(text, "{byte:02X}").expect("a string takes all that is written");
        left = left.map(|left| left - 1);
    }
    text
}

/// A command's bytes, an operand a group.
pub fn command_bytes(line: &Line) -> String {
    let operands = line.form.operands.iter().map(|(_, width)| *width);
    hex(line.bytes, [1].into_iter().chain(operands))
}
