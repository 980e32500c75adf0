//! `why FOLDER`: the part of the goal that blocks.

use crate::commands::{Command, Run};
use crate::engine::FULL;
use crate::evaluate::Value;
use crate::layer::Layer;
use crate::parts::{self, Part, Share};
use crate::planning::{self, Task};
use crate::scan::{Code, Line, Scan};
use crate::words;
use campaign::answer::{Blocking, Refusal};
use campaign::proved;

pub const WHY: Command = Command {
    name: "why",
    arguments: &["FOLDER"],
    summary: "without a plan, the part of the goal that blocks",
    help: "\
A written table is brought into normal form first; a normal one is taken as it is.
Where there is no plan, this shows the first part of the goal, in the order of the table, that
the last layer does not meet: the condition as it stands in the table, its part in the normal
form, what the last layer has, and what that says of every list of moves. A condition with = has
two parts, at least and at most, and only one of them can be out of reach.
No list of moves, of any length, reaches that part, even alone: while it stays in the goal,
giving up other parts does not help. Conditions behind it that the last layer does not meet
either have a line also: they have to be given up too.
",
    run: Run::Full(|words| planning::planned(&FULL, words, &why)),
};

fn why(task: &Task, layers: &mut [i64]) -> Result<String, Refusal> {
    let blocking = proved::blocking(&task.normal, &task.folder.state, layers)?;
    let decision = proved::decide(&task.normal, &task.folder.state, layers)?;
    let said = match blocking {
        Blocking::Blocks { offset } => {
            let last = Layer::of(task.counts(), layers, decision.layers as usize);
            blocks(task, offset as usize, &last)
        }
        Blocking::Nothing => {
            let layer = decision.layers;
            format!("blocks    nothing: layer {layer} meets every part of the goal\n")
        }
    };
    Ok(planning::decided(decision) + &said)
}

fn blocks(task: &Task, offset: usize, last: &Layer) -> String {
    let [table, normal] = [&task.folder.table, &task.normal].map(|bytes| Scan::of(bytes));
    let mut parts = parts::of(&table, &normal);
    let part = parts.find(|part| part.line.at == offset);
    let part = part.expect("the offset is that of a part");
    let mut rows = vec![("blocks", condition(&table, &part))];
    if !table.is_normal() {
        let text = words::line(true, part.line);
        rows.push((
            "normal",
            format!("byte {offset} of the normal form: {text}"),
        ));
    }
    let (number, has) = (last.number, has(&part, last));
    rows.push(("last", format!("layer {number}: {has}")));
    rows.extend(always(&table, &part, last).map(|text| ("so", text)));
    last.standing(|standing| {
        let unmet = parts.filter(|part| !standing.holds(part.line));
        rows.extend(unmet.map(|part| ("also", condition(&table, &part))));
    });
    let rows = rows
        .iter()
        .map(|(about, text)| format!("{about:8}  {text}\n"));
    rows.collect::<String>() + ALONE
}

/// What is to be known of every part that blocks.
const ALONE: &str = "\
No list of moves, of any length, reaches the part that blocks, even alone: while it stays in the
goal, giving up other parts does not help.
";

/// The condition as it stands in the table; of `=` also which half is out of reach.
fn condition(table: &Scan, part: &Part) -> String {
    let line = part.condition;
    let (at, text) = (line.at, words::line(table.is_normal(), line));
    let half = match part.share {
        Share::Whole => return format!("byte {at}: {text}"),
        Share::AtLeast => "at least",
        Share::AtMost => "at most",
    };
    let constant = line.operand(1);
    format!("byte {at}: {text}, of which \"{half} {constant}\" is out of reach")
}

/// What the layer has for a part.
fn has(part: &Part, last: &Layer) -> String {
    let line = part.line;
    if line.form.code == Code::Needs {
        return format!("p{} is false", line.index(0));
    }
    let values = line.terms.iter().map(|term| {
        let (name, value) = (
            words::variable(true, term.variable),
            last.variable(term.variable),
        );
        format!("{name} is {}", finite(value))
    });
    let values = values.collect::<Vec<_>>().join(", ");
    match &*line.terms {
        [] => "a sum of no terms is 0".into(),
        [term] if term.weight == 1 => values,
        _ => format!("{values}; the sum is {}", sum(line, last)),
    }
}

/// What holds of the condition after every list of moves.
fn always(table: &Scan, part: &Part, last: &Layer) -> Option<String> {
    let line = part.condition;
    if line.form.code == Code::Needs {
        return Some(format!(
            "whatever moves are made, p{} is false",
            line.index(0)
        ));
    }
    line.contributing().next()?;
    let most = sum(part.line, last);
    let (bound, value) = match is_turned(part) {
        false => ("at most", most),
        true => ("at least", -most),
    };
    let sum = words::sum(table.is_normal(), line, 0);
    Some(format!("whatever moves are made, {sum} is {bound} {value}"))
}

/// Whether the part has the condition's sum with its sign turned: of <=, < and the second half of =.
fn is_turned(part: &Part) -> bool {
    matches!(part.condition.operand(0), 2 | 3) || part.share == Share::AtMost
}

fn sum(line: &Line, last: &Layer) -> i128 {
    finite(last.standing(|standing| standing.sum(line)))
}

/// A value in a part that blocks.
fn finite(value: Value) -> i128 {
    value.expect("a sum with an unbounded term is met")
}
