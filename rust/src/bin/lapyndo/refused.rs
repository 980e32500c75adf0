//! Why a table is refused: what stands at the place, and what should.

use crate::circle;
use crate::engine::{RIG_MOVES, RIG_VARIABLES};
use crate::explain::Rows;
use crate::scan::{Block, Code, Form, Line, Scan, NORMAL};
use crate::words::{self, CHANGES, COMPARISONS};
use campaign::answer::Reason;

/// How many bytes are shown where no command can be told.
const SHOWN: usize = 8;

pub fn rows(file: &str, scan: &Scan, reason: Reason, place: usize) -> Rows {
    if matches!(reason, Reason::TableTooLong | Reason::Circle) {
        return whole_rows(file, scan, reason);
    }
    let fault = Fault { scan, place };
    let mut rows = vec![("where", fault.position(file))];
    rows.extend(fault.command().map(|text| ("command", text)));
    if reason == Reason::BeyondRig {
        rows.extend(beyond_rig(scan).map(|text| ("why", text)));
        rows.push(("remedy", without_rig(scan)));
        return rows;
    }
    let why = match reason {
        Reason::Cut => fault.cut(),
        Reason::Misplaced => fault.misplaced(),
        Reason::MoveCount => fault.move_count(),
        Reason::IdleMove => {
            rows.extend(fault.idle_move().map(|text| ("move", text)));
            "it has none of 2B (adds), 2D (deletes) and 46 (effect)".into()
        }
        Reason::OperandRange => fault.out_of_range(),
        _ => fault.named_again(),
    };
    rows.push(("why", why));
    if reason == Reason::IdleMove {
        rows.push(("remedy", REMEDY.into()));
    }
    rows
}

/// What can be done about a move without an effect.
const REMEDY: &str =
    "finish the row; of a stored table, lapyndo rewrite FILE OUT drops all such moves";

/// The counts of a head that the rig does not take, each with its offset.
fn beyond_rig(scan: &Scan) -> impl Iterator<Item = String> {
    let [_, variables, moves] = scan.counts();
    let (variable, most) = match scan.is_normal() {
        false => ("variable", RIG_VARIABLES),
        true => ("signed variable", 2 * RIG_VARIABLES),
    };
    let counts = [
        (2, variables, variable, most),
        (3, moves, "move", RIG_MOVES),
    ];
    let beyond = counts
        .into_iter()
        .filter(|(_, count, _, most)| count > most);
    beyond.map(|(at, count, what, most)| {
        let count = words::count(count, what);
        format!("byte {at}: there are {count}, and the rig takes {most} at most")
    })
}

/// What can be done about a head that the rig does not take.
fn without_rig(scan: &Scan) -> String {
    let variables = match scan.is_normal() {
        false => "16 variables",
        true => "32 signed variables",
    };
    format!("without --rig a table may have {variables} and 64 moves")
}

/// Of a refusal of the table as a whole.
fn whole_rows(file: &str, scan: &Scan, reason: Reason) -> Rows {
    let length = scan.table.len();
    let mut rows = vec![("where", format!("{file} as a whole: {length} bytes"))];
    if reason == Reason::TableTooLong {
        rows.push(("why", "a written table has 32000 bytes at most".into()));
    }
    let normal = scan.is_normal();
    for edge in circle::find(scan) {
        let [to, from] = [edge.to(), edge.from].map(|v| words::variable(normal, v));
        let (at, effect) = (edge.effect.at, words::line(normal, edge.effect));
        rows.push((
            "why",
            format!("{to} is set from {from} at byte {at}: {effect}"),
        ));
    }
    rows
}

/// A refused place of a table.
struct Fault<'f> {
    scan: &'f Scan<'f>,
    place: usize,
}

impl<'f> Fault<'f> {
    /// The command that has the place, if it is a whole one.
    fn line(&self) -> Option<&'f Line<'f>> {
        let mut lines = self.scan.lines.iter();
        lines.find(|line| (line.at..line.end()).contains(&self.place))
    }

    /// The command before that one.
    fn before(&self) -> Option<&'f Line<'f>> {
        let start = self.line().map_or(self.place, |line| line.at);
        self.scan
            .lines
            .iter()
            .rev()
            .find(|line| line.end() <= start)
    }

    /// The block that the place stands in.
    fn block(&self) -> Option<Block> {
        self.before().and_then(|line| line.block)
    }

    fn byte(&self) -> Option<u8> {
        self.scan.table.get(self.place).copied()
    }

    fn position(&self, file: &str) -> String {
        let place = self.place;
        let position = match self.byte() {
            Some(_) => format!("byte {place} of {file}"),
            None => format!("the end of {file} ({})", words::count(place, "byte")),
        };
        let opens = |form: &Form| matches!(form.code, Code::Move | Code::Goal | Code::End);
        let stands = match self.byte().and_then(Form::of).is_some_and(opens) {
            true => "behind",
            false => "in",
        };
        match self.block().map(words::block) {
            Some(block) if !self.is_after_end() => format!("{position}, {stands} {block}"),
            _ => position,
        }
    }

    fn is_after_end(&self) -> bool {
        self.before()
            .is_some_and(|line| line.form.code == Code::End)
    }

    /// The bytes at the place and what command they are.
    fn command(&self) -> Option<String> {
        if let Some(line) = self.line() {
            let (at, bytes) = (line.at, words::command_bytes(line));
            return Some(format!("at byte {at}: {bytes} ({})", line.form.name));
        }
        let name = Form::of(self.byte()?).map_or("no command", |form| form.name);
        let left = &self.scan.table[self.place..];
        let bytes = words::hex(&left[..left.len().min(SHOWN)], [1; SHOWN]);
        let more = if left.len() > SHOWN { " .." } else { "" };
        Some(format!("at byte {}: {bytes}{more} ({name})", self.place))
    }

    fn cut(&self) -> String {
        match self.byte().and_then(Form::of) {
            Some(form) => {
                let (byte, wanted) = (form.byte, form.width());
                let left = self.scan.table.len() - self.place - 1;
                format!("{byte:02X} has operands of {wanted} bytes; the table ends after {left}")
            }
            None => "the table ends where a command is due: 45 must end it".into(),
        }
    }

    fn misplaced(&self) -> String {
        let byte = self.byte().unwrap_or(0);
        let form = Form::of(byte);
        let open = self
            .before()
            .is_some_and(|line| line.form.code == Code::Term);
        if self.place == 0 {
            return match byte {
                NORMAL => "wanted is a written table (head 54), and this one is normal".into(),
                _ => "a table begins with 54 (written) or 4E (normal)".into(),
            };
        }
        if self.is_after_end() {
            return "nothing may follow 45, which ends the table".into();
        }
        match (form.map(|form| form.code), self.block()) {
            (None, _) => format!("no command has the byte {byte:02X}"),
            (Some(Code::Head), _) => "a head stands at byte 0 only".into(),
            _ if open => "terms before it are open: 57, 43 or 46 must follow a term".into(),
            (Some(Code::Goal), _) => "the goal is opened once".into(),
            (Some(Code::End), _) => "the goal must stand before the end".into(),
            (_, None) => "it stands before the first move and the goal".into(),
            _ => "it may stand in moves only, and not in the goal".into(),
        }
    }

    fn move_count(&self) -> String {
        let [_, _, moves] = self.scan.counts();
        let said = words::count(moves, "move");
        let found = match self.block() {
            Some(Block::Goal) => return "a move may not follow the goal".into(),
            Some(Block::Move(b)) => b + 1,
            None => 0,
        };
        match found < moves {
            true => format!("the head says {said}, and the goal comes after {found}"),
            false => format!("the head says {said}, and this is one more"),
        }
    }

    /// The move that the place closes.
    fn idle_move(&self) -> Option<String> {
        let block = self.block()?;
        let (opens, closes) = (self.scan.opening(block)?.at, self.place);
        let items = words::items(self.scan, block);
        Some(format!(
            "opened at byte {opens}, closed at byte {closes}: {items}"
        ))
    }

    fn out_of_range(&self) -> String {
        let Some(line) = self.line() else {
            return String::new();
        };
        let operands = 0..line.form.operands.len();
        let operand = operands
            .rev()
            .find(|i| line.at + line.operand_start(*i) <= self.place);
        let i = operand.unwrap_or(0);
        let (name, found) = (line.form.operands[i].0, line.operand(i));
        format!("{name} is {found}: {}", self.range(line.form.code, name))
    }

    /// What an operand must be.
    fn range(&self, code: Code, name: &str) -> String {
        let [p, v, _] = self.scan.counts();
        let text = match (code, name, self.scan.is_normal()) {
            (_, "p", _) => return below(p, "proposition"),
            (_, "v", _) => return below(v, "variable"),
            (_, "o", false) => return one_of(&COMPARISONS),
            (_, "k", false) => return one_of(&CHANGES),
            (_, "P", _) => "there may be 0 to 120 propositions",
            (_, "V", _) => "there may be 0 to 16 variables",
            (_, "N", _) => "there may be 0 to 32 signed variables, an even number",
            (_, "A", _) => "there may be 0 to 64 moves",
            (_, "w", false) => "a weight is -1000 to 1000",
            (_, "w", true) => "a weight of a normal table is 1 to 1000",
            (_, "o", true) => "a normal table has 0 (>=) only",
            (_, "k", true) => "a normal table has 0 (:=) and 1 (+=) only",
            (Code::Condition, _, true) => "the constant is -1000000 to 1000001",
            _ => "the constant is -1000000 to 1000000",
        };
        text.into()
    }

    fn named_again(&self) -> String {
        let Some(line) = self.line() else {
            return String::new();
        };
        let normal = self.scan.is_normal();
        let variable = |v| words::variable(normal, v);
        if line.form.code == Code::Term {
            let last = line.terms.last().map_or(0, |term| term.variable);
            return match last < line.index(0) {
                true => {
                    let all = match normal {
                        true => "",
                        false => ", those of weight 0 included",
                    };
                    format!("a sum has 8 terms at most{all}, and this is the ninth")
                }
                false => {
                    let [last, this] = [last, line.index(0)].map(variable);
                    format!("{this} follows {last}: the variables of a sum must rise")
                }
            };
        }
        let earlier = self.earlier(line);
        let at = earlier.map_or_else(String::new, |line| format!(", at byte {}", line.at));
        match line.form.code {
            Code::Needs => format!("the block needs p{} already{at}", line.index(0)),
            Code::Effect => {
                let variable = variable(line.index(1));
                format!("the move has an effect on {variable} already{at}")
            }
            _ => format!("the move adds or deletes p{} already{at}", line.index(0)),
        }
    }

    /// The first command of the block that names what this one names again.
    fn earlier(&self, line: &Line) -> Option<&'f Line<'f>> {
        let named = |line: &Line| match line.form.code {
            Code::Needs => Some((0, line.index(0))),
            Code::Adds | Code::Deletes => Some((1, line.index(0))),
            Code::Effect => Some((2, line.index(1))),
            _ => None,
        };
        let mut items = self.scan.items(line.block?);
        items.find(|item| item.at < line.at && named(item) == named(line))
    }
}

fn below(count: usize, what: &str) -> String {
    match count {
        0 => format!("the table has no {what}"),
        _ => format!("it must be below {count}, the number of {what}s"),
    }
}

/// Operators with their numbers: `one of 0 (>=), 1 (>), ..`.
fn one_of(signs: &[&str]) -> String {
    let signs = signs.iter().enumerate();
    let signs: Vec<String> = signs.map(|(i, sign)| format!("{i} ({sign})")).collect();
    format!("it must be one of {}", signs.join(", "))
}
