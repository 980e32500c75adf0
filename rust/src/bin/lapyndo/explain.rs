//! A refusal in words: its number, what it means, where it stands and why it stands there.

use crate::engine::numbers_to;
use crate::evaluate::{effects, Standing};
use crate::files::{STATE, TASK};
use crate::layer::Layer;
use crate::refused;
use crate::scan::{Block, Code, Line, Scan, Term};
use crate::state::{value, value_count, State};
use crate::words;
use campaign::answer::{Reason, Refusal};

/// Lines of an explanation: what each is about, and its text.
pub type Rows = Vec<(&'static str, String)>;

/// What the refused call was given.
#[derive(Default)]
pub struct Case<'c> {
    /// The name of the table's file, where that is not task.bin.
    pub file: Option<String>,
    pub table: &'c [u8],
    pub state: &'c [u8],
    pub mv: u64,
    /// The normal table that layers were built of.
    pub normal: &'c [u8],
    /// The layer memory after the call.
    pub layers: &'c [i64],
}

impl Case<'_> {
    pub fn explain(&self, refusal: Refusal) -> String {
        let number = refusal.reason.number();
        let place = usize::try_from(refusal.place).unwrap_or(usize::MAX);
        let rows = match number {
            1..=7 | 16..=17 => {
                refused::rows(&self.file(), &Scan::of(self.table), refusal.reason, place)
            }
            8..=9 => self.state_rows(refusal.reason, place),
            10..=12 => self.step_rows(refusal.reason),
            14 => self.memory_rows(place),
            15 => self.layer_rows(place),
            _ => Rows::new(),
        };
        said(refusal, rows)
    }

    fn file(&self) -> String {
        self.file.clone().unwrap_or_else(|| TASK.into())
    }

    fn state_rows(&self, reason: Reason, place: usize) -> Rows {
        let scan = Scan::of(self.table);
        let [p, _, _] = scan.counts();
        let v = value_count(&scan);
        if reason == Reason::StateLength {
            let [length, wanted] =
                [self.state.len(), p + 4 * v].map(|number| words::count(number, "byte"));
            let (p, v) = (words::count(p, "proposition"), words::count(v, "variable"));
            return vec![
                ("where", format!("{STATE} as a whole: {length}")),
                (
                    "why",
                    format!("the table wants {wanted}: 1 for each of {p}, 4 for each of {v}"),
                ),
            ];
        }
        let (name, width, why) = match place < p {
            true => (format!("p{place}"), 1, "it must be 0 (false) or 1 (true)"),
            false => {
                let name = format!("v{}", (place - p) / 4);
                (name, 4, "it must be -1000000 to 1000000")
            }
        };
        let bytes = &self.state[place..place + width];
        let found = match bytes {
            [byte] => i64::from(*byte),
            _ => value(bytes),
        };
        vec![
            ("where", format!("byte {place} of {STATE}: {name}")),
            ("bytes", words::hex(bytes, [width])),
            ("why", format!("{name} is {found}: {why}")),
        ]
    }

    fn step_rows(&self, reason: Reason) -> Rows {
        let why = self.why(reason).into_iter().map(|why| ("why", why));
        let place = ("where", format!("move a{}", self.mv));
        [place].into_iter().chain(why).collect()
    }

    /// Why the move cannot be made in the state: all that stands against it.
    pub fn why(&self, reason: Reason) -> Vec<String> {
        let scan = Scan::of(self.table);
        let block = Block::Move(self.mv as usize);
        match reason {
            Reason::NoSuchBlock => {
                let [_, _, moves] = scan.counts();
                let last = moves.checked_sub(1);
                let named = last.map_or_else(String::new, |last| format!(": a0 to a{last}"));
                let moves = words::count(moves, "move");
                vec![format!("{} has {moves}{named}", self.file())]
            }
            Reason::ConditionsFail => self.standing(|standing| failing(&scan, block, standing)),
            _ => self.standing(|standing| beyond(&scan, block, standing)),
        }
    }

    /// The parts of the goal that fail in the state.
    pub fn unmet(&self) -> Vec<String> {
        let scan = Scan::of(self.table);
        self.standing(|standing| failing(&scan, Block::Goal, standing))
    }

    /// How things stand in the state.
    fn standing<T>(&self, asked: impl FnOnce(&Standing) -> T) -> T {
        let state = State::of(&Scan::of(self.table), self.state);
        asked(&Standing {
            proposition: &|p| state.propositions[p],
            variable: &|v| Some(state.values[v].into()),
        })
    }

    /// Of a layer that did not fit: the numbers up to it.
    fn memory_rows(&self, layer: usize) -> Rows {
        let counts = Scan::of(self.normal).counts();
        let ([p, n, a], layers) = (counts, layer + 1);
        let (wanted, lent) = (numbers_to(counts, layer), self.layers.len());
        vec![
            ("where", made(layer)),
            (
                "needs",
                format!("{wanted} numbers: {p} for propositions, {a} for moves, {n} for each of {layers} layers"),
            ),
            ("why", format!("the rig has {lent} numbers")),
            ("remedy", REMEDY.into()),
        ]
    }

    /// Of a layer with a value that is too large: what the layer before it would give.
    fn layer_rows(&self, layer: usize) -> Rows {
        let mut rows = vec![("where", made(layer))];
        let before = layer.saturating_sub(1);
        let scan = Scan::of(self.normal);
        let counts = scan.counts();
        Layer::of(counts, self.layers, before).standing(|standing| {
            for block in (0..counts[2]).map(Block::Move) {
                if standing.failing(&scan, block).is_empty() {
                    rows.extend(too_large(&scan, block, standing).map(|why| ("why", why)));
                }
            }
        });
        rows
    }
}

/// A refusal with the lines that explain it.
pub fn said(refusal: Refusal, rows: Rows) -> String {
    let mut text = format!("{refusal}: {}\n", meaning(refusal.reason));
    for (about, row) in rows {
        text += &format!("  {about:7}  {row}\n");
    }
    text
}

/// What can be done about a layer that the rig has no memory for.
const REMEDY: &str = "on the rig fewer variables leave room for more layers; \
    without --rig there is room for every layer";

/// A layer, and the one before it.
fn made(layer: usize) -> String {
    match layer.checked_sub(1) {
        None => "layer 0".into(),
        Some(before) => format!("layer {layer}, made from layer {before}"),
    }
}

/// Each condition that fails, and what stands against it.
fn failing(scan: &Scan, block: Block, standing: &Standing) -> Vec<String> {
    let found = |line: &Line| {
        let terms: Vec<&Term> = line.contributing().collect();
        match (line.form.code, standing.sum(line), &*terms) {
            (Code::Condition, Some(sum), [term]) if term.weight == 1 => {
                format!("v{} is {sum}", term.variable)
            }
            (Code::Condition, Some(sum), _) => format!("the sum is {sum}"),
            _ => format!("p{} is false", line.index(0)),
        }
    };
    let lines = standing.failing(scan, block).into_iter();
    lines
        .map(|line| format!("{}, and {}", stands(scan, line), found(line)))
        .collect()
}

/// Each effect whose result is beyond 1,000,000.
fn beyond(scan: &Scan, block: Block, standing: &Standing) -> Vec<String> {
    let results = effects(scan, block).filter_map(|line| {
        let result = standing
            .result(line)
            .filter(|result| result.abs() > 1_000_000)?;
        Some(format!("{} gives {result}", stands(scan, line)))
    });
    results.collect()
}

/// Each := whose value is finite and above 10^12.
fn too_large<'l>(
    scan: &'l Scan,
    block: Block,
    standing: &'l Standing,
) -> impl Iterator<Item = String> + 'l {
    let assignments = effects(scan, block).filter(|line| line.operand(0) == 0);
    assignments.filter_map(move |line| {
        let value = standing
            .sum(line)
            .filter(|value| *value > 1_000_000_000_000)?;
        let effect = words::line(scan.is_normal(), line);
        Some(format!("{} gives {value}: {effect}", words::block(block)))
    })
}

/// A command in words, with its offset.
fn stands(scan: &Scan, line: &Line) -> String {
    let text = words::line(scan.is_normal(), line);
    format!("byte {}: {text}", line.at)
}

/// What the numbers of documents 01 and 02 mean.
fn meaning(reason: Reason) -> &'static str {
    match reason {
        Reason::TableTooLong => "the table is too long",
        Reason::Cut => "the table is cut: bytes or a command are missing",
        Reason::Misplaced => "a command is unknown, or stands where it may not stand",
        Reason::OperandRange => "an operand is out of range",
        Reason::NamedAgain => "a name is used again, a sum does not rise, or it has a ninth term",
        Reason::MoveCount => "there are more or fewer moves than the head says",
        Reason::IdleMove => "a move has no effect: nearly always an unfinished row",
        Reason::Circle => "a variable is set (:=) from itself, in one effect or through others",
        Reason::BeyondRig => "the table is beyond the rig's limits",
        Reason::StateLength => "the state has the wrong length",
        Reason::StateRange => "a byte or a value of the state is out of range",
        Reason::NoSuchBlock => "there is no such move",
        Reason::ConditionsFail => "the move's conditions fail in this state",
        Reason::ResultRange => "the move takes a variable beyond 1000000 or -1000000",
        Reason::OutputShort => "the memory for the result is too short",
        Reason::MemoryShort => "the memory for layers is too short for this layer",
        Reason::ValueRange => "a value of this layer is above 1000000000000 and not unbounded",
        Reason::ClosureRange => "a window or a duration is out of order or range",
        Reason::NoPlacement => "the list has no placement: this entry finds no room in the windows",
    }
}
