//! Recorded outcomes, run line by line on any engine.

use crate::answer::{Plan, Refusal};
use crate::call::{Buffers, Call, CallKind, Fill, Outcome};
use crate::engine::{Engine, Lent};
use crate::generate::Task;
use crate::guarded::Guarded;
use crate::room;
use std::fmt;
use std::fs;
use std::panic::{catch_unwind, AssertUnwindSafe};
use std::path::Path;

/// The first line whose outcome differs.
#[derive(Clone, Debug, PartialEq, Eq)]
pub struct Difference {
    pub file: &'static str,
    pub line: usize,
    pub call: String,
    pub expected: String,
    pub got: String,
}

impl fmt::Display for Difference {
    fn fmt(&self, f: &mut fmt::Formatter<'_>) -> fmt::Result {
        write!(
            f,
            "{} line {}\n    call: {}\nexpected: {}\n     got: {}",
            self.file, self.line, self.call, self.expected, self.got
        )
    }
}

/// A file of outcomes.
///
/// # Panics
/// If it cannot be read.
pub fn outcomes(file: &str) -> String {
    let folder = Path::new(env!("CARGO_MANIFEST_DIR")).join("tests/data");
    fs::read_to_string(folder.join(file)).expect("the file of outcomes is there")
}

/// Runs every line of a call's files.
///
/// # Panics
/// At the first line that differs, and if a line is missing.
pub fn check_lines(engine: &dyn Engine, kind: CallKind) {
    for (file, lines) in kind.records() {
        match run_lines(engine, kind, file, &outcomes(file)) {
            Ok(count) => assert_eq!(count, *lines, "lines of {file}"),
            Err(difference) => panic!("{difference}"),
        }
    }
}

/// Whether a line of a call's files differs.
pub fn some_line_differs(engine: &dyn Engine, kind: CallKind) -> bool {
    let mut files = kind.records().iter();
    files.any(|(file, _)| run_lines(engine, kind, file, &outcomes(file)).is_err())
}

/// Runs every line of a file and answers how many there are.
pub fn run_lines(
    engine: &dyn Engine,
    kind: CallKind,
    file: &'static str,
    text: &str,
) -> Result<usize, Difference> {
    for (i, line) in text.lines().enumerate() {
        let (call, expected) = line.split_once(" -> ").unwrap_or((line, ""));
        let outcome = Call::parse(kind, call).and_then(|call| {
            let buffers = Buffers::of(&call, Fill::Recorded);
            run(&call, buffers, engine)
        });
        let outcome = outcome.map(|outcome| outcome.to_string());
        if outcome.as_deref() != Ok(expected) {
            return Err(Difference {
                file,
                line: i + 1,
                call: call.into(),
                expected: expected.into(),
                got: outcome.unwrap_or_else(|error| format!("error: {error}")),
            });
        }
    }
    Ok(text.lines().count())
}

/// Runs one call on two engines; an error shows the call and both outcomes.
pub fn compare(call: &Call, one: &dyn Engine, other: &dyn Engine) -> Result<(), Difference> {
    compare_over(call, Fill::Recorded, one, other).map(drop)
}

/// The same with other contents of all outputs before the call; hands back the outcome of both.
pub fn compare_over(
    call: &Call,
    fill: Fill,
    one: &dyn Engine,
    other: &dyn Engine,
) -> Result<Outcome, Difference> {
    let buffers = Buffers::of(call, fill);
    let outcomes = [(one, buffers.clone()), (other, buffers)];
    let outcomes = outcomes.map(|(engine, buffers)| run(call, buffers, engine));
    let [expected, got] = match outcomes {
        [Ok(expected), Ok(got)] if expected == got => return Ok(got),
        outcomes => outcomes.map(|outcome| match outcome {
            Ok(outcome) => outcome.with_fault(),
            Err(error) => format!("error: {error}"),
        }),
    };
    Err(Difference {
        file: call.kind.file(),
        line: 0,
        call: call.to_string(),
        expected,
        got,
    })
}

/// Runs a call; a panic is an error.
fn run(call: &Call, buffers: Buffers, engine: &dyn Engine) -> Result<Outcome, String> {
    let outcome = catch_unwind(AssertUnwindSafe(|| call.run_over(engine, buffers)));
    outcome.unwrap_or_else(|_| Err("the call panics".into()))
}

/// The normal form of a written table.
///
/// # Panics
/// If a canary or a byte behind the result changes.
pub fn normalised(engine: &dyn Engine, table: &[u8]) -> Result<Vec<u8>, Refusal> {
    written(64_000, |out| engine.normalise(table, out))
}

/// A stored table without its moves that do nothing.
///
/// # Panics
/// As `normalised`.
pub fn rewritten(engine: &dyn Engine, table: &[u8]) -> Result<Vec<u8>, Refusal> {
    written(table.len() + 9, |out| engine.rewrite(table, out))
}

/// The PDDL text of a task.
///
/// # Panics
/// As `normalised`, and if it is no text.
pub fn texted(engine: &dyn Engine, task: &Task) -> Result<String, Refusal> {
    let Task { table, state } = task;
    let text = written(room::text_bytes(table.len()), |out| {
        engine.pddl(table, state, out)
    })?;
    Ok(String::from_utf8(text).expect("a text"))
}

/// What a call writes from the start of its output.
fn written(
    room: usize,
    call: impl FnOnce(&mut [u8]) -> Result<usize, Refusal>,
) -> Result<Vec<u8>, Refusal> {
    let mut out = Guarded::filled(room, |_| 0xA5);
    let answer = call(out.lend());
    out.check("output").expect("all canaries are whole");
    let (result, behind) = out.lent().split_at(answer.unwrap_or(0));
    assert!(behind.iter().all(|byte| *byte == 0xA5));
    answer.map(|_| result.to_vec())
}

/// What `plan` answers and leaves behind.
#[derive(Clone, Debug, PartialEq, Eq)]
pub struct Planned {
    pub plan: Plan,
    /// Moves and counts.
    pub records: Vec<(u64, u64)>,
    /// The entries and all stored layers.
    pub memory: Vec<i64>,
}

/// Plans with room for as many layers as the bound allows.
///
/// # Panics
/// If a canary changes or a record does not begin with 52.
pub fn planned(engine: &dyn Engine, table: &[u8], state: &[u8]) -> Result<Planned, Refusal> {
    let head = engine.read(table)?;
    let counts = [head.p, head.v_or_n, head.a].map(usize::from);
    planned_by(counts, |memory, out| engine.plan(table, state, memory, out))
}

/// The same of a written table, in one call.
///
/// # Panics
/// As `planned`, and if the decision is not the plan's.
pub fn campaigned(engine: &dyn Engine, table: &[u8], state: &[u8]) -> Result<Planned, Refusal> {
    let head = engine.read(table)?;
    let [p, v, a] = [head.p, head.v_or_n, head.a].map(usize::from);
    let mut normal = Guarded::filled(2 * table.len(), |_| 0xA5);
    let planned = planned_by([p, 2 * v, a], |memory, out| {
        let lent = Lent {
            normal: normal.lend(),
            layers: memory,
            out,
        };
        let campaign = engine.campaign(table, state, lent);
        assert_eq!(campaign.decision, campaign.plan.map(Plan::decision));
        campaign.plan
    });
    normal.check("normal form").expect("all canaries are whole");
    planned
}

/// The outcome of a call that plans a normal table with these counts.
///
/// # Panics
/// As `planned`.
pub fn planned_by(
    [p, n, a]: [usize; 3],
    call: impl FnOnce(&mut [i64], &mut [u8]) -> Result<Plan, Refusal>,
) -> Result<Planned, Refusal> {
    let mut memory = Guarded::filled(room::layer_numbers([p, n, a]), |_| -7);
    let mut out = Guarded::filled(room::record_bytes([p, n, a]), |_| 0xA5);
    let answer = call(memory.lend(), out.lend());
    memory.check("memory").expect("all canaries are whole");
    out.check("plan").expect("all canaries are whole");
    let plan = answer?;
    let used = p + a + n * (plan.layers as usize + 1);
    Ok(Planned {
        plan,
        records: plan.list(out.lent()).collect(),
        memory: memory.lent()[..used].to_vec(),
    })
}
