//! `decide FOLDER` and `plan FOLDER`.

use crate::commands::{Command, Run};
use crate::engine::Engine;
use crate::explain::Case;
use crate::files::Folder;
use crate::outcome::{Done, Outcome};
use crate::scan::{Block, Scan, NORMAL};
use crate::words;
use campaign::answer::{Answer, Decision, Plan, Refusal};
use campaign::room;
use std::ffi::OsString;

pub const DECIDE: Command = Command {
    name: "decide",
    arguments: &["FOLDER"],
    summary: "\"no plan\", or the layer that meets the goal",
    help: "\
A written table is brought into normal form first; a normal one is taken as it is.
\"No plan\" means that no list of moves, of any length, reaches the goal.
Otherwise the goal is met in a layer of the relaxed task, in which nothing is deleted and no
signed value (v or -v) falls. That does not promise a list that can be carried out.
",
    run: Run::Either(|engine, words| {
        planned(engine, words, &|task, layers| {
            let decision = (engine.calls.decide)(&task.normal, &task.folder.state, layers)?;
            Ok(decided(decision) + &engine.used(task.counts(), decision.layers))
        })
    }),
};

pub const PLAN: Command = Command {
    name: "plan",
    arguments: &["FOLDER"],
    summary: "the decision, which moves to make and how often, and helpful moves",
    help: "\
A written table is brought into normal form first; a normal one is taken as it is.
The plan has a line for each record: a move, how often it is made, and what it needs and does.
A plan solves the relaxed task, in which nothing is deleted and no signed value (v or -v) falls:
it guides, and need not be a list that can be carried out as it stands.
Helpful moves are for a search over real moves, which tries them before all others, and for a
day when a first move of the plan cannot be made. Each is usable in the state (its conditions
hold there) and gives something that the plan wants next, in layer 1, and the state lacks: it
adds a proposition, sets a value to its target or beyond (:=), or moves it towards its target
(+=, -=). Of the usable moves that give the same thing the plan takes the one with the lowest
number; helpful moves that are not in the plan at all have lines of their own.
\"No plan\" means that no list of moves, of any length, reaches the goal.
",
    run: Run::Either(|engine, words| {
        planned(engine, words, &|task, layers| {
            let (plan, out) = task.make_plan(engine, layers)?;
            let used = engine.used(task.counts(), plan.layers);
            Ok(decided(plan.decision()) + &used + &task.plan(plan, &out))
        })
    }),
};

/// The longest normal form.
const NORMAL_ROOM: usize = 64_000;

/// A campaign and its normal table.
pub struct Task {
    pub folder: Folder,
    pub normal: Vec<u8>,
}

/// A call that answers text, lent layer memory.
pub type Call<'c> = &'c dyn Fn(&Task, &mut [i64]) -> Result<String, Refusal>;

pub fn planned(engine: &Engine, words: &[OsString], call: Call) -> Done {
    let folder = Folder::read(&words[0])?;
    Ok(answered(engine, folder, call).unwrap_or_else(|refused| refused))
}

fn answered(engine: &Engine, folder: Folder, call: Call) -> Result<Outcome, Outcome> {
    let task = Task::of(engine, folder)?;
    let text = task.ask(engine, |layers| call(&task, layers))?;
    Ok(Outcome::Answer(task.heading() + &text))
}

fn refused(folder: &Folder, normal: &[u8], layers: &[i64], refusal: Refusal) -> Outcome {
    let case = Case {
        table: &folder.table,
        state: &folder.state,
        normal,
        layers,
        ..Case::default()
    };
    Outcome::Refused(case.explain(refusal))
}

/// The table itself if it is a normal one, or its normal form.
fn normal_table(engine: &Engine, table: &[u8]) -> Result<Vec<u8>, Refusal> {
    if table.first() == Some(&NORMAL) {
        // Its counts set the size of the memories, and so it is checked first.
        (engine.calls.read)(table)?;
        return Ok(table.to_vec());
    }
    let mut normal = vec![0; NORMAL_ROOM];
    let length = (engine.calls.normalise)(table, &mut normal)?;
    normal.truncate(length);
    Ok(normal)
}

impl Task {
    /// Brings a campaign's table into normal form; an error is a refusal, explained.
    pub fn of(engine: &Engine, folder: Folder) -> Result<Task, Outcome> {
        match normal_table(engine, &folder.table) {
            Ok(normal) => Ok(Task { folder, normal }),
            Err(refusal) => Err(refused(&folder, &[], &[], refusal)),
        }
    }

    /// What a call answers that is lent layer memory; an error is a refusal, explained.
    pub fn ask<T>(
        &self,
        engine: &Engine,
        call: impl FnOnce(&mut [i64]) -> Result<T, Refusal>,
    ) -> Result<T, Outcome> {
        // No more than (A + N + 1)(N + 1) layers are ever reported, which is proved. There is room for
        // all of them in the full engine's memory, so that it never refuses with 14.
        let mut layers = vec![0; engine.numbers(self.counts())];
        let answer = call(&mut layers);
        answer.map_err(|refusal| refused(&self.folder, &self.normal, &layers, refusal))
    }

    /// The plan, and the bytes of its records. There is room for those of all layers that are ever
    /// reported, so that refusal 13 never comes up here.
    pub fn make_plan(
        &self,
        engine: &Engine,
        layers: &mut [i64],
    ) -> Result<(Plan, Vec<u8>), Refusal> {
        let mut out = vec![0; room::record_bytes(self.counts())];
        let plan = (engine.calls.plan)(&self.normal, &self.folder.state, layers, &mut out)?;
        Ok((plan, out))
    }

    /// P, N and A of the normal table.
    pub fn counts(&self) -> [usize; 3] {
        Scan::of(&self.normal).counts()
    }

    pub fn heading(&self) -> String {
        let [table, normal] = [&self.folder.table, &self.normal].map(Vec::len);
        match self.folder.table.first() {
            Some(&NORMAL) => format!("table     normal, {table} bytes, taken as it is\n"),
            _ => format!("table     written, {table} bytes; its normal form has {normal} bytes\n"),
        }
    }

    /// A plan in words: a line for each record, and the helpful moves.
    fn plan(&self, plan: Plan, out: &[u8]) -> String {
        if plan.answer == Answer::NoPlan {
            return String::new();
        }
        if plan.records == 0 {
            return "plan      no move is needed: the state meets the goal\n".into();
        }
        let records = words::count(plan.records as usize, "record");
        format!(
            "plan      {records}: a move, how often, what it needs and does\n{}{}{GUIDES}",
            self.records(plan, out),
            self.helpful(plan, out),
        )
    }

    fn records(&self, plan: Plan, out: &[u8]) -> String {
        let times = |count: u64| words::count(count as usize, "time");
        let widths = plan.list(out).map(|(_, count)| times(count).len());
        let width = widths.max().unwrap_or(0);
        let scan = Scan::of(&self.folder.table);
        let lines = plan.list(out).map(|(mv, count)| {
            let (name, times) = (format!("a{mv}"), times(count));
            let items = words::items(&scan, Block::Move(mv as usize));
            format!("  {name:3}  {times:width$}  {items}\n")
        });
        lines.collect()
    }

    /// The helpful moves, and a line for each of them that the plan does without.
    fn helpful(&self, plan: Plan, out: &[u8]) -> String {
        let helpful: Vec<usize> = (0..64).filter(|b| plan.first >> b & 1 == 1).collect();
        let planned = |mv: &usize| plan.list(out).any(|(taken, _)| taken == *mv as u64);
        let others: Vec<usize> = helpful.iter().copied().filter(|mv| !planned(mv)).collect();
        let list = words::moves(&helpful);
        let gives = match helpful.len() {
            1 => "and gives",
            _ => "each gives",
        };
        format!(
            "helpful   {list}: usable in this state, {gives} something that the plan wants next\n{}",
            self.others(&others),
        )
    }

    /// A line for each of these moves, which are not in the plan.
    fn others(&self, moves: &[usize]) -> String {
        let what = match moves.len() {
            0 => return String::new(),
            1 => "what it needs and does",
            _ => "what each needs and does",
        };
        let scan = Scan::of(&self.folder.table);
        let lines = moves.iter().map(|mv| {
            let (name, items) = (format!("a{mv}"), words::items(&scan, Block::Move(*mv)));
            format!("  {name:3}  {items}\n")
        });
        let count = words::count(moves.len(), "move");
        let lines: String = lines.collect();
        format!("others    {count}, not in this plan: {what}\n{lines}")
    }
}

/// What is to be known of every plan.
pub const GUIDES: &str = "\
A plan guides: it solves the relaxed task, in which nothing is deleted and no value falls.
";

pub fn decided(decision: Decision) -> String {
    let said = match decision.answer {
        Answer::Layer(layer) => format!("plan: layer {layer} meets the goal"),
        Answer::NoPlan => "no plan: no list of moves, of any length, reaches the goal".into(),
    };
    format!("decision  {said}\nlayers    {}\n", decision.layers)
}
