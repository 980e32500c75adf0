//! What calls of `check` have to tell apart, counted.

use super::{refusal_number, Shares};
use crate::answer::{Fault, Reason};
use crate::call::{Call, Outcome};
use crate::reference::parse_task;
use crate::reference::table::{Table, MOVE_LIMIT, NUMBER_LIMIT, PROPOSITION_LIMIT};
use crate::reference::State;
use crate::schedule::{after, allows, entry, in_range};

impl Shares {
    /// Takes note of a call and its outcome.
    ///
    /// # Panics
    /// If the answer is not what a run of the list entry by entry leads to.
    pub(super) fn add_schedule(&mut self, call: &Call, outcome: &Outcome) {
        let number = refusal_number(&outcome.answer);
        let short = usize::from(Reason::OutputShort.number());
        if number != 0 && number != short {
            return self.add_refused(call, number);
        }
        let task = parse_task(&call.table, &call.state);
        let (table, start) = task.expect("the table and the state are accepted");
        let run = Run::of(&table, start, &call.list);
        assert_eq!(outcome.fault, run.fault, "{call}");
        match run.fault {
            Some(fault) => {
                let expected = format!("index {}", run.made);
                assert_eq!(outcome.answer, expected, "{call}");
                self.add_fault(call, &run, fault);
            }
            None if !allows(&table.goal, &run.state) => {
                assert_eq!(outcome.answer, "goal not met", "{call}");
                self.add_unmet(call, &run);
            }
            None => self.add_yes(call, &run, number),
        }
    }

    /// What stands behind a refused table or state.
    fn add_refused(&mut self, call: &Call, number: usize) {
        let moves = call.table.get(3).copied().unwrap_or(0);
        let missing = call.list.first().is_some_and(|mv| *mv >= moves);
        let state = number == 8 || number == 9;
        self.add_one(
            "a refused table and a list",
            !state && !call.list.is_empty(),
        );
        self.add_one(
            "a refused table and no list",
            !state && call.list.is_empty(),
        );
        self.add_one("a refused table and a missing move", !state && missing);
        self.add_one("a refused state and no list", state && call.list.is_empty());
        self.add_one("a refused state and a missing move", state && missing);
        let short = call.room < call.state.len();
        self.add_one("a refusal and a short output", short);
    }

    fn add_yes(&mut self, call: &Call, run: &Run, number: usize) {
        let length = call.state.len();
        if number != 0 {
            self.add_one("13", true);
            self.add_one("no room", call.room == 0);
            self.add_one("one byte short", call.room + 1 == length);
            return;
        }
        self.add_one("yes", true);
        self.add_one("yes to no moves", call.list.is_empty());
        self.add_one("yes of no bytes", length == 0);
        self.add_one("yes to more than 255 moves", call.list.len() > 255);
        self.add_one("yes to 1,000 moves", call.list.len() >= 1_000);
        self.add_one("just enough", 0 < length && call.room == length);
        self.add_one("bytes behind", call.room > length);
        self.add_one("yes, and the goal on the way", run.goals > 1);
        self.add_one("yes, and another state than before", run.moved);
        self.add_run(run);
    }

    /// What every list that runs to its end may have.
    fn add_run(&mut self, run: &Run) {
        let Table {
            propositions,
            variables,
            moves,
            goal,
            ..
        } = run.table;
        self.add_one("no propositions", *propositions == 0);
        self.add_one("120 propositions", *propositions == PROPOSITION_LIMIT);
        self.add_one("no variables", *variables == 0);
        self.add_one(
            "16 variables",
            *variables == run.table.kind.variable_limit(),
        );
        self.add_one("no moves in the table", moves.is_empty());
        self.add_one("64 moves in the table", moves.len() == MOVE_LIMIT);
        self.add_one("an empty goal", goal.items.is_empty());
        let at = |value| run.state.values.contains(&value);
        self.add_one("ends at 1,000,000", at(NUMBER_LIMIT));
        self.add_one("ends at -1,000,000", at(-NUMBER_LIMIT));
        self.add_one("a move again at once", run.again);
    }

    fn add_unmet(&mut self, call: &Call, run: &Run) {
        self.add_one("goal not met", true);
        self.add_one("goal not met by no moves", call.list.is_empty());
        self.add_one("goal met at the start only", run.at_start && run.goals == 1);
        let behind = run.goals - usize::from(run.at_start);
        self.add_one("goal met on the way only", behind > 0);
        self.add_one(
            "goal not met, and a short output",
            call.room < call.state.len(),
        );
        self.add_one("goal met but for one part", run.unmet_parts() == 1);
        self.add_run(run);
    }

    fn add_fault(&mut self, call: &Call, run: &Run, fault: Fault) {
        let (index, entries) = (run.made, call.list.len());
        self.add_one(
            match fault {
                Fault::Missing => "missing",
                Fault::NotAllowed => "not allowed",
                Fault::OutOfRange => "out of range",
            },
            true,
        );
        self.add_one("index 0", index == 0);
        self.add_one("index in the middle", 0 < index && index + 1 < entries);
        self.add_one("index of the last entry", 0 < index && index + 1 == entries);
        self.add_one("index above 255", index > 255);
        self.add_one("an index and a short output", call.room < call.state.len());
        self.add_one("an index behind a met goal", run.goals > 0);
        let (mv, moves) = (usize::from(call.list[index]), run.table.moves.len());
        match fault {
            Fault::Missing => self.add_missing(mv, moves),
            _ => self.add_impossible(run, &call.list[index..], fault),
        }
        let skipped = run.skipping(&call.list[index + 1..]);
        self.add_one("another fault behind", skipped.is_err());
        let solved = skipped.is_ok_and(|end| allows(&run.table.goal, &end));
        self.add_one("solved without that entry", solved);
    }

    fn add_missing(&mut self, mv: usize, moves: usize) {
        self.add_one("missing by one", mv == moves);
        self.add_one("missing by two", mv == moves + 1);
        self.add_one("missing 255", mv == 255);
        self.add_one("missing behind move 63", mv >= MOVE_LIMIT);
        self.add_one("missing from a table without moves", moves == 0);
    }

    /// What an entry whose move exists would do.
    fn add_impossible(&mut self, run: &Run, rest: &[u8], fault: Fault) {
        let block = &run.table.moves[usize::from(rest[0])];
        let beyond = after(block, &run.state);
        let worst = beyond.values.iter().map(|value| value.abs()).max();
        if fault == Fault::NotAllowed {
            return self.add_one("not allowed, and out of range", !in_range(&beyond));
        }
        let changed = block.effects().map(|effect| beyond.values[effect.variable]);
        let kept: Vec<bool> = changed.map(|value| value.abs() <= NUMBER_LIMIT).collect();
        let [first, last] = [kept.first(), kept.last()].map(|kept| kept == Some(&true));
        self.add_one("out of range by one", worst == Some(NUMBER_LIMIT + 1));
        self.add_one("out of range behind the first effect", first);
        self.add_one("out of range before the last effect", last);
        let high = beyond.values.iter().any(|value| *value > NUMBER_LIMIT);
        self.add_one("out of range above", high);
        self.add_one("out of range below", !high);
        let back = run.from(beyond, &rest[1..]);
        self.add_one("comes back into range", back.is_some());
        let solved = back.is_some_and(|end| allows(&run.table.goal, &end));
        self.add_one("comes back and meets the goal", solved);
    }
}

/// A list run up to its end or its first fault.
struct Run<'t> {
    table: &'t Table,
    fault: Option<Fault>,
    /// The entries that are made, and the state after them.
    made: usize,
    state: State,
    /// How many states meet the goal, and whether the first does.
    goals: usize,
    at_start: bool,
    /// Whether a state differs from the one before.
    moved: bool,
    /// Whether a move is made twice in a row.
    again: bool,
}

impl<'t> Run<'t> {
    fn of(table: &'t Table, start: State, list: &[u8]) -> Run<'t> {
        let at_start = allows(&table.goal, &start);
        let mut run = Run {
            table,
            fault: None,
            made: 0,
            state: start,
            goals: usize::from(at_start),
            at_start,
            moved: false,
            again: false,
        };
        for mv in list {
            match entry(table, &run.state, *mv) {
                Ok(after) => run.take(after, list),
                Err(fault) => {
                    run.fault = Some(fault);
                    break;
                }
            }
        }
        run
    }

    fn take(&mut self, after: State, list: &[u8]) {
        self.again |= self.made > 0 && list[self.made] == list[self.made - 1];
        self.made += 1;
        self.goals += usize::from(allows(&self.table.goal, &after));
        self.moved |= after != self.state;
        self.state = after;
    }

    /// Where more entries lead from here, or the first fault.
    fn skipping(&self, rest: &[u8]) -> Result<State, Fault> {
        let mut state = self.state.clone();
        for mv in rest {
            state = entry(self.table, &state, *mv)?;
        }
        Ok(state)
    }

    /// Where more entries lead from a state, in range or not on the way; none if an entry is missing
    /// or not allowed, or if that is out of range.
    fn from(&self, mut state: State, rest: &[u8]) -> Option<State> {
        for mv in rest {
            let block = self.table.moves.get(usize::from(*mv));
            let block = block.filter(|block| allows(block, &state))?;
            state = after(block, &state);
        }
        in_range(&state).then_some(state)
    }

    /// How many parts of the goal the end state does not meet.
    fn unmet_parts(&self) -> usize {
        let parts = self.table.goal.items.iter();
        let unmet = parts.filter(|part| !crate::schedule::is_met(part, &self.state));
        unmet.count()
    }
}
