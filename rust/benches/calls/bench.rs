//! A task with the memories for all its calls, and each call timed on both engines.

use crate::engines::PROVED;
use crate::timing::{compare, Times};
use campaign::engine::{Calls, Engine, Lent, REFERENCE};
use campaign::generate::{rewritten_length, text_length, Task};
use campaign::reference;
use campaign::room;

/// A written or normal task with the memories for all its calls, and the engines that are timed.
pub struct Bench {
    pub name: String,
    pub task: Task,
    engines: [Calls; 2],
    layers: Vec<i64>,
    out: Vec<u8>,
}

impl Bench {
    pub fn new(name: &str, task: Task) -> Bench {
        let counts = room::counts(&task.table);
        let bytes = 64_000 + room::record_bytes(counts);
        Bench {
            name: name.into(),
            engines: [PROVED, REFERENCE],
            layers: vec![0; room::layer_numbers(counts)],
            out: vec![0; bytes.max(room::text_bytes(task.table.len()))],
            task,
        }
    }

    /// The task with the normal form of its table.
    pub fn normal(&self) -> Bench {
        Bench::new(&format!("{}, normal", self.name), self.task.normal())
    }

    /// The same for other engines: the first is timed in the engine's place.
    pub fn of(self, engines: [Calls; 2]) -> Bench {
        Bench { engines, ..self }
    }

    pub fn read(&mut self) -> Times {
        let (table, [one, other]) = (&self.task.table, &self.engines);
        compare(|| one.read(table).is_ok(), || other.read(table).is_ok())
    }

    pub fn normalise(&mut self) -> Times {
        self.normalised(self.out.len())
    }

    /// With an output of just the normal form's length, which the engine has to count first.
    pub fn normalise_exact(&mut self) -> Times {
        self.normalised(self.task.normal().table.len())
    }

    fn normalised(&mut self, room: usize) -> Times {
        let (table, [one, other]) = (&self.task.table, &self.engines);
        let mut others = self.out.clone();
        compare(
            || one.normalise(table, &mut self.out[..room]).is_ok(),
            || other.normalise(table, &mut others[..room]).is_ok(),
        )
    }

    /// The first move whose conditions hold, or move 0.
    fn usable_move(&self) -> u64 {
        let Task { table, state } = &self.task;
        let mut out = state.clone();
        let mut moves = 0..u64::from(table[3]);
        let usable = moves.find(|mv| REFERENCE.step(table, state, *mv, &mut out).is_ok());
        usable.unwrap_or(0)
    }

    pub fn step(&mut self) -> Times {
        let mv = self.usable_move();
        let (Task { table, state }, [one, other]) = (&self.task, &self.engines);
        let mut others = self.out.clone();
        compare(
            || one.step(table, state, mv, &mut self.out).is_ok(),
            || other.step(table, state, mv, &mut others).is_ok(),
        )
    }

    pub fn decide(&mut self) -> Times {
        let (Task { table, state }, [one, other]) = (&self.task, &self.engines);
        let mut others = self.layers.clone();
        compare(
            || one.decide(table, state, &mut self.layers).is_ok(),
            || other.decide(table, state, &mut others).is_ok(),
        )
    }

    pub fn blocking(&mut self) -> Times {
        let (Task { table, state }, [one, other]) = (&self.task, &self.engines);
        let mut others = self.layers.clone();
        compare(
            || one.blocking(table, state, &mut self.layers).is_ok(),
            || other.blocking(table, state, &mut others).is_ok(),
        )
    }

    pub fn plan(&mut self) -> Times {
        let (Task { table, state }, [one, other]) = (&self.task, &self.engines);
        let (mut layers, mut out) = (self.layers.clone(), self.out.clone());
        compare(
            || {
                let (layers, out) = (&mut self.layers, &mut self.out);
                one.plan(table, state, layers, out).is_ok()
            },
            || other.plan(table, state, &mut layers, &mut out).is_ok(),
        )
    }

    pub fn campaign(&mut self) -> Times {
        let (Task { table, state }, [one, other]) = (&self.task, &self.engines);
        let mut others = self.out.clone();
        let [mut ones_lent, mut others_lent] = [self.normal(), self.normal()];
        compare(
            || {
                let lent = ones_lent.lend(&mut self.out);
                one.campaign(table, state, lent).plan.is_ok()
            },
            || {
                let lent = others_lent.lend(&mut others);
                other.campaign(table, state, lent).plan.is_ok()
            },
        )
    }

    pub fn pddl(&mut self) -> Times {
        self.texted(self.out.len())
    }

    /// With an output of just the text's length, which the engine has to count first.
    pub fn pddl_exact(&mut self) -> Times {
        self.texted(text_length(&self.task))
    }

    fn texted(&mut self, room: usize) -> Times {
        let (Task { table, state }, [one, other]) = (&self.task, &self.engines);
        let mut others = self.out.clone();
        compare(
            || one.pddl(table, state, &mut self.out[..room]).is_ok(),
            || other.pddl(table, state, &mut others[..room]).is_ok(),
        )
    }

    pub fn rewrite(&mut self) -> Times {
        self.rewritten_into(self.out.len())
    }

    /// With an output of just the result's length.
    pub fn rewrite_exact(&mut self) -> Times {
        self.rewritten_into(self.rewritten_length())
    }

    fn rewritten_into(&mut self, room: usize) -> Times {
        let (table, [one, other]) = (&self.task.table, &self.engines);
        let mut others = self.out.clone();
        compare(
            || one.rewrite(table, &mut self.out[..room]).is_ok(),
            || other.rewrite(table, &mut others[..room]).is_ok(),
        )
    }

    pub fn rewritten_length(&self) -> usize {
        rewritten_length(&self.task.table)
    }

    /// The task with its stored table rewritten.
    pub fn rewritten(&self) -> Bench {
        let table = reference::rewritten(&self.task.table).expect("a stored table");
        let state = self.task.state.clone();
        Bench::new(&self.name, Task { table, state })
    }

    /// Its memories, beside one for the normal form.
    fn lend<'l>(&'l mut self, normal: &'l mut [u8]) -> Lent<'l> {
        Lent {
            normal,
            layers: &mut self.layers,
            out: &mut self.out,
        }
    }

    /// The layers that `decide` reports.
    pub fn reported_layers(&mut self) -> u64 {
        let Task { table, state } = &self.task;
        let decision = REFERENCE.decide(table, state, &mut self.layers);
        decision.map_or(0, |decision| decision.layers)
    }
}
