//! A call run on an engine, with the whole of every output in its outcome.

use super::{Call, CallKind, Field};
use crate::answer::{Campaign, Checked, Fault, Refusal};
use crate::engine::{Engine, Lent};
use crate::generate::Rng;
use crate::guarded::{Canary, Guarded};
use crate::hex::hex;
use std::fmt::{self, Display, Write};

/// What outputs and layer memory hold before a call.
#[derive(Clone, Copy, Debug, PartialEq, Eq)]
pub enum Fill {
    /// As in the files of outcomes: A5, and −1000 − i for number i.
    Recorded,
    /// Contents that look like an earlier result, from a seed.
    Seeded(u64),
}

impl Fill {
    fn byte(self, i: usize) -> u8 {
        match self {
            Fill::Recorded => 0xA5,
            Fill::Seeded(seed) => Rng::new(seed ^ i as u64).byte(),
        }
    }

    fn number(self, i: usize) -> i64 {
        match self {
            Fill::Recorded => -1000 - i as i64,
            Fill::Seeded(seed) => stale_number(&mut Rng::new(seed ^ i as u64)),
        }
    }
}

/// A number as layers and entries have them, or any other.
fn stale_number(rng: &mut Rng) -> i64 {
    match rng.below(8) {
        0 | 1 => i64::MAX,
        2 => -1,
        3 => rng.below(4) as i64,
        4 => *rng.pick(&[i64::MIN, i64::MAX - 1, 1_000_000_000_000, -1_000_000]),
        _ => rng.next_u64() as i64,
    }
}

impl Call {
    /// Runs the call over the contents that recorded outcomes have.
    pub fn run(&self, engine: &dyn Engine) -> Result<Outcome, String> {
        self.run_over(engine, Buffers::of(self, Fill::Recorded))
    }

    /// Runs the call on its buffers. A broken canary, a changed input or a block outside the
    /// table is an error.
    pub fn run_over(&self, engine: &dyn Engine, mut buffers: Buffers) -> Result<Outcome, String> {
        let (answer, fault) = match self.kind {
            CallKind::Check => buffers.checked(engine),
            kind if kind.is_rig() => (buffers.answer(&*engine.rig(), self)?, None),
            _ => (buffers.answer(engine, self)?, None),
        };
        buffers.check(self)?;
        Ok(Outcome {
            answer,
            fault,
            buffers,
        })
    }
}

/// What a call answers, and what its buffers hold afterwards.
#[derive(Clone, Debug, PartialEq, Eq)]
pub struct Outcome {
    pub answer: String,
    /// Why the entry of an index cannot be made; the files of outcomes do not say it.
    pub fault: Option<Fault>,
    buffers: Buffers,
}

impl Outcome {
    /// What the layer memory holds.
    pub fn layers(&self) -> &[i64] {
        self.buffers.layers()
    }

    /// What the output holds.
    pub fn out(&self) -> &[u8] {
        lent(&self.buffers.out)
    }

    /// As it is printed, and the fault behind it.
    pub fn with_fault(&self) -> String {
        match self.fault {
            Some(fault) => format!("{self} fault {}", fault.number()),
            None => self.to_string(),
        }
    }

    /// The same with the first of its numbers of layer memory only.
    pub fn with_numbers(mut self, numbers: usize) -> Outcome {
        let layers = self.buffers.layers.iter_mut();
        layers.for_each(|layers| *layers = Guarded::holding(&layers.lent()[..numbers]));
        self
    }
}

/// The answer, and the whole of every output.
impl Display for Outcome {
    fn fmt(&self, f: &mut fmt::Formatter<'_>) -> fmt::Result {
        f.write_str(&self.answer)?;
        let Buffers { normal, out, .. } = &self.buffers;
        for (name, bytes) in [("normal", normal), ("out", out)] {
            if let Some(bytes) = bytes {
                write!(f, " {name} {}", hex(bytes.lent()))?;
            }
        }
        match &self.buffers.layers {
            Some(layers) => write!(f, " memory {}", decimal(layers.lent())),
            None => Ok(()),
        }
    }
}

/// The memories that a call is lent, all guarded; none for a field that its kind does not have.
#[derive(Clone, Debug, PartialEq, Eq)]
pub struct Buffers {
    table: Option<Guarded<u8>>,
    state: Option<Guarded<u8>>,
    list: Option<Guarded<u8>>,
    windows: Option<Guarded<u8>>,
    durations: Option<Guarded<u8>>,
    normal: Option<Guarded<u8>>,
    layers: Option<Guarded<i64>>,
    out: Option<Guarded<u8>>,
}

impl Buffers {
    /// Those of a call before it.
    pub fn of(call: &Call, fill: Fill) -> Buffers {
        let has = |field| call.kind.has(field);
        let input = |field, bytes| has(field).then(|| Guarded::holding(bytes));
        let output = |length| Guarded::filled(length, |i| fill.byte(i));
        let memory = || Guarded::filled(call.numbers, |i| fill.number(i));
        Buffers {
            table: input(Field::Table, &call.table),
            state: input(Field::State, &call.state),
            list: input(Field::List, &call.list),
            windows: input(Field::Windows, &call.windows),
            durations: input(Field::Durations, &call.durations),
            normal: has(Field::Normal).then(|| output(call.normal)),
            layers: has(Field::Numbers).then(memory),
            out: has(Field::Room).then(|| output(call.room)),
        }
    }

    /// What the layer memory holds.
    pub fn layers(&self) -> &[i64] {
        lent(&self.layers)
    }

    /// Makes the call of `check` and prints its answer; with an index there is a fault.
    fn checked(&mut self, engine: &dyn Engine) -> (String, Option<Fault>) {
        let [table, state, list] = [&self.table, &self.state, &self.list].map(lent);
        let answer = engine.check(table, state, list, lend(&mut self.out));
        let fault = match answer {
            Ok(Checked::Fails { fault, .. }) => Some(fault),
            _ => None,
        };
        (shown(answer), fault)
    }

    /// Makes any other call and prints its answer.
    fn answer(&mut self, engine: &dyn Engine, call: &Call) -> Result<String, String> {
        let [table, state] = [&self.table, &self.state].map(lent);
        let [windows, durations] = [&self.windows, &self.durations].map(lent);
        let [normal, out] = [&mut self.normal, &mut self.out].map(lend);
        let layers = lend(&mut self.layers);
        Ok(match call.kind {
            CallKind::Read | CallKind::RigRead => accepted(
                engine
                    .read(table)
                    .map(|head| format!("{:02x} {} {} {}", head.kind, head.p, head.v_or_n, head.a)),
            ),
            CallKind::Block | CallKind::RigBlock => match engine.block(table, call.index) {
                Ok(part) if !is_part(part, table) => {
                    return Err("the block is no part of the lent table".into())
                }
                answer => accepted(answer.map(hex)),
            },
            CallKind::Normalise | CallKind::RigNormalise => accepted(engine.normalise(table, out)),
            CallKind::Step | CallKind::RigStep => {
                accepted(engine.step(table, state, call.index, out))
            }
            CallKind::Decide | CallKind::RigDecide => shown(engine.decide(table, state, layers)),
            CallKind::Plan | CallKind::RigPlan => shown(engine.plan(table, state, layers, out)),
            CallKind::Campaign | CallKind::RigCampaign => {
                let lent = Lent {
                    normal,
                    layers,
                    out,
                };
                both(engine.campaign(table, state, lent))
            }
            CallKind::Pddl => accepted(engine.pddl(table, state, out)),
            CallKind::Blocking => shown(engine.blocking(table, state, layers)),
            CallKind::Rewrite => accepted(engine.rewrite(table, out)),
            CallKind::Place => shown(engine.place(windows, durations, out)),
            CallKind::Check => self.checked(engine).0,
            CallKind::Listing => engine.listing(table, state).replace('\n', "\\n"),
        })
    }

    fn check(&self, call: &Call) -> Result<(), String> {
        for (name, lent, given) in [
            ("table", &self.table, &call.table),
            ("state", &self.state, &call.state),
            ("list", &self.list, &call.list),
            ("windows", &self.windows, &call.windows),
            ("durations", &self.durations, &call.durations),
        ] {
            if let Some(lent) = lent {
                lent.check_unchanged(name, given)?;
            }
        }
        check(&self.normal, "normal")?;
        check(&self.layers, "memory")?;
        check(&self.out, "out")
    }
}

fn lent<T: Canary>(buffer: &Option<Guarded<T>>) -> &[T] {
    buffer.as_ref().map_or(&[], Guarded::lent)
}

fn lend<T: Canary>(buffer: &mut Option<Guarded<T>>) -> &mut [T] {
    buffer.as_mut().map_or(&mut [], Guarded::lend)
}

fn check<T: Canary>(buffer: &Option<Guarded<T>>, name: &str) -> Result<(), String> {
    buffer.as_ref().map_or(Ok(()), |buffer| buffer.check(name))
}

/// Whether a slice lies within another one.
fn is_part(part: &[u8], whole: &[u8]) -> bool {
    let (part, whole) = (part.as_ptr_range(), whole.as_ptr_range());
    whole.start <= part.start && part.end <= whole.end
}

/// An answer behind `ok`, or a refusal.
fn accepted<A: Display>(answer: Result<A, Refusal>) -> String {
    shown(answer.map(|answer| format!("ok {answer}")))
}

fn shown<A: Display>(answer: Result<A, Refusal>) -> String {
    answer.map_or_else(|refusal| refusal.to_string(), |answer| answer.to_string())
}

/// Plan's answer, then decide's.
fn both(campaign: Campaign) -> String {
    let [plan, decision] = [shown(campaign.plan), shown(campaign.decision)];
    format!("{plan} decision {decision}")
}

/// Numbers with blanks between them, `-` for none.
fn decimal(numbers: &[i64]) -> String {
    if numbers.is_empty() {
        return "-".into();
    }
    let mut text = String::new();
    for number in numbers {
        write!(text, " {number}").expect("a string takes all that is written");
    }
    text.split_off(1)
}

#[cfg(test)]
mod tests {
    use super::*;

    #[test]
    fn numbers_are_printed() {
        assert_eq!(decimal(&[-1, 0, i64::MAX]), "-1 0 9223372036854775807");
        assert_eq!(decimal(&[]), "-");
    }

    /// Of every input of a call.
    #[test]
    fn a_changed_input_is_found() {
        for (kind, inputs) in [
            (CallKind::Step, 2),
            (CallKind::Place, 2),
            (CallKind::Check, 3),
        ] {
            let call = Call {
                table: vec![1],
                state: vec![2],
                list: vec![3],
                windows: vec![4],
                durations: vec![5],
                ..kind.call()
            };
            let whole = Buffers::of(&call, Fill::Recorded);
            assert_eq!(whole.check(&call), Ok(()));
            let found = (0..5).filter(|input| {
                let mut changed = whole.clone();
                let Buffers {
                    table,
                    state,
                    list,
                    windows,
                    durations,
                    ..
                } = &mut changed;
                let inputs = [table, state, list, windows, durations];
                lend(inputs.into_iter().nth(*input).expect("five")).fill(9);
                changed.check(&call).is_err()
            });
            assert_eq!(found.count(), inputs, "{}", kind.name());
        }
    }

    #[test]
    fn a_part_lies_within_its_whole() {
        let whole = [1, 2, 3, 4];
        assert!(is_part(&whole[1..3], &whole));
        assert!(is_part(&whole, &whole));
        assert!(!is_part(&whole, &whole[1..3]));
        assert!(!is_part(&[2, 3], &whole));
    }
}
