//! The calls of an engine, so that one harness serves every implementation.

use crate::answer::{Answer, Blocking, Campaign, Checked, Decision, Head, Placed, Plan, Refusal};
use crate::reference::{self, RIG};

/// An implementation of the five calls, the reader, the campaign in one call, the PDDL text, the
/// goal part that blocks, the rewriter, closure hours, the checker of lists and the listing; and of
/// the calls with the rig's limits.
///
/// A refusal leaves outputs as they were. Layer memory after a refusal holds what the
/// specification says of that refusal.
pub trait Engine {
    fn read(&self, table: &[u8]) -> Result<Head, Refusal>;

    /// The bytes of a block, as a part of the lent table.
    fn block<'t>(&self, table: &'t [u8], b: u64) -> Result<&'t [u8], Refusal>;

    fn normalise(&self, table: &[u8], out: &mut [u8]) -> Result<usize, Refusal>;

    fn step(&self, table: &[u8], state: &[u8], mv: u64, out: &mut [u8]) -> Result<usize, Refusal>;

    fn decide(&self, table: &[u8], state: &[u8], layers: &mut [i64]) -> Result<Decision, Refusal>;

    fn plan(
        &self,
        table: &[u8],
        state: &[u8],
        layers: &mut [i64],
        out: &mut [u8],
    ) -> Result<Plan, Refusal>;

    /// A written table from its normal form to its plan; by default made of `normalise`,
    /// `decide` and `plan`.
    fn campaign(&self, table: &[u8], state: &[u8], lent: Lent) -> Campaign {
        made_campaign(self, table, state, lent)
    }

    /// A written table and a state as PDDL 2.1 text.
    fn pddl(&self, table: &[u8], state: &[u8], out: &mut [u8]) -> Result<usize, Refusal>;

    /// The first part of a normal table's goal that the last layer does not meet, where `decide`
    /// answers "no plan"; refusals and layer memory are those of `decide`.
    fn blocking(&self, table: &[u8], state: &[u8], layers: &mut [i64])
        -> Result<Blocking, Refusal>;

    /// A stored table of either kind without its moves that do nothing, the others renumbered.
    fn rewrite(&self, table: &[u8], out: &mut [u8]) -> Result<usize, Refusal>;

    /// Places a list of entries, of which the durations are given, in the windows of a closure day,
    /// each as early as it can be, and writes their starts.
    fn place(&self, windows: &[u8], durations: &[u8], out: &mut [u8]) -> Result<Placed, Refusal>;

    /// Runs a list of move bytes of a written table from a state: yes with the end state, the first
    /// entry that cannot be made, or that the goal is not met at the end. Only a yes writes.
    fn check(
        &self,
        table: &[u8],
        state: &[u8],
        list: &[u8],
        out: &mut [u8],
    ) -> Result<Checked, Refusal>;

    /// What the listing program prints; by default made of `campaign`.
    fn listing(&self, task: &[u8], state: &[u8]) -> String {
        made_listing(self, task, state)
    }

    /// The engine with the rig's limits: the five calls, the reader and the campaign.
    fn rig(&self) -> Box<dyn Engine>;
}

/// The memories that are lent to `campaign`.
pub struct Lent<'l> {
    /// For the normal form.
    pub normal: &'l mut [u8],
    pub layers: &'l mut [i64],
    /// For the records.
    pub out: &'l mut [u8],
}

impl Lent<'_> {
    /// The same memories, for a call before another use of them.
    pub fn again(&mut self) -> Lent<'_> {
        Lent {
            normal: self.normal,
            layers: self.layers,
            out: self.out,
        }
    }
}

/// The table is normalised first; `decide` and `plan` run on exactly the bytes of the normal
/// form and on one layer memory.
fn made_campaign<E: Engine + ?Sized>(
    engine: &E,
    table: &[u8],
    state: &[u8],
    lent: Lent,
) -> Campaign {
    match engine.normalise(table, lent.normal) {
        Ok(length) => Campaign {
            decision: engine.decide(&lent.normal[..length], state, lent.layers),
            plan: engine.plan(&lent.normal[..length], state, lent.layers, lent.out),
        },
        Err(refusal) => Campaign::refused(refusal),
    }
}

/// A listing made of `campaign`.
fn made_listing<E: Engine + ?Sized>(engine: &E, task: &[u8], state: &[u8]) -> String {
    listing_of(engine, task, state).unwrap_or_else(|refusal| format!("{refusal}\n"))
}

fn listing_of<E: Engine + ?Sized>(
    engine: &E,
    task: &[u8],
    state: &[u8],
) -> Result<String, Refusal> {
    let mut out = vec![0; reference::PLAN_ROOM];
    let lent = Lent {
        normal: &mut vec![0; reference::NORMAL_ROOM],
        layers: &mut vec![0; reference::MEMORY_ROOM],
        out: &mut out,
    };
    let plan = engine.campaign(task, state, lent).plan?;
    if plan.answer == Answer::NoPlan {
        return Ok(format!("no plan layers {}\n", plan.layers));
    }
    let mut text = format!("plan {} layers {}\n", plan.records, plan.layers);
    for record in out.chunks_exact(10).take(plan.records as usize) {
        text += &reference::record_line(record);
    }
    Ok(text)
}

/// An engine made of single functions.
///
/// A program links only the functions that it names here.
#[derive(Clone, Copy)]
pub struct Calls {
    pub read: Read,
    pub block: Block,
    pub normalise: Normalise,
    pub step: Step,
    pub decide: Decide,
    pub plan: Planning,
    pub campaign: Campaigning,
    pub pddl: Pddl,
    pub blocking: FindBlocking,
    pub rewrite: Rewrite,
    pub place: Place,
    pub check: Check,
    pub listing: Listing,
    /// The calls with the rig's limits.
    pub rig: Option<&'static Calls>,
}

type Read = fn(&[u8]) -> Result<Head, Refusal>;
type Block = fn(&[u8], u64) -> Result<&[u8], Refusal>;
pub type Normalise = fn(&[u8], &mut [u8]) -> Result<usize, Refusal>;
type Step = fn(&[u8], &[u8], u64, &mut [u8]) -> Result<usize, Refusal>;
type Decide = fn(&[u8], &[u8], &mut [i64]) -> Result<Decision, Refusal>;
type Planning = fn(&[u8], &[u8], &mut [i64], &mut [u8]) -> Result<Plan, Refusal>;
type Pddl = fn(&[u8], &[u8], &mut [u8]) -> Result<usize, Refusal>;
pub type FindBlocking = fn(&[u8], &[u8], &mut [i64]) -> Result<Blocking, Refusal>;
pub type Rewrite = fn(&[u8], &mut [u8]) -> Result<usize, Refusal>;
pub type Place = fn(&[u8], &[u8], &mut [u8]) -> Result<Placed, Refusal>;
pub type Check = fn(&[u8], &[u8], &[u8], &mut [u8]) -> Result<Checked, Refusal>;
/// This and the next are given the other calls too.
pub type Campaigning = fn(&Calls, &[u8], &[u8], Lent) -> Campaign;
type Listing = fn(&Calls, &[u8], &[u8]) -> String;

/// The reference implementation.
pub const REFERENCE: Calls = Calls {
    read: reference::read,
    block: reference::block,
    normalise: reference::normalise,
    step: reference::step,
    decide: reference::decide,
    plan: reference::plan,
    campaign: made_campaign,
    pddl: reference::pddl,
    blocking: reference::blocking,
    rewrite: reference::rewrite,
    place: reference::place,
    check: reference::check,
    listing: |_, task, state| reference::listing(task, state),
    rig: Some(&REFERENCE_RIG),
};

/// The same with the rig's limits.
pub const REFERENCE_RIG: Calls = Calls {
    read: |table| RIG.read(table),
    block: |table, b| RIG.block(table, b),
    normalise: |table, out| RIG.normalise(table, out),
    step: |table, state, mv, out| RIG.step(table, state, mv, out),
    decide: |table, state, layers| RIG.decide(table, state, layers),
    plan: |table, state, layers, out| RIG.plan(table, state, layers, out),
    ..Calls::NONE
};

impl Calls {
    /// No call at all: each panics. Campaigns and listings are made of the other calls.
    pub const NONE: Calls = Calls {
        read: |_| absent("read"),
        block: |_, _| absent("block"),
        normalise: |_, _| absent("normalise"),
        step: |_, _, _, _| absent("step"),
        decide: |_, _, _| absent("decide"),
        plan: |_, _, _, _| absent("plan"),
        campaign: made_campaign,
        pddl: |_, _, _| absent("pddl"),
        blocking: |_, _, _| absent("blocking"),
        rewrite: |_, _| absent("rewrite"),
        place: |_, _, _| absent("place"),
        check: |_, _, _, _| absent("check"),
        listing: made_listing,
        rig: None,
    };

    /// The calls with the rig's limits.
    ///
    /// # Panics
    /// If there are none.
    pub fn on_rig(&self) -> Calls {
        *self.rig.unwrap_or_else(|| absent("of the rig"))
    }
}

fn absent(call: &str) -> ! {
    panic!("this engine has no call {call}")
}

impl Engine for Calls {
    fn read(&self, table: &[u8]) -> Result<Head, Refusal> {
        (self.read)(table)
    }

    fn block<'t>(&self, table: &'t [u8], b: u64) -> Result<&'t [u8], Refusal> {
        (self.block)(table, b)
    }

    fn normalise(&self, table: &[u8], out: &mut [u8]) -> Result<usize, Refusal> {
        (self.normalise)(table, out)
    }

    fn step(&self, table: &[u8], state: &[u8], mv: u64, out: &mut [u8]) -> Result<usize, Refusal> {
        (self.step)(table, state, mv, out)
    }

    fn decide(&self, table: &[u8], state: &[u8], layers: &mut [i64]) -> Result<Decision, Refusal> {
        (self.decide)(table, state, layers)
    }

    fn plan(
        &self,
        table: &[u8],
        state: &[u8],
        layers: &mut [i64],
        out: &mut [u8],
    ) -> Result<Plan, Refusal> {
        (self.plan)(table, state, layers, out)
    }

    fn campaign(&self, table: &[u8], state: &[u8], lent: Lent) -> Campaign {
        (self.campaign)(self, table, state, lent)
    }

    fn pddl(&self, table: &[u8], state: &[u8], out: &mut [u8]) -> Result<usize, Refusal> {
        (self.pddl)(table, state, out)
    }

    fn blocking(
        &self,
        table: &[u8],
        state: &[u8],
        layers: &mut [i64],
    ) -> Result<Blocking, Refusal> {
        (self.blocking)(table, state, layers)
    }

    fn rewrite(&self, table: &[u8], out: &mut [u8]) -> Result<usize, Refusal> {
        (self.rewrite)(table, out)
    }

    fn place(&self, windows: &[u8], durations: &[u8], out: &mut [u8]) -> Result<Placed, Refusal> {
        (self.place)(windows, durations, out)
    }

    fn check(
        &self,
        table: &[u8],
        state: &[u8],
        list: &[u8],
        out: &mut [u8],
    ) -> Result<Checked, Refusal> {
        (self.check)(table, state, list, out)
    }

    fn listing(&self, task: &[u8], state: &[u8]) -> String {
        (self.listing)(self, task, state)
    }

    fn rig(&self) -> Box<dyn Engine> {
        Box::new(self.on_rig())
    }
}
