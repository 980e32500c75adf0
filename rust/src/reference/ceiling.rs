//! The calls with a ceiling on heads and on layer memory: none beyond document 01's, or the rig's.

use super::parse::{parse, Parsed, Wanted};
use super::state::State;
use super::step;
use super::table::Kind;
use super::{deliver, layers_of, normal_form, plan_of};
use crate::answer::{Decision, Head, Plan, Reason, Refusal};

/// The most that heads and layer memory may have.
pub struct Ceiling {
    pub moves: usize,
    /// Written variables; a normal table has two for each.
    pub variables: usize,
    /// Numbers of layer memory that are used. Any behind them are kept.
    pub numbers: usize,
}

/// As far as document 01 goes.
pub const FULL: Ceiling = Ceiling {
    moves: usize::MAX,
    variables: usize::MAX,
    numbers: usize::MAX,
};

/// The rig's board.
pub const RIG: Ceiling = Ceiling {
    moves: 16,
    variables: 8,
    numbers: 2_048,
};

impl Ceiling {
    /// Makes all checks of a table, then that of its head against the ceiling.
    fn parse(&self, bytes: &[u8], wanted: Wanted) -> Result<Parsed, Refusal> {
        let parsed = parse(bytes, wanted)?;
        let table = &parsed.table;
        if table.moves.len() > self.moves || table.state_values() > self.variables {
            return Err(Reason::BeyondRig.at(0));
        }
        Ok(parsed)
    }

    /// The numbers of layer memory that are used.
    fn used<'m>(&self, layers: &'m mut [i64]) -> &'m mut [i64] {
        let used = layers.len().min(self.numbers);
        &mut layers[..used]
    }

    pub fn read(&self, table: &[u8]) -> Result<Head, Refusal> {
        self.parse(table, Wanted::Either)?;
        Ok(Head {
            kind: table[0],
            p: table[1],
            v_or_n: table[2],
            a: table[3],
        })
    }

    pub fn block<'t>(&self, table: &'t [u8], b: u64) -> Result<&'t [u8], Refusal> {
        let parsed = self.parse(table, Wanted::Either)?;
        let range = usize::try_from(b)
            .ok()
            .and_then(|b| parsed.ranges.get(b))
            .ok_or(Reason::NoSuchBlock.at(0))?;
        Ok(&table[range.clone()])
    }

    pub fn normalise(&self, table: &[u8], out: &mut [u8]) -> Result<usize, Refusal> {
        let written = self.parse(table, Wanted::Only(Kind::Written))?.table;
        deliver(&normal_form(&written).encode(), out)
    }

    pub fn step(
        &self,
        table: &[u8],
        state: &[u8],
        mv: u64,
        out: &mut [u8],
    ) -> Result<usize, Refusal> {
        let written = self.parse(table, Wanted::Only(Kind::Written))?.table;
        let before = State::parse(&written, state)?;
        let block = usize::try_from(mv)
            .ok()
            .and_then(|mv| written.moves.get(mv))
            .ok_or(Reason::NoSuchBlock.at(0))?;
        if !step::holds(block, &before) {
            return Err(Reason::ConditionsFail.at(0));
        }
        let after = step::result(block, &before).ok_or(Reason::ResultRange.at(0))?;
        deliver(&after.encode(), out)
    }

    pub fn decide(
        &self,
        table: &[u8],
        state: &[u8],
        layers: &mut [i64],
    ) -> Result<Decision, Refusal> {
        let table = self.parse(table, Wanted::Only(Kind::Normal))?.table;
        layers_of(&table, state, self.used(layers))?.decision()
    }

    pub fn plan(
        &self,
        table: &[u8],
        state: &[u8],
        layers: &mut [i64],
        out: &mut [u8],
    ) -> Result<Plan, Refusal> {
        let table = self.parse(table, Wanted::Only(Kind::Normal))?.table;
        plan_of(&table, state, self.used(layers), out)
    }
}
