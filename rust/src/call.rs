//! A call as data: read from a line of fields, printed as such, and run on an engine.

mod records;
mod run;

pub use records::GROWN_SETS;
pub use run::{Buffers, Fill, Outcome};

use crate::hex::{hex, unhex};
use records::Records;
use std::fmt;
use std::str::FromStr;

/// The calls that have recorded outcomes.
#[derive(Clone, Copy, Debug, PartialEq, Eq)]
pub enum CallKind {
    Read,
    Block,
    Normalise,
    Step,
    Decide,
    Plan,
    Campaign,
    Pddl,
    Blocking,
    Rewrite,
    Place,
    Check,
    RigRead,
    RigBlock,
    RigNormalise,
    RigStep,
    RigDecide,
    RigPlan,
    RigCampaign,
    Listing,
}

/// What a call is given, in the order of a line.
#[derive(Clone, Copy, Debug, PartialEq, Eq)]
pub enum Field {
    Table,
    State,
    List,
    Windows,
    Durations,
    Index,
    Normal,
    Numbers,
    Room,
}

impl CallKind {
    pub const ALL: [CallKind; 20] = [
        CallKind::Read,
        CallKind::Block,
        CallKind::Normalise,
        CallKind::Step,
        CallKind::Decide,
        CallKind::Plan,
        CallKind::Campaign,
        CallKind::Pddl,
        CallKind::Blocking,
        CallKind::Rewrite,
        CallKind::Place,
        CallKind::Check,
        CallKind::RigRead,
        CallKind::RigBlock,
        CallKind::RigNormalise,
        CallKind::RigStep,
        CallKind::RigDecide,
        CallKind::RigPlan,
        CallKind::RigCampaign,
        CallKind::Listing,
    ];

    /// The calls that the engine exports.
    pub const EXPORTED: &'static [CallKind] = Self::ALL.split_at(19).0;

    /// The calls with the rig's limits, and those that they stand beside.
    pub const RIG: &'static [CallKind] = Self::EXPORTED.split_at(12).1;
    const BESIDE_RIG: &'static [CallKind] = Self::ALL.split_at(7).0;

    pub fn is_rig(self) -> bool {
        Self::RIG.contains(&self)
    }

    /// The call with the rig's limits beside this one, if there is one.
    pub fn rig(self) -> Option<CallKind> {
        let at = Self::BESIDE_RIG.iter().position(|kind| *kind == self);
        at.map(|at| Self::RIG[at])
    }

    /// The call that has this one beside it with the rig's limits; any other as it is.
    pub fn full(self) -> CallKind {
        let at = Self::RIG.iter().position(|kind| *kind == self);
        at.map_or(self, |at| Self::BESIDE_RIG[at])
    }

    /// What calls of this kind are given.
    pub fn fields(self) -> &'static [Field] {
        use Field::*;
        match self {
            CallKind::Read | CallKind::RigRead => &[Table],
            CallKind::Block | CallKind::RigBlock => &[Table, Index],
            CallKind::Normalise | CallKind::RigNormalise => &[Table, Room],
            CallKind::Step | CallKind::RigStep => &[Table, State, Index, Room],
            CallKind::Decide | CallKind::RigDecide => &[Table, State, Numbers],
            CallKind::Plan | CallKind::RigPlan => &[Table, State, Numbers, Room],
            CallKind::Campaign | CallKind::RigCampaign => &[Table, State, Normal, Numbers, Room],
            CallKind::Pddl => &[Table, State, Room],
            CallKind::Blocking => &[Table, State, Numbers],
            CallKind::Rewrite => &[Table, Room],
            CallKind::Place => &[Windows, Durations, Room],
            CallKind::Check => &[Table, State, List, Room],
            CallKind::Listing => &[Table, State],
        }
    }

    pub fn has(self, field: Field) -> bool {
        self.fields().contains(&field)
    }

    /// A call of this kind whose fields are all empty or 0.
    pub const fn call(self) -> Call {
        Call {
            kind: self,
            table: Vec::new(),
            state: Vec::new(),
            list: Vec::new(),
            windows: Vec::new(),
            durations: Vec::new(),
            index: 0,
            normal: 0,
            numbers: 0,
            room: 0,
        }
    }

    /// The call's name.
    pub fn name(self) -> &'static str {
        let file = self.file().rsplit('/').next();
        let name = file.and_then(|file| file.strip_suffix(".txt"));
        name.expect("a file of outcomes is a text")
    }

    /// The file of this call's newest outcomes.
    pub fn file(self) -> &'static str {
        self.records()[0].0
    }

    /// All files of this call's outcomes, and how many each has.
    pub fn records(self) -> Records {
        match self {
            CallKind::Read => records::READ,
            CallKind::Block => records::BLOCK,
            CallKind::Normalise => records::NORMALISE,
            CallKind::Step => records::STEP,
            CallKind::Decide => records::DECIDE,
            CallKind::Plan => records::PLAN,
            CallKind::Campaign => records::CAMPAIGN,
            CallKind::Pddl => records::PDDL,
            CallKind::Blocking => records::BLOCKING,
            CallKind::Rewrite => records::REWRITE,
            CallKind::Place => records::PLACE,
            CallKind::Check => records::CHECK,
            CallKind::RigRead => records::RIG_READ,
            CallKind::RigBlock => records::RIG_BLOCK,
            CallKind::RigNormalise => records::RIG_NORMALISE,
            CallKind::RigStep => records::RIG_STEP,
            CallKind::RigDecide => records::RIG_DECIDE,
            CallKind::RigPlan => records::RIG_PLAN,
            CallKind::RigCampaign => records::RIG_CAMPAIGN,
            CallKind::Listing => records::LISTING,
        }
    }
}

/// A call with its inputs and the sizes of its outputs. A field that its kind does not have is
/// empty or 0.
#[derive(Clone, Debug, PartialEq, Eq)]
pub struct Call {
    pub kind: CallKind,
    pub table: Vec<u8>,
    pub state: Vec<u8>,
    /// Moves, a byte each.
    pub list: Vec<u8>,
    /// Of a closure day: an opening and a shutting minute each.
    pub windows: Vec<u8>,
    /// Minutes, of each entry to be placed.
    pub durations: Vec<u8>,
    /// The block or the move.
    pub index: u64,
    /// Bytes for the normal form.
    pub normal: usize,
    /// Numbers of layer memory.
    pub numbers: usize,
    /// Bytes of output.
    pub room: usize,
}

impl Call {
    /// Reads the fields of a line.
    pub fn parse(kind: CallKind, line: &str) -> Result<Call, String> {
        let mut texts = line.split(' ');
        let mut call = kind.call();
        for field in kind.fields() {
            call.set(*field, texts.next().ok_or("a field is missing")?)?;
        }
        match texts.next() {
            None => Ok(call),
            Some(text) => Err(format!("a field too many: {text}")),
        }
    }

    fn set(&mut self, field: Field, text: &str) -> Result<(), String> {
        match field {
            Field::Table => self.table = unhex(text)?,
            Field::State => self.state = unhex(text)?,
            Field::List => self.list = unhex(text)?,
            Field::Windows => self.windows = unhex(text)?,
            Field::Durations => self.durations = unhex(text)?,
            Field::Index => self.index = number(text)?,
            Field::Normal => self.normal = number(text)?,
            Field::Numbers => self.numbers = number(text)?,
            Field::Room => self.room = number(text)?,
        }
        Ok(())
    }

    fn get(&self, field: Field) -> String {
        match field {
            Field::Table => hex(&self.table),
            Field::State => hex(&self.state),
            Field::List => hex(&self.list),
            Field::Windows => hex(&self.windows),
            Field::Durations => hex(&self.durations),
            Field::Index => self.index.to_string(),
            Field::Normal => self.normal.to_string(),
            Field::Numbers => self.numbers.to_string(),
            Field::Room => self.room.to_string(),
        }
    }
}

fn number<N: FromStr>(text: &str) -> Result<N, String> {
    text.parse().map_err(|_| format!("no number: {text}"))
}

/// The fields of the call, as in a file of outcomes.
impl fmt::Display for Call {
    fn fmt(&self, f: &mut fmt::Formatter<'_>) -> fmt::Result {
        let fields = self.kind.fields().iter();
        let texts: Vec<String> = fields.map(|field| self.get(*field)).collect();
        f.write_str(&texts.join(" "))
    }
}

#[cfg(test)]
mod tests {
    use super::*;

    #[test]
    fn a_printed_call_is_read_back() {
        let call = Call {
            table: vec![0x4E, 0, 0, 0, 0x47, 0x45],
            numbers: 3,
            room: 10,
            ..CallKind::Plan.call()
        };
        assert_eq!(call.to_string(), "4e0000004745 - 3 10");
        assert_eq!(Call::parse(CallKind::Plan, &call.to_string()), Ok(call));
    }

    #[test]
    fn a_closure_day_has_its_own_fields() {
        let line = "0000000000000005 00000001 4";
        let call = Call::parse(CallKind::Place, line).expect("three fields");
        assert_eq!(call.windows, [0, 0, 0, 0, 0, 0, 0, 5]);
        assert_eq!(call.durations, [0, 0, 0, 1]);
        assert_eq!((call.room, call.to_string()), (4, line.into()));
        let bare = Call {
            windows: call.windows.clone(),
            durations: call.durations.clone(),
            room: 4,
            ..CallKind::Place.call()
        };
        assert_eq!(call, bare);
    }

    #[test]
    fn a_list_stands_behind_the_state() {
        let line = "54010001412b0047500045 00 0000ff 1";
        let call = Call::parse(CallKind::Check, line).expect("four fields");
        assert_eq!(
            (&call.state[..], &call.list[..]),
            (&[0][..], &[0, 0, 255][..])
        );
        assert_eq!((call.room, call.to_string()), (1, line.into()));
    }

    #[test]
    fn wrong_fields_are_found() {
        assert!(Call::parse(CallKind::Read, "4").is_err());
        assert!(Call::parse(CallKind::Read, "4g").is_err());
        assert!(Call::parse(CallKind::Read, "45 0").is_err());
        assert!(Call::parse(CallKind::Block, "45").is_err());
        assert!(Call::parse(CallKind::Block, "45 -1").is_err());
    }
}
