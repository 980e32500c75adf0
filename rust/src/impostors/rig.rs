//! Engines with a fault in the calls with the rig's limits.

use super::{Impostor, HONEST};
use crate::answer::{Reason, Refusal};
use crate::call::CallKind;
use crate::engine::{Calls, REFERENCE_RIG};
use crate::reference::table::Kind;
use crate::reference::{block, decide, normalise, plan, read, step, RIG};
use crate::room::Counts;

/// All of them.
const ALL: &[CallKind] = CallKind::RIG;

/// Those that are given a layer memory.
const PLANNING: &[CallKind] = &[
    CallKind::RigDecide,
    CallKind::RigPlan,
    CallKind::RigCampaign,
];

/// Those that check a state just behind the table.
const STATES: &[CallKind] = &[CallKind::RigStep, CallKind::RigDecide, CallKind::RigPlan];

/// Those that take a written table.
const WRITTEN: &[CallKind] = &[
    CallKind::RigRead,
    CallKind::RigBlock,
    CallKind::RigNormalise,
    CallKind::RigStep,
    CallKind::RigCampaign,
];

/// Those that take a normal one, or make one.
const NORMAL: &[CallKind] = &[
    CallKind::RigRead,
    CallKind::RigBlock,
    CallKind::RigDecide,
    CallKind::RigPlan,
    CallKind::RigCampaign,
];

/// Those that take tables of one kind only, which are those that write a memory.
const WRITING: &[CallKind] = &[
    CallKind::RigNormalise,
    CallKind::RigStep,
    CallKind::RigDecide,
    CallKind::RigPlan,
    CallKind::RigCampaign,
];

pub const RIGS: [Impostor; 30] = [
    impostor::<BeforeHeads>("17 comes before the wrong head", WRITING),
    impostor::<BeforeCircles>("17 comes before 7", ALL),
    impostor::<BeforeCommands>("17 comes before the faults of commands", ALL),
    impostor::<BeforeIdleMoves>("17 comes before 16", ALL),
    impostor::<BehindLengths>("17 comes behind 8", STATES),
    impostor::<BehindStates>("17 comes behind 9", STATES),
    impostor::<BehindBlocks>(
        "17 comes behind 10",
        &[CallKind::RigStep, CallKind::RigBlock],
    ),
    impostor::<BehindConditions>("17 comes behind 11", &[CallKind::RigStep]),
    impostor::<BehindResults>("17 comes behind 12", &[CallKind::RigStep]),
    impostor::<BehindOutputs>(
        "17 comes behind 13",
        &[
            CallKind::RigNormalise,
            CallKind::RigStep,
            CallKind::RigPlan,
            CallKind::RigCampaign,
        ],
    ),
    impostor::<BehindMemory>(
        "17 comes behind 14",
        &[CallKind::RigDecide, CallKind::RigPlan],
    ),
    impostor::<BehindValues>(
        "17 comes behind 15",
        &[CallKind::RigDecide, CallKind::RigPlan],
    ),
    impostor::<WritesFirst>("memories are written before 17 is given", WRITING),
    impostor::<EightSigned>("a normal table may have 8 variables", NORMAL),
    impostor::<SixteenWritten>("a written table may have 16 variables", WRITTEN),
    impostor::<FewPropositions>("propositions are limited", ALL),
    impostor::<SeventeenMoves>("a table may have 17 moves", ALL),
    impostor::<FifteenMoves>("a table may have 15 moves", ALL),
    impostor::<NineVariables>("a table may have 9 variables, or 18 signed ones", ALL),
    impostor::<SevenVariables>("a table may have 7 variables, or 14 signed ones", ALL),
    impostor::<PlaceOfVariables>("the place is that of the variables", ALL),
    impostor::<PlaceOfMoves>("the place is that of the moves", ALL),
    impostor::<OneNumberMore>("the 2,049th number is used", PLANNING),
    impostor::<AllNumbers>("all numbers are used", PLANNING),
    impostor::<OneNumberLess>("the 2,048th number is not used", PLANNING),
    impostor::<WritesBehind>("numbers behind the 2,048th are written", PLANNING),
    impostor::<WritesNext>("the 2,049th number is written", PLANNING),
    impostor::<RefusesMore>("a longer layer memory is refused", PLANNING),
    Impostor {
        trick: "the full calls have the rig's limits",
        engine: Calls {
            read: REFERENCE_RIG.read,
            block: REFERENCE_RIG.block,
            normalise: REFERENCE_RIG.normalise,
            step: REFERENCE_RIG.step,
            decide: REFERENCE_RIG.decide,
            plan: REFERENCE_RIG.plan,
            ..HONEST
        },
        kinds: &[
            CallKind::Read,
            CallKind::Block,
            CallKind::Normalise,
            CallKind::Step,
            CallKind::Decide,
            CallKind::Plan,
            CallKind::Campaign,
        ],
    },
    Impostor {
        trick: "the full calls use 2,048 numbers only",
        engine: Calls {
            decide: |table, state, layers| decide(table, state, first(layers, RIG.numbers)),
            plan: |table, state, layers, out| plan(table, state, first(layers, RIG.numbers), out),
            ..HONEST
        },
        kinds: &[CallKind::Decide, CallKind::Plan, CallKind::Campaign],
    },
];

const fn impostor<R: Rig>(trick: &'static str, kinds: &'static [CallKind]) -> Impostor {
    Impostor {
        trick,
        engine: Calls {
            rig: Some(R::CALLS),
            ..HONEST
        },
        kinds,
    }
}

/// Calls with the rig's limits, made of those without; by default as they should be.
trait Rig {
    /// Where 17 is placed.
    const PLACE: usize = 0;

    /// Whether a head is beyond the limits.
    fn is_beyond(head: Counts) -> bool {
        head.values > RIG.variables || head.moves > RIG.moves
    }

    /// Refusals that come before 17.
    const EARLIER: &'static [u8] = &[1, 2, 3, 4, 5, 6, 7, 16];

    /// A further one; 0 for none.
    const ALSO: u8 = 0;

    /// Whether memories are written before 17 is given.
    const WRITES: bool = false;

    fn is_earlier(refusal: Refusal) -> bool {
        let number = refusal.reason.number();
        number == Self::ALSO || Self::EARLIER.contains(&number)
    }

    /// The numbers of layer memory that are used.
    fn lend(layers: &mut [i64]) -> Result<&mut [i64], Refusal> {
        Ok(first(layers, RIG.numbers))
    }

    /// Gives 17 where no earlier refusal of the same call does without the limits, tried on a copy of a
    /// memory that it writes.
    fn admit<T: Clone, A>(
        table: &[u8],
        memory: &mut [T],
        full: impl FnOnce(&mut [T]) -> Result<A, Refusal>,
    ) -> Result<(), Refusal> {
        let mut tried = memory.to_vec();
        let earlier = full(&mut tried).err().is_some_and(Self::is_earlier);
        if earlier || !Counts::of(table).is_some_and(Self::is_beyond) {
            return Ok(());
        }
        if Self::WRITES {
            memory.clone_from_slice(&tried);
        }
        Err(Reason::BeyondRig.at(Self::PLACE))
    }

    const CALLS: &'static Calls = &Calls {
        read: |table| {
            Self::admit(table, &mut [(); 0], |_| read(table))?;
            read(table)
        },
        block: |table, b| {
            Self::admit(table, &mut [(); 0], |_| block(table, b))?;
            block(table, b)
        },
        normalise: |table, out| {
            Self::admit(table, out, |out| normalise(table, out))?;
            normalise(table, out)
        },
        step: |table, state, mv, out| {
            Self::admit(table, out, |out| step(table, state, mv, out))?;
            step(table, state, mv, out)
        },
        decide: |table, state, layers| {
            Self::admit(table, layers, |layers| decide(table, state, layers))?;
            decide(table, state, Self::lend(layers)?)
        },
        plan: |table, state, layers, out| {
            let tried = &mut out.to_vec();
            Self::admit(table, layers, |layers| plan(table, state, layers, tried))?;
            plan(table, state, Self::lend(layers)?, out)
        },
        ..Calls::NONE
    };
}

/// At most so many numbers.
fn first(layers: &mut [i64], numbers: usize) -> &mut [i64] {
    let used = layers.len().min(numbers);
    &mut layers[..used]
}

/// Wrong rigs, each with what it does otherwise.
macro_rules! rigs {
    ($($name:ident { $($otherwise:item)* })*) => {
        $(
            struct $name;

            impl Rig for $name {
                $($otherwise)*
            }
        )*
    };
}

rigs! {
    BeforeCircles {
        const EARLIER: &'static [u8] = &[1, 2, 3, 4, 5, 6, 16];
    }
    BeforeCommands {
        const EARLIER: &'static [u8] = &[1];
    }
    BeforeIdleMoves {
        const EARLIER: &'static [u8] = &[1, 2, 3, 4, 5, 6, 7];
    }
    BehindLengths {
        const ALSO: u8 = 8;
    }
    BehindStates {
        const ALSO: u8 = 9;
    }
    BehindBlocks {
        const ALSO: u8 = 10;
    }
    BehindConditions {
        const ALSO: u8 = 11;
    }
    BehindOutputs {
        const ALSO: u8 = 13;
    }
    BehindMemory {
        const ALSO: u8 = 14;
    }
    BehindResults {
        const ALSO: u8 = 12;
    }
    BehindValues {
        const ALSO: u8 = 15;
    }
    BeforeHeads {
        fn is_earlier(refusal: Refusal) -> bool {
            refusal != Reason::Misplaced.at(0) && Self::EARLIER.contains(&refusal.reason.number())
        }
    }
    WritesFirst {
        const WRITES: bool = true;
    }
    EightSigned {
        fn is_beyond(head: Counts) -> bool {
            let signed = head.kind == Kind::Normal && head.values > 4;
            signed || head.values > 8 || head.moves > 16
        }
    }
    SixteenWritten {
        fn is_beyond(head: Counts) -> bool {
            head.kind == Kind::Normal && head.values > 8 || head.moves > 16
        }
    }
    FewPropositions {
        fn is_beyond(head: Counts) -> bool {
            head.propositions > 64 || head.values > 8 || head.moves > 16
        }
    }
    SeventeenMoves {
        fn is_beyond(head: Counts) -> bool {
            head.values > 8 || head.moves > 17
        }
    }
    FifteenMoves {
        fn is_beyond(head: Counts) -> bool {
            head.values > 8 || head.moves > 15
        }
    }
    NineVariables {
        fn is_beyond(head: Counts) -> bool {
            head.values > 9 || head.moves > 16
        }
    }
    SevenVariables {
        fn is_beyond(head: Counts) -> bool {
            head.values > 7 || head.moves > 16
        }
    }
    PlaceOfVariables {
        const PLACE: usize = 2;
    }
    PlaceOfMoves {
        const PLACE: usize = 3;
    }
    OneNumberMore {
        fn lend(layers: &mut [i64]) -> Result<&mut [i64], Refusal> {
            Ok(first(layers, 2_049))
        }
    }
    AllNumbers {
        fn lend(layers: &mut [i64]) -> Result<&mut [i64], Refusal> {
            Ok(layers)
        }
    }
    OneNumberLess {
        fn lend(layers: &mut [i64]) -> Result<&mut [i64], Refusal> {
            Ok(first(layers, 2_047))
        }
    }
    WritesBehind {
        fn lend(layers: &mut [i64]) -> Result<&mut [i64], Refusal> {
            layers.iter_mut().skip(2_048).for_each(|number| *number = 0);
            Ok(first(layers, 2_048))
        }
    }
    WritesNext {
        fn lend(layers: &mut [i64]) -> Result<&mut [i64], Refusal> {
            layers.iter_mut().skip(2_048).take(1).for_each(|number| *number = -1);
            Ok(first(layers, 2_048))
        }
    }
    RefusesMore {
        fn lend(layers: &mut [i64]) -> Result<&mut [i64], Refusal> {
            match layers.len() > 2_048 {
                true => Err(Reason::MemoryShort.at(0)),
                false => Ok(layers),
            }
        }
    }
}

#[cfg(test)]
mod tests {
    use super::*;
    use crate::engine::REFERENCE;
    use crate::generate::{rig_calls, Rng};
    use crate::harness::compare;

    rigs! {
        Honest {}
    }

    /// What the impostors are made of gives what the reference gives.
    #[test]
    fn an_honest_rig_is_the_references() {
        let mut rng = Rng::new(811);
        let engine = impostor::<Honest>("", ALL).engine;
        for _ in 0..400 {
            for call in rig_calls(&mut rng, 10) {
                compare(&call, &REFERENCE, &engine).unwrap();
            }
        }
    }
}
