//! Engines that do one thing otherwise than the reference, to test that comparisons find them.

mod blocking;
mod changed;
mod closure;
mod comparisons;
mod helpful;
mod idle_moves;
mod reading;
mod rewrite;
mod rig;
mod schedule;
mod weight_zero;

use self::blocking::BLOCKING;
use crate::answer::{Campaign, Reason, Refusal};
use crate::call::CallKind;
use crate::engine::{Calls, Campaigning, Engine, REFERENCE};
use crate::reference::table::{Change, Comparison, Item};
use crate::reference::{block, decide, normalise, parse_task, pddl, pddl_text, plan, read, step};
use changed::{each, retold};
use closure::{ANSWERS, CHECKS, ORDER, PLACES, PLACING};
use comparisons::COMPARISONS;
use helpful::HELPFUL;
use idle_moves::IDLE_MOVES;
use rewrite::REWRITE;
use rig::RIGS;
use schedule::SCHEDULES;
use weight_zero::WEIGHT_ZERO;

pub use closure::LONG_LISTS;
pub use rewrite::LIMITS;
pub use schedule::{FAULTS, LONG_SCHEDULES, LONG_TABLES};

/// The reference, with listings made of its other calls, as its campaigns are.
pub const HONEST: Calls = Calls {
    listing: Calls::NONE.listing,
    ..REFERENCE
};

pub struct Impostor {
    /// What it does.
    pub trick: &'static str,
    pub engine: Calls,
    /// The calls whose outcomes show it.
    pub kinds: &'static [CallKind],
}

/// Tries each impostor on those kinds of call that show it, and an honest engine on all.
///
/// # Panics
/// If `found` misses an impostor, or takes the honest engine for one.
pub fn check_found(kinds: &[CallKind], found: impl Fn(CallKind, &dyn Engine) -> bool) {
    for kind in kinds {
        assert!(!found(*kind, &HONEST), "honest: {}", kind.name());
    }
    let others = [
        &WEIGHT_ZERO[..],
        &BLOCKING,
        &COMPARISONS,
        &IDLE_MOVES,
        &REWRITE,
        &HELPFUL,
        &RIGS,
        &CHECKS,
        &ORDER,
        &PLACING,
        &ANSWERS,
        &PLACES,
    ];
    let mut missed = Vec::new();
    let others = others.into_iter().chain(SCHEDULES).flatten();
    for impostor in IMPOSTORS.iter().chain(others) {
        for kind in impostor.kinds.iter().filter(|kind| kinds.contains(kind)) {
            if !found(*kind, &impostor.engine) {
                missed.push(format!("{}: {}", impostor.trick, kind.name()));
            }
        }
    }
    assert!(missed.is_empty(), "{missed:#?}");
}

const IMPOSTORS: [Impostor; 22] = [
    Impostor {
        trick: "every count is 1",
        engine: Calls {
            plan: |table, state, layers, out| {
                let plan = plan(table, state, layers, out)?;
                for record in out.chunks_exact_mut(10).take(plan.records as usize) {
                    record[2..].copy_from_slice(&1_u64.to_be_bytes());
                }
                Ok(plan)
            },
            ..HONEST
        },
        kinds: &[CallKind::Plan, CallKind::Campaign, CallKind::Listing],
    },
    Impostor {
        trick: "no records",
        engine: Calls {
            plan: |table, state, layers, out| {
                let mut plan = plan(table, state, layers, out)?;
                plan.records = 0;
                Ok(plan)
            },
            ..HONEST
        },
        kinds: &[CallKind::Plan, CallKind::Campaign, CallKind::Listing],
    },
    Impostor {
        trick: "no helpful moves",
        engine: Calls {
            plan: |table, state, layers, out| {
                let mut plan = plan(table, state, layers, out)?;
                plan.first = 0;
                Ok(plan)
            },
            ..HONEST
        },
        kinds: &[CallKind::Plan, CallKind::Campaign],
    },
    Impostor {
        trick: "layers are 0",
        engine: Calls {
            decide: |table, state, layers| {
                let mut decision = decide(table, state, layers)?;
                decision.layers = 0;
                Ok(decision)
            },
            plan: |table, state, layers, out| {
                let mut plan = plan(table, state, layers, out)?;
                plan.layers = 0;
                Ok(plan)
            },
            ..HONEST
        },
        kinds: &[
            CallKind::Decide,
            CallKind::Plan,
            CallKind::Campaign,
            CallKind::Listing,
        ],
    },
    Impostor {
        trick: "all blocks are refused",
        engine: Calls {
            block: |_, _| Err(Reason::NoSuchBlock.at(0)),
            ..HONEST
        },
        kinds: &[CallKind::Block],
    },
    Impostor {
        trick: "blocks are copied",
        engine: Calls {
            block: |table, b| block(table, b).map(|part| &*part.to_vec().leak()),
            ..HONEST
        },
        kinds: &[CallKind::Block],
    },
    Impostor {
        trick: "the normal form is the table",
        engine: Calls {
            normalise: |table, out| {
                normalise(table, out)?;
                out[..table.len()].copy_from_slice(table);
                Ok(table.len())
            },
            ..HONEST
        },
        kinds: &[CallKind::Normalise, CallKind::Campaign, CallKind::Listing],
    },
    Impostor {
        trick: "a step keeps the state",
        engine: Calls {
            step: |table, state, mv, out| {
                let length = step(table, state, mv, out)?;
                out[..length].copy_from_slice(state);
                Ok(length)
            },
            ..HONEST
        },
        kinds: &[CallKind::Step],
    },
    Impostor {
        trick: "bytes behind the result are written",
        engine: Calls {
            normalise: |table, out| {
                let length = normalise(table, out)?;
                out[length..].fill(0);
                Ok(length)
            },
            step: |table, state, mv, out| {
                let length = step(table, state, mv, out)?;
                out[length..].fill(0);
                Ok(length)
            },
            plan: |table, state, layers, out| {
                let plan = plan(table, state, layers, out)?;
                out[10 * plan.records as usize..].fill(0);
                Ok(plan)
            },
            pddl: |table, state, out| {
                let length = pddl(table, state, out)?;
                out[length..].fill(0);
                Ok(length)
            },
            ..HONEST
        },
        kinds: &[
            CallKind::Normalise,
            CallKind::Step,
            CallKind::Plan,
            CallKind::Campaign,
            CallKind::Pddl,
        ],
    },
    Impostor {
        trick: "a refusal writes the output",
        engine: Calls {
            normalise: |table, out| normalise(table, out).inspect_err(|_| out.fill(0)),
            step: |table, state, mv, out| step(table, state, mv, out).inspect_err(|_| out.fill(0)),
            plan: |table, state, layers, out| {
                plan(table, state, layers, out).inspect_err(|_| out.fill(0))
            },
            pddl: |table, state, out| pddl(table, state, out).inspect_err(|_| out.fill(0)),
            ..HONEST
        },
        kinds: &[
            CallKind::Normalise,
            CallKind::Step,
            CallKind::Plan,
            CallKind::Campaign,
            CallKind::Pddl,
        ],
    },
    Impostor {
        trick: "the number behind the layers is written",
        engine: Calls {
            decide: |table, state, layers| {
                let decision = decide(table, state, layers)?;
                if let Some(last) = layers.last_mut().filter(|last| **last < -999) {
                    *last = 0;
                }
                Ok(decision)
            },
            ..HONEST
        },
        kinds: &[CallKind::Decide, CallKind::Campaign],
    },
    Impostor {
        trick: "every place is 0",
        engine: Calls {
            read: |table| read(table).map_err(at_0),
            decide: |table, state, layers| decide(table, state, layers).map_err(at_0),
            plan: |table, state, layers, out| plan(table, state, layers, out).map_err(at_0),
            pddl: |table, state, out| pddl(table, state, out).map_err(at_0),
            ..HONEST
        },
        kinds: &[
            CallKind::Read,
            CallKind::Decide,
            CallKind::Plan,
            CallKind::Campaign,
            CallKind::Pddl,
        ],
    },
    Impostor {
        trick: "the written table is decided",
        engine: campaigning(|calls, table, state, mut lent| Campaign {
            decision: decide(table, state, lent.again().layers),
            ..(HONEST.campaign)(calls, table, state, lent)
        }),
        kinds: &[CallKind::Campaign],
    },
    Impostor {
        trick: "a refused plan leaves no decision",
        engine: campaigning(|calls, table, state, lent| {
            let campaign = (HONEST.campaign)(calls, table, state, lent);
            Campaign {
                decision: campaign.plan.and(campaign.decision),
                ..campaign
            }
        }),
        kinds: &[CallKind::Campaign],
    },
    Impostor {
        trick: "a refused plan leaves no layers",
        engine: campaigning(|calls, table, state, mut lent| {
            let before = lent.layers.to_vec();
            let campaign = (HONEST.campaign)(calls, table, state, lent.again());
            if campaign.plan.is_err() {
                lent.layers.copy_from_slice(&before);
            }
            campaign
        }),
        kinds: &[CallKind::Campaign],
    },
    Impostor {
        trick: "a refused decision leaves no normal form",
        engine: campaigning(|calls, table, state, mut lent| {
            let before = lent.normal.to_vec();
            let campaign = (HONEST.campaign)(calls, table, state, lent.again());
            if campaign.decision.is_err() {
                lent.normal.copy_from_slice(&before);
            }
            campaign
        }),
        kinds: &[CallKind::Campaign],
    },
    Impostor {
        trick: "the state is checked before the room for the normal form",
        engine: campaigning(|calls, table, state, lent| match parse_task(table, state) {
            Err(refusal) => Campaign::refused(refusal),
            Ok(_) => (HONEST.campaign)(calls, table, state, lent),
        }),
        kinds: &[CallKind::Campaign],
    },
    Impostor {
        trick: "a short output has the text as far as it goes",
        engine: Calls {
            pddl: |table, state, out| {
                let text = pddl_text(table, state)?;
                out.iter_mut().zip(&text).for_each(|(o, byte)| *o = *byte);
                pddl(table, state, out)
            },
            ..HONEST
        },
        kinds: &[CallKind::Pddl],
    },
    Impostor {
        trick: "> is written as >=",
        engine: Calls {
            pddl: |table, state, out| retold(table, state, out, |block| each(block, not_above)),
            ..HONEST
        },
        kinds: &[CallKind::Pddl],
    },
    Impostor {
        trick: "a decrease is written as an increase",
        engine: Calls {
            pddl: |table, state, out| retold(table, state, out, |block| each(block, increasing)),
            ..HONEST
        },
        kinds: &[CallKind::Pddl],
    },
    Impostor {
        trick: "propositions come before sums",
        engine: Calls {
            pddl: |table, state, out| {
                let is_sum = |item: &Item| !matches!(item, Item::Require(_));
                retold(table, state, out, |block| block.items.sort_by_key(is_sum))
            },
            ..HONEST
        },
        kinds: &[CallKind::Pddl],
    },
    Impostor {
        trick: "every text begins in the same state",
        engine: Calls {
            pddl: |table, state, out| {
                pddl_text(table, state)?;
                pddl(table, &vec![0; state.len()], out)
            },
            ..HONEST
        },
        kinds: &[CallKind::Pddl],
    },
];

/// Another `campaign` in an honest engine.
const fn campaigning(campaign: Campaigning) -> Calls {
    Calls { campaign, ..HONEST }
}

fn at_0(refusal: Refusal) -> Refusal {
    refusal.reason.at(0)
}

fn not_above(item: &mut Item) {
    if let Item::Condition(condition) = item {
        if condition.comparison == Comparison::Above {
            condition.comparison = Comparison::AtLeast;
        }
    }
}

fn increasing(item: &mut Item) {
    if let Item::Effect(effect) = item {
        if effect.change == Change::Decrease {
            effect.change = Change::Increase;
        }
    }
}
