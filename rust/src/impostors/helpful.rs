//! Engines with a fault in plan's set of helpful moves.

use super::{Impostor, HONEST};
use crate::answer::{bits, Answer, Plan, Refusal};
use crate::call::CallKind;
use crate::engine::Calls;
use crate::helpful::{plan_with, FAULTS};
use crate::memory::Memory;
use crate::reference::plan;
use crate::room;

/// The calls that answer the set.
const KINDS: &[CallKind] = &[CallKind::Plan, CallKind::Campaign];

pub const HELPFUL: [Impostor; FAULTS.len() + 1] = [
    faulty::<0>(),
    faulty::<1>(),
    faulty::<2>(),
    faulty::<3>(),
    faulty::<4>(),
    faulty::<5>(),
    faulty::<6>(),
    faulty::<7>(),
    faulty::<8>(),
    faulty::<9>(),
    faulty::<10>(),
    faulty::<11>(),
    faulty::<12>(),
    faulty::<13>(),
    faulty::<14>(),
    faulty::<15>(),
    faulty::<16>(),
    faulty::<17>(),
    faulty::<18>(),
    faulty::<19>(),
    faulty::<20>(),
    faulty::<21>(),
    faulty::<22>(),
    Impostor {
        trick: "\"no plan\" has a set",
        engine: Calls {
            plan: |table, state, layers, out| {
                let mut plan = plan(table, state, layers, out)?;
                if plan.answer == Answer::NoPlan {
                    plan.first = used_in_layer_0(table, layers);
                }
                Ok(plan)
            },
            ..HONEST
        },
        kinds: KINDS,
    },
];

/// An engine with the set of one of the faults.
const fn faulty<const FAULT: usize>() -> Impostor {
    Impostor {
        trick: FAULTS[FAULT].trick,
        engine: Calls {
            plan: planned::<FAULT>,
            ..HONEST
        },
        kinds: KINDS,
    }
}

fn planned<const FAULT: usize>(
    table: &[u8],
    state: &[u8],
    layers: &mut [i64],
    out: &mut [u8],
) -> Result<Plan, Refusal> {
    let plan = plan(table, state, layers, out)?;
    Ok(plan_with(FAULTS[FAULT].set, plan, table, layers))
}

/// The moves whose entry in memory is 0.
fn used_in_layer_0(table: &[u8], layers: &[i64]) -> u64 {
    let memory = Memory::new(room::counts(table), layers, 0);
    let entries = (0..).zip(memory.moves);
    bits(entries.filter(|(_, entry)| **entry == 0).map(|(b, _)| b))
}
