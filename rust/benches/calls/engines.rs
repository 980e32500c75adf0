//! The proved engine without the canaries around the numbers that `plan`, `campaign`, `place` and `check`
//! write.

use campaign::answer::{Answer, Campaign, Checked, Placed, Plan, Refusal};
use campaign::engine::{Calls, Lent};
use campaign::proved::{self, raw};

/// With the limits of document 01.
pub const PROVED: Calls = Calls {
    plan: |table, state, layers, out| {
        planned(|records, first| raw::plan(table, state, layers, out, records, first))
    },
    campaign: |_, table, state, lent| campaign(raw::campaign, table, state, lent),
    place: |windows, durations, out| {
        let (mut length, mut place) = (0, 0);
        let end = raw::place(windows, durations, out, &mut length, &mut place)?.into();
        let length = length as usize;
        Ok(Placed { end, length })
    },
    check: |table, state, list, out| {
        let length = raw::check(table, state, list, out, &mut 0)? as usize;
        Ok(Checked::Yes { length })
    },
    ..proved::PROVED
};

/// With the rig's.
pub const PROVED_RIG: Calls = Calls {
    plan: |table, state, layers, out| {
        planned(|records, first| raw::rig::plan(table, state, layers, out, records, first))
    },
    campaign: |_, table, state, lent| campaign(raw::rig::campaign, table, state, lent),
    ..proved::PROVED_RIG
};

/// The numbers of an answer; only whether there is one counts, so that it is taken for layer 0.
fn planned(call: impl FnOnce(&mut u64, &mut u64) -> Result<u32, Refusal>) -> Result<Plan, Refusal> {
    let (mut records, mut first) = (0, 0);
    let layers = call(&mut records, &mut first)?.into();
    Ok(Plan {
        answer: Answer::Layer(0),
        layers,
        records,
        first,
    })
}

type RawCampaign = fn(&[u8], &[u8], Lent, raw::Numbers) -> Result<u32, Refusal>;

fn campaign(call: RawCampaign, table: &[u8], state: &[u8], lent: Lent) -> Campaign {
    let mut decision = 0;
    let plan = planned(|records, first_moves| {
        let numbers = raw::Numbers {
            decision: &mut decision,
            records,
            first_moves,
        };
        call(table, state, lent, numbers)
    });
    Campaign {
        decision: plan.map(Plan::decision),
        plan,
    }
}
