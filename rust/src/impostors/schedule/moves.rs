//! Faults in which moves the entries of a list name, when these may be made, and what they do.

use super::impostor;
use super::rules::{Rules, RULES};
use crate::answer::Fault;
use crate::impostors::Impostor;
use crate::reference::table::{
    Block, Change, Comparison, Condition, Effect, Item, Term, NUMBER_LIMIT,
};
use crate::reference::State;
use crate::schedule::{after, allows, changed, is_met, make};

/// In the names of moves.
pub const NAMES: [Impostor; 15] = [
    ruled!("A names the goal", named: |mv, moves| (mv <= moves).then_some(mv)),
    ruled!("A names the last move", named: |mv, moves| {
        (mv <= moves).then(|| mv.min(moves.saturating_sub(1))).filter(|_| moves > 0)
    }),
    ruled!("moves are named modulo A", named: |mv, moves| mv.checked_rem(moves)),
    ruled!("moves are named modulo 64", named: |mv, moves| Some(mv % 64).filter(|mv| *mv < moves)),
    ruled!("moves are named by seven bits", named: |mv, moves| {
        Some(mv % 128).filter(|mv| *mv < moves)
    }),
    ruled!("moves are named from 1", named: |mv, moves| {
        mv.checked_sub(1).filter(|mv| *mv < moves)
    }),
    ruled!("the last move is missing", named: |mv, moves| (mv + 1 < moves).then_some(mv)),
    ruled!("255 ends the list", entries: |list| {
        list.iter().copied().take_while(|mv| *mv < 255).collect()
    }),
    ruled!("the list is run from its end", entries: |list| list.iter().rev().copied().collect()),
    ruled!("the last entry is left out", entries: |list| {
        list[..list.len().saturating_sub(1)].to_vec()
    }),
    ruled!("a move again at once is made once", entries: |list| {
        let mut once = list.to_vec();
        once.dedup();
        once
    }),
    ruled!("each move is made once", entries: |list| {
        let first = |(at, mv): &(usize, &u8)| !list[..*at].contains(mv);
        let entries = list.iter().enumerate().filter(first);
        entries.map(|(_, mv)| *mv).collect()
    }),
    ruled!("a missing move is passed over", skips: |fault| fault == Fault::Missing),
    ruled!("a move that is not allowed is passed over", skips: |fault| fault == Fault::NotAllowed),
    ruled!("a move out of range is passed over", skips: |fault| fault == Fault::OutOfRange),
];

/// In the conditions of moves.
pub const CONDITIONS: [Impostor; 12] = [
    ruled!("no condition is tested", allows: |_, _| true),
    ruled!("needed propositions are not tested", allows: |block, state| {
        tested(block, state, |item| !matches!(item, Item::Require(_)))
    }),
    ruled!("sums are not tested", allows: |block, state| {
        tested(block, state, |item| matches!(item, Item::Require(_)))
    }),
    ruled!("the first condition only is tested", allows: |block, state| {
        let first = block.items.iter().find(|item| !item.is_change());
        first.is_none_or(|item| is_met(item, state))
    }),
    ruled!("the last condition only is tested", allows: |block, state| {
        let last = block.items.iter().rfind(|item| !item.is_change());
        last.is_none_or(|item| is_met(item, state))
    }),
    ruled!("one condition is enough", allows: |block, state| {
        let mut conditions = block.items.iter().filter(|item| !item.is_change()).peekable();
        conditions.peek().is_none() || conditions.any(|item| is_met(item, state))
    }),
    ruled!("conditions are tested after the move", allows: |block, state| {
        allows(block, &after(block, state))
    }),
    ruled!("> is >=", allows: |block, state| {
        compared(block, state, Comparison::Above, Comparison::AtLeast)
    }),
    ruled!("< is <=", allows: |block, state| {
        compared(block, state, Comparison::Below, Comparison::AtMost)
    }),
    ruled!("= is >=", allows: |block, state| {
        compared(block, state, Comparison::Equal, Comparison::AtLeast)
    }),
    ruled!("weights have no sign", allows: |block, state| {
        let unsigned = |term: &Term| Term { weight: term.weight.abs(), ..*term };
        resummed(block, state, |condition| Condition {
            terms: condition.terms.iter().map(unsigned).collect(),
            ..condition.clone()
        })
    }),
    ruled!("sums have 32 bits", allows: |block, state| {
        resummed(block, state, |condition| {
            let sum = crate::schedule::sum(&condition.terms, state);
            let lost = sum - i128::from(sum as i32);
            Condition {
                constant: condition.constant + lost,
                ..condition.clone()
            }
        })
    }),
];

/// Whether the chosen items are met.
fn tested(block: &Block, state: &State, chosen: fn(&Item) -> bool) -> bool {
    let mut items = block.items.iter().filter(|item| chosen(item));
    items.all(|item| is_met(item, state))
}

/// With one comparison taken for another.
fn compared(block: &Block, state: &State, from: Comparison, to: Comparison) -> bool {
    resummed(block, state, |condition| Condition {
        comparison: match condition.comparison == from {
            true => to,
            false => condition.comparison,
        },
        ..condition.clone()
    })
}

/// With other conditions on sums.
fn resummed(block: &Block, state: &State, other: impl Fn(&Condition) -> Condition) -> bool {
    block.items.iter().all(|item| match item {
        Item::Condition(condition) => is_met(&Item::Condition(other(condition)), state),
        _ => is_met(item, state),
    })
}

/// In what moves do.
pub const EFFECTS: [Impostor; 12] = [
    ruled!("an effect reads another's result", after: |block, state| {
        let mut after = state.clone();
        for item in &block.items {
            make(item, &after.clone(), &mut after);
        }
        after
    }),
    ruled!("deletes are forgotten", after: |block, state| {
        made(block, state, |item| !matches!(item, Item::Delete(_)))
    }),
    ruled!("adds are forgotten", after: |block, state| {
        made(block, state, |item| !matches!(item, Item::Add(_)))
    }),
    ruled!("moves are relaxed", after: |block, state| {
        let mut relaxed = made(block, state, |item| !matches!(item, Item::Delete(_)));
        for (new, old) in relaxed.values.iter_mut().zip(&state.values) {
            *new = *old.max(new);
        }
        relaxed
    }),
    ruled!("the first effect only is made", after: |block, state| {
        let first = block.effects().next();
        some_effect(block, state, first)
    }),
    ruled!("the last effect only is made", after: |block, state| {
        let last = block.effects().last();
        some_effect(block, state, last)
    }),
    ruled!(":= adds", after: |block, state| changing(block, state, |effect| {
        with_change(effect, Change::Assign, Change::Increase)
    })),
    ruled!("-= adds", after: |block, state| changing(block, state, |effect| {
        with_change(effect, Change::Decrease, Change::Increase)
    })),
    ruled!("+= sets", after: |block, state| changing(block, state, |effect| {
        with_change(effect, Change::Increase, Change::Assign)
    })),
    ruled!("effects have no terms", after: |block, state| changing(block, state, |effect| {
        effect.terms.clear();
    })),
    ruled!("effects have no constant", after: |block, state| changing(block, state, |effect| {
        effect.constant = 0;
    })),
    ruled!("values stop at the end of their range", after: |block, state| {
        let mut stopped = after(block, state);
        let stop = |value: &mut i128| *value = (*value).clamp(-NUMBER_LIMIT, NUMBER_LIMIT);
        stopped.values.iter_mut().for_each(stop);
        stopped
    }),
];

/// The state after the chosen items of a move.
fn made(block: &Block, state: &State, chosen: fn(&Item) -> bool) -> State {
    let mut after = state.clone();
    for item in block.items.iter().filter(|item| chosen(item)) {
        make(item, state, &mut after);
    }
    after
}

/// The state after the propositions of a move and one effect.
fn some_effect(block: &Block, state: &State, effect: Option<&Effect>) -> State {
    let mut after = made(block, state, |item| !matches!(item, Item::Effect(_)));
    if let Some(effect) = effect {
        after.values[effect.variable] = changed(effect, state);
    }
    after
}

/// The state after a move with other effects.
fn changing(block: &Block, state: &State, change: impl Fn(&mut Effect)) -> State {
    let mut other = block.clone();
    for item in &mut other.items {
        if let Item::Effect(effect) = item {
            change(effect);
        }
    }
    after(&other, state)
}

fn with_change(effect: &mut Effect, from: Change, to: Change) {
    if effect.change == from {
        effect.change = to;
    }
}
