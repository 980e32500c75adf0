//! The proved engine, called through its C functions.
//!
//! A program links only the functions of the calls that it makes, so a library that lacks
//! some of them still serves the others: see `Calls`.

mod check;
pub mod raw;

pub use check::check;

use crate::answer::{Answer, Blocking, Campaign, Decision, Head, Placed, Plan, Refusal};
use crate::engine::{Calls, Lent};
use crate::guarded::Guarded;

/// The proved engine with all its calls.
pub const PROVED: Calls = Calls {
    read,
    block,
    normalise,
    step,
    decide,
    plan,
    campaign: |_, table, state, lent| campaign(table, state, lent),
    pddl,
    blocking,
    rewrite,
    place,
    check,
    rig: Some(&PROVED_RIG),
    ..Calls::NONE
};

/// Its calls with the rig's limits.
pub const PROVED_RIG: Calls = Calls {
    read: rig::read,
    block: rig::block,
    normalise: rig::normalise,
    step: rig::step,
    decide: rig::decide,
    plan: rig::plan,
    campaign: |_, table, state, lent| rig::campaign(table, state, lent),
    ..Calls::NONE
};

/// Marks "no plan" in the result of `decide` and `plan`.
const NO_PLAN: u32 = 1 << 31;

/// What the two further numbers of plan or place hold before a call; the first also that of check.
const UNWRITTEN: [u64; 2] = [0x0123_4567_89AB_CDEF, 0xFEDC_BA98_7654_3210];

/// What the decision of a campaign holds before it: no call's answer.
const UNDECIDED: u64 = u64::MAX;

/// The calls that the engine has twice, with the limits of document 01 and with the rig's, over the
/// C functions of a module.
macro_rules! calls {
    ($raw:ident) => {
        pub fn read(table: &[u8]) -> Result<Head, Refusal> {
            let [kind, p, v_or_n, a] = $raw::read(table)?.to_be_bytes();
            Ok(Head { kind, p, v_or_n, a })
        }

        /// # Panics
        /// As `copied`.
        pub fn block(table: &[u8], block: u64) -> Result<&[u8], Refusal> {
            copied(table, |out| $raw::block(table, block, out))
        }

        pub fn normalise(table: &[u8], out: &mut [u8]) -> Result<usize, Refusal> {
            $raw::normalise(table, out).map(|length| length as usize)
        }

        pub fn step(table: &[u8], state: &[u8], mv: u64, out: &mut [u8]) -> Result<usize, Refusal> {
            $raw::step(table, state, mv, out).map(|length| length as usize)
        }

        pub fn decide(table: &[u8], state: &[u8], layers: &mut [i64]) -> Result<Decision, Refusal> {
            $raw::decide(table, state, layers).map(decision)
        }

        /// # Panics
        /// If a refusal wrote one of the two further numbers, or a canary beside them changed.
        pub fn plan(
            table: &[u8],
            state: &[u8],
            layers: &mut [i64],
            out: &mut [u8],
        ) -> Result<Plan, Refusal> {
            planned(|records, first| $raw::plan(table, state, layers, out, records, first))
        }

        /// # Panics
        /// As `plan`, for the decision's number too, and if that is not written.
        pub fn campaign(table: &[u8], state: &[u8], lent: Lent) -> Campaign {
            both(|numbers| $raw::campaign(table, state, lent, numbers))
        }
    };
}

calls!(raw);

/// With the rig's limits.
pub mod rig {
    use super::raw::rig;
    use super::{both, copied, decision, planned};
    use crate::answer::{Campaign, Decision, Head, Plan, Refusal};
    use crate::engine::Lent;

    calls!(rig);
}

pub fn pddl(table: &[u8], state: &[u8], out: &mut [u8]) -> Result<usize, Refusal> {
    raw::pddl(table, state, out).map(|length| length as usize)
}

pub fn blocking(table: &[u8], state: &[u8], layers: &mut [i64]) -> Result<Blocking, Refusal> {
    raw::blocking(table, state, layers).map(blocked)
}

pub fn rewrite(table: &[u8], out: &mut [u8]) -> Result<usize, Refusal> {
    raw::rewrite(table, out).map(|length| length as usize)
}

/// # Panics
/// As `placed`.
pub fn place(windows: &[u8], durations: &[u8], out: &mut [u8]) -> Result<Placed, Refusal> {
    placed(|length, place| raw::place(windows, durations, out, length, place))
}

/// The library copies a block's bytes; the part of the table that has them is handed back.
///
/// # Panics
/// If no part of the table has them, or if a byte of the copy's memory that is to be kept
/// changed.
fn copied(
    table: &[u8],
    call: impl FnOnce(&mut [u8]) -> Result<u32, Refusal>,
) -> Result<&[u8], Refusal> {
    let mut out = Guarded::filled(table.len() + 1, |i| !(i as u8));
    let answer = call(out.lend());
    out.check("copy of the block")
        .expect("all canaries are whole");
    let length = answer.map_or(0, |length| length as usize);
    let (part, behind) = out.lent().split_at(length);
    assert!((length..).zip(behind).all(|(i, byte)| *byte == !(i as u8)));
    answer?;
    let place = (0..=table.len() - length).find(|at| table[*at..].starts_with(part));
    let place = place.expect("a block is a part of its table");
    Ok(&table[place..place + length])
}

/// No part stands at offset 0, so 0 is free to say that nothing blocks.
fn blocked(result: u32) -> Blocking {
    match u64::from(result) {
        0 => Blocking::Nothing,
        offset => Blocking::Blocks { offset },
    }
}

/// Plan's answer from a call that is lent the two further numbers.
fn planned(call: impl FnOnce(&mut u64, &mut u64) -> Result<u32, Refusal>) -> Result<Plan, Refusal> {
    let [mut records, mut first] = UNWRITTEN.map(|number| Guarded::holding(&[number]));
    let answer = call(&mut records.lend()[0], &mut first.lend()[0]);
    let numbers = [&records, &first].map(number);
    assert!(
        answer.is_ok() || numbers == UNWRITTEN,
        "a refusal wrote a number"
    );
    Ok(decision(answer?).with_plan(numbers[0], numbers[1]))
}

/// Place's answer from a call that is lent the two further numbers, of which an answer writes the
/// length and a refusal its place.
///
/// # Panics
/// If the other number is written, a canary beside them changed, or a refusal has a place in its
/// result.
fn placed(
    call: impl FnOnce(&mut u64, &mut u64) -> Result<u32, Refusal>,
) -> Result<Placed, Refusal> {
    let [mut length, mut place] = UNWRITTEN.map(|number| Guarded::holding(&[number]));
    let answer = call(&mut length.lend()[0], &mut place.lend()[0]);
    let [length, place] = [&length, &place].map(number);
    match answer {
        Ok(end) => {
            assert_eq!(place, UNWRITTEN[1], "an answer wrote a place");
            Ok(Placed {
                end: u64::from(end),
                length: length as usize,
            })
        }
        Err(refusal) => {
            assert_eq!(length, UNWRITTEN[0], "a refusal wrote a length");
            assert_eq!(refusal.place, 0, "the result of a refusal is 0");
            Err(Refusal { place, ..refusal })
        }
    }
}

/// Decide's and plan's answers from a call that is lent all three numbers.
fn both(call: impl FnOnce(raw::Numbers) -> Result<u32, Refusal>) -> Campaign {
    let mut decided = Guarded::holding(&[UNDECIDED]);
    let plan = planned(|records, first_moves| {
        call(raw::Numbers {
            decision: &mut decided.lend()[0],
            records,
            first_moves,
        })
    });
    Campaign {
        decision: raw::answered(number(&decided)).map(decision),
        plan,
    }
}

/// A lent number after a call.
fn number(lent: &Guarded<u64>) -> u64 {
    lent.check("a number").expect("all canaries are whole");
    lent.lent()[0]
}

fn decision(result: u32) -> Decision {
    let layers = u64::from(result & !NO_PLAN);
    let answer = match result & NO_PLAN {
        0 => Answer::Layer(layers),
        _ => Answer::NoPlan,
    };
    Decision { answer, layers }
}

#[cfg(test)]
mod tests {
    use super::*;
    use crate::answer::Reason;

    pub(super) const REFUSED: Result<u32, Refusal> = Err(Refusal {
        reason: Reason::OutputShort,
        place: 0,
    });

    #[test]
    fn numbers_are_taken_from_a_campaign() {
        let campaign = both(|numbers| {
            *numbers.decision = 2;
            REFUSED
        });
        assert_eq!(campaign.decision, Ok(decision(2)));
        assert_eq!(campaign.plan, REFUSED.map(|_| unreachable!()));
    }

    #[test]
    #[should_panic(expected = "a refusal wrote a number")]
    fn records_written_by_a_refusal_are_found() {
        both(|numbers| {
            *numbers.decision = 2;
            *numbers.records = 3;
            REFUSED
        });
    }

    #[test]
    #[should_panic(expected = "refusal 4294967295 is unknown")]
    fn an_unwritten_decision_is_found() {
        both(|_| REFUSED);
    }

    #[test]
    fn numbers_are_taken_from_a_placement() {
        let answer = placed(|length, _| {
            *length = 12;
            Ok(961)
        });
        let expected = Placed {
            end: 961,
            length: 12,
        };
        assert_eq!(answer, Ok(expected));
        let answer = placed(|_, place| {
            *place = 1 << 40;
            REFUSED
        });
        assert_eq!(answer, Err(Reason::OutputShort.at(1 << 40)));
    }

    #[test]
    #[should_panic(expected = "an answer wrote a place")]
    fn a_place_written_by_an_answer_is_found() {
        let _ = placed(|length, place| {
            (*length, *place) = (4, 0);
            Ok(1)
        });
    }

    #[test]
    #[should_panic(expected = "a refusal wrote a length")]
    fn a_length_written_by_a_refusal_is_found() {
        let _ = placed(|length, place| {
            (*length, *place) = (0, 0);
            REFUSED
        });
    }

    #[test]
    #[should_panic(expected = "the result of a refusal is 0")]
    fn a_place_in_the_result_of_a_refusal_is_found() {
        let _ = placed(|_, place| {
            *place = 3;
            Err(Reason::NoPlacement.at(3))
        });
    }

    #[test]
    fn the_part_that_blocks_is_taken_from_its_number() {
        assert_eq!(blocked(0), Blocking::Nothing);
        assert_eq!(blocked(5), Blocking::Blocks { offset: 5 });
    }

    #[test]
    fn decisions_are_taken_apart() {
        assert_eq!(
            decision(7),
            Decision {
                answer: Answer::Layer(7),
                layers: 7
            }
        );
        assert_eq!(
            decision(NO_PLAN + 7),
            Decision {
                answer: Answer::NoPlan,
                layers: 7
            }
        );
    }
}
